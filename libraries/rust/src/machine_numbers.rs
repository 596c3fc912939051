//! The numbers of `bootkeep-linux.h`, under its names without `BOOTKEEP_MACHINE_`. Those of faults are in `machine`.

/// The version of the interface that this crate is for.
pub const VERSION: u32 = 1;

pub(crate) const SYSTEM: u32 = 0x0100;
pub(crate) const BUSY: u32 = 0x0101;
pub(crate) const TAKEN_BACK: u32 = 0x0102;
pub(crate) const UNSETTLED: u32 = 0x0103;
pub(crate) const UNMET: u32 = 0x0104;
pub(crate) const CHANGED: u32 = 0x0105;

pub(crate) const AT_NONE: u32 = 0;
pub(crate) const AT_STATE: u32 = 1;
pub(crate) const AT_VARIABLES: u32 = 2;
pub(crate) const AT_NAME: u32 = 3;
pub(crate) const AT_JOURNAL: u32 = 4;
pub(crate) const AT_SETTLING: u32 = 5;
pub(crate) const AT_RUN: u32 = 6;
pub(crate) const AT_RECORD: u32 = 7;
pub(crate) const AT_CHANGE: u32 = 8;
pub(crate) const AT_LOADER: u32 = 9;

pub(crate) const LEFT_NOTHING: u32 = 0;
pub(crate) const LEFT_TAKEN_BACK: u32 = 1;
pub(crate) const LEFT_OWED: u32 = 2;
pub(crate) const LEFT_UNSURE: u32 = 3;

pub(crate) const PLACE_FOLDER: u32 = 1;
pub(crate) const PLACE_FILE: u32 = 2;

pub(crate) const ADOPT: u32 = 0x01;
pub(crate) const NO_RECORD: u32 = 0x02;

pub(crate) const DRY_RUN: u32 = 0x01;
pub(crate) const AGAIN: u32 = 0x02;
pub(crate) const STALE: u32 = 0x04;
pub(crate) const ONLY: u32 = 0x08;
pub(crate) const FORCE: u32 = 0x10;
pub(crate) const EMPTY: u32 = 0x20;

pub(crate) const EXPECTS_JOURNAL: u32 = 0x01;
pub(crate) const EXPECTS_NO_JOURNAL: u32 = 0x02;
pub(crate) const EXPECTS_NUMBER: u32 = 0x04;
pub(crate) const EXPECTS_ORDER: u32 = 0x08;
pub(crate) const EXPECTS_NO_ORDER: u32 = 0x10;
