//! The numbers of `bootkeep.h`, under its names without `BOOTKEEP_`. Those of faults are in the module `error`.

/// The version of the interface that this crate is for.
pub const VERSION: u32 = 1;

/// No request has this number.
pub const NO_NUMBER: u32 = 0xffff_ffff;

/// The most bytes of a frame.
pub const FRAME_MAX: usize = 131_084;
/// The most bytes of the name of a variable.
pub const NAME_MAX: usize = 64;
/// The most bytes of the data of a variable.
pub const DATA_MAX: usize = 1_048_576;
/// The most bytes of the list of device paths of a load option.
pub const LIST_MAX: usize = 65_535;
/// The most numbers of a BootOrder, and so of a plan.
pub const ORDER_MAX: usize = 65_536;
/// The most bytes of a word.
pub const WORD_MAX: usize = 32;
/// The most bytes of the name of a machine.
pub const MACHINE_MAX: usize = 4_096;
/// How many bytes the identity in notes has.
pub const IDENTITY_LEN: usize = 16;
/// The most bytes of notes.
pub const NOTES_MAX: usize = 1_557;

pub(crate) const DONE: u32 = 0;
pub(crate) const REFUSED: u32 = 1;
pub(crate) const NO_ROOM: u32 = 2;
pub(crate) const ABSENT: u32 = 3;
pub(crate) const NO_MEMORY: u32 = 4;
pub(crate) const CLOSED: u32 = 5;

pub(crate) const NO_KIND: u32 = 0;
pub(crate) const NO_PLACE: usize = usize::MAX;
pub(crate) const NO_ENTRY: u32 = 0x0001_0000;

pub(crate) const VARIABLE_ORDER: u32 = 0x0001_0001;
pub(crate) const VARIABLE_NEXT: u32 = 0x0001_0002;
pub(crate) const VARIABLE_TIMEOUT: u32 = 0x0001_0003;

pub(crate) const CHANGE_ADDED: u32 = 1;
pub(crate) const CHANGE_REPLACED: u32 = 2;
pub(crate) const CHANGE_REMOVED: u32 = 3;

pub(crate) const ENTRY_NORMAL: u32 = 0;
pub(crate) const ENTRY_ABSENT: u32 = 1;
pub(crate) const ENTRY_UNDECODABLE: u32 = 2;
pub(crate) const ENTRY_INACTIVE: u32 = 3;
pub(crate) const ENTRY_OTHER_CATEGORY: u32 = 4;

pub(crate) const EDIT_ADD: u32 = 1;
pub(crate) const EDIT_REMOVE: u32 = 2;
pub(crate) const EDIT_FIRST: u32 = 3;
pub(crate) const EDIT_ORDER: u32 = 4;
pub(crate) const EDIT_UNREPEAT: u32 = 5;
pub(crate) const EDIT_NEXT: u32 = 6;
pub(crate) const EDIT_TIMEOUT: u32 = 7;
pub(crate) const EDIT_ACTIVATE: u32 = 8;
pub(crate) const EDIT_DEACTIVATE: u32 = 9;

pub(crate) const POSITION_LAST: u32 = 0;
pub(crate) const POSITION_FIRST: u32 = 1;
pub(crate) const POSITION_NONE: u32 = 2;

pub(crate) const EDITED_DONE: u32 = 0;
pub(crate) const EDITED_ADDED: u32 = 1;
pub(crate) const EDITED_PRESENT: u32 = 2;

pub(crate) const REQUEST_ADD: u32 = 1;
pub(crate) const REQUEST_REPLACE: u32 = 2;
pub(crate) const REQUEST_REMOVE: u32 = 3;
pub(crate) const REQUEST_ORDER: u32 = 4;
pub(crate) const REQUEST_NEXT: u32 = 5;
pub(crate) const REQUEST_ADD_FREE: u32 = 6;
pub(crate) const REQUEST_ADD_FIRST: u32 = 7;
pub(crate) const REQUEST_FIRST: u32 = 8;

pub(crate) const REPLY_MALFORMED: u32 = 1;
pub(crate) const REPLY_REPEAT: u32 = 2;
pub(crate) const REPLY_OLD: u32 = 3;
pub(crate) const REPLY_AHEAD: u32 = 4;
pub(crate) const REPLY_CONFLICT: u32 = 5;
pub(crate) const REPLY_WAITING: u32 = 6;
pub(crate) const REPLY_APPLIED: u32 = 7;
pub(crate) const REPLY_PREPARED: u32 = 8;
pub(crate) const REPLY_ALREADY_PREPARED: u32 = 9;
pub(crate) const REPLY_PLAN: u32 = 10;
pub(crate) const REPLY_NOTHING_PREPARED: u32 = 11;
pub(crate) const REPLY_RESTARTED: u32 = 12;

pub(crate) const OUTCOME_DONE: u32 = 1;
pub(crate) const OUTCOME_EXISTS: u32 = 2;
pub(crate) const OUTCOME_MISSING: u32 = 3;
pub(crate) const OUTCOME_ORDER_REPEATS: u32 = 4;
pub(crate) const OUTCOME_ORDER_UNKNOWN: u32 = 5;
pub(crate) const OUTCOME_NO_FREE: u32 = 6;

pub(crate) const STAGE_BOOT_MANAGER: u32 = 0;
pub(crate) const STAGE_LOADER: u32 = 1;
pub(crate) const STAGE_START: u32 = 2;

pub(crate) const EFFECT_REFUSED: u32 = 0;
pub(crate) const EFFECT_UNSAFE: u32 = 1;
pub(crate) const EFFECT_UNDECIDED: u32 = 2;

pub(crate) const MOVE_NONE: u32 = 0;
pub(crate) const MOVE_SET: u32 = 1;
pub(crate) const MOVE_DELETE: u32 = 2;
pub(crate) const MOVE_JOURNAL: u32 = 3;

pub(crate) const BECAME_DONE: u32 = 0;
pub(crate) const BECAME_REFUSED: u32 = 1;
pub(crate) const BECAME_PERHAPS: u32 = 2;

pub(crate) const END_DONE: u32 = 1;
pub(crate) const END_NOT_RUN: u32 = 2;
pub(crate) const END_NOT_SETTLED: u32 = 3;
pub(crate) const END_RUN_REFUSED: u32 = 4;
pub(crate) const END_TAKEN_BACK: u32 = 5;
pub(crate) const END_UNSETTLED: u32 = 6;
pub(crate) const END_NO_MEMORY: u32 = 7;

pub(crate) const SAME_UNKNOWN: u32 = 0;
pub(crate) const SAME_YES: u32 = 1;
pub(crate) const SAME_NO: u32 = 2;

pub(crate) const STANDING_UNCHANGED: u32 = 0;
pub(crate) const STANDING_NOT_MADE: u32 = 1;
pub(crate) const STANDING_CHANGED: u32 = 2;
