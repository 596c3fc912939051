//! The calls of `bootkeep.h`, each once, and two of the system, as safe functions. All that is unsafe is here.

use crate::error::{Error, Refusal};
use crate::numbers::{ABSENT, CLOSED, DONE, IDENTITY_LEN, NAME_MAX, NOTES_MAX, NO_MEMORY, NO_ROOM, REFUSED};
use std::fs::File;
use std::io;
use std::mem::size_of;
use std::os::raw::{c_int, c_uint};
use std::os::unix::io::AsRawFd;
use std::ptr;

/// How many bytes or numbers a first call has room for if nothing tells how many there will be.
const ROOM: usize = 512;

/// The most bytes that a set has for a variable beside its data.
const RECORD_MAX: usize = 1 + NAME_MAX + 4;

#[repr(C)]
#[derive(Clone, Copy, Debug, Default)]
pub(crate) struct RawRefusal {
    pub(crate) kind: u32,
    pub(crate) inner_kind: u32,
    pub(crate) place: usize,
    pub(crate) inner_place: usize,
}

#[repr(C)]
#[derive(Clone, Copy, Default)]
pub(crate) struct RawParts {
    pub(crate) attributes: u32,
    reserved: u32,
    pub(crate) description: usize,
    pub(crate) description_len: usize,
    pub(crate) list: usize,
    pub(crate) list_len: usize,
    pub(crate) optional: usize,
    pub(crate) optional_len: usize,
}

#[repr(C)]
#[derive(Clone, Copy, Default)]
pub(crate) struct RawFrame {
    size: usize,
    pub(crate) number: u32,
    pub(crate) kind: u32,
    pub(crate) entry: u32,
    reserved: u32,
    pub(crate) option: usize,
    pub(crate) option_len: usize,
}

#[repr(C)]
#[derive(Clone, Copy, Default)]
pub(crate) struct RawVariable {
    pub(crate) name: usize,
    pub(crate) name_len: usize,
    pub(crate) data: usize,
    pub(crate) data_len: usize,
}

#[repr(C)]
#[derive(Clone, Copy, Default)]
pub(crate) struct RawList {
    pub(crate) place: usize,
    pub(crate) len: usize,
    pub(crate) header_len: usize,
    pub(crate) signature_len: usize,
}

#[repr(C)]
#[derive(Clone, Copy, Default)]
pub(crate) struct RawNamed {
    pub(crate) variable: u32,
    pub(crate) number: u32,
    pub(crate) state: u32,
}

#[repr(C)]
#[derive(Clone, Copy, Default)]
pub(crate) struct RawChange {
    pub(crate) variable: u32,
    pub(crate) kind: u32,
}

#[repr(C)]
#[derive(Clone, Copy, Debug, Default)]
pub(crate) struct RawReply {
    size: usize,
    pub(crate) kind: u32,
    pub(crate) fault: u32,
    pub(crate) option_fault: RawRefusal,
    pub(crate) outcome: u32,
    pub(crate) entry: u32,
    pub(crate) next_number: u32,
    pub(crate) plan_next: u32,
    pub(crate) count: usize,
}

#[cfg(feature = "machine")]
impl RawReply {
    /// One that a call can fill.
    pub(crate) fn new() -> RawReply {
        RawReply { size: size_of::<RawReply>(), ..RawReply::default() }
    }
}

/// `struct bootkeep_keeper`. It isn't moved while it is open, so it is in a box.
#[repr(C)]
struct RawKeeper {
    is_open: u32,
    at: *mut u8,
}

/// `struct bootkeep_moves`. It isn't moved while it is open, so it is in a box.
#[repr(C)]
struct RawMoves {
    is_open: u32,
    at: *mut u8,
}

#[repr(C)]
#[derive(Clone, Copy, Default)]
pub(crate) struct RawEnd {
    size: usize,
    pub(crate) kind: u32,
    pub(crate) reason: u32,
    pub(crate) second_reason: u32,
    pub(crate) fault: u32,
    pub(crate) replies: usize,
    pub(crate) edited: u32,
    pub(crate) entry: u32,
}

#[repr(C)]
#[derive(Clone, Copy)]
pub(crate) struct RawEdit {
    pub(crate) size: usize,
    pub(crate) kind: u32,
    pub(crate) number: u32,
    pub(crate) position: u32,
    pub(crate) again: u32,
    pub(crate) stale: u32,
    pub(crate) only: u32,
}

impl RawEdit {
    /// An edit of this kind with this number, and no more.
    pub(crate) fn new(kind: u32, number: u32) -> RawEdit {
        RawEdit { size: size_of::<RawEdit>(), kind, number, position: 0, again: 0, stale: 0, only: 0 }
    }
}

#[repr(C)]
#[derive(Clone, Copy, Default)]
pub(crate) struct RawEdited {
    size: usize,
    pub(crate) kind: u32,
    pub(crate) entry: u32,
}

#[repr(C)]
#[derive(Clone, Copy, Default)]
pub(crate) struct RawRecordParts {
    size: usize,
    pub(crate) machine: usize,
    pub(crate) machine_len: usize,
    pub(crate) time: u64,
    pub(crate) before: usize,
    pub(crate) before_len: usize,
    pub(crate) after: usize,
    pub(crate) after_len: usize,
    pub(crate) words: usize,
}

// As many bytes as the header asserts.
const _: () = assert!(size_of::<RawRefusal>() == 24);
const _: () = assert!(size_of::<RawParts>() == 56);
const _: () = assert!(size_of::<RawFrame>() == 40);
const _: () = assert!(size_of::<RawVariable>() == 32);
const _: () = assert!(size_of::<RawList>() == 32);
const _: () = assert!(size_of::<RawNamed>() == 12);
const _: () = assert!(size_of::<RawChange>() == 8);
const _: () = assert!(size_of::<RawEdit>() == 32);
const _: () = assert!(size_of::<RawEdited>() == 16);
const _: () = assert!(size_of::<RawReply>() == 64);
const _: () = assert!(size_of::<RawKeeper>() == 16);
const _: () = assert!(size_of::<RawMoves>() == 16);
const _: () = assert!(size_of::<RawEnd>() == 40);
const _: () = assert!(size_of::<RawRecordParts>() == 72);

#[rustfmt::skip]
extern "C" {
    fn bootkeep_version() -> u32;
    fn bootkeep_status_word(status: u32, out: *mut u8, cap: usize, len: *mut usize) -> u32;
    fn bootkeep_refusal_word(kind: u32, out: *mut u8, cap: usize, len: *mut usize) -> u32;
    fn bootkeep_outcome_word(outcome: u32, out: *mut u8, cap: usize, len: *mut usize) -> u32;
    fn bootkeep_path_text(bytes: *const u8, bytes_len: usize, out: *mut u8, cap: usize, len: *mut usize, taken: *mut usize, refusal: *mut RawRefusal) -> u32;
    fn bootkeep_path_names(bytes: *const u8, bytes_len: usize, out: *mut u8, cap: usize, len: *mut usize, taken: *mut usize, refusal: *mut RawRefusal) -> u32;
    fn bootkeep_path_check(bytes: *const u8, bytes_len: usize, taken: *mut usize, refusal: *mut RawRefusal) -> u32;
    fn bootkeep_path_parse(text: *const u8, text_len: usize, out: *mut u8, cap: usize, len: *mut usize, refusal: *mut RawRefusal) -> u32;
    fn bootkeep_path_parse_exact(text: *const u8, text_len: usize, out: *mut u8, cap: usize, len: *mut usize, refusal: *mut RawRefusal) -> u32;
    fn bootkeep_option_parts(bytes: *const u8, bytes_len: usize, parts: *mut RawParts, refusal: *mut RawRefusal) -> u32;
    fn bootkeep_option_description(bytes: *const u8, bytes_len: usize, out: *mut u8, cap: usize, len: *mut usize, refusal: *mut RawRefusal) -> u32;
    fn bootkeep_option_description_utf8(bytes: *const u8, bytes_len: usize, out: *mut u8, cap: usize, len: *mut usize, refusal: *mut RawRefusal) -> u32;
    fn bootkeep_option_make(attributes: u32, description: *const u8, description_len: usize, list: *const u8, list_len: usize, optional: *const u8, optional_len: usize, out: *mut u8, cap: usize, len: *mut usize, refusal: *mut RawRefusal) -> u32;
    fn bootkeep_option_make_units(attributes: u32, units: *const u16, units_len: usize, list: *const u8, list_len: usize, optional: *const u8, optional_len: usize, out: *mut u8, cap: usize, len: *mut usize, refusal: *mut RawRefusal) -> u32;
    fn bootkeep_frame_make(number: u32, kind: u32, entry: u16, option: *const u8, option_len: usize, order: *const u16, order_len: usize, out: *mut u8, cap: usize, len: *mut usize, refusal: *mut RawRefusal) -> u32;
    fn bootkeep_frame_parts(frame: *const u8, frame_len: usize, parts: *mut RawFrame, numbers: *mut u16, cap: usize, len: *mut usize, refusal: *mut RawRefusal) -> u32;
    fn bootkeep_vars_plan(set: *const u8, set_len: usize, numbers: *mut u16, cap: usize, len: *mut usize, next: *mut u32, refusal: *mut RawRefusal) -> u32;
    fn bootkeep_vars_at_risk(set: *const u8, set_len: usize, numbers: *mut u16, cap: usize, len: *mut usize, unnamed: *mut usize, refusal: *mut RawRefusal) -> u32;
    fn bootkeep_vars_get(set: *const u8, set_len: usize, name: *const u8, name_len: usize, out: *mut u8, cap: usize, len: *mut usize, refusal: *mut RawRefusal) -> u32;
    fn bootkeep_vars_put(set: *const u8, set_len: usize, name: *const u8, name_len: usize, data: *const u8, data_len: usize, out: *mut u8, cap: usize, len: *mut usize, refusal: *mut RawRefusal) -> u32;
    fn bootkeep_vars_remove(set: *const u8, set_len: usize, name: *const u8, name_len: usize, out: *mut u8, cap: usize, len: *mut usize, refusal: *mut RawRefusal) -> u32;
    fn bootkeep_vars_list(set: *const u8, set_len: usize, variables: *mut RawVariable, cap: usize, item_size: usize, len: *mut usize, refusal: *mut RawRefusal) -> u32;
    fn bootkeep_vars_named(set: *const u8, set_len: usize, named: *mut RawNamed, cap: usize, item_size: usize, len: *mut usize, refusal: *mut RawRefusal) -> u32;
    fn bootkeep_vars_lowest_free(set: *const u8, set_len: usize, number: *mut u32, refusal: *mut RawRefusal) -> u32;
    fn bootkeep_vars_entry(set: *const u8, set_len: usize, number: u16, state: *mut u32, refusal: *mut RawRefusal) -> u32;
    fn bootkeep_vars_changes(from: *const u8, from_len: usize, to: *const u8, to_len: usize, changes: *mut RawChange, cap: usize, item_size: usize, len: *mut usize, refusal: *mut RawRefusal) -> u32;
    fn bootkeep_vars_edit(edit: *const RawEdit, numbers: *const u16, numbers_len: usize, option: *const u8, option_len: usize, set: *const u8, set_len: usize, out: *mut u8, cap: usize, len: *mut usize, edited: *mut RawEdited, refusal: *mut RawRefusal) -> u32;
    fn bootkeep_run(set: *const u8, set_len: usize, stream: *const u8, stream_len: usize, set_out: *mut u8, set_cap: usize, set_len_out: *mut usize, lines: *mut u8, lines_cap: usize, lines_len: *mut usize, refusal: *mut RawRefusal) -> u32;
    fn bootkeep_keeper_open(keeper: *mut RawKeeper, set: *const u8, set_len: usize, refusal: *mut RawRefusal) -> u32;
    fn bootkeep_keeper_deliver_reply(keeper: *mut RawKeeper, frame: *const u8, frame_len: usize, reply: *mut RawReply, numbers: *mut u16, cap: usize, len: *mut usize) -> u32;
    fn bootkeep_keeper_prepare_reply(keeper: *mut RawKeeper, reply: *mut RawReply, numbers: *mut u16, cap: usize, len: *mut usize) -> u32;
    fn bootkeep_keeper_hand_reply(keeper: *mut RawKeeper, reply: *mut RawReply, numbers: *mut u16, cap: usize, len: *mut usize) -> u32;
    fn bootkeep_keeper_restart_reply(keeper: *mut RawKeeper, reply: *mut RawReply, numbers: *mut u16, cap: usize, len: *mut usize) -> u32;
    fn bootkeep_keeper_set(keeper: *mut RawKeeper, out: *mut u8, cap: usize, len: *mut usize) -> u32;
    fn bootkeep_keeper_next_number(keeper: *mut RawKeeper, number: *mut u32) -> u32;
    fn bootkeep_keeper_close(keeper: *mut RawKeeper) -> u32;
    fn bootkeep_moves_requests(moves: *mut RawMoves, machine: *const u8, machine_len: usize, start: *const u8, start_len: usize, variables: *const u8, variables_len: usize, journal: *const u8, journal_len: usize, stream: *const u8, stream_len: usize, refusal: *mut RawRefusal) -> u32;
    fn bootkeep_moves_edit(moves: *mut RawMoves, machine: *const u8, machine_len: usize, start: *const u8, start_len: usize, variables: *const u8, variables_len: usize, journal: *const u8, journal_len: usize, edit: *const RawEdit, numbers: *const u16, numbers_len: usize, option: *const u8, option_len: usize, refusal: *mut RawRefusal) -> u32;
    fn bootkeep_moves_restore(moves: *mut RawMoves, machine: *const u8, machine_len: usize, start: *const u8, start_len: usize, variables: *const u8, variables_len: usize, journal: *const u8, journal_len: usize, back: *const u8, back_len: usize, refusal: *mut RawRefusal) -> u32;
    fn bootkeep_moves_settle(moves: *mut RawMoves, machine: *const u8, machine_len: usize, start: *const u8, start_len: usize, variables: *const u8, variables_len: usize, journal: *const u8, journal_len: usize, refusal: *mut RawRefusal) -> u32;
    fn bootkeep_moves_next(moves: *mut RawMoves, kind: *mut u32) -> u32;
    fn bootkeep_moves_name(moves: *mut RawMoves, out: *mut u8, cap: usize, len: *mut usize) -> u32;
    fn bootkeep_moves_bytes(moves: *mut RawMoves, out: *mut u8, cap: usize, len: *mut usize) -> u32;
    fn bootkeep_moves_tell(moves: *mut RawMoves, became: u32, reason: u32) -> u32;
    fn bootkeep_moves_end(moves: *mut RawMoves, end: *mut RawEnd) -> u32;
    fn bootkeep_moves_reply(moves: *mut RawMoves, place: usize, reply: *mut RawReply) -> u32;
    fn bootkeep_moves_close(moves: *mut RawMoves) -> u32;
    fn bootkeep_journal_is_idle(journal: *const u8, journal_len: usize, idle: *mut u32, refusal: *mut RawRefusal) -> u32;
    fn bootkeep_notes_len(notes: *const u8, notes_len: usize, taken: *mut usize, refusal: *mut RawRefusal) -> u32;
    fn bootkeep_notes_make(identity: *const u8, identity_len: usize, out: *mut u8, cap: usize, len: *mut usize, refusal: *mut RawRefusal) -> u32;
    fn bootkeep_notes_identity(notes: *const u8, notes_len: usize, out: *mut u8, cap: usize, len: *mut usize, refusal: *mut RawRefusal) -> u32;
    fn bootkeep_moves_notes(moves: *mut RawMoves, notes: *const u8, notes_len: usize, out: *mut u8, cap: usize, len: *mut usize, refusal: *mut RawRefusal) -> u32;
    fn bootkeep_moves_same(moves: *mut RawMoves, notes: *const u8, notes_len: usize, place: usize, same: *mut u32, refusal: *mut RawRefusal) -> u32;
    fn bootkeep_record_make(machine: *const u8, machine_len: usize, time: u64, before: *const u8, before_len: usize, after: *const u8, after_len: usize, words: *const u8, words_len: usize, out: *mut u8, cap: usize, len: *mut usize, refusal: *mut RawRefusal) -> u32;
    fn bootkeep_record_parts(record: *const u8, record_len: usize, parts: *mut RawRecordParts, refusal: *mut RawRefusal) -> u32;
    fn bootkeep_record_word(record: *const u8, record_len: usize, number: usize, out: *mut u8, cap: usize, len: *mut usize, refusal: *mut RawRefusal) -> u32;
    fn bootkeep_record_standing(record: *const u8, record_len: usize, variables: *const u8, variables_len: usize, standing: *mut u32, refusal: *mut RawRefusal) -> u32;
    fn bootkeep_record_back(record: *const u8, record_len: usize, variables: *const u8, variables_len: usize, out: *mut u8, cap: usize, len: *mut usize, refusal: *mut RawRefusal) -> u32;
    fn bootkeep_store_vars(file: *const u8, file_len: usize, out: *mut u8, cap: usize, len: *mut usize, refusal: *mut RawRefusal) -> u32;
    fn bootkeep_store_with(file: *const u8, file_len: usize, set: *const u8, set_len: usize, out: *mut u8, cap: usize, len: *mut usize, refusal: *mut RawRefusal) -> u32;
    fn bootkeep_image_check(image: *const u8, image_len: usize, stage: *mut u32, effect: *mut u32, refusal: *mut RawRefusal) -> u32;
    fn bootkeep_image_digest(image: *const u8, image_len: usize, out: *mut u8, cap: usize, len: *mut usize, refusal: *mut RawRefusal) -> u32;
    fn bootkeep_signature_lists(bytes: *const u8, bytes_len: usize, lists: *mut RawList, cap: usize, item_size: usize, len: *mut usize, refusal: *mut RawRefusal) -> u32;
}

/// The error of a status that isn't done.
fn error(status: u32, refusal: &RawRefusal) -> Error {
    match status {
        REFUSED => Error::Refused(Refusal::of(refusal)),
        ABSENT => Error::Absent,
        NO_MEMORY => Error::NoMemory,
        CLOSED => Error::Closed,
        other => Error::Other(other),
    }
}

/// What a call tells that gives nothing.
fn told<T: Default>(call: impl FnOnce(&mut T, &mut RawRefusal) -> u32) -> Result<T, Error> {
    let (mut told, mut refusal) = (T::default(), RawRefusal::default());
    match call(&mut told, &mut refusal) {
        DONE => Ok(told),
        status => Err(error(status, &refusal)),
    }
}

/// What a call gives, and what it tells beside that: a second call is made if the first has no room for it.
fn given<T: Copy + Default, U: Default>(
    room: usize,
    mut call: impl FnMut(&mut [T], &mut usize, &mut U, &mut RawRefusal) -> u32,
) -> Result<(Vec<T>, U), Error> {
    let mut items = vec![T::default(); room];
    loop {
        let (mut len, mut beside, mut refusal) = (0, U::default(), RawRefusal::default());
        match call(&mut items, &mut len, &mut beside, &mut refusal) {
            DONE => {
                items.truncate(len);
                return Ok((items, beside));
            }
            NO_ROOM => items.resize(len, T::default()),
            status => return Err(error(status, &refusal)),
        }
    }
}

/// The same of a call that tells nothing beside.
fn given_alone<T: Copy + Default>(
    room: usize,
    mut call: impl FnMut(&mut [T], &mut usize, &mut RawRefusal) -> u32,
) -> Result<Vec<T>, Error> {
    Ok(given(room, |items, len, _beside: &mut (), refusal| call(items, len, refusal))?.0)
}

/// How many bytes each of the items has.
fn item_size<T>(_items: &[T]) -> usize {
    size_of::<T>()
}

// In each call below, every pointer is to a value or a slice that lives until the call returns, its number is the
// length of that slice, and what is written is borrowed by that call alone.

pub(crate) fn version() -> u32 {
    unsafe { bootkeep_version() }
}

pub(crate) fn path_text(bytes: &[u8]) -> Result<(Vec<u8>, usize), Error> {
    given(ROOM, |out, len, taken, refusal| unsafe {
        bootkeep_path_text(bytes.as_ptr(), bytes.len(), out.as_mut_ptr(), out.len(), len, taken, refusal)
    })
}

/// The calls that have a word for a number.
#[derive(Clone, Copy)]
pub(crate) enum WordOf {
    Status,
    Refusal,
    Outcome,
}

pub(crate) fn word(of: WordOf, number: u32) -> Result<Vec<u8>, Error> {
    given_alone(ROOM, |out, len, _refusal| unsafe {
        let (at, cap) = (out.as_mut_ptr(), out.len());
        match of {
            WordOf::Status => bootkeep_status_word(number, at, cap, len),
            WordOf::Refusal => bootkeep_refusal_word(number, at, cap, len),
            WordOf::Outcome => bootkeep_outcome_word(number, at, cap, len),
        }
    })
}

pub(crate) fn path_names(bytes: &[u8]) -> Result<(Vec<u8>, usize), Error> {
    given(ROOM, |out, len, taken, refusal| unsafe {
        bootkeep_path_names(bytes.as_ptr(), bytes.len(), out.as_mut_ptr(), out.len(), len, taken, refusal)
    })
}

pub(crate) fn path_check(bytes: &[u8]) -> Result<usize, Error> {
    told(|taken, refusal| unsafe { bootkeep_path_check(bytes.as_ptr(), bytes.len(), taken, refusal) })
}

pub(crate) fn path_parse(text: &str) -> Result<Vec<u8>, Error> {
    given_alone(ROOM, |out, len, refusal| unsafe {
        bootkeep_path_parse(text.as_ptr(), text.len(), out.as_mut_ptr(), out.len(), len, refusal)
    })
}

pub(crate) fn path_parse_exact(text: &str) -> Result<Vec<u8>, Error> {
    given_alone(ROOM, |out, len, refusal| unsafe {
        bootkeep_path_parse_exact(text.as_ptr(), text.len(), out.as_mut_ptr(), out.len(), len, refusal)
    })
}

pub(crate) fn option_parts(bytes: &[u8]) -> Result<RawParts, Error> {
    told(|parts, refusal| unsafe { bootkeep_option_parts(bytes.as_ptr(), bytes.len(), parts, refusal) })
}

pub(crate) fn option_description(bytes: &[u8]) -> Result<Vec<u8>, Error> {
    given_alone(ROOM, |out, len, refusal| unsafe {
        bootkeep_option_description(bytes.as_ptr(), bytes.len(), out.as_mut_ptr(), out.len(), len, refusal)
    })
}

pub(crate) fn option_description_utf8(bytes: &[u8]) -> Result<Vec<u8>, Error> {
    given_alone(ROOM, |out, len, refusal| unsafe {
        bootkeep_option_description_utf8(bytes.as_ptr(), bytes.len(), out.as_mut_ptr(), out.len(), len, refusal)
    })
}

pub(crate) fn option_make(attributes: u32, description: &str, list: &[u8], optional: &[u8]) -> Result<Vec<u8>, Error> {
    given_alone(description.len() * 2 + list.len() + optional.len() + ROOM, |out, len, refusal| unsafe {
        bootkeep_option_make(
            attributes,
            description.as_ptr(),
            description.len(),
            list.as_ptr(),
            list.len(),
            optional.as_ptr(),
            optional.len(),
            out.as_mut_ptr(),
            out.len(),
            len,
            refusal,
        )
    })
}

pub(crate) fn option_make_units(
    attributes: u32,
    units: &[u16],
    list: &[u8],
    optional: &[u8],
) -> Result<Vec<u8>, Error> {
    given_alone(units.len() * 2 + list.len() + optional.len() + ROOM, |out, len, refusal| unsafe {
        bootkeep_option_make_units(
            attributes,
            units.as_ptr(),
            units.len(),
            list.as_ptr(),
            list.len(),
            optional.as_ptr(),
            optional.len(),
            out.as_mut_ptr(),
            out.len(),
            len,
            refusal,
        )
    })
}

pub(crate) fn frame_make(number: u32, kind: u32, entry: u16, option: &[u8], order: &[u16]) -> Result<Vec<u8>, Error> {
    given_alone(option.len() + order.len() * 2 + ROOM, |out, len, refusal| unsafe {
        bootkeep_frame_make(
            number,
            kind,
            entry,
            option.as_ptr(),
            option.len(),
            order.as_ptr(),
            order.len(),
            out.as_mut_ptr(),
            out.len(),
            len,
            refusal,
        )
    })
}

/// The numbers of the order of a frame, and its parts.
pub(crate) fn frame_parts(frame: &[u8]) -> Result<(Vec<u16>, RawFrame), Error> {
    given(ROOM, |numbers, len, parts: &mut RawFrame, refusal| unsafe {
        parts.size = size_of::<RawFrame>();
        bootkeep_frame_parts(frame.as_ptr(), frame.len(), parts, numbers.as_mut_ptr(), numbers.len(), len, refusal)
    })
}

pub(crate) fn vars_plan(set: &[u8]) -> Result<(Vec<u16>, u32), Error> {
    given(ROOM, |numbers, len, next, refusal| unsafe {
        bootkeep_vars_plan(set.as_ptr(), set.len(), numbers.as_mut_ptr(), numbers.len(), len, next, refusal)
    })
}

pub(crate) fn vars_at_risk(set: &[u8]) -> Result<(Vec<u16>, usize), Error> {
    given(ROOM, |numbers, len, unnamed, refusal| unsafe {
        bootkeep_vars_at_risk(set.as_ptr(), set.len(), numbers.as_mut_ptr(), numbers.len(), len, unnamed, refusal)
    })
}

pub(crate) fn vars_get(set: &[u8], name: &str) -> Result<Vec<u8>, Error> {
    given_alone(ROOM, |out, len, refusal| unsafe {
        bootkeep_vars_get(set.as_ptr(), set.len(), name.as_ptr(), name.len(), out.as_mut_ptr(), out.len(), len, refusal)
    })
}

pub(crate) fn vars_put(set: &[u8], name: &str, data: &[u8]) -> Result<Vec<u8>, Error> {
    given_alone(set.len() + data.len() + RECORD_MAX, |out, len, refusal| unsafe {
        bootkeep_vars_put(
            set.as_ptr(),
            set.len(),
            name.as_ptr(),
            name.len(),
            data.as_ptr(),
            data.len(),
            out.as_mut_ptr(),
            out.len(),
            len,
            refusal,
        )
    })
}

pub(crate) fn vars_remove(set: &[u8], name: &str) -> Result<Vec<u8>, Error> {
    given_alone(set.len(), |out, len, refusal| unsafe {
        bootkeep_vars_remove(
            set.as_ptr(),
            set.len(),
            name.as_ptr(),
            name.len(),
            out.as_mut_ptr(),
            out.len(),
            len,
            refusal,
        )
    })
}

/// The set after an edit, and what came of that.
pub(crate) fn vars_edit(
    edit: &RawEdit,
    numbers: &[u16],
    option: &[u8],
    set: &[u8],
) -> Result<(Vec<u8>, RawEdited), Error> {
    let room = set.len() + option.len() + 2 * numbers.len() + 4 * RECORD_MAX;
    given(room, |out, len, edited: &mut RawEdited, refusal| unsafe {
        edited.size = size_of::<RawEdited>();
        bootkeep_vars_edit(
            edit,
            numbers.as_ptr(),
            numbers.len(),
            option.as_ptr(),
            option.len(),
            set.as_ptr(),
            set.len(),
            out.as_mut_ptr(),
            out.len(),
            len,
            edited,
            refusal,
        )
    })
}

pub(crate) fn vars_list(set: &[u8]) -> Result<Vec<RawVariable>, Error> {
    given_alone(ROOM, |variables, len, refusal| unsafe {
        bootkeep_vars_list(
            set.as_ptr(),
            set.len(),
            variables.as_mut_ptr(),
            variables.len(),
            item_size(variables),
            len,
            refusal,
        )
    })
}

pub(crate) fn vars_named(set: &[u8]) -> Result<Vec<RawNamed>, Error> {
    given_alone(ROOM, |named, len, refusal| unsafe {
        bootkeep_vars_named(set.as_ptr(), set.len(), named.as_mut_ptr(), named.len(), item_size(named), len, refusal)
    })
}

/// The first fault of an image, with the numbers of who finds it and of what comes of it.
pub(crate) fn store_vars(file: &[u8]) -> Result<Vec<u8>, Error> {
    given_alone(ROOM, |out, len, refusal| unsafe {
        bootkeep_store_vars(file.as_ptr(), file.len(), out.as_mut_ptr(), out.len(), len, refusal)
    })
}

pub(crate) fn store_with(file: &[u8], set: &[u8]) -> Result<Vec<u8>, Error> {
    given_alone(file.len(), |out, len, refusal| unsafe {
        bootkeep_store_with(
            file.as_ptr(),
            file.len(),
            set.as_ptr(),
            set.len(),
            out.as_mut_ptr(),
            out.len(),
            len,
            refusal,
        )
    })
}

pub(crate) fn image_check(image: &[u8]) -> Result<Option<(RawRefusal, u32, u32)>, Error> {
    let (mut stage, mut effect, mut refusal) = (0, 0, RawRefusal::default());
    let status = unsafe { bootkeep_image_check(image.as_ptr(), image.len(), &mut stage, &mut effect, &mut refusal) };
    match status {
        DONE => Ok(None),
        REFUSED => Ok(Some((refusal, stage, effect))),
        status => Err(error(status, &refusal)),
    }
}

pub(crate) fn image_digest(image: &[u8]) -> Result<Vec<u8>, Error> {
    given_alone(32, |out, len, refusal| unsafe {
        bootkeep_image_digest(image.as_ptr(), image.len(), out.as_mut_ptr(), out.len(), len, refusal)
    })
}

pub(crate) fn signature_lists(bytes: &[u8]) -> Result<Vec<RawList>, Error> {
    given_alone(ROOM, |lists, len, refusal| unsafe {
        bootkeep_signature_lists(
            bytes.as_ptr(),
            bytes.len(),
            lists.as_mut_ptr(),
            lists.len(),
            item_size(lists),
            len,
            refusal,
        )
    })
}

pub(crate) fn vars_lowest_free(set: &[u8]) -> Result<u32, Error> {
    told(|number, refusal| unsafe { bootkeep_vars_lowest_free(set.as_ptr(), set.len(), number, refusal) })
}

pub(crate) fn vars_entry(set: &[u8], number: u16) -> Result<u32, Error> {
    told(|state, refusal| unsafe { bootkeep_vars_entry(set.as_ptr(), set.len(), number, state, refusal) })
}

pub(crate) fn vars_changes(from: &[u8], to: &[u8]) -> Result<Vec<RawChange>, Error> {
    given_alone(ROOM, |changes, len, refusal| unsafe {
        bootkeep_vars_changes(
            from.as_ptr(),
            from.len(),
            to.as_ptr(),
            to.len(),
            changes.as_mut_ptr(),
            changes.len(),
            item_size(changes),
            len,
            refusal,
        )
    })
}

pub(crate) fn run(set: &[u8], stream: &[u8]) -> Result<(Vec<u8>, Vec<u8>), Error> {
    let mut after = vec![0; set.len() + stream.len() + ROOM];
    let mut lines = vec![0; stream.len() + ROOM];
    loop {
        let (mut after_len, mut lines_len, mut refusal) = (0, 0, RawRefusal::default());
        let status = unsafe {
            bootkeep_run(
                set.as_ptr(),
                set.len(),
                stream.as_ptr(),
                stream.len(),
                after.as_mut_ptr(),
                after.len(),
                &mut after_len,
                lines.as_mut_ptr(),
                lines.len(),
                &mut lines_len,
                &mut refusal,
            )
        };
        match status {
            DONE => {
                after.truncate(after_len);
                lines.truncate(lines_len);
                return Ok((after, lines));
            }
            NO_ROOM => {
                after.resize(after_len.max(after.len()), 0);
                lines.resize(lines_len.max(lines.len()), 0);
            }
            status => return Err(error(status, &refusal)),
        }
    }
}

/// An event of a keeper.
pub(crate) enum Event<'a> {
    Deliver(&'a [u8]),
    Prepare,
    Hand,
    Restart,
}

/// A keeper that is open, and closed when it is dropped, and how many bytes its set had when it was last given.
pub(crate) struct Handle {
    raw: Box<RawKeeper>,
    set_len: usize,
}

// All that a keeper holds is its own, and `&mut` gives it to one thread at a time.
unsafe impl Send for Handle {}

impl Handle {
    pub(crate) fn open(set: &[u8]) -> Result<Handle, Error> {
        let mut handle = Handle { raw: Box::new(RawKeeper { is_open: 0, at: ptr::null_mut() }), set_len: set.len() };
        let keeper: *mut RawKeeper = &mut *handle.raw;
        told(|_told: &mut (), refusal| unsafe { bootkeep_keeper_open(keeper, set.as_ptr(), set.len(), refusal) })?;
        Ok(handle)
    }

    pub(crate) fn event(&mut self, event: &Event<'_>) -> Result<(Vec<u16>, RawReply), Error> {
        let keeper: *mut RawKeeper = &mut *self.raw;
        given(ROOM, |numbers: &mut [u16], len, reply: &mut RawReply, _refusal| unsafe {
            reply.size = size_of::<RawReply>();
            let (at, cap) = (numbers.as_mut_ptr(), numbers.len());
            match event {
                Event::Deliver(frame) => {
                    bootkeep_keeper_deliver_reply(keeper, frame.as_ptr(), frame.len(), reply, at, cap, len)
                }
                Event::Prepare => bootkeep_keeper_prepare_reply(keeper, reply, at, cap, len),
                Event::Hand => bootkeep_keeper_hand_reply(keeper, reply, at, cap, len),
                Event::Restart => bootkeep_keeper_restart_reply(keeper, reply, at, cap, len),
            }
        })
    }

    pub(crate) fn set(&mut self) -> Result<Vec<u8>, Error> {
        let keeper: *mut RawKeeper = &mut *self.raw;
        let set = given_alone(self.set_len + ROOM, |out, len, _refusal| unsafe {
            bootkeep_keeper_set(keeper, out.as_mut_ptr(), out.len(), len)
        })?;
        self.set_len = set.len();
        Ok(set)
    }

    pub(crate) fn next_number(&mut self) -> Result<u32, Error> {
        let keeper: *mut RawKeeper = &mut *self.raw;
        told(|number, _refusal| unsafe { bootkeep_keeper_next_number(keeper, number) })
    }
}

impl Drop for Handle {
    fn drop(&mut self) {
        let keeper: *mut RawKeeper = &mut *self.raw;
        // It may be closed already, if it couldn't be opened.
        let _status = unsafe { bootkeep_keeper_close(keeper) };
    }
}

pub(crate) fn journal_is_idle(journal: &[u8]) -> Result<u32, Error> {
    told(|idle, refusal| unsafe { bootkeep_journal_is_idle(journal.as_ptr(), journal.len(), idle, refusal) })
}

pub(crate) fn notes_len(notes: &[u8]) -> Result<usize, Error> {
    told(|taken, refusal| unsafe { bootkeep_notes_len(notes.as_ptr(), notes.len(), taken, refusal) })
}

pub(crate) fn notes_make(identity: &[u8]) -> Result<Vec<u8>, Error> {
    given_alone(NOTES_MAX, |out, len, refusal| unsafe {
        bootkeep_notes_make(identity.as_ptr(), identity.len(), out.as_mut_ptr(), out.len(), len, refusal)
    })
}

pub(crate) fn notes_identity(notes: &[u8]) -> Result<Vec<u8>, Error> {
    given_alone(IDENTITY_LEN, |out, len, refusal| unsafe {
        bootkeep_notes_identity(notes.as_ptr(), notes.len(), out.as_mut_ptr(), out.len(), len, refusal)
    })
}

pub(crate) fn record_make(
    machine: &[u8],
    time: u64,
    before: &[u8],
    after: &[u8],
    words: &[u8],
) -> Result<Vec<u8>, Error> {
    given_alone(machine.len() + before.len() + after.len() + words.len() * 4 + ROOM, |out, len, refusal| unsafe {
        bootkeep_record_make(
            machine.as_ptr(),
            machine.len(),
            time,
            before.as_ptr(),
            before.len(),
            after.as_ptr(),
            after.len(),
            words.as_ptr(),
            words.len(),
            out.as_mut_ptr(),
            out.len(),
            len,
            refusal,
        )
    })
}

pub(crate) fn record_parts(record: &[u8]) -> Result<RawRecordParts, Error> {
    told(|parts: &mut RawRecordParts, refusal| unsafe {
        parts.size = size_of::<RawRecordParts>();
        bootkeep_record_parts(record.as_ptr(), record.len(), parts, refusal)
    })
}

pub(crate) fn record_word(record: &[u8], number: usize) -> Result<Vec<u8>, Error> {
    given_alone(ROOM, |out, len, refusal| unsafe {
        bootkeep_record_word(record.as_ptr(), record.len(), number, out.as_mut_ptr(), out.len(), len, refusal)
    })
}

pub(crate) fn record_standing(record: &[u8], variables: &[u8]) -> Result<u32, Error> {
    told(|standing, refusal| unsafe {
        bootkeep_record_standing(record.as_ptr(), record.len(), variables.as_ptr(), variables.len(), standing, refusal)
    })
}

pub(crate) fn record_back(record: &[u8], variables: &[u8]) -> Result<Vec<u8>, Error> {
    given_alone(record.len() + ROOM, |out, len, refusal| unsafe {
        bootkeep_record_back(
            record.as_ptr(),
            record.len(),
            variables.as_ptr(),
            variables.len(),
            out.as_mut_ptr(),
            out.len(),
            len,
            refusal,
        )
    })
}

/// What a command runs.
pub(crate) enum Wanted<'a> {
    Nothing,
    Frames(&'a [u8]),
    Edit(RawEdit, &'a [u16], &'a [u8]),
    Restore(&'a [u8]),
}

/// A command over a machine.
pub(crate) struct Command {
    raw: Box<RawMoves>,
}

// All that a command holds is its own, and `&mut` gives it to one thread at a time.
unsafe impl Send for Command {}

impl Command {
    pub(crate) fn begin(
        machine: &[u8],
        start: &[u8],
        variables: &[u8],
        journal: &[u8],
        wanted: Wanted<'_>,
    ) -> Result<Command, Error> {
        let mut command = Command { raw: Box::new(RawMoves { is_open: 0, at: ptr::null_mut() }) };
        let moves: *mut RawMoves = &mut *command.raw;
        told(|_told: &mut (), refusal| unsafe {
            match wanted {
                Wanted::Frames(stream) => bootkeep_moves_requests(
                    moves,
                    machine.as_ptr(),
                    machine.len(),
                    start.as_ptr(),
                    start.len(),
                    variables.as_ptr(),
                    variables.len(),
                    journal.as_ptr(),
                    journal.len(),
                    stream.as_ptr(),
                    stream.len(),
                    refusal,
                ),
                Wanted::Edit(ref edit, numbers, option) => bootkeep_moves_edit(
                    moves,
                    machine.as_ptr(),
                    machine.len(),
                    start.as_ptr(),
                    start.len(),
                    variables.as_ptr(),
                    variables.len(),
                    journal.as_ptr(),
                    journal.len(),
                    edit,
                    numbers.as_ptr(),
                    numbers.len(),
                    option.as_ptr(),
                    option.len(),
                    refusal,
                ),
                Wanted::Restore(back) => bootkeep_moves_restore(
                    moves,
                    machine.as_ptr(),
                    machine.len(),
                    start.as_ptr(),
                    start.len(),
                    variables.as_ptr(),
                    variables.len(),
                    journal.as_ptr(),
                    journal.len(),
                    back.as_ptr(),
                    back.len(),
                    refusal,
                ),
                Wanted::Nothing => bootkeep_moves_settle(
                    moves,
                    machine.as_ptr(),
                    machine.len(),
                    start.as_ptr(),
                    start.len(),
                    variables.as_ptr(),
                    variables.len(),
                    journal.as_ptr(),
                    journal.len(),
                    refusal,
                ),
            }
        })?;
        Ok(command)
    }

    pub(crate) fn next(&mut self) -> Result<u32, Error> {
        let moves: *mut RawMoves = &mut *self.raw;
        told(|kind, _refusal| unsafe { bootkeep_moves_next(moves, kind) })
    }

    pub(crate) fn name(&mut self) -> Result<Vec<u8>, Error> {
        let moves: *mut RawMoves = &mut *self.raw;
        given_alone(NAME_MAX, |out, len, _refusal| unsafe {
            bootkeep_moves_name(moves, out.as_mut_ptr(), out.len(), len)
        })
    }

    pub(crate) fn bytes(&mut self) -> Result<Vec<u8>, Error> {
        let moves: *mut RawMoves = &mut *self.raw;
        given_alone(ROOM, |out, len, _refusal| unsafe { bootkeep_moves_bytes(moves, out.as_mut_ptr(), out.len(), len) })
    }

    pub(crate) fn tell(&mut self, became: u32, reason: u32) -> Result<(), Error> {
        let moves: *mut RawMoves = &mut *self.raw;
        told(|_told, _refusal| unsafe { bootkeep_moves_tell(moves, became, reason) })
    }

    pub(crate) fn end(&mut self) -> Result<RawEnd, Error> {
        let moves: *mut RawMoves = &mut *self.raw;
        told(|end: &mut RawEnd, _refusal| unsafe {
            end.size = size_of::<RawEnd>();
            bootkeep_moves_end(moves, end)
        })
    }

    pub(crate) fn reply(&mut self, place: usize) -> Result<RawReply, Error> {
        let moves: *mut RawMoves = &mut *self.raw;
        told(|reply: &mut RawReply, _refusal| unsafe {
            reply.size = size_of::<RawReply>();
            bootkeep_moves_reply(moves, place, reply)
        })
    }

    pub(crate) fn notes(&mut self, notes: &[u8]) -> Result<Vec<u8>, Error> {
        let moves: *mut RawMoves = &mut *self.raw;
        given_alone(NOTES_MAX, |out, len, refusal| unsafe {
            bootkeep_moves_notes(moves, notes.as_ptr(), notes.len(), out.as_mut_ptr(), out.len(), len, refusal)
        })
    }

    pub(crate) fn same(&mut self, notes: &[u8], place: usize) -> Result<u32, Error> {
        let moves: *mut RawMoves = &mut *self.raw;
        told(|same, refusal| unsafe { bootkeep_moves_same(moves, notes.as_ptr(), notes.len(), place, same, refusal) })
    }
}

impl Drop for Command {
    fn drop(&mut self) {
        let moves: *mut RawMoves = &mut *self.raw;
        // It may be closed already, if it couldn't be opened.
        let _status = unsafe { bootkeep_moves_close(moves) };
    }
}

extern "C" {
    fn flock(file: c_int, operation: c_int) -> c_int;
    fn fchown(file: c_int, user: c_uint, group: c_uint) -> c_int;
}

/// The operation of an exclusive lock.
const LOCK_EX: c_int = 2;

/// Locks a file or a folder until it is closed. It waits for a lock that another program has.
pub(crate) fn lock(file: &File) -> io::Result<()> {
    loop {
        // The descriptor is open as long as the file is borrowed.
        match done(unsafe { flock(file.as_raw_fd(), LOCK_EX) }) {
            Err(error) if error.kind() == io::ErrorKind::Interrupted => {}
            other => return other,
        }
    }
}

/// Gives a file to a user and a group.
pub(crate) fn give(file: &File, user: u32, group: u32) -> io::Result<()> {
    done(unsafe { fchown(file.as_raw_fd(), user, group) })
}

/// The error of a call of the system that failed.
fn done(status: c_int) -> io::Result<()> {
    if status == 0 {
        Ok(())
    } else {
        Err(io::Error::last_os_error())
    }
}
