//! The calls of `bootkeep-linux.h`, each once, as safe functions: what they tell is copied before the next call.

use crate::library::{RawRefusal, RawReply};
use crate::numbers::{DONE, NO_ENTRY};
use std::ffi::{CStr, CString, OsString};
use std::mem::size_of;
use std::os::raw::c_char;
use std::os::unix::ffi::OsStringExt;
use std::path::PathBuf;
use std::ptr;
use std::slice;

/// `struct bootkeep_machine`, which only the library knows.
#[repr(C)]
struct RawMachine {
    _private: [u8; 0],
}

#[repr(C)]
struct RawFault {
    size: usize,
    status: u32,
    at: u32,
    left: u32,
    system_error: i32,
    refusal: RawRefusal,
    path: *const c_char,
    text: *const c_char,
    second_error: i32,
    reserved: u32,
    second_path: *const c_char,
}

#[repr(C)]
struct RawOptions {
    size: usize,
    variables: *const c_char,
    state: *const c_char,
    name: *const c_char,
    start: *const c_char,
    flags: u32,
    reserved: u32,
}

#[repr(C)]
struct RawPlan {
    size: usize,
    next: u32,
    current: u32,
    timeout: u32,
    reserved: u32,
    numbers: *const u16,
    numbers_len: usize,
    order: *const u16,
    order_len: usize,
}

#[repr(C)]
struct RawEntry {
    number: u32,
    state: u32,
    position: u32,
    attributes: u32,
    is_next: u32,
    is_current: u32,
    description: *const c_char,
    path: *const c_char,
    option: *const u8,
    option_len: usize,
    optional: *const u8,
    optional_len: usize,
}

#[repr(C)]
struct RawMachineChange {
    size: usize,
    changed: u32,
    settled: u32,
    edited: u32,
    entry: u32,
    record: u64,
    replies: usize,
    before: *const u8,
    before_len: usize,
    after: *const u8,
    after_len: usize,
}

#[repr(C)]
struct RawLoader {
    size: usize,
    file: *const c_char,
    description: *const c_char,
    attributes: u32,
    reserved: u32,
    optional: *const u8,
    optional_len: usize,
    root: *const c_char,
    disk: *const c_char,
    part: u32,
    reserved_part: u32,
}

#[repr(C)]
struct RawExpected {
    size: usize,
    what: u32,
    number: u32,
    journal: [u8; 16],
    order: *const u16,
    order_len: usize,
}

#[repr(C)]
struct RawJournal {
    size: usize,
    next_number: u32,
    has_identity: u32,
    identity: [u8; 16],
    is_owed: u32,
    reserved: u32,
}

#[rustfmt::skip]
extern "C" {
    fn bootkeep_machine_version() -> u32;
    fn bootkeep_machine_fault(machine: *const RawMachine, fault: *mut RawFault) -> u32;
    fn bootkeep_machine_remark(machine: *const RawMachine, place: usize, text: *mut *const c_char) -> u32;
    fn bootkeep_machine_open(options: *const RawOptions, machine: *mut *mut RawMachine) -> u32;
    fn bootkeep_machine_close(machine: *mut RawMachine);
    fn bootkeep_machine_words(machine: *mut RawMachine, words: *const *const c_char, count: usize) -> u32;
    fn bootkeep_machine_place(machine: *mut RawMachine, place: *mut u32) -> u32;
    fn bootkeep_machine_variables(machine: *mut RawMachine, set: *mut *const u8, set_len: *mut usize) -> u32;
    fn bootkeep_machine_data(machine: *mut RawMachine, set: *mut *const u8, set_len: *mut usize) -> u32;
    fn bootkeep_machine_plan(machine: *mut RawMachine, plan: *mut RawPlan) -> u32;
    fn bootkeep_machine_entries(machine: *mut RawMachine, entries: *mut *const RawEntry, len: *mut usize, item_size: usize) -> u32;
    fn bootkeep_machine_add(machine: *mut RawMachine, option: *const u8, option_len: usize, number: u32, position: u32, flags: u32, change: *mut RawMachineChange) -> u32;
    fn bootkeep_machine_loader(machine: *mut RawMachine, loader: *const RawLoader, option: *mut *const u8, option_len: *mut usize) -> u32;
    fn bootkeep_machine_add_loader(machine: *mut RawMachine, loader: *const RawLoader, number: u32, position: u32, flags: u32, change: *mut RawMachineChange) -> u32;
    fn bootkeep_machine_remove(machine: *mut RawMachine, numbers: *const u16, numbers_len: usize, flags: u32, change: *mut RawMachineChange) -> u32;
    fn bootkeep_machine_activate(machine: *mut RawMachine, numbers: *const u16, numbers_len: usize, flags: u32, change: *mut RawMachineChange) -> u32;
    fn bootkeep_machine_deactivate(machine: *mut RawMachine, numbers: *const u16, numbers_len: usize, flags: u32, change: *mut RawMachineChange) -> u32;
    fn bootkeep_machine_first(machine: *mut RawMachine, numbers: *const u16, numbers_len: usize, flags: u32, change: *mut RawMachineChange) -> u32;
    fn bootkeep_machine_order(machine: *mut RawMachine, numbers: *const u16, numbers_len: usize, flags: u32, change: *mut RawMachineChange) -> u32;
    fn bootkeep_machine_next(machine: *mut RawMachine, number: u32, flags: u32, change: *mut RawMachineChange) -> u32;
    fn bootkeep_machine_timeout(machine: *mut RawMachine, seconds: u32, flags: u32, change: *mut RawMachineChange) -> u32;
    fn bootkeep_machine_write(machine: *mut RawMachine, set: *const u8, set_len: usize, flags: u32, change: *mut RawMachineChange) -> u32;
    fn bootkeep_machine_update(machine: *mut RawMachine, stream: *const u8, stream_len: usize, expected: *const RawExpected, flags: u32, change: *mut RawMachineChange) -> u32;
    fn bootkeep_machine_reply(machine: *const RawMachine, place: usize, reply: *mut RawReply, same: *mut u32) -> u32;
    fn bootkeep_machine_journal(machine: *mut RawMachine, journal: *mut RawJournal) -> u32;
    fn bootkeep_machine_undo(machine: *mut RawMachine, flags: u32, change: *mut RawMachineChange) -> u32;
    fn bootkeep_machine_owed(machine: *mut RawMachine, owed: *mut u32) -> u32;
    fn bootkeep_machine_settle(machine: *mut RawMachine, flags: u32, change: *mut RawMachineChange) -> u32;
}

// As many bytes as the header's structs have.
const _: () = assert!(size_of::<RawFault>() == 80);
const _: () = assert!(size_of::<RawOptions>() == 48);
const _: () = assert!(size_of::<RawPlan>() == 56);
const _: () = assert!(size_of::<RawEntry>() == 72);
const _: () = assert!(size_of::<RawMachineChange>() == 72);
const _: () = assert!(size_of::<RawLoader>() == 72);
const _: () = assert!(size_of::<RawExpected>() == 48);
const _: () = assert!(size_of::<RawJournal>() == 40);

/// Which machine a handle is of.
#[derive(Debug, Default)]
pub(crate) struct Options {
    pub(crate) variables: Option<CString>,
    pub(crate) state: Option<CString>,
    pub(crate) name: Option<CString>,
    pub(crate) start: Option<CString>,
    pub(crate) flags: u32,
}

/// Why a call failed, as it is told.
#[derive(Debug, Default)]
pub(crate) struct Failure {
    pub(crate) status: u32,
    pub(crate) at: u32,
    pub(crate) left: u32,
    pub(crate) system_error: i32,
    pub(crate) refusal: RawRefusal,
    pub(crate) path: Option<PathBuf>,
    pub(crate) text: String,
    pub(crate) second_error: i32,
    pub(crate) second_path: Option<PathBuf>,
    /// What is told of a change that failed.
    pub(crate) change: Option<Told>,
}

/// What came of a change, as it is told.
#[derive(Debug)]
pub(crate) struct Told {
    pub(crate) is_changed: bool,
    pub(crate) is_settled: bool,
    pub(crate) edited: u32,
    pub(crate) entry: u32,
    pub(crate) record: u64,
    pub(crate) before: Vec<u8>,
    pub(crate) after: Vec<u8>,
    pub(crate) remarks: Vec<String>,
    /// The reply to each frame, and whether it is the one that was applied under its number.
    pub(crate) replies: Vec<(RawReply, u32)>,
}

/// What a boot would try, as it is told.
#[derive(Debug)]
pub(crate) struct Plan {
    pub(crate) next: u32,
    pub(crate) current: u32,
    pub(crate) timeout: u32,
    pub(crate) numbers: Vec<u16>,
    pub(crate) order: Vec<u16>,
}

/// An entry, as it is told.
#[derive(Debug)]
pub(crate) struct Entry {
    pub(crate) number: u32,
    pub(crate) state: u32,
    pub(crate) position: u32,
    pub(crate) is_next: bool,
    pub(crate) is_current: bool,
    pub(crate) option: Vec<u8>,
}

/// What the journal says of requests, as it is told.
#[derive(Debug)]
pub(crate) struct Journal {
    pub(crate) next_number: u32,
    pub(crate) identity: Option<[u8; 16]>,
    pub(crate) is_owed: bool,
}

/// A loader, of which a load option is to be made.
#[derive(Debug)]
pub(crate) struct Loader<'a> {
    pub(crate) file: CString,
    pub(crate) description: CString,
    pub(crate) attributes: u32,
    pub(crate) optional: &'a [u8],
    pub(crate) root: Option<CString>,
    pub(crate) disk: Option<CString>,
    pub(crate) part: u32,
}

/// What is expected of a machine before requests are run.
#[derive(Debug)]
pub(crate) struct Expected<'a> {
    pub(crate) what: u32,
    pub(crate) number: u32,
    pub(crate) journal: [u8; 16],
    pub(crate) order: &'a [u16],
}

/// A change that is wanted.
pub(crate) enum Wanted<'a> {
    Add { option: &'a [u8], number: u32, position: u32 },
    AddLoader { loader: &'a Loader<'a>, number: u32, position: u32 },
    Remove(&'a [u16]),
    Activate(&'a [u16]),
    Deactivate(&'a [u16]),
    First(&'a [u16]),
    Order(&'a [u16]),
    Next(u32),
    Timeout(u32),
    Write(&'a [u8]),
    Update { stream: &'a [u8], expected: Option<&'a Expected<'a>> },
    Undo,
    Settle,
}

/// A handle of a machine, which is closed when it is dropped.
pub(crate) struct Handle(ptr::NonNull<RawMachine>);

// All that a handle holds is its own, and `&mut` gives it to one thread at a time.
unsafe impl Send for Handle {}

// In each call below, every pointer is to a value, a slice or a text that lives until the call returns, and the number
// after it is how long that is. What a call tells by a pointer is the handle's until the next call with it, so it is
// copied before that: none but those that leave it alone, of the fault, the remarks and the replies, come in between.

/// The version of the interface that the library has.
pub(crate) fn version() -> u32 {
    unsafe { bootkeep_machine_version() }
}

impl Handle {
    pub(crate) fn open(options: &Options) -> Result<Handle, Box<Failure>> {
        let given = RawOptions {
            size: size_of::<RawOptions>(),
            variables: text_or_null(&options.variables),
            state: text_or_null(&options.state),
            name: text_or_null(&options.name),
            start: text_or_null(&options.start),
            flags: options.flags,
            reserved: 0,
        };
        let mut machine = ptr::null_mut();
        let status = unsafe { bootkeep_machine_open(&given, &mut machine) };
        match ptr::NonNull::new(machine) {
            Some(machine) if status == DONE => Ok(Handle(machine)),
            _ => {
                let text = "a path is empty, or the name or the start of the machine isn't one".to_owned();
                Err(Box::new(Failure { status, text, ..Failure::default() }))
            }
        }
    }

    pub(crate) fn words(&mut self, words: &[CString]) -> Result<(), Box<Failure>> {
        let places: Vec<*const c_char> = words.iter().map(|word| word.as_ptr()).collect();
        let status = unsafe { bootkeep_machine_words(self.0.as_ptr(), places.as_ptr(), places.len()) };
        self.check(status)
    }

    pub(crate) fn place(&mut self) -> Result<u32, Box<Failure>> {
        let mut place = 0;
        let status = unsafe { bootkeep_machine_place(self.0.as_ptr(), &mut place) };
        self.check(status)?;
        Ok(place)
    }

    pub(crate) fn variables(&mut self) -> Result<Vec<u8>, Box<Failure>> {
        self.bytes(|machine, set, len| unsafe { bootkeep_machine_variables(machine, set, len) })
    }

    pub(crate) fn data(&mut self) -> Result<Vec<u8>, Box<Failure>> {
        self.bytes(|machine, set, len| unsafe { bootkeep_machine_data(machine, set, len) })
    }

    pub(crate) fn loader(&mut self, loader: &Loader<'_>) -> Result<Vec<u8>, Box<Failure>> {
        let given = raw_loader(loader);
        self.bytes(|machine, option, len| unsafe { bootkeep_machine_loader(machine, &given, option, len) })
    }

    pub(crate) fn plan(&mut self) -> Result<Plan, Box<Failure>> {
        let mut told = RawPlan {
            size: size_of::<RawPlan>(),
            next: NO_ENTRY,
            current: NO_ENTRY,
            timeout: NO_ENTRY,
            reserved: 0,
            numbers: ptr::null(),
            numbers_len: 0,
            order: ptr::null(),
            order_len: 0,
        };
        let status = unsafe { bootkeep_machine_plan(self.0.as_ptr(), &mut told) };
        self.check(status)?;
        let numbers = unsafe { held(told.numbers, told.numbers_len) };
        let order = unsafe { held(told.order, told.order_len) };
        Ok(Plan { next: told.next, current: told.current, timeout: told.timeout, numbers, order })
    }

    pub(crate) fn entries(&mut self) -> Result<Vec<Entry>, Box<Failure>> {
        let (mut place, mut len) = (ptr::null(), 0);
        let status = unsafe { bootkeep_machine_entries(self.0.as_ptr(), &mut place, &mut len, size_of::<RawEntry>()) };
        self.check(status)?;
        let told: &[RawEntry] = if len == 0 { &[] } else { unsafe { slice::from_raw_parts(place, len) } };
        Ok(told
            .iter()
            .map(|entry| Entry {
                number: entry.number,
                state: entry.state,
                position: entry.position,
                is_next: entry.is_next != 0,
                is_current: entry.is_current != 0,
                option: unsafe { held(entry.option, entry.option_len) },
            })
            .collect())
    }

    pub(crate) fn journal(&mut self) -> Result<Journal, Box<Failure>> {
        let mut told = RawJournal {
            size: size_of::<RawJournal>(),
            next_number: 0,
            has_identity: 0,
            identity: [0; 16],
            is_owed: 0,
            reserved: 0,
        };
        let status = unsafe { bootkeep_machine_journal(self.0.as_ptr(), &mut told) };
        self.check(status)?;
        let identity = if told.has_identity == 0 { None } else { Some(told.identity) };
        Ok(Journal { next_number: told.next_number, identity, is_owed: told.is_owed != 0 })
    }

    pub(crate) fn owed(&mut self) -> Result<bool, Box<Failure>> {
        let mut owed = 0;
        let status = unsafe { bootkeep_machine_owed(self.0.as_ptr(), &mut owed) };
        self.check(status)?;
        Ok(owed != 0)
    }

    /// Makes a change, and gives what is told of it.
    pub(crate) fn change(&mut self, wanted: &Wanted<'_>, flags: u32) -> Result<Told, Box<Failure>> {
        let mut told = RawMachineChange {
            size: size_of::<RawMachineChange>(),
            changed: 0,
            settled: 0,
            edited: 0,
            entry: NO_ENTRY,
            record: 0,
            replies: 0,
            before: ptr::null(),
            before_len: 0,
            after: ptr::null(),
            after_len: 0,
        };
        let status = self.make(wanted, flags, &mut told);
        let change = self.told(&told);
        match self.check(status) {
            Ok(()) => Ok(change),
            Err(failure) => Err(Box::new(Failure { change: Some(change), ..*failure })),
        }
    }

    /// Makes the call of a change: its status.
    fn make(&mut self, wanted: &Wanted<'_>, flags: u32, told: &mut RawMachineChange) -> u32 {
        let machine = self.0.as_ptr();
        let mut of_numbers =
            |call: OfNumbers, numbers: &[u16]| unsafe { call(machine, numbers.as_ptr(), numbers.len(), flags, told) };
        match *wanted {
            Wanted::Add { option, number, position } => unsafe {
                bootkeep_machine_add(machine, option.as_ptr(), option.len(), number, position, flags, told)
            },
            Wanted::AddLoader { loader, number, position } => {
                let given = raw_loader(loader);
                unsafe { bootkeep_machine_add_loader(machine, &given, number, position, flags, told) }
            }
            Wanted::Remove(numbers) => of_numbers(bootkeep_machine_remove, numbers),
            Wanted::Activate(numbers) => of_numbers(bootkeep_machine_activate, numbers),
            Wanted::Deactivate(numbers) => of_numbers(bootkeep_machine_deactivate, numbers),
            Wanted::First(numbers) => of_numbers(bootkeep_machine_first, numbers),
            Wanted::Order(numbers) => of_numbers(bootkeep_machine_order, numbers),
            Wanted::Next(number) => unsafe { bootkeep_machine_next(machine, number, flags, told) },
            Wanted::Timeout(seconds) => unsafe { bootkeep_machine_timeout(machine, seconds, flags, told) },
            Wanted::Write(set) => unsafe { bootkeep_machine_write(machine, set.as_ptr(), set.len(), flags, told) },
            Wanted::Update { stream, expected } => {
                let given = expected.map(raw_expected);
                let expected = given.as_ref().map_or(ptr::null(), |given| given as *const RawExpected);
                unsafe { bootkeep_machine_update(machine, stream.as_ptr(), stream.len(), expected, flags, told) }
            }
            Wanted::Undo => unsafe { bootkeep_machine_undo(machine, flags, told) },
            Wanted::Settle => unsafe { bootkeep_machine_settle(machine, flags, told) },
        }
    }

    /// What is told of a change, copied.
    fn told(&self, told: &RawMachineChange) -> Told {
        Told {
            is_changed: told.changed != 0,
            is_settled: told.settled != 0,
            edited: told.edited,
            entry: told.entry,
            record: told.record,
            before: unsafe { held(told.before, told.before_len) },
            after: unsafe { held(told.after, told.after_len) },
            remarks: self.remarks(),
            replies: (0..told.replies).map_while(|place| self.reply(place)).collect(),
        }
    }

    fn reply(&self, place: usize) -> Option<(RawReply, u32)> {
        let (mut reply, mut same) = (RawReply::new(), 0);
        let status = unsafe { bootkeep_machine_reply(self.0.as_ptr(), place, &mut reply, &mut same) };
        if status == DONE {
            Some((reply, same))
        } else {
            None
        }
    }

    pub(crate) fn remarks(&self) -> Vec<String> {
        (0..).map_while(|place| self.remark(place)).collect()
    }

    fn remark(&self, place: usize) -> Option<String> {
        let mut text = ptr::null();
        let status = unsafe { bootkeep_machine_remark(self.0.as_ptr(), place, &mut text) };
        if status == DONE {
            Some(unsafe { text_at(text) })
        } else {
            None
        }
    }

    /// The bytes that a call tells, copied.
    fn bytes(
        &mut self,
        call: impl FnOnce(*mut RawMachine, *mut *const u8, *mut usize) -> u32,
    ) -> Result<Vec<u8>, Box<Failure>> {
        let (mut place, mut len) = (ptr::null(), 0);
        let status = call(self.0.as_ptr(), &mut place, &mut len);
        self.check(status)?;
        Ok(unsafe { held(place, len) })
    }

    /// Nothing if the status is that of a call that did what it says, and otherwise what is told of the one that failed.
    fn check(&self, status: u32) -> Result<(), Box<Failure>> {
        if status == DONE {
            return Ok(());
        }
        let mut told = RawFault {
            size: size_of::<RawFault>(),
            status: 0,
            at: 0,
            left: 0,
            system_error: 0,
            refusal: RawRefusal::default(),
            path: ptr::null(),
            text: ptr::null(),
            second_error: 0,
            reserved: 0,
            second_path: ptr::null(),
        };
        let asked = unsafe { bootkeep_machine_fault(self.0.as_ptr(), &mut told) };
        debug_assert_eq!(asked, DONE);
        Err(Box::new(Failure {
            status,
            at: told.at,
            left: told.left,
            system_error: told.system_error,
            refusal: told.refusal,
            path: unsafe { path_at(told.path) },
            text: unsafe { text_at(told.text) },
            second_error: told.second_error,
            second_path: unsafe { path_at(told.second_path) },
            change: None,
        }))
    }
}

impl Drop for Handle {
    fn drop(&mut self) {
        unsafe { bootkeep_machine_close(self.0.as_ptr()) }
    }
}

/// A call that changes entries by their numbers.
type OfNumbers = unsafe extern "C" fn(*mut RawMachine, *const u16, usize, u32, *mut RawMachineChange) -> u32;

fn text_or_null(text: &Option<CString>) -> *const c_char {
    text.as_ref().map_or(ptr::null(), |text| text.as_ptr())
}

fn raw_loader(loader: &Loader<'_>) -> RawLoader {
    RawLoader {
        size: size_of::<RawLoader>(),
        file: loader.file.as_ptr(),
        description: loader.description.as_ptr(),
        attributes: loader.attributes,
        reserved: 0,
        optional: loader.optional.as_ptr(),
        optional_len: loader.optional.len(),
        root: text_or_null(&loader.root),
        disk: text_or_null(&loader.disk),
        part: loader.part,
        reserved_part: 0,
    }
}

fn raw_expected(expected: &Expected<'_>) -> RawExpected {
    RawExpected {
        size: size_of::<RawExpected>(),
        what: expected.what,
        number: expected.number,
        journal: expected.journal,
        order: expected.order.as_ptr(),
        order_len: expected.order.len(),
    }
}

/// The items at a place, copied. There are so many of them, or the place is NULL.
unsafe fn held<T: Copy>(place: *const T, len: usize) -> Vec<T> {
    if place.is_null() || len == 0 {
        return Vec::new();
    }
    slice::from_raw_parts(place, len).to_vec()
}

/// The text at a place, copied. It ends with a zero, or the place is NULL.
unsafe fn text_at(place: *const c_char) -> String {
    if place.is_null() {
        return String::new();
    }
    CStr::from_ptr(place).to_string_lossy().into_owned()
}

/// The path at a place, copied. It ends with a zero, or the place is NULL.
unsafe fn path_at(place: *const c_char) -> Option<PathBuf> {
    if place.is_null() {
        return None;
    }
    Some(OsString::from_vec(CStr::from_ptr(place).to_bytes().to_vec()).into())
}
