//! Machines, whose variables are a folder's files, as Linux shows them. Each change is told by the bytes that are there
//! then, which are written out by hand.

#![cfg(feature = "machine")]

use bootkeep::frame::{self, Request};
use bootkeep::machine::{
    ErrorKind, Expected, Left, Loader, LoaderAddition, Machine, MachineFault, MachineOptions, MachinePlace,
    MachineStage, Mode,
};
use bootkeep::vars::{self, Addition, Edit, EditOutcome, EntryState, NewOrder};
use bootkeep::{option, store, EntryNumber, Fault, LoadOption, MachineState, Move, Moves, Same, SetFile};
use std::collections::BTreeMap;
use std::env;
use std::fs;
use std::io;
use std::num::NonZeroU32;
use std::path::{Path, PathBuf};
use std::process;
use std::sync::atomic::{AtomicU32, Ordering};

const GUID: &str = "-8be4df61-93ca-11d2-aa0d-00e098032b8c";

/// The attributes of a boot variable that firmware keeps.
const KEPT: [u8; 4] = [7, 0, 0, 0];

/// BootOrder of the example names 0005, which has no entry, and then these.
const ORDER: [u8; 10] = [5, 0, 1, 0, 2, 0, 3, 0, 0, 0];

/// A folder with the example's variables, which goes when it is dropped.
struct Folder(PathBuf);

impl Folder {
    fn new() -> Folder {
        static COUNT: AtomicU32 = AtomicU32::new(0);
        let name = format!("bootkeep-machine-{}-{}", process::id(), COUNT.fetch_add(1, Ordering::Relaxed));
        let folder = Folder(env::temp_dir().join(name));
        fs::create_dir_all(folder.variables()).unwrap();
        let example = Path::new(env!("CARGO_MANIFEST_DIR")).join("../../docs/examples/efivars");
        for file in fs::read_dir(example).unwrap() {
            let file = file.unwrap();
            fs::copy(file.path(), folder.variables().join(file.file_name())).unwrap();
        }
        folder
    }

    fn variables(&self) -> PathBuf {
        self.0.join("efivars")
    }

    fn state(&self) -> PathBuf {
        self.0.join("state")
    }

    fn options(&self) -> MachineOptions {
        MachineOptions::new().variables(self.variables()).state(self.state())
    }

    fn open(&self) -> Machine {
        self.options().open().unwrap()
    }

    fn put(&self, name: &str, data: &[u8]) {
        fs::write(self.variables().join(format!("{name}{GUID}")), [&KEPT, data].concat()).unwrap();
    }

    /// The data of each variable, its attributes first, by its name.
    fn files(&self) -> BTreeMap<String, Vec<u8>> {
        let files = fs::read_dir(self.variables()).unwrap().map(Result::unwrap);
        files
            .map(|file| {
                let name = file.file_name().into_string().unwrap();
                (name.strip_suffix(GUID).unwrap().to_owned(), fs::read(file.path()).unwrap())
            })
            .collect()
    }
}

impl Drop for Folder {
    fn drop(&mut self) {
        fs::remove_dir_all(&self.0).unwrap();
    }
}

/// The variables, with these data for some, or without them.
fn with(before: &BTreeMap<String, Vec<u8>>, changed: &[(&str, Option<&[u8]>)]) -> BTreeMap<String, Vec<u8>> {
    let mut wanted = before.clone();
    for (name, data) in changed {
        match data {
            Some(data) => wanted.insert((*name).to_owned(), [&KEPT, *data].concat()),
            None => wanted.remove(*name),
        };
    }
    wanted
}

fn mine() -> LoadOption {
    LoadOption::new(option::ACTIVE, "Mine", &["PciRoot(0x0)".parse().unwrap()], b"").unwrap()
}

fn numbers(numbers: &[u16]) -> Vec<EntryNumber> {
    numbers.iter().copied().map(EntryNumber).collect()
}

#[test]
fn what_is_there_is_read() {
    let folder = Folder::new();
    let mut machine = folder.open();
    let plan = machine.plan().unwrap();
    assert_eq!(plan.to_string(), "plan next 0004 normal 0001 0000");
    assert_eq!(plan.order, numbers(&[5, 1, 2, 3, 0]));
    assert_eq!((plan.current, plan.timeout), (Some(EntryNumber(1)), None));
    let entries = machine.entries().unwrap();
    let states: Vec<_> = entries.iter().map(|one| one.state).collect();
    use EntryState::{Inactive, Normal, OtherCategory, Undecodable};
    assert_eq!(states, [Normal, Normal, Inactive, Undecodable, OtherCategory]);
    let places: Vec<_> = entries.iter().map(|one| one.order_place).collect();
    assert_eq!(places, [Some(4), Some(1), Some(2), Some(3), None]);
    assert!(entries.iter().all(|one| one.is_next == (one.number.0 == 4) && one.is_current == (one.number.0 == 1)));
    assert_eq!(entries[3].option.clone().unwrap_err().fault, Fault::OptionNoTerminator);
    assert!(entries[2].to_string().starts_with("Boot0002 inactive Network PciRoot(0x0)"));
    for (name, data) in vars::list(&machine.variables().unwrap()).unwrap() {
        assert_eq!(data, &folder.files()[name][4..]);
    }
    assert_eq!(vars::get(&machine.kept().unwrap(), "BootNext").unwrap(), [7, 0, 0, 0, 4, 0]);
    assert!(!machine.owed().unwrap() && !folder.state().exists());
    assert_eq!(machine.place().unwrap(), MachinePlace::Folder);
}

#[test]
fn an_entry_is_added_first_and_undone() {
    let folder = Folder::new();
    let (before, mine) = (folder.files(), mine());
    let mut machine = folder.options().words(["mine", "Größe"]).open().unwrap();
    let addition = Addition::new(&mine).first();
    let change = machine.add(&addition, Mode::DryRun).unwrap();
    assert_eq!((change.is_changed, change.edited), (true, EditOutcome::Added(EntryNumber(5))));
    assert!(folder.files() == before && !folder.state().exists());
    let change = machine.add(&addition, Mode::Real).unwrap();
    assert_eq!((change.record, change.is_settled), (Some(1), false));
    assert_eq!(change.changes().unwrap().iter().map(|one| one.variable.to_string()).collect::<Vec<_>>(), ["Boot0005"]);
    assert_eq!(folder.files(), with(&before, &[("Boot0005", Some(mine.as_ref())), ("BootOrder", Some(&ORDER))]));
    let record = fs::read(folder.state().join("history/0000000001")).unwrap();
    assert!(record.ends_with(b"\x04\0\0\0mine\x07\0\0\0Gr\xc3\xb6\xc3\x9fe"));
    assert_eq!(machine.add(&addition, Mode::Real).unwrap().edited, EditOutcome::Present(EntryNumber(5)));
    assert!(machine.undo(false, Mode::Real).unwrap().is_changed);
    assert_eq!(folder.files(), before);
    assert_eq!(machine.undo(false, Mode::Real).unwrap_err().kind(), ErrorKind::NothingToUndo);
}

#[test]
fn a_loader_is_added_first() {
    let folder = Folder::new();
    let before = folder.files();
    let system = folder.0.join("system");
    let make = Path::new(env!("CARGO_MANIFEST_DIR")).join("../../docs/examples/make-system");
    assert!(process::Command::new(make).arg(&system).status().unwrap().success());
    let mut machine = folder.open();
    let file = Path::new("/boot/efi/EFI/debian/shimx64.efi");
    let loader = Loader { root: Some(&system), optional: b"a", ..Loader::new(file, "Mine") };
    let path = r"HD(1,GPT,5f2c1a9e-7d64-4b0e-9c3b-1e8f60a2d7c4,0x800,0x64000)/\EFI\debian\shimx64.efi";
    let wanted = LoadOption::new(option::ACTIVE, "Mine", &[path.parse().unwrap()], b"a").unwrap();
    assert_eq!(machine.loader(&loader).unwrap(), wanted);
    let disk = Some(Path::new("/dev/nvme0n1"));
    let on_disk = Loader { file: Path::new(r"EFI\debian\shimx64.efi"), disk, ..loader };
    assert_eq!(machine.loader(&on_disk).unwrap(), wanted);
    let ninth = Loader { part: NonZeroU32::new(9), ..on_disk };
    let refusal = machine.loader(&ninth).unwrap_err().refusal().unwrap();
    assert_eq!(refusal.fault, MachineFault::OtherPartition);
    let change = machine.add_loader(&LoaderAddition::new(loader).first(), Mode::Real).unwrap();
    assert_eq!(change.edited, EditOutcome::Added(EntryNumber(5)));
    assert_eq!(folder.files(), with(&before, &[("Boot0005", Some(wanted.as_ref())), ("BootOrder", Some(&ORDER))]));
    fs::write(system.join("boot/efi/EFI/text.efi"), "no image").unwrap();
    let addition = LoaderAddition::new(Loader { file: Path::new("/boot/efi/EFI/text.efi"), ..loader });
    let refusal = machine.add_loader(&addition, Mode::Real).unwrap_err().refusal().unwrap();
    assert_eq!(refusal.fault, MachineFault::NotStarted);
    assert_eq!(refusal.within.unwrap().0, Fault::ImageShortDosHeader);
    machine.add_loader(&LoaderAddition { force: true, ..addition }, Mode::DryRun).unwrap();
}

#[test]
fn each_change_of_entries() {
    let folder = Folder::new();
    let before = folder.files();
    let mut machine = folder.open();
    machine.remove(&numbers(&[1, 4]), Mode::Real).unwrap();
    let gone: [(&str, Option<&[u8]>); 4] =
        [("Boot0001", None), ("Boot0004", None), ("BootNext", None), ("BootOrder", Some(&[5, 0, 2, 0, 3, 0, 0, 0]))];
    assert_eq!(folder.files(), with(&before, &gone));
    machine.undo(false, Mode::Real).unwrap();
    machine.activate(&numbers(&[2]), Mode::Real).unwrap();
    assert_eq!(folder.files()["Boot0002"][4], 1);
    machine.deactivate(&numbers(&[2]), Mode::Real).unwrap();
    assert_eq!(folder.files(), before);
    machine.first(&numbers(&[0, 2]), Mode::Real).unwrap();
    assert_eq!(folder.files(), with(&before, &[("BootOrder", Some(&[0, 0, 2, 0, 5, 0, 1, 0, 3, 0]))]));
    let order = NewOrder { numbers: &numbers(&[9]), only: true, stale: true };
    machine.order(&order, Mode::Real).unwrap();
    machine.next(None, Mode::Real).unwrap();
    machine.timeout(Some(258), Mode::Real).unwrap();
    let changed: [(&str, Option<&[u8]>); 3] =
        [("BootOrder", Some(&[9, 0])), ("BootNext", None), ("Timeout", Some(&[2, 1]))];
    assert_eq!(folder.files(), with(&before, &changed));
    assert_eq!(machine.plan().unwrap().timeout, Some(258));
    machine.timeout(None, Mode::Real).unwrap();
    machine.next(Some(EntryNumber(1)), Mode::Real).unwrap();
    assert_eq!(folder.files(), with(&before, &[("BootOrder", Some(&[9, 0])), ("BootNext", Some(&[1, 0]))]));
}

#[test]
fn a_set_is_written() {
    let folder = Folder::new();
    let mut machine = folder.open();
    let wanted = vars::put(vars::EMPTY, "Boot0001", mine().as_ref()).unwrap();
    machine.write(&wanted, false, Mode::Real).unwrap();
    assert_eq!(folder.files().into_keys().collect::<Vec<_>>(), ["Boot0001", "BootCurrent"]);
    let error = machine.write(vars::EMPTY, false, Mode::Real).unwrap_err();
    assert_eq!(error.refusal().unwrap().fault, MachineFault::Empty);
    machine.write(vars::EMPTY, true, Mode::Real).unwrap();
    assert_eq!(folder.files().into_keys().collect::<Vec<_>>(), ["BootCurrent"]);
}

#[test]
fn requests_are_applied_once() {
    let folder = Folder::new();
    let before = folder.files();
    let mut machine = folder.open();
    assert_eq!(machine.update(&[], None, Mode::Real).unwrap_err().path(), Some(&*folder.state()));
    fs::create_dir(folder.state()).unwrap();
    let frame = |number, entry| frame::make(number, Request::Next(EntryNumber(entry))).unwrap();
    let order = numbers(&[5, 1, 2, 3, 0]);
    let expected = Expected { number: Some(0), journal: Some(None), order: Some(Some(&order)) };
    let replies = machine.update(&[frame(0, 0), frame(1, 1)].concat(), Some(&expected), Mode::Real).unwrap();
    assert_eq!(replies.iter().map(ToString::to_string).collect::<Vec<_>>(), ["applied Done 1", "applied Done 2"]);
    let replies = machine.update(&[frame(0, 0), frame(1, 0)].concat(), None, Mode::Real).unwrap();
    assert_eq!(replies.iter().map(|one| one.same).collect::<Vec<_>>(), [Same::Yes, Same::No]);
    assert_eq!(folder.files(), with(&before, &[("BootNext", Some(&[1, 0]))]));
    let journal = machine.journal().unwrap();
    assert_eq!((journal.next_number, journal.is_owed), (2, false));
    let unmet = [
        Expected { number: Some(0), ..Expected::default() },
        Expected { journal: Some(Some([0; 16])), ..Expected::default() },
        Expected { order: Some(None), ..Expected::default() },
    ];
    for expected in &unmet {
        let error = machine.update(&frame(2, 0), Some(expected), Mode::Real).unwrap_err();
        assert_eq!(error.kind(), ErrorKind::Unmet);
    }
    let expected = Expected { journal: Some(journal.identity), ..Expected::default() };
    machine.update(&frame(2, 0), Some(&expected), Mode::Real).unwrap();
    let error = machine.update(&frame(3, 0)[..5], None, Mode::Real).unwrap_err();
    assert_eq!(error.refusal().unwrap().fault, MachineFault::Library(Fault::StreamRest));
}

#[test]
fn what_was_cut_off_is_settled() {
    let folder = Folder::new();
    let mut machine = folder.open();
    machine.next(Some(EntryNumber(1)), Mode::Real).unwrap();
    let name = folder.variables().into_os_string().into_string().unwrap();
    let kept = machine.kept().unwrap();
    let state = MachineState { machine: name.as_bytes(), start: b"first", variables: &kept, journal: b"" };
    match Moves::edit(state, Edit::First(&numbers(&[0]))).unwrap().next_move().unwrap() {
        Some(Move::Journal(bytes)) => fs::write(folder.state().join("journal"), bytes).unwrap(),
        other => panic!("{other:?}"),
    }
    assert!(machine.owed().unwrap());
    assert!(machine.settle(Mode::Real).unwrap().is_settled);
    assert_eq!(folder.files()["BootOrder"][4..], [0, 0, 5, 0, 1, 0, 2, 0, 3, 0]);
    assert!(!machine.owed().unwrap());
}

/// What a variable file has, its attributes first: its name and its data.
fn stored(file: &Path) -> BTreeMap<String, Vec<u8>> {
    let kept = store::vars(&fs::read(file).unwrap()).unwrap();
    vars::list(&kept).unwrap().map(|(name, data)| (name.to_owned(), data.to_vec())).collect()
}

#[test]
fn a_variable_file_is_changed_and_undone() {
    let folder = Folder::new();
    let file = folder.0.join("vars.fd");
    fs::copy(Path::new(env!("CARGO_MANIFEST_DIR")).join("../../docs/examples/vars.fd"), &file).unwrap();
    let (before, mine) = (stored(&file), mine());
    let options = MachineOptions::new().variables(&file).state(folder.state());
    let mut machine = options.open().unwrap();
    assert_eq!(machine.place().unwrap(), MachinePlace::File);
    assert_eq!(machine.plan().unwrap().to_string(), "plan next - normal 0001 0000");
    let change = machine.add(&Addition::new(&mine).first(), Mode::Real).unwrap();
    assert_eq!((change.edited, change.record), (EditOutcome::Added(EntryNumber(2)), Some(1)));
    let order: &[u8] = &[2, 0, 1, 0, 0, 0];
    assert_eq!(stored(&file), with(&before, &[("Boot0002", Some(mine.as_ref())), ("BootOrder", Some(order))]));
    machine.undo(false, Mode::Real).unwrap();
    assert_eq!(stored(&file), before);
    let stream = frame::make(0, Request::Next(EntryNumber(1))).unwrap();
    let refusal = machine.update(&stream, None, Mode::Real).unwrap_err().refusal().unwrap();
    assert_eq!(refusal.fault, MachineFault::NoStart);
    let replies = options.start("1").open().unwrap().update(&stream, None, Mode::Real).unwrap();
    assert_eq!(replies.len(), 1);
    assert_eq!(stored(&file), with(&before, &[("BootNext", Some(&[1, 0]))]));
    fs::write(&file, "BVS1").unwrap();
    let refusal = machine.plan().unwrap_err().refusal().unwrap();
    assert_eq!(refusal.fault, MachineFault::Library(Fault::StoreNoVolume));
    assert_eq!(machine.place().unwrap_err().kind(), ErrorKind::Refused);
}

#[test]
fn faults_tell_all() {
    let folder = Folder::new();
    let before = folder.files();
    let mut machine = folder.open();
    let error = machine.first(&numbers(&[9]), Mode::Real).unwrap_err();
    let refusal = error.refusal().unwrap();
    assert_eq!((refusal.fault, refusal.place), (MachineFault::Library(Fault::UneditedMissing), Some(9)));
    assert_eq!((error.kind(), error.stage(), error.left()), (ErrorKind::Refused, MachineStage::Run, Left::Nothing));
    let mut other = folder.options().state(folder.0.join("none/state")).open().unwrap();
    let error = other.next(Some(EntryNumber(1)), Mode::Real).unwrap_err();
    assert_eq!((error.kind(), error.stage()), (ErrorKind::System, MachineStage::State));
    assert_eq!(error.system().map(io::Error::kind), Some(io::ErrorKind::NotFound));
    assert_eq!(error.path(), Some(&*folder.0.join("none/state")));
    assert!(std::error::Error::source(&error).is_some() && error.to_string().contains("none/state"));
    let file = folder.0.join("none.efi");
    let addition = LoaderAddition::new(Loader::new(&file, "Mine"));
    let error = machine.add_loader(&addition, Mode::Real).unwrap_err();
    assert_eq!((error.kind(), error.stage()), (ErrorKind::System, MachineStage::Loader));
    assert_eq!(machine.loader(&addition.loader).unwrap_err().path(), Some(&*file));
    assert_eq!(folder.options().name("").open().unwrap_err().kind(), ErrorKind::Refused);
    assert_eq!(folder.options().name("a\0b").open().unwrap_err().kind(), ErrorKind::Refused);
    assert_eq!(folder.files(), before);
}

#[test]
fn what_something_else_changed_is_not_undone() {
    let folder = Folder::new();
    let before = folder.files();
    let mut machine = folder.open();
    machine.next(Some(EntryNumber(1)), Mode::Real).unwrap();
    folder.put("BootOrder", &[0, 0]);
    let error = machine.undo(false, Mode::Real).unwrap_err();
    let changes = error.change().unwrap().changes().unwrap();
    assert_eq!(error.kind(), ErrorKind::Changed);
    assert_eq!(changes.iter().map(|one| one.variable.to_string()).collect::<Vec<_>>(), ["BootOrder"]);
    machine.undo(true, Mode::Real).unwrap();
    assert_eq!(folder.files(), before);
}

#[test]
fn a_lock_that_another_has_is_not_waited_for() {
    let folder = Folder::new();
    let mut machine = folder.options().without_records().open().unwrap();
    assert_eq!(machine.next(Some(EntryNumber(1)), Mode::Real).unwrap().record, None);
    // A set file that is kept in the state folder has that locked.
    let set = folder.state().join("set");
    fs::write(&set, vars::EMPTY).unwrap();
    let kept = SetFile::open(&set).unwrap();
    assert_eq!(machine.next(None, Mode::Real).unwrap_err().kind(), ErrorKind::Busy);
    drop(kept);
    machine.next(None, Mode::Real).unwrap();
}

#[test]
fn a_machine_may_be_sent_to_another_thread() {
    let folder = Folder::new();
    let mut machine = folder.open();
    let thread = std::thread::spawn(move || machine.plan().unwrap().to_string());
    assert_eq!(thread.join().unwrap(), "plan next 0004 normal 0001 0000");
}
