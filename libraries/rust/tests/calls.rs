//! Calls of each family, over the examples.

use bootkeep::frame::{self, Request};
use bootkeep::image::{self, Effect, Stage};
use bootkeep::vars::{BootVariable, ChangeKind, EntryState};
use bootkeep::{option, path, store, vars, DevicePath, EntryNumber, Error, Fault, Keeper, LoadOption, Outcome, Reply};
use std::collections::HashSet;

const SET: &[u8] = include_bytes!("../../../docs/examples/set");
const STREAM: &[u8] = include_bytes!("../../../docs/examples/stream");
const TEXT: &str = r"HD(1,GPT,5C1E6A3B-7D2F-4A8C-9B1E-2F3A4B5C6D7E,0x800,0x100000)/\EFI\a.efi";

fn new_option() -> LoadOption {
    let path: DevicePath = TEXT.parse().unwrap();
    LoadOption::new(option::ACTIVE, "Bööt", &[path], b"\x01").unwrap()
}

#[test]
fn a_path_has_its_text_again() {
    let bytes = path::parse(TEXT).unwrap();
    assert_eq!(path::check(&bytes), Ok(bytes.len()));
    assert_eq!(path::parse(&path::text(&bytes).unwrap().0), Ok(bytes));
}

#[test]
fn the_first_fault_of_an_image_is_told() {
    let fault = image::check(b"").unwrap().unwrap();
    assert_eq!((fault.refusal.fault, fault.refusal.place), (Fault::ImageEmpty, Some(0)));
    assert_eq!((fault.stage, fault.effect), (Stage::BootManager, Effect::Refused));
    let fault = image::check(&[b'M'; 64]).unwrap().unwrap();
    assert_eq!((fault.refusal.fault, fault.refusal.place), (Fault::ImageDosSignature, Some(0)));
    match image::digest(b"MZ").unwrap_err() {
        Error::Refused(refusal) => assert_eq!(refusal.fault, Fault::ImageShortDosHeader),
        other => panic!("{other}"),
    }
}

#[test]
fn signature_lists_are_found() {
    let mut bytes = vec![7; 16];
    for number in [28 + 2 + 40, 2, 20_u32] {
        bytes.extend(number.to_le_bytes());
    }
    bytes.extend(b"ab");
    bytes.extend([1; 40]);
    let bytes = bytes.repeat(2);
    let lists = image::signature_lists(&bytes).unwrap();
    assert_eq!(lists.len(), 2);
    assert_eq!((lists[1].place, lists[1].kind, lists[1].header), (70, &[7; 16][..], &b"ab"[..]));
    assert_eq!((lists[1].signature_len, lists[1].signatures), (20, &[1; 40][..]));
    assert_eq!(image::signature_lists(&bytes[..71]).unwrap_err(), refused_at(Fault::ListsCutHeader, 70));
}

#[test]
fn an_option_has_its_parts_again() {
    let option = new_option();
    let parts = option::parts(option.as_ref()).unwrap();
    assert_eq!(parts, option.parts());
    assert_eq!((parts.attributes, parts.optional), (1, &b"\x01"[..]));
    assert_eq!(parts.paths().unwrap(), [&path::parse(TEXT).unwrap()[..]]);
    assert_eq!(option::make(1, "a\0", parts.list, b"").unwrap_err(), refused(Fault::OptionZeroUnit));
    assert_eq!(option::make(1, "a", b"", b"").unwrap_err(), refused(Fault::OptionEmptyList));
}

#[test]
fn a_description_goes_both_ways() {
    let list = path::parse(TEXT).unwrap();
    for text in ["", "Linux", "Bööt \\00f6", "\u{1f427}\u{ffff}\u{1b}", "\\"] {
        let made = option::make(5, text, &list, b"x").unwrap();
        assert_eq!(option::description(&made).unwrap(), text);
        let parts = option::parts(&made).unwrap();
        assert_eq!(parts.units(), text.encode_utf16().collect::<Vec<_>>());
        assert_eq!(option::make(parts.attributes, &option::description(&made).unwrap(), parts.list, b"x"), Ok(made));
    }
    assert_eq!(option::description_line(new_option().as_ref()).unwrap(), r"B\00f6\00f6t");
}

#[test]
fn units_that_are_no_text_go_both_ways() {
    let list = path::parse(TEXT).unwrap();
    for units in [&[0xd83d][..], &[0xdc27], &[0xdc27, 0xd83d], &[0x41, 0xd83d, 0x42]] {
        let made = option::make_units(5, units, &list, b"x").unwrap();
        let parts = option::parts(&made).unwrap();
        assert_eq!(
            (parts.attributes, parts.units(), parts.list, parts.optional),
            (5, units.to_vec(), &list[..], &b"x"[..])
        );
        assert_eq!(option::description(&made).unwrap_err(), refused(Fault::OptionNotUtf16));
    }
    assert_eq!(option::make_units(1, &[0x41, 0], &list, b"").unwrap_err(), refused(Fault::OptionZeroUnit));
}

#[test]
fn what_is_printed_for_a_person_is_read() {
    let text = r"Scsi(0x1,0x2)/File(\Größe.efi)";
    let bytes = path::parse(text).unwrap();
    assert_eq!(bytes[..8], [3, 2, 8, 0, 1, 0, 2, 0]);
    assert_eq!(path::names(&bytes).unwrap(), (text.to_owned(), bytes.len()));
    let exact = path::text(&bytes).unwrap().0;
    assert_eq!((path::parse(&exact), path::parse_exact(&exact)), (Ok(bytes.clone()), Ok(bytes)));
    assert!(path::parse_exact(text).is_err());
    let unknown = bootkeep::Refusal { fault: Fault::TextUnknownName, place: Some(14), within: None };
    assert_eq!(path::parse("Scsi(0x1,0x2)/Scssi(0x1,0x2)"), Err(Error::Refused(unknown)));
}

fn refused(fault: Fault) -> Error {
    Error::Refused(bootkeep::Refusal { fault, place: None, within: None })
}

fn refused_at(fault: Fault, place: usize) -> Error {
    Error::Refused(bootkeep::Refusal { fault, place: Some(place), within: None })
}

#[test]
fn what_is_no_option_is_refused() {
    assert_eq!(option::parts(b"").unwrap_err(), refused(Fault::OptionShort));
    let within = match option::parts(&[1, 0, 0, 0, 1, 0, 0, 0, 0x7f]) {
        Err(Error::Refused(why)) => (why.fault, why.place, why.within),
        other => panic!("{other:?}"),
    };
    assert_eq!(within, (Fault::OptionPath, Some(8), Some((Fault::PathShortHeader, Some(0)))));
}

#[test]
fn a_variable_is_put_and_removed() {
    let with = vars::put(SET, "Nothing", b"1").unwrap();
    assert_eq!(vars::get(&with, "Nothing").unwrap(), b"1");
    assert_eq!(vars::remove(&with, "Nothing").unwrap(), SET);
    assert_eq!(vars::put(SET, "Nothing", b"").unwrap_err(), refused(Fault::PutEmptyData));
}

#[test]
fn an_entry_is_put_first() {
    let number = vars::lowest_free(SET).unwrap().unwrap();
    let frame = frame::make(0, Request::AddFirst(&new_option())).unwrap();
    let (after, _) = bootkeep::run(SET, &frame).unwrap();
    let after = vars::remove(&after, "BootKeepState").unwrap();
    let order = vars::get(&after, "BootOrder").unwrap();
    assert_eq!(order.chunks(2).filter(|one| *one == number.0.to_le_bytes()).count(), 1);
    assert_eq!(vars::plan(&after).unwrap().normal[0], number);
    assert_eq!(vars::entry(&after, number), Ok(EntryState::Normal));
    // BootOrder has this number in front already, though there is no such entry before.
    let changes = vars::changes(SET, &after).unwrap();
    assert_eq!(changes.len(), 1);
    assert_eq!((changes[0].variable, changes[0].kind), (BootVariable::Entry(number), ChangeKind::Added));
    assert_eq!((changes[0].before, changes[0].after), (None, Some(new_option().as_ref())));
    assert_eq!(vars::option(&after, number), Ok(new_option()));
    assert_eq!(vars::entry(SET, number), Ok(EntryState::Absent));
    assert_eq!(vars::get(SET, "Nothing"), Err(Error::Absent));
}

#[test]
fn the_variables_are_those_that_are_got() {
    let variables = vars::list(SET).unwrap();
    assert!(variables.len() > 0);
    for (name, data) in variables {
        assert_eq!(vars::get(SET, name).unwrap(), data);
    }
}

#[test]
fn a_keeper_comes_to_what_a_run_comes_to() {
    let option = new_option();
    let frames = [
        frame::make(0, Request::AddFree(&option)).unwrap(),
        frame::make(1, Request::Remove(EntryNumber(0xFFFF))).unwrap(),
        frame::make(2, Request::First(EntryNumber(0xFFFF))).unwrap(),
        frame::make(4, Request::Order(&[])).unwrap(),
    ];
    let mut keeper = Keeper::open(SET).unwrap();
    let free = vars::lowest_free(SET).unwrap();
    let replies: Vec<_> = frames.iter().map(|frame| keeper.deliver(frame).unwrap()).collect();
    match &replies[0] {
        Reply::Applied { outcome, entry, next_number, .. } => {
            assert_eq!((*outcome, *entry, *next_number), (Outcome::Done, free, 1));
        }
        other => panic!("{other:?}"),
    }
    let others: Vec<_> = replies[1..].iter().map(Reply::to_string).collect();
    assert_eq!(others, ["applied Missing 2", "applied Missing 3", "waiting 3"]);
    assert_eq!(keeper.set().unwrap(), bootkeep::run(SET, &frames.concat()).unwrap().0);
    let malformed = keeper.deliver(b"").unwrap();
    assert!(matches!(malformed, Reply::Malformed { fault: Fault::FrameShort, option: None, .. }));
    assert_eq!(malformed.to_string(), "malformed Short");
    assert_eq!(keeper.next_number(), Ok(3));
}

#[test]
fn a_request_puts_an_entry_first() {
    let mut others = vars::plan(SET).unwrap().normal;
    let last = others.pop().unwrap();
    let frames =
        [frame::make(0, Request::AddFirst(&new_option())).unwrap(), frame::make(1, Request::First(last)).unwrap()];
    let (after, lines) = bootkeep::run(SET, &frames.concat()).unwrap();
    let number = vars::lowest_free(SET).unwrap().unwrap();
    assert_eq!(lines, format!("applied Done {number} 1\napplied Done 2\n"));
    assert_eq!(vars::plan(&after).unwrap().normal, [vec![last, number], others].concat());
}

#[test]
fn faults_have_words() {
    assert_eq!(path::check(b"").unwrap_err().to_string(), "PathNoEnd at 0");
    assert_eq!(Fault::Other(0xFFFF).to_string(), "0xffff");
    assert_eq!(Fault::Other(Fault::PathNoEnd.number()), Fault::PathNoEnd);
    assert_eq!(HashSet::from([Fault::Other(0x0101), Fault::from(0x0101), Fault::PathNoEnd]).len(), 1);
    assert_ne!(Fault::from(0xFFFF), Fault::PathNoEnd);
    let within = option::parts(&[1, 0, 0, 0, 1, 0, 0, 0, 0x7f]).unwrap_err();
    assert_eq!(within.to_string(), "OptionPath at 8: PathShortHeader at 0");
}

#[test]
fn a_path_has_its_names() {
    let path = path::parse("PciRoot(0x0)").unwrap();
    assert_eq!(path::names(&path).unwrap(), ("PciRoot(0x0)".to_owned(), path.len()));
}

#[test]
fn a_file_has_its_letters() {
    let name: Vec<u8> = "\\Größe.efi\0".encode_utf16().flat_map(u16::to_le_bytes).collect();
    let header = [4, 4, u8::try_from(4 + name.len()).unwrap(), 0];
    let path = [&header[..], &name, &[0x7f, 0xff, 4, 0]].concat();
    assert_eq!(path::names(&path).unwrap(), ("File(\\Größe.efi)".to_owned(), path.len()));
}

#[test]
fn a_variable_file_has_what_it_is_given() {
    let file = include_bytes!("../../../docs/examples/vars.fd");
    let kept = store::vars(file).unwrap();
    assert_eq!(store::with(file, &kept).unwrap(), file);
    let wanted = vars::put(vars::EMPTY, "BootOrder", b"\x07\0\0\0\x01\0").unwrap();
    let after = store::with(file, &wanted).unwrap();
    let found = store::vars(&after).unwrap();
    assert_eq!(vars::get(&found, "BootOrder").unwrap(), b"\x07\0\0\0\x01\0");
    assert_eq!(vars::entries(&found).unwrap().len(), 0);
    let no_data = vars::put(vars::EMPTY, "BootNext", b"1234").unwrap();
    assert_eq!(store::vars(b""), Err(refused(Fault::StoreNoVolume)));
    assert_eq!(store::with(b"", &kept), Err(refused(Fault::StoreNoVolume)));
    assert_eq!(store::with(file, b""), Err(refused_at(Fault::SetBadMagic, 0)));
    assert_eq!(store::with(file, &no_data), Err(refused(Fault::MachineNoData)));
}

#[test]
fn what_is_named_has_its_state() {
    let named = vars::named(SET).unwrap();
    let plan = vars::plan(SET).unwrap();
    assert_eq!((named[0].variable, Some(named[0].number)), (BootVariable::Next, plan.next));
    let normal = named[1..].iter().filter(|one| one.state == EntryState::Normal).map(|one| one.number);
    assert_eq!(normal.collect::<Vec<_>>(), plan.normal);
}

#[test]
fn replies_have_the_lines_of_a_run() {
    let mut keeper = Keeper::open(SET).unwrap();
    let (mut rest, mut lines) = (STREAM, Vec::new());
    while !rest.is_empty() {
        let len = u32::from_le_bytes(rest[8..12].try_into().unwrap()) as usize;
        let (frame, others) = rest.split_at(12 + len);
        lines.push(keeper.deliver(frame).unwrap().to_string());
        rest = others;
    }
    assert_eq!(lines, bootkeep::run(SET, STREAM).unwrap().1.lines().collect::<Vec<_>>());
}

#[test]
fn a_keeper_goes_over_to_another_thread() {
    let mut keeper = Keeper::open(SET).unwrap();
    let plan = std::thread::spawn(move || {
        keeper.prepare().unwrap();
        keeper.hand().unwrap()
    });
    assert_eq!(plan.join().unwrap(), Some(vars::plan(SET).unwrap()));
}

#[test]
fn a_run_has_a_line_for_each_frame() {
    let (after, lines) = bootkeep::run(SET, STREAM).unwrap();
    assert!(lines.lines().count() > 0 && !after.is_empty());
    assert_eq!(bootkeep::version(), 1);
}
