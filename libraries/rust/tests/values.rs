//! Values, by the cases of the repository: what the library accepts goes both ways, to the byte, and what it refuses is
//! refused with the fault and the place that the case states.

mod cases;

use bootkeep::frame::{self, Frame, Request, StreamFault};
use bootkeep::{
    option, path, vars, DevicePath, EntryNumber, Error, Fault, Keeper, LoadOption, Node, NodeFault, SetFile,
};
use cases::{cases, Case, Json};
use std::collections::HashSet;
use std::fs;
use std::io::{self, Read};
use std::os::unix::fs::PermissionsExt;
use std::path::PathBuf;

const SET: &[u8] = include_bytes!("../../../docs/examples/set");
const STREAM: &[u8] = include_bytes!("../../../docs/examples/stream");

/// What a call gives, or how it is refused, as cases state it: without the family of its fault.
fn told(given: Result<String, Error>, family: &str) -> String {
    let refusal = match given {
        Ok(text) => return text,
        Err(Error::Refused(refusal)) => refusal,
        Err(other) => panic!("{other}"),
    };
    let word = |fault: Fault, family| fault.to_string().replacen(family, "", 1);
    let place = |place: Option<usize>| place.map_or(String::new(), |place| format!(" {place}"));
    let within = refusal.within.map(|(fault, at)| format!(" {}{}", word(fault, "Path"), place(at)));
    format!("{}{}{}", word(refusal.fault, family), place(refusal.place), within.unwrap_or_default())
}

/// The set that a case states. `Boot0000..Boot270F` are all entries from the one to the other.
fn set_of(stated: &Json) -> Vec<u8> {
    let mut variables = vars::EMPTY.to_vec();
    for (name, data) in stated.members() {
        let names: Vec<String> = match name.split_once("..") {
            None => vec![name.clone()],
            Some((first, last)) => {
                let number = |name| EntryNumber::from_name(name).unwrap().0;
                (number(first)..=number(last)).map(|number| EntryNumber(number).name()).collect()
            }
        };
        for name in names {
            variables = vars::put(&variables, &name, &data.bytes()).unwrap();
        }
    }
    variables
}

fn show_path(data: &[u8]) -> Result<String, Error> {
    let end = path::check(data)?;
    if end < data.len() {
        let left = DevicePath::try_from(data).unwrap_err();
        assert!(matches!(left, Error::BytesLeft { place, count, .. } if (place, count) == (end, data.len() - end)));
    }
    let path = DevicePath::try_from(&data[..end])?;
    assert_eq!(path.as_ref(), &data[..end]);
    let nodes = path.nodes();
    assert_eq!(DevicePath::from_nodes(&nodes), Ok(path.clone()));
    assert_eq!(path.to_string().parse(), Ok(path.clone()));
    assert_eq!(path.exact_text()?.parse(), Ok(path));
    let ends = nodes.iter().filter(|node| node.is_end()).count();
    Ok(format!("instances {} nodes {} rest {}", ends + 1, nodes.len() - ends, data.len() - end))
}

#[test]
fn the_bytes_of_each_path_go_both_ways() {
    for case in cases("uefi_path.json", "read_path") {
        for data in case.inputs() {
            assert_eq!(told(show_path(&data), "Path"), case.answer());
        }
    }
}

#[test]
fn each_path_has_its_texts() {
    for (file, call) in [("uefi_text.json", "path_text"), ("named_texts.json", "named_text")] {
        for case in cases(file, call) {
            let data = case.get("input").bytes();
            let path = DevicePath::try_from(&data[..path::check(&data).unwrap()]).unwrap();
            let text = if call == "path_text" { path.exact_text().unwrap() } else { path.to_string() };
            assert_eq!(text, case.answer());
            assert_eq!(text.parse(), Ok(path));
        }
    }
}

#[test]
fn each_text_is_read() {
    for case in cases("named_texts.json", "read_named_text") {
        let path: Result<DevicePath, Error> = case.get("input").text().parse();
        assert_eq!(told(path.and_then(|path| path.exact_text()), "Text"), case.answer());
    }
}

#[test]
fn a_node_is_replaced() {
    let path: DevicePath = r"PciRoot(0x0)/Pci(0x1,0x0)/\EFI\a.efi".parse().unwrap();
    let other = path.replace_last(Node::file(r"\EFI\b (1), Größe/.efi").unwrap()).unwrap();
    assert_eq!(other.nodes()[..2], path.nodes()[..2]);
    assert_eq!((other.nodes()[2].kind(), other.nodes()[2].sub()), (4, 4));
    assert_eq!(other.to_string().parse(), Ok(other.clone()));
    assert_eq!(other.replace(2, path.nodes().remove(2)), Ok(path.clone()));
    assert_eq!(path.replace(3, path.nodes().remove(0)), Err(Error::Absent));
    let empty = DevicePath::from_nodes(&[]).unwrap();
    assert_eq!(empty.replace_last(path.nodes().remove(0)), Err(Error::Absent));
    let end = Node::new(0x7f, 2, Vec::new()).unwrap();
    assert_eq!(told(path.replace(0, end).map(|_| String::new()), "Path"), "BadEnd 0");
    assert_eq!(Node::file("ab\0"), Err(NodeFault::ZeroCharacter(2)));
    assert_eq!(Node::new(1, 1, vec![0; 65532]), Err(NodeFault::TooLong(65532)));
    assert_eq!(Node::new(1, 1, vec![0; 65531]).unwrap().data().len(), 65531);
}

fn show_option(data: &[u8]) -> Result<String, Error> {
    let option = LoadOption::try_from(data)?;
    assert_eq!(option.as_ref(), data);
    let (parts, paths, attributes) = (option.parts(), option.paths(), option.attributes());
    assert_eq!(LoadOption::from_units(attributes, &parts.units(), &paths, parts.optional).as_ref(), Ok(&option));
    if let Some(text) = option.description()? {
        assert_eq!(LoadOption::new(attributes, &text, &paths, parts.optional).as_ref(), Ok(&option));
        assert_eq!(option.with_description(&text).as_ref(), Ok(&option));
    }
    assert_eq!(option.with_paths(&paths).as_ref(), Ok(&option));
    let other = option.with_attributes(!attributes)?;
    assert_eq!(other.attributes(), !attributes);
    assert_eq!(other.with_attributes(attributes).as_ref(), Ok(&option));
    let units: Vec<String> = parts.units().iter().map(|unit| format!("{unit:04x}")).collect();
    let optional: String = parts.optional.iter().map(|byte| format!("{byte:02x}")).collect();
    let or_none = |text: String| if text.is_empty() { "-".to_owned() } else { text };
    let (units, optional) = (or_none(units.join(" ")), or_none(optional));
    Ok(format!("attributes {attributes:#010x} description {units} paths {} optional {optional}", paths.len()))
}

#[test]
fn the_bytes_of_each_option_go_both_ways() {
    for case in cases("uefi_option.json", "read_option") {
        for data in case.inputs() {
            assert_eq!(told(show_option(&data), "Option"), case.answer());
        }
    }
}

#[test]
fn values_are_hashed_by_their_bytes() {
    let path: DevicePath = "PciRoot(0x0)".parse().unwrap();
    let option = LoadOption::new(option::ACTIVE, "Mine", std::slice::from_ref(&path), b"").unwrap();
    let same = LoadOption::try_from(option.as_ref().to_vec()).unwrap();
    assert_eq!(HashSet::from([option.clone(), same]).len(), 1);
    assert_eq!(HashSet::from([path.clone(), path.clone()]).len(), 1);
    assert_eq!(format!("{option:?} {path:?}"), "LoadOption(0x00000001 Mine PciRoot(0x0)) DevicePath(PciRoot(0x0))");
    assert_eq!((option.is_active(), option.is_normal()), (true, true));
    assert_eq!(Vec::from(option.clone()), option.into_bytes());
    assert_eq!(Vec::from(path.clone()), path.into_bytes());
}

#[test]
fn names_have_their_numbers() {
    for case in cases("uefi_vars.json", "entry_name") {
        assert_eq!(EntryNumber(case.get("number").number() as u16).name(), case.answer());
    }
    for case in cases("uefi_vars.json", "entry_number") {
        let number = EntryNumber::from_name(&case.get("input").text());
        assert_eq!(number.map_or("none".to_owned(), |number| number.0.to_string()), case.answer());
    }
    assert_eq!("00aF".parse(), Ok(EntryNumber(0xaf)));
    for text in ["", "AF", "000AF", "0x0A", "+0AF", " 0AF", "00AG", "00ä"] {
        assert!(text.parse::<EntryNumber>().is_err(), "{text}");
    }
}

#[test]
fn each_set_has_its_plan() {
    for case in cases("uefi_vars.json", "plan") {
        let plan = vars::plan(&set_of(case.get("vars")));
        assert_eq!(told(plan.map(|plan| plan.to_string()), "Vars"), case.answer());
    }
    let plan = vars::plan(SET).unwrap();
    assert_eq!(plan.tried().count(), plan.normal.len() + 1);
    assert_eq!(plan.tried().next(), plan.next);
}

#[test]
fn changes_have_the_data_before_and_after() {
    for case in cases("uefi_vars.json", "boot_changes") {
        let (from, to) = (set_of(case.get("from")), set_of(case.get("to")));
        let digits = |data: Option<&[u8]>| {
            data.map_or("-".to_owned(), |data| data.iter().map(|byte| format!("{byte:02x}")).collect())
        };
        let changes = vars::changes(&from, &to).unwrap();
        let lines = changes.iter().map(|it| format!("{} {} {}\n", it.variable, digits(it.before), digits(it.after)));
        assert_eq!(lines.collect::<String>(), case.answer());
    }
}

#[test]
fn entries_have_their_options_and_places() {
    let entries = vars::entries(SET).unwrap();
    let plan = vars::plan(SET).unwrap();
    let mut normal: Vec<_> = entries.iter().filter(|it| it.state == vars::EntryState::Normal).collect();
    normal.retain(|it| it.order_place.is_some());
    normal.sort_by_key(|it| it.order_place);
    assert_eq!(normal.iter().map(|it| it.number).collect::<Vec<_>>(), plan.normal);
    for entry in &entries {
        assert_eq!(vars::get(SET, &entry.number.name()).as_deref(), Ok(entry.data));
        assert_eq!(vars::option(SET, entry.number), entry.option.clone().map_err(Error::Refused));
        assert_eq!(entry.is_next, Some(entry.number) == plan.next);
    }
    assert_eq!(vars::option(SET, EntryNumber(0xffff)), Err(Error::Absent));
    let odd = vars::put(vars::EMPTY, "BootOrder", b"1").unwrap();
    assert_eq!(told(vars::entries(&odd).map(|_| String::new()), "Vars"), "BadOrder");
}

/// The frame of what a case asks for.
fn frame_of(case: &Case) -> Result<Vec<u8>, Error> {
    let asked = case.get("request").text();
    let (kind, words) = asked.split_once(' ').unwrap_or((&asked, ""));
    let words: Vec<&str> = words.split(' ').filter(|word| !word.is_empty()).collect();
    let numbers: Vec<EntryNumber> =
        words.iter().filter(|word| word.len() == 4).map(|word| word.parse().unwrap()).collect();
    let option = words.last().filter(|word| word.len() > 4).map(|word| Json::Text((*word).to_owned()).bytes());
    let option = option.map(|data| LoadOption::try_from(data).unwrap());
    let option = option.as_ref();
    let request = match kind {
        "Add" => Request::Add(numbers[0], option.unwrap()),
        "Replace" => Request::Replace(numbers[0], option.unwrap()),
        "Remove" => Request::Remove(numbers[0]),
        "Order" => Request::Order(&numbers),
        "Next" => Request::Next(numbers[0]),
        "AddFree" => Request::AddFree(option.unwrap()),
        "AddFirst" => Request::AddFirst(option.unwrap()),
        "First" => Request::First(numbers[0]),
        other => panic!("{other}"),
    };
    frame::make(case.get("number").number(), request)
}

#[test]
fn each_request_has_its_frame() {
    for case in cases("boot_requests.json", "write_frame") {
        let digits = |frame: Vec<u8>| frame.iter().map(|byte| format!("{byte:02x}")).collect();
        assert_eq!(told(frame_of(&case).map(digits), "Frame"), case.answer());
    }
}

/// What a frame asks for, as cases show it.
fn asked(frame: &Frame) -> String {
    let (name, entry, option) = match frame.request() {
        Request::Add(entry, option) => ("Add", Some(entry), Some(option)),
        Request::Replace(entry, option) => ("Replace", Some(entry), Some(option)),
        Request::Remove(entry) => ("Remove", Some(entry), None),
        Request::Order(_) => ("Order", None, None),
        Request::Next(entry) => ("Next", Some(entry), None),
        Request::AddFree(option) => ("AddFree", None, Some(option)),
        Request::AddFirst(option) => ("AddFirst", None, Some(option)),
        Request::First(entry) => ("First", Some(entry), None),
    };
    let mut words = vec![frame.number().to_string(), name.to_owned()];
    if let Request::Order(order) = frame.request() {
        words.extend(order.iter().map(EntryNumber::to_string));
    }
    words.extend(entry.map(|entry| entry.to_string()));
    words.extend(option.map(|option| option.as_ref().iter().map(|byte| format!("{byte:02x}")).collect()));
    words.join(" ")
}

#[test]
fn each_frame_has_its_request() {
    for case in cases("boot_requests.json", "read_frame") {
        for bytes in case.inputs() {
            let read = Frame::try_from(&bytes[..]);
            if let Ok(frame) = &read {
                assert_eq!(frame.as_ref(), bytes);
                assert_eq!(frame::make(frame.number(), frame.request()).as_ref(), Ok(&bytes));
            }
            // The fault of an option is told as that of the option alone.
            let answer = case.answer();
            match answer.strip_prefix("Option ") {
                Some(fault) => assert_eq!(told(read.map(|frame| asked(&frame)), "Option"), fault),
                None => assert_eq!(told(read.map(|frame| asked(&frame)), "Frame"), answer),
            }
        }
    }
}

#[test]
fn a_frame_is_made_again_with_another_number() {
    let frame = Frame::try_from(frame::make(7, Request::Order(&[EntryNumber(3), EntryNumber(1)])).unwrap()).unwrap();
    assert_eq!(frame.as_ref(), b"\x42\x51\x01\x04\x07\0\0\0\x04\0\0\0\x03\0\x01\0");
    let again = frame::make(8, frame.request()).unwrap();
    assert_eq!(again, b"\x42\x51\x01\x04\x08\0\0\0\x04\0\0\0\x03\0\x01\0");
    assert_ne!(Frame::try_from(again).unwrap(), frame);
}

/// A stream that gives a byte at a time, and fails after its end.
struct Slow<'a>(&'a [u8]);

impl Read for Slow<'_> {
    fn read(&mut self, into: &mut [u8]) -> io::Result<usize> {
        match self.0.split_first() {
            Some((first, rest)) if !into.is_empty() => {
                into[0] = *first;
                self.0 = rest;
                Ok(1)
            }
            Some(_) => Ok(0),
            None => Err(io::ErrorKind::TimedOut.into()),
        }
    }
}

#[test]
fn a_stream_is_cut_as_a_run_does_it() {
    let damaged = (0..STREAM.len()).flat_map(|at| {
        [0, 0x42, 0xff].iter().map(move |byte| {
            let mut stream = STREAM.to_vec();
            stream[at] = *byte;
            stream
        })
    });
    let fronts = (0..=STREAM.len()).map(|end| STREAM[..end].to_vec());
    for stream in damaged.chain(fronts).step_by(7) {
        let wanted = bootkeep::run(SET, &stream).map(|_| stream.clone());
        let cut: Result<Vec<Vec<u8>>, StreamFault> = frame::read(&stream[..]).collect();
        let found = cut.map(|frames| frames.concat()).map_err(|fault| match fault {
            StreamFault::Refused(refusal) => Error::Refused(refusal),
            other => panic!("{other}"),
        });
        assert_eq!(found, wanted);
    }
}

#[test]
fn frames_come_as_soon_as_they_are_read() {
    let mut frames = frame::read(Slow(STREAM));
    let mut found = Vec::new();
    loop {
        match frames.next() {
            Some(Ok(frame)) => found.extend(frame),
            Some(Err(StreamFault::Io(error))) => break assert_eq!(error.kind(), io::ErrorKind::TimedOut),
            other => panic!("{other:?}"),
        }
    }
    assert_eq!(found, STREAM);
    assert!(frames.next().is_none());
}

/// A folder of its own, which goes with it.
struct Folder(PathBuf);

impl Folder {
    fn new(name: &str) -> Folder {
        let path = std::env::temp_dir().join(format!("bootkeep-{name}-{}", std::process::id()));
        fs::create_dir(&path).unwrap();
        fs::write(path.join("set"), SET).unwrap();
        Folder(path)
    }
}

impl Drop for Folder {
    fn drop(&mut self) {
        fs::remove_dir_all(&self.0).unwrap();
    }
}

#[test]
fn a_reply_is_given_once_it_is_stored() {
    let folder = Folder::new("stored");
    let path = folder.0.join("set");
    fs::set_permissions(&path, fs::Permissions::from_mode(0o640)).unwrap();
    let mut kept = SetFile::open(&path).unwrap();
    let mut keeper = Keeper::open(SET).unwrap();
    for frame in frame::read(STREAM) {
        let frame = frame.unwrap();
        assert_eq!(kept.deliver(&frame).unwrap(), keeper.deliver(&frame).unwrap());
        assert_eq!(fs::read(&path).unwrap(), kept.variables());
        assert_eq!(kept.variables(), keeper.set().unwrap());
    }
    assert_eq!(fs::metadata(&path).unwrap().permissions().mode() & 0o7777, 0o640);
    drop(kept);
    let mut kept = SetFile::open(&path).unwrap();
    let number = keeper.next_number().unwrap();
    let reply = kept.request(Request::Next(EntryNumber(0xffff))).unwrap();
    assert_eq!(reply.to_string(), format!("applied Missing {}", number + 1));
}

#[test]
fn no_link_is_followed() {
    let folder = Folder::new("links");
    let (path, other) = (folder.0.join("set"), folder.0.join("other"));
    fs::write(&other, "other").unwrap();
    std::os::unix::fs::symlink("other", folder.0.join("set.new")).unwrap();
    SetFile::open(&path).unwrap().request(Request::First(EntryNumber(1))).unwrap();
    assert_eq!(fs::read(&other).unwrap(), b"other");
    std::os::unix::fs::symlink("set", folder.0.join("link")).unwrap();
    assert!(matches!(SetFile::open(folder.0.join("link")), Err(bootkeep::FileError::NoFile)));
    assert!(matches!(SetFile::open(folder.0.join("none")), Err(bootkeep::FileError::Io(_))));
    assert!(matches!(SetFile::open(&other), Err(bootkeep::FileError::Library(Error::Refused(_)))));
}

#[test]
fn what_cannot_be_stored_has_not_happened() {
    let folder = Folder::new("refused");
    let mut kept = SetFile::open(folder.0.join("set")).unwrap();
    // A folder has the name of the file that is to be made.
    fs::create_dir(folder.0.join("set.new")).unwrap();
    assert!(matches!(kept.request(Request::First(EntryNumber(1))), Err(bootkeep::FileError::Io(_))));
    assert_eq!(kept.variables(), SET);
    fs::remove_dir(folder.0.join("set.new")).unwrap();
    let reply = kept.request(Request::First(EntryNumber(1))).unwrap();
    assert_eq!(reply.to_string(), "applied Done 1");
}
