//! Journals, notes and records, with bytes as docs/formats/machine.md has them.

use bootkeep::frame::{self, Request};
use bootkeep::record::{self, Standing};
use bootkeep::{notes, vars, Became, EntryNumber, Error, Fault, MachineState, Move, Moves, Refusal, Same};

const IDENTITY: [u8; 16] = *b"0123456789abcdef";

/// Notes with that identity and no digests.
const EMPTY: &[u8] = b"BKJ30123456789abcdef\0";

/// The journal of a machine `m` with no state, of which nothing is left to do.
const IDLE: &[u8] = b"BKJ2\x01\0\0\0m\0\0\0\0";

fn refused<T: std::fmt::Debug>(answer: Result<T, Error>) -> Refusal {
    match answer {
        Err(Error::Refused(why)) => why,
        other => panic!("{other:?}"),
    }
}

/// What a machine keeps: two entries, and a BootOrder of these numbers.
fn kept(order: [u8; 4]) -> Vec<u8> {
    let mut all = vars::EMPTY.to_vec();
    let value = [b"\x07\0\0\0".as_slice(), &order].concat();
    for (name, data) in [("Boot0000", b"\x07\0\0\0a".as_slice()), ("Boot0001", b"\x07\0\0\0b"), ("BootOrder", &value)] {
        all = vars::put(&all, name, data).unwrap();
    }
    all
}

#[test]
fn a_journal_is_idle_or_not() {
    assert!(bootkeep::journal_is_idle(b"").unwrap());
    assert!(bootkeep::journal_is_idle(IDLE).unwrap());
    assert!(!bootkeep::journal_is_idle(&[IDLE, b"\x02\x05start"].concat()).unwrap());
    let why = refused(bootkeep::journal_is_idle(&[EMPTY, IDLE].concat()));
    assert_eq!((why.fault, why.place), (Fault::JournalBadMagic, None));
}

#[test]
fn notes_are_at_the_start_of_a_file() {
    assert_eq!(notes::make(&IDENTITY).unwrap(), EMPTY);
    assert_eq!(notes::len(&[EMPTY, IDLE].concat()).unwrap(), 21);
    assert_eq!(notes::len(IDLE).unwrap(), 0);
    assert_eq!(notes::identity(EMPTY).unwrap(), Some(IDENTITY.to_vec()));
    assert_eq!(notes::identity(IDLE).unwrap(), None);
    let why = refused(notes::len(&EMPTY[..20]));
    assert_eq!((why.fault, why.place), (Fault::NotesTruncated, Some(20)));
}

/// A command that has run these frames over a machine whose moves are all made, and the journal that they leave.
fn command(journal: &[u8], frames: &[u8]) -> (Moves, Vec<u8>) {
    let variables = kept([0, 0, 1, 0]);
    let state = MachineState { machine: b"m", start: b"first", variables: &variables, journal };
    let (mut moves, mut left) = (Moves::requests(state, frames).unwrap(), journal.to_vec());
    while let Some(asked) = moves.next_move().unwrap() {
        if let Move::Journal(bytes) = asked {
            left = bytes;
        }
        moves.tell(Became::Done).unwrap();
    }
    (moves, left)
}

#[test]
fn a_frame_that_comes_again_is_told_from_another() {
    let next = |number, entry| frame::make(number, Request::Next(EntryNumber(entry))).unwrap();
    let (mut first, journal) = command(b"", &next(0, 1));
    let after = first.notes(EMPTY).unwrap();
    // The count, and the number before the digest.
    assert_eq!((after.len(), &after[20..25]), (33, &[1, 0, 0, 0, 0][..]));
    let (mut second, _) = command(&journal, &[next(0, 1), next(0, 0), next(1, 0)].concat());
    let told: Vec<Same> = (0..3).map(|place| second.same(&after, place).unwrap()).collect();
    assert_eq!(told, [Same::Yes, Same::No, Same::Unknown]);
    assert_eq!(second.same(b"", 0).unwrap(), Same::Unknown);
    assert!(matches!(second.same(&after, 3), Err(Error::Absent)));
    assert_eq!(second.notes(b"").unwrap(), b"");
}

#[test]
fn a_record_is_made_and_read() {
    let (before, after) = (kept([0, 0, 1, 0]), kept([1, 0, 0, 0]));
    let made = record::make(b"m", 2, &before, &after, &["bootvars", "first"]).unwrap();
    let fields: [&[u8]; 6] = [b"m", b"\x02\0\0\0\0\0\0\0", &before, &after, b"bootvars", b"first"];
    let mut spelled = b"BKH1".to_vec();
    for field in fields {
        spelled.extend((field.len() as u32).to_le_bytes());
        spelled.extend(field);
    }
    assert_eq!(made, spelled);
    let parts = record::parts(&made).unwrap();
    assert_eq!((parts.machine, parts.time, parts.before, parts.after), (&b"m"[..], 2, &before[..], &after[..]));
    assert_eq!(parts.words, ["bootvars", "first"]);
    let why = refused(record::parts(&made[..8]));
    assert_eq!((why.fault, why.place), (Fault::RecordTruncated, Some(4)));
    let why = refused(record::make(b"", 2, &before, &after, &[]));
    assert_eq!((why.fault, why.place), (Fault::MachineBadName, None));
}

#[test]
fn a_change_is_undone_by_its_record() {
    let (before, after) = (kept([0, 0, 1, 0]), kept([1, 0, 0, 0]));
    let made = record::make(b"m", 2, &before, &after, &[]).unwrap();
    assert_eq!(record::standing(&made, &after).unwrap(), Standing::Unchanged);
    assert_eq!(record::standing(&made, &before).unwrap(), Standing::NotMade);
    assert_eq!(record::standing(&made, &kept([0, 0, 0, 0])).unwrap(), Standing::Changed);
    assert_eq!(record::back(&made, &after).unwrap(), before);
    let timeout = |set: &[u8]| vars::put(set, "Timeout", b"\x07\0\0\0\x05\0").unwrap();
    assert_eq!(record::back(&made, &timeout(&after)).unwrap(), timeout(&before));
    let why = refused(record::back(&made, b"BVS2"));
    assert_eq!((why.fault, why.place), (Fault::SetBadMagic, Some(0)));
}
