//! Commands over a machine whose moves their caller makes, over one in memory.

use bootkeep::frame::{self, Request};
use bootkeep::vars::{Edit, EditOutcome};
use bootkeep::{vars, Became, End, EntryNumber, Error, Fault, MachineState, Move, Moves, Reply};
use std::collections::BTreeMap;

const NEW: [u8; 4] = [7, 0, 0, 0];

/// A machine in memory.
#[derive(Clone, Default, PartialEq, Debug)]
struct Machine {
    variables: BTreeMap<String, Vec<u8>>,
    journal: Vec<u8>,
}

impl Machine {
    fn new() -> Machine {
        let mut machine = Machine::default();
        machine.put("Boot0001", b"any");
        machine.put("Boot0002", b"other");
        machine.put("BootOrder", &[1, 0, 2, 0]);
        machine
    }

    fn put(&mut self, name: &str, data: &[u8]) {
        self.variables.insert(name.to_owned(), [&NEW, data].concat());
    }

    fn set(&self) -> Vec<u8> {
        let mut all = vars::EMPTY.to_vec();
        for (name, data) in &self.variables {
            all = vars::put(&all, name, data).unwrap();
        }
        all
    }

    fn make(&mut self, asked: Move) {
        match asked {
            Move::Set { name, data } => {
                self.variables.insert(name, data);
            }
            Move::Delete { name } => {
                self.variables.remove(&name);
            }
            Move::Journal(bytes) => self.journal = bytes,
            other => panic!("{other:?}"),
        }
    }

    /// How a command that runs this ended of which as many moves are made, or that it was cut off then.
    fn run(&mut self, wanted: Wanted<'_>, count: usize) -> Option<End> {
        let variables = self.set();
        let journal = self.journal.clone();
        let state = MachineState { machine: b"m", start: b"first", variables: &variables, journal: &journal };
        let begun = match wanted {
            Wanted::Frames(stream) => Moves::requests(state, stream),
            Wanted::Edit(edit) => Moves::edit(state, edit),
            Wanted::Restore(back) => Moves::restore(state, back),
            Wanted::Nothing => Moves::settle(state),
        };
        let mut moves = begun.unwrap();
        for _ in 0..count {
            match moves.next_move().unwrap() {
                Some(asked) => self.make(asked),
                None => return Some(moves.end().unwrap()),
            }
            moves.tell(Became::Done).unwrap();
        }
        None
    }
}

/// What a command runs.
#[derive(Clone, Copy)]
enum Wanted<'a> {
    Nothing,
    Frames(&'a [u8]),
    Edit(Edit<'a>),
    Restore(&'a [u8]),
}

/// The end of a command that had nothing to answer.
const DONE: End = End::Done { replies: Vec::new(), edited: EditOutcome::Done };

fn stream() -> Vec<u8> {
    let remove = frame::make(0, Request::Remove(EntryNumber(1))).unwrap();
    let next = frame::make(1, Request::Next(EntryNumber(2))).unwrap();
    [remove, next].concat()
}

fn wanted() -> BTreeMap<String, Vec<u8>> {
    let mut machine = Machine::default();
    machine.put("Boot0002", b"other");
    machine.put("BootOrder", &[2, 0]);
    machine.put("BootNext", &[2, 0]);
    machine.variables
}

#[test]
fn requests_change_a_machine() {
    let mut machine = Machine::new();
    match machine.run(Wanted::Frames(&stream()), 100) {
        Some(End::Done { replies, .. }) => {
            let lines: Vec<String> = replies.iter().map(Reply::to_string).collect();
            assert_eq!(lines, ["applied Done 1", "applied Done 2"]);
        }
        other => panic!("{other:?}"),
    }
    assert_eq!(machine.variables, wanted());
}

#[test]
fn what_a_cut_leaves_is_settled() {
    let before = Machine::new();
    for count in 0..5 {
        let mut machine = before.clone();
        assert_eq!(machine.run(Wanted::Frames(&stream()), count), None);
        assert_eq!(machine.run(Wanted::Nothing, 100), Some(DONE));
        let is_begun = count > 0;
        assert_eq!(machine.variables, if is_begun { wanted() } else { before.variables.clone() });
    }
}

#[test]
fn an_edit_changes_a_machine() {
    let mut machine = Machine::new();
    assert_eq!(machine.run(Wanted::Edit(Edit::Remove(&[EntryNumber(1)])), 100), Some(DONE));
    assert_eq!(machine.run(Wanted::Edit(Edit::Next(Some(EntryNumber(2)))), 100), Some(DONE));
    assert_eq!(machine.variables, wanted());
    let refused = machine.run(Wanted::Edit(Edit::First(&[EntryNumber(1)])), 100);
    assert_eq!(refused, Some(End::RunRefused(Fault::UneditedMissing)));
    assert_eq!(machine.variables, wanted());
}

#[test]
fn what_was_read_before_a_change_undoes_it() {
    let before = Machine::new();
    let mut machine = before.clone();
    machine.run(Wanted::Frames(&stream()), 100);
    assert_ne!(machine.variables, before.variables);
    assert_eq!(machine.run(Wanted::Restore(&before.set()), 100), Some(DONE));
    assert_eq!(machine.variables, before.variables);
}

#[test]
fn what_has_no_data_is_not_brought_back() {
    let mut back = Machine::new();
    back.put("BootNext", b"");
    let state = MachineState { machine: b"m", start: b"s", variables: vars::EMPTY, journal: b"" };
    match Moves::restore(state, &back.set()) {
        Err(Error::Refused(refusal)) => assert_eq!(refusal.fault, Fault::MachineNoData),
        other => panic!("{other:?}"),
    }
}

#[test]
fn an_edit_that_is_cut_off_is_settled() {
    let before = Machine::new();
    for count in 0..5 {
        let mut machine = before.clone();
        assert_eq!(machine.run(Wanted::Edit(Edit::Remove(&[EntryNumber(1)])), count), None);
        assert_eq!(machine.run(Wanted::Nothing, 100), Some(DONE));
        assert_eq!(machine.variables.contains_key("Boot0001"), count == 0);
    }
}

#[test]
fn a_refusal_takes_the_change_back() {
    let machine = Machine::new();
    let variables = machine.set();
    let state = MachineState { machine: b"m", start: b"first", variables: &variables, journal: b"" };
    let mut moves = Moves::requests(state, &stream()).unwrap();
    let mut there = machine.clone();
    let mut became = vec![Became::Done, Became::Done, Became::Refused(9)].into_iter();
    while let Some(asked) = moves.next_move().unwrap() {
        let told = became.next().unwrap_or(Became::Done);
        if told == Became::Done {
            there.make(asked);
        }
        moves.tell(told).unwrap();
    }
    assert_eq!(moves.end(), Ok(End::TakenBack(9)));
    assert_eq!(there.variables, machine.variables);
}

#[test]
fn what_is_none_is_refused() {
    let whole = MachineState { machine: b"m", start: b"s", variables: vars::EMPTY, journal: b"" };
    let faults = [
        (MachineState { machine: b"", ..whole }, Fault::MachineBadName),
        (MachineState { start: b"a b", ..whole }, Fault::MachineBadStart),
        (MachineState { variables: b"", ..whole }, Fault::SetBadMagic),
        (MachineState { journal: b"BKJ9", ..whole }, Fault::JournalBadMagic),
        (MachineState { journal: b"BKJ2\x01\0\0\0x\0\0\0\0", ..whole }, Fault::JournalOfAnother),
    ];
    for (state, fault) in faults {
        match Moves::settle(state) {
            Err(Error::Refused(why)) => assert_eq!(why.fault, fault),
            other => panic!("{other:?}"),
        }
    }
}

#[test]
fn nothing_is_told_of_no_move() {
    let state = MachineState { machine: b"m", start: b"s", variables: vars::EMPTY, journal: b"" };
    let mut moves = Moves::settle(state).unwrap();
    assert_eq!(moves.tell(Became::Done), Err(Error::Absent));
    assert_eq!(moves.end(), Err(Error::Absent));
    assert_eq!(moves.next_move(), Ok(None));
    assert_eq!(moves.end(), Ok(DONE));
}
