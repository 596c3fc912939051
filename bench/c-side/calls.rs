//! Makes the calls that the lines of standard input ask for by the crate for Rust, and says on a line each what they
//! answer, as calls.c does by the header. What the crate's types leave no room for, as text that isn't UTF-8, a kind of
//! request that there isn't and a keeper that is closed, is answered here.

use bootkeep::frame::{Frame, Request};
use bootkeep::record::Standing;
use bootkeep::vars::{Addition, BootVariable, ChangeKind, Edit, EditOutcome, EntryState, NewOrder, Plan, Position};
use bootkeep::{
    frame, image, notes, option, path, record, store, vars, Became, End, EntryNumber, Error, Fault, Keeper, LoadOption,
    MachineState, Move, Moves, Outcome, Refusal, Reply, Same,
};
use std::io::{self, BufRead};

const NO_ENTRY: u32 = 0x1_0000;
const VARIABLE_ORDER: u32 = 0x1_0001;
const VARIABLE_NEXT: u32 = 0x1_0002;
const VARIABLE_TIMEOUT: u32 = 0x1_0003;
const CLOSED: u32 = 5;

fn main() {
    for line in io::stdin().lock().lines() {
        let line = line.expect("standard input is text");
        let mut words = line.split(' ');
        let name = words.next().unwrap_or_default();
        let words: Vec<&str> = words.collect();
        if name == "keeper" {
            keep(&words);
        } else if name == "moves" {
            command_machine(&words);
        } else if name == "noted" {
            note_commands(&words);
        } else {
            let given: Vec<Vec<u8>> = words.iter().map(|word| bytes_of(word)).collect();
            println!("{}", said(made(name, &given)));
        }
    }
}

fn bytes_of(digits: &str) -> Vec<u8> {
    let digits = if digits == "-" { "" } else { digits };
    let pairs = (0..digits.len()).step_by(2).map(|at| &digits[at..at + 2]);
    pairs.map(|pair| u8::from_str_radix(pair, 16).expect("two digits")).collect()
}

fn digits(bytes: &[u8]) -> String {
    if bytes.is_empty() {
        return "-".to_owned();
    }
    bytes.iter().map(|byte| format!("{byte:02x}")).collect()
}

fn digits_of(numbers: impl IntoIterator<Item = EntryNumber>) -> String {
    digits(&numbers.into_iter().flat_map(|number| number.0.to_le_bytes()).collect::<Vec<_>>())
}

fn digits_of_longs(numbers: impl IntoIterator<Item = u32>) -> String {
    digits(&numbers.into_iter().flat_map(u32::to_le_bytes).collect::<Vec<_>>())
}

fn number(bytes: &[u8]) -> u32 {
    bytes.iter().rev().fold(0, |number, byte| number << 8 | u32::from(*byte))
}

fn said(answer: Result<String, Error>) -> String {
    match answer {
        Ok(told) => format!("done {told}").trim_end().to_owned(),
        Err(Error::Refused(why)) => format!("refused {}", numbers_of(Some(why))),
        Err(Error::Absent) => "status 3".to_owned(),
        Err(Error::NoMemory) => "status 4".to_owned(),
        Err(Error::Closed) => format!("status {CLOSED}"),
        Err(other) => format!("status {other}"),
    }
}

/// The four numbers of a refusal, or of none.
fn numbers_of(refusal: Option<Refusal>) -> String {
    let place = |place: Option<usize>| place.unwrap_or(usize::MAX);
    let kind = refusal.map_or(0, |why| why.fault.number());
    let within = refusal.and_then(|why| why.within);
    let inner = within.map_or(0, |(fault, _)| fault.number());
    format!(
        "{kind} {inner} {} {}",
        place(refusal.and_then(|why| why.place)),
        place(within.and_then(|(_, place)| place))
    )
}

fn refused<T>(fault: Fault, place: Option<usize>) -> Result<T, Error> {
    Err(Error::Refused(Refusal { fault, place, within: None }))
}

fn text_of(bytes: &[u8], fault: Fault) -> Result<&str, Error> {
    std::str::from_utf8(bytes).or_else(|error| refused(fault, Some(error.valid_up_to())))
}

fn made(name: &str, given: &[Vec<u8>]) -> Result<String, Error> {
    let first = &given[0][..];
    match name {
        "status_word" => word(&Error::Other(number(first)).to_string().replace("the library answers ", "")),
        "refusal_word" => word(&Fault::Other(number(first)).to_string()),
        "outcome_word" => word(&Outcome::Other(number(first)).to_string()),
        "path_text" => path::text(first).map(|(text, taken)| format!("{} {taken}", digits(text.as_bytes()))),
        "path_names" => path::names(first).map(|(text, taken)| format!("{} {taken}", digits(text.as_bytes()))),
        "path_check" => path::check(first).map(|taken| taken.to_string()),
        "path_parse" => path::parse(text_of(first, Fault::TextNotUtf8)?).map(|bytes| digits(&bytes)),
        "path_parse_exact" => path::parse_exact(text_of(first, Fault::TextNotUtf8)?).map(|bytes| digits(&bytes)),
        "option_parts" => option_parts(first),
        "option_description" => option::description_line(first).map(|text| digits(text.as_bytes())),
        "option_description_utf8" => option::description(first).map(|text| digits(text.as_bytes())),
        "option_make_units" => {
            let units: Vec<u16> = given[1].chunks_exact(2).map(|pair| number(pair) as u16).collect();
            option::make_units(number(first), &units, &given[2], &given[3]).map(|bytes| digits(&bytes))
        }
        "option_make" => {
            let description = text_of(&given[1], Fault::OptionNotUtf8)?;
            option::make(number(first), description, &given[2], &given[3]).map(|bytes| digits(&bytes))
        }
        "frame_make" => frame_make(first, &given[1], &given[2]),
        "frame_parts" => frame_parts(first),
        "store_vars" => store::vars(first).map(|kept| digits(&kept)),
        "store_with" => store::with(first, &given[1]).map(|after| digits(&after)),
        "vars_edit" => vars_edit(first, &given[1], &given[2], &given[3]),
        "image_check" => match image::check(first)? {
            Some(fault) => Err(Error::Refused(fault.refusal)),
            None => Ok(String::new()),
        },
        "image_digest" => image::digest(first).map(|digest| digits(&digest)),
        "signature_lists" => signature_lists(first),
        "journal_is_idle" => bootkeep::journal_is_idle(first).map(|idle| u32::from(idle).to_string()),
        "notes_len" => notes::len(first).map(|taken| taken.to_string()),
        "notes_make" => match first.try_into() {
            Ok(identity) => notes::make(identity).map(|bytes| digits(&bytes)),
            Err(_) => refused(Fault::NotesBadIdentity, None),
        },
        "notes_identity" => digits_found(notes::identity(first)?),
        "record_make" => record_make(first, &given[1], &given[2], &given[3], &given[4]),
        "record_parts" => record_parts(first),
        "record_word" => {
            let word = record::parts(first)?.words.into_iter().nth(number(&given[1]) as usize);
            digits_found(word.map(String::into_bytes))
        }
        "record_standing" => Ok(match record::standing(first, &given[1])? {
            Standing::Unchanged => "0".to_owned(),
            Standing::NotMade => "1".to_owned(),
            Standing::Changed => "2".to_owned(),
            other => panic!("{other:?}"),
        }),
        "record_back" => record::back(first, &given[1]).map(|set| digits(&set)),
        "run" => {
            let (after, lines) = bootkeep::run(first, &given[1])?;
            Ok(format!("{} {}", digits(&after), digits(lines.as_bytes())))
        }
        _ => made_of_set(name, first, &given[1..]),
    }
}

/// What was found, or that nothing was.
fn digits_found(found: Option<Vec<u8>>) -> Result<String, Error> {
    found.map(|bytes| digits(&bytes)).ok_or(Error::Absent)
}

/// The record of a change. The crate takes words, so that what is no line of words is answered here, after the name of the
/// machine, which comes first.
fn record_make(machine: &[u8], time: &[u8], before: &[u8], after: &[u8], line: &[u8]) -> Result<String, Error> {
    let seconds = u64::from(number(&time[4..])) << 32 | u64::from(number(&time[..4]));
    record::make(machine, seconds, vars::EMPTY, vars::EMPTY, &[])?;
    let mut words: Vec<&[u8]> = line.split(|byte| *byte == 0).collect();
    let open = words.pop().unwrap_or_default();
    if !open.is_empty() {
        return refused(Fault::RecordOpenWord, Some(line.len() - open.len()));
    }
    let texts: Vec<&str> = words.iter().map_while(|word| std::str::from_utf8(word).ok()).collect();
    if texts.len() < words.len() {
        return refused(Fault::RecordBadWord, Some(texts.len()));
    }
    record::make(machine, seconds, before, after, &texts).map(|bytes| digits(&bytes))
}

fn record_parts(bytes: &[u8]) -> Result<String, Error> {
    let parts = record::parts(bytes)?;
    let place = |part: &[u8]| format!("{} {}", start(bytes, part), part.len());
    let (before, after) = (place(parts.before), place(parts.after));
    Ok(format!("{} {} {before} {after} {}", place(parts.machine), parts.time, parts.words.len()))
}

fn made_of_set(name: &str, set: &[u8], given: &[Vec<u8>]) -> Result<String, Error> {
    // A name that isn't UTF-8 is none, and neither is what stands for it here.
    let named = given.first().map(|name| String::from_utf8_lossy(name)).unwrap_or_default();
    match name {
        "vars_plan" => vars::plan(set).map(|plan| format!("{} {}", digits_of(plan.normal), entry_or_none(plan.next))),
        "vars_at_risk" => {
            let risk = vars::at_risk(set)?;
            let count = risk.unnamed.len();
            Ok(format!("{} {count}", digits_of([risk.unnamed, risk.undecodable].concat())))
        }
        "vars_list" => vars_list(set),
        "vars_named" => {
            let named = vars::named(set)?;
            let numbers = named.iter().map(|one| [stands_for(one.variable), one.number.0.into(), state(one.state)]);
            Ok(digits_of_longs(numbers.flatten()))
        }
        "vars_lowest_free" => vars::lowest_free(set).map(|free| entry_or_none(free).to_string()),
        "vars_entry" => vars::entry(set, entry_of(&given[0])).map(|told| state(told).to_string()),
        "vars_changes" => {
            let changes = vars::changes(set, &given[0])?;
            let numbers = changes.iter().map(|one| [stands_for(one.variable), change(one.kind)]);
            Ok(digits_of_longs(numbers.flatten()))
        }
        "vars_get" => vars::get(set, &named).map(|data| digits(&data)),
        "vars_put" => vars::put(set, &named, &given[1]).map(|after| digits(&after)),
        "vars_remove" => vars::remove(set, &named).map(|after| digits(&after)),
        _ => panic!("no such call: {name}"),
    }
}

/// A word, unless it is a number, as there is no word.
fn word(text: &str) -> Result<String, Error> {
    if text.starts_with("0x") {
        return Err(Error::Absent);
    }
    Ok(digits(text.as_bytes()))
}

/// Where a part of some bytes begins.
fn start(of: &[u8], part: &[u8]) -> usize {
    part.as_ptr() as usize - of.as_ptr() as usize
}

fn option_parts(bytes: &[u8]) -> Result<String, Error> {
    let parts = option::parts(bytes)?;
    let places = [parts.description, parts.list, parts.optional];
    assert_eq!(parts.paths()?.concat(), parts.list);
    let places: Vec<_> = places.iter().map(|part| format!("{} {}", start(bytes, part), part.len())).collect();
    Ok(format!("{} {}", parts.attributes, places.join(" ")))
}

fn frame_make(numbers: &[u8], option: &[u8], order: &[u8]) -> Result<String, Error> {
    let order: Vec<EntryNumber> = order.chunks(2).map(entry_of).collect();
    let entry = entry_of(&numbers[8..]);
    // Only a kind that takes an option looks at its bytes.
    let option = || LoadOption::try_from(option);
    let make = |request| frame::make(number(&numbers[..4]), request).map(|bytes| digits(&bytes));
    match number(&numbers[4..8]) {
        1 => make(Request::Add(entry, &option()?)),
        2 => make(Request::Replace(entry, &option()?)),
        3 => make(Request::Remove(entry)),
        4 => make(Request::Order(&order)),
        5 => make(Request::Next(entry)),
        6 => make(Request::AddFree(&option()?)),
        7 => make(Request::AddFirst(&option()?)),
        8 => make(Request::First(entry)),
        _ => refused(Fault::FrameBadKind, None),
    }
}

/// The parts of a frame, and where its option is: at the end.
fn frame_parts(bytes: &[u8]) -> Result<String, Error> {
    let frame = Frame::try_from(bytes)?;
    assert_eq!(frame.as_ref(), bytes);
    let (kind, entry, option, order) = match frame.request() {
        Request::Add(entry, option) => (1, Some(entry), Some(option), &[][..]),
        Request::Replace(entry, option) => (2, Some(entry), Some(option), &[][..]),
        Request::Remove(entry) => (3, Some(entry), None, &[][..]),
        Request::Order(order) => (4, None, None, order),
        Request::Next(entry) => (5, Some(entry), None, &[][..]),
        Request::AddFree(option) => (6, None, Some(option), &[][..]),
        Request::AddFirst(option) => (7, None, Some(option), &[][..]),
        Request::First(entry) => (8, Some(entry), None, &[][..]),
    };
    let len = option.map_or(0, |option| option.as_ref().len());
    let at = option.map_or(0, |_| bytes.len() - len);
    let (order, entry) = (digits_of(order.iter().copied()), entry_or_none(entry));
    Ok(format!("{order} {} {kind} {entry} {at} {len}", frame.number()))
}

/// The set after an edit.
fn vars_edit(numbers: &[u8], entries: &[u8], option: &[u8], data: &[u8]) -> Result<String, Error> {
    // Of a set that is none, the fault comes before that of the option.
    vars::list(data).map(drop)?;
    with_edit(numbers, entries, option, |edit| edited(vars::edit(data, edit)?))
}

/// What came of an edit, as calls.c says it.
fn edited(edited: vars::Edited) -> Result<String, Error> {
    let (kind, entry) = outcome_numbers(edited.outcome);
    Ok(format!("{} {kind} {entry}", digits(&edited.set)))
}

fn outcome_numbers(outcome: EditOutcome) -> (u32, u32) {
    match outcome {
        EditOutcome::Done => (0, NO_ENTRY),
        EditOutcome::Added(entry) => (1, entry.0.into()),
        EditOutcome::Present(entry) => (2, entry.0.into()),
        other => panic!("{other:?}"),
    }
}

/// What is made of the edit of these numbers. What the crate's types leave no room for is answered here, and so is an
/// option that is none.
fn with_edit<T>(
    numbers: &[u8],
    entries: &[u8],
    option: &[u8],
    make: impl FnOnce(Edit<'_>) -> Result<T, Error>,
) -> Result<T, Error> {
    let entries: Vec<EntryNumber> = entries.chunks(2).map(entry_of).collect();
    let at = |place: usize| number(&numbers[4 * place..4 * place + 4]);
    let entry = || match at(1) {
        NO_ENTRY => Ok(None),
        number => u16::try_from(number).map(Some).or_else(|_| refused(Fault::UneditedBadNumber, None)),
    };
    let added;
    make(match at(0) {
        1 => {
            let number = entry()?.map(EntryNumber);
            let position = match at(2) {
                0 => Position::Last,
                1 => Position::First,
                2 => Position::None,
                _ => return refused(Fault::UneditedBadPosition, None),
            };
            added = LoadOption::try_from(option)?;
            Edit::Add(Addition { option: &added, number, position, again: at(3) != 0 })
        }
        2 => Edit::Remove(&entries),
        3 => Edit::First(&entries),
        4 => Edit::Order(NewOrder { numbers: &entries, only: at(5) != 0, stale: at(4) != 0 }),
        5 => Edit::Unrepeat,
        6 => Edit::Next(entry()?.map(EntryNumber)),
        7 => Edit::Timeout(entry()?),
        8 => Edit::Activate(&entries),
        9 => Edit::Deactivate(&entries),
        _ => return refused(Fault::UneditedBadKind, None),
    })
}

/// A machine in memory, over which commands are run as machine.c says.
struct Machine {
    set: Vec<u8>,
    journal: Vec<u8>,
}

/// What a command runs.
enum Wanted<'a> {
    Nothing,
    Frames(&'a [u8]),
    Edit(Edit<'a>),
    Restore(&'a [u8]),
}

impl Machine {
    fn make(&mut self, asked: Move) -> Result<(), Error> {
        match asked {
            Move::Set { name, data } => self.set = vars::put(&self.set, &name, &data)?,
            Move::Delete { name } => match vars::remove(&self.set, &name) {
                Err(Error::Absent) => (),
                removed => self.set = removed?,
            },
            Move::Journal(bytes) => self.journal = bytes,
            other => panic!("{other:?}"),
        }
        Ok(())
    }

    /// How a command ended, or that it was cut.
    fn run(&mut self, wanted: Wanted<'_>, answers: &[u8]) -> Result<String, Error> {
        let Machine { set: variables, journal } = Machine { set: self.set.clone(), journal: self.journal.clone() };
        let state = MachineState { machine: b"machine", start: b"start", variables: &variables, journal: &journal };
        let mut moves = match wanted {
            Wanted::Nothing => Moves::settle(state)?,
            Wanted::Frames(stream) => Moves::requests(state, stream)?,
            Wanted::Edit(edit) => Moves::edit(state, edit)?,
            Wanted::Restore(back) => Moves::restore(state, back)?,
        };
        let mut answers = answers.iter().copied();
        let mut reason = 7;
        while let Some(asked) = moves.next_move()? {
            let (is_made, became) = match answers.next().unwrap_or(0) {
                0 => (true, Became::Done),
                1 => (false, Became::Refused(reason)),
                2 => (true, Became::Perhaps(reason)),
                _ => return Ok("cut".to_owned()),
            };
            if is_made {
                self.make(asked)?;
            }
            moves.tell(became)?;
            if became != Became::Done {
                reason = 8;
            }
        }
        Ok(format!("done {}", end_numbers(moves.end()?)))
    }
}

impl Machine {
    /// Runs frames, says what is noted of them, and gives the notes after them: those before them, if they are refused.
    fn note(&mut self, notes: &[u8], stream: &[u8]) -> Result<Vec<u8>, Error> {
        let Machine { set: variables, journal } = Machine { set: self.set.clone(), journal: self.journal.clone() };
        let state = MachineState { machine: b"machine", start: b"start", variables: &variables, journal: &journal };
        let mut moves = Moves::requests(state, stream)?;
        while let Some(asked) = moves.next_move()? {
            self.make(asked)?;
            moves.tell(Became::Done)?;
        }
        let after = match moves.notes(notes) {
            Err(Error::Refused(why)) => {
                assert_eq!(moves.same(notes, 0), Err(Error::Refused(why)));
                println!("refused {}", numbers_of(Some(why)));
                return Ok(notes.to_vec());
            }
            after => after?,
        };
        let mut line = format!("done {}", digits(&after));
        let replies = match moves.end()? {
            End::Done { replies, .. } => replies,
            other => panic!("{other:?}"),
        };
        for place in 0..replies.len() {
            line += match moves.same(notes, place)? {
                Same::Unknown => " 0",
                Same::Yes => " 1",
                Same::No => " 2",
                other => panic!("{other:?}"),
            };
        }
        println!("{line}");
        Ok(after)
    }
}

/// Runs two commands of frames over a machine, and says what is noted of each.
fn note_commands(words: &[&str]) {
    let given: Vec<Vec<u8>> = words.iter().map(|word| bytes_of(word)).collect();
    let mut machine = Machine { set: given[0].clone(), journal: Vec::new() };
    let between = machine.note(&given[1], &given[2]).expect("frames are run");
    machine.note(&between, &given[3]).expect("frames are run");
}

/// How a command ended, and the kinds of its replies.
fn end_numbers(end: End) -> String {
    let (kind, reason, second) = match end {
        End::Done { replies, edited } => {
            let (kind, entry) = outcome_numbers(edited);
            let kinds: String = replies.iter().map(|reply| format!(" {}", fields_of(reply).0)).collect();
            return format!("1 0 0 0 {kind} {entry}{kinds}");
        }
        End::RunRefused(fault) => return format!("4 0 0 {} 0 {NO_ENTRY}", fault.number()),
        End::NotRun(reason) => (2, reason, 0),
        End::NotSettled(reason, second) => (3, reason, second),
        End::TakenBack(reason) => (5, reason, 0),
        End::Unsettled(reason, second) => (6, reason, second),
        other => panic!("{other:?}"),
    };
    format!("{kind} {reason} {second} 0 0 {NO_ENTRY}")
}

/// Runs a command over a machine, settles what it has left, and says what is there in the end.
fn command_machine(words: &[&str]) {
    let mut machine = Machine { set: bytes_of(words[0]), journal: Vec::new() };
    let answers = bytes_of(words[1]);
    let parts: Vec<Vec<u8>> = words[3..].iter().map(|word| bytes_of(word)).collect();
    let told = match words[2] {
        "f" => machine.run(Wanted::Frames(&parts[0]), &answers),
        "b" => machine.run(Wanted::Restore(&parts[0]), &answers),
        "e" => with_edit(&parts[0], &parts[1], &parts[2], |edit| machine.run(Wanted::Edit(edit), &answers)),
        _ => machine.run(Wanted::Nothing, &answers),
    };
    println!("{}", told.unwrap_or_else(|error| said(Err(error))));
    machine.run(Wanted::Nothing, &[]).expect("what is left is settled");
    println!("done {} {}", digits(&machine.set), digits(&machine.journal));
}

fn entry_of(bytes: &[u8]) -> EntryNumber {
    EntryNumber(number(bytes) as u16)
}

fn signature_lists(bytes: &[u8]) -> Result<String, Error> {
    let places = image::signature_lists(bytes)?.into_iter().flat_map(|list| {
        let len = 28 + list.header.len() + list.signatures.len();
        [list.place, len, list.header.len(), list.signature_len]
    });
    Ok(digits(&places.flat_map(usize::to_le_bytes).collect::<Vec<_>>()))
}

fn vars_list(set: &[u8]) -> Result<String, Error> {
    let places = vars::list(set)?.flat_map(|(name, data)| {
        let name = name.as_bytes();
        [start(set, name), name.len(), start(set, data), data.len()]
    });
    Ok(digits(&places.flat_map(usize::to_le_bytes).collect::<Vec<_>>()))
}

fn entry_or_none(entry: Option<EntryNumber>) -> u32 {
    entry.map_or(NO_ENTRY, |entry| entry.0.into())
}

fn stands_for(variable: BootVariable) -> u32 {
    match variable {
        BootVariable::Entry(number) => number.0.into(),
        BootVariable::Order => VARIABLE_ORDER,
        BootVariable::Next => VARIABLE_NEXT,
        BootVariable::Timeout => VARIABLE_TIMEOUT,
        other => panic!("no such variable: {other}"),
    }
}

fn state(state: EntryState) -> u32 {
    match state {
        EntryState::Normal => 0,
        EntryState::Absent => 1,
        EntryState::Undecodable => 2,
        EntryState::Inactive => 3,
        EntryState::OtherCategory => 4,
        other => panic!("{other:?}"),
    }
}

fn change(kind: ChangeKind) -> u32 {
    match kind {
        ChangeKind::Added => 1,
        ChangeKind::Replaced => 2,
        ChangeKind::Removed => 3,
        other => panic!("{other:?}"),
    }
}

/// Opens a keeper, takes the events, and says the set and the next number.
fn keep(words: &[&str]) {
    println!("status {CLOSED}");
    println!("{}", said(Keeper::open(b"").map(|_| String::new())));
    let mut keeper = Keeper::open(&bytes_of(words[0])).expect("the set of a case is one");
    println!("done");
    for word in &words[1..] {
        let (letter, frame) = word.split_at(1);
        let reply = match letter {
            "d" | "D" => keeper.deliver(&bytes_of(frame)),
            "p" | "P" => keeper.prepare(),
            "h" | "H" => keeper.hand().map(|plan| plan.map_or(Reply::NothingPrepared, Reply::Plan)),
            _ => keeper.restart(),
        };
        let is_line = letter.chars().all(char::is_lowercase);
        println!(
            "{}",
            said(reply.map(|reply| if is_line { digits(reply.to_string().as_bytes()) } else { told(&reply) }))
        );
    }
    println!("{}", said(keeper.set().map(|set| digits(&set))));
    println!("{}", said(keeper.next_number().map(|number| number.to_string())));
}

/// What a reply has beside its kind: fields that most replies leave as they are here.
struct Fields {
    normal: Vec<EntryNumber>,
    fault: u32,
    option: Option<Refusal>,
    outcome: u32,
    entry: Option<EntryNumber>,
    next_number: u32,
    first: Option<EntryNumber>,
    count: usize,
}

const NO_FIELDS: Fields = Fields {
    normal: Vec::new(),
    fault: 0,
    option: None,
    outcome: 0,
    entry: None,
    next_number: u32::MAX,
    first: None,
    count: 0,
};

/// The fields of a reply, as calls.c says them.
fn told(reply: &Reply) -> String {
    let (kind, fields) = fields_of(reply);
    format!(
        "{} {kind} {} {} {} {} {} {} {}",
        digits_of(fields.normal),
        fields.fault,
        numbers_of(fields.option),
        fields.outcome,
        entry_or_none(fields.entry),
        fields.next_number,
        entry_or_none(fields.first),
        fields.count
    )
}

fn fields_of(reply: &Reply) -> (u32, Fields) {
    match reply {
        Reply::Malformed { fault, option, .. } => (1, Fields { fault: fault.number(), option: *option, ..NO_FIELDS }),
        Reply::Repeat { outcome, entry, .. } => {
            (2, Fields { outcome: outcome_of(*outcome), entry: *entry, ..NO_FIELDS })
        }
        Reply::Old => (3, NO_FIELDS),
        Reply::Ahead { next_number, .. } => (4, Fields { next_number: *next_number, ..NO_FIELDS }),
        Reply::Conflict => (5, NO_FIELDS),
        Reply::Waiting { next_number, .. } => (6, Fields { next_number: *next_number, ..NO_FIELDS }),
        Reply::Applied { outcome, entry, next_number, .. } => {
            let outcome = outcome_of(*outcome);
            (7, Fields { outcome, entry: *entry, next_number: *next_number, ..NO_FIELDS })
        }
        Reply::Prepared(count) => (8, Fields { count: *count, ..NO_FIELDS }),
        Reply::AlreadyPrepared => (9, NO_FIELDS),
        Reply::Plan(plan) => (10, fields_of_plan(plan)),
        Reply::NothingPrepared => (11, NO_FIELDS),
        Reply::Restarted { next_number, .. } => (12, Fields { next_number: *next_number, ..NO_FIELDS }),
        other => panic!("{other:?}"),
    }
}

fn fields_of_plan(plan: &Plan) -> Fields {
    let count = plan.normal.len() + usize::from(plan.next.is_some());
    Fields { normal: plan.normal.clone(), first: plan.next, count, ..NO_FIELDS }
}

fn outcome_of(outcome: Outcome) -> u32 {
    match outcome {
        Outcome::Done => 1,
        Outcome::Exists => 2,
        Outcome::Missing => 3,
        Outcome::OrderRepeats => 4,
        Outcome::OrderUnknown => 5,
        Outcome::NoFree => 6,
        other => panic!("{other:?}"),
    }
}
