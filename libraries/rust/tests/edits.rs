//! Edits of sets, by the cases of the repository: each edit leads to the set that a case states, or is refused with its
//! fault and the number of the entry.

mod cases;

use bootkeep::vars::{self, Addition, Edit, EditOutcome, NewOrder, Position};
use bootkeep::{EntryNumber, Error, LoadOption};
use cases::{cases, Case, Json};

/// The set that a case states.
fn set_of(stated: &Json) -> Vec<u8> {
    let variables = stated.members().iter();
    variables.fold(vars::EMPTY.to_vec(), |set, (name, data)| vars::put(&set, name, &data.bytes()).unwrap())
}

fn numbers_of(case: &Case) -> Vec<EntryNumber> {
    let stated = case.find("entries").map_or(&[][..], Json::items);
    stated.iter().map(|number| EntryNumber(number.number() as u16)).collect()
}

fn is_stated(case: &Case, flag: &str) -> bool {
    case.find(flag) == Some(&Json::Bool(true))
}

/// The addition that a case states, unless its option is none.
fn addition_of<'a>(case: &Case, option: &'a LoadOption) -> Addition<'a> {
    let position = match &case.get("position").text()[..] {
        "First" => Position::First,
        "Last" => Position::Last,
        other => {
            assert_eq!(other, "NoOrder");
            Position::None
        }
    };
    Addition { option, number: number_of(case, "entry"), position, again: is_stated(case, "again") }
}

fn number_of(case: &Case, name: &str) -> Option<EntryNumber> {
    case.find(name).map(|number| EntryNumber(number.number() as u16))
}

/// What is told of the edit of a case, as cases state it.
fn made(case: &Case) -> String {
    let (before, numbers) = (set_of(case.get("vars")), numbers_of(case));
    let bytes = case.find("option").map_or(Vec::new(), Json::bytes);
    let option = LoadOption::try_from(&bytes[..]);
    let edit = match &case.get("edit").text()[..] {
        "Add" => match &option {
            Ok(option) => Edit::Add(addition_of(case, option)),
            Err(_) => return "BadOption".to_owned(),
        },
        "Remove" => Edit::Remove(&numbers),
        "First" => Edit::First(&numbers),
        "Order" => {
            Edit::Order(NewOrder { numbers: &numbers, only: is_stated(case, "only"), stale: is_stated(case, "stale") })
        }
        "Unrepeat" => Edit::Unrepeat,
        "Next" => Edit::Next(number_of(case, "entry")),
        "Activate" => Edit::Activate(&numbers),
        "Deactivate" => Edit::Deactivate(&numbers),
        other => panic!("no edit: {other}"),
    };
    match vars::edit(&before, edit) {
        Ok(edited) => {
            assert_eq!(edited.set, set_of(case.get("after")));
            match edited.outcome {
                EditOutcome::Done => "Done".to_owned(),
                EditOutcome::Added(entry) => format!("Added {entry}"),
                EditOutcome::Present(entry) => format!("Present {entry}"),
                other => panic!("{other:?}"),
            }
        }
        Err(Error::Refused(refusal)) => {
            assert!(case.find("after").is_none());
            let word = refusal.fault.to_string();
            let word = ["Unedited", "Vars"].iter().find_map(|family| word.strip_prefix(family)).unwrap_or(&word);
            refusal.place.map_or(word.to_owned(), |place| format!("{word} {place:04X}"))
        }
        Err(other) => panic!("{other}"),
    }
}

#[test]
fn each_edit_leads_where_its_case_says() {
    for case in cases("boot_edits.json", "edit") {
        let (made, answer) = (made(&case), case.answer());
        if made == "BadOption" {
            // No value of this crate has such bytes.
            assert!(answer.starts_with("BadOption "), "{answer}");
        } else {
            assert_eq!(made, answer, "{:?}", case.find("name"));
        }
    }
}

#[test]
fn a_timeout_is_set_and_deleted() {
    let set = vars::edit(vars::EMPTY, Edit::Timeout(Some(0x0102))).unwrap().set;
    assert_eq!(vars::get(&set, "Timeout"), Ok(vec![2, 1]));
    assert_eq!(vars::edit(&set, Edit::Timeout(None)).unwrap().set, vars::EMPTY);
}
