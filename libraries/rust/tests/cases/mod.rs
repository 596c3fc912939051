//! The cases of the repository: what they state. `tests/cases/FORMAT.md` has their form.

// Each test needs a part of it.
#![allow(dead_code)]

use std::fs;
use std::iter::Peekable;
use std::path::Path;
use std::str::Chars;

/// What JSON has.
#[derive(Clone, Debug, PartialEq)]
pub enum Json {
    Null,
    Bool(bool),
    Number(u32),
    Text(String),
    List(Vec<Json>),
    Object(Vec<(String, Json)>),
}

impl Json {
    /// The member of an object.
    pub fn get(&self, name: &str) -> Option<&Json> {
        match self {
            Json::Object(members) => members.iter().find(|(member, _)| member == name).map(|(_, value)| value),
            _ => None,
        }
    }

    pub fn number(&self) -> u32 {
        match self {
            Json::Number(number) => *number,
            other => panic!("no number: {other:?}"),
        }
    }

    pub fn items(&self) -> &[Json] {
        match self {
            Json::List(items) => items,
            other => panic!("no list: {other:?}"),
        }
    }

    pub fn members(&self) -> &[(String, Json)] {
        match self {
            Json::Object(members) => members,
            other => panic!("no object: {other:?}"),
        }
    }

    /// A text: a string, or pieces one after the other.
    pub fn text(&self) -> String {
        match self {
            Json::Text(text) => text.clone(),
            Json::List(pieces) => pieces.iter().map(Json::text).collect(),
            Json::Object(_) => self.piece(),
            other => panic!("no text: {other:?}"),
        }
    }

    fn piece(&self) -> String {
        let range = |of: &Json| of.items()[0].number()..=of.items()[1].number();
        if let Some(numbers) = self.get("numbers") {
            return range(numbers).map(|number| format!("{:02x}{:02x}", number & 0xff, number >> 8)).collect();
        }
        let of = self.get("of").expect("what is repeated").text();
        match (self.get("times"), self.get("for")) {
            (Some(times), _) => of.repeat(times.number() as usize),
            (_, Some(numbers)) => range(numbers)
                .map(|number| of.replace("{n:04X}", &format!("{number:04X}")).replace("{n}", &number.to_string()))
                .collect(),
            _ => panic!("no piece: {self:?}"),
        }
    }

    /// The bytes whose hexadecimal digits are stated.
    pub fn bytes(&self) -> Vec<u8> {
        let digits = self.text();
        (0..digits.len())
            .step_by(2)
            .map(|at| u8::from_str_radix(&digits[at..at + 2], 16).expect("two digits"))
            .collect()
    }
}

/// A case of a call.
pub struct Case(Json);

impl Case {
    pub fn get(&self, name: &str) -> &Json {
        self.find(name).unwrap_or_else(|| panic!("{name} of {:?}", self.0))
    }

    /// What it states under a name that it needn't have.
    pub fn find(&self, name: &str) -> Option<&Json> {
        self.0.get(name)
    }

    pub fn answer(&self) -> String {
        self.get("answer").text()
    }

    /// The bytes that the case is of: each front, if it states how long these are.
    pub fn inputs(&self) -> Vec<Vec<u8>> {
        let data = self.get("input").bytes();
        match self.0.get("cuts") {
            Some(cuts) => {
                let cuts = cuts.items();
                (cuts[0].number()..=cuts[1].number()).map(|end| data[..end as usize].to_vec()).collect()
            }
            None => vec![data],
        }
    }
}

/// The cases of a call in a file that take no longer than a second.
pub fn cases(file: &str, call: &str) -> Vec<Case> {
    let path = Path::new(env!("CARGO_MANIFEST_DIR")).join("../../tests/cases").join(file);
    let text = fs::read_to_string(path).expect("a file of cases");
    let groups = value(&mut text.chars().peekable());
    let of_call = groups.items().iter().filter(|group| group.get("call") == Some(&Json::Text(call.to_owned())));
    let cases = of_call.flat_map(|group| group.get("cases").expect("cases").items().iter().cloned());
    let found: Vec<_> = cases.filter(|case| case.get("slow").is_none()).map(Case).collect();
    assert!(!found.is_empty(), "{file} has no case of {call}");
    found
}

fn skip(text: &mut Peekable<Chars<'_>>) {
    while text.peek().map_or(false, |next| next.is_whitespace() || matches!(next, ',' | ':')) {
        text.next();
    }
}

fn value(text: &mut Peekable<Chars<'_>>) -> Json {
    skip(text);
    match text.next().expect("a value") {
        '"' => Json::Text(string(text)),
        '[' => Json::List(until(text, ']')),
        '{' => {
            let parts = until(text, '}');
            let members = parts.chunks(2).map(|pair| (pair[0].text(), pair[1].clone()));
            Json::Object(members.collect())
        }
        first => word(first, text),
    }
}

fn until(text: &mut Peekable<Chars<'_>>, end: char) -> Vec<Json> {
    let mut values = Vec::new();
    loop {
        skip(text);
        if text.peek() == Some(&end) {
            text.next();
            return values;
        }
        values.push(value(text));
    }
}

fn word(first: char, text: &mut Peekable<Chars<'_>>) -> Json {
    let mut word = first.to_string();
    while text.peek().map_or(false, |next| next.is_ascii_alphanumeric()) {
        word.extend(text.next());
    }
    match &word[..] {
        "null" => Json::Null,
        "true" | "false" => Json::Bool(word == "true"),
        number => Json::Number(number.parse().expect("a number of 32 bits")),
    }
}

fn string(text: &mut Peekable<Chars<'_>>) -> String {
    let mut units = Vec::new();
    loop {
        let unit = match text.next().expect("a string has an end") {
            '"' => return String::from_utf16(&units).expect("a text"),
            '\\' => match text.next().expect("an escape") {
                'u' => {
                    let digits: String = text.by_ref().take(4).collect();
                    units.push(u16::from_str_radix(&digits, 16).expect("four digits"));
                    continue;
                }
                'n' => '\n',
                't' => '\t',
                'r' => '\r',
                'b' => '\u{8}',
                'f' => '\u{c}',
                other => other,
            },
            other => other,
        };
        units.extend(unit.encode_utf16(&mut [0; 2]).iter());
    }
}
