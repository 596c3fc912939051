//! Variables that are changed by numbered requests, each in a copy.

use crate::frame::{Request, read_frame};
use crate::option::write_option;
use crate::plan::{ORDER_MAX, boot_order, entry_name, lowest_free};
use crate::set::Vars;
use std::error::Error;

const KEPT_MAX: usize = 64;

#[derive(Clone, Copy, Debug, PartialEq, Eq)]
pub enum Outcome {
    Done,
    Exists,
    Missing,
    OrderRepeats,
    OrderUnknown,
    NoFree,
    /// An entry was added under this number, which the request left open.
    Added(u16),
}

impl Outcome {
    /// The bytes in which it is kept.
    fn bytes(self) -> [u8; 4] {
        let code = match self {
            Outcome::Done => 0,
            Outcome::Exists => 1,
            Outcome::Missing => 2,
            Outcome::OrderRepeats => 3,
            Outcome::OrderUnknown => 4,
            Outcome::NoFree => 5,
            Outcome::Added(entry) => {
                let [low, high] = entry.to_le_bytes();
                return [0, 1, low, high];
            }
        };
        [code, 0, 0, 0]
    }
}

/// What is answered to a delivery, as far as it is timed here.
#[derive(Debug, PartialEq, Eq)]
pub enum Reply {
    Malformed,
    Repeat(Outcome),
    Old,
    Ahead(u32),
    Applied(Outcome, u32),
}

#[derive(Clone)]
pub struct Keeper {
    vars: Vars,
    next: u32,
    kept: Vec<Outcome>,
}

impl Keeper {
    /// A keeper of variables that no request has changed yet.
    pub fn new(vars: Vars) -> Keeper {
        Keeper {
            vars,
            next: 0,
            kept: Vec::new(),
        }
    }

    pub fn vars(&self) -> &Vars {
        &self.vars
    }

    /// The keeper after a delivery, and the answer. This one stays as it was.
    pub fn deliver(&self, bytes: &[u8]) -> Result<(Keeper, Reply), Box<dyn Error>> {
        let mut keeper = self.clone();
        let reply = keeper.take(bytes)?;
        Ok((keeper, reply))
    }

    /// Takes a delivery, and answers it.
    pub fn take(&mut self, bytes: &[u8]) -> Result<Reply, Box<dyn Error>> {
        let Ok((number, request)) = read_frame(bytes) else {
            return Ok(Reply::Malformed);
        };
        if number < self.next {
            return Ok(self.again(number));
        }
        if number > self.next {
            return Ok(Reply::Ahead(self.next));
        }
        let outcome = apply(&mut self.vars, &request)?;
        self.count(outcome);
        Ok(Reply::Applied(outcome, self.next))
    }

    /// The answer to a request that was applied before.
    fn again(&self, number: u32) -> Reply {
        let back = (self.next - number) as usize;
        match self.kept.len().checked_sub(back) {
            Some(place) => Reply::Repeat(self.kept[place]),
            None => Reply::Old,
        }
    }

    /// Uses a number up, and keeps its outcome.
    fn count(&mut self, outcome: Outcome) {
        self.next += 1;
        self.kept.push(outcome);
        if self.kept.len() > KEPT_MAX {
            self.kept.remove(0);
        }
        let mut state = vec![2];
        state.extend_from_slice(&self.next.to_le_bytes());
        state.push(self.kept.len() as u8);
        for outcome in &self.kept {
            state.extend_from_slice(&outcome.bytes());
        }
        self.vars.put("BootKeepState", state);
    }
}

fn apply(vars: &mut Vars, request: &Request) -> Result<Outcome, Box<dyn Error>> {
    match request {
        Request::Add(number, option) => {
            let name = entry_name(*number);
            let name = str::from_utf8(&name)?;
            if vars.get(name).is_some() {
                return Ok(Outcome::Exists);
            }
            vars.put(name, write_option(option)?);
            let mut order = boot_order(vars)?;
            if order.len() < ORDER_MAX && !order.contains(number) {
                order.push(*number);
                store_order(vars, &order);
            }
            Ok(Outcome::Done)
        }
        Request::Replace(number, option) => {
            let name = entry_name(*number);
            let name = str::from_utf8(&name)?;
            if vars.get(name).is_none() {
                return Ok(Outcome::Missing);
            }
            vars.put(name, write_option(option)?);
            Ok(Outcome::Done)
        }
        Request::AddFirst(option) => {
            let Some(number) = lowest_free(vars) else {
                return Ok(Outcome::NoFree);
            };
            vars.put(str::from_utf8(&entry_name(number))?, write_option(option)?);
            put_first(vars, number)?;
            Ok(Outcome::Added(number))
        }
        Request::First(number) => {
            if vars.get(str::from_utf8(&entry_name(*number))?).is_none() {
                return Ok(Outcome::Missing);
            }
            put_first(vars, *number)?;
            Ok(Outcome::Done)
        }
        Request::Remove(number) => remove(vars, *number),
        Request::Order(numbers) => set_order(vars, numbers),
        Request::Next(number) => {
            if vars.get(str::from_utf8(&entry_name(*number))?).is_none() {
                return Ok(Outcome::Missing);
            }
            vars.put("BootNext", number.to_le_bytes().to_vec());
            Ok(Outcome::Done)
        }
    }
}

fn put_first(vars: &mut Vars, number: u16) -> Result<(), Box<dyn Error>> {
    let order = boot_order(vars)?;
    if order.len() < ORDER_MAX || order.contains(&number) {
        let others = order.iter().copied().filter(|other| *other != number);
        let order: Vec<u16> = std::iter::once(number).chain(others).collect();
        store_order(vars, &order);
    }
    Ok(())
}

fn remove(vars: &mut Vars, number: u16) -> Result<Outcome, Box<dyn Error>> {
    if !vars.remove(str::from_utf8(&entry_name(number))?) {
        return Ok(Outcome::Missing);
    }
    let mut order = boot_order(vars)?;
    order.retain(|other| *other != number);
    store_order(vars, &order);
    if vars.get("BootNext") == Some(&number.to_le_bytes()) {
        vars.remove("BootNext");
    }
    Ok(Outcome::Done)
}

fn set_order(vars: &mut Vars, numbers: &[u16]) -> Result<Outcome, Box<dyn Error>> {
    let mut seen = vec![false; ORDER_MAX];
    for number in numbers {
        if std::mem::replace(&mut seen[usize::from(*number)], true) {
            return Ok(Outcome::OrderRepeats);
        }
    }
    for number in numbers {
        if vars.get(str::from_utf8(&entry_name(*number))?).is_none() {
            return Ok(Outcome::OrderUnknown);
        }
    }
    store_order(vars, numbers);
    Ok(Outcome::Done)
}

fn store_order(vars: &mut Vars, order: &[u16]) {
    if order.is_empty() {
        vars.remove("BootOrder");
    } else {
        let bytes = order.iter().flat_map(|number| number.to_le_bytes());
        vars.put("BootOrder", bytes.collect());
    }
}
