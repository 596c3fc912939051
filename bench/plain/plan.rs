//! What a boot would try.

use crate::option::{LoadOption, read_option};
use crate::set::Vars;
use std::error::Error;
use std::fmt;

pub const ORDER_MAX: usize = 65_536;

pub struct BootPlan {
    pub next: Option<Choice>,
    pub normal: Vec<Choice>,
}

pub struct Choice {
    pub number: u16,
    pub option: LoadOption,
}

/// Why variables don't say what is to be booted.
#[derive(Debug)]
pub enum Fault {
    BadOrder,
    BadNext,
}

impl fmt::Display for Fault {
    fn fmt(&self, f: &mut fmt::Formatter<'_>) -> fmt::Result {
        match self {
            Fault::BadOrder => write!(f, "BadOrder"),
            Fault::BadNext => write!(f, "BadNext"),
        }
    }
}

impl Error for Fault {}

/// What a boot would try: the option of BootNext, and then the normal ones of BootOrder.
pub fn plan(vars: &Vars) -> Result<BootPlan, Fault> {
    let order = boot_order(vars)?;
    let next = boot_next(vars)?;
    Ok(BootPlan {
        next: next.and_then(|number| read_choice(vars, number)),
        normal: order
            .into_iter()
            .filter_map(|number| read_choice(vars, number))
            .filter(|choice| choice.option.is_normal())
            .collect(),
    })
}

/// The numbers of BootOrder.
pub fn boot_order(vars: &Vars) -> Result<Vec<u16>, Fault> {
    let bytes = vars.get("BootOrder").unwrap_or_default();
    if bytes.len() % 2 != 0 || bytes.len() > 2 * ORDER_MAX {
        return Err(Fault::BadOrder);
    }
    Ok(bytes
        .chunks_exact(2)
        .map(|pair| u16::from_le_bytes([pair[0], pair[1]]))
        .collect())
}

fn boot_next(vars: &Vars) -> Result<Option<u16>, Fault> {
    match vars.get("BootNext") {
        None => Ok(None),
        Some([low, high]) => Ok(Some(u16::from_le_bytes([*low, *high]))),
        Some(_) => Err(Fault::BadNext),
    }
}

/// The option of the entry of this number, if there is one.
fn read_choice(vars: &Vars, number: u16) -> Option<Choice> {
    let name = entry_name(number);
    let bytes = vars.get(str::from_utf8(&name).ok()?)?;
    let option = read_option(bytes).ok()?;
    Some(Choice { number, option })
}

/// The least number under which no entry is stored, if not all are taken.
pub fn lowest_free(vars: &Vars) -> Option<u16> {
    let mut free: u16 = 0;
    for name in vars.names() {
        if entry_number(name) == Some(free) {
            free = free.checked_add(1)?;
        }
    }
    Some(free)
}

/// The number of the entry that has this name, if it is that of an entry.
fn entry_number(name: &str) -> Option<u16> {
    let [b'B', b'o', b'o', b't', digits @ ..] = name.as_bytes() else {
        return None;
    };
    let digits: &[u8; 4] = digits.try_into().ok()?;
    let mut number = 0;
    for digit in digits {
        let value = match digit {
            b'0'..=b'9' => digit - b'0',
            b'A'..=b'F' => digit - b'A' + 10,
            _ => return None,
        };
        number = number << 4 | u16::from(value);
    }
    Some(number)
}

/// `Boot` and the four hexadecimal digits of the number, in upper case.
pub fn entry_name(number: u16) -> [u8; 8] {
    let mut name = *b"Boot0000";
    for (index, digit) in name[4..].iter_mut().enumerate() {
        *digit = b"0123456789ABCDEF"[usize::from(number >> (12 - 4 * index) & 0xf)];
    }
    name
}
