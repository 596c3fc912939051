//! Paths, options and numbers of entries in the formats that serde knows. `bench/c` runs these tests where serde is.

#![cfg(feature = "serde")]

use bootkeep::{option, DevicePath, EntryNumber, LoadOption};
use serde::de::value::{BytesDeserializer, Error, SeqDeserializer, StrDeserializer, U16Deserializer};
use serde::de::IntoDeserializer;
use serde::{Deserialize, Deserializer, Serialize};
use std::fmt;

const PATH: &str = "PciRoot(0x0)/Pci(0x1,0x0)";

/// The text that a value is in a format for people.
struct Text<'a, T>(&'a T);

impl<T: Serialize> fmt::Display for Text<'_, T> {
    fn fmt(&self, formatter: &mut fmt::Formatter<'_>) -> fmt::Result {
        self.0.serialize(formatter)
    }
}

/// What a value is in a format for people.
fn text(value: &impl Serialize) -> String {
    Text(value).to_string()
}

/// The value of a text in a format for people.
fn read<'a, T: Deserialize<'a>>(text: &'a str) -> Result<T, Error> {
    let from: StrDeserializer<'a, Error> = text.into_deserializer();
    T::deserialize(from)
}

#[test]
fn a_path_is_its_text() {
    let path: DevicePath = PATH.parse().unwrap();
    assert_eq!(text(&path), PATH);
    assert_eq!(read::<DevicePath>(PATH), Ok(path));
    assert_eq!(
        read::<DevicePath>("Pci(1)").unwrap_err().to_string(),
        "Pci(1)".parse::<DevicePath>().unwrap_err().to_string()
    );
}

#[test]
fn an_option_is_its_digits() {
    let made = LoadOption::new(option::ACTIVE, "A", &[PATH.parse().unwrap()], b"").unwrap();
    // Attributes 1, a list of 22 bytes, A and a zero, ACPI PNP0A03 with _UID 0, PCI 1.0, the end.
    let digits = "01000000160041000000\
                  02010c00d041030a00000000\
                  010106000001\
                  7fff0400";
    assert_eq!(text(&made), digits);
    assert_eq!(read::<LoadOption>(digits), Ok(made.clone()));
    let from: BytesDeserializer<'_, Error> = made.as_ref().into_deserializer();
    assert!(LoadOption::deserialize(Bytes(from)).is_ok());
    for wrong in ["0", "0g", "+1", "01"] {
        assert!(read::<LoadOption>(wrong).is_err(), "{wrong}");
    }
    let from = SeqDeserializer::<_, Error>::new(made.as_ref().iter().copied());
    assert_eq!(LoadOption::deserialize(Bytes(from)), Ok(made));
}

#[test]
fn a_number_is_its_digits() {
    assert_eq!(text(&EntryNumber(0xAF)), "00AF");
    assert_eq!(read("00af"), Ok(EntryNumber(0xAF)));
    assert!(read::<EntryNumber>("AF").is_err());
    let from: U16Deserializer<Error> = 5u16.into_deserializer();
    assert_eq!(EntryNumber::deserialize(Bytes(from)), Ok(EntryNumber(5)));
}

/// A format that isn't for people.
struct Bytes<D>(D);

impl<'de, D: Deserializer<'de>> Deserializer<'de> for Bytes<D> {
    type Error = D::Error;

    fn deserialize_any<V: serde::de::Visitor<'de>>(self, visitor: V) -> Result<V::Value, D::Error> {
        self.0.deserialize_any(visitor)
    }

    fn is_human_readable(&self) -> bool {
        false
    }

    serde::forward_to_deserialize_any! {
        bool i8 i16 i32 i64 i128 u8 u16 u32 u64 u128 f32 f64 char str string bytes byte_buf option unit unit_struct
        newtype_struct seq tuple tuple_struct map struct enum identifier ignored_any
    }
}
