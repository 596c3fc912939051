//! The feature `serde`: paths, options and numbers of entries in the formats that it knows. In those for people, as JSON, a
//! path is its text, an option is its bytes in hexadecimal digits, and the number of an entry is its four digits; in others
//! these are bytes, and a number of 16 bits.

use crate::entry::EntryNumber;
use crate::option::LoadOption;
use crate::path::DevicePath;
use serde::de::{self, Deserialize, Deserializer, Visitor};
use serde::ser::{self, Serialize, Serializer};
use std::convert::TryFrom;
use std::fmt;
use std::marker::PhantomData;

/// What is bytes, and for people a text.
trait Value: Sized + TryFrom<Vec<u8>> {
    /// What it is called where something else is found.
    const NAME: &'static str;

    fn bytes(&self) -> &[u8];

    /// The text, if memory isn't refused.
    fn text(&self) -> Option<String>;

    fn from_text(text: &str) -> Result<Self, String>;
}

impl Value for DevicePath {
    const NAME: &'static str = "a device path";

    fn bytes(&self) -> &[u8] {
        self.as_ref()
    }

    fn text(&self) -> Option<String> {
        crate::path::names(self.as_ref()).ok().map(|(text, _)| text)
    }

    fn from_text(text: &str) -> Result<DevicePath, String> {
        text.parse().map_err(|error: crate::Error| error.to_string())
    }
}

impl Value for LoadOption {
    const NAME: &'static str = "a load option";

    fn bytes(&self) -> &[u8] {
        self.as_ref()
    }

    fn text(&self) -> Option<String> {
        Some(self.bytes().iter().map(|byte| format!("{byte:02x}")).collect())
    }

    fn from_text(text: &str) -> Result<LoadOption, String> {
        let bytes = bytes_of(text).ok_or("these are no bytes in hexadecimal digits")?;
        LoadOption::try_from(bytes).map_err(|error| error.to_string())
    }
}

/// The bytes that hexadecimal digits are, two for each.
fn bytes_of(digits: &str) -> Option<Vec<u8>> {
    if digits.len() % 2 != 0 || !digits.bytes().all(|digit| digit.is_ascii_hexdigit()) {
        return None;
    }
    (0..digits.len()).step_by(2).map(|at| u8::from_str_radix(&digits[at..at + 2], 16).ok()).collect()
}

fn serialize<V: Value, S: Serializer>(value: &V, serializer: S) -> Result<S::Ok, S::Error> {
    if !serializer.is_human_readable() {
        return serializer.serialize_bytes(value.bytes());
    }
    let text = value.text().ok_or_else(|| ser::Error::custom("out of memory"))?;
    serializer.serialize_str(&text)
}

fn deserialize<'de, V, D>(deserializer: D) -> Result<V, D::Error>
where
    V: Value,
    V::Error: fmt::Display,
    D: Deserializer<'de>,
{
    if deserializer.is_human_readable() {
        deserializer.deserialize_str(Reader(PhantomData))
    } else {
        deserializer.deserialize_byte_buf(Reader(PhantomData))
    }
}

/// What reads a value.
struct Reader<V>(PhantomData<V>);

impl<'de, V> Visitor<'de> for Reader<V>
where
    V: Value,
    V::Error: fmt::Display,
{
    type Value = V;

    fn expecting(&self, formatter: &mut fmt::Formatter<'_>) -> fmt::Result {
        formatter.write_str(V::NAME)
    }

    fn visit_str<E: de::Error>(self, text: &str) -> Result<V, E> {
        V::from_text(text).map_err(E::custom)
    }

    fn visit_bytes<E: de::Error>(self, bytes: &[u8]) -> Result<V, E> {
        self.visit_byte_buf(bytes.to_vec())
    }

    fn visit_byte_buf<E: de::Error>(self, bytes: Vec<u8>) -> Result<V, E> {
        V::try_from(bytes).map_err(E::custom)
    }

    fn visit_seq<A: de::SeqAccess<'de>>(self, mut items: A) -> Result<V, A::Error> {
        let mut bytes = Vec::new();
        while let Some(byte) = items.next_element()? {
            bytes.push(byte);
        }
        self.visit_byte_buf(bytes)
    }
}

impl Serialize for DevicePath {
    fn serialize<S: Serializer>(&self, serializer: S) -> Result<S::Ok, S::Error> {
        serialize(self, serializer)
    }
}

impl<'de> Deserialize<'de> for DevicePath {
    fn deserialize<D: Deserializer<'de>>(deserializer: D) -> Result<DevicePath, D::Error> {
        deserialize(deserializer)
    }
}

impl Serialize for LoadOption {
    fn serialize<S: Serializer>(&self, serializer: S) -> Result<S::Ok, S::Error> {
        serialize(self, serializer)
    }
}

impl<'de> Deserialize<'de> for LoadOption {
    fn deserialize<D: Deserializer<'de>>(deserializer: D) -> Result<LoadOption, D::Error> {
        deserialize(deserializer)
    }
}

impl Serialize for EntryNumber {
    fn serialize<S: Serializer>(&self, serializer: S) -> Result<S::Ok, S::Error> {
        if serializer.is_human_readable() {
            serializer.collect_str(self)
        } else {
            serializer.serialize_u16(self.0)
        }
    }
}

impl<'de> Deserialize<'de> for EntryNumber {
    fn deserialize<D: Deserializer<'de>>(deserializer: D) -> Result<EntryNumber, D::Error> {
        if deserializer.is_human_readable() {
            deserializer.deserialize_str(NumberReader)
        } else {
            u16::deserialize(deserializer).map(EntryNumber)
        }
    }
}

/// What reads the number of an entry.
struct NumberReader;

impl Visitor<'_> for NumberReader {
    type Value = EntryNumber;

    fn expecting(&self, formatter: &mut fmt::Formatter<'_>) -> fmt::Result {
        formatter.write_str("the four digits of an entry's number")
    }

    fn visit_str<E: de::Error>(self, text: &str) -> Result<EntryNumber, E> {
        text.parse().map_err(E::custom)
    }
}
