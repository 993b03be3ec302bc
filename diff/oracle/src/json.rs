//! Parts of requests, and answers in ASCII.

use serde::de::DeserializeOwned;
use serde::{Deserialize, Serialize};
use serde_json::ser::{CompactFormatter, Formatter};
use serde_json::{Deserializer, Serializer};
use std::io::{self, Write};

pub type Json = serde_json::Value;

/// What is asked for, or why a request asks for nothing.
pub type Asked<T> = Result<T, String>;

/// A line as JSON, however deep it nests.
pub fn parsed(line: &[u8]) -> Asked<Json> {
    let mut source = Deserializer::from_slice(line);
    source.disable_recursion_limit();
    let request = Json::deserialize(&mut source).map_err(|why| why.to_string())?;
    source.end().map_err(|why| why.to_string())?;
    Ok(request)
}

pub fn taken<T: DeserializeOwned>(part: &Json) -> Asked<T> {
    T::deserialize(part).map_err(|why| why.to_string())
}

pub fn required<'a>(request: &'a Json, name: &str) -> Asked<&'a Json> {
    request.get(name).ok_or_else(|| format!("no {name} in the request"))
}

pub fn member<T: DeserializeOwned>(request: &Json, name: &str) -> Asked<T> {
    taken(required(request, name)?).map_err(|why| format!("{name}: {why}"))
}

pub fn member_or<T: DeserializeOwned>(request: &Json, name: &str, otherwise: T) -> Asked<T> {
    request.get(name).map_or(Ok(otherwise), taken)
}

pub fn hex(bytes: &[u8]) -> String {
    bytes.iter().map(|byte| format!("{byte:02x}")).collect()
}

pub fn bytes_of(hex: &str) -> Asked<Vec<u8>> {
    let pairs = hex.as_bytes().chunks(2);
    let byte = |pair: &[u8]| match (pair, std::str::from_utf8(pair)) {
        ([_, _], Ok(digits)) => u8::from_str_radix(digits, 16).ok(),
        _ => None,
    };
    pairs.map(byte).collect::<Option<_>>().ok_or_else(|| format!("no bytes: {hex}"))
}

/// A name for as long as the program runs, as serde and the crate's errors want it.
pub fn leaked(name: &str) -> &'static str {
    Box::leak(name.into())
}

pub fn leaked_names<'a>(names: impl Iterator<Item = &'a str>) -> &'static [&'static str] {
    Box::leak(names.map(leaked).collect())
}

pub fn write_ascii(output: &mut impl Write, answer: &Json) -> io::Result<()> {
    Ok(answer.serialize(&mut Serializer::with_formatter(output, Ascii))?)
}

/// Compact JSON, with every character past ASCII escaped.
struct Ascii;

impl Formatter for Ascii {
    fn write_string_fragment<W: ?Sized + Write>(&mut self, output: &mut W, fragment: &str) -> io::Result<()> {
        for character in fragment.chars() {
            if character.is_ascii() {
                CompactFormatter.write_string_fragment(output, character.encode_utf8(&mut [0; 4]))?;
            } else {
                for unit in character.encode_utf16(&mut [0; 2]) {
                    write!(output, "\\u{unit:04x}")?;
                }
            }
        }
        Ok(())
    }
}
