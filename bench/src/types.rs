//! What `crates/ron_bench` does with types, by the Rust crate: times reading and writing of a text as a type.

use serde::de::DeserializeOwned;
use serde::{Deserialize, Serialize};
use std::collections::BTreeMap;
use std::time::Duration;

use crate::passes;

#[derive(Serialize, Deserialize)]
struct Point {
    x: i32,
    y: i32,
}

#[derive(Serialize, Deserialize)]
enum Shape {
    Empty,
    Named(String),
    Size(u32, u32),
    At { x: i32, label: String },
}

#[derive(Serialize, Deserialize)]
struct Window {
    title: String,
    size: (u32, u32),
    fullscreen: bool,
}

type Pairs = Vec<(String, (u32, i64))>;
type Lists = BTreeMap<String, Vec<u32>>;
type Configuration = (Window, Vec<Shape>, BTreeMap<String, Point>);

/// Whether what was read is written as the text, and the quickest pass of reading and of writing.
pub struct TypeFindings {
    pub is_same: bool,
    pub read: Duration,
    pub write: Duration,
}

/// Reads the text as the type of this name, and writes what was read, as often as is asked.
pub fn measured_as(kind: &str, text: &str, count: u32) -> Option<ron::Result<TypeFindings>> {
    match kind {
        "pairs" => Some(measured::<Pairs>(text, count)),
        "lists" => Some(measured::<Lists>(text, count)),
        "configuration" => Some(measured::<Configuration>(text, count)),
        _ => None,
    }
}

fn measured<T: Serialize + DeserializeOwned>(text: &str, count: u32) -> ron::Result<TypeFindings> {
    let (made, read) = passes(count, || Ok(ron::from_str::<T>(text)?))?;
    let (written, write) = passes(count, || ron::to_string(&made))?;
    Ok(TypeFindings {
        is_same: written == text,
        read,
        write,
    })
}
