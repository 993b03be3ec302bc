//! What `crates/ron_bench` does, by the Rust crate `ron`: times reading and writing of a text of nested structs. It also
//! times reading of the same text to the crate's untyped `Value`, and of a text as a type (`types.rs`). Asked for
//! `devices`, it reads standard input and writes standard output once.

mod types;

use ron::ser::PrettyConfig;
use serde::de::{DeserializeOwned, Error, Visitor};
use serde::{Deserialize, Deserializer, Serialize, Serializer};
use std::collections::BTreeMap;
use std::fmt;
use std::fs::File;
use std::io::{BufWriter, Read, Write};
use std::process::ExitCode;
use std::time::{Duration, Instant};

#[derive(Serialize, Deserialize)]
struct Point {
    x: i32,
    y: i32,
}

#[derive(Serialize, Deserialize)]
struct Record {
    name: String,
    data: Bytes,
    id: u64,
    size: u32,
}

#[derive(Serialize, Deserialize)]
struct Entity {
    name: String,
    tags: Vec<String>,
    level: Option<u32>,
    kind: Kind,
    stats: BTreeMap<String, i32>,
}

#[derive(Serialize, Deserialize)]
enum Kind {
    Player,
    Npc(u32),
    Item { weight: u32, fragile: bool },
}

/// Bytes that are written and read as a byte string.
struct Bytes(Vec<u8>);

impl Serialize for Bytes {
    fn serialize<S: Serializer>(&self, serializer: S) -> Result<S::Ok, S::Error> {
        serializer.serialize_bytes(&self.0)
    }
}

impl<'de> Deserialize<'de> for Bytes {
    fn deserialize<D: Deserializer<'de>>(deserializer: D) -> Result<Self, D::Error> {
        deserializer.deserialize_byte_buf(BytesVisitor)
    }
}

struct BytesVisitor;

impl Visitor<'_> for BytesVisitor {
    type Value = Bytes;

    fn expecting(&self, f: &mut fmt::Formatter) -> fmt::Result {
        f.write_str("a byte string")
    }

    fn visit_bytes<E: Error>(self, bytes: &[u8]) -> Result<Bytes, E> {
        Ok(Bytes(bytes.to_vec()))
    }

    fn visit_byte_buf<E: Error>(self, bytes: Vec<u8>) -> Result<Bytes, E> {
        Ok(Bytes(bytes))
    }
}

// The levels below are boxed: a tree by value would be moved as a whole at each level.
#[derive(Serialize, Deserialize)]
struct Pair<T> {
    a: Box<T>,
    b: Box<T>,
}

/// What is found of the text as structs.
struct Findings {
    /// How many bytes the text has.
    length: usize,
    /// How many the text of the default layout has.
    pretty_length: usize,
    /// Whether the text written is the text read.
    is_same: bool,
    /// The quickest pass of reading, of writing, and of writing in the default layout.
    read: Duration,
    write: Duration,
    pretty: Duration,
}

/// What is found of the text as a `Value`.
struct ValueFindings {
    /// How many bytes the text has as which the value is written.
    length: usize,
    /// The quickest pass of reading the value, of writing it, and of converting it, where it holds no enum.
    read: Duration,
    write: Duration,
    convert: Option<Duration>,
}

/// Makes a value of what is prepared for it, and then again until it was made `count` times: the first, and how long the
/// quickest took. Preparing, and dropping what a pass made, isn't timed.
fn passes_over<P, T>(
    count: u32,
    prepare: impl Fn() -> P,
    make: impl Fn(P) -> ron::Result<T>,
) -> ron::Result<(T, Duration)> {
    let timed = || {
        let prepared = prepare();
        let start = Instant::now();
        make(prepared).map(|made| (made, start.elapsed()))
    };
    let (first, mut least) = timed()?;
    for _ in 1..count {
        let (_again, time) = timed()?;
        least = least.min(time);
    }
    Ok((first, least))
}

fn passes<T>(count: u32, make: impl Fn() -> ron::Result<T>) -> ron::Result<(T, Duration)> {
    passes_over(count, || (), |()| make())
}

fn measured<T: Serialize + DeserializeOwned>(text: &str, count: u32) -> ron::Result<Findings> {
    let (tree, read) = passes(count, || Ok(ron::from_str::<T>(text)?))?;
    let (written, write) = passes(count, || ron::to_string(&tree))?;
    let (laid_out, pretty) = passes(count, || ron::ser::to_string_pretty(&tree, PrettyConfig::new()))?;
    Ok(Findings {
        length: text.len(),
        pretty_length: laid_out.len(),
        is_same: written == text,
        read,
        write,
        pretty,
    })
}

fn value_measured<T: DeserializeOwned>(text: &str, count: u32, converts: bool) -> ron::Result<ValueFindings> {
    let (tree, read) = passes(count, || Ok(ron::from_str::<ron::Value>(text)?))?;
    let (written, write) = passes(count, || ron::to_string(&tree))?;
    let convert = if converts {
        let (_made, least) = passes_over(count, || tree.clone(), |copy| copy.into_rust::<T>())?;
        Some(least)
    } else {
        None
    };
    Ok(ValueFindings {
        length: written.len(),
        read,
        write,
        convert,
    })
}

/// Reads standard input and writes standard output, and tells how long each took. A writer of the crate's own is called
/// for each piece of the text, so the file stands behind a `BufWriter`.
fn copied<T: Serialize + DeserializeOwned>() -> ron::Result<(Duration, Duration)> {
    let input = File::open("/dev/stdin").expect("standard input");
    let output = File::options().write(true).open("/dev/stdout").expect("standard output");
    let start = Instant::now();
    let tree: T = ron::de::from_reader(input)?;
    let read = start.elapsed();
    let start = Instant::now();
    let mut output = BufWriter::new(output);
    ron::Options::default().to_io_writer(&mut output, &tree)?;
    output.flush().expect("room for the text");
    Ok((read, start.elapsed()))
}

/// Which passes: those of structs, those of a `Value`, or first the one and then the other.
#[derive(Clone, Copy, PartialEq)]
enum Kinds {
    Data,
    Values,
    Both,
}

/// What is asked of a tree.
enum Task<'a> {
    Passes { kinds: Kinds, text: &'a str, count: u32, converts: bool },
    Devices,
}

/// What came of it.
enum Outcome {
    Passes(Option<Findings>, Option<ValueFindings>),
    Devices(Duration, Duration),
}

fn performed<T: Serialize + DeserializeOwned>(task: &Task) -> ron::Result<Outcome> {
    match task {
        Task::Passes { kinds, text, count, converts } => {
            let findings = (*kinds != Kinds::Values).then(|| measured::<T>(text, *count)).transpose()?;
            let of_value = (*kinds != Kinds::Data).then(|| value_measured::<T>(text, *count, *converts)).transpose()?;
            Ok(Outcome::Passes(findings, of_value))
        }
        Task::Devices => {
            let (read, write) = copied::<T>()?;
            Ok(Outcome::Devices(read, write))
        }
    }
}

/// Calls `performed` at the type of the tree of so many levels, if that is one of those listed.
macro_rules! performed_at {
    ($levels:ident, $task:ident, $tree:ty;) => {
        None
    };
    ($levels:ident, $task:ident, $tree:ty; $first:literal $($more:literal)*) => {
        if $levels == $first {
            Some(performed::<$tree>($task))
        } else {
            performed_at!($levels, $task, Pair<$tree>; $($more)*)
        }
    };
}

fn performed_on_tree(kind: &str, levels: u8, task: &Task) -> Option<ron::Result<Outcome>> {
    match kind {
        "points" => {
            performed_at!(levels, task, Point; 0 1 2 3 4 5 6 7 8 9 10 11 12 13 14 15 16 17 18 19 20)
        }
        "records" => {
            performed_at!(levels, task, Record; 0 1 2 3 4 5 6 7 8 9 10 11 12 13 14 15 16 17 18 19 20)
        }
        "entities" => {
            performed_at!(levels, task, Entity; 0 1 2 3 4 5 6 7 8 9 10 11 12 13 14 15 16 17 18 19 20)
        }
        _ => None,
    }
}

fn performed_on_type(kind: &str, count: &str) -> ExitCode {
    let mut text = String::new();
    std::io::stdin().read_to_string(&mut text).expect("a text");
    let found = types::measured_as(kind, &text, count.parse().expect("a number of passes"))
        .expect("pairs, lists or configuration")
        .expect("a text of this type");
    let verdict = if found.is_same { "same" } else { "different" };
    println!("{} bytes, {verdict}", text.len());
    eprintln!("read {} ns", found.read.as_nanos());
    eprintln!("write {} ns", found.write.as_nanos());
    ExitCode::from(u8::from(!found.is_same))
}

fn main() -> ExitCode {
    let words: Vec<String> = std::env::args().skip(1).collect();
    let [kind, levels, count] = words.as_slice() else {
        eprintln!(
            "usage: bench points|records|entities LEVELS COUNT|data:COUNT|values:COUNT|devices, or types pairs|lists|configuration COUNT"
        );
        return ExitCode::from(2);
    };
    if kind == "types" {
        return performed_on_type(levels, count);
    }
    let levels = levels.parse().expect("a number of levels");
    let mut text = String::new();
    let task = if count == "devices" {
        Task::Devices
    } else {
        std::io::stdin().read_to_string(&mut text).expect("a text");
        let (kinds, count) = match count.split_once(':') {
            Some(("data", count)) => (Kinds::Data, count),
            Some(("values", count)) => (Kinds::Values, count),
            _ => (Kinds::Both, count.as_str()),
        };
        let count = count.parse().expect("a number of passes");
        // a value doesn't become an enum, which entities hold
        Task::Passes { kinds, text: &text, count, converts: kind != "entities" }
    };
    let outcome = performed_on_tree(kind, levels, &task)
        .expect("points, records or entities, and at most 20 levels")
        .expect("a tree of that many levels");
    match outcome {
        Outcome::Passes(findings, of_value) => {
            let mut is_same = true;
            if let Some(findings) = findings {
                is_same = findings.is_same;
                let verdict = if is_same { "same" } else { "different" };
                println!("{} bytes, {verdict}; {} laid out", findings.length, findings.pretty_length);
                eprintln!("read {} ns", findings.read.as_nanos());
                eprintln!("write {} ns", findings.write.as_nanos());
                eprintln!("pretty {} ns", findings.pretty.as_nanos());
            }
            if let Some(found) = of_value {
                println!("{} as a value", found.length);
                eprintln!("value {} ns", found.read.as_nanos());
                eprintln!("value_write {} ns", found.write.as_nanos());
                if let Some(convert) = found.convert {
                    eprintln!("convert {} ns", convert.as_nanos());
                }
            }
            ExitCode::from(u8::from(!is_same))
        }
        Outcome::Devices(read, write) => {
            eprintln!("read {} ns", read.as_nanos());
            eprintln!("write {} ns", write.as_nanos());
            ExitCode::SUCCESS
        }
    }
}
