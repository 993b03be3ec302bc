//! Answers requests with the Rust crate `ron`: a line of JSON for each line of standard input. See `../README.md`.

mod answer;
mod config;
mod data;
#[cfg(test)]
mod derived;
mod devices;
mod error;
mod json;
mod read;
mod schema;
mod write;

use json::Json;
use serde_json::json;
use std::any::Any;
use std::io::{self, BufRead, Write};
use std::panic::{catch_unwind, set_hook, AssertUnwindSafe};
use std::thread;

/// Texts nest deeply, and a request may lift the limit on nesting.
const STACK: usize = 4 << 30;

fn main() -> io::Result<()> {
    // What a panic says is part of an answer.
    set_hook(Box::new(|_| ()));
    let answering = thread::Builder::new().stack_size(STACK).spawn(answer_all)?;
    answering.join().expect("panics of the crate are caught")
}

fn answer_all() -> io::Result<()> {
    let mut output = io::stdout().lock();
    for line in io::stdin().lock().split(b'\n') {
        let line = line?;
        if !line.is_empty() {
            json::write_ascii(&mut output, &answer_to(&line))?;
            output.write_all(b"\n")?;
            output.flush()?;
        }
    }
    Ok(())
}

/// The answer to a line. It copies the request's `id`.
fn answer_to(line: &[u8]) -> Json {
    let request = match json::parsed(line) {
        Ok(request) => request,
        Err(why) => return json!({ "bad_request": why }),
    };
    let mut answer = match catch_unwind(AssertUnwindSafe(|| answer::answer(&request))) {
        Ok(Ok(answer)) => answer,
        Ok(Err(why)) => json!({ "bad_request": why }),
        Err(panic) => panicked(panic),
    };
    if let Some(id) = request.get("id") {
        answer["id"] = id.clone();
    }
    answer
}

/// The answer where the crate panics.
pub fn panicked(panic: Box<dyn Any + Send>) -> Json {
    let said = panic.downcast_ref::<String>().cloned();
    let said = said.or_else(|| panic.downcast_ref::<&str>().map(|text| text.to_string()));
    json!({ "panic": said.unwrap_or_default() })
}
