//! What can be asked. `crates/ron_test_rows/README.md` tells the forms of requests and answers.

use crate::config::{config_of, options_of};
use crate::data::{data_of, value_json, value_of};
use crate::devices::{Sink, Source};
use crate::error::{error_of, refused, refused_at};
use crate::json::{bytes_of, member, member_or, required, Asked, Json};
use crate::panicked;
use crate::schema::{schema_of, Place};
use crate::write::Typed;
use ron::error::{Error, SpannedResult};
use ron::ser::PrettyConfig;
use ron::value::{RawValue, Value};
use ron::{Deserializer, Options};
use serde::de::DeserializeSeed;
use serde_json::json;
use std::io::Cursor;
use std::panic::{catch_unwind, UnwindSafe};

pub fn answer(request: &Json) -> Asked<Json> {
    match member::<String>(request, "op")?.as_str() {
        "read" => read(request),
        "value" | "bytes" => read_value(request),
        "value_from_str" => Ok(told_at(text_of(request)?.parse::<Value>(), |value| value_json(&value))),
        "write" => write(request),
        "rewrite" => rewrite(request),
        "steps" => steps(request),
        "into" => into(request),
        "raw" => raw(request),
        "read_io" => read_io(request),
        "write_io" | "write_fmt" => write_to_device(request),
        "error" => error_of(request).map(|error| json!({ "ok": error.to_string(), "debug": format!("{error:?}") })),
        other => Err(format!("no op {other}")),
    }
}

// ---- parts of requests

/// A text, or bytes that may be none.
enum Input {
    Text(String),
    Bytes(Vec<u8>),
}

fn input_of(request: &Json) -> Asked<Input> {
    match request.get("hex") {
        Some(_) => bytes_of(&member::<String>(request, "hex")?).map(Input::Bytes),
        None => text_of(request).map(Input::Text),
    }
}

fn text_of(request: &Json) -> Asked<String> {
    member(request, "text")
}

/// The shape to begin with.
fn root_of(request: &Json) -> Asked<Place> {
    schema_of(required(request, "schema")?)?.checked_at(member_or(request, "root", 0)?)
}

fn reading_options(request: &Json) -> Asked<Options> {
    options_of(request, "ext", "limit")
}

// ---- answers

/// The macro `json` would copy what was made.
fn done(made: Json) -> Json {
    let mut answer = json!({});
    answer["ok"] = made;
    answer
}

/// What was made, or why it wasn't.
fn told<T>(outcome: Result<T, Error>, json: impl FnOnce(T) -> Json) -> Json {
    match outcome {
        Ok(made) => done(json(made)),
        Err(why) => refused(&why),
    }
}

fn told_at<T>(outcome: SpannedResult<T>, json: impl FnOnce(T) -> Json) -> Json {
    match outcome {
        Ok(made) => done(json(made)),
        Err(why) => refused_at(&why),
    }
}

// ---- reading

fn read(request: &Json) -> Asked<Json> {
    let (root, options) = (root_of(request)?, reading_options(request)?);
    let read = match &input_of(request)? {
        Input::Text(text) => options.from_str_seed(text, root),
        Input::Bytes(bytes) => options.from_bytes_seed(bytes, root),
    };
    Ok(told_at(read, |data| data.json()))
}

fn read_value(request: &Json) -> Asked<Json> {
    let options = reading_options(request)?;
    let read = match &input_of(request)? {
        Input::Text(text) => options.from_str::<Value>(text),
        Input::Bytes(bytes) => options.from_bytes::<Value>(bytes),
    };
    Ok(told_at(read, |value| value_json(&value)))
}

fn read_io(request: &Json) -> Asked<Json> {
    let bytes = match input_of(request)? {
        Input::Text(text) => text.into_bytes(),
        Input::Bytes(bytes) => bytes,
    };
    let source = Source {
        bytes: Cursor::new(bytes),
        chunk: member_or(request, "chunk", 1)?,
        fails: member_or(request, "fail", false)?,
    };
    let read = reading_options(request)?.from_reader_seed(source, root_of(request)?);
    Ok(told_at(read, |data| data.json()))
}

/// Values one after another. Each answer tells what is left of the text.
fn steps(request: &Json) -> Asked<Json> {
    let (schema, options) = (schema_of(required(request, "schema")?)?, reading_options(request)?);
    let (text, steps) = (text_of(request)?, member::<Vec<Json>>(request, "steps")?);
    let mut source = match Deserializer::from_str_with_options(&text, &options) {
        Ok(source) => source,
        Err(why) => return Ok(refused_at(&why)),
    };
    let (extensions, rest) = (source.extensions().bits(), source.remainder());
    let answers = steps.iter().map(|step| answer_to_step(step, schema, &mut source)).collect::<Asked<Json>>()?;
    let mut answer = done(answers);
    answer["extensions"] = json!(extensions);
    answer["rest"] = json!(rest);
    Ok(answer)
}

fn answer_to_step(step: &Json, schema: Place, source: &mut Deserializer) -> Asked<Json> {
    let outcome = match (step[0].as_str(), step[1].as_u64()) {
        (Some("read"), Some(index)) => {
            let root = schema.checked_at(index as usize)?;
            root.deserialize(&mut *source).map(|data| data.json())
        }
        (Some("end"), _) => source.end().map(|()| Json::Null),
        _ => return Err(format!("no step {step}")),
    };
    let mut answer = told_at(outcome.map_err(|why| source.span_error(why)), |json| json);
    answer["rest"] = json!(source.remainder());
    Ok(answer)
}

fn into(request: &Json) -> Asked<Json> {
    let value = value_of(required(request, "value")?)?;
    Ok(told(root_of(request)?.deserialize(value), |data| data.json()))
}

// ---- raw texts

fn raw(request: &Json) -> Asked<Json> {
    let text = text_of(request)?;
    if let Err(why) = RawValue::from_ron(&text) {
        return Ok(refused_at(&why));
    }
    let trim = trimmed(|| RawValue::from_ron(&text).map(|raw| raw.trim().get_ron().to_string()));
    let boxed = || RawValue::from_boxed_ron(text.clone().into());
    let trim_boxed = trimmed(|| boxed().map(|raw| raw.trim_boxed().get_ron().to_string()));
    Ok(json!({ "ok": { "ron": text, "trim": trim, "trim_boxed": trim_boxed } }))
}

/// The text without its gaps. Of some raw texts the crate panics.
fn trimmed(trim: impl FnOnce() -> SpannedResult<String> + UnwindSafe) -> Json {
    match catch_unwind(trim) {
        Ok(Ok(text)) => json!(text),
        Ok(Err(why)) => refused_at(&why),
        Err(panic) => panicked(panic),
    }
}

// ---- writing

fn text_of_data(data: &Typed, options: &Options, config: Option<PrettyConfig>) -> Result<String, Error> {
    match config {
        None => options.to_string(data),
        Some(config) => options.to_string_pretty(data, config),
    }
}

fn write(request: &Json) -> Asked<Json> {
    let data = data_of(required(request, "data")?)?;
    let typed = Typed { place: root_of(request)?, data: &data };
    let written = text_of_data(&typed, &reading_options(request)?, config_of(request)?);
    Ok(told(written, Json::String))
}

/// Reads by `ext` and `limit`, and writes by `wext`, `wlimit` and `config`.
fn rewrite(request: &Json) -> Asked<Json> {
    let (root, config) = (root_of(request)?, config_of(request)?);
    let (options, writing_options) = (reading_options(request)?, options_of(request, "wext", "wlimit")?);
    let data = match options.from_str_seed(&text_of(request)?, root) {
        Ok(data) => data,
        Err(why) => return Ok(refused_at(&why)),
    };
    let written = text_of_data(&Typed { place: root, data: &data }, &writing_options, config);
    let mut answer = told(written, Json::String);
    answer["data"] = data.json();
    Ok(answer)
}

/// Writes to a device with room for `budget` bytes. What it took is told of a refusal too.
fn write_to_device(request: &Json) -> Asked<Json> {
    let data = data_of(required(request, "data")?)?;
    let typed = Typed { place: root_of(request)?, data: &data };
    let (options, config) = (reading_options(request)?, config_of(request)?);
    let takes_bytes = member::<String>(request, "op")? == "write_io";
    let mut sink = Sink { room: member(request, "budget")?, written: Vec::new() };
    let outcome = match (takes_bytes, config) {
        (true, None) => options.to_io_writer(&mut sink, &typed),
        (true, Some(config)) => options.to_io_writer_pretty(&mut sink, &typed, config),
        (false, None) => options.to_writer(&mut sink, &typed),
        (false, Some(config)) => options.to_writer_pretty(&mut sink, &typed, config),
    };
    let mut answer = told(outcome, |()| Json::Null);
    answer["written"] = json!(String::from_utf8_lossy(&sink.written));
    Ok(answer)
}
