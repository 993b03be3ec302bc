//! Data by a schema, and values without one, with their JSON.

use crate::json::{bytes_of, hex, leaked, taken, Asked, Json};
use crate::schema::Name;
use ron::value::{Map, Number, RawValue, Value};
use serde_json::json;
use std::str::FromStr;

#[derive(PartialEq)]
pub enum Data {
    Bool(bool),
    Number(Number),
    Char(char),
    Str(String, Mark),
    Bytes(Vec<u8>, Mark),
    Unit,
    Option(Option<Box<Data>>),
    Seq(Vec<Data>),
    Tuple(Vec<Data>),
    Map(Vec<(Data, Data)>),
    UnitStruct(Name),
    Newtype(Name, Box<Data>),
    TupleStruct(Name, Vec<Data>),
    Struct(Name, Vec<(Name, Data)>),
    Variant(Name, Name, Held),
    Value(Value),
    Raw(Box<RawValue>),
}

/// What a variant holds.
#[derive(PartialEq)]
pub enum Held {
    Unit,
    Newtype(Box<Data>),
    Tuple(Vec<Data>),
    Struct(Vec<(Name, Data)>),
}

/// Whether a string or bytes were handed on as a slice of the text. Keys that differ in this alone are equal.
pub enum Mark {
    Slice,
    Own,
}

impl PartialEq for Mark {
    fn eq(&self, _: &Mark) -> bool {
        true
    }
}

// ---- data as JSON

/// A list of a kind and its parts. The macro `json` would copy these, at each level all that is below it.
fn tagged<const COUNT: usize>(kind: &str, parts: [Json; COUNT]) -> Json {
    std::iter::once(json!(kind)).chain(parts).collect()
}

impl Mark {
    fn json(&self) -> Json {
        match self {
            Mark::Slice => json!("s"),
            Mark::Own => json!("a"),
        }
    }
}

impl Name {
    fn json(&self) -> Json {
        json!(self.0)
    }
}

impl Data {
    pub fn json(&self) -> Json {
        match self {
            Data::Bool(flag) => tagged("bool", [json!(flag)]),
            Data::Number(number) => number_json(number),
            Data::Char(character) => tagged("char", [json!(character)]),
            Data::Str(text, mark) => tagged("str", [json!(text), mark.json()]),
            Data::Bytes(bytes, mark) => tagged("bytes", [json!(hex(bytes)), mark.json()]),
            Data::Unit => tagged("unit", []),
            Data::Option(None) => tagged("none", []),
            Data::Option(Some(content)) => tagged("some", [content.json()]),
            Data::Seq(items) => tagged("seq", [items_json(items)]),
            Data::Tuple(items) => tagged("tuple", [items_json(items)]),
            Data::Map(pairs) => {
                tagged("map", [pairs.iter().map(|(key, value)| pair(key.json(), value.json())).collect()])
            }
            Data::UnitStruct(name) => tagged("unit_struct", [name.json()]),
            Data::Newtype(name, content) => tagged("newtype", [name.json(), content.json()]),
            Data::TupleStruct(name, items) => tagged("tuple_struct", [name.json(), items_json(items)]),
            Data::Struct(name, fields) => tagged("struct", [name.json(), fields_json(fields)]),
            Data::Variant(name, variant, held) => variant_json(name.json(), variant.json(), held),
            Data::Value(value) => tagged("value", [value_json(value)]),
            Data::Raw(raw) => tagged("raw", [json!(raw.get_ron())]),
        }
    }
}

fn variant_json(name: Json, variant: Json, held: &Held) -> Json {
    match held {
        Held::Unit => tagged("variant", [name, variant, json!("unit")]),
        Held::Newtype(content) => tagged("variant", [name, variant, json!("newtype"), content.json()]),
        Held::Tuple(items) => tagged("variant", [name, variant, json!("tuple"), items_json(items)]),
        Held::Struct(fields) => tagged("variant", [name, variant, json!("struct"), fields_json(fields)]),
    }
}

fn items_json(items: &[Data]) -> Json {
    items.iter().map(Data::json).collect()
}

fn fields_json(fields: &[(Name, Data)]) -> Json {
    fields.iter().map(|(name, data)| pair(name.json(), data.json())).collect()
}

fn pair(one: Json, other: Json) -> Json {
    Json::Array(vec![one, other])
}

pub fn value_json(value: &Value) -> Json {
    match value {
        Value::Bool(flag) => tagged("bool", [json!(flag)]),
        Value::Char(character) => tagged("char", [json!(character)]),
        Value::Map(map) => {
            tagged("map", [map.iter().map(|(key, value)| pair(value_json(key), value_json(value))).collect()])
        }
        Value::Number(number) => number_json(number),
        Value::Option(None) => tagged("none", []),
        Value::Option(Some(content)) => tagged("some", [value_json(content)]),
        Value::String(text) => tagged("str", [json!(text)]),
        Value::Bytes(bytes) => tagged("bytes", [json!(hex(bytes))]),
        Value::Seq(items) => tagged("seq", [items.iter().map(value_json).collect()]),
        Value::Unit => tagged("unit", []),
    }
}

fn number_json(number: &Number) -> Json {
    let (width, digits) = match number {
        Number::I8(number) => ("i8", number.to_string()),
        Number::I16(number) => ("i16", number.to_string()),
        Number::I32(number) => ("i32", number.to_string()),
        Number::I64(number) => ("i64", number.to_string()),
        Number::I128(number) => ("i128", number.to_string()),
        Number::U8(number) => ("u8", number.to_string()),
        Number::U16(number) => ("u16", number.to_string()),
        Number::U32(number) => ("u32", number.to_string()),
        Number::U64(number) => ("u64", number.to_string()),
        Number::U128(number) => ("u128", number.to_string()),
        Number::F32(number) => ("f32", format!("{:?}", number.get())),
        Number::F64(number) => ("f64", format!("{:?}", number.get())),
        _ => ("a number of another kind", String::new()),
    };
    tagged(width, [json!(digits)])
}

// ---- data of JSON

/// A list's first item, its kind, and the others.
fn parts_of(json: &Json) -> Asked<(&str, &[Json])> {
    match json.as_array().map(Vec::as_slice) {
        Some([Json::String(kind), parts @ ..]) => Ok((kind, parts)),
        _ => Err(format!("no data: {json}")),
    }
}

/// The data that a request holds. Marks of strings and of bytes aren't looked at.
pub fn data_of(json: &Json) -> Asked<Data> {
    let (kind, parts) = parts_of(json)?;
    Ok(match (kind, parts) {
        ("bool", [flag]) => Data::Bool(taken(flag)?),
        ("char", [character]) => Data::Char(taken(character)?),
        ("str", [text, ..]) => Data::Str(taken(text)?, Mark::Own),
        ("bytes", [digits, ..]) => Data::Bytes(bytes_of(&taken::<String>(digits)?)?, Mark::Own),
        ("unit", []) => Data::Unit,
        ("none", []) => Data::Option(None),
        ("some", [content]) => Data::Option(Some(boxed(content)?)),
        ("seq", [items]) => Data::Seq(items_of(items)?),
        ("tuple", [items]) => Data::Tuple(items_of(items)?),
        ("map", [pairs]) => Data::Map(pairs_of(pairs, data_of, data_of)?),
        ("unit_struct", [name]) => Data::UnitStruct(name_of(name)?),
        ("newtype", [name, content]) => Data::Newtype(name_of(name)?, boxed(content)?),
        ("tuple_struct", [name, items]) => Data::TupleStruct(name_of(name)?, items_of(items)?),
        ("struct", [name, fields]) => Data::Struct(name_of(name)?, pairs_of(fields, name_of, data_of)?),
        ("variant", [name, variant, held @ ..]) => Data::Variant(name_of(name)?, name_of(variant)?, held_of(held)?),
        ("value", [value]) => Data::Value(value_of(value)?),
        ("raw", [text]) => Data::Raw(raw_of(taken(text)?)?),
        (width, [digits]) => Data::Number(number_of(width, &taken::<String>(digits)?)?),
        _ => return Err(format!("no data: {json}")),
    })
}

fn boxed(json: &Json) -> Asked<Box<Data>> {
    data_of(json).map(Box::new)
}

fn name_of(json: &Json) -> Asked<Name> {
    taken::<String>(json).map(|name| Name(leaked(&name)))
}

fn list_of(json: &Json) -> Asked<&Vec<Json>> {
    json.as_array().ok_or_else(|| format!("no list: {json}"))
}

fn items_of(json: &Json) -> Asked<Vec<Data>> {
    list_of(json)?.iter().map(data_of).collect()
}

fn pairs_of<A, B>(json: &Json, one: fn(&Json) -> Asked<A>, other: fn(&Json) -> Asked<B>) -> Asked<Vec<(A, B)>> {
    let pair = |json: &Json| match list_of(json)?.as_slice() {
        [left, right] => Ok((one(left)?, other(right)?)),
        _ => Err(format!("no pair: {json}")),
    };
    list_of(json)?.iter().map(pair).collect()
}

fn held_of(parts: &[Json]) -> Asked<Held> {
    match parts {
        [Json::String(kind)] if kind == "unit" => Ok(Held::Unit),
        [Json::String(kind), content] if kind == "newtype" => boxed(content).map(Held::Newtype),
        [Json::String(kind), items] if kind == "tuple" => items_of(items).map(Held::Tuple),
        [Json::String(kind), fields] if kind == "struct" => pairs_of(fields, name_of, data_of).map(Held::Struct),
        _ => Err("no content of a variant".to_string()),
    }
}

fn raw_of(text: String) -> Asked<Box<RawValue>> {
    RawValue::from_boxed_ron(text.into()).map_err(|why| why.to_string())
}

pub fn value_of(json: &Json) -> Asked<Value> {
    let (kind, parts) = parts_of(json)?;
    Ok(match (kind, parts) {
        ("bool", [flag]) => Value::Bool(taken(flag)?),
        ("char", [character]) => Value::Char(taken(character)?),
        ("map", [pairs]) => Value::Map(map_of(pairs_of(pairs, value_of, value_of)?)),
        ("none", []) => Value::Option(None),
        ("some", [content]) => Value::Option(Some(Box::new(value_of(content)?))),
        ("str", [text]) => Value::String(taken(text)?),
        ("bytes", [digits]) => Value::Bytes(bytes_of(&taken::<String>(digits)?)?),
        ("seq", [items]) => Value::Seq(list_of(items)?.iter().map(value_of).collect::<Asked<_>>()?),
        ("unit", []) => Value::Unit,
        (width, [digits]) => Value::Number(number_of(width, &taken::<String>(digits)?)?),
        _ => return Err(format!("no value: {json}")),
    })
}

fn map_of(pairs: Vec<(Value, Value)>) -> Map {
    pairs.into_iter().collect()
}

fn number_of(width: &str, digits: &str) -> Asked<Number> {
    match width {
        "i8" => number_in::<i8>(digits),
        "i16" => number_in::<i16>(digits),
        "i32" => number_in::<i32>(digits),
        "i64" => number_in::<i64>(digits),
        "i128" => number_in::<i128>(digits),
        "u8" => number_in::<u8>(digits),
        "u16" => number_in::<u16>(digits),
        "u32" => number_in::<u32>(digits),
        "u64" => number_in::<u64>(digits),
        "u128" => number_in::<u128>(digits),
        _ => Err(format!("no width: {width}")),
    }
}

fn number_in<T: FromStr + Into<Number>>(digits: &str) -> Asked<Number> {
    digits.parse::<T>().map(T::into).map_err(|_| format!("no number: {digits}"))
}
