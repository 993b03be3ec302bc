//! Schemas: lists of shapes, which name one another by their places in the list.

use crate::json::{leaked, leaked_names, taken, Asked, Json};
use serde::{Deserialize, Deserializer};
use std::cell::RefCell;
use std::collections::HashMap;
use std::ops::Deref;

#[derive(Deserialize)]
#[serde(rename_all = "snake_case")]
pub enum Shape {
    Bool,
    I8,
    I16,
    I32,
    I64,
    I128,
    U8,
    U16,
    U32,
    U64,
    U128,
    Char,
    Str,
    Bytes,
    Unit,
    Value,
    Raw,
    Option(usize),
    Seq(usize),
    Tuple(Vec<usize>),
    Map(usize, usize),
    UnitStruct(Name),
    Newtype(Name, usize),
    TupleStruct(Name, Vec<usize>),
    Struct(Name, Fields, #[serde(default)] SkipsUnknown),
    Enum(Name, Variants),
}

/// Whether unknown fields are gone past, as serde does where its `deny_unknown_fields` isn't there.
pub type SkipsUnknown = bool;

/// The content of a variant.
#[derive(Deserialize)]
#[serde(rename_all = "snake_case")]
pub enum Content {
    Newtype(usize),
    Tuple(Vec<usize>),
    Struct(StructContent),
}

#[derive(Deserialize)]
pub struct StructContent(pub Fields, #[serde(default)] pub SkipsUnknown);

/// A name, its shape, and whether it may be missing.
#[derive(Deserialize)]
pub struct Field(pub Name, pub usize, #[serde(default)] pub bool);

/// A name, and what the variant holds.
#[derive(Deserialize)]
pub struct Variant(pub Name, #[serde(default)] pub Option<Content>);

pub type Fields = Named<Field>;
pub type Variants = Named<Variant>;

#[derive(Clone, Copy, Debug, PartialEq)]
pub struct Name(pub &'static str);

impl<'de> Deserialize<'de> for Name {
    fn deserialize<D: Deserializer<'de>>(source: D) -> Result<Name, D::Error> {
        Ok(Name(leaked(&String::deserialize(source)?)))
    }
}

/// Fields or variants, with the list of their names.
pub struct Named<T> {
    items: Vec<T>,
    pub names: &'static [&'static str],
}

impl<T> Deref for Named<T> {
    type Target = [T];

    fn deref(&self) -> &[T] {
        &self.items
    }
}

pub trait HasName {
    fn name(&self) -> &'static str;
}

impl HasName for Field {
    fn name(&self) -> &'static str {
        self.0 .0
    }
}

impl HasName for Variant {
    fn name(&self) -> &'static str {
        self.0 .0
    }
}

impl<T: HasName> Named<T> {
    pub fn place_of(&self, name: &str) -> Option<usize> {
        self.names.iter().position(|one| *one == name)
    }
}

impl<'de, T: HasName + Deserialize<'de>> Deserialize<'de> for Named<T> {
    fn deserialize<D: Deserializer<'de>>(source: D) -> Result<Self, D::Error> {
        let items = Vec::<T>::deserialize(source)?;
        let names = leaked_names(items.iter().map(T::name));
        Ok(Named { items, names })
    }
}

/// A shape of a schema.
#[derive(Clone, Copy)]
pub struct Place {
    schema: &'static [Shape],
    index: usize,
}

impl Place {
    pub fn shape(self) -> &'static Shape {
        &self.schema[self.index]
    }

    pub fn at(self, index: usize) -> Place {
        Place { index, ..self }
    }

    /// The same, but none of a schema that is shorter.
    pub fn checked_at(self, index: usize) -> Asked<Place> {
        match self.schema.get(index) {
            Some(_) => Ok(self.at(index)),
            None => Err(format!("no shape {index}")),
        }
    }
}

thread_local! {
    /// The schemas that were asked for, by their JSON. They stay, since serde wants names without an end.
    static SCHEMAS: RefCell<HashMap<String, &'static [Shape]>> = RefCell::default();
}

/// The first shape of a request's schema.
pub fn schema_of(shapes: &Json) -> Asked<Place> {
    let text = shapes.to_string();
    let known = SCHEMAS.with(|schemas| schemas.borrow().get(&text).copied());
    let schema = match known {
        Some(schema) => schema,
        None => Box::leak(taken::<Vec<Shape>>(shapes)?.into_boxed_slice()),
    };
    SCHEMAS.with(|schemas| schemas.borrow_mut().insert(text, schema));
    Ok(Place { schema, index: 0 })
}
