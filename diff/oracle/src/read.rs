//! Reading by a schema: each shape asks the crate for what serde's implementations and its derive ask for at such a
//! type, and takes and refuses what they do, in their words.

mod enums;
mod structs;

use crate::data::{Data, Mark};
use crate::schema::{Name, Place, Shape};
use enums::OfEnum;
use ron::value::{Number, RawValue, Value};
use serde::de::{Deserialize, DeserializeSeed, Deserializer, Error, MapAccess, SeqAccess, Unexpected, Visitor};
use std::fmt;
use structs::{counted, OfFields, OfItems};

impl<'de> DeserializeSeed<'de> for Place {
    type Value = Data;

    fn deserialize<D: Deserializer<'de>>(self, source: D) -> Result<Data, D::Error> {
        match self.shape() {
            Shape::Option(content) => source.deserialize_option(OfOption(self.at(*content))),
            Shape::Seq(item) => source.deserialize_seq(OfSeq(self.at(*item))),
            Shape::Map(key, value) => source.deserialize_map(OfMap(self.at(*key), self.at(*value))),
            Shape::Tuple(items) => {
                let visitor = OfItems::of_tuple(self, items);
                source.deserialize_tuple(items.len(), visitor).map(Data::Tuple)
            }
            Shape::UnitStruct(name) => source.deserialize_unit_struct(name.0, OfUnitStruct(*name)),
            Shape::Newtype(name, content) => {
                source.deserialize_newtype_struct(name.0, OfNewtype(*name, self.at(*content)))
            }
            Shape::TupleStruct(name, items) => {
                let visitor = OfItems::called(self, items, format!("tuple struct {}", name.0));
                let read = source.deserialize_tuple_struct(name.0, items.len(), visitor)?;
                Ok(Data::TupleStruct(*name, read))
            }
            Shape::Struct(name, fields, skips) => {
                let visitor = OfFields { place: self, fields, skips: *skips, what: format!("struct {}", name.0) };
                let read = source.deserialize_struct(name.0, fields.names, visitor)?;
                Ok(Data::Struct(*name, read))
            }
            Shape::Enum(name, variants) => {
                source.deserialize_enum(name.0, variants.names, OfEnum { place: self, name: *name, variants })
            }
            leaf => read_leaf(leaf, source),
        }
    }
}

fn read_leaf<'de, D: Deserializer<'de>>(shape: &Shape, source: D) -> Result<Data, D::Error> {
    match shape {
        Shape::Bool => bool::deserialize(source).map(Data::Bool),
        Shape::I8 => read_number::<i8, D>(source),
        Shape::I16 => read_number::<i16, D>(source),
        Shape::I32 => read_number::<i32, D>(source),
        Shape::I64 => read_number::<i64, D>(source),
        Shape::I128 => read_number::<i128, D>(source),
        Shape::U8 => read_number::<u8, D>(source),
        Shape::U16 => read_number::<u16, D>(source),
        Shape::U32 => read_number::<u32, D>(source),
        Shape::U64 => read_number::<u64, D>(source),
        Shape::U128 => read_number::<u128, D>(source),
        Shape::Char => char::deserialize(source).map(Data::Char),
        Shape::Str => source.deserialize_string(OfText),
        Shape::Bytes => source.deserialize_byte_buf(OfBytes),
        Shape::Unit => <()>::deserialize(source).map(|()| Data::Unit),
        Shape::Value => Value::deserialize(source).map(Data::Value),
        Shape::Raw => Box::<RawValue>::deserialize(source).map(Data::Raw),
        _ => unreachable!("what holds other shapes has a visitor of its own"),
    }
}

fn read_number<'de, T: Deserialize<'de> + Into<Number>, D: Deserializer<'de>>(source: D) -> Result<Data, D::Error> {
    T::deserialize(source).map(|number| Data::Number(number.into()))
}

// ---- strings and bytes

struct OfText;

impl<'de> Visitor<'de> for OfText {
    type Value = Data;

    fn expecting(&self, f: &mut fmt::Formatter) -> fmt::Result {
        f.write_str("a string")
    }

    fn visit_borrowed_str<E: Error>(self, text: &'de str) -> Result<Data, E> {
        Ok(Data::Str(text.to_string(), Mark::Slice))
    }

    fn visit_str<E: Error>(self, text: &str) -> Result<Data, E> {
        Ok(Data::Str(text.to_string(), Mark::Own))
    }

    fn visit_bytes<E: Error>(self, bytes: &[u8]) -> Result<Data, E> {
        match std::str::from_utf8(bytes) {
            Ok(text) => self.visit_str(text),
            Err(_) => Err(E::invalid_value(Unexpected::Bytes(bytes), &self)),
        }
    }
}

struct OfBytes;

impl<'de> Visitor<'de> for OfBytes {
    type Value = Data;

    fn expecting(&self, f: &mut fmt::Formatter) -> fmt::Result {
        f.write_str("byte array")
    }

    fn visit_borrowed_bytes<E: Error>(self, bytes: &'de [u8]) -> Result<Data, E> {
        Ok(Data::Bytes(bytes.to_vec(), Mark::Slice))
    }

    fn visit_bytes<E: Error>(self, bytes: &[u8]) -> Result<Data, E> {
        Ok(Data::Bytes(bytes.to_vec(), Mark::Own))
    }

    fn visit_str<E: Error>(self, text: &str) -> Result<Data, E> {
        self.visit_bytes(text.as_bytes())
    }

    fn visit_seq<A: SeqAccess<'de>>(self, mut items: A) -> Result<Data, A::Error> {
        let mut bytes = Vec::new();
        while let Some(byte) = items.next_element()? {
            bytes.push(byte);
        }
        Ok(Data::Bytes(bytes, Mark::Own))
    }
}

// ---- options, lists and maps

struct OfOption(Place);

impl<'de> Visitor<'de> for OfOption {
    type Value = Data;

    fn expecting(&self, f: &mut fmt::Formatter) -> fmt::Result {
        f.write_str("option")
    }

    fn visit_unit<E: Error>(self) -> Result<Data, E> {
        self.visit_none()
    }

    fn visit_none<E: Error>(self) -> Result<Data, E> {
        Ok(Data::Option(None))
    }

    fn visit_some<D: Deserializer<'de>>(self, source: D) -> Result<Data, D::Error> {
        let content = self.0.deserialize(source)?;
        Ok(Data::Option(Some(Box::new(content))))
    }
}

struct OfSeq(Place);

impl<'de> Visitor<'de> for OfSeq {
    type Value = Data;

    fn expecting(&self, f: &mut fmt::Formatter) -> fmt::Result {
        f.write_str("a sequence")
    }

    fn visit_seq<A: SeqAccess<'de>>(self, mut items: A) -> Result<Data, A::Error> {
        let mut read = Vec::new();
        while let Some(item) = items.next_element_seed(self.0)? {
            read.push(item);
        }
        Ok(Data::Seq(read))
    }
}

struct OfMap(Place, Place);

impl<'de> Visitor<'de> for OfMap {
    type Value = Data;

    fn expecting(&self, f: &mut fmt::Formatter) -> fmt::Result {
        f.write_str("a map")
    }

    /// Of equal keys the first keeps its place, with the last's value.
    fn visit_map<A: MapAccess<'de>>(self, mut pairs: A) -> Result<Data, A::Error> {
        let mut read: Vec<(Data, Data)> = Vec::new();
        while let Some((key, value)) = pairs.next_entry_seed(self.0, self.1)? {
            match read.iter_mut().find(|(earlier, _)| *earlier == key) {
                Some((_, earlier)) => *earlier = value,
                None => read.push((key, value)),
            }
        }
        Ok(Data::Map(read))
    }
}

// ---- structs

struct OfUnitStruct(Name);

impl<'de> Visitor<'de> for OfUnitStruct {
    type Value = Data;

    fn expecting(&self, f: &mut fmt::Formatter) -> fmt::Result {
        write!(f, "unit struct {}", self.0 .0)
    }

    fn visit_unit<E: Error>(self) -> Result<Data, E> {
        Ok(Data::UnitStruct(self.0))
    }
}

struct OfNewtype(Name, Place);

impl<'de> Visitor<'de> for OfNewtype {
    type Value = Data;

    fn expecting(&self, f: &mut fmt::Formatter) -> fmt::Result {
        write!(f, "tuple struct {}", self.0 .0)
    }

    fn visit_newtype_struct<D: Deserializer<'de>>(self, source: D) -> Result<Data, D::Error> {
        let content = self.1.deserialize(source)?;
        Ok(Data::Newtype(self.0, Box::new(content)))
    }

    fn visit_seq<A: SeqAccess<'de>>(self, mut items: A) -> Result<Data, A::Error> {
        match items.next_element_seed(self.1)? {
            Some(content) => Ok(Data::Newtype(self.0, Box::new(content))),
            None => {
                let wanted = counted(&format!("tuple struct {}", self.0 .0), 1);
                Err(A::Error::invalid_length(0, &wanted.as_str()))
            }
        }
    }
}
