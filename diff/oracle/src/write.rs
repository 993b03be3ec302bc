//! Writing by a schema: each shape asks the crate for what serde's implementations and its derive ask for at such a
//! type.

use crate::data::{Data, Held};
use crate::schema::{Content, Fields, Name, Place, Shape, Variants};
use ron::value::Number;
use serde::ser::{
    Error, Serialize, SerializeMap, SerializeSeq, SerializeStruct, SerializeStructVariant, SerializeTuple,
    SerializeTupleStruct, SerializeTupleVariant, Serializer,
};

/// Data of a shape.
pub struct Typed<'a> {
    pub place: Place,
    pub data: &'a Data,
}

impl<'a> Typed<'a> {
    fn at(&self, index: usize, data: &'a Data) -> Typed<'a> {
        Typed { place: self.place.at(index), data }
    }
}

impl Serialize for Typed<'_> {
    fn serialize<S: Serializer>(&self, sink: S) -> Result<S::Ok, S::Error> {
        match (self.place.shape(), self.data) {
            (Shape::Option(_), Data::Option(None)) => sink.serialize_none(),
            (Shape::Option(content), Data::Option(Some(data))) => sink.serialize_some(&self.at(*content, data)),
            (Shape::Seq(item), Data::Seq(items)) => self.write_seq(sink, *item, items),
            (Shape::Map(key, value), Data::Map(pairs)) => self.write_map(sink, (*key, *value), pairs),
            (Shape::Tuple(shapes), Data::Tuple(items)) if shapes.len() == items.len() => {
                let mut tuple = sink.serialize_tuple(items.len())?;
                for (shape, item) in shapes.iter().zip(items) {
                    tuple.serialize_element(&self.at(*shape, item))?;
                }
                tuple.end()
            }
            (Shape::UnitStruct(name), Data::UnitStruct(_)) => sink.serialize_unit_struct(name.0),
            (Shape::Newtype(name, content), Data::Newtype(_, data)) => {
                sink.serialize_newtype_struct(name.0, &self.at(*content, data))
            }
            (Shape::TupleStruct(name, shapes), Data::TupleStruct(_, items)) if shapes.len() == items.len() => {
                let mut tuple = sink.serialize_tuple_struct(name.0, items.len())?;
                for (shape, item) in shapes.iter().zip(items) {
                    tuple.serialize_field(&self.at(*shape, item))?;
                }
                tuple.end()
            }
            (Shape::Struct(name, known, _), Data::Struct(_, fields)) => {
                let mut written = sink.serialize_struct(name.0, fields.len())?;
                for (field, data) in fields {
                    written.serialize_field(field.0, &self.at(shape_of(known, field)?, data))?;
                }
                written.end()
            }
            (Shape::Enum(name, variants), Data::Variant(_, variant, held)) => {
                self.write_variant(sink, *name, variants, (*variant, held))
            }
            (shape, data) => write_leaf(sink, shape, data),
        }
    }
}

fn is_no_data<E: Error>() -> E {
    E::custom("the data isn't of the schema")
}

fn shape_of<E: Error>(fields: &Fields, name: &Name) -> Result<usize, E> {
    let place = fields.place_of(name.0).ok_or_else(is_no_data)?;
    Ok(fields[place].1)
}

fn write_leaf<S: Serializer>(sink: S, shape: &Shape, data: &Data) -> Result<S::Ok, S::Error> {
    match (shape, data) {
        (Shape::Bool, Data::Bool(flag)) => sink.serialize_bool(*flag),
        (Shape::Char, Data::Char(character)) => sink.serialize_char(*character),
        (Shape::Str, Data::Str(text, _)) => sink.serialize_str(text),
        (Shape::Bytes, Data::Bytes(bytes, _)) => sink.serialize_bytes(bytes),
        (Shape::Unit, Data::Unit) => sink.serialize_unit(),
        (Shape::Value, Data::Value(value)) => value.serialize(sink),
        (Shape::Raw, Data::Raw(raw)) => raw.serialize(sink),
        (_, Data::Number(number)) => write_number(sink, shape, number),
        _ => Err(is_no_data()),
    }
}

fn write_number<S: Serializer>(sink: S, shape: &Shape, number: &Number) -> Result<S::Ok, S::Error> {
    match (shape, number) {
        (Shape::I8, Number::I8(number)) => sink.serialize_i8(*number),
        (Shape::I16, Number::I16(number)) => sink.serialize_i16(*number),
        (Shape::I32, Number::I32(number)) => sink.serialize_i32(*number),
        (Shape::I64, Number::I64(number)) => sink.serialize_i64(*number),
        (Shape::I128, Number::I128(number)) => sink.serialize_i128(*number),
        (Shape::U8, Number::U8(number)) => sink.serialize_u8(*number),
        (Shape::U16, Number::U16(number)) => sink.serialize_u16(*number),
        (Shape::U32, Number::U32(number)) => sink.serialize_u32(*number),
        (Shape::U64, Number::U64(number)) => sink.serialize_u64(*number),
        (Shape::U128, Number::U128(number)) => sink.serialize_u128(*number),
        _ => Err(is_no_data()),
    }
}

impl<'a> Typed<'a> {
    fn write_seq<S: Serializer>(&self, sink: S, shape: usize, items: &'a [Data]) -> Result<S::Ok, S::Error> {
        let mut list = sink.serialize_seq(Some(items.len()))?;
        for item in items {
            list.serialize_element(&self.at(shape, item))?;
        }
        list.end()
    }

    fn write_map<S>(&self, sink: S, shapes: (usize, usize), pairs: &'a [(Data, Data)]) -> Result<S::Ok, S::Error>
    where
        S: Serializer,
    {
        let mut map = sink.serialize_map(Some(pairs.len()))?;
        for (key, value) in pairs {
            map.serialize_entry(&self.at(shapes.0, key), &self.at(shapes.1, value))?;
        }
        map.end()
    }

    fn write_variant<S: Serializer>(
        &self,
        sink: S,
        name: Name,
        variants: &Variants,
        (variant, held): (Name, &'a Held),
    ) -> Result<S::Ok, S::Error> {
        let place = variants.place_of(variant.0).ok_or_else(is_no_data)?;
        // serde's number of a variant
        let number = place as u32;
        match (&variants[place].1, held) {
            (None, Held::Unit) => sink.serialize_unit_variant(name.0, number, variants.names[place]),
            (Some(Content::Newtype(content)), Held::Newtype(data)) => {
                sink.serialize_newtype_variant(name.0, number, variants.names[place], &self.at(*content, data))
            }
            (Some(Content::Tuple(shapes)), Held::Tuple(items)) if shapes.len() == items.len() => {
                let mut tuple = sink.serialize_tuple_variant(name.0, number, variants.names[place], items.len())?;
                for (shape, item) in shapes.iter().zip(items) {
                    tuple.serialize_field(&self.at(*shape, item))?;
                }
                tuple.end()
            }
            (Some(Content::Struct(content)), Held::Struct(fields)) => {
                let mut written = sink.serialize_struct_variant(name.0, number, variants.names[place], fields.len())?;
                for (field, data) in fields {
                    written.serialize_field(field.0, &self.at(shape_of(&content.0, field)?, data))?;
                }
                written.end()
            }
            _ => Err(is_no_data()),
        }
    }
}
