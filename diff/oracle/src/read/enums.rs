//! Variants.

use super::structs::{OfFields, OfItems};
use crate::data::{Data, Held};
use crate::schema::{Content, Name, Place, Variants};
use serde::de::{DeserializeSeed, Deserializer, EnumAccess, Error, Unexpected, VariantAccess, Visitor};
use std::fmt;

pub struct OfEnum {
    pub place: Place,
    pub name: Name,
    pub variants: &'static Variants,
}

impl<'de> Visitor<'de> for OfEnum {
    type Value = Data;

    fn expecting(&self, f: &mut fmt::Formatter) -> fmt::Result {
        write!(f, "enum {}", self.name.0)
    }

    fn visit_enum<A: EnumAccess<'de>>(self, source: A) -> Result<Data, A::Error> {
        let (place, content) = source.variant_seed(VariantName(self.variants))?;
        let variant = &self.variants[place];
        let held = self.held(variant.0, &variant.1, content)?;
        Ok(Data::Variant(self.name, variant.0, held))
    }
}

impl OfEnum {
    fn held<'de, A>(&self, variant: Name, content: &'static Option<Content>, source: A) -> Result<Held, A::Error>
    where
        A: VariantAccess<'de>,
    {
        let place = self.place;
        let called = |kind| format!("{kind} variant {}::{}", self.name.0, variant.0);
        match content {
            None => source.unit_variant().map(|()| Held::Unit),
            Some(Content::Newtype(content)) => {
                source.newtype_variant_seed(place.at(*content)).map(|data| Held::Newtype(Box::new(data)))
            }
            Some(Content::Tuple(items)) => {
                let visitor = OfItems::called(place, items, called("tuple"));
                source.tuple_variant(items.len(), visitor).map(Held::Tuple)
            }
            Some(Content::Struct(content)) => {
                let (fields, skips) = (&content.0, content.1);
                let visitor = OfFields { place, fields, skips, what: called("struct") };
                source.struct_variant(fields.names, visitor).map(Held::Struct)
            }
        }
    }
}

/// Reads the name of a variant: its place.
struct VariantName(&'static Variants);

impl<'de> DeserializeSeed<'de> for VariantName {
    type Value = usize;

    fn deserialize<D: Deserializer<'de>>(self, source: D) -> Result<usize, D::Error> {
        source.deserialize_identifier(self)
    }
}

impl<'de> Visitor<'de> for VariantName {
    type Value = usize;

    fn expecting(&self, f: &mut fmt::Formatter) -> fmt::Result {
        f.write_str("variant identifier")
    }

    fn visit_u64<E: Error>(self, number: u64) -> Result<usize, E> {
        match usize::try_from(number) {
            Ok(place) if place < self.0.len() => Ok(place),
            _ => {
                let wanted = format!("variant index 0 <= i < {}", self.0.len());
                Err(E::invalid_value(Unexpected::Unsigned(number), &wanted.as_str()))
            }
        }
    }

    fn visit_str<E: Error>(self, name: &str) -> Result<usize, E> {
        self.0.place_of(name).ok_or_else(|| E::unknown_variant(name, self.0.names))
    }

    fn visit_bytes<E: Error>(self, name: &[u8]) -> Result<usize, E> {
        self.visit_str(&String::from_utf8_lossy(name))
    }
}
