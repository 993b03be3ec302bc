//! Items and fields, of structs and of variants.

use crate::data::Data;
use crate::schema::{Fields, Name, Place, SkipsUnknown};
use serde::de::{DeserializeSeed, Deserializer, Error, IgnoredAny, MapAccess, SeqAccess, Unexpected, Visitor};
use std::fmt;

/// How many elements serde's derive says that there have to be.
pub fn counted(what: &str, count: usize) -> String {
    let ending = if count == 1 { "" } else { "s" };
    format!("{what} with {count} element{ending}")
}

/// The items of a tuple, of a tuple struct or of a tuple variant.
pub struct OfItems {
    place: Place,
    items: &'static [usize],
    what: String,
    counted: String,
}

impl OfItems {
    pub fn of_tuple(place: Place, items: &'static [usize]) -> OfItems {
        let what = format!("a tuple of size {}", items.len());
        OfItems { place, items, counted: what.clone(), what }
    }

    pub fn called(place: Place, items: &'static [usize], what: String) -> OfItems {
        OfItems { place, items, counted: counted(&what, items.len()), what }
    }
}

impl<'de> Visitor<'de> for OfItems {
    type Value = Vec<Data>;

    fn expecting(&self, f: &mut fmt::Formatter) -> fmt::Result {
        f.write_str(&self.what)
    }

    fn visit_seq<A: SeqAccess<'de>>(self, mut items: A) -> Result<Vec<Data>, A::Error> {
        let mut read = Vec::new();
        for shape in self.items {
            match items.next_element_seed(self.place.at(*shape))? {
                Some(item) => read.push(item),
                None => return Err(A::Error::invalid_length(read.len(), &self.counted.as_str())),
            }
        }
        Ok(read)
    }
}

// ---- fields

/// The fields of a struct or of a struct variant.
pub struct OfFields {
    pub place: Place,
    pub fields: &'static Fields,
    pub skips: SkipsUnknown,
    pub what: String,
}

impl<'de> Visitor<'de> for OfFields {
    type Value = Vec<(Name, Data)>;

    fn expecting(&self, f: &mut fmt::Formatter) -> fmt::Result {
        f.write_str(&self.what)
    }

    fn visit_seq<A: SeqAccess<'de>>(self, mut items: A) -> Result<Vec<(Name, Data)>, A::Error> {
        let mut read = Vec::new();
        for (place, field) in self.fields.iter().enumerate() {
            match items.next_element_seed(self.place.at(field.1))? {
                Some(data) => read.push((field.0, data)),
                None if field.2 => (),
                None => {
                    let wanted = counted(&self.what, self.fields.len());
                    return Err(A::Error::invalid_length(place, &wanted.as_str()));
                }
            }
        }
        Ok(read)
    }

    fn visit_map<A: MapAccess<'de>>(self, mut pairs: A) -> Result<Vec<(Name, Data)>, A::Error> {
        let mut slots: Vec<Option<Data>> = self.fields.iter().map(|_| None).collect();
        while let Some(known) = pairs.next_key_seed(FieldName { fields: self.fields, skips: self.skips })? {
            let Some(place) = known else {
                pairs.next_value::<IgnoredAny>()?;
                continue;
            };
            let field = &self.fields[place];
            if slots[place].is_some() {
                return Err(A::Error::duplicate_field(field.0 .0));
            }
            slots[place] = Some(pairs.next_value_seed(self.place.at(field.1))?);
        }
        self.in_order(slots)
    }
}

impl OfFields {
    fn in_order<E: Error>(&self, slots: Vec<Option<Data>>) -> Result<Vec<(Name, Data)>, E> {
        let mut read = Vec::new();
        for (field, slot) in self.fields.iter().zip(slots) {
            match slot {
                Some(data) => read.push((field.0, data)),
                None if field.2 => (),
                None => return Err(E::missing_field(field.0 .0)),
            }
        }
        Ok(read)
    }
}

/// Reads the name of a field: its place, or none where it is unknown and gone past.
struct FieldName {
    fields: &'static Fields,
    skips: SkipsUnknown,
}

impl<'de> DeserializeSeed<'de> for FieldName {
    type Value = Option<usize>;

    fn deserialize<D: Deserializer<'de>>(self, source: D) -> Result<Option<usize>, D::Error> {
        source.deserialize_identifier(self)
    }
}

impl<'de> Visitor<'de> for FieldName {
    type Value = Option<usize>;

    fn expecting(&self, f: &mut fmt::Formatter) -> fmt::Result {
        f.write_str("field identifier")
    }

    fn visit_u64<E: Error>(self, number: u64) -> Result<Option<usize>, E> {
        match usize::try_from(number) {
            Ok(place) if place < self.fields.len() => Ok(Some(place)),
            _ if self.skips => Ok(None),
            _ => {
                let wanted = format!("field index 0 <= i < {}", self.fields.len());
                Err(E::invalid_value(Unexpected::Unsigned(number), &wanted.as_str()))
            }
        }
    }

    fn visit_str<E: Error>(self, name: &str) -> Result<Option<usize>, E> {
        match self.fields.place_of(name) {
            None if !self.skips => Err(E::unknown_field(name, self.fields.names)),
            place => Ok(place),
        }
    }

    fn visit_bytes<E: Error>(self, name: &[u8]) -> Result<Option<usize>, E> {
        self.visit_str(&String::from_utf8_lossy(name))
    }
}
