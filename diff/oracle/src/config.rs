//! Options of reading and writing, and the layout of what is written.

use crate::json::{member_or, taken, Asked, Json};
use ron::extensions::Extensions;
use ron::ser::path_meta::{Field, Fields};
use ron::ser::PrettyConfig;
use ron::Options;
use serde::Deserialize;
use std::collections::BTreeMap;

/// The options by the members of these names: bits of extensions, and a limit, `null` for none.
pub fn options_of(request: &Json, extensions: &str, limit: &str) -> Asked<Options> {
    let mut options = Options::default();
    options.default_extensions = Extensions::from_bits_truncate(member_or(request, extensions, 0)?);
    options.recursion_limit = member_or(request, limit, options.recursion_limit)?;
    Ok(options)
}

/// The request's `config`, or none where the text is to be compact.
pub fn config_of(request: &Json) -> Asked<Option<PrettyConfig>> {
    match request.get("config") {
        None | Some(Json::Null) => Ok(None),
        Some(Json::Object(members)) => {
            let mut config = PrettyConfig::default();
            for (name, value) in members {
                set_member(&mut config, name, value)?;
            }
            Ok(Some(config))
        }
        Some(other) => Err(format!("no config: {other}")),
    }
}

fn set_member(config: &mut PrettyConfig, name: &str, value: &Json) -> Asked<()> {
    match name {
        "depth_limit" => config.depth_limit = taken(value)?,
        "new_line" => config.new_line = taken::<String>(value)?.into(),
        "indentor" => config.indentor = taken::<String>(value)?.into(),
        "separator" => config.separator = taken::<String>(value)?.into(),
        "extensions" => config.extensions = Extensions::from_bits_truncate(taken(value)?),
        "path_meta" => config.path_meta = taken::<Option<Meta>>(value)?.map(Meta::field),
        _ => *switch_of(config, name)? = taken(value)?,
    }
    Ok(())
}

fn switch_of<'a>(config: &'a mut PrettyConfig, name: &str) -> Asked<&'a mut bool> {
    match name {
        "struct_names" => Ok(&mut config.struct_names),
        "separate_tuple_members" => Ok(&mut config.separate_tuple_members),
        "enumerate_arrays" => Ok(&mut config.enumerate_arrays),
        "compact_arrays" => Ok(&mut config.compact_arrays),
        "escape_strings" => Ok(&mut config.escape_strings),
        "compact_structs" => Ok(&mut config.compact_structs),
        "compact_maps" => Ok(&mut config.compact_maps),
        "number_suffixes" => Ok(&mut config.number_suffixes),
        "compact_ranges" => Ok(&mut config.compact_ranges),
        _ => Err(format!("no member {name} of a config")),
    }
}

/// The doc comment of a field, and those of the fields within it.
#[derive(Deserialize)]
struct Meta {
    #[serde(default)]
    doc: String,
    fields: Option<BTreeMap<String, Meta>>,
}

impl Meta {
    fn field(self) -> Field {
        Field::new(self.doc, self.fields.map(within))
    }
}

fn within(metas: BTreeMap<String, Meta>) -> Fields {
    let mut fields = Fields::new();
    for (name, meta) in metas {
        fields.insert(name, meta.field());
    }
    fields
}
