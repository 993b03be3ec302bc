//! By a schema the crate reads, refuses and writes what it does by a type of the same form with serde's derives.

use crate::json::Json;
use crate::schema::schema_of;
use crate::write::Typed;
use ron::extensions::Extensions;
use ron::ser::PrettyConfig;
use ron::Options;
use serde::de::DeserializeOwned;
use serde::{Deserialize, Serialize};
use serde_json::json;
use std::collections::BTreeMap;

#[derive(Deserialize, Serialize)]
#[serde(deny_unknown_fields)]
struct Point {
    x: i32,
    y: i128,
}

#[derive(Deserialize, Serialize)]
struct Loose {
    a: u8,
}

#[derive(Deserialize, Serialize)]
struct Unit;

#[derive(Deserialize, Serialize)]
struct Id(u8);

#[derive(Deserialize, Serialize)]
struct Pair(Option<u16>, Option<(bool, char)>);

#[derive(Deserialize, Serialize)]
#[serde(deny_unknown_fields)]
enum Kind {
    Player,
    Npc(Id),
    At(i8, i8),
    Item { weight: u32 },
}

#[derive(Deserialize, Serialize)]
#[serde(deny_unknown_fields)]
struct All {
    kinds: Vec<Kind>,
    stats: BTreeMap<u8, String>,
    unit: (Unit, ()),
}

/// The text, each of its fronts, and it without each of its characters.
fn damaged(text: &str) -> Vec<String> {
    let places = || text.char_indices().map(|(place, _)| text.split_at(place));
    let fronts = places().map(|(front, _)| front.to_string());
    let shortened = places().map(|(front, rest)| front.chars().chain(rest.chars().skip(1)).collect());
    fronts.chain(shortened).chain([text.to_string()]).collect()
}

/// The texts that the crate writes of it: compact, and over lines.
fn written(options: &Options, data: &impl Serialize) -> String {
    format!("{:?} {:?}", options.to_string(data), options.to_string_pretty(data, PrettyConfig::default()))
}

fn agrees<T: DeserializeOwned + Serialize>(schema: Json, text: &str) {
    let place = schema_of(&schema).unwrap();
    for bits in 0..16 {
        let options = Options::default().with_default_extension(Extensions::from_bits_truncate(bits));
        for text in damaged(text) {
            let by_type = match options.from_str::<T>(&text) {
                Ok(made) => written(&options, &made),
                Err(why) => format!("{why:?} {why}"),
            };
            let by_schema = match options.from_str_seed(&text, place) {
                Ok(data) => written(&options, &Typed { place, data: &data }),
                Err(why) => format!("{why:?} {why}"),
            };
            assert_eq!(by_type, by_schema, "of {text} under {bits}");
        }
    }
}

#[test]
fn structs() {
    let point = json!([{ "struct": ["Point", [["x", 1], ["y", 2]]] }, "i32", "i128"]);
    agrees::<Point>(point.clone(), "Point(x: -3, y: 4)");
    agrees::<Point>(point.clone(), "(y: 4, x: 1, z: ())");
    agrees::<Point>(point, "(x: 1, x: 2)");
    agrees::<Loose>(json!([{ "struct": ["Loose", [["a", 1]], true] }, "u8"]), "(b: [1, {2: 3}], a: 1)");
    agrees::<Unit>(json!([{ "unit_struct": "Unit" }]), "Unit");
    agrees::<Id>(json!([{ "newtype": ["Id", 1] }, "u8"]), "Id(255)");
}

#[test]
fn options_and_tuples() {
    let pair = [
        json!({ "tuple_struct": ["Pair", [1, 3]] }),
        json!({ "option": 2 }),
        json!("u16"),
        json!({ "option": 4 }),
        json!({ "tuple": [5, 6] }),
        json!("bool"),
        json!("char"),
    ];
    agrees::<Pair>(json!(pair), "Pair(Some(65535), Some((true, 'a')))");
    agrees::<Pair>(json!(pair), "(7, None, 8)");
    agrees::<(u8, String)>(json!([{ "tuple": [1, 2] }, "u8", "str"]), r#"(1, "a\n")"#);
}

#[test]
fn enums_lists_and_maps() {
    let variants = json!([
        ["Player"],
        ["Npc", { "newtype": 3 }],
        ["At", { "tuple": [5, 5] }],
        ["Item", { "struct": [[["weight", 6]]] }],
    ]);
    let all = [
        json!({ "struct": ["All", [["kinds", 1], ["stats", 7], ["unit", 9]]] }),
        json!({ "seq": 2 }),
        json!({ "enum": ["Kind", variants] }),
        json!({ "newtype": ["Id", 4] }),
        json!("u8"),
        json!("i8"),
        json!("u32"),
        json!({ "map": [4, 8] }),
        json!("str"),
        json!({ "tuple": [10, 11] }),
        json!({ "unit_struct": "Unit" }),
        json!("unit"),
    ];
    let text = r#"(kinds: [Player, Npc((1)), At(-1, 2), Item(weight: 9)], stats: {1: "a", 2: "b"}, unit: (Unit, ()))"#;
    agrees::<All>(json!(all), text);
    agrees::<All>(json!(all), "(kinds: [Npc(1), Elf, Item(weight: 1, weight: 2), Item(size: 3)])");
}
