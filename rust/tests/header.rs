//! The crate says what the C headers say: version, texts of refusals in their order, and the functions with their arguments.

use kivdrag::Refusal;

const FUNCTIONS: &str = include_str!("../../include/kivdrag.h");
const SWITCH: &str = include_str!("../../include/kivdrag_switch.h");
const RAW: &str = include_str!("../src/raw.rs");

/// What stands between two marks.
fn between<'a>(text: &'a str, begin: &str, end: &str) -> &'a str {
    let (_, rest) = text.split_once(begin).unwrap_or_else(|| panic!("no {begin}"));
    rest.split_once(end).unwrap_or_else(|| panic!("no {end}")).0
}

#[test]
fn version_is_that_of_the_header() {
    assert_eq!(env!("CARGO_PKG_VERSION"), between(SWITCH, "#define KIVDRAG_VERSION \"", "\""));
}

#[test]
fn texts_are_those_of_the_header() {
    let (mut last, said) = ("accepted".to_string(), |number| Refusal::check(number).expect_err("a refusal").to_string());
    for number in 1..=15 {
        let line = format!("\"{last}\",\n        \"{}\",\n", said(number));
        assert!(SWITCH.contains(&line), "{number} after {last}");
        last = said(number);
    }
    assert_eq!([16, u32::MAX].map(said), [(); 2].map(|()| between(SWITCH, "texts[number] : \"", "\"").to_string()));
}

/// A parameter of C as Rust has it: `const uint32_t *slots` is `slots: *const u32`.
fn parameter(of_c: &str) -> String {
    let (types, name) = of_c.rsplit_once([' ', '*']).expect("a type and a name");
    let array = name.split_once('[').map(|(name, _)| name);
    let number = match types.trim_start_matches("const ").trim_end_matches([' ', '*']) {
        "size_t" => "usize".into(),
        fixed => fixed.replace("uint", "u").replace("int", "i").replace("_t", ""),
    };
    let points = array.is_some() || of_c.contains('*');
    let pointer = if !points { "" } else if of_c.starts_with("const ") { "*const " } else { "*mut " };
    format!("{}: {pointer}{number}", array.unwrap_or(name))
}

/// Function names with their parameters, between a name's beginning and the end of its declaration; white space is as one blank.
fn declarations(text: &str, begin: &str, end: &str, each: fn(&str) -> String) -> Vec<(String, Vec<String>)> {
    let text = text.split_whitespace().collect::<Vec<_>>().join(" ");
    let declared = text.split(begin).skip(1).map(|from| from.split_once(end).expect("an end").0);
    let parts = declared.map(|text| text.split_once('(').expect("parameters"));
    parts.map(|(name, list)| (name.into(), list.split(',').map(str::trim).filter(|one| !one.is_empty()).map(each).collect())).collect()
}

#[test]
fn functions_are_those_of_the_header() {
    let of_c = declarations(between(FUNCTIONS, "extern \"C\" {", "#ifdef __cplusplus"), "uint32_t kivdrag_", ");", parameter);
    let of_rust = declarations(between(RAW, "extern \"C\" {", "\n}"), "pub fn kivdrag_", ") -> u32;", str::to_string);
    assert_eq!(of_rust.len(), 14);
    assert_eq!(of_rust, of_c);
}
