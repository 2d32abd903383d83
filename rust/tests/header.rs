//! include/tsunghawi.h against this crate: the lengths, and the parameters of each function in both.
use std::collections::BTreeMap;
use tsunghawi::{CUBE, JUDGED, LIST, MOVES, PRUNES, STICKERS};

const HEADER: &str = include_str!("../../include/tsunghawi.h");
const RAW: &str = include_str!("../src/raw.rs");

/// The number that the header gives a name.
fn defined(name: &str) -> usize {
    let found = HEADER.lines().find_map(|line| line.strip_prefix(&format!("#define {name} ")));
    found.and_then(|rest| rest.split_whitespace().next()?.parse().ok()).expect(name)
}

#[test]
fn lengths_are_those_of_c() {
    let wanted = [
        ("CUBE", CUBE),
        ("STICKERS", STICKERS),
        ("LIST", LIST),
        ("JUDGED", JUDGED),
        ("MOVES", MOVES),
        ("PRUNES", PRUNES),
    ];
    for (name, length) in wanted {
        assert_eq!(defined(&format!("TSUNGHAWI_{name}")), length, "{name}");
    }
}

/// One letter for each type, the same in C and in Rust; capitals are pointers, and those to what is only read stand before a dot.
fn letter(words: &str) -> String {
    let kinds = [("uint8_t", 'b'), ("uint16_t", 'h'), ("uint32_t", 'w'), ("uint64_t", 'd'), ("size_t", 'n')];
    let rust = [("u8", 'b'), ("u16", 'h'), ("u32", 'w'), ("u64", 'd'), ("usize", 'n')];
    let names = words.split(|c: char| !c.is_alphanumeric() && c != '_');
    let kind = names.filter_map(|word| kinds.iter().chain(&rust).find(|k| k.0 == word)).next().expect(words).1;
    match (words.contains('*'), words.contains("const")) {
        (false, _) => kind.to_string(),
        (true, false) => kind.to_uppercase().to_string(),
        (true, true) => format!("{}.", kind.to_uppercase()),
    }
}

/// The types of a list of parameters.
fn letters(parameters: &str) -> String {
    parameters.split(',').filter(|p| !p.trim().is_empty()).map(letter).collect()
}

/// Each function of the header by its name: its parameters, and what it returns.
fn of_c() -> BTreeMap<&'static str, String> {
    let ends = HEADER.split(';').filter_map(|part| part.rsplit_once('\n').map(|_| part));
    let functions = ends.filter_map(|part| {
        let (before, parameters) = part.rsplit_once('(')?;
        let (rest, name) = before.rsplit_once(' ')?;
        let returned = rest.rsplit('\n').next()?;
        name.starts_with("tsunghawi_")
            .then(|| (name, letters(parameters.trim_end_matches(')')) + " " + &letter(returned)))
    });
    functions.collect()
}

/// The same of the declarations in Rust.
fn of_rust() -> BTreeMap<&'static str, String> {
    let functions = RAW.split("pub fn ").skip(1).map(|part| {
        let (name, rest) = part.split_once('(').expect("parameters");
        let (parameters, rest) = rest.split_once(')').expect("their end");
        let returned = rest.split(';').next().expect("what it returns");
        (name, letters(parameters) + " " + &letter(returned))
    });
    functions.collect()
}

#[test]
fn functions_are_those_of_c() {
    assert_eq!(of_c().len(), 25);
    assert_eq!(of_c(), of_rust());
}
