//! The C header and the crate give the same names the same numbers.

mod common;

use common::{Lists, Source};
use simmerotter::{
    ArgumentForm, DefinitionKind, Edition, FunctionType, Kind, Location, Mode, Refusal, ReservedType, Room, StatementKind,
};
use std::collections::HashMap;
use std::fmt::Debug;
use std::fs;
use std::path::Path;

/// The header's constants, without `SIMMEROTTER_`.
fn constants() -> HashMap<String, u32> {
    let path = Path::new(env!("CARGO_MANIFEST_DIR")).join("../c/simmerotter.h");
    let header = fs::read_to_string(&path).unwrap_or_else(|error| panic!("{}: {}", path.display(), error));
    let found: Vec<(String, u32)> = header.lines().filter_map(constant).collect();
    let constants: HashMap<_, _> = found.iter().cloned().collect();
    assert_eq!(constants.len(), found.len(), "a constant stands there twice");
    constants
}

/// Of a line `SIMMEROTTER_NAME = 1,` or `#define SIMMEROTTER_NAME 1u`.
fn constant(line: &str) -> Option<(String, u32)> {
    let line = line.trim_start().trim_start_matches("#define ").strip_prefix("SIMMEROTTER_")?;
    let (name, value) = line.split_once(' ')?;
    let digits: String = value.trim_start_matches("= ").chars().take_while(|one| one.is_ascii_digit()).collect();
    Some((name.to_string(), digits.parse().ok()?))
}

/// `OpenParen` as `OPEN_PAREN`.
fn upper(name: &impl Debug) -> String {
    let mut upper = String::new();
    for letter in format!("{:?}", name).chars() {
        if letter.is_ascii_uppercase() && !upper.is_empty() {
            upper.push('_');
        }
        upper.push(letter.to_ascii_uppercase());
    }
    upper
}

/// Every name has its number in the header, behind this prefix.
fn assert_same<T: Debug>(prefix: &str, names: impl IntoIterator<Item = T>, number: impl Fn(&T) -> u32) -> usize {
    let constants = constants();
    let names: Vec<T> = names.into_iter().collect();
    for name in &names {
        let constant = format!("{}{}", prefix, upper(name));
        assert_eq!(constants.get(&constant), Some(&number(name)), "{}", constant);
    }
    names.len()
}

#[test]
fn modes_editions_kinds_and_refusals_are_the_same() {
    assert_eq!(assert_same("", Mode::ALL, |mode| mode.number()), 2);
    assert_eq!(assert_same("EDITION_", Edition::ALL, |edition| edition.number()), 2);
    assert_eq!(constants().keys().filter(|name| name.starts_with("EDITION_")).count(), 2);
    assert_eq!(assert_same("KIND_", Kind::ALL, |kind| kind.number()), 46);
    assert_eq!(constants().keys().filter(|name| name.starts_with("KIND_")).count(), 46);
    assert_eq!(assert_same("", Refusal::ALL, |refusal| refusal.number()), 24);
}

#[test]
fn types_and_their_numbers_in_an_answer_are_the_same() {
    let constants = constants();
    assert_eq!(constants.keys().filter(|name| name.starts_with("TYPE_")).count(), 8);
    assert_eq!(constants["TYPE_NONE"], 0);
    let index = |name: &str| constants[name] as usize;
    for (text, name, found) in [
        ("address", "TYPE_ADDRESS", ReservedType::Address),
        ("bool", "TYPE_BOOL", ReservedType::Bool),
        ("string", "TYPE_STRING", ReservedType::String),
        ("bytes", "TYPE_BYTES", ReservedType::Bytes),
        ("uint16", "TYPE_UINT", ReservedType::Uint(16)),
        ("int24", "TYPE_INT", ReservedType::Int(24)),
        ("bytes5", "TYPE_BYTES_N", ReservedType::BytesN(5)),
    ] {
        let source = Source::of_lines(&[&format!("{{ @f ( a {} ) }}", text)]);
        let answer = Lists::enough(&source.tokens).read_body(0, 1, &source.text, &source.tokens, 0);
        assert_eq!(answer[index("TYPE")], u64::from(constants[name]), "{}", name);
        assert_eq!(answer[index("SIZE")], u64::from(found.size()), "{}", name);
        assert_eq!(found.number(), constants[name], "{}", name);
    }
}

#[test]
fn what_records_hold_is_the_same() {
    let definitions = (1..20).filter_map(DefinitionKind::from_number);
    assert_eq!(assert_same("DEFINITION_", definitions, |kind| kind.number()), 11);
    let statements = (1..20).filter_map(StatementKind::from_number);
    assert_eq!(assert_same("STATEMENT_", statements, |kind| kind.number()), 9);
    let arguments = (1..20).filter_map(ArgumentForm::from_number);
    assert_eq!(assert_same("ARGUMENT_", arguments, |form| form.number()), 6);
    let functions = (1..20).filter_map(FunctionType::from_number);
    assert_eq!(assert_same("FUNCTION_", functions, |one| one.number()), 4);
    let locations = (1..20).filter_map(Location::from_number);
    assert_eq!(assert_same("LOCATION_", locations, |one| one.number()), 3);
}

#[test]
fn the_words_of_a_definition_s_ranges_are_the_same() {
    let constants = constants();
    let source = Source::of_lines(&["#include \"a\"", "#define table T { abc }"]);
    let mut room = Room::new();
    let file = room.read_file(&source.text, &source.tokens).expect("a file that follows the rules");
    for definition in file.definitions() {
        let word = |name: &str| definition.record()[constants[name] as usize] as usize;
        assert_eq!(word("DEFINITION_FIRST")..word("DEFINITION_END"), definition.places());
        assert_eq!(word("DEFINITION_TEXT_START")..word("DEFINITION_TEXT_END"), definition.text_range());
    }
    assert_eq!(file.definitions().count(), 2);
    assert_eq!(constants["DEFINITION_TEXT_END"] + 1, constants["DEFINITION_WORDS"], "the last word");
}

#[test]
fn sizes_are_the_same() {
    let constants = constants();
    for (name, value) in [
        ("MAX_TEXT", simmerotter::MAX_TEXT),
        ("MAX_TOKENS", simmerotter::MAX_TOKENS),
        ("TOKEN_WORDS", simmerotter::TOKEN_WORDS),
        ("DEFINITION_WORDS", simmerotter::DEFINITION_WORDS),
        ("STATEMENT_WORDS", simmerotter::STATEMENT_WORDS),
        ("ARGUMENT_WORDS", simmerotter::ARGUMENT_WORDS),
        ("ANSWER_NUMBERS", simmerotter::ANSWER_NUMBERS),
        ("NONE", simmerotter::NONE as usize),
    ] {
        assert_eq!(constants.get(name).map(|value| *value as usize), Some(value), "{}", name);
    }
}
