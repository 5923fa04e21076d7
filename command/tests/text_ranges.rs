//! Where a definition stands in the text, to a person and to a program.

mod common;

use common::{cut, list, Input};
use simmerotter::Kind;

/// `#define constant C = 0x01` with a comment before it and white space behind; either may be nothing.
fn constant(name: &str, before: &str, behind: &str) -> Input {
    let text = format!("{}#define constant C = 0x01{}", before, behind);
    let tokens = [
        (Kind::Comment, before, 0),
        (Kind::Define, "#define", 0),
        (Kind::Constant, "constant", 0),
        (Kind::Ident, "C", 0),
        (Kind::Assign, "=", 0),
        (Kind::Literal, "0x01", 0),
        (Kind::Whitespace, behind, 0),
    ];
    Input::new(&format!("ranges_{}", name), text.as_bytes(), &list(text.as_bytes(), &tokens))
}

/// Bytes are counted, not characters: in them ü is two. The column counts characters.
#[test]
fn what_stands_before_moves_both_ends_and_what_stands_behind_neither() {
    for (name, before, behind, position, start) in [
        ("alone", "", "", "1:1", 0),
        ("behind", "", " \n\n", "1:1", 0),
        ("before", "/* a */", "", "1:8", 7),
        ("between", "// ü\n", "\t \n", "2:1", 6),
        ("letters", "/* ü */", " ", "1:8", 8),
    ] {
        let input = constant(name, before, behind);
        let records = input.accepted(&["--records"]);
        let wanted = format!("file 0 5 1 0 0 0 0\ndefinition 0 4 2 0 5 0 0 0 0 0 0 1 4 {} {}\n", start, start + 25);
        assert_eq!(records, wanted, "{}", name);
        let person = input.accepted(&[]);
        let wanted = format!("{:<9} 0..5          constant C = 0x01; text bytes {}..{}", position, start, start + 25);
        assert_eq!(person.lines().nth(2), Some(wanted.as_str()));
    }
}

const FILE: &str = "
#include \"a\"

#define function f ( uint256 a ) view returns ( )
#define macro M ( ) = {
  push1 0x01
  go : stop
}

  #define table K { abc d }
#define event E ( address indexed a , uint256 )
";

/// The file's definitions by hand: its string's token has no quotes, so the closing one is no part of the import.
const DEFINITIONS: [&str; 5] = [
    "#include \"a",
    "#define function f ( uint256 a ) view returns ( )",
    "#define macro M ( ) = {\n  push1 0x01\n  go : stop\n}",
    "#define table K { abc d }",
    "#define event E ( address indexed a , uint256 )",
];

#[test]
fn definitions_are_cut_out_of_the_text_by_what_is_printed() {
    let input = Input::new("ranges_cut", FILE.as_bytes(), &cut(FILE));
    for options in [&[][..], &["--strict"], &["--edition", "2"]] {
        let person = input.accepted(options);
        let shown = person.lines().filter_map(|line| line.split_once("; text bytes ")).map(|(_, range)| range.split(".."));
        assert_eq!(shown.map(|ends| part(ends.collect())).collect::<Vec<_>>(), DEFINITIONS);
    }
    let records = input.accepted(&["--records"]);
    let lines = records.lines().filter(|line| line.starts_with("definition "));
    let ends = lines.map(|line| line.split(' ').skip(2 + 12).collect());
    assert_eq!(ends.map(part).collect::<Vec<_>>(), DEFINITIONS);
}

/// The file's bytes between two numbers.
fn part(ends: Vec<&str>) -> &'static str {
    let ends: Vec<usize> = ends.iter().map(|end| end.parse().unwrap()).collect();
    assert_eq!(ends.len(), 2);
    &FILE[ends[0]..ends[1]]
}

#[test]
fn an_import_of_nothing_ends_with_its_string() {
    for (name, tokens, end) in [
        ("without_quotes", [3, 0, 8, 0, 43, 10, 10, 0, 0, 12, 12, 0], 10),
        ("with_quotes", [3, 0, 8, 0, 43, 9, 11, 0, 0, 12, 12, 0], 11),
        ("without_text", [3, 0, 0, 0, 43, 0, 0, 0, 0, 12, 12, 0], 0),
    ] {
        let input = Input::new(&format!("ranges_{}", name), b"#include \"\"\n", &tokens);
        let wanted = format!("definition 0 1 1 0 2 0 0 0 0 0 0 0 0 0 {}", end);
        assert_eq!(input.accepted(&["--records"]).lines().nth(1), Some(wanted.as_str()));
        assert!(input.accepted(&[]).ends_with(&format!("\"; text bytes 0..{}\n", end)));
    }
}
