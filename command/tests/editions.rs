//! `--edition`: which plain length is printed, and that it is said.

mod common;

use common::{cut, run, wrong, Input};

fn input(name: &str, text: &str) -> Input {
    Input::new(&format!("editions_{}", name), text.as_bytes(), &cut(text))
}

/// Bodies, the first line for programs up to the length, and the lengths in editions 1 and 2.
const ROWS: [(&str, &str, [Option<u32>; 2]); 11] = [
    ("{ 0x00 }", "body 0 3 1 0", [Some(2), Some(1)]),
    ("{ 0x0000 0x01 }", "body 0 4 2 0", [Some(4), Some(3)]),
    ("{ push1 0x00 }", "body 0 4 2 0", [Some(2), Some(2)]),
    ("{ push1 0x00 0x00 }", "body 0 5 3 0", [Some(4), Some(3)]),
    ("{ go : push2 0x00 0x00 }", "body 0 7 4 0", [Some(6), Some(5)]),
    ("{ 0x00 [ X ] }", "body 0 6 2 0", [None, None]),
    ("{ push0 0x00 }", "body 0 4 2 0", [Some(3), Some(2)]),
    ("{ 0x0 0x10 go : 0x000 }", "body 0 7 4 0", [Some(7), Some(5)]),
    ("{ }", "body 0 2 0 0", [Some(0), Some(0)]),
    ("{ 0x00 F ( 0x00 ) }", "body 0 7 2 1", [None, None]),
    ("{ go : 0x00 push1 b : 0x00 }", "body 0 9 5 0", [None, None]),
];

const EDITIONS: [&str; 2] = ["1", "2"];

#[test]
fn a_program_gets_length_and_edition_behind_the_counts() {
    for (text, head, lengths) in ROWS {
        let input = input("rows", text);
        let plain = input.accepted(&["--records", "--body", "0"]);
        let (_, records) = plain.split_once('\n').unwrap();
        for (edition, length) in EDITIONS.into_iter().zip(lengths) {
            let wanted = format!("{} {} {} 0 0\n{}", head, length.unwrap_or(4_294_967_295), edition, records);
            assert_eq!(input.accepted(&["--records", "--body", "0", "--edition", edition]), wanted, "{}", text);
        }
        assert_eq!(input.accepted(&["--edition", "1", "--records", "--body", "0"]), plain, "1 if none is given");
    }
}

#[test]
fn a_person_is_told_the_edition_of_a_length() {
    for (text, _, lengths) in ROWS {
        let input = input("person", text);
        for (edition, length) in EDITIONS.into_iter().zip(lengths) {
            let wanted = match length {
                Some(length) => format!(", plain length {} (edition {}); ", length, edition),
                None => ", no plain length; ".to_string(),
            };
            let (found, _) = input.warned(&["--edition", edition, "--body", "0"]);
            assert!(found.lines().next().unwrap().contains(&wanted), "{}: {}", text, found);
        }
        assert_eq!(input.warned(&["--body", "0"]), input.warned(&["--body", "0", "--edition", "1"]));
    }
}

const FILE: &str = "\
#define macro A ( ) = { 0x00 0x00 push1 0x00 }
#define fn B ( ) = { 0x01 }
#define test C ( ) = { go : 0x0000 }
#define macro D ( ) = { 0x00 A ( ) }
#define constant E = 0x00
";

/// The file's definitions in words, without the statements under them and without where they stand.
fn headings(options: &[&str]) -> Vec<String> {
    let found = input(&format!("file{}", options.len()), FILE).accepted(options);
    let whats = found.lines().skip(2).map(|line| &line[24..]).filter(|what| !what.starts_with(' '));
    whats.map(|what| what.split_once("; text bytes ").expect(what).0.to_string()).collect()
}

/// Its headings, with these lengths of A, B and C in an edition.
fn measured(edition: &str, lengths: [u32; 3]) -> Vec<String> {
    let [a, b, c] = lengths.map(|length| format!("takes 0, returns 0, plain length {} (edition {})", length, edition));
    let others = ["macro D, takes 0, returns 0, no plain length", "constant E = 0x00"].map(str::to_string);
    [format!("macro A, {}", a), format!("fn B, {}", b), format!("test C, {}", c)].into_iter().chain(others).collect()
}

#[test]
fn every_macro_of_a_file_is_measured_in_the_edition() {
    assert_eq!(headings(&[]), measured("1", [6, 2, 3]));
    assert_eq!(headings(&["--edition", "1"]), measured("1", [6, 2, 3]));
    assert_eq!(headings(&["--edition", "2"]), measured("2", [4, 2, 2]));
    assert_eq!(headings(&["--edition", "2", "--strict"]), measured("2", [4, 2, 2]));
}

/// The line has as many fields as that of an accepted body; the edition is the one that was asked for.
#[test]
fn a_refused_body_has_its_edition_too() {
    let input = input("refused", "{ 0x00 ] }");
    for edition in EDITIONS {
        let found = input.run(&["--edition", edition, "--records", "--body", "0"]);
        let wanted = format!("body 5 2 0 0 0 {} 0 0\nrefused 5 InvalidTokenInMacroBody 2 2 1 8\n", edition);
        assert_eq!((found.out, found.err.as_str(), found.status), (wanted, "", Some(1)));
        let found = input.run(&["--edition", edition, "--records", "--body", "9"]);
        assert_eq!(found.out, format!("body 31 9 0 0 0 {} 0 0\nrefused 31 StartOutside 9 - - -\n", edition));
    }
}

#[test]
fn a_refusal_and_a_warning_are_the_same_in_both() {
    let refused = input("same_refused", "#define macro M ( ) = { 0x00 ] }");
    assert_eq!(refused.refused(&["--edition", "2"]), refused.refused(&[]));
    let warned = input("same_warned", "#define macro M ( ) = { 0x00 go : push1 }");
    let (_, warning) = warned.warned(&["--edition", "2"]);
    assert!(warning.contains(": warning: --strict would refuse this: 4 InvalidPush: "), "{}", warning);
    assert_eq!(warned.warned(&[]).1, warning);
    assert_eq!(warned.refused(&["--edition", "2", "--strict"]), warned.refused(&["--strict"]));
}

#[test]
fn an_edition_is_1_or_2() {
    for edition in ["0", "3", "10", "01", "+1", "-1", "1.0", "0x1", " 1", "", "one", "4294967297", "--body"] {
        let message = format!("simmerotter: --edition needs 1 or 2, not {}", edition);
        assert_eq!(wrong(&["--body", "0", "--edition", edition, "a", "b"]), message);
    }
    assert_eq!(wrong(&["a", "b", "--edition"]), "simmerotter: --edition needs 1 or 2");
    assert_eq!(wrong(&["--edition", "1\u{1b}[2J", "a", "b"]), "simmerotter: --edition needs 1 or 2, not 1?[2J");
    assert_eq!(wrong(&["--edition=2", "a", "b"]), "simmerotter: unknown option --edition=2");
}

#[test]
fn an_edition_stands_once() {
    for again in EDITIONS {
        assert_eq!(wrong(&["--edition", "1", "a", "b", "--edition", again]), "simmerotter: --edition is given twice");
    }
}

#[test]
fn the_records_of_a_file_have_no_edition() {
    let message = "simmerotter: --edition with --records goes with --body: a file's records have no plain length";
    for edition in EDITIONS {
        assert_eq!(wrong(&["--edition", edition, "--records", "a", "b"]), message);
        assert_eq!(wrong(&["a", "b", "--records", "--places", "--strict", "--edition", edition]), message);
    }
    let found = input("records", FILE).accepted(&["--records"]);
    assert_eq!(found.lines().next(), Some("file 0 49 5 9 0 0 0"));
}

#[test]
fn the_option_may_stand_anywhere() {
    let input = input("anywhere", "{ 0x00 }");
    let wanted = input.run(&["--edition", "2", "--body", "0"]);
    assert_eq!(wanted.status, Some(0));
    let (text, words) = (input.text.as_os_str(), input.words.as_os_str());
    let [edition, second, body, place] = ["--edition", "2", "--body", "0"].map(std::ffi::OsStr::new);
    assert_eq!(run(&[text, edition, second, words, body, place]), wanted);
    assert_eq!(run(&[body, place, text, words, edition, second]), wanted);
}
