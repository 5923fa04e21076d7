//! `--strict`, and the warning without it.

mod common;

use common::{cut, list, run, Input};
use simmerotter::Kind;

fn input(name: &str, text: &str) -> Input {
    Input::new(&format!("strict_{}", name), text.as_bytes(), &cut(text))
}

/// A refusal's message as the warning of it: the words behind path and position are put in.
fn as_warning(refused: &str) -> String {
    refused.replacen(": ", ": warning: --strict would refuse this: ", 1)
}

/// Bodies that are accepted without the option, and the first line for programs with it.
const ROWS: [(&str, &str); 8] = [
    ("{ go : push1 }", "body 4 4 0 0 0 1 0 0"),
    ("{ go : push1 0x0100 }", "body 4 5 0 0 0 1 0 0"),
    ("{ a : b : a : }", "body 22 5 0 0 0 1 0 0"),
    ("{ a : push1 a : }", "body 4 4 0 0 0 1 0 0"),
    ("{ a : push1 stop }", "body 4 4 0 0 0 1 0 0"),
    ("{ push1 0x01 a : push4 0x0102030405 }", "body 4 7 0 0 0 1 0 0"),
    ("{ go : push1 0x01 }", "body 0 6 3 0 3 1 0 0"),
    ("{ a a : a b : }", "body 0 8 4 0 8 1 0 0"),
];

#[test]
fn the_option_refuses_pushes_in_labels_and_repeated_labels() {
    for (text, wanted) in ROWS {
        let input = input("rows", text);
        let found = input.run(&["--strict", "--records", "--body", "0"]);
        assert_eq!(found.out.lines().next(), Some(wanted), "{}", text);
        let status = if wanted.starts_with("body 0 ") { 0 } else { 1 };
        assert_eq!((found.status, found.err.as_str()), (Some(status), ""), "{}", text);
        assert!(input.accepted(&["--records", "--body", "0"]).starts_with("body 0 "), "{}", text);
    }
}

#[test]
fn a_push_without_its_literal_is_named_with_its_label() {
    let wanted = "\
strict_bare.huff:1:14: 4 InvalidPush: under the label `go` push1 needs a literal behind it; found CloseBrace
{ go : push1 }
             ^
token place 4 (number 4 of the list)
";
    assert_eq!(input("bare", "{ go : push1 }").refused(&["--strict", "--body", "0"]), wanted);
}

#[test]
fn a_push_with_too_large_a_literal_is_named_with_the_nearest_label() {
    let text = "#define macro M ( ) = {\n  a :\n  b : push1 0x0100 stop\n}";
    let wanted = "\
strict_large.huff:3:20: 4 InvalidPush: under the label `b` 0x0100 has 2 bytes and push1 takes 1
  b : push1 0x0100 stop
                   ^^^^
token place 13 (number 13 of the list)
";
    assert_eq!(input("large", text).refused(&["--strict"]), wanted);
}

#[test]
fn a_push_before_the_labels_is_refused_as_ever() {
    let text = "#define macro A ( ) = { a : }\n#define macro B ( ) = { push1 b : }";
    let wanted = input("before", text).refused(&[]);
    assert!(wanted.contains(": 4 InvalidPush: push1 needs a literal behind it; found Label\n"), "{}", wanted);
    assert_eq!(input("before", text).refused(&["--strict"]), wanted);
}

#[test]
fn a_repeated_label_says_where_the_first_of_its_body_is() {
    let text = "#define macro A ( ) = { go : }\n#define fn B ( ) = {\n  stop go : go\n  end : stop\n  go : stop\n}";
    let wanted = "\
strict_twice.huff:5:3: 22 DuplicateLabel: the label `go` stands twice in this body, first at 3:8; give one of them another name
  go : stop
  ^^
token place 24 (number 24 of the list)
";
    assert_eq!(input("twice", text).refused(&["--strict"]), wanted);
}

#[test]
fn a_repeated_label_needs_no_colon_to_be_refused() {
    let text = b"{ a : a }";
    let tokens = [
        (Kind::OpenBrace, "{", 0),
        (Kind::Label, "a", 0),
        (Kind::Colon, ":", 0),
        (Kind::Label, "a", 0),
        (Kind::CloseBrace, "}", 0),
    ];
    let input = Input::new("strict_colon", text, &list(text, &tokens));
    assert!(input.refused(&["--strict", "--body", "0"]).starts_with("strict_colon.huff:1:7: 22 DuplicateLabel: "));
    // Without the option it is the missing Colon that is refused, and a refusal has no warning beside it.
    let found = input.refused(&["--body", "0"]);
    assert!(found.starts_with("strict_colon.huff:1:9: 1 UnexpectedType: "), "{}", found);
    assert!(!found.contains("warning"), "{}", found);
}

#[test]
fn labels_of_other_macros_may_have_the_same_name() {
    let text = "#define macro A ( ) = { a : }\n#define fn B ( ) = { a : }\n#define test C ( ) = { b : push1 0x01 }";
    let input = input("other", text);
    let found = input.accepted(&["--strict"]);
    assert!(found.starts_with("strict_other.huff: accepted: 3 definitions, 5 statements"), "{}", found);
    assert_eq!(input.accepted(&[]), found, "nothing to warn of");
    assert_eq!(input.accepted(&["--records", "--places"]), input.accepted(&["--records", "--places", "--strict"]));
}

#[test]
fn without_the_option_a_person_is_warned_of_what_it_would_refuse() {
    let text = "#define macro M ( ) = {\n  stop\n  go : push1\n  end : stop\n}\n";
    let input = input("warning", text);
    let (out, err) = input.warned(&[]);
    assert!(out.starts_with("strict_warning.huff: accepted: 1 definition, 5 statements, 0 arguments"), "{}", out);
    assert!(out.ends_with("4:9       13..14            opcode stop (0x00)\n"), "{}", out);
    let refused = "\
strict_warning.huff:4:3: 4 InvalidPush: under the label `go` push1 needs a literal behind it; found Label
  end : stop
  ^^^
token place 11 (number 11 of the list)
";
    assert_eq!(input.refused(&["--strict"]), refused);
    assert_eq!(err, as_warning(refused));
}

#[test]
fn a_body_is_warned_of_like_a_file() {
    for (text, wanted) in ROWS {
        let input = input("body", text);
        let (out, err) = input.warned(&["--body", "0"]);
        assert!(out.starts_with("strict_body.huff: accepted: "), "{}", out);
        let warning = match wanted.starts_with("body 0 ") {
            true => String::new(),
            false => as_warning(&input.refused(&["--strict", "--body", "0"])),
        };
        assert_eq!(err, warning, "{}", text);
    }
}

#[test]
fn a_program_gets_no_warning() {
    let text = "#define macro M ( ) = { go : push1 }";
    let input = input("program", text);
    let found = input.accepted(&["--records"]);
    assert_eq!(found.lines().next(), Some("file 0 11 1 2 0 0 0"));
    assert!(input.accepted(&["--records", "--places"]).starts_with(&found));
    let strict = input.run(&["--records", "--strict", "--places"]);
    assert_eq!(strict.out, "file 4 10 0 0 0 0 0\nrefused 4 InvalidPush 10 10 1 36\n");
    assert_eq!((strict.status, strict.err.as_str()), (Some(1), ""));
}

#[test]
fn names_in_a_warning_do_not_steer_the_terminal() {
    let text = b"{ a\x1b[2J: push1 }";
    let mut words = vec![29, 0, 1, 0, 39, 2, 7, 0, 36, 7, 8, 0, 41, 9, 14, 0x60, 30, 15, 16, 0];
    words.extend([0, 16, 16, 0]);
    let (_, err) = Input::new("strict_clean", text, &words).warned(&["--body", "0"]);
    assert!(err.contains(" under the label `a?[2J` push1 needs a literal behind it; found CloseBrace\n"), "{:?}", err);
}

#[test]
fn the_option_may_stand_anywhere() {
    let input = input("anywhere", "{ go : push1 }");
    let wanted = input.run(&["--strict", "--body", "0"]);
    assert_eq!(wanted.status, Some(1));
    let (text, words) = (input.text.as_os_str(), input.words.as_os_str());
    assert_eq!(run(&[text, "--body".as_ref(), "0".as_ref(), words, "--strict".as_ref()]), wanted);
}

#[test]
fn faults_of_the_list_are_the_same_with_the_option() {
    let input = Input::new("strict_bad", b"abc", &[38, 1, 9, 0, 0, 9, 9, 0]);
    assert_eq!(input.refused(&["--strict"]), input.refused(&[]));
    let input = Input::new("strict_start", b"", &[0, 0, 0, 0]);
    assert_eq!(input.refused(&["--strict", "--body", "9"]), input.refused(&["--body", "9"]));
}
