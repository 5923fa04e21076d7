//! A type's name in the place of an argument's name: which type it is, to a person and to a program.

mod common;

use common::{cut, list, Input};
use simmerotter::Kind;

/// Names of types, what each is said to hold, and the type and the size for programs.
const WORDS: [(&str, &str, &str); 14] = [
    ("address", "an address", "1 0"),
    ("bool", "true or false", "2 0"),
    ("string", "text", "3 0"),
    ("bytes", "bytes of any length", "4 0"),
    ("uint", "unsigned, 256 bits", "5 256"),
    ("uint256", "unsigned, 256 bits", "5 256"),
    ("uint8", "unsigned, 8 bits", "5 8"),
    ("int", "signed, 256 bits", "6 256"),
    ("int256", "signed, 256 bits", "6 256"),
    ("int16", "signed, 16 bits", "6 16"),
    ("bytes1", "1 byte", "7 1"),
    ("bytes2", "2 bytes", "7 2"),
    ("bytes31", "31 bytes", "7 31"),
    ("bytes32", "32 bytes", "7 32"),
];

/// `{ __f(a WORD) }` with the word as a token of this kind, read as a body.
fn body(name: &str, kind: Kind, word: &str) -> Input {
    let text = format!("{{ __f(a {}) }}", word);
    let tokens = [
        (Kind::OpenBrace, "{", 0),
        (Kind::BuiltinFunction, "__f", 0),
        (Kind::OpenParen, "(", 0),
        (Kind::Ident, "a", 0),
        (kind, word, 0),
        (Kind::CloseParen, ")", 0),
        (Kind::CloseBrace, "}", 0),
    ];
    Input::new(&format!("types_{}", name), text.as_bytes(), &list(text.as_bytes(), &tokens))
}

/// `#define error E(bool WORD)`, likewise, read as a file.
fn file(name: &str, kind: Kind, word: &str) -> Input {
    let text = format!("#define error E(bool {})", word);
    let tokens = [
        (Kind::Define, "#define", 0),
        (Kind::Error, "error", 0),
        (Kind::Ident, "E", 0),
        (Kind::OpenParen, "(", 0),
        (Kind::PrimitiveType, "bool", 0),
        (kind, word, 0),
        (Kind::CloseParen, ")", 0),
    ];
    Input::new(&format!("types_{}", name), text.as_bytes(), &list(text.as_bytes(), &tokens))
}

/// A refusal's sentence: what stands behind number and name.
fn sentence(refused: &str) -> &str {
    let first = refused.lines().next().unwrap();
    first.split_once(": 7 InvalidTypeAsArgumentName: ").expect(first).1
}

#[test]
fn a_person_is_shown_the_word_and_told_its_type() {
    let wanted = "\
types_shown.huff:1:9: 7 InvalidTypeAsArgumentName: `uint256` is a type (unsigned, 256 bits) and can't be an argument's name; \
give the argument another name
{ __f(a uint256) }
        ^^^^^^^
token place 4 (number 4 of the list)
";
    assert_eq!(body("shown", Kind::Ident, "uint256").refused(&["--body", "0"]), wanted);
}

#[test]
fn each_type_has_a_sentence() {
    for (word, what, _) in WORDS {
        let wanted = format!("`{}` is a type ({}) and can't be an argument's name; give the argument another name", word, what);
        for kind in [Kind::Ident, Kind::PrimitiveType] {
            let refused = body("sentence", kind, word).refused(&["--body", "0"]);
            assert_eq!(sentence(&refused), wanted);
            let refused = file("sentence_of_file", kind, word).refused(&[]);
            assert_eq!(sentence(&refused), wanted);
        }
    }
}

#[test]
fn a_program_gets_type_and_size_at_the_end_of_the_line() {
    for (word, _, fields) in WORDS {
        for kind in [Kind::Ident, Kind::PrimitiveType] {
            for edition in ["1", "2"] {
                let found = body("records", kind, word).run(&["--records", "--body", "0", "--edition", edition]);
                let wanted = format!("body 7 4 0 0 0 {} {}\nrefused 7 InvalidTypeAsArgumentName 4 4 1 9\n", edition, fields);
                assert_eq!((found.out, found.err.as_str(), found.status), (wanted, "", Some(1)));
            }
            let found = file("records_of_file", kind, word).run(&["--records", "--strict"]);
            let wanted = format!("file 7 5 0 0 0 {}\nrefused 7 InvalidTypeAsArgumentName 5 5 1 22\n", fields);
            assert_eq!((found.out, found.err.as_str(), found.status), (wanted, "", Some(1)));
        }
    }
}

#[test]
fn a_word_that_is_no_type_is_accepted() {
    for word in ["uint264", "uint08", "Uint8", "bytes0", "bytes33"] {
        let found = body("accepted", Kind::Ident, word).accepted(&["--records", "--body", "0"]);
        assert_eq!(found.lines().next(), Some("body 0 7 1 2 4294967295 1 0 0"), "{}", word);
        let found = file("accepted_file", Kind::Ident, word).accepted(&["--records"]);
        assert_eq!(found.lines().next(), Some("file 0 7 1 0 1 0 0"), "{}", word);
    }
}

#[test]
fn a_word_that_the_list_alone_calls_a_type() {
    for word in ["foo", "uint264"] {
        let input = body("unlisted", Kind::PrimitiveType, word);
        let wanted = format!(
            "the token list calls `{}` a type, and so it can't be an argument's name; give the argument another name",
            word
        );
        assert_eq!(sentence(&input.refused(&["--body", "0"])), wanted);
        let found = input.run(&["--records", "--body", "0"]);
        assert_eq!(found.out, "body 7 4 0 0 0 1 0 0\nrefused 7 InvalidTypeAsArgumentName 4 4 1 9\n");
    }
}

#[test]
fn a_word_in_a_message_does_not_steer_the_terminal() {
    let found = body("clean", Kind::PrimitiveType, "\u{1b}[2J\nx\u{202e}").refused(&["--body", "0"]);
    assert!(sentence(&found).starts_with("the token list calls `?[2J?x?` a type, and so "), "{:?}", found);
    assert!(found.chars().all(|c| c == '\n' || !c.is_control()), "{:?}", found);
    let text = b"{ __f(a \xff) }";
    let words = [29, 0, 1, 0, 44, 2, 5, 0, 27, 5, 6, 0, 38, 6, 7, 0, 45, 8, 9, 0, 28, 9, 10, 0, 30, 11, 12, 0, 0, 12, 12, 0];
    let found = Input::new("types_bytes", text, &words).refused(&["--body", "0"]);
    assert!(sentence(&found).starts_with("the token list calls `\u{fffd}` a type, and so "), "{:?}", found);
}

/// A type is told where an argument's name was looked for; elsewhere it is refused like any other token.
#[test]
fn a_type_in_another_place_has_the_other_place_s_refusal() {
    for (name, text, wanted) in [
        ("untyped", "#define macro M ( uint256 ) = { }", "file 1 4 0 0 0 0 0"),
        ("behind_comma", "#define macro M ( a , uint256 ) = { }", "file 1 6 0 0 0 0 0"),
        ("in_body", "#define macro M ( ) = { uint256 }", "file 5 7 0 0 0 0 0"),
    ] {
        let input = Input::new(&format!("types_{}", name), text.as_bytes(), &cut(text));
        assert_eq!(input.run(&["--records"]).out.lines().next(), Some(wanted), "{}", text);
        assert!(input.refused(&[]).contains("; found PrimitiveType\n"), "{}", text);
    }
}
