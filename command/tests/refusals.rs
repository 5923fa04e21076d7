//! Refusals as a person sees them: position, line, carets, sentence.

mod common;

use common::{cut, list, Input};
use simmerotter::{push_token, Kind};

/// The refusal of a file written with spaces between its words.
fn file(name: &str, text: &str) -> String {
    let name = format!("refusals_{}", name);
    Input::new(&name, text.as_bytes(), &cut(text)).refused(&[])
}

/// The same for a body that starts with the text.
fn body(name: &str, text: &str) -> String {
    let name = format!("refusals_{}", name);
    Input::new(&name, text.as_bytes(), &cut(text)).refused(&["--body", "0"])
}

#[test]
fn a_push_with_too_large_a_literal() {
    let text = "#define macro M ( ) = {\n  dup1\n  push1 0x0100 stop\n}\n";
    let wanted = "\
refusals_large.huff:3:16: 4 InvalidPush: 0x0100 has 2 bytes and push1 takes 1
  push1 0x0100 stop
               ^^^^
token place 10 (number 10 of the list)
";
    assert_eq!(file("large", text), wanted);
}

#[test]
fn leading_zeros_take_no_bytes() {
    let text = "{ push4 0x000102030405 }";
    assert!(body("zeros", text).contains("4 InvalidPush: 0x000102030405 has 5 bytes and push4 takes 4\n"));
}

#[test]
fn a_push_without_a_literal() {
    let wanted = "\
refusals_bare.huff:1:9: 4 InvalidPush: push1 needs a literal behind it; found CloseBrace
{ push1 }
        ^
token place 2 (number 2 of the list)
";
    assert_eq!(body("bare", "{ push1 }"), wanted);
}

#[test]
fn the_place_counts_kept_tokens_and_the_number_all() {
    let text = b"{ // why\n push1 }";
    let tokens = [
        (Kind::OpenBrace, "{", 0),
        (Kind::Whitespace, " ", 0),
        (Kind::Comment, "// why", 0),
        (Kind::Whitespace, "\n ", 0),
        (Kind::Opcode, "push1", 0x60),
        (Kind::Whitespace, " ", 0),
        (Kind::CloseBrace, "}", 0),
    ];
    let found = Input::new("refusals_kept", text, &list(text, &tokens)).refused(&["--body", "0"]);
    assert!(found.starts_with("refusals_kept.huff:2:8: 4 "), "{}", found);
    assert!(found.ends_with("token place 2 (number 6 of the list)\n"), "{}", found);
}

#[test]
fn a_repeated_name_says_where_the_first_is() {
    let text = "#define macro A ( ) = { }\n#define fn B ( ) = { }\n#define test A ( ) = { }";
    let wanted = "\
refusals_repeated.huff:3:14: 20 RepeatedName: an earlier macro, fn or test has this name, at 1:15
#define test A ( ) = { }
             ^
token place 18 (number 18 of the list)
";
    assert_eq!(file("repeated", text), wanted);
}

#[test]
fn each_other_refusal_has_its_number_name_and_cursor() {
    // Number and name, the text, and the column of the cursor.
    let rows = [
        ("1 UnexpectedType", "#define macro ( ) = { }", 15),
        ("2 InvalidDefinition", "#define define", 9),
        ("3 InvalidConstantValue", "#define constant C = stop", 22),
        ("5 InvalidTokenInMacroBody", "#define macro M ( ) = { ] }", 25),
        ("6 InvalidTokenInLabelDefinition", "#define macro M ( ) = { a : ] }", 29),
        ("7 InvalidTypeAsArgumentName", "#define error E ( uint256 uint256 )", 27),
        ("8 InvalidArgs", "#define error E ( name )", 19),
        ("9 InvalidSingleArg", "#define macro M ( ) = takes ( one ) { }", 31),
        ("10 InvalidMacroArgs", "#define macro M ( ) = { F ( , ) }", 29),
        ("11 InvalidTableBodyToken", "#define table T { xyz }", 19),
        ("12 InvalidConstant", "#define macro M ( ) = { [ 0x01 ] }", 27),
        ("13 InvalidArgCallIdent", "#define macro M ( ) = { < 0x01 > }", 27),
        ("21 PoundAtTopLevel", "#define constant C = 0x01 #", 27),
    ];
    for (i, (name, text, column)) in rows.iter().enumerate() {
        let found = file(&format!("row{}", i), text);
        let head = format!("refusals_row{}.huff:1:{}: {}: ", i, column, name);
        assert!(found.starts_with(&head), "{}: {}", head, found);
        let caret = found.lines().nth(2).unwrap();
        assert_eq!(caret.find('^'), Some(column - 1), "{}", found);
    }
}

#[test]
fn the_kind_that_was_found_is_named() {
    let found = file("kind", "#define macro ( ) = { }");
    assert!(found.contains(": another kind of token was required here; found OpenParen\n"), "{}", found);
}

#[test]
fn an_eaten_comma_is_mentioned() {
    let found = file("comma", "#define macro M ( , ) = { }");
    let wanted = "refusals_comma.huff:1:21: 8 InvalidArgs: this token or the comma before it can't stand in a list of \
                  arguments; found CloseParen\n";
    assert!(found.starts_with(wanted), "{}", found);
}

#[test]
fn tabs_before_the_token_are_copied() {
    let found = body("tabs", "{\n\tdup1\t ] stop }");
    let lines: Vec<&str> = found.lines().collect();
    assert_eq!(lines[0].split(": ").next(), Some("refusals_tabs.huff:2:8"));
    assert_eq!(lines[1..3], ["\tdup1\t ] stop }", "\t    \t ^"]);
}

#[test]
fn columns_count_characters() {
    let text = "{ \"äöü€𝄞\" }";
    let found = Input::new("refusals_utf8", text.as_bytes(), &cut(text)).refused(&["--body", "0"]);
    assert!(found.starts_with("refusals_utf8.huff:1:4: 5 "), "{}", found);
    assert_eq!(found.lines().nth(2), Some("   ^^^^^"));
    let text = "{ größe € ]\n }";
    let found = Input::new("refusals_utf8b", text.as_bytes(), &cut(text)).refused(&["--body", "0"]);
    assert!(found.starts_with("refusals_utf8b.huff:1:11: 5 "), "{}", found);
    assert_eq!(found.lines().nth(2), Some("          ^"));
}

#[test]
fn bytes_that_are_no_utf8_are_marked() {
    let text = b"{ \xff\xfe ] }";
    let words = list(text, &[(Kind::OpenBrace, "{", 0), (Kind::CloseBracket, "]", 0), (Kind::CloseBrace, "}", 0)]);
    let found = Input::new("refusals_bytes", text, &words).refused(&["--body", "0"]);
    let lines: Vec<&str> = found.lines().collect();
    assert!(lines[0].starts_with("refusals_bytes.huff:1:6: 5 "));
    assert_eq!(lines[1..3], ["{ \u{fffd}\u{fffd} ] }", "     ^"]);
}

#[test]
fn control_characters_do_not_reach_the_terminal() {
    let text = b"{ \x1b[31m\x07 ] }";
    let words = list(text, &[(Kind::OpenBrace, "{", 0), (Kind::CloseBracket, "]", 0), (Kind::CloseBrace, "}", 0)]);
    let found = Input::new("refusals_control", text, &words).refused(&["--body", "0"]);
    assert_eq!(found.lines().nth(1), Some("{ ?[31m? ] }"));
    assert!(found.chars().all(|c| c == '\n' || !c.is_control()), "{:?}", found);
}

#[test]
fn a_return_before_the_line_end_is_not_shown() {
    let found = body("crlf", "{\r\n  dup1 ]\r\n}\r\n");
    let lines: Vec<&str> = found.split('\n').collect();
    assert!(lines[0].starts_with("refusals_crlf.huff:2:8: 5 "), "{}", found);
    assert_eq!(lines[1..3], ["  dup1 ]", "       ^"]);
}

#[test]
fn an_empty_text_has_a_place_for_the_caret() {
    let wanted = "\
refusals_empty.huff:1:1: 1 UnexpectedType: another kind of token was required here; found Eof

^
token place 0 (number 0 of the list)
";
    assert_eq!(Input::new("refusals_empty", b"", &[0, 0, 0, 0]).refused(&["--body", "0"]), wanted);
}

#[test]
fn at_the_end_the_caret_stands_behind_the_last_character() {
    let wanted = "\
refusals_end.huff:1:9: 4 InvalidPush: push1 needs a literal behind it; found Eof
{  push1
        ^
token place 2 (number 2 of the list)
";
    assert_eq!(body("end", "{  push1"), wanted);
    let found = body("end2", "{  push1\n");
    assert!(found.starts_with("refusals_end2.huff:2:1: 4 "), "{}", found);
    assert_eq!(found.lines().skip(1).take(2).collect::<Vec<_>>(), ["", "^"]);
}

#[test]
fn a_long_line_is_shown_as_a_window() {
    let stops = "stop ".repeat(100);
    let found = body("long", &format!("{{ {}] {}}}", stops, stops));
    let lines: Vec<&str> = found.lines().collect();
    assert!(lines[0].starts_with("refusals_long.huff:1:503: 5 "), "{}", found);
    assert!(lines[1].starts_with("...") && lines[1].ends_with("..."), "{}", found);
    assert_eq!(lines[1].len(), 166);
    assert_eq!(lines[2].find('^').and_then(|at| lines[1].get(at..at + 1)), Some("]"));
    // Near an end only the other side is cut.
    let found = body("long2", &format!("{{ ] {}}}", stops));
    let lines: Vec<&str> = found.lines().collect();
    assert!(lines[1].starts_with("{ ] stop") && lines[1].ends_with("..."), "{}", found);
    assert_eq!(lines[2], "  ^");
    let found = body("long3", &format!("{{ {}", stops.trim_end()));
    let lines: Vec<&str> = found.lines().collect();
    assert!(lines[1].starts_with("...") && lines[1].ends_with("stop"), "{}", found);
    assert_eq!(lines[2].len(), lines[1].len() + 1, "behind the last character");
}

#[test]
fn a_line_of_just_the_shown_length_is_whole() {
    let stops = "stop ".repeat(31);
    let text = format!("{{ {}  ]", stops);
    assert_eq!(text.len(), 160);
    assert_eq!(body("whole", &text).lines().nth(1), Some(text.as_str()));
    let cut = body("cut", &format!("{} ", text));
    assert_eq!(cut.lines().nth(1), Some(format!("...{} ", &text[1..]).as_str()));
}

#[test]
fn carets_of_a_long_token_end_with_the_window() {
    let text = format!("{{ \"{}\" }}", "x".repeat(300));
    let found = body("wide", &text);
    let lines: Vec<&str> = found.lines().collect();
    assert_eq!(lines[1].chars().count(), 163);
    assert_eq!(lines[2], format!("   {}", "^".repeat(157)));
}

#[test]
fn a_start_outside_names_both_numbers() {
    let input = Input::new("refusals_start", b"{ }", &[29, 0, 1, 0, 1, 1, 2, 0, 30, 2, 3, 0, 0, 3, 3, 0]);
    let wanted = "refusals_start.huff: 31 StartOutside: no body starts at place 3: the list keeps 3 tokens\n";
    assert_eq!(input.refused(&["--body", "3"]), wanted);
    let last = "no body starts at place 4294967295: the list keeps 3 tokens\n";
    assert!(input.refused(&["--body", "4294967295"]).ends_with(last));
    assert!(input.refused(&["--body", "2"]).starts_with("refusals_start.huff:1:4: 1 "), "Eof's own place is a place");
}

#[test]
fn a_bad_token_is_shown_where_it_lies() {
    let wanted = "\
refusals_bad.huff:2:3: 30 NotWellFormed: a Literal's text is 0x and 1 to 64 hex digits
  0y12 }
  ^^^^
token number 1 of the list: kind 40 (Literal), start 4, end 8, extra 0
";
    let input = Input::new("refusals_bad", b"{\n  0y12 }", &[29, 0, 1, 0, 40, 4, 8, 0, 30, 9, 10, 0, 0, 10, 10, 0]);
    assert_eq!(input.refused(&[]), wanted);
    assert_eq!(input.refused(&["--body", "0"]), wanted);
}

#[test]
fn a_bad_token_that_reaches_out_of_the_text_is_shown_as_far_as_it_can() {
    let wanted = "\
refusals_out.huff:1:2: 30 NotWellFormed: the token ends at byte 9, and the text has 3 bytes
abc
 ^^
token number 0 of the list: kind 38 (Ident), start 1, end 9, extra 0
";
    let input = Input::new("refusals_out", b"abc", &[38, 1, 9, 0, 0, 9, 9, 0]);
    assert_eq!(input.refused(&[]), wanted);
}

#[test]
fn a_bad_token_outside_the_text_has_no_position() {
    let largest = u32::MAX;
    let input = Input::new("refusals_far", b"abc", &[999, largest, largest, largest, 0, 3, 3, 0]);
    let wanted = "\
refusals_far.words: 30 NotWellFormed: no kind has the number 999
token number 0 of the list: kind 999 (unknown), start 4294967295, end 4294967295, extra 4294967295
";
    assert_eq!(input.refused(&[]), wanted);
}

#[test]
fn a_list_at_fault_as_a_whole_has_no_token() {
    let wanted = "refusals_none.words: 30 NotWellFormed: the list has no token, not even Eof\n";
    assert_eq!(Input::new("refusals_none", b"abc", &[]).refused(&[]), wanted);
    let wanted = "refusals_five.words: 30 NotWellFormed: the list's 5 words are not four a token\n";
    assert_eq!(Input::new("refusals_five", b"", &[0, 0, 0, 0, 0]).refused(&["--body", "7"]), wanted);
}

/// How `examples/broken.huff` is refused with tokens put in before the one of this number.
fn broken_with(number: usize, tokens: &[(Kind, &str)]) -> String {
    let (text, words) = (include_bytes!("../../examples/broken.huff"), include_bytes!("../../examples/broken.words"));
    let words: Vec<u32> = words.chunks(4).map(|word| u32::from_le_bytes(word.try_into().unwrap())).collect();
    let (before, behind) = words.split_at(4 * number);
    let (text_before, text_behind) = text.split_at(behind[1] as usize);
    let (mut text, mut words) = (text_before.to_vec(), before.to_vec());
    for (kind, own) in tokens {
        let start = text.len();
        text.extend_from_slice(own.as_bytes());
        push_token(&mut words, *kind, start as u32, text.len() as u32, 0);
    }
    let moved = (text.len() - text_before.len()) as u32;
    text.extend_from_slice(text_behind);
    behind.chunks(4).for_each(|token| words.extend([token[0], token[1] + moved, token[2] + moved, token[3]]));
    Input::new("refusals_broken", &text, &words).refused(&[])
}

/// White space and comments before the cursor move its line, column and number in the list; other tokens behind it, nothing.
#[test]
fn the_same_mistake_has_the_same_number_and_place() {
    for (number, tokens, position, of_the_list) in [
        (112, &[][..], "19:15", 112),
        (112, &[(Kind::Comment, "/* 300 */"), (Kind::Whitespace, "\n\t\t")][..], "20:3", 114),
        (0, &[(Kind::Comment, "// a line\n"), (Kind::Whitespace, "\n")][..], "21:15", 114),
        (113, &[(Kind::CloseBrace, "}"), (Kind::Pound, "#"), (Kind::Ident, "more")][..], "19:15", 112),
    ] {
        let found = broken_with(number, tokens);
        let first = format!("refusals_broken.huff:{}: 4 InvalidPush: 0x012c has 2 bytes and push1 takes 1\n", position);
        let last = format!("\ntoken place 55 (number {} of the list)\n", of_the_list);
        assert!(found.starts_with(&first) && found.ends_with(&last), "{}", found);
    }
}
