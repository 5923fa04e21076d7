//! What the two modes refuse, through rooms and on the fixed sample.

mod common;

use common::{cases, refusal, room_in, Setting, Source};
use simmerotter::{Edition, Mode, Options, Refusal, Refused, Room, StatementKind};

/// The end of a body, or its refusal's number and cursor.
type Answer = Result<usize, (u32, usize)>;

fn numbers(refused: Refused) -> (u32, usize) {
    (refused.refusal.number(), refused.cursor)
}

fn read_body(mode: Mode, body: &str) -> Answer {
    let source = Source::of_lines(&[body]);
    room_in(mode).read_body(&source.text, &source.tokens, 0).map(|body| body.end()).map_err(numbers)
}

fn read_file(mode: Mode, lines: &[&str]) -> Answer {
    let source = Source::of_lines(lines);
    room_in(mode).read_file(&source.text, &source.tokens).map(|file| file.end()).map_err(numbers)
}

/// Each body is accepted leniently, with this end.
const STRICT_ROWS: [(&str, usize, Answer); 17] = [
    ("{ ~go : op60 }", 5, Err((4, 4))),
    ("{ ~go : op60 0x0100 }", 6, Err((4, 5))),
    ("{ ~go : op60 0x01 }", 6, Ok(6)),
    ("{ ~a : ~b : ~a : }", 8, Err((22, 5))),
    ("{ ~a : op60 ~a : }", 7, Err((4, 4))),
    ("{ ~a : op60 op01 }", 6, Err((4, 4))),
    ("{ ~a : op60 go }", 6, Err((4, 4))),
    ("{ ~a : op60 [ C ] }", 8, Err((4, 4))),
    ("{ ~a : op7f 0x01 op5f op61 0x00ff }", 9, Ok(9)),
    ("{ ~a : op60 0x00ff 0x0100 }", 7, Ok(7)),
    ("{ op60 0x01 ~a : op61 0x010000 }", 8, Err((4, 7))),
    // The first mistake in reading order is the one that is told.
    ("{ ~a : ~a : op60 }", 7, Err((22, 3))),
    ("{ ~a : op60 ~a : op60 }", 8, Err((4, 4))),
    // Names differ by a byte; a call and a name in brackets are no labels.
    ("{ ~a : ~A : ~ab : ~b : }", 10, Ok(10)),
    ("{ a ~a : a a }", 7, Ok(7)),
    ("{ ~a : [ a ] < a > a ( a ) @a ( a ) }", 18, Ok(18)),
    ("{ }", 2, Ok(2)),
];

#[test]
fn strict_reading_refuses_pushes_in_labels_and_repeated_labels() {
    for (body, end, strict) in STRICT_ROWS {
        assert_eq!(read_body(Mode::Lenient, body), Ok(end), "{}", body);
        assert_eq!(read_body(Mode::Strict, body), strict, "{}", body);
    }
}

/// What both modes refuse, though not always at the same place.
#[test]
fn a_repeated_label_is_refused_before_its_colon_is_looked_at() {
    assert_eq!(read_body(Mode::Lenient, "{ ~a : ~a }"), Err((1, 4)));
    assert_eq!(read_body(Mode::Strict, "{ ~a : ~a }"), Err((22, 3)));
    assert_eq!(read_body(Mode::Strict, "{ ~a : ~b }"), Err((1, 4)));
    assert_eq!(read_body(Mode::Strict, "{ ~a : = ~a : }"), Err((6, 3)));
    assert_eq!(read_body(Mode::Strict, "{ op60 ~a : ~a : }"), Err((4, 2)));
}

#[test]
fn the_rules_hold_for_the_bodies_of_macros_fns_and_tests() {
    for keyword in ["macro", "fn", "test"] {
        let body = |body: &str| format!("#define {} M ( ) = {}", keyword, body);
        for (text, end, strict) in [
            ("{ ~a : ~a : }", 12, Err((22, 9))),
            ("{ ~a : op60 }", 11, Err((4, 10))),
            ("{ ~a : op60 0x0100 }", 12, Err((4, 11))),
            ("{ ~a : op60 0xff }", 12, Ok(12)),
        ] {
            assert_eq!(read_file(Mode::Lenient, &[&body(text)]), Ok(end), "{} {}", keyword, text);
            assert_eq!(read_file(Mode::Strict, &[&body(text)]), strict, "{} {}", keyword, text);
        }
    }
}

#[test]
fn another_macro_may_use_a_label_s_name_again() {
    let lines = ["#define macro A ( ) = { ~a : ~b : }", "#define fn B ( ) = { ~b : ~a : }", "#define jumptable a { a a }"];
    assert_eq!(read_file(Mode::Lenient, &lines), read_file(Mode::Strict, &lines));
    assert_eq!(read_file(Mode::Strict, &lines), Ok(31));
    // A repeated name of macros is told once its macro is read, a label inside it before.
    let twice = ["#define macro A ( ) = { }", "#define macro A ( ) = { ~a : ~a : }"];
    assert_eq!(read_file(Mode::Lenient, &twice), Err((20, 10)));
    assert_eq!(read_file(Mode::Strict, &twice), Err((22, 17)));
}

#[test]
fn a_label_s_operand_is_a_statement_of_its_own() {
    let source = Source::of_lines(&["{ ~go : op60 0x01 }"]);
    let mut room = room_in(Mode::Strict);
    let body = room.read_body(&source.text, &source.tokens, 0).expect("a push with its literal");
    let found: Vec<_> = body.all_statements().map(|one| (one.kind(), one.places())).collect();
    use StatementKind::*;
    assert_eq!(found, [(Label, 1..5), (Opcode, 3..4), (Literal, 4..5)]);
    assert_eq!((body.statements().count(), body.plain_length()), (1, Some(3)));
}

#[test]
fn a_repeated_label_leads_to_its_token() {
    let source = Source::of_lines(&["{ ~go : ~go : }"]);
    let mut room = room_in(Mode::Strict);
    let refused = room.read_body(&source.text, &source.tokens, 0).unwrap_err();
    assert_eq!(refused.refusal, Refusal::DuplicateLabel);
    assert_eq!(refused.to_string(), "an earlier label of this body has this name (DuplicateLabel, 22) at place 3");
    assert_eq!(room.token(&source.tokens, refused.cursor).map(|token| token.number), Some(6));
}

#[test]
fn rooms_read_leniently_unless_they_are_told() {
    let source = Source::of_lines(&["{ ~go : op60 }"]);
    for mut room in [Room::new(), Room::default(), Room::with(Options::default()), room_in(Mode::Lenient)] {
        assert_eq!(room.read_body(&source.text, &source.tokens, 0).map(|body| body.end()), Ok(5));
    }
    assert_eq!(Options::default(), Options::default().mode(Mode::Strict).mode(Mode::Lenient));
    assert_eq!(Mode::default(), Mode::Lenient);
}

#[test]
fn an_unknown_mode_has_a_cursor_that_counts_nothing() {
    let refused = Refused::from_answer(refusal(36, 0)).expect("a refusal");
    assert_eq!(refused.to_string(), "no mode has the number that was given (UnknownMode, 36)");
}

/// Strict reading only refuses more: what it accepts it reads like the other, and what it refuses with another answer than the
/// other is a push or a label.
#[test]
fn strict_reading_only_refuses_more() {
    let (mut same, mut pushes, mut labels) = (0, 0, 0);
    for case in cases() {
        let [lenient, strict] = Mode::ALL.map(|mode| case.call_with_enough(Setting { mode, edition: Edition::First }));
        match strict.0[0] {
            _ if strict == lenient => same += 1,
            4 => pushes += 1,
            22 => labels += 1,
            number => panic!("line {}: {} and {}", case.line, lenient.0[0], number),
        }
    }
    println!("{} cases read alike in both modes; refused by the strict one: {} pushes, {} labels", same, pushes, labels);
    assert!(same > 2_000 && pushes > 0 && labels > 0, "{} {} {}", same, pushes, labels);
}
