//! What the two editions of the plain length count, through rooms, on the fixed sample and on bodies by chance.

mod common;

use common::{cases, refusal, Chance, Setting, Source};
use simmerotter::raw::Answer;
use simmerotter::{Body, Edition, Mode, Options, Refused, Room, Statement, StatementKind, NONE};

fn room_of(edition: Edition) -> Room {
    Setting { mode: Mode::Lenient, edition }.room()
}

/// What a room says of a body's length.
fn length_by(room: &mut Room, source: &Source) -> Result<Option<u64>, Refused> {
    room.read_body(&source.text, &source.tokens, 0).map(|body| body.plain_length())
}

/// Plain lengths in the first edition and in the second.
type Lengths = [Option<u64>; 2];

const ROWS: [(&str, Lengths); 19] = [
    ("{ 0x00 }", [Some(2), Some(1)]),
    ("{ 0x0000 0x01 }", [Some(4), Some(3)]),
    ("{ op60 0x00 }", [Some(2), Some(2)]),
    ("{ op60 0x00 0x00 }", [Some(4), Some(3)]),
    ("{ ~go : op61 0x00 0x00 }", [Some(6), Some(5)]),
    ("{ 0x00 [ X ] }", [None, None]),
    ("{ op5f 0x00 }", [Some(3), Some(2)]),
    // The value decides, not the digits.
    ("{ 0x0 0x000 }", [Some(4), Some(2)]),
    ("{ 0x0000000000000000000000000000000000000000000000000000000000000000 }", [Some(2), Some(1)]),
    ("{ 0x10 0x01 0x0100 }", [Some(7), Some(7)]),
    ("{ op7f 0x0 op60 0x0000 }", [Some(35), Some(35)]),
    // Macro part and label are counted alike, and a push of one has no operand in the other.
    ("{ 0x00 ~go : 0x0 }", [Some(5), Some(3)]),
    ("{ op60 0x00 ~go : 0x00 }", [Some(5), Some(4)]),
    // No opcode but a value push has an operand, and neither has a label call.
    ("{ op00 0x00 op80 0x00 go 0x00 }", [Some(11), Some(8)]),
    ("{ }", [Some(0), Some(0)]),
    // What has no length in one edition has none in the other.
    ("{ 0x00 F ( 0x00 ) }", [None, None]),
    ("{ 0x00 @f ( 0x00 ) }", [None, None]),
    ("{ ~go : op60 ~b : 0x00 }", [None, None]),
    ("{ ~go : 0x00 op60 op60 0x00 }", [None, None]),
];

#[test]
fn a_zero_that_no_push_takes_counts_less_in_the_second() {
    for (body, lengths) in ROWS {
        let source = Source::of_lines(&[body]);
        let found = Edition::ALL.map(|edition| length_by(&mut room_of(edition), &source));
        assert_eq!(found, lengths.map(Ok), "{}", body);
    }
}

/// A room has its edition for as long as it lives.
#[test]
fn a_body_says_in_which_edition_it_was_measured() {
    let mut rooms = Edition::ALL.map(|edition| (edition, room_of(edition)));
    for (body, _) in ROWS {
        let source = Source::of_lines(&[body]);
        for (edition, room) in &mut rooms {
            let body = room.read_body(&source.text, &source.tokens, 0).expect("a body that follows the rules");
            assert_eq!(body.edition(), *edition);
            assert!(format!("{:?}", body).contains(&format!("edition: {:?}", edition)), "{:?}", body);
        }
    }
}

#[test]
fn rooms_measure_in_the_first_edition_unless_they_are_told() {
    let source = Source::of_lines(&["{ 0x00 }"]);
    for mut room in [Room::new(), Room::default(), Room::with(Options::default()), room_of(Edition::First)] {
        assert_eq!(length_by(&mut room, &source), Ok(Some(2)));
    }
    assert_eq!(Options::default(), Options::default().edition(Edition::Second).edition(Edition::First));
    assert_eq!(Edition::default(), Edition::First);
}

#[test]
fn mode_and_edition_are_told_apart() {
    let both = Options::default().mode(Mode::Strict).edition(Edition::Second);
    assert_eq!(both, Options::default().edition(Edition::Second).mode(Mode::Strict));
    let (good, bad) = (Source::of_lines(&["{ 0x00 ~a : }"]), Source::of_lines(&["{ 0x00 ~a : ~a : }"]));
    let lengths = |options| length_by(&mut Room::with(options), &good).ok().flatten();
    let refused = |options| length_by(&mut Room::with(options), &bad).err().map(|refused| refused.refusal.number());
    assert_eq!((lengths(both), refused(both)), (Some(2), Some(22)));
    let [strict, second] = [both.edition(Edition::First), both.mode(Mode::Lenient)];
    assert_eq!((lengths(strict), refused(strict)), (Some(3), Some(22)));
    assert_eq!((lengths(second), refused(second)), (Some(2), None));
}

#[test]
fn a_file_is_read_alike_by_rooms_of_both() {
    let source = Source::of_lines(&["#define macro M ( ) = { 0x00 op60 0x00 ~a : 0x00 }", "#define constant C = 0x00"]);
    let [first, second] = Edition::ALL.map(|edition| {
        let mut room = room_of(edition);
        let file = room.read_file(&source.text, &source.tokens).expect("a file that follows the rules");
        (file.end(), file.definition_words().to_vec(), file.statement_words().to_vec(), file.kept().to_vec())
    });
    assert_eq!(first, second);
}

#[test]
fn an_unknown_edition_has_a_cursor_that_counts_nothing() {
    let refused = Refused::from_answer(refusal(38, 0)).expect("a refusal");
    assert_eq!(refused.to_string(), "no edition has the number that was given (UnknownEdition, 38)");
}

/// The zero literals of a body that are no push's operand. Of a body that has a length: there each value push has its operand
/// directly behind it.
fn free_zeros(body: Body<'_>) -> u64 {
    let under_labels: u64 = body.statements().map(|one| free_zeros_of(one.inner())).sum();
    free_zeros_of(body.statements()) + under_labels
}

/// The same of a macro part, behind which its labels may stand, or of what lies under one label.
fn free_zeros_of<'a>(statements: impl Iterator<Item = Statement<'a>>) -> u64 {
    let mut behind_push = false;
    let mut count = 0;
    for statement in statements {
        count += u64::from(is_zero(statement) && !behind_push);
        behind_push = is_value_push(statement);
    }
    count
}

fn is_zero(statement: Statement<'_>) -> bool {
    statement.kind() == StatementKind::Literal && statement.value_text()[2..].iter().all(|digit| *digit == b'0')
}

fn is_value_push(statement: Statement<'_>) -> bool {
    let byte = statement.value_token().map_or(0, |token| token.extra);
    statement.kind() == StatementKind::Opcode && (0x60..=0x7f).contains(&byte)
}

/// How many bodies had which lengths; `shorter` in the second edition.
#[derive(Debug, Default)]
struct Tally {
    shorter: usize,
    same: usize,
    none: usize,
    refused: usize,
}

impl Tally {
    /// The fifth numbers of a body's two answers, which are alike in all else.
    fn compare(&mut self, mode: Mode, text: &[u8], tokens: &[u32], start: usize, lengths: [u64; 2]) {
        let [first, second] = lengths;
        let mut room = common::room_in(mode);
        match room.read_body(text, tokens, start) {
            Ok(_) if lengths == [u64::from(NONE); 2] => self.none += 1,
            Ok(body) => {
                assert!(first < u64::from(NONE), "{} and {}", first, second);
                assert_eq!(first.checked_sub(second), Some(free_zeros(body)), "{} and {}", first, second);
                self.shorter += usize::from(second < first);
                self.same += usize::from(second == first);
            }
            Err(_) => {
                assert_eq!(lengths, [0, 0]);
                self.refused += 1;
            }
        }
    }
}

/// A body's answer with 0 for its plain length.
fn without_length(mut answer: Answer) -> Answer {
    answer[4] = 0;
    answer
}

/// The answers and lists of both editions differ in the length alone, and by as much as there are such zeros.
#[test]
fn on_the_sample_lengths_differ_by_the_zeros_alone() {
    let mut tally = Tally::default();
    for case in cases().iter().filter(|case| case.is_body) {
        for mode in Mode::ALL {
            let [first, second] = Edition::ALL.map(|edition| case.call_with_enough(Setting { mode, edition }));
            assert_eq!((without_length(first.0), &first.1), (without_length(second.0), &second.1), "line {}", case.line);
            tally.compare(mode, &case.text, &case.tokens, case.start, [first.0[4], second.0[4]]);
        }
    }
    println!("{} cases are shorter in the second edition, {} as long", tally.shorter, tally.same);
    assert!(tally.shorter > 20 && tally.same > 100 && tally.none > 100 && tally.refused > 100, "{:?}", tally);
}

/// Most are what has a length; a push alone and a constant leave the body without.
const PARTS: [&str; 16] = [
    "0x00",
    "0x0",
    "0x0000",
    "0x01",
    "0x10",
    "0x0100",
    "op60 0x00",
    "op61 0x0000",
    "op60 0x00 0x00",
    "op5f",
    "op00",
    "go",
    "~l :",
    "~m :",
    "op60",
    "[ C ]",
];

#[test]
fn of_bodies_by_chance_lengths_differ_by_the_zeros_alone() {
    let mut chance = Chance::new(4);
    let mut tally = Tally::default();
    for _ in 0..4_000 {
        let mut source = Source::new();
        source.line("{");
        (0..chance.below(9)).for_each(|_| source.line(PARTS[chance.below(PARTS.len())]));
        source.line("}");
        let source = source.end();
        for mode in Mode::ALL {
            let lengths = Edition::ALL.map(|edition| {
                let found = length_by(&mut Setting { mode, edition }.room(), &source);
                found.map_or(0, |length| length.unwrap_or(u64::from(NONE)))
            });
            tally.compare(mode, &source.text, &source.tokens, 0, lengths);
        }
    }
    println!("bodies by chance: {:?}", tally);
    assert!(tally.shorter > 1_000 && tally.same > 500 && tally.none > 500 && tally.refused > 500, "{:?}", tally);
}
