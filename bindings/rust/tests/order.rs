//! The order and the lengths of the archive's arguments. Every list has a length and a fill word of its own, each refusal that is
//! about lent things is provoked through one list alone, and guard words show that nothing is written outside.

mod common;

use common::{refusal, Source};
use simmerotter::raw::{self, Answer};
use simmerotter::{Edition, Mode, ANSWER_NUMBERS};

const GUARD: u32 = 0xdead_beef;
const GUARDS: usize = 64;
const FILLS: [u32; 4] = [0x1111_1111, 0x2222_2222, 0x3333_3333, 0x4444_4444];

/// The edition of bodies that have no plain length, or whose length is not what is tried.
const FIRST: u32 = Edition::First as u32;

/// A lent list between guard words.
struct Guarded {
    words: Vec<u32>,
    fill: u32,
}

impl Guarded {
    fn new(length: usize, fill: u32) -> Guarded {
        let mut words = vec![GUARD; length + 2 * GUARDS];
        words[GUARDS..GUARDS + length].fill(fill);
        Guarded { words, fill }
    }

    fn lent(&mut self) -> &mut [u32] {
        let end = self.words.len() - GUARDS;
        &mut self.words[GUARDS..end]
    }

    fn inside(&self) -> &[u32] {
        &self.words[GUARDS..self.words.len() - GUARDS]
    }

    fn guards_stand(&self) -> bool {
        let (before, rest) = self.words.split_at(GUARDS);
        let after = &rest[rest.len() - GUARDS..];
        before.iter().chain(after).all(|word| *word == GUARD)
    }

    fn is_untouched(&self) -> bool {
        self.inside().iter().all(|word| *word == self.fill)
    }

    fn is_zero(&self) -> bool {
        self.inside().iter().all(|word| *word == 0)
    }
}

/// The four lent lists of a call and its answer.
struct Call {
    answer: Answer,
    kept: Guarded,
    definitions: Guarded,
    statements: Guarded,
    arguments: Guarded,
}

impl Call {
    fn new(lengths: [usize; 4]) -> Call {
        let [kept, definitions, statements, arguments] = lengths;
        Call {
            answer: [99; ANSWER_NUMBERS],
            kept: Guarded::new(kept, FILLS[0]),
            definitions: Guarded::new(definitions, FILLS[1]),
            statements: Guarded::new(statements, FILLS[2]),
            arguments: Guarded::new(arguments, FILLS[3]),
        }
    }

    fn file(text: &[u8], tokens: &[u32], lengths: [usize; 4]) -> Call {
        Call::file_in(Mode::Lenient.number(), text, tokens, lengths)
    }

    fn file_in(mode: u32, text: &[u8], tokens: &[u32], lengths: [usize; 4]) -> Call {
        let mut call = Call::new(lengths);
        call.answer = raw::read_file(
            mode,
            text,
            tokens,
            call.kept.lent(),
            call.definitions.lent(),
            call.statements.lent(),
            call.arguments.lent(),
        );
        call.checked()
    }

    fn body(text: &[u8], tokens: &[u32], start: usize, lengths: [usize; 4]) -> Call {
        Call::body_in(Mode::Lenient.number(), FIRST, text, tokens, start, lengths)
    }

    fn body_in(mode: u32, edition: u32, text: &[u8], tokens: &[u32], start: usize, lengths: [usize; 4]) -> Call {
        let mut call = Call::new(lengths);
        let (kept, statements, arguments) = (call.kept.lent(), call.statements.lent(), call.arguments.lent());
        call.answer = raw::read_body(mode, edition, text, tokens, start, kept, statements, arguments);
        assert!(call.definitions.is_untouched());
        call.checked()
    }

    fn checked(self) -> Call {
        assert!(self.kept.guards_stand() && self.definitions.guards_stand());
        assert!(self.statements.guards_stand() && self.arguments.guards_stand());
        self
    }

    /// After 30, 31, 35, 36 and 38 nothing lent has changed.
    fn assert_untouched(&self) {
        assert!(self.kept.is_untouched() && self.definitions.is_untouched());
        assert!(self.statements.is_untouched() && self.arguments.is_untouched());
    }

    /// After another refusal the kept list is written and the tables are zero, a part of a record at the end too.
    fn assert_cleared(&self, kept: usize) {
        assert_eq!(self.kept.inside()[..kept], KEPT[..kept]);
        assert!(self.kept.inside()[kept..].iter().all(|word| *word == FILLS[0]));
        assert!(self.statements.is_zero() && self.arguments.is_zero());
    }
}

/// Three definitions, four statements, five arguments; 37 kept tokens, so that no two needs are the same.
fn source() -> Source {
    Source::of_lines(&[
        "#define function f ( %uint256 a , %bool b ) view returns ( %bool )",
        "#define constant C = 0x01",
        "#define macro M ( ) = { op60 0xff F ( a 0x02 ) go }",
    ])
}

/// `Source::line` puts white space behind each token, so place p is token 2p.
const KEPT: [u32; KEPT_COUNT] = even_numbers();
const KEPT_COUNT: usize = 37;

const fn even_numbers() -> [u32; KEPT_COUNT] {
    let mut numbers = [0; KEPT_COUNT];
    let mut place = 1;
    while place < KEPT_COUNT {
        numbers[place] = numbers[place - 1] + 2;
        place += 1;
    }
    numbers
}

const EXACT: [usize; 4] = [KEPT_COUNT, 3 * 14, 4 * 8, 5 * 7];
const BODY_START: usize = 26;
const BODY_EXACT: [usize; 4] = [KEPT_COUNT, 17, 4 * 8, 2 * 7];

#[rustfmt::skip]
const DEFINITIONS: [u32; 42] = [
    2, 2, 0, 15, 0, 2, 2, 1, 0, 0, 1, 0, 0, 63,
    4, 17, 15, 20, 3, 0, 3, 0, 0, 0, 1, 19, 64, 89,
    6, 22, 20, 36, 3, 0, 3, 0, 0, 4, 0, 0, 90, 141,
];

#[rustfmt::skip]
const STATEMENTS: [u32; 32] = [
    2, 27, 28, 1, 0, 3, 0, 27,
    1, 28, 29, 2, 0, 3, 0, 28,
    4, 29, 34, 3, 0, 3, 2, 29,
    3, 34, 35, 4, 0, 5, 0, 34,
];

const NONE: u32 = simmerotter::NONE;

#[rustfmt::skip]
const ARGUMENTS: [u32; 35] = [
    1, 4, 5, 0, 0, 4, 6,
    1, 7, 8, 0, 0, 7, 9,
    1, 13, NONE, 0, 0, 13, 14,
    5, NONE, 31, 0, 0, 31, 32,
    4, NONE, 32, 0, 0, 32, 33,
];

/// The lengths with one list's changed.
fn with(mut lengths: [usize; 4], list: usize, length: usize) -> [usize; 4] {
    lengths[list] = length;
    lengths
}

fn assert_starts_and_ends(list: &Guarded, records: &[u32], rest: u32) {
    assert_eq!(&list.inside()[..records.len()], records);
    assert!(list.inside()[records.len()..].iter().all(|word| *word == rest));
}

#[test]
fn a_file_is_written_into_its_own_lists() {
    let source = source();
    for extra in [[0; 4], [1, 2, 3, 4], [9, 40, 20, 30]] {
        let lengths = [EXACT[0] + extra[0], EXACT[1] + extra[1], EXACT[2] + extra[2], EXACT[3] + extra[3]];
        let call = Call::file(&source.text, &source.tokens, lengths);
        assert_eq!(call.answer, [0, 36, 3, 4, 5, 0, 0]);
        assert_starts_and_ends(&call.kept, &KEPT, FILLS[0]);
        assert_starts_and_ends(&call.definitions, &DEFINITIONS, 0);
        assert_starts_and_ends(&call.statements, &STATEMENTS, 0);
        assert_starts_and_ends(&call.arguments, &ARGUMENTS, 0);
    }
}

#[test]
fn a_body_is_written_into_its_own_lists() {
    let source = source();
    for extra in [[0; 3], [1, 2, 3], [9, 20, 30]] {
        let lengths = [BODY_EXACT[0] + extra[0], BODY_EXACT[1], BODY_EXACT[2] + extra[1], BODY_EXACT[3] + extra[2]];
        let call = Call::body(&source.text, &source.tokens, BODY_START, lengths);
        assert_eq!(call.answer, [0, 36, 4, 2, u64::from(NONE), 0, 0]);
        assert_starts_and_ends(&call.kept, &KEPT, FILLS[0]);
        // As in the file, but for three arguments that come before the macro's.
        let mut statements = STATEMENTS;
        statements.chunks_mut(8).for_each(|record| record[5] -= 3);
        assert_starts_and_ends(&call.statements, &statements, 0);
        assert_starts_and_ends(&call.arguments, &ARGUMENTS[3 * 7..], 0);
    }
}

#[test]
fn a_file_names_the_list_that_is_too_short() {
    let source = source();
    for missing in [1, EXACT[0]] {
        let call = Call::file(&source.text, &source.tokens, with(EXACT, 0, EXACT[0] - missing));
        assert_eq!(call.answer, refusal(35, 37));
        call.assert_untouched();
    }
    for (list, number, need) in [(1, 32, 3), (2, 33, 4), (3, 34, 5)] {
        for missing in [1, EXACT[list]] {
            let call = Call::file(&source.text, &source.tokens, with(EXACT, list, EXACT[list] - missing));
            assert_eq!(call.answer, refusal(number, need));
            call.assert_cleared(KEPT_COUNT);
            assert!(call.definitions.is_zero());
        }
    }
}

#[test]
fn a_body_names_the_list_that_is_too_short() {
    let source = source();
    let read = |lengths| Call::body(&source.text, &source.tokens, BODY_START, lengths);
    let call = read(with(BODY_EXACT, 0, BODY_EXACT[0] - 1));
    assert_eq!(call.answer, refusal(35, 37));
    call.assert_untouched();
    for (list, number, need) in [(2, 33, 4), (3, 34, 2)] {
        let call = read(with(BODY_EXACT, list, BODY_EXACT[list] - 1));
        assert_eq!(call.answer, refusal(number, need));
        call.assert_cleared(KEPT_COUNT);
    }
}

#[test]
fn text_and_token_list_are_told_apart_and_measured() {
    let source = source();
    let (text, tokens) = (&source.text[..], &source.tokens[..]);
    let last = (tokens.len() / 4 - 1) as u64;
    let short_text = &text[..text.len() - 1];
    let short_tokens = &tokens[..tokens.len() - 1];
    let no_eof = &tokens[..tokens.len() - 4];
    for (text, tokens, cursor) in [
        // The last white space then ends behind the text.
        (short_text, tokens, last - 1),
        (text, short_tokens, 0),
        (text, no_eof, last - 1),
        (text, &tokens[..0], 0),
    ] {
        let file = Call::file(text, tokens, EXACT);
        let body = Call::body(text, tokens, BODY_START, BODY_EXACT);
        for call in [file, body] {
            assert_eq!(call.answer, refusal(30, cursor));
            call.assert_untouched();
        }
    }
}

#[test]
fn the_start_arrives_whole() {
    let source = source();
    for start in [KEPT_COUNT, KEPT_COUNT + 1, 1 << 31, 1 << 32, (1 << 32) + BODY_START, usize::MAX] {
        let call = Call::body(&source.text, &source.tokens, start, BODY_EXACT);
        assert_eq!(call.answer, refusal(31, start as u64));
        call.assert_untouched();
    }
    for start in (0..KEPT_COUNT).filter(|start| *start != BODY_START) {
        let call = Call::body(&source.text, &source.tokens, start, BODY_EXACT);
        assert_eq!(call.answer, refusal(1, start as u64));
        call.assert_cleared(KEPT_COUNT);
    }
}

#[test]
fn the_mode_arrives_whole() {
    let source = source();
    for mode in Mode::ALL {
        let file = Call::file_in(mode.number(), &source.text, &source.tokens, EXACT);
        assert_eq!(file.answer, [0, 36, 3, 4, 5, 0, 0]);
        let body = Call::body_in(mode.number(), FIRST, &source.text, &source.tokens, BODY_START, BODY_EXACT);
        assert_eq!(body.answer, [0, 36, 4, 2, u64::from(NONE), 0, 0]);
    }
    for mode in [2, 3, 0x100, 0x101, 0x1_0000, 0x8000_0000, u32::MAX] {
        let file = Call::file_in(mode, &source.text, &source.tokens, EXACT);
        let body = Call::body_in(mode, FIRST, &source.text, &source.tokens, BODY_START, BODY_EXACT);
        for call in [file, body] {
            assert_eq!(call.answer, refusal(36, 0));
            call.assert_untouched();
        }
    }
}

/// Numbers of no edition; the larger ones have the bytes of one at one end.
const UNKNOWN_EDITIONS: [u32; 9] = [0, 3, 0x100, 0x101, 0x102, 0x1_0001, 0x1_0002, 0x0200_0000, u32::MAX];

#[test]
fn the_edition_arrives_whole() {
    let zeros = Source::of_lines(&["{ 0x00 ~a : 0x0 op60 0x00 }"]);
    let read = |edition| Call::body_in(Mode::Lenient.number(), edition, &zeros.text, &zeros.tokens, 0, [9, 17, 5 * 8, 5]);
    for (edition, length) in Edition::ALL.into_iter().zip([7, 5]) {
        assert_eq!(read(edition.number()).answer, [0, 8, 5, 0, length, 0, 0]);
    }
    for edition in UNKNOWN_EDITIONS {
        let call = read(edition);
        assert_eq!(call.answer, refusal(38, 0));
        call.assert_untouched();
    }
}

/// The list is not well formed, the kept list is too short and the start lies outside, and there is no such edition: each has its
/// number, behind 36.
#[test]
fn an_unknown_mode_comes_before_every_other_refusal() {
    let source = source();
    for tokens in [&source.tokens[..], &source.tokens[1..], &[]] {
        let file = Call::file_in(2, &source.text, tokens, [0; 4]);
        let body = |edition| Call::body_in(2, edition, &source.text, tokens, usize::MAX, [0; 4]).answer;
        assert_eq!((file.answer, body(FIRST)), (refusal(36, 0), refusal(36, 0)));
        assert_eq!(UNKNOWN_EDITIONS.map(body), [refusal(36, 0); 9]);
    }
}

/// The same lists, with the number that they have in an edition.
#[test]
fn an_unknown_edition_comes_before_every_refusal_but_that() {
    let source = source();
    for (tokens, number, cursor) in [(&source.tokens[..], 35, 37), (&source.tokens[1..], 30, 0), (&[], 30, 0)] {
        for mode in Mode::ALL {
            let body = |edition| Call::body_in(mode.number(), edition, &source.text, tokens, usize::MAX, [0; 4]).answer;
            assert_eq!(UNKNOWN_EDITIONS.map(body), [refusal(38, 0); 9]);
            assert_eq!(Edition::ALL.map(|edition| body(edition.number())), [refusal(number, cursor); 2]);
        }
    }
}

#[test]
fn a_repeated_label_is_refused_behind_the_kept_list_and_before_the_tables() {
    let strict = Mode::Strict.number();
    let body = Source::of_lines(&["{ ~a : ~b : ~a : }"]);
    let read = |lengths| Call::body_in(strict, FIRST, &body.text, &body.tokens, 0, lengths);
    assert_eq!(read([8, 17, 24, 7]).answer, refusal(35, 9));
    let file = Source::of_lines(&["#define macro M ( ) = { ~a : ~a : }"]);
    for tables in [[17, 25, 8], [0, 0, 0]] {
        let [definitions, statements, arguments] = tables;
        let call = read([9, definitions, statements, arguments]);
        assert_eq!(call.answer, refusal(22, 5));
        call.assert_cleared(9);
        let call = Call::file_in(strict, &file.text, &file.tokens, [14, definitions, statements, arguments]);
        assert_eq!(call.answer, refusal(22, 9));
        call.assert_cleared(13);
        assert!(call.definitions.is_zero());
    }
}

/// The type is read through the kept list, so it is told where that was written, whatever the tables are.
#[test]
fn a_type_is_told_behind_the_kept_list_and_before_the_tables() {
    let body = Source::of_lines(&["{ @f ( a int8 ) }"]);
    let read = |lengths| Call::body(&body.text, &body.tokens, 0, lengths);
    assert_eq!(read([7, 17, 24, 7]).answer, refusal(35, 8));
    let file = Source::of_lines(&["#define error E ( %bool bytes32 )"]);
    for tables in [[17, 25, 8], [0, 0, 0]] {
        let [definitions, statements, arguments] = tables;
        let call = read([8, definitions, statements, arguments]);
        assert_eq!(call.answer, [7, 4, 0, 0, 0, 6, 8]);
        call.assert_cleared(8);
        let call = Call::file(&file.text, &file.tokens, [9, definitions, statements, arguments]);
        assert_eq!(call.answer, [7, 5, 0, 0, 0, 7, 32]);
        call.assert_cleared(8);
        assert!(call.definitions.is_zero());
    }
}
