//! The fixed sample through the crate. Two of its sections are the answers of the Rust parser that was ported, two those of the
//! rules as `oracle/rules.py` has them, most of them strict; the others are written by hand from the rules.

mod common;

use common::{answer_of, assert_text_ranges, cases, Case, Setting, SETTINGS};
use simmerotter::raw::Answer;
use simmerotter::{Body, Definition, Edition, File, Mode, Refused, Room, Statement};

/// Of cases in all, of strict ones, of bodies in the second edition: with fewer these tests would show less than they say.
const FEWEST: usize = 4_000;
const FEWEST_STRICT: usize = 600;
const FEWEST_SECOND: usize = 100;

#[test]
fn the_archive_leaves_what_the_cases_say() {
    let (mut of_rust, mut of_rules, mut by_hand) = (0, 0, 0);
    for case in &cases() {
        let (answer, lists) = case.call();
        assert_eq!(answer, case.answer, "answer of line {}", case.line);
        assert_eq!(lists, case.wanted, "lists of line {}", case.line);
        match case.section.split(',').next() {
            Some("the Rust's answers") => of_rust += 1,
            Some("the rules' answers in mixed modes") => of_rules += 1,
            _ => by_hand += 1,
        }
    }
    println!("{} answers of the Rust, {} of the rules in mixed modes and {} by hand, all the same", of_rust, of_rules, by_hand);
    assert!(of_rust >= 3_000 && of_rules >= 800 && by_hand >= 200, "only {}, {} and {} cases", of_rust, of_rules, by_hand);
}

#[test]
fn a_room_reads_what_the_cases_say() {
    let mut shared = SETTINGS.map(|setting| (setting, setting.room()));
    let (mut compared, mut grown, mut strict, mut second) = (0, 0, 0, 0);
    for case in &cases() {
        match shared.iter_mut().find(|(setting, _)| case.setting() == Some(*setting)) {
            Some((setting, room)) => {
                compare_room(&mut setting.room(), *setting, case);
                compare_room(room, *setting, case);
                strict += usize::from(setting.mode == Mode::Strict);
                second += usize::from(setting.edition == Edition::Second);
            }
            // A room has no such mode or edition to give; that the archive answers so is for the test above.
            None => assert!(matches!(case.answer, [36 | 38, 0, 0, 0, 0, 0, 0]), "line {}", case.line),
        }
        match case.answer[0] {
            32..=35 => grown += 1,
            36 | 38 => {}
            _ => compared += 1,
        }
    }
    println!("{} cases compared, {} more whose own tables were too small", compared, grown);
    println!("{} cases of them all are strict, {} are bodies in the second edition", strict, second);
    assert!(compared + grown >= FEWEST && grown >= 200, "only {} and {} cases", compared, grown);
    assert!(strict >= FEWEST_STRICT && second >= FEWEST_SECOND, "only {} and {} cases", strict, second);
}

/// A room's tables are always large enough, so it answers like the archive with such tables; where the case's own were, that
/// has to be the case's answer.
fn compare_room(room: &mut Room, setting: Setting, case: &Case) {
    let (answer, lists) = case.call_with_enough(setting);
    match case.answer[0] {
        number @ 32..=34 => {
            let table = usize::try_from(number - 32).expect("0, 1 or 2");
            assert_eq!(answer[0], 0, "line {}", case.line);
            assert_eq!(counts(case, answer)[table] as u64, case.answer[1], "line {}", case.line);
        }
        35 => assert!(answer[0] < 35, "line {}", case.line),
        _ => compare_own(case, answer, &lists),
    }
    if case.is_body {
        compare_body(room, case, answer, &lists);
    } else {
        compare_file(room, case, answer, &lists);
    }
    compare_kept(room, case, answer, &lists);
}

/// The same records and answer with the case's tables and with larger ones.
fn compare_own(case: &Case, answer: Answer, lists: &common::Lists) {
    assert_eq!(answer, case.answer, "line {}", case.line);
    let [definitions, statements, arguments] = counts(case, answer);
    assert_eq!(lists.definitions[..14 * definitions], case.wanted.definitions[..14 * definitions]);
    assert_eq!(lists.statements[..8 * statements], case.wanted.statements[..8 * statements]);
    assert_eq!(lists.arguments[..7 * arguments], case.wanted.arguments[..7 * arguments]);
}

fn counts(case: &Case, answer: Answer) -> [usize; 3] {
    let counts = match case.is_body {
        true => [0, answer[2], answer[3]],
        false => [answer[2], answer[3], answer[4]],
    };
    counts.map(|count| usize::try_from(count).expect("a count"))
}

fn compare_file(room: &mut Room, case: &Case, answer: Answer, lists: &common::Lists) {
    let [definitions, statements, arguments] = counts(case, answer);
    match room.read_file(&case.text, &case.tokens) {
        Ok(file) => {
            assert_eq!((0, answer[1]), (answer[0], file.end() as u64), "line {}", case.line);
            assert_eq!(file.definition_words(), &lists.definitions[..14 * definitions]);
            assert_eq!(file.statement_words(), &lists.statements[..8 * statements]);
            assert_eq!(file.argument_words(), &lists.arguments[..7 * arguments]);
            views_of_file(file);
            assert_text_ranges(file, &case.text);
        }
        Err(refused) => compare_refused(refused, case, answer),
    }
}

fn compare_body(room: &mut Room, case: &Case, answer: Answer, lists: &common::Lists) {
    let [_, statements, arguments] = counts(case, answer);
    match room.read_body(&case.text, &case.tokens, case.start) {
        Ok(body) => {
            assert_eq!((0, answer[1]), (answer[0], body.end() as u64), "line {}", case.line);
            assert_eq!(body.plain_length().unwrap_or(4_294_967_295), answer[4], "line {}", case.line);
            assert_eq!(body.statement_words(), &lists.statements[..8 * statements]);
            assert_eq!(body.argument_words(), &lists.arguments[..7 * arguments]);
            views_of_body(body);
        }
        Err(refused) => compare_refused(refused, case, answer),
    }
}

fn compare_refused(refused: Refused, case: &Case, answer: Answer) {
    assert_eq!(answer_of(refused), answer, "line {}", case.line);
}

fn compare_kept(room: &Room, case: &Case, answer: Answer, lists: &common::Lists) {
    let written = lists.kept.iter().take_while(|word| **word != common::FILL).count();
    assert_eq!(room.kept(), &lists.kept[..written], "line {}", case.line);
    assert_eq!(written == 0, matches!(answer[0], 30 | 31), "line {}", case.line);
    for (place, number) in room.kept().iter().enumerate() {
        let token = room.token(&case.tokens, place).expect("a token at every place");
        assert_eq!(token.number, *number as usize);
        assert_eq!(token.kind.number(), case.tokens[4 * token.number]);
    }
    assert_eq!(room.token(&case.tokens, written), None);
}

/// Walking from the definitions down meets every record once, in the order of the tables.
fn views_of_file(file: File<'_>) {
    let definitions: Vec<u32> = file.definitions().flat_map(|definition| definition.record().to_vec()).collect();
    assert_eq!(definitions, file.definition_words());
    let statements: Vec<u32> = file.definitions().flat_map(under_labels_too).collect();
    assert_eq!(statements, file.statement_words());
    let arguments: Vec<u32> = file.definitions().flat_map(all_arguments).collect();
    assert_eq!(arguments, file.argument_words());
    assert_eq!(file.all_statements().count() * 8, file.statement_words().len());
    assert_eq!(file.arguments().count() * 7, file.argument_words().len());
}

fn views_of_body(body: Body<'_>) {
    let statements: Vec<u32> = body.statements().flat_map(with_inner).collect();
    assert_eq!(statements, body.statement_words());
    let arguments: Vec<u32> = body.all_statements().flat_map(arguments_of).collect();
    assert_eq!(arguments, body.argument_words());
    assert_eq!(body.all_statements().count() * 8, body.statement_words().len());
    assert_eq!(body.arguments().count() * 7, body.argument_words().len());
}

fn under_labels_too(definition: Definition<'_>) -> Vec<u32> {
    definition.statements().flat_map(with_inner).collect()
}

fn with_inner(statement: Statement<'_>) -> Vec<u32> {
    let mut words = statement.record().to_vec();
    statement.inner().for_each(|inner| words.extend_from_slice(inner.record()));
    words
}

fn all_arguments(definition: Definition<'_>) -> Vec<u32> {
    let declared = definition.arguments().chain(definition.outputs()).flat_map(|argument| argument.record().to_vec());
    declared.chain(definition.all_statements().flat_map(arguments_of)).collect()
}

fn arguments_of(statement: Statement<'_>) -> Vec<u32> {
    statement.arguments().flat_map(|argument| argument.record().to_vec()).collect()
}
