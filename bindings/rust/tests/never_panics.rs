//! Rooms, views and accessors on input of all sorts: none of it may panic, and rooms must agree with the archive.

mod common;

use common::{answer_of, assert_text_ranges, cases, refusal, room_in, Case, Chance, Lists, Setting, Source, SETTINGS};
use simmerotter::raw::Answer;
use simmerotter::{
    Argument, Body, Definition, DefinitionKind, File, Kind, Mode, Refusal, Refused, Room, Statement, TokenAt, MAX_TEXT,
    MAX_TOKENS, NONE,
};

const RANDOM_LISTS: usize = 6_000;
const MUTATED_LISTS: usize = 16_000;

#[test]
fn random_words_are_answered() {
    let mut chance = Chance::new(1);
    let mut rooms = SETTINGS.map(Setting::room);
    let mut tally = Tally::default();
    for _ in 0..RANDOM_LISTS {
        let text: Vec<u8> = (0..chance.below(40)).map(|_| chance.word() as u8).collect();
        let tokens: Vec<u32> = (0..chance.below(60)).map(|_| random_word(&mut chance)).collect();
        let start = random_start(&mut chance);
        tally.read_in_all_settings(&mut rooms, &text, &tokens, start);
        tally.ask(random_numbers(&mut chance), &text, &tokens, start);
    }
    println!("random words: {:?}", tally);
    assert_eq!(tally.calls, 9 * RANDOM_LISTS);
    assert!(tally.refused > 4 * RANDOM_LISTS, "{:?}", tally);
    assert!(tally.turned_away > RANDOM_LISTS / 4, "{:?}", tally);
}

#[test]
fn mutated_cases_are_answered() {
    let cases = cases();
    let mut chance = Chance::new(2);
    let mut rooms = SETTINGS.map(Setting::room);
    let mut tally = Tally::default();
    for _ in 0..MUTATED_LISTS {
        let case = &cases[chance.below(cases.len())];
        let (text, tokens) = mutated(case, &mut chance);
        let start = match chance.below(3) {
            0 => case.start,
            1 => chance.below(tokens.len() + 1),
            _ => random_start(&mut chance),
        };
        tally.read_in_all_settings(&mut rooms, &text, &tokens, start);
        tally.ask(random_numbers(&mut chance), &text, &tokens, start);
    }
    println!("mutated cases: {:?}", tally);
    assert_eq!(tally.calls, 9 * MUTATED_LISTS);
    // Lists that pass the door are most of what this test is about.
    assert!(tally.accepted > 4_000 && tally.refused_by_grammar > 20_000, "{:?}", tally);
    assert!(tally.views > 40_000 && tally.turned_away > MUTATED_LISTS / 4, "{:?}", tally);
}

/// Small numbers are kinds and positions; the others try the limits of 32 bits.
fn random_word(chance: &mut Chance) -> u32 {
    match chance.below(4) {
        0 => chance.below(46) as u32,
        1 => chance.below(40) as u32,
        2 => u32::MAX - chance.below(3) as u32,
        _ => chance.word(),
    }
}

fn random_start(chance: &mut Chance) -> usize {
    match chance.below(5) {
        0 => usize::MAX,
        1 => 1 << 32,
        2 => chance.number() as usize,
        _ => chance.below(20),
    }
}

/// For a mode and an edition; either may be the number of none.
fn random_numbers(chance: &mut Chance) -> [u32; 2] {
    [chance.below(3) as u32, chance.edition()]
}

/// A case's list with up to three changes; most of them leave it well formed.
fn mutated(case: &Case, chance: &mut Chance) -> (Vec<u8>, Vec<u32>) {
    let (mut text, mut tokens) = (case.text.clone(), case.tokens.clone());
    for _ in 0..chance.below(4) {
        mutate(&mut text, &mut tokens, chance);
    }
    (text, tokens)
}

fn mutate(text: &mut Vec<u8>, tokens: &mut Vec<u32>, chance: &mut Chance) {
    let count = tokens.len() / 4;
    if count < 2 {
        tokens.push(chance.word());
        return;
    }
    let (token, other) = (chance.below(count - 1), chance.below(count - 1));
    match chance.below(10) {
        // Another kind, with the text and extra word that it may need left to luck.
        0..=3 => tokens[4 * token] = 1 + chance.below(45) as u32,
        // The kind and the extra word of another token.
        4 | 5 => {
            tokens[4 * token] = tokens[4 * other];
            tokens[4 * token + 3] = tokens[4 * other + 3];
        }
        // A token less.
        6 | 7 => drop(tokens.drain(4 * token..4 * token + 4)),
        8 => tokens[4 * token + chance.below(4)] = random_word(chance),
        _ => match chance.below(3) {
            0 => drop(text.pop()),
            1 => drop(tokens.pop()),
            _ => tokens[4 * token + 3] = chance.below(256) as u32,
        },
    }
}

/// What happened, so that a test that met nothing can be told from one that passed.
#[derive(Debug, Default)]
struct Tally {
    calls: usize,
    accepted: usize,
    refused: usize,
    refused_by_grammar: usize,
    turned_away: usize,
    views: usize,
}

impl Tally {
    fn read_in_all_settings(&mut self, rooms: &mut [Room; 4], text: &[u8], tokens: &[u32], start: usize) {
        for (setting, room) in SETTINGS.into_iter().zip(rooms) {
            self.read_file(setting, room, text, tokens);
            self.read_body(setting, room, text, tokens, start);
        }
    }

    /// The archive alone, with any two numbers: that there is no such mode comes first, then no such edition, then all else.
    fn ask(&mut self, [mode, edition]: [u32; 2], text: &[u8], tokens: &[u32], start: usize) {
        let mut lists = Lists::enough(tokens);
        let answer = lists.read_body(mode, edition, text, tokens, start);
        self.calls += 1;
        let number = match (mode, edition) {
            (0 | 1, 1 | 2) => return assert!(answer[0] < 36),
            (0 | 1, _) => 38,
            _ => 36,
        };
        assert_eq!((answer, lists), (refusal(number, 0), Lists::enough(tokens)));
        self.turned_away += 1;
    }

    fn read_file(&mut self, setting: Setting, room: &mut Room, text: &[u8], tokens: &[u32]) {
        let mut lists = Lists::enough(tokens);
        let answer = lists.read_file(setting.mode.number(), text, tokens);
        match room.read_file(text, tokens) {
            Ok(file) => {
                assert_eq!((answer[0], answer[1], &answer[5..]), (0, file.end() as u64, &[0, 0][..]));
                assert_eq!(file.definition_words(), &lists.definitions[..file.definitions().count() * 14]);
                assert_eq!(file.definitions().count() as u64, answer[2]);
                assert_eq!(file.all_statements().count() as u64, answer[3]);
                assert_eq!(file.arguments().count() as u64, answer[4]);
                assert_text_ranges(file, text);
                self.views += walk_file(file);
                self.accept();
            }
            Err(refused) => self.refuse(refused, answer),
        }
        self.walk_room(room, tokens);
    }

    fn read_body(&mut self, setting: Setting, room: &mut Room, text: &[u8], tokens: &[u32], start: usize) {
        let mut lists = Lists::enough(tokens);
        let [mode, edition] = setting.numbers();
        let answer = lists.read_body(mode, edition, text, tokens, start);
        match room.read_body(text, tokens, start) {
            Ok(body) => {
                assert_eq!((answer[0], answer[1], &answer[5..]), (0, body.end() as u64, &[0, 0][..]));
                assert_eq!((body.edition(), body.plain_length().unwrap_or(u64::from(NONE))), (setting.edition, answer[4]));
                assert_eq!(body.all_statements().count() as u64, answer[2]);
                assert_eq!(body.arguments().count() as u64, answer[3]);
                self.views += walk_body(body);
                self.accept();
            }
            Err(refused) => self.refuse(refused, answer),
        }
        self.walk_room(room, tokens);
    }

    fn accept(&mut self) {
        self.calls += 1;
        self.accepted += 1;
    }

    fn refuse(&mut self, refused: Refused, answer: Answer) {
        assert_eq!(answer_of(refused), answer);
        assert!(!refused.to_string().is_empty());
        self.calls += 1;
        self.refused += 1;
        self.refused_by_grammar += usize::from(answer[0] < 30);
    }

    fn walk_room(&mut self, room: &Room, tokens: &[u32]) {
        for place in [0, room.kept().len() / 2, room.kept().len(), usize::MAX / 4, usize::MAX] {
            let token = room.token(tokens, place);
            assert_eq!(token.is_some(), place < room.kept().len());
            self.views += usize::from(token.is_some());
        }
        // A token list that is not the last call's.
        assert_eq!(room.token(&[], 0), None);
    }
}

fn walk_file(file: File<'_>) -> usize {
    let definitions: usize = file.definitions().map(walk_definition).sum();
    let statements: usize = file.all_statements().map(walk_statement).sum();
    let arguments: usize = file.arguments().map(walk_argument).sum();
    for number in [0, file.kept().len(), usize::MAX / 14, usize::MAX] {
        let views = (file.definition(number), file.statement(number), file.argument(number));
        assert!(!format!("{:?} {:?} {:?}", views, file.token(number), file.text_of(number)).is_empty());
    }
    assert!(format!("{:?}", file).contains("File"));
    definitions + statements + arguments
}

fn walk_body(body: Body<'_>) -> usize {
    let statements: usize = body.statements().chain(body.all_statements()).map(walk_statement).sum();
    let arguments: usize = body.arguments().map(walk_argument).sum();
    for number in [0, body.kept().len(), usize::MAX / 8, usize::MAX] {
        let views = (body.statement(number), body.argument(number));
        assert!(!format!("{:?} {:?} {:?}", views, body.token(number), body.text_of(number)).is_empty());
    }
    assert!(body.plain_length().map_or(true, |length| length <= 33 * MAX_TOKENS as u64));
    assert!(format!("{:?}", body).contains("Body"));
    statements + arguments
}

fn walk_definition(definition: Definition<'_>) -> usize {
    assert_eq!(definition.record().len(), 14);
    assert_eq!(definition.kind().number(), definition.record()[0]);
    assert!(definition.places().contains(&definition.name_place()));
    assert_eq!(definition.text_range().len(), definition.text().len());
    assert!(definition.kind() == DefinitionKind::Import || !definition.name().is_empty());
    assert_eq!(definition.takes().is_some(), definition.returns().is_some());
    let values = [definition.takes(), definition.table_size(), definition.function_type().map(|one| one.number())];
    let constant = definition.constant_value().map_or(0, |value| usize::from(definition.places().contains(&value.place())));
    assert!(values.iter().flatten().count() + constant <= 1);
    let arguments: usize = definition.arguments().chain(definition.outputs()).map(walk_argument).sum();
    let statements: usize = definition.statements().chain(definition.all_statements()).map(walk_statement).sum();
    1 + arguments + statements
}

fn walk_statement(statement: Statement<'_>) -> usize {
    assert_eq!(statement.record().len(), 8);
    assert_eq!(statement.kind().number(), statement.record()[0]);
    assert!(statement.places().contains(&statement.value_place()));
    let value: Option<TokenAt> = statement.value_token();
    assert_eq!(value.map(|token| token.bytes.len()), Some(statement.value_text().len()));
    let arguments: usize = statement.arguments().map(walk_argument).sum();
    let inner: usize = statement.inner().map(walk_statement).sum();
    1 + arguments + inner
}

fn walk_argument(argument: Argument<'_>) -> usize {
    assert_eq!(argument.record().len(), 7);
    assert_eq!(argument.form().number(), argument.record()[0]);
    assert_eq!(argument.name().is_some(), argument.name_place().is_some());
    assert_eq!(argument.type_text().is_some(), argument.type_place().is_some());
    assert_eq!(argument.location().map_or(0, |one| one.number()), argument.record()[4]);
    assert_eq!(u32::from(argument.indexed()), argument.record()[3]);
    assert!(!argument.places().is_empty() && argument.number() < usize::MAX);
    1
}

/// Read as a file and as a body, in both modes, it gets this refusal.
fn assert_refused(text: &[u8], tokens: &[u32], refusal: Refusal, cursor: usize) {
    let refused = Refused { refusal, cursor, reserved_type: None };
    for mut room in Mode::ALL.map(room_in) {
        assert_eq!(room.read_file(text, tokens).unwrap_err(), refused);
        assert_eq!(room.read_body(text, tokens, 0).unwrap_err(), refused);
        assert!(room.kept().is_empty());
    }
}

#[test]
fn lists_beyond_the_limits_are_refused() {
    let eof = [Kind::Eof.number(), 0, 0, 0];
    assert_refused(b"", &[], Refusal::NotWellFormed, 0);
    for length in 1..4 {
        assert_refused(b"", &eof[..length], Refusal::NotWellFormed, 0);
    }
    assert_refused(&vec![b' '; MAX_TEXT + 1], &eof, Refusal::NotWellFormed, 0);
    let opcodes = [Kind::Opcode.number(), 0, 0, 0].repeat(MAX_TOKENS);
    assert_refused(b"", &[&opcodes[..], &eof].concat(), Refusal::NotWellFormed, 0);
    assert_refused(b"", &opcodes, Refusal::NotWellFormed, MAX_TOKENS - 1);
    assert_refused(b"", &[&opcodes[..], &opcodes[..]].concat(), Refusal::NotWellFormed, 0);
}

#[test]
fn starts_beyond_the_kept_tokens_are_refused() {
    let source = Source::of_lines(&["{ }"]);
    let mut room = Room::new();
    for start in [3, 4, 1 << 31, 1 << 32, (1 << 32) + 1, usize::MAX - 1, usize::MAX] {
        let refused = room.read_body(&source.text, &source.tokens, start).unwrap_err();
        assert_eq!(refused, Refused { refusal: Refusal::StartOutside, cursor: start, reserved_type: None });
        assert!(room.kept().is_empty());
    }
    assert_eq!(room.read_body(&source.text, &source.tokens, 0).map(|body| body.end()), Ok(2));
}

/// A list at the limit, made of one definition or statement over and over.
fn repeated(first: &[(Kind, u32)], again: &[(Kind, u32)], last: &[(Kind, u32)]) -> Source {
    let mut source = Source::new();
    let put = |source: &mut Source, kinds: &[(Kind, u32)]| kinds.iter().for_each(|(kind, extra)| source.put(*kind, "a", *extra));
    put(&mut source, first);
    while source.tokens.len() / 4 + again.len() + last.len() < MAX_TOKENS {
        put(&mut source, again);
    }
    put(&mut source, last);
    source.end()
}

#[test]
fn tables_grow_to_the_most_that_a_list_can_need() {
    let mut room = Room::new();
    let imports = repeated(&[], &[(Kind::Include, 0), (Kind::Str, 0)], &[]);
    let file = room.read_file(&imports.text, &imports.tokens).expect("imports");
    assert_eq!(file.definitions().count(), MAX_TOKENS / 2 - 1);

    let opcodes = repeated(&[(Kind::OpenBrace, 0)], &[(Kind::Opcode, 1)], &[(Kind::CloseBrace, 0)]);
    let body = Room::new().read_body(&opcodes.text, &opcodes.tokens, 0).map(|body| body.statements().count());
    assert_eq!(body, Ok(MAX_TOKENS - 3));

    let call = [(Kind::OpenBrace, 0), (Kind::Ident, 0), (Kind::OpenParen, 0)];
    let names = repeated(&call, &[(Kind::Ident, 0)], &[(Kind::CloseParen, 0), (Kind::CloseBrace, 0)]);
    let body = room.read_body(&names.text, &names.tokens, 0).expect("a call");
    assert_eq!((body.statements().count(), body.arguments().count()), (1, MAX_TOKENS - 6));
}

#[test]
fn all_three_tables_may_be_too_small_at_first() {
    let mut source = Source::new();
    (0..200).for_each(|_| source.line("#include \"a\""));
    source.line("#define macro M ( ) = {");
    (0..1_500).for_each(|_| source.line("op01"));
    source.line("F (");
    (0..750).for_each(|_| source.line("a"));
    source.line(") }");
    // White space counts among the tokens by which a room takes its first sizes; without it they don't suffice.
    let source = source.end().without_space();
    let count = source.tokens.len() / 4;
    assert!(201 > count / 16 + 16 && 1_501 > count / 2 + 16 && 750 > count / 4 + 16);
    let mut room = Room::new();
    let file = room.read_file(&source.text, &source.tokens).expect("a file that follows the rules");
    assert_eq!((file.definitions().count(), file.all_statements().count(), file.arguments().count()), (201, 1_501, 750));
}
