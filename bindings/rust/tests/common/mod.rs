//! What the tests share: the fixed sample, token lists written by hand, lent lists and chance.

#![allow(dead_code)]

use simmerotter::raw::{self, Answer};
use simmerotter::{push_token, Edition, File, Kind, Mode, Options, Refused, Room, TOKEN_WORDS};
use std::fs;
use std::path::Path;

/// What every lent word of a case holds before the call.
pub const FILL: u32 = 2_779_096_485;

/// A case of `crates/cases/stdin` with its answer in `crates/cases/stdout`; docs/CASES.md has the format.
pub struct Case {
    pub line: usize,
    pub section: String,
    pub is_body: bool,
    /// The mode's number; some cases have the number of no mode.
    pub mode: u32,
    /// The edition's number; some bodies have the number of no edition. 0 for a file, which has none.
    pub edition: u32,
    pub start: usize,
    pub text: Vec<u8>,
    pub tokens: Vec<u32>,
    pub answer: Answer,
    pub wanted: Lists,
}

/// The four lent lists.
#[derive(Clone, Debug, PartialEq, Eq)]
pub struct Lists {
    pub kept: Vec<u32>,
    pub definitions: Vec<u32>,
    pub statements: Vec<u32>,
    pub arguments: Vec<u32>,
}

impl Lists {
    /// Lists of these lengths that hold nothing but `word`.
    pub fn filled(lengths: [usize; 4], word: u32) -> Lists {
        let [kept, definitions, statements, arguments] = lengths.map(|length| vec![word; length]);
        Lists { kept, definitions, statements, arguments }
    }

    /// Lists that are long enough for every list of so many tokens.
    pub fn enough(tokens: &[u32]) -> Lists {
        let count = tokens.len() / TOKEN_WORDS;
        Lists::filled([count, 14 * (count / 2), 8 * count, 7 * count], FILL)
    }

    pub fn lengths(&self) -> [usize; 4] {
        [self.kept.len(), self.definitions.len(), self.statements.len(), self.arguments.len()]
    }

    pub fn read_file(&mut self, mode: u32, text: &[u8], tokens: &[u32]) -> Answer {
        let Lists { kept, definitions, statements, arguments } = self;
        raw::read_file(mode, text, tokens, kept, definitions, statements, arguments)
    }

    pub fn read_body(&mut self, mode: u32, edition: u32, text: &[u8], tokens: &[u32], start: usize) -> Answer {
        raw::read_body(mode, edition, text, tokens, start, &mut self.kept, &mut self.statements, &mut self.arguments)
    }
}

/// What a call left: its answer and the lent lists.
pub type Left = (Answer, Lists);

impl Case {
    /// The setting that has the case's numbers, if there is one: rooms read by no others. A file goes with either edition.
    pub fn setting(&self) -> Option<Setting> {
        SETTINGS.into_iter().find(|setting| {
            let [mode, edition] = setting.numbers();
            mode == self.mode && (edition == self.edition || !self.is_body)
        })
    }

    /// Calls the archive with the case's numbers and lists like its own.
    pub fn call(&self) -> Left {
        self.call_in(self.edition)
    }

    /// The same in this edition, whatever the case's is.
    pub fn call_in(&self, edition: u32) -> Left {
        self.call_with([self.mode, edition], Lists::filled(self.wanted.lengths(), FILL))
    }

    /// Calls the archive, whatever the case's numbers are, with lists that are long enough.
    pub fn call_with_enough(&self, setting: Setting) -> Left {
        self.call_with(setting.numbers(), Lists::enough(&self.tokens))
    }

    fn call_with(&self, [mode, edition]: [u32; 2], mut lists: Lists) -> Left {
        let answer = match self.is_body {
            true => lists.read_body(mode, edition, &self.text, &self.tokens, self.start),
            false => lists.read_file(mode, &self.text, &self.tokens),
        };
        (answer, lists)
    }
}

/// Each definition's bytes are those of its tokens, found by the kept list, and what stands between them; and the ranges lie one
/// behind the other inside the text.
pub fn assert_text_ranges(file: File<'_>, text: &[u8]) {
    let mut behind = 0;
    for definition in file.definitions() {
        let (places, range) = (definition.places(), definition.text_range());
        let bytes_at = |place: usize| file.token(place).expect("a token").bytes;
        assert_eq!(range, bytes_at(places.start).start..bytes_at(places.end - 1).end);
        assert!(behind <= range.start && range.start <= range.end && range.end <= text.len(), "{:?} behind {}", range, behind);
        assert!(places.clone().all(|place| range.start <= bytes_at(place).start && bytes_at(place).end <= range.end));
        assert!(range.end <= bytes_at(places.end).start);
        assert_eq!(definition.text(), &text[range.clone()]);
        behind = range.end;
    }
}

/// The answer of a refusal that tells no type.
pub fn refusal(number: u64, cursor: u64) -> Answer {
    [number, cursor, 0, 0, 0, 0, 0]
}

/// The answer that a room's refusal was made of.
pub fn answer_of(refused: Refused) -> Answer {
    let [kind, size] = refused.reserved_type.map_or([0, 0], |one| [u64::from(one.number()), u64::from(one.size())]);
    [u64::from(refused.refusal.number()), refused.cursor as u64, 0, 0, 0, kind, size]
}

/// What a room can be told.
#[derive(Clone, Copy, Debug, PartialEq, Eq)]
pub struct Setting {
    pub mode: Mode,
    pub edition: Edition,
}

/// Both modes, each with both editions.
pub const SETTINGS: [Setting; 4] = [
    Setting { mode: Mode::Lenient, edition: Edition::First },
    Setting { mode: Mode::Lenient, edition: Edition::Second },
    Setting { mode: Mode::Strict, edition: Edition::First },
    Setting { mode: Mode::Strict, edition: Edition::Second },
];

impl Setting {
    /// An empty room of this setting.
    pub fn room(self) -> Room {
        Room::with(Options::default().mode(self.mode).edition(self.edition))
    }

    /// The first two numbers of a body's call.
    pub fn numbers(self) -> [u32; 2] {
        [self.mode.number(), self.edition.number()]
    }
}

/// An empty room that reads in this mode.
pub fn room_in(mode: Mode) -> Room {
    Setting { mode, edition: Edition::First }.room()
}

/// Every case of the fixed sample: all of its lines but headings and those that are answered by a single word.
pub fn cases() -> Vec<Case> {
    let (lines, answers) = (sample("stdin"), sample("stdout"));
    assert_eq!(lines.split('\n').count(), answers.lines().count(), "an answer to each line");
    let mut section = "";
    let mut cases = Vec::new();
    for (index, (line, answer)) in lines.split('\n').zip(answers.lines()).enumerate() {
        match line.strip_prefix("# ") {
            Some(heading) => section = heading,
            None if answer.starts_with("X_") => {}
            None => cases.push(case(index + 1, section, line, answer)),
        }
    }
    cases
}

fn sample(name: &str) -> String {
    let path = Path::new(env!("CARGO_MANIFEST_DIR")).join("../../crates/cases").join(name);
    fs::read_to_string(&path).unwrap_or_else(|error| panic!("{}: {}", path.display(), error))
}

fn case(line: usize, section: &str, fields: &str, answer: &str) -> Case {
    let fields: Vec<&str> = fields.split(' ').collect();
    let parts: Vec<&str> = answer.split('|').collect();
    assert_eq!((fields.len(), parts.len()), (10, 5), "fields and parts of line {}", line);
    let numbers: Vec<u64> = parts[0].split(' ').map(|number| u64::from(word(number))).collect();
    let [kept, definitions, statements, arguments] = [1, 2, 3, 4].map(|part| words(parts[part]));
    let wanted = Lists { kept, definitions, statements, arguments };
    assert_eq!([4, 5, 6, 7].map(|field| size(fields[field])), wanted.lengths(), "lengths of line {}", line);
    Case {
        line,
        section: section.to_string(),
        is_body: fields[0] == "B",
        mode: word(fields[1]),
        edition: edition(fields[2]),
        start: size(fields[3]),
        text: bytes(fields[8]),
        tokens: words(fields[9]),
        answer: numbers.try_into().expect("seven numbers"),
        wanted,
    }
}

fn word(number: &str) -> u32 {
    number.parse().expect("a number of 32 bits")
}

/// A file has a dash in the edition's place.
fn edition(field: &str) -> u32 {
    match field {
        "-" => 0,
        number => word(number),
    }
}

fn size(number: &str) -> usize {
    usize::try_from(word(number)).expect("a size")
}

fn words(list: &str) -> Vec<u32> {
    match list {
        "" | "-" => Vec::new(),
        _ => list.split(',').map(word).collect(),
    }
}

fn bytes(text: &str) -> Vec<u8> {
    (0..text.len() / 2).map(|byte| u8::from_str_radix(&text[2 * byte..2 * byte + 2], 16).expect("two hex digits")).collect()
}

/// A text and its token list.
#[derive(Clone)]
pub struct Source {
    pub text: Vec<u8>,
    pub tokens: Vec<u32>,
}

impl Source {
    pub fn new() -> Source {
        Source { text: Vec::new(), tokens: Vec::new() }
    }

    /// Adds a token.
    pub fn put(&mut self, kind: Kind, text: impl AsRef<[u8]>, extra: u32) {
        let start = self.length();
        self.text.extend_from_slice(text.as_ref());
        let end = self.length();
        push_token(&mut self.tokens, kind, start, end, extra);
    }

    /// Adds tokens, written with a space between each two; see `token_of`.
    pub fn line(&mut self, line: &str) {
        for word in line.split(' ') {
            let (kind, text, extra) = token_of(word);
            self.put(kind, text, extra);
            self.put(Kind::Whitespace, " ", 0);
        }
    }

    /// Adds the last token.
    pub fn end(mut self) -> Source {
        self.put(Kind::Eof, "", 0);
        self
    }

    /// The same text, its white space left out of the token list.
    pub fn without_space(self) -> Source {
        let space = Kind::Whitespace.number();
        let tokens = self.tokens.chunks(TOKEN_WORDS).filter(|token| token[0] != space).flatten().copied().collect();
        Source { text: self.text, tokens }
    }

    fn length(&self) -> u32 {
        u32::try_from(self.text.len()).expect("a short text")
    }

    pub fn of_lines(lines: &[&str]) -> Source {
        let mut source = Source::new();
        lines.iter().for_each(|line| source.line(line));
        source.end()
    }
}

/// The token of a word. `%` marks a type, `~` a label, `@` a builtin function, `"` a string, `op` and two hex digits an opcode.
pub fn token_of(word: &str) -> (Kind, &str, u32) {
    let marked = word.get(1..).unwrap_or("");
    match word.chars().next() {
        Some('%') => return (Kind::PrimitiveType, marked, 0),
        Some('~') => return (Kind::Label, marked, 0),
        Some('@') => return (Kind::BuiltinFunction, marked, 0),
        Some('"') => return (Kind::Str, word, 0),
        Some('0') if word.starts_with("0x") => return (Kind::Literal, word, 0),
        Some('0'..='9') => return (Kind::Num, word, word.parse().expect("a number")),
        Some('o') if word.starts_with("op") => {
            return (Kind::Opcode, word, u32::from_str_radix(&word[2..], 16).expect("a byte"));
        }
        _ => {}
    }
    (keyword(word).unwrap_or(Kind::Ident), word, 0)
}

fn keyword(word: &str) -> Option<Kind> {
    Some(match word {
        "#include" => Kind::Include,
        "#define" => Kind::Define,
        "#" => Kind::Pound,
        "macro" => Kind::Macro,
        "fn" => Kind::Fn,
        "test" => Kind::Test,
        "function" => Kind::Function,
        "event" => Kind::Event,
        "constant" => Kind::Constant,
        "error" => Kind::Error,
        "jumptable" => Kind::JumpTable,
        "packed" => Kind::JumpTablePacked,
        "table" => Kind::CodeTable,
        "takes" => Kind::Takes,
        "returns" => Kind::Returns,
        "view" => Kind::View,
        "pure" => Kind::Pure,
        "payable" => Kind::Payable,
        "nonpayable" => Kind::NonPayable,
        "indexed" => Kind::Indexed,
        "calldata" => Kind::Calldata,
        "memory" => Kind::Memory,
        "storage" => Kind::Storage,
        "FREE" => Kind::FreeStoragePointer,
        "=" => Kind::Assign,
        "(" => Kind::OpenParen,
        ")" => Kind::CloseParen,
        "{" => Kind::OpenBrace,
        "}" => Kind::CloseBrace,
        "[" => Kind::OpenBracket,
        "]" => Kind::CloseBracket,
        "<" => Kind::LeftAngle,
        ">" => Kind::RightAngle,
        "," => Kind::Comma,
        ":" => Kind::Colon,
        _ => return None,
    })
}

/// Numbers that look like chance and are the same in every run (xorshift).
pub struct Chance(u64);

impl Chance {
    pub fn new(seed: u64) -> Chance {
        Chance(seed | 1)
    }

    pub fn number(&mut self) -> u64 {
        self.0 ^= self.0 << 13;
        self.0 ^= self.0 >> 7;
        self.0 ^= self.0 << 17;
        self.0
    }

    pub fn word(&mut self) -> u32 {
        (self.number() >> 32) as u32
    }

    /// A number below a bound that is not 0.
    pub fn below(&mut self, bound: usize) -> usize {
        (self.number() >> 11) as usize % bound
    }

    /// A number to be given as an edition: mostly that of one, else one beside them, or any.
    pub fn edition(&mut self) -> u32 {
        match self.below(8) {
            0 => 0,
            1 => 3,
            2 => self.word(),
            other => Edition::ALL[other % 2].number(),
        }
    }
}
