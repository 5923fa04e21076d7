//! Cases as lines, what they lend, and answers as lines.

use crate::nodes::{Found, Told, NO_TYPE};

/// What every lent word holds before the call.
const FILL: u32 = 2_779_096_485;
/// More than this of anything isn't lent: the format's limits lie far below.
const LARGEST: usize = 4_194_304;

/// A case.
pub struct Case {
    pub body: bool,
    pub mode: u32,
    /// A file has none.
    pub edition: Option<u32>,
    pub start: u32,
    pub kept: usize,
    pub definitions: usize,
    pub statements: usize,
    pub arguments: usize,
    pub text: Vec<u8>,
    pub words: Vec<u32>,
}

const NOT_A_CASE: &str = "X_NotACase";
const TOO_LARGE: &str = "X_TooLarge";

impl Case {
    /// Reads a line.
    pub fn read(line: &[u8]) -> Result<Case, &'static str> {
        let fields: Vec<&[u8]> = line.split(|b| *b == b' ').collect();
        if fields.len() != 10 {
            return Err(NOT_A_CASE);
        }
        let body = match fields[0] {
            b"F" => false,
            b"B" => true,
            _ => return Err(NOT_A_CASE),
        };
        let mode = number(fields[1])?;
        let edition = edition(fields[2], body)?;
        let start = number(fields[3])?;
        let kept = number(fields[4])? as usize;
        let definitions = number(fields[5])? as usize;
        let statements = number(fields[6])? as usize;
        let arguments = number(fields[7])? as usize;
        let text = bytes(fields[8])?;
        let words = if fields[9] == b"-" {
            vec![]
        } else {
            fields[9].split(|b| *b == b',').map(number).collect::<Result<Vec<u32>, _>>()?
        };
        if (!body && start != 0) || (body && definitions != 0) {
            return Err(NOT_A_CASE);
        }
        if [kept, definitions, statements, arguments, text.len(), words.len()]
            .iter()
            .any(|n| *n > LARGEST)
        {
            return Err(TOO_LARGE);
        }
        Ok(Case {
            body,
            mode,
            edition,
            start,
            kept,
            definitions,
            statements,
            arguments,
            text,
            words,
        })
    }
}

/// One to ten decimal digits, at most 4,294,967,295.
fn number(field: &[u8]) -> Result<u32, &'static str> {
    if field.is_empty() || field.len() > 10 || !field.iter().all(u8::is_ascii_digit) {
        return Err(NOT_A_CASE);
    }
    let value = field.iter().fold(0u64, |n, d| 10 * n + u64::from(d - b'0'));
    u32::try_from(value).map_err(|_| NOT_A_CASE)
}

/// A body's edition; for a file `-`.
fn edition(field: &[u8], body: bool) -> Result<Option<u32>, &'static str> {
    match (body, field) {
        (true, _) => number(field).map(Some),
        (false, b"-") => Ok(None),
        (false, _) => Err(NOT_A_CASE),
    }
}

/// Hex digits, two a byte, or `-` for none.
fn bytes(field: &[u8]) -> Result<Vec<u8>, &'static str> {
    if field == b"-" {
        return Ok(vec![]);
    }
    if field.is_empty() || field.len() % 2 != 0 {
        return Err(NOT_A_CASE);
    }
    let digit = |d: u8| (d as char).to_digit(16).ok_or(NOT_A_CASE);
    field.chunks(2).map(|p| Ok((digit(p[0])? * 16 + digit(p[1])?) as u8)).collect()
}

/// The four lent lists.
pub struct Lent {
    kept: Vec<u32>,
    definitions: Vec<u32>,
    statements: Vec<u32>,
    arguments: Vec<u32>,
}

impl Lent {
    /// As they are before the call.
    pub fn new(case: &Case) -> Lent {
        Lent {
            kept: vec![FILL; case.kept],
            definitions: vec![FILL; case.definitions],
            statements: vec![FILL; case.statements],
            arguments: vec![FILL; case.arguments],
        }
    }

    /// The kept list is written, its words beyond stay.
    pub fn write_kept(&mut self, kept: &[u32]) {
        for (word, number) in self.kept.iter_mut().zip(kept) {
            *word = *number;
        }
    }

    /// After a refusal the tables hold only zeros.
    pub fn zero_tables(&mut self) {
        for table in [&mut self.definitions, &mut self.statements, &mut self.arguments] {
            table.fill(0);
        }
    }

    /// An input that was read: 32, 33, 34, or the records and the answer.
    pub fn settle(&mut self, case: &Case, found: &Found) -> String {
        self.zero_tables();
        let needs = [
            (32, found.definitions.len(), case.definitions / 14),
            (33, found.statements.len(), case.statements / 8),
            (34, found.arguments.len(), case.arguments / 7),
        ];
        for (refusal, need, room) in needs {
            if need > room {
                return self.refuse(refusal, need as u32);
            }
        }
        fill(&mut self.definitions, &found.definitions);
        fill(&mut self.statements, &found.statements);
        fill(&mut self.arguments, &found.arguments);
        let (d, s, a) = (needs[0].1 as u32, needs[1].1 as u32, needs[2].1 as u32);
        let cursor = found.cursor as u32;
        let counts = if case.body { [s, a, found.length] } else { [d, s, a] };
        self.show(0, cursor, counts, NO_TYPE)
    }

    /// The answer of a refusal that tells no type.
    pub fn refuse(&self, number: u32, cursor: u32) -> String {
        self.refuse_telling(number, cursor, NO_TYPE)
    }

    /// The answer of a refusal: its counts are 0.
    pub fn refuse_telling(&self, number: u32, cursor: u32, told: Told) -> String {
        self.show(number, cursor, [0; 3], told)
    }

    /// The answer as a line.
    fn show(&self, number: u32, cursor: u32, [c1, c2, c3]: [u32; 3], [ty, size]: Told) -> String {
        let lists = [&self.kept, &self.definitions, &self.statements, &self.arguments];
        let mut line =
            String::with_capacity(32 + 11 * lists.iter().map(|l| l.len()).sum::<usize>());
        join(&mut line, &[number, cursor, c1, c2, c3, ty, size], ' ');
        for list in lists {
            line.push('|');
            join(&mut line, list, ',');
        }
        line
    }
}

fn fill<const W: usize>(table: &mut [u32], records: &[[u32; W]]) {
    for (words, record) in table.chunks_mut(W).zip(records) {
        words.copy_from_slice(record);
    }
}

fn join(line: &mut String, words: &[u32], between: char) {
    use std::fmt::Write;
    for (i, word) in words.iter().enumerate() {
        if i > 0 {
            line.push(between);
        }
        write!(line, "{word}").expect("a string takes all");
    }
}
