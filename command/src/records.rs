//! The form for programs: one record a line, the fields separated by one space. docs/COMMAND.md says what each means, and
//! nothing here changes without it.

use crate::arguments::{Entry, Job};
use crate::place::{token_of, Lines};
use crate::refusal::Site;
use simmerotter::{Body, File, Refused, ARGUMENT_WORDS, DEFINITION_WORDS, NONE, STATEMENT_WORDS};

pub fn file(file: File, tokens: &[u32], lines: &Lines, places: bool) -> String {
    let tables = [
        Records { name: "definition", words: file.definition_words(), width: DEFINITION_WORDS },
        Records { name: "statement", words: file.statement_words(), width: STATEMENT_WORDS },
        Records { name: "argument", words: file.argument_words(), width: ARGUMENT_WORDS },
    ];
    let [definitions, statements, arguments] = [tables[0].count(), tables[1].count(), tables[2].count()];
    let mut out = format!("file 0 {} {} {} {} 0 0\n", file.end(), definitions, statements, arguments);
    tables.iter().for_each(|table| table.put(&mut out));
    if places {
        put_places(&mut out, tokens, file.kept(), lines);
    }
    out
}

pub fn body(body: Body, tokens: &[u32], lines: &Lines, places: bool) -> String {
    let tables = [
        Records { name: "statement", words: body.statement_words(), width: STATEMENT_WORDS },
        Records { name: "argument", words: body.argument_words(), width: ARGUMENT_WORDS },
    ];
    let length = body.plain_length().unwrap_or(u64::from(NONE));
    let [statements, arguments] = [tables[0].count(), tables[1].count()];
    let mut out = format!("body 0 {} {} {} {} {} 0 0\n", body.end(), statements, arguments, length, body.edition().number());
    tables.iter().for_each(|table| table.put(&mut out));
    if places {
        put_places(&mut out, tokens, body.kept(), lines);
    }
    out
}

/// The answer's seven numbers, for a body also the edition, as where it is accepted; and a line for whoever shows the refusal.
pub fn refused(job: &Job, refused: Refused, site: &Site) -> String {
    let (number, name, cursor) = (refused.refusal.number(), refused.refusal.name(), refused.cursor);
    let answer = match job.entry {
        Entry::File => format!("file {} {} 0 0 0", number, cursor),
        Entry::Body(_) => format!("body {} {} 0 0 0 {}", number, cursor, job.edition.number()),
    };
    let [type_number, size] = refused.reserved_type.map_or([0, 0], |found| [found.number(), found.size()]);
    let position = site.position();
    let [token, line, column] = [site.number, position.map(|p| p.line), position.map(|p| p.column)].map(or_dash);
    format!("{answer} {type_number} {size}\nrefused {number} {name} {cursor} {token} {line} {column}\n")
}

/// A table's name, words and words a record.
struct Records<'a> {
    name: &'static str,
    words: &'a [u32],
    width: usize,
}

impl Records<'_> {
    fn count(&self) -> usize {
        self.words.len() / self.width
    }

    fn put(&self, out: &mut String) {
        for (number, record) in self.words.chunks_exact(self.width).enumerate() {
            put_line(out, self.name, number, record.iter().map(u32::to_string));
        }
    }
}

/// A line for every kept token: its number in the list, line and column.
fn put_places(out: &mut String, tokens: &[u32], kept: &[u32], lines: &Lines) {
    for place in 0..kept.len() {
        if let Some(token) = token_of(tokens, kept, place) {
            let position = lines.position(token.bytes.start);
            put_line(out, "place", place, [token.number, position.line, position.column].iter().map(usize::to_string));
        }
    }
}

fn put_line(out: &mut String, name: &str, number: usize, fields: impl Iterator<Item = String>) {
    out.push_str(name);
    out.push(' ');
    out.push_str(&number.to_string());
    for field in fields {
        out.push(' ');
        out.push_str(&field);
    }
    out.push('\n');
}

fn or_dash(number: Option<usize>) -> String {
    number.map_or_else(|| "-".to_string(), |number| number.to_string())
}
