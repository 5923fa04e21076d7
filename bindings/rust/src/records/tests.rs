//! Views over tables that hold anything: no word of a record may make them panic or run on.

use super::*;
use crate::body::Body;
use crate::file::File;
use crate::options::Edition;
use crate::reading::{Reading, Tables};
use crate::table::Table;
use crate::{ARGUMENT_WORDS, DEFINITION_WORDS, STATEMENT_WORDS};

const RECORDS: usize = 12;

/// Words that look like chance (xorshift): small ones, which are good kinds, places and counts, and the largest.
struct Words(u64);

impl Words {
    fn next(&mut self) -> u32 {
        self.0 ^= self.0 << 13;
        self.0 ^= self.0 >> 7;
        self.0 ^= self.0 << 17;
        match self.0 >> 61 {
            0 => u32::MAX,
            1 => u32::MAX - 1,
            2 => (self.0 >> 20) as u32,
            _ => (self.0 >> 20) as u32 % 13,
        }
    }

    /// Records that mostly start with a kind that is known, and a part of one more.
    fn table(&mut self, width: usize) -> Table {
        let words = (0..width * RECORDS + 3).map(|index| match index % width {
            0 if width > 1 && self.next() > 0 => 1 + self.next() % 6,
            _ => self.next(),
        });
        Table::holding(width, words.collect())
    }
}

/// Walks to every view and asks everything; counts the views.
fn walk(file: File<'_>, body: Body<'_>) -> usize {
    let mut views = 0;
    for definition in file.definitions() {
        views += 1;
        let values = (definition.takes(), definition.returns(), definition.table_size(), definition.function_type());
        let names = (definition.name(), definition.constant_value(), definition.places(), definition.number());
        let text = (definition.text_range(), definition.text());
        assert!(!format!("{:?} {:?} {:?} {:?}", definition, values, names, text).is_empty());
        views += definition.arguments().chain(definition.outputs()).map(walk_argument).sum::<usize>();
        views += definition.statements().chain(definition.all_statements()).map(walk_statement).sum::<usize>();
    }
    views += body.statements().chain(body.all_statements()).chain(file.all_statements()).map(walk_statement).sum::<usize>();
    views + body.arguments().chain(file.arguments()).map(walk_argument).sum::<usize>()
}

fn walk_statement(statement: Statement<'_>) -> usize {
    assert!(statement.inner().count() <= RECORDS);
    assert!(!format!("{:?} {:?} {:?}", statement, statement.value_token(), statement.value_text()).is_empty());
    assert!(!format!("{:?} {:?}", statement.kind(), statement.places()).is_empty());
    1 + statement.arguments().map(walk_argument).sum::<usize>()
}

fn walk_argument(argument: Argument<'_>) -> usize {
    let texts = (argument.type_text(), argument.name(), argument.location(), argument.indexed(), argument.places());
    assert!(!format!("{:?} {:?}", argument, texts).is_empty());
    1
}

#[test]
fn views_over_anything_end_without_panic() {
    let mut words = Words(88_172_645_463_325_252);
    let mut views = 0;
    for _ in 0..2_000 {
        let tables = Tables {
            kept: words.table(1),
            definitions: words.table(DEFINITION_WORDS),
            statements: words.table(STATEMENT_WORDS),
            arguments: words.table(ARGUMENT_WORDS),
        };
        let tokens: Vec<u32> = (0..50).map(|_| words.next()).collect();
        let reading = Reading { text: b"some text of 24 bytes...", tokens: &tokens, tables: &tables };
        let body = Body { reading, end: 0, edition: Edition::First, plain_length: None };
        views += walk(File { reading, end: 0 }, body);
    }
    println!("{} views", views);
    assert!(views > 100_000, "only {} views", views);
}

#[test]
fn a_range_that_is_none_of_the_text_has_no_bytes() {
    let text = b"some text of 24 bytes...";
    for (start, end, wanted) in [
        (0, 24, &text[..]),
        (5, 9, b"text"),
        (24, 24, b""),
        (0, 25, b""),
        (25, 25, b""),
        (9, 5, b""),
        (0, u32::MAX, b""),
        (u32::MAX, 0, b""),
        (u32::MAX, u32::MAX, b""),
    ] {
        let record = [1, 0, 0, 0, 0, 0, 0, 0, 0, 0, 0, 0, start, end];
        let tables = Tables { definitions: Table::holding(DEFINITION_WORDS, record.to_vec()), ..Tables::new() };
        let definition = Definition::at(Reading { text, tokens: &[], tables: &tables }, 0).expect("an import");
        assert_eq!(definition.text_range(), start as usize..end as usize);
        assert_eq!(definition.text(), wanted, "{} to {}", start, end);
    }
}

#[test]
fn an_unknown_kind_ends_the_list_for_good() {
    let opcode = [2, 0, 0, 1, 0, 0, 0, 0];
    let unknown = [10, 0, 0, 1, 0, 0, 0, 0];
    let tables = Tables { statements: Table::holding(STATEMENT_WORDS, [opcode, unknown, opcode].concat()), ..Tables::new() };
    let mut statements = Statements::all(Reading { text: b"", tokens: &[], tables: &tables }, 0..3);
    assert_eq!(statements.next().map(|one| one.number()), Some(0));
    assert!(statements.next().is_none());
    assert!(statements.next().is_none());
}

#[test]
fn a_label_that_claims_too_much_ends_the_list() {
    let label = [5, 0, 0, 1, u32::MAX, 0, u32::MAX, 0];
    let tables = Tables { statements: Table::holding(STATEMENT_WORDS, label.repeat(3)), ..Tables::new() };
    let reading = Reading { text: b"", tokens: &[], tables: &tables };
    assert_eq!(Statements::all(reading, 1..usize::MAX).size_hint(), (0, Some(2)));
    assert_eq!(Statements::top_level(reading, 0..usize::MAX).count(), 1);
    assert_eq!(Statements::all(reading, 0..usize::MAX).map(|one| one.inner().count()).collect::<Vec<_>>(), [2, 2, 2]);
}
