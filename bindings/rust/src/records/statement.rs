//! Statements and their records.

use super::argument::Arguments;
use super::{numbers, numbers_within, range, size, word};
use crate::reading::Reading;
use crate::token::TokenAt;
use std::fmt;
use std::iter::FusedIterator;
use std::ops::Range;

const TYPE: usize = 0;
const FIRST: usize = 1;
const FIRST_INNER: usize = 3;
const INNER: usize = 4;
const FIRST_ARGUMENT: usize = 5;
const VALUE: usize = 7;

/// What a statement is.
#[derive(Clone, Copy, Debug, PartialEq, Eq, Hash)]
pub enum StatementKind {
    /// 1. A literal.
    Literal,
    /// 2. An opcode.
    Opcode,
    /// 3. A label's name, jumped to or listed in a jump table.
    LabelCall,
    /// 4. An invocation of a macro.
    Invocation,
    /// 5. A label with the statements under it.
    Label,
    /// 6. A constant in brackets.
    Constant,
    /// 7. An argument in angles.
    ArgumentCall,
    /// 8. A builtin function.
    Builtin,
    /// 9. Hex digits of a code table.
    Code,
}

impl StatementKind {
    /// The type's number in a record's first word.
    pub fn number(self) -> u32 {
        match self {
            StatementKind::Literal => 1,
            StatementKind::Opcode => 2,
            StatementKind::LabelCall => 3,
            StatementKind::Invocation => 4,
            StatementKind::Label => 5,
            StatementKind::Constant => 6,
            StatementKind::ArgumentCall => 7,
            StatementKind::Builtin => 8,
            StatementKind::Code => 9,
        }
    }

    /// The type of a number, if there is one.
    pub fn from_number(number: u32) -> Option<StatementKind> {
        match number {
            1 => Some(StatementKind::Literal),
            2 => Some(StatementKind::Opcode),
            3 => Some(StatementKind::LabelCall),
            4 => Some(StatementKind::Invocation),
            5 => Some(StatementKind::Label),
            6 => Some(StatementKind::Constant),
            7 => Some(StatementKind::ArgumentCall),
            8 => Some(StatementKind::Builtin),
            9 => Some(StatementKind::Code),
            _ => None,
        }
    }
}

/// A statement of a body, or an entry of a table.
#[derive(Clone, Copy)]
pub struct Statement<'a> {
    reading: Reading<'a>,
    number: usize,
    record: &'a [u32],
    kind: StatementKind,
}

impl<'a> Statement<'a> {
    pub(crate) fn at(reading: Reading<'a>, number: usize) -> Option<Statement<'a>> {
        let record = reading.tables.statements.record(number)?;
        let kind = StatementKind::from_number(word(record, TYPE))?;
        Some(Statement { reading, number, record, kind })
    }

    /// The index of its record.
    pub fn number(self) -> usize {
        self.number
    }

    /// What it is.
    pub fn kind(self) -> StatementKind {
        self.kind
    }

    /// The places of its tokens: brackets and angles too, and everything under a label.
    pub fn places(self) -> Range<usize> {
        range(self.record, FIRST)
    }

    /// The statements under a label; none of other statements.
    pub fn inner(self) -> Statements<'a> {
        Statements::all(self.reading, numbers(self.record, FIRST_INNER))
    }

    /// The arguments of an invocation or of a builtin.
    pub fn arguments(self) -> Arguments<'a> {
        Arguments::new(self.reading, numbers(self.record, FIRST_ARGUMENT))
    }

    /// The place of its name or value token.
    pub fn value_place(self) -> usize {
        size(self.record, VALUE)
    }

    /// Its name or value token; an opcode's byte is the token's extra word.
    pub fn value_token(self) -> Option<TokenAt> {
        self.reading.token(self.value_place())
    }

    /// The text of its name or value token.
    pub fn value_text(self) -> &'a [u8] {
        self.reading.text_of(self.value_place())
    }

    /// The eight words of its record.
    pub fn record(self) -> &'a [u32] {
        self.record
    }

    /// The number of the next record that is not under this statement.
    fn next_outside(self) -> usize {
        self.number.saturating_add(1).saturating_add(size(self.record, INNER))
    }
}

impl fmt::Debug for Statement<'_> {
    fn fmt(&self, f: &mut fmt::Formatter<'_>) -> fmt::Result {
        f.debug_struct("Statement").field("number", &self.number).field("record", &self.record).finish()
    }
}

/// Statements one after the other.
#[derive(Clone)]
pub struct Statements<'a> {
    reading: Reading<'a>,
    numbers: Range<usize>,
    top_level: bool,
}

impl<'a> Statements<'a> {
    /// Every record, those under labels too.
    pub(crate) fn all(reading: Reading<'a>, numbers: Range<usize>) -> Statements<'a> {
        let numbers = numbers_within(numbers, reading.tables.statements.records());
        Statements { reading, numbers, top_level: false }
    }

    /// The records that lie under no label.
    pub(crate) fn top_level(reading: Reading<'a>, numbers: Range<usize>) -> Statements<'a> {
        Statements { top_level: true, ..Statements::all(reading, numbers) }
    }
}

impl<'a> Iterator for Statements<'a> {
    type Item = Statement<'a>;

    fn next(&mut self) -> Option<Statement<'a>> {
        let next = Statement::at(self.reading, self.numbers.next()?);
        match next {
            Some(statement) if self.top_level => self.numbers.start = statement.next_outside(),
            Some(_) => {}
            None => self.numbers = 0..0,
        }
        next
    }

    fn size_hint(&self) -> (usize, Option<usize>) {
        (0, Some(self.numbers.len()))
    }
}

impl FusedIterator for Statements<'_> {}
