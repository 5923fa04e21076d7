//! Definitions and their records.

use super::argument::Arguments;
use super::statement::Statements;
use super::{numbers, numbers_within, range, size, word};
use crate::reading::Reading;
use std::fmt;
use std::iter::FusedIterator;
use std::ops::Range;

const KIND: usize = 0;
const NAME: usize = 1;
const FIRST: usize = 2;
const FIRST_ARGUMENT: usize = 4;
const FIRST_OUTPUT: usize = 6;
const FIRST_STATEMENT: usize = 8;
const A: usize = 10;
const B: usize = 11;
const TEXT_START: usize = 12;

/// What is defined.
#[derive(Clone, Copy, Debug, PartialEq, Eq, Hash)]
pub enum DefinitionKind {
    /// 1. `#include` of another file.
    Import,
    /// 2. A function of the interface.
    Function,
    /// 3. An event of the interface.
    Event,
    /// 4. A constant.
    Constant,
    /// 5. An error of the interface.
    Error,
    /// 6. A macro.
    Macro,
    /// 7. A macro that is jumped to, not written in place.
    Fn,
    /// 8. A test.
    Test,
    /// 9. A jump table.
    JumpTable,
    /// 10. A packed jump table.
    JumpTablePacked,
    /// 11. A code table.
    CodeTable,
}

impl DefinitionKind {
    /// The kind's number in a record's first word.
    pub fn number(self) -> u32 {
        match self {
            DefinitionKind::Import => 1,
            DefinitionKind::Function => 2,
            DefinitionKind::Event => 3,
            DefinitionKind::Constant => 4,
            DefinitionKind::Error => 5,
            DefinitionKind::Macro => 6,
            DefinitionKind::Fn => 7,
            DefinitionKind::Test => 8,
            DefinitionKind::JumpTable => 9,
            DefinitionKind::JumpTablePacked => 10,
            DefinitionKind::CodeTable => 11,
        }
    }

    /// The kind of a number, if there is one.
    pub fn from_number(number: u32) -> Option<DefinitionKind> {
        match number {
            1 => Some(DefinitionKind::Import),
            2 => Some(DefinitionKind::Function),
            3 => Some(DefinitionKind::Event),
            4 => Some(DefinitionKind::Constant),
            5 => Some(DefinitionKind::Error),
            6 => Some(DefinitionKind::Macro),
            7 => Some(DefinitionKind::Fn),
            8 => Some(DefinitionKind::Test),
            9 => Some(DefinitionKind::JumpTable),
            10 => Some(DefinitionKind::JumpTablePacked),
            11 => Some(DefinitionKind::CodeTable),
            _ => None,
        }
    }

    /// Whether it is a macro, fn or test: these have a body, `takes` and `returns`, and share their names.
    pub fn is_macro(self) -> bool {
        matches!(self, DefinitionKind::Macro | DefinitionKind::Fn | DefinitionKind::Test)
    }

    /// Whether it is a table of any of the three kinds.
    pub fn is_table(self) -> bool {
        matches!(self, DefinitionKind::JumpTable | DefinitionKind::JumpTablePacked | DefinitionKind::CodeTable)
    }
}

/// What a function says about itself.
#[derive(Clone, Copy, Debug, PartialEq, Eq, Hash)]
pub enum FunctionType {
    /// 1. `view`.
    View,
    /// 2. `pure`.
    Pure,
    /// 3. `payable`.
    Payable,
    /// 4. `nonpayable`.
    NonPayable,
}

impl FunctionType {
    /// The type's number in a record.
    pub fn number(self) -> u32 {
        match self {
            FunctionType::View => 1,
            FunctionType::Pure => 2,
            FunctionType::Payable => 3,
            FunctionType::NonPayable => 4,
        }
    }

    /// The type of a number, if there is one.
    pub fn from_number(number: u32) -> Option<FunctionType> {
        match number {
            1 => Some(FunctionType::View),
            2 => Some(FunctionType::Pure),
            3 => Some(FunctionType::Payable),
            4 => Some(FunctionType::NonPayable),
            _ => None,
        }
    }
}

/// The value of a constant, with the place of its token.
#[derive(Clone, Copy, Debug, PartialEq, Eq, Hash)]
pub enum Value {
    /// 1. A literal.
    Literal(usize),
    /// 2. The free storage pointer.
    FreeStoragePointer(usize),
}

impl Value {
    /// The place of the value's token.
    pub fn place(self) -> usize {
        match self {
            Value::Literal(place) | Value::FreeStoragePointer(place) => place,
        }
    }
}

/// A definition of a file.
#[derive(Clone, Copy)]
pub struct Definition<'a> {
    reading: Reading<'a>,
    number: usize,
    record: &'a [u32],
    kind: DefinitionKind,
}

impl<'a> Definition<'a> {
    pub(crate) fn at(reading: Reading<'a>, number: usize) -> Option<Definition<'a>> {
        let record = reading.tables.definitions.record(number)?;
        let kind = DefinitionKind::from_number(word(record, KIND))?;
        Some(Definition { reading, number, record, kind })
    }

    /// The index of its record.
    pub fn number(self) -> usize {
        self.number
    }

    /// What is defined.
    pub fn kind(self) -> DefinitionKind {
        self.kind
    }

    /// The place of its name; an import's is its string.
    pub fn name_place(self) -> usize {
        size(self.record, NAME)
    }

    /// The text of its name; an import's is its string as the token list gives it.
    pub fn name(self) -> &'a [u8] {
        self.reading.text_of(self.name_place())
    }

    /// The places of its tokens, from `#define` or `#include` on.
    pub fn places(self) -> Range<usize> {
        range(self.record, FIRST)
    }

    /// Its bytes in the text, from the start of its first token to the end of its last one. White space and comments behind
    /// that lie outside, and so does an import's closing quote where the token list leaves it out of the string.
    ///
    /// The ranges of a file's definitions lie one behind the other.
    pub fn text_range(self) -> Range<usize> {
        range(self.record, TEXT_START)
    }

    /// Its bytes of the text: its tokens, and the white space, comments and other bytes between them.
    pub fn text(self) -> &'a [u8] {
        self.reading.text.get(self.text_range()).unwrap_or_default()
    }

    /// The arguments that it declares.
    pub fn arguments(self) -> Arguments<'a> {
        Arguments::new(self.reading, numbers(self.record, FIRST_ARGUMENT))
    }

    /// What a function returns; none of other definitions.
    pub fn outputs(self) -> Arguments<'a> {
        Arguments::new(self.reading, numbers(self.record, FIRST_OUTPUT))
    }

    /// The statements of its body, or the entries of a table. Those under a label are reached through the label.
    pub fn statements(self) -> Statements<'a> {
        Statements::top_level(self.reading, numbers(self.record, FIRST_STATEMENT))
    }

    /// The statements of its body in the order of the records: a label, what lies under it, what follows.
    pub fn all_statements(self) -> Statements<'a> {
        Statements::all(self.reading, numbers(self.record, FIRST_STATEMENT))
    }

    /// How many stack items a macro, fn or test takes; 0 if it doesn't say.
    pub fn takes(self) -> Option<u32> {
        self.word_if(self.kind.is_macro(), A)
    }

    /// How many stack items a macro, fn or test returns; 0 if it doesn't say.
    pub fn returns(self) -> Option<u32> {
        self.word_if(self.kind.is_macro(), B)
    }

    /// What a function says about itself.
    pub fn function_type(self) -> Option<FunctionType> {
        FunctionType::from_number(self.word_if(self.kind == DefinitionKind::Function, A)?)
    }

    /// The value of a constant.
    pub fn constant_value(self) -> Option<Value> {
        let place = size(self.record, B);
        match self.word_if(self.kind == DefinitionKind::Constant, A)? {
            1 => Some(Value::Literal(place)),
            2 => Some(Value::FreeStoragePointer(place)),
            _ => None,
        }
    }

    /// The size of a table in bytes.
    pub fn table_size(self) -> Option<u32> {
        self.word_if(self.kind.is_table(), A)
    }

    /// The fourteen words of its record.
    pub fn record(self) -> &'a [u32] {
        self.record
    }

    fn word_if(self, applies: bool, index: usize) -> Option<u32> {
        if applies {
            Some(word(self.record, index))
        } else {
            None
        }
    }
}

impl fmt::Debug for Definition<'_> {
    fn fmt(&self, f: &mut fmt::Formatter<'_>) -> fmt::Result {
        f.debug_struct("Definition").field("number", &self.number).field("record", &self.record).finish()
    }
}

/// Definitions one after the other.
#[derive(Clone)]
pub struct Definitions<'a> {
    reading: Reading<'a>,
    numbers: Range<usize>,
}

impl<'a> Definitions<'a> {
    pub(crate) fn new(reading: Reading<'a>) -> Definitions<'a> {
        Definitions { reading, numbers: numbers_within(0..usize::MAX, reading.tables.definitions.records()) }
    }
}

impl<'a> Iterator for Definitions<'a> {
    type Item = Definition<'a>;

    fn next(&mut self) -> Option<Definition<'a>> {
        let next = Definition::at(self.reading, self.numbers.next()?);
        if next.is_none() {
            self.numbers = 0..0;
        }
        next
    }

    fn size_hint(&self) -> (usize, Option<usize>) {
        (0, Some(self.numbers.len()))
    }
}

impl FusedIterator for Definitions<'_> {}
