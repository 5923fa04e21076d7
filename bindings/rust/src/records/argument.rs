//! Arguments and their records.

use super::{numbers_within, place, range, word};
use crate::reading::Reading;
use std::fmt;
use std::iter::FusedIterator;
use std::ops::Range;

const FORM: usize = 0;
const TYPE: usize = 1;
const NAME: usize = 2;
const INDEXED: usize = 3;
const LOCATION: usize = 4;
const FIRST: usize = 5;

/// How an argument is written.
#[derive(Clone, Copy, Debug, PartialEq, Eq, Hash)]
pub enum ArgumentForm {
    /// 1. Declared by a definition, or a name given to a builtin.
    Declared,
    /// 2. A string given to a builtin.
    Str,
    /// 3. A literal given to a builtin.
    Literal,
    /// 4. A literal given to an invocation.
    CallLiteral,
    /// 5. A name given to an invocation.
    CallName,
    /// 6. An argument's name in angles, given to an invocation.
    CallArgument,
}

impl ArgumentForm {
    /// The form's number in a record's first word.
    pub fn number(self) -> u32 {
        match self {
            ArgumentForm::Declared => 1,
            ArgumentForm::Str => 2,
            ArgumentForm::Literal => 3,
            ArgumentForm::CallLiteral => 4,
            ArgumentForm::CallName => 5,
            ArgumentForm::CallArgument => 6,
        }
    }

    /// The form of a number, if there is one.
    pub fn from_number(number: u32) -> Option<ArgumentForm> {
        match number {
            1 => Some(ArgumentForm::Declared),
            2 => Some(ArgumentForm::Str),
            3 => Some(ArgumentForm::Literal),
            4 => Some(ArgumentForm::CallLiteral),
            5 => Some(ArgumentForm::CallName),
            6 => Some(ArgumentForm::CallArgument),
            _ => None,
        }
    }
}

/// Where an argument's data lies.
#[derive(Clone, Copy, Debug, PartialEq, Eq, Hash)]
pub enum Location {
    /// 1. `calldata`.
    Calldata,
    /// 2. `memory`.
    Memory,
    /// 3. `storage`.
    Storage,
}

impl Location {
    /// The location's number in a record.
    pub fn number(self) -> u32 {
        match self {
            Location::Calldata => 1,
            Location::Memory => 2,
            Location::Storage => 3,
        }
    }

    /// The location of a number, if there is one.
    pub fn from_number(number: u32) -> Option<Location> {
        match number {
            1 => Some(Location::Calldata),
            2 => Some(Location::Memory),
            3 => Some(Location::Storage),
            _ => None,
        }
    }
}

/// An argument of a definition or of a statement, or an output of a function.
#[derive(Clone, Copy)]
pub struct Argument<'a> {
    reading: Reading<'a>,
    number: usize,
    record: &'a [u32],
    form: ArgumentForm,
}

impl<'a> Argument<'a> {
    pub(crate) fn at(reading: Reading<'a>, number: usize) -> Option<Argument<'a>> {
        let record = reading.tables.arguments.record(number)?;
        let form = ArgumentForm::from_number(word(record, FORM))?;
        Some(Argument { reading, number, record, form })
    }

    /// The index of its record.
    pub fn number(self) -> usize {
        self.number
    }

    /// How it is written.
    pub fn form(self) -> ArgumentForm {
        self.form
    }

    /// The place of its type, if it has one.
    pub fn type_place(self) -> Option<usize> {
        place(self.record, TYPE)
    }

    /// The text of its type, if it has one.
    pub fn type_text(self) -> Option<&'a [u8]> {
        self.type_place().map(|place| self.reading.text_of(place))
    }

    /// The place of its name, if it has one; of its one token for strings, literals and names given to an invocation.
    pub fn name_place(self) -> Option<usize> {
        place(self.record, NAME)
    }

    /// The text at its name's place, if it has one.
    pub fn name(self) -> Option<&'a [u8]> {
        self.name_place().map(|place| self.reading.text_of(place))
    }

    /// Whether it is marked `indexed`.
    pub fn indexed(self) -> bool {
        word(self.record, INDEXED) != 0
    }

    /// Where its data lies, if that is said.
    pub fn location(self) -> Option<Location> {
        Location::from_number(word(self.record, LOCATION))
    }

    /// The places of its tokens, angles too, without the commas around it.
    pub fn places(self) -> Range<usize> {
        range(self.record, FIRST)
    }

    /// The seven words of its record.
    pub fn record(self) -> &'a [u32] {
        self.record
    }
}

impl fmt::Debug for Argument<'_> {
    fn fmt(&self, f: &mut fmt::Formatter<'_>) -> fmt::Result {
        f.debug_struct("Argument").field("number", &self.number).field("record", &self.record).finish()
    }
}

/// Arguments one after the other.
#[derive(Clone)]
pub struct Arguments<'a> {
    reading: Reading<'a>,
    numbers: Range<usize>,
}

impl<'a> Arguments<'a> {
    pub(crate) fn new(reading: Reading<'a>, numbers: Range<usize>) -> Arguments<'a> {
        Arguments { reading, numbers: numbers_within(numbers, reading.tables.arguments.records()) }
    }
}

impl<'a> Iterator for Arguments<'a> {
    type Item = Argument<'a>;

    fn next(&mut self) -> Option<Argument<'a>> {
        let next = Argument::at(self.reading, self.numbers.next()?);
        if next.is_none() {
            self.numbers = 0..0;
        }
        next
    }

    fn size_hint(&self) -> (usize, Option<usize>) {
        (0, Some(self.numbers.len()))
    }
}

impl FusedIterator for Arguments<'_> {}
