//! A file that was read.

use crate::reading::Reading;
use crate::records::{Argument, Arguments, Definition, Definitions, Statement, Statements};
use crate::token::TokenAt;
use std::fmt;

/// A whole file, accepted. It looks into the room that read it.
#[derive(Clone, Copy)]
pub struct File<'a> {
    pub(crate) reading: Reading<'a>,
    pub(crate) end: usize,
}

impl<'a> File<'a> {
    /// The definitions in the order of the file.
    pub fn definitions(self) -> Definitions<'a> {
        Definitions::new(self.reading)
    }

    /// The statements of all definitions in the order of the records, those under labels too.
    pub fn all_statements(self) -> Statements<'a> {
        Statements::all(self.reading, 0..usize::MAX)
    }

    /// The arguments of all definitions and statements in the order of the records.
    pub fn arguments(self) -> Arguments<'a> {
        Arguments::new(self.reading, 0..usize::MAX)
    }

    /// The definition of a record's number.
    pub fn definition(self, number: usize) -> Option<Definition<'a>> {
        Definition::at(self.reading, number)
    }

    /// The statement of a record's number.
    pub fn statement(self, number: usize) -> Option<Statement<'a>> {
        Statement::at(self.reading, number)
    }

    /// The argument of a record's number.
    pub fn argument(self, number: usize) -> Option<Argument<'a>> {
        Argument::at(self.reading, number)
    }

    /// The cursor: the place of the file's end.
    pub fn end(self) -> usize {
        self.end
    }

    /// The token numbers of all places.
    pub fn kept(self) -> &'a [u32] {
        self.reading.tables.kept.words()
    }

    /// The token at a place.
    pub fn token(self, place: usize) -> Option<TokenAt> {
        self.reading.token(place)
    }

    /// The text of the token at a place; nothing where there is no token.
    pub fn text_of(self, place: usize) -> &'a [u8] {
        self.reading.text_of(place)
    }

    /// The definitions' records, fourteen words each.
    pub fn definition_words(self) -> &'a [u32] {
        self.reading.tables.definitions.words()
    }

    /// The statements' records, eight words each.
    pub fn statement_words(self) -> &'a [u32] {
        self.reading.tables.statements.words()
    }

    /// The arguments' records, seven words each.
    pub fn argument_words(self) -> &'a [u32] {
        self.reading.tables.arguments.words()
    }
}

impl fmt::Debug for File<'_> {
    fn fmt(&self, f: &mut fmt::Formatter<'_>) -> fmt::Result {
        f.debug_struct("File").field("end", &self.end).field("definitions", &self.reading.tables.definitions.records()).finish()
    }
}
