//! A body that was read.

use crate::options::Edition;
use crate::reading::Reading;
use crate::records::{Argument, Arguments, Statement, Statements};
use crate::token::TokenAt;
use std::fmt;

/// One macro body, accepted. It looks into the room that read it.
#[derive(Clone, Copy)]
pub struct Body<'a> {
    pub(crate) reading: Reading<'a>,
    pub(crate) end: usize,
    pub(crate) edition: Edition,
    pub(crate) plain_length: Option<u64>,
}

impl<'a> Body<'a> {
    /// The statements. Those under a label are reached through the label.
    pub fn statements(self) -> Statements<'a> {
        Statements::top_level(self.reading, 0..usize::MAX)
    }

    /// The statements in the order of the records: a label, what lies under it, what follows.
    pub fn all_statements(self) -> Statements<'a> {
        Statements::all(self.reading, 0..usize::MAX)
    }

    /// The arguments of all statements in the order of the records.
    pub fn arguments(self) -> Arguments<'a> {
        Arguments::new(self.reading, 0..usize::MAX)
    }

    /// The statement of a record's number.
    pub fn statement(self, number: usize) -> Option<Statement<'a>> {
        Statement::at(self.reading, number)
    }

    /// The argument of a record's number.
    pub fn argument(self, number: usize) -> Option<Argument<'a>> {
        Argument::at(self.reading, number)
    }

    /// The cursor: the place behind the body's closing brace.
    pub fn end(self) -> usize {
        self.end
    }

    /// The edition in which the body was measured.
    pub fn edition(self) -> Edition {
        self.edition
    }

    /// The bytes of code that the body makes, in the room's [edition](Body::edition): in the first a zero literal that is no
    /// push's operand counts 2, in the second 1, and all else counts alike.
    ///
    /// `None` in either if the body holds more than literals, opcodes, labels and label calls, or, read leniently, if a value
    /// push in a label has directly behind it, in the same label, no literal that fits it.
    pub fn plain_length(self) -> Option<u64> {
        self.plain_length
    }

    /// The token numbers of all places.
    pub fn kept(self) -> &'a [u32] {
        self.reading.tables.kept.words()
    }

    /// The token at a place.
    pub fn token(self, place: usize) -> Option<TokenAt> {
        self.reading.token(place)
    }

    /// The text of the token at a place; nothing where there is no token.
    pub fn text_of(self, place: usize) -> &'a [u8] {
        self.reading.text_of(place)
    }

    /// The statements' records, eight words each.
    pub fn statement_words(self) -> &'a [u32] {
        self.reading.tables.statements.words()
    }

    /// The arguments' records, seven words each.
    pub fn argument_words(self) -> &'a [u32] {
        self.reading.tables.arguments.words()
    }
}

impl fmt::Debug for Body<'_> {
    fn fmt(&self, f: &mut fmt::Formatter<'_>) -> fmt::Result {
        let mut shown = f.debug_struct("Body");
        shown.field("end", &self.end).field("edition", &self.edition).field("plain_length", &self.plain_length).finish()
    }
}
