//! What every view looks into: the text, the token list and the tables of the last call.

use crate::table::Table;
use crate::token::{token_at, TokenAt};
use crate::{ARGUMENT_WORDS, DEFINITION_WORDS, STATEMENT_WORDS};

/// The four lists that a call is lent. The kept list is a table with records of one word.
pub(crate) struct Tables {
    pub(crate) kept: Table,
    pub(crate) definitions: Table,
    pub(crate) statements: Table,
    pub(crate) arguments: Table,
}

impl Tables {
    pub(crate) fn new() -> Tables {
        Tables {
            kept: Table::new(1),
            definitions: Table::new(DEFINITION_WORDS),
            statements: Table::new(STATEMENT_WORDS),
            arguments: Table::new(ARGUMENT_WORDS),
        }
    }

    /// The token at a place.
    pub(crate) fn token(&self, tokens: &[u32], place: usize) -> Option<TokenAt> {
        let number = *self.kept.words().get(place)?;
        token_at(tokens, usize::try_from(number).ok()?)
    }
}

/// Text, tokens and tables together; small enough to be copied into every view.
#[derive(Clone, Copy)]
pub(crate) struct Reading<'a> {
    pub(crate) text: &'a [u8],
    pub(crate) tokens: &'a [u32],
    pub(crate) tables: &'a Tables,
}

impl<'a> Reading<'a> {
    pub(crate) fn token(self, place: usize) -> Option<TokenAt> {
        self.tables.token(self.tokens, place)
    }

    pub(crate) fn text_of(self, place: usize) -> &'a [u8] {
        match self.token(place) {
            Some(token) => token.text_in(self.text),
            None => &[],
        }
    }
}
