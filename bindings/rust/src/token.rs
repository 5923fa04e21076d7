//! Token lists: four words a token.

use crate::kinds::Kind;
use crate::TOKEN_WORDS;
use std::ops::Range;

/// A token of a list, taken apart.
#[derive(Clone, Debug, PartialEq, Eq, Hash)]
pub struct TokenAt {
    /// The token's index in the list.
    pub number: usize,
    /// What it is.
    pub kind: Kind,
    /// Its bytes in the text.
    pub bytes: Range<usize>,
    /// The byte of an opcode, the value of a number, else 0.
    pub extra: u32,
}

impl TokenAt {
    /// The token's bytes of the text; nothing if the range does not lie in it.
    pub fn text_in<'t>(&self, text: &'t [u8]) -> &'t [u8] {
        text.get(self.bytes.clone()).unwrap_or_default()
    }
}

/// Adds a token to a list. `start` and `end` count bytes of the text; `extra` is the byte of an opcode, the value of a
/// number, else 0.
pub fn push_token(tokens: &mut Vec<u32>, kind: Kind, start: u32, end: u32, extra: u32) {
    tokens.extend_from_slice(&[kind.number(), start, end, extra]);
}

/// The token of a number, if the list has it and its kind is known.
pub fn token_at(tokens: &[u32], number: usize) -> Option<TokenAt> {
    let first = number.checked_mul(TOKEN_WORDS)?;
    let words = tokens.get(first..first.checked_add(TOKEN_WORDS)?)?;
    if let [kind, start, end, extra] = *words {
        let kind = Kind::from_number(kind)?;
        let bytes = usize::try_from(start).ok()?..usize::try_from(end).ok()?;
        return Some(TokenAt { number, kind, bytes, extra });
    }
    None
}

/// How many tokens of a list are neither white space nor comment.
pub(crate) fn kept_count(tokens: &[u32]) -> usize {
    let dropped = [Kind::Whitespace.number(), Kind::Comment.number()];
    tokens.chunks_exact(TOKEN_WORDS).filter(|token| token.first().map_or(false, |kind| !dropped.contains(kind))).count()
}
