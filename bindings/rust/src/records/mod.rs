//! Definitions, statements and arguments: views over the records of the last call.
//!
//! A view is a few words and may be copied freely. It reads its record when it is asked, and a record that could not have
//! come from the archive makes an iterator end rather than panic.

mod argument;
mod definition;
mod statement;
#[cfg(test)]
mod tests;

pub use argument::{Argument, ArgumentForm, Arguments, Location};
pub use definition::{Definition, DefinitionKind, Definitions, FunctionType, Value};
pub use statement::{Statement, StatementKind, Statements};

use crate::NONE;
use std::ops::Range;

/// A word of a record; 0 if the record has no such word.
fn word(record: &[u32], index: usize) -> u32 {
    record.get(index).copied().unwrap_or(0)
}

/// A word that is a place, a count or a record's number.
fn size(record: &[u32], index: usize) -> usize {
    usize::try_from(word(record, index)).unwrap_or(usize::MAX)
}

/// A word that is a place or NONE.
fn place(record: &[u32], index: usize) -> Option<usize> {
    match word(record, index) {
        NONE => None,
        _ => Some(size(record, index)),
    }
}

/// Two words that are a first place or byte and the end behind the last.
fn range(record: &[u32], first: usize) -> Range<usize> {
    size(record, first)..size(record, first.saturating_add(1))
}

/// Two words that are a first record's number and a count.
fn numbers(record: &[u32], first: usize) -> Range<usize> {
    let start = size(record, first);
    start..start.saturating_add(size(record, first.saturating_add(1)))
}

/// The numbers that a table with so many records has.
fn numbers_within(numbers: Range<usize>, records: usize) -> Range<usize> {
    numbers.start.min(records)..numbers.end.min(records)
}
