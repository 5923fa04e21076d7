//! The archive's two functions over slices, as they are: the caller gives a mode's number ([`Mode::number`](crate::Mode::number)),
//! for a body also an edition's ([`Edition::number`](crate::Edition::number)), lends every list and reads the seven numbers. A
//! number that is no mode's is answered by 36, one that is no edition's by 38.
//! [`Refused::from_answer`](crate::Refused::from_answer) makes a refusal of the numbers.
//!
//! A call takes up to about 70 KB of stack in mode 0; in mode 1 as much where no body has more than 512 tokens, else up to about
//! 400 KB. Calls share nothing, so threads may call at once.

#![allow(unsafe_code)]

use crate::ANSWER_NUMBERS;

/// The numbers of an answer. The first two are number (0 accepted) and cursor. What the three behind them count is said at each
/// function; after a refusal they are 0. The last two are type and size, 0 unless the number is 7;
/// [`ReservedType::from_numbers`](crate::ReservedType::from_numbers) knows them.
pub type Answer = [u64; ANSWER_NUMBERS];

extern "C" {
    fn simmerotter_read_file(
        mode: u32,
        text: *const u8,
        text_len: usize,
        tokens: *const u32,
        tokens_len: usize,
        kept: *mut u32,
        kept_len: usize,
        definitions: *mut u32,
        definitions_len: usize,
        statements: *mut u32,
        statements_len: usize,
        arguments: *mut u32,
        arguments_len: usize,
        answer: *mut u64,
    );

    fn simmerotter_read_body(
        mode: u32,
        edition: u32,
        text: *const u8,
        text_len: usize,
        tokens: *const u32,
        tokens_len: usize,
        start: usize,
        kept: *mut u32,
        kept_len: usize,
        statements: *mut u32,
        statements_len: usize,
        arguments: *mut u32,
        arguments_len: usize,
        answer: *mut u64,
    );
}

/// Reads a whole file in a mode. The answer: number, cursor, definitions, statements, arguments, type, size.
pub fn read_file(
    mode: u32,
    text: &[u8],
    tokens: &[u32],
    kept: &mut [u32],
    definitions: &mut [u32],
    statements: &mut [u32],
    arguments: &mut [u32],
) -> Answer {
    let mut answer = [0; ANSWER_NUMBERS];
    // A slice's pointer is aligned and never null, of an empty one too; its length is the one that goes with it; and the
    // borrow checker keeps the lent lists apart from each other and from what is read. That is all the archive asks.
    unsafe {
        simmerotter_read_file(
            mode,
            text.as_ptr(),
            text.len(),
            tokens.as_ptr(),
            tokens.len(),
            kept.as_mut_ptr(),
            kept.len(),
            definitions.as_mut_ptr(),
            definitions.len(),
            statements.as_mut_ptr(),
            statements.len(),
            arguments.as_mut_ptr(),
            arguments.len(),
            answer.as_mut_ptr(),
        );
    }
    answer
}

/// Reads the body whose opening brace is at place `start` in a mode, and measures it in an edition. The answer: number, cursor,
/// statements, arguments, plain length ([`crate::NONE`] if the body has none), type, size.
// The archive's function takes so many.
#[allow(clippy::too_many_arguments)]
pub fn read_body(
    mode: u32,
    edition: u32,
    text: &[u8],
    tokens: &[u32],
    start: usize,
    kept: &mut [u32],
    statements: &mut [u32],
    arguments: &mut [u32],
) -> Answer {
    let mut answer = [0; ANSWER_NUMBERS];
    // As in `read_file`.
    unsafe {
        simmerotter_read_body(
            mode,
            edition,
            text.as_ptr(),
            text.len(),
            tokens.as_ptr(),
            tokens.len(),
            start,
            kept.as_mut_ptr(),
            kept.len(),
            statements.as_mut_ptr(),
            statements.len(),
            arguments.as_mut_ptr(),
            arguments.len(),
            answer.as_mut_ptr(),
        );
    }
    answer
}
