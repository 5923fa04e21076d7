//! Reads Huff token lists with Simmerotter's proved parser.
//!
//! A [`Room`] holds the tables that the parser writes into. It reads a whole file into a [`File`] or one macro body into a
//! [`Body`], and their definitions, statements and arguments are views over those tables. Bad input gives a [`Refused`]: a
//! number and a cursor, and where a type's name was refused as an argument's, that [`ReservedType`]. A room's [`Options`] say in
//! which [`Mode`] it reads, leniently if they say nothing, and in which [`Edition`] it measures a body, the first if they say
//! nothing.
//!
//! Two words occur everywhere. A token's *number* is its index in the token list. A *place* counts only the tokens that are
//! neither white space nor comment, from 0. Ends of ranges are exclusive.
//!
//! ```
//! use simmerotter::{push_token, Kind, Refusal, Room};
//!
//! let text = b"{ PUSH1 0xff }";
//! let mut tokens = Vec::new();
//! push_token(&mut tokens, Kind::OpenBrace, 0, 1, 0);
//! push_token(&mut tokens, Kind::Opcode, 2, 7, 0x60);
//! push_token(&mut tokens, Kind::Literal, 8, 12, 0);
//! push_token(&mut tokens, Kind::CloseBrace, 13, 14, 0);
//! push_token(&mut tokens, Kind::Eof, 14, 14, 0);
//!
//! let mut room = Room::new();
//! let body = room.read_body(text, &tokens, 0)?;
//! assert_eq!(body.plain_length(), Some(2));
//! let texts: Vec<&[u8]> = body.statements().map(|statement| statement.value_text()).collect();
//! assert_eq!(texts, [&b"PUSH1"[..], &b"0xff"[..]]);
//!
//! // One past the opening brace there is no body.
//! let refused = room.read_body(text, &tokens, 1).unwrap_err();
//! assert_eq!((refused.refusal, refused.cursor), (Refusal::UnexpectedType, 1));
//! # Ok::<(), simmerotter::Refused>(())
//! ```

#![deny(missing_docs)]
#![deny(unsafe_code)]

mod body;
mod file;
pub mod kinds;
pub mod options;
pub mod raw;
mod reading;
pub mod records;
pub mod refusal;
pub mod reserved;
pub mod room;
mod table;
pub mod token;

pub use body::Body;
pub use file::File;
pub use kinds::Kind;
pub use options::{Edition, Mode, Options};
pub use records::{
    Argument, ArgumentForm, Arguments, Definition, DefinitionKind, Definitions, FunctionType, Location, Statement, StatementKind,
    Statements, Value,
};
pub use refusal::{Cursor, Refusal, Refused};
pub use reserved::ReservedType;
pub use room::Room;
pub use token::{push_token, token_at, TokenAt};

/// The longest text, in bytes.
pub const MAX_TEXT: usize = 1_048_576;

/// The most tokens of a list.
pub const MAX_TOKENS: usize = 65_536;

/// Words of a token: kind, start, end, extra.
pub const TOKEN_WORDS: usize = 4;

/// Words of a definition's record.
pub const DEFINITION_WORDS: usize = 14;

/// Words of a statement's record.
pub const STATEMENT_WORDS: usize = 8;

/// Words of an argument's record.
pub const ARGUMENT_WORDS: usize = 7;

/// Numbers of an answer: number, cursor, three counts, type, size.
pub const ANSWER_NUMBERS: usize = 7;

/// Stands in a record for a place that is absent, and in a body's answer for a plain length that it doesn't have.
pub const NONE: u32 = 4_294_967_295;

/// The examples of README.md, compiled and run with the other tests.
#[cfg(doctest)]
#[doc = include_str!("../README.md")]
pub struct Readme;
