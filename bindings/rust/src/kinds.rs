//! The kinds of token.

use std::fmt;

/// What a token is. The numbers count from 0 in this order.
#[derive(Clone, Copy, Debug, PartialEq, Eq, Hash, PartialOrd, Ord)]
pub enum Kind {
    /// The end of the file.
    Eof,
    /// Spaces and line ends; dropped.
    Whitespace,
    /// A comment; dropped.
    Comment,
    /// `#include`.
    Include,
    /// `#define`.
    Define,
    /// `#` alone.
    Pound,
    /// `macro`.
    Macro,
    /// `fn`.
    Fn,
    /// `test`.
    Test,
    /// `function`.
    Function,
    /// `event`.
    Event,
    /// `constant`.
    Constant,
    /// `error`.
    Error,
    /// `jumptable`.
    JumpTable,
    /// `jumptable__packed`.
    JumpTablePacked,
    /// `table`.
    CodeTable,
    /// `takes`.
    Takes,
    /// `returns`.
    Returns,
    /// `view`.
    View,
    /// `pure`.
    Pure,
    /// `payable`.
    Payable,
    /// `nonpayable`.
    NonPayable,
    /// `indexed`.
    Indexed,
    /// `calldata`.
    Calldata,
    /// `memory`.
    Memory,
    /// `storage`.
    Storage,
    /// `=`.
    Assign,
    /// `(`.
    OpenParen,
    /// `)`.
    CloseParen,
    /// `{`.
    OpenBrace,
    /// `}`.
    CloseBrace,
    /// `[`.
    OpenBracket,
    /// `]`.
    CloseBracket,
    /// `<`.
    LeftAngle,
    /// `>`.
    RightAngle,
    /// `,`.
    Comma,
    /// `:`.
    Colon,
    /// `FREE_STORAGE_POINTER()`.
    FreeStoragePointer,
    /// A name; never empty.
    Ident,
    /// A label's name; never empty.
    Label,
    /// `0x` and 1 to 64 hex digits.
    Literal,
    /// An opcode; the extra word is its byte.
    Opcode,
    /// A number; the extra word is its value.
    Num,
    /// A string.
    Str,
    /// A builtin function's name.
    BuiltinFunction,
    /// A type such as `uint256`.
    PrimitiveType,
}

impl Kind {
    /// Every kind, in the order of the numbers.
    pub const ALL: [Kind; 46] = [
        Kind::Eof,
        Kind::Whitespace,
        Kind::Comment,
        Kind::Include,
        Kind::Define,
        Kind::Pound,
        Kind::Macro,
        Kind::Fn,
        Kind::Test,
        Kind::Function,
        Kind::Event,
        Kind::Constant,
        Kind::Error,
        Kind::JumpTable,
        Kind::JumpTablePacked,
        Kind::CodeTable,
        Kind::Takes,
        Kind::Returns,
        Kind::View,
        Kind::Pure,
        Kind::Payable,
        Kind::NonPayable,
        Kind::Indexed,
        Kind::Calldata,
        Kind::Memory,
        Kind::Storage,
        Kind::Assign,
        Kind::OpenParen,
        Kind::CloseParen,
        Kind::OpenBrace,
        Kind::CloseBrace,
        Kind::OpenBracket,
        Kind::CloseBracket,
        Kind::LeftAngle,
        Kind::RightAngle,
        Kind::Comma,
        Kind::Colon,
        Kind::FreeStoragePointer,
        Kind::Ident,
        Kind::Label,
        Kind::Literal,
        Kind::Opcode,
        Kind::Num,
        Kind::Str,
        Kind::BuiltinFunction,
        Kind::PrimitiveType,
    ];

    /// The kind's number in a token's first word.
    pub fn number(self) -> u32 {
        self as u32
    }

    /// The kind of a number, if there is one.
    pub fn from_number(number: u32) -> Option<Kind> {
        Kind::ALL.get(usize::try_from(number).ok()?).copied()
    }

    /// Whether tokens of this kind are left out of the kept list.
    pub fn is_dropped(self) -> bool {
        matches!(self, Kind::Whitespace | Kind::Comment)
    }

    /// The kind's name.
    pub fn name(self) -> &'static str {
        match self {
            Kind::Eof => "Eof",
            Kind::Whitespace => "Whitespace",
            Kind::Comment => "Comment",
            Kind::Include => "Include",
            Kind::Define => "Define",
            Kind::Pound => "Pound",
            Kind::Macro => "Macro",
            Kind::Fn => "Fn",
            Kind::Test => "Test",
            Kind::Function => "Function",
            Kind::Event => "Event",
            Kind::Constant => "Constant",
            Kind::Error => "Error",
            Kind::JumpTable => "JumpTable",
            Kind::JumpTablePacked => "JumpTablePacked",
            Kind::CodeTable => "CodeTable",
            Kind::Takes => "Takes",
            Kind::Returns => "Returns",
            Kind::View => "View",
            Kind::Pure => "Pure",
            Kind::Payable => "Payable",
            Kind::NonPayable => "NonPayable",
            Kind::Indexed => "Indexed",
            Kind::Calldata => "Calldata",
            Kind::Memory => "Memory",
            Kind::Storage => "Storage",
            Kind::Assign => "Assign",
            Kind::OpenParen => "OpenParen",
            Kind::CloseParen => "CloseParen",
            Kind::OpenBrace => "OpenBrace",
            Kind::CloseBrace => "CloseBrace",
            Kind::OpenBracket => "OpenBracket",
            Kind::CloseBracket => "CloseBracket",
            Kind::LeftAngle => "LeftAngle",
            Kind::RightAngle => "RightAngle",
            Kind::Comma => "Comma",
            Kind::Colon => "Colon",
            Kind::FreeStoragePointer => "FreeStoragePointer",
            Kind::Ident => "Ident",
            Kind::Label => "Label",
            Kind::Literal => "Literal",
            Kind::Opcode => "Opcode",
            Kind::Num => "Num",
            Kind::Str => "Str",
            Kind::BuiltinFunction => "BuiltinFunction",
            Kind::PrimitiveType => "PrimitiveType",
        }
    }
}

impl fmt::Display for Kind {
    fn fmt(&self, f: &mut fmt::Formatter<'_>) -> fmt::Result {
        f.write_str(self.name())
    }
}
