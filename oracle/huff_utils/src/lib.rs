//! The types and helpers that the parser's source names and that can't be had.
//!
//! The parser (`../huff_parser/src/lib.rs`) is compiled unchanged against this crate. What stands
//! here is of two sorts:
//!
//! * shapes: names, variants and fields, which the parser's source fixes by the way it uses them;
//! * bodies that the source lacks. Each of these follows document 01 and carries the mark
//!   `FROM DOCUMENT 01`; where it does nothing because the port leaves the matter out, it carries
//!   the mark `LEFT OUT`. Agreement of the parser with document 01 in a marked body is no evidence:
//!   docs/DIFFERENCES.md lists them.

/// Tokens.
pub mod token {
    use crate::{evm::Opcode, prelude::Span, types::PrimitiveEVMType};
    use std::fmt;

    /// A token: its kind and where it stands.
    #[derive(Debug, Clone, PartialEq, Eq)]
    pub struct Token {
        /// The kind, with its data.
        pub kind: TokenKind,
        /// Where it stands.
        pub span: Span,
    }

    /// A literal's 32 bytes, the number's highest first.
    pub type Literal = [u8; 32];

    /// Kinds of tokens. The parser compares kinds by their variant alone.
    #[derive(Debug, Clone, PartialEq, Eq)]
    #[allow(missing_docs)]
    pub enum TokenKind {
        Eof,
        Whitespace,
        Comment(String),
        Include,
        Define,
        Pound,
        Macro,
        Fn,
        Test,
        Function,
        Event,
        Constant,
        Error,
        JumpTable,
        JumpTablePacked,
        CodeTable,
        Takes,
        Returns,
        View,
        Pure,
        Payable,
        NonPayable,
        Indexed,
        Calldata,
        Memory,
        Storage,
        Assign,
        OpenParen,
        CloseParen,
        OpenBrace,
        CloseBrace,
        OpenBracket,
        CloseBracket,
        LeftAngle,
        RightAngle,
        Comma,
        Colon,
        FreeStoragePointer,
        Ident(String),
        Label(String),
        Literal(Literal),
        Opcode(Opcode),
        Num(usize),
        Str(String),
        BuiltinFunction(String),
        PrimitiveType(PrimitiveEVMType),
        /// Named by the parser, never built here: array types are left out of the port.
        ArrayType(PrimitiveEVMType, Vec<usize>),
    }

    impl fmt::Display for TokenKind {
        /// FROM DOCUMENT 01: a name is its token's text, since the parser takes the names of
        /// macros, tables and arguments by this. Other kinds are shown only in hints and logs.
        fn fmt(&self, f: &mut fmt::Formatter<'_>) -> fmt::Result {
            match self {
                TokenKind::Ident(s) | TokenKind::Label(s) | TokenKind::BuiltinFunction(s) => {
                    f.write_str(s)
                }
                other => write!(f, "{other:?}"),
            }
        }
    }
}

/// Opcodes.
pub mod evm {
    use std::fmt;

    /// An opcode is its byte. (The repository's enum lacks some bytes; this holds them all.)
    #[derive(Debug, Clone, Copy, PartialEq, Eq)]
    pub struct Opcode(pub u8);

    impl Opcode {
        /// FROM DOCUMENT 01: value pushes are the bytes 0x60 to 0x7f.
        pub fn is_value_push(&self) -> bool {
            (0x60..=0x7f).contains(&self.0)
        }

        /// FROM DOCUMENT 01: a literal fits if its significant bytes (zero has 1) are at most
        /// n = byte - 0x5f. The text is that of `bytes32_to_string`, without a prefix.
        pub fn push_overflows(&self, literal: &str) -> bool {
            let digits = literal.trim_start_matches('0').len();
            let bytes = std::cmp::max(1, (digits + 1) / 2);
            bytes > usize::from(self.0 - 0x5f)
        }
    }

    impl fmt::Display for Opcode {
        fn fmt(&self, f: &mut fmt::Formatter<'_>) -> fmt::Result {
            write!(f, "{:02x}", self.0)
        }
    }
}

/// Types of values.
pub mod types {
    use std::fmt;

    /// A type of the virtual machine.
    #[derive(Debug, Clone, PartialEq, Eq)]
    #[allow(missing_docs)]
    pub enum PrimitiveEVMType {
        Uint(usize),
        Int(usize),
        Bytes(usize),
        Bool,
        Address,
        String,
        DynBytes,
    }

    impl fmt::Display for PrimitiveEVMType {
        fn fmt(&self, f: &mut fmt::Formatter<'_>) -> fmt::Result {
            write!(f, "{self:?}")
        }
    }

    impl TryFrom<String> for PrimitiveEVMType {
        type Error = ();

        /// FROM DOCUMENT 01: the reserved names, exactly those of its list.
        fn try_from(name: String) -> Result<Self, ()> {
            match name.as_str() {
                "address" => return Ok(Self::Address),
                "bool" => return Ok(Self::Bool),
                "string" => return Ok(Self::String),
                "bytes" => return Ok(Self::DynBytes),
                "uint" => return Ok(Self::Uint(256)),
                "int" => return Ok(Self::Int(256)),
                _ => {}
            }
            for k in 1..=32usize {
                if name == format!("uint{}", 8 * k) {
                    return Ok(Self::Uint(8 * k));
                }
                if name == format!("int{}", 8 * k) {
                    return Ok(Self::Int(8 * k));
                }
                if name == format!("bytes{k}") {
                    return Ok(Self::Bytes(k));
                }
            }
            Err(())
        }
    }
}

/// The nodes that the parser builds.
pub mod ast {
    pub use crate::token::Literal;
    use crate::{evm::Opcode, prelude::Span, token::TokenKind};
    use std::{
        ops::Index,
        path::PathBuf,
        sync::{Arc, Mutex},
    };

    /// A path to a file.
    pub type FilePath = PathBuf;

    /// Spans of a node.
    #[derive(Debug, Clone, Default, PartialEq, Eq)]
    pub struct AstSpan(pub Vec<Span>);

    impl AstSpan {
        /// The spans themselves.
        pub fn inner_ref(&self) -> &Vec<Span> {
            &self.0
        }
    }

    impl Index<usize> for AstSpan {
        type Output = Span;
        fn index(&self, i: usize) -> &Span {
            &self.0[i]
        }
    }

    /// A file.
    #[derive(Debug, Default, Clone)]
    #[allow(missing_docs)]
    pub struct Contract {
        pub macros: Vec<MacroDefinition>,
        pub imports: Vec<FilePath>,
        pub constants: Arc<Mutex<Vec<ConstantDefinition>>>,
        pub errors: Vec<ErrorDefinition>,
        pub functions: Vec<FunctionDefinition>,
        pub events: Vec<EventDefinition>,
        pub tables: Vec<TableDefinition>,
    }

    /// Where an argument's data lies.
    #[derive(Debug, Clone, Copy, PartialEq, Eq)]
    #[allow(missing_docs)]
    pub enum ArgumentLocation {
        Memory,
        Storage,
        Calldata,
    }

    /// A declared argument, or one of a builtin.
    #[derive(Debug, Clone, Default, PartialEq, Eq)]
    #[allow(missing_docs)]
    pub struct Argument {
        pub arg_type: Option<String>,
        pub arg_location: Option<ArgumentLocation>,
        pub name: Option<String>,
        pub indexed: bool,
        pub span: AstSpan,
    }

    /// A function's type.
    #[derive(Debug, Clone, Copy, PartialEq, Eq)]
    #[allow(missing_docs)]
    pub enum FunctionType {
        View,
        Pure,
        Payable,
        NonPayable,
    }

    /// A function.
    #[derive(Debug, Clone, PartialEq, Eq)]
    #[allow(missing_docs)]
    pub struct FunctionDefinition {
        pub name: String,
        pub signature: [u8; 4],
        pub inputs: Vec<Argument>,
        pub fn_type: FunctionType,
        pub outputs: Vec<Argument>,
        pub span: AstSpan,
    }

    /// An event.
    #[derive(Debug, Clone, PartialEq, Eq)]
    #[allow(missing_docs)]
    pub struct EventDefinition {
        pub name: String,
        pub parameters: Vec<Argument>,
        pub span: AstSpan,
        pub hash: Literal,
    }

    /// A custom error.
    #[derive(Debug, Clone, PartialEq, Eq)]
    #[allow(missing_docs)]
    pub struct ErrorDefinition {
        pub name: String,
        pub selector: [u8; 4],
        pub parameters: Vec<Argument>,
        pub span: AstSpan,
    }

    /// The free storage pointer.
    #[derive(Debug, Clone, PartialEq, Eq)]
    pub struct FreeStoragePointer {}

    /// A constant's value.
    #[derive(Debug, Clone, PartialEq, Eq)]
    #[allow(missing_docs)]
    pub enum ConstVal {
        Literal(Literal),
        FreeStoragePointer(FreeStoragePointer),
    }

    /// A constant.
    #[derive(Debug, Clone, PartialEq, Eq)]
    #[allow(missing_docs)]
    pub struct ConstantDefinition {
        pub name: String,
        pub value: ConstVal,
        pub span: AstSpan,
    }

    /// A decorator's flag.
    #[derive(Debug, Clone, PartialEq, Eq)]
    #[allow(missing_docs)]
    pub enum DecoratorFlag {
        Calldata(String),
        Value(Literal),
    }

    impl TryFrom<&String> for DecoratorFlag {
        type Error = ();

        /// LEFT OUT: decorators are no part of the port. The two names are a guess from the
        /// variants, so that a decorator can be seen to be read.
        fn try_from(name: &String) -> Result<Self, ()> {
            match name.as_str() {
                "calldata" => Ok(Self::Calldata(String::new())),
                "value" => Ok(Self::Value([0; 32])),
                _ => Err(()),
            }
        }
    }

    /// A decorator.
    #[derive(Debug, Clone, PartialEq, Eq)]
    #[allow(missing_docs)]
    pub struct Decorator {
        pub flags: Vec<DecoratorFlag>,
    }

    /// A macro, fn or test.
    #[derive(Debug, Clone, PartialEq, Eq)]
    #[allow(missing_docs)]
    pub struct MacroDefinition {
        pub name: String,
        pub decorator: Option<Decorator>,
        pub parameters: Vec<Argument>,
        pub statements: Vec<Statement>,
        pub takes: usize,
        pub returns: usize,
        pub span: AstSpan,
        pub outlined: bool,
        pub test: bool,
    }

    impl MacroDefinition {
        /// The parts, put together.
        #[allow(clippy::too_many_arguments)]
        pub fn new(
            name: String,
            decorator: Option<Decorator>,
            parameters: Vec<Argument>,
            statements: Vec<Statement>,
            takes: usize,
            returns: usize,
            spans: Vec<Span>,
            outlined: bool,
            test: bool,
        ) -> Self {
            let span = AstSpan(spans);
            Self { name, decorator, parameters, statements, takes, returns, span, outlined, test }
        }
    }

    /// A table's kind.
    #[derive(Debug, Clone, Copy, PartialEq, Eq)]
    #[allow(missing_docs)]
    pub enum TableKind {
        JumpTable,
        JumpTablePacked,
        CodeTable,
    }

    impl From<TokenKind> for TableKind {
        /// FROM DOCUMENT 01: each of the three keywords is its own table.
        fn from(kind: TokenKind) -> Self {
            match kind {
                TokenKind::JumpTable => Self::JumpTable,
                TokenKind::JumpTablePacked => Self::JumpTablePacked,
                TokenKind::CodeTable => Self::CodeTable,
                other => panic!("no table: {other}"),
            }
        }
    }

    /// A table.
    #[derive(Debug, Clone, PartialEq, Eq)]
    #[allow(missing_docs)]
    pub struct TableDefinition {
        pub name: String,
        pub kind: TableKind,
        pub statements: Vec<Statement>,
        pub size: Literal,
        pub span: AstSpan,
    }

    impl TableDefinition {
        /// The parts, put together.
        pub fn new(
            name: String,
            kind: TableKind,
            statements: Vec<Statement>,
            size: Literal,
            span: AstSpan,
        ) -> Self {
            Self { name, kind, statements, size, span }
        }
    }

    /// An argument of a macro's call.
    #[derive(Debug, Clone, PartialEq, Eq)]
    #[allow(missing_docs)]
    pub enum MacroArg {
        Literal(Literal),
        Ident(String),
        ArgCall(String),
    }

    /// A macro's call.
    #[derive(Debug, Clone, PartialEq, Eq)]
    #[allow(missing_docs)]
    pub struct MacroInvocation {
        pub macro_name: String,
        pub args: Vec<MacroArg>,
        pub span: AstSpan,
    }

    /// A label with what belongs to it.
    #[derive(Debug, Clone, PartialEq, Eq)]
    #[allow(missing_docs)]
    pub struct Label {
        pub name: String,
        pub inner: Vec<Statement>,
        pub span: AstSpan,
    }

    /// A builtin's kind: its name.
    #[derive(Debug, Clone, PartialEq, Eq)]
    pub struct BuiltinFunctionKind(pub String);

    impl From<String> for BuiltinFunctionKind {
        /// FROM DOCUMENT 01: a builtin's name isn't tested.
        fn from(name: String) -> Self {
            Self(name)
        }
    }

    /// A builtin's call.
    #[derive(Debug, Clone, PartialEq, Eq)]
    #[allow(missing_docs)]
    pub struct BuiltinFunctionCall {
        pub kind: BuiltinFunctionKind,
        pub args: Vec<Argument>,
        pub span: AstSpan,
    }

    /// What a statement is.
    #[derive(Debug, Clone, PartialEq, Eq)]
    #[allow(missing_docs)]
    pub enum StatementType {
        Literal(Literal),
        Opcode(Opcode),
        Code(String),
        MacroInvocation(MacroInvocation),
        Constant(String),
        ArgCall(String),
        LabelCall(String),
        Label(Label),
        BuiltinFunctionCall(BuiltinFunctionCall),
    }

    /// A statement.
    #[derive(Debug, Clone, PartialEq, Eq)]
    #[allow(missing_docs)]
    pub struct Statement {
        pub ty: StatementType,
        pub span: AstSpan,
    }
}

/// Refusals.
pub mod error {
    use crate::{ast::AstSpan, evm::Opcode, token::TokenKind};

    /// A refusal.
    #[derive(Debug, Clone, PartialEq, Eq)]
    #[allow(missing_docs)]
    pub struct ParserError {
        pub kind: ParserErrorKind,
        pub hint: Option<String>,
        pub spans: AstSpan,
        pub cursor: usize,
    }

    /// The kinds of refusals.
    #[derive(Debug, Clone, PartialEq, Eq)]
    #[allow(missing_docs)]
    pub enum ParserErrorKind {
        UnexpectedType(TokenKind),
        InvalidDefinition(TokenKind),
        InvalidName(TokenKind),
        InvalidConstantValue(TokenKind),
        InvalidPush(Opcode),
        InvalidTokenInMacroBody(TokenKind),
        InvalidTokenInLabelDefinition(TokenKind),
        InvalidTypeAsArgumentName(TokenKind),
        InvalidArgs(TokenKind),
        InvalidSingleArg(TokenKind),
        InvalidMacroArgs(TokenKind),
        InvalidTableBodyToken(TokenKind),
        InvalidConstant(TokenKind),
        InvalidArgCallIdent(TokenKind),
        DuplicateMacro(String),
        InvalidDecoratorFlag(String),
        InvalidDecoratorFlagArg(TokenKind),
        InvalidUint256(usize),
        InvalidInt(usize),
        InvalidBytes(usize),
    }
}

/// Files.
pub mod files {
    /// LEFT OUT: file remapping is no part of the port.
    #[derive(Debug, Clone)]
    pub struct Remapper;

    impl Remapper {
        /// Nothing to hold.
        pub fn new(_root: &str) -> Self {
            Self
        }
    }
}

/// Helpers.
pub mod prelude {
    /// Where a token stands. `start` is the token's place in the kept list, so that places can be
    /// read out of the nodes; the parser only copies spans and compares them.
    #[derive(Debug, Clone, Default, PartialEq, Eq)]
    #[allow(missing_docs)]
    pub struct Span {
        pub start: usize,
        pub end: usize,
    }

    /// LEFT OUT: hashes are no part of the port, the bytes stay as they are.
    pub fn hash_bytes(_dest: &mut [u8], _text: &str) {}

    /// FROM DOCUMENT 01: the hex digits of the number, whole bytes, without the leading zero bytes;
    /// zero is one byte.
    pub fn bytes32_to_string(bytes: &[u8; 32], prefixed: bool) -> String {
        let first = bytes.iter().position(|b| *b != 0).unwrap_or(31);
        let mut text = String::from(if prefixed { "0x" } else { "" });
        for b in &bytes[first..] {
            text.push(char::from_digit(u32::from(b >> 4), 16).unwrap());
            text.push(char::from_digit(u32::from(b & 15), 16).unwrap());
        }
        text
    }

    /// FROM DOCUMENT 01: the number that the hex digits say, at most 64 of them, low end last.
    pub fn str_to_bytes32(digits: &str) -> [u8; 32] {
        let mut bytes = [0u8; 32];
        for (i, c) in digits.bytes().rev().enumerate() {
            let worth = (c as char).to_digit(16).unwrap() as u8;
            bytes[31 - i / 2] |= worth << (4 * (i % 2));
        }
        bytes
    }
}
