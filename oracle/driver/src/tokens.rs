//! The lent token list: whether it is well formed, what is kept of it, and its tokens as the Rust
//! holds them. The first two are document 01's; the Rust has no such door.

use huff_utils::{
    evm::Opcode,
    prelude::Span,
    token::{Token, TokenKind},
    types::PrimitiveEVMType,
};

const WHITESPACE: u32 = 1;
const COMMENT: u32 = 2;
const IDENT: u32 = 38;
const LABEL: u32 = 39;
const LITERAL: u32 = 40;
const OPCODE: u32 = 41;
const NUM: u32 = 42;
const LAST_KIND: u32 = 45;

/// The cursor of 30, if the list isn't well formed.
pub fn first_bad(text: &[u8], words: &[u32]) -> Option<usize> {
    let count = words.len() / 4;
    if text.len() > 1_048_576 || words.len() % 4 != 0 || count == 0 || count > 65_536 {
        return Some(0);
    }
    let mut before = 0;
    for (number, token) in words.chunks(4).enumerate() {
        let (kind, start, end, extra) = (token[0], token[1] as usize, token[2] as usize, token[3]);
        let ranged = before <= start && start <= end && end <= text.len();
        let is_last = number + 1 == count;
        if kind > LAST_KIND || !ranged || (kind == 0) != is_last {
            return Some(number);
        }
        let own = &text[start..end];
        let fine = match kind {
            IDENT | LABEL => !own.is_empty() && extra == 0,
            LITERAL => is_literal(own) && extra == 0,
            OPCODE => extra <= 255,
            NUM => true,
            _ => extra == 0,
        };
        if !fine {
            return Some(number);
        }
        before = end;
    }
    None
}

fn is_literal(own: &[u8]) -> bool {
    (3..=66).contains(&own.len())
        && &own[..2] == b"0x"
        && own[2..].iter().all(u8::is_ascii_hexdigit)
}

/// The numbers of the tokens that are kept.
pub fn kept(words: &[u32]) -> Vec<u32> {
    let is_kept = |t: &&[u32]| t[0] != WHITESPACE && t[0] != COMMENT;
    let numbered = words.chunks_exact(4).enumerate();
    numbered.filter(|(_, t)| is_kept(t)).map(|(n, _)| n as u32).collect()
}

/// Start and end of a token in the text, in bytes.
pub type Range = [u32; 2];

/// The ranges of the tokens that are kept.
pub fn ranges(words: &[u32]) -> Vec<Range> {
    let range = |n: u32| [words[4 * n as usize + 1], words[4 * n as usize + 2]];
    kept(words).into_iter().map(range).collect()
}

/// The tokens as the Rust holds them, all of them: dropping is the Rust's work. None if it can't
/// hold one. A span is the token's place in the kept list.
pub fn build(text: &[u8], words: &[u32]) -> Option<Vec<Token>> {
    let mut place = 0;
    let mut list = Vec::with_capacity(words.len() / 4);
    for t in words.chunks_exact(4) {
        let own = text.get(t[1] as usize..t[2] as usize)?;
        let kind = kind(t[0], own, t[3])?;
        let span = Span { start: place, end: place + 1 };
        if t[0] != WHITESPACE && t[0] != COMMENT {
            place += 1;
        }
        list.push(Token { kind, span });
    }
    Some(list)
}

fn kind(number: u32, own: &[u8], extra: u32) -> Option<TokenKind> {
    use TokenKind::*;
    let string = || std::str::from_utf8(own).ok().map(str::to_string);
    Some(match number {
        0 => Eof,
        1 => Whitespace,
        2 => Comment(string()?),
        3 => Include,
        4 => Define,
        5 => Pound,
        6 => Macro,
        7 => Fn,
        8 => Test,
        9 => Function,
        10 => Event,
        11 => Constant,
        12 => Error,
        13 => JumpTable,
        14 => JumpTablePacked,
        15 => CodeTable,
        16 => Takes,
        17 => Returns,
        18 => View,
        19 => Pure,
        20 => Payable,
        21 => NonPayable,
        22 => Indexed,
        23 => Calldata,
        24 => Memory,
        25 => Storage,
        26 => Assign,
        27 => OpenParen,
        28 => CloseParen,
        29 => OpenBrace,
        30 => CloseBrace,
        31 => OpenBracket,
        32 => CloseBracket,
        33 => LeftAngle,
        34 => RightAngle,
        35 => Comma,
        36 => Colon,
        37 => FreeStoragePointer,
        38 => Ident(string()?),
        39 => Label(string()?),
        40 => Literal(literal(own)?),
        41 => Opcode(self::Opcode(u8::try_from(extra).ok()?)),
        42 => Num(extra as usize),
        43 => Str(string()?),
        44 => BuiltinFunction(string()?),
        45 => PrimitiveType(primitive(std::str::from_utf8(own).ok()?)?),
        _ => return None,
    })
}

fn literal(own: &[u8]) -> Option<[u8; 32]> {
    if !is_literal(own) {
        return None;
    }
    let mut bytes = [0u8; 32];
    for (i, digit) in own[2..].iter().rev().enumerate() {
        bytes[31 - i / 2] |= ((*digit as char).to_digit(16)? as u8) << (4 * (i % 2));
    }
    Some(bytes)
}

/// The type that a token's text names. Any size is taken, so that the Rust's own test of sizes is
/// reached; this is not the shim's list of reserved names.
fn primitive(text: &str) -> Option<PrimitiveEVMType> {
    let size = |digits: &str| {
        let plain = !digits.is_empty() && digits.bytes().all(|b| b.is_ascii_digit());
        plain.then(|| digits.parse::<usize>().ok()).flatten()
    };
    Some(match text {
        "address" => PrimitiveEVMType::Address,
        "bool" => PrimitiveEVMType::Bool,
        "string" => PrimitiveEVMType::String,
        "bytes" => PrimitiveEVMType::DynBytes,
        "uint" => PrimitiveEVMType::Uint(256),
        "int" => PrimitiveEVMType::Int(256),
        _ => {
            if let Some(digits) = text.strip_prefix("uint") {
                PrimitiveEVMType::Uint(size(digits)?)
            } else if let Some(digits) = text.strip_prefix("int") {
                PrimitiveEVMType::Int(size(digits)?)
            } else {
                PrimitiveEVMType::Bytes(size(text.strip_prefix("bytes")?)?)
            }
        }
    })
}
