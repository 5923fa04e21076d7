//! The types whose names no argument may have.

use std::fmt;

/// A type, and how large it is where its name says so. [`ReservedType::number`] and [`ReservedType::size`] have the numbers of the
/// archive.
#[derive(Clone, Copy, Debug, PartialEq, Eq, Hash, PartialOrd, Ord)]
pub enum ReservedType {
    /// 1. `address`.
    Address,
    /// 2. `bool`.
    Bool,
    /// 3. `string`.
    String,
    /// 4. `bytes`, without a number behind it.
    Bytes,
    /// 5. `uint8`, `uint16` .. `uint256`, with its bits; `uint` alone is `uint256`.
    Uint(u16),
    /// 6. `int8`, `int16` .. `int256`, with its bits; `int` alone is `int256`.
    Int(u16),
    /// 7. `bytes1` .. `bytes32`, with its bytes.
    BytesN(u8),
}

impl ReservedType {
    /// The type of an answer's last two numbers; nothing for 0 and 0, and for two numbers that no type has.
    pub fn from_numbers(number: u64, size: u64) -> Option<ReservedType> {
        match (number, size) {
            (1, 0) => Some(ReservedType::Address),
            (2, 0) => Some(ReservedType::Bool),
            (3, 0) => Some(ReservedType::String),
            (4, 0) => Some(ReservedType::Bytes),
            (5, _) => bits(size).map(ReservedType::Uint),
            (6, _) => bits(size).map(ReservedType::Int),
            (7, 1..=32) => u8::try_from(size).ok().map(ReservedType::BytesN),
            _ => None,
        }
    }

    /// The type's number: 1 to 7.
    pub fn number(self) -> u32 {
        match self {
            ReservedType::Address => 1,
            ReservedType::Bool => 2,
            ReservedType::String => 3,
            ReservedType::Bytes => 4,
            ReservedType::Uint(_) => 5,
            ReservedType::Int(_) => 6,
            ReservedType::BytesN(_) => 7,
        }
    }

    /// The type's size: bits of `Uint` and `Int`, bytes of `BytesN`, else 0.
    pub fn size(self) -> u32 {
        match self {
            ReservedType::Uint(bits) | ReservedType::Int(bits) => u32::from(bits),
            ReservedType::BytesN(bytes) => u32::from(bytes),
            _ => 0,
        }
    }

    /// What the type holds: `unsigned, 256 bits`.
    pub fn in_words(self) -> String {
        match self {
            ReservedType::Address => "an address".to_string(),
            ReservedType::Bool => "true or false".to_string(),
            ReservedType::String => "text".to_string(),
            ReservedType::Bytes => "bytes of any length".to_string(),
            ReservedType::Uint(bits) => format!("unsigned, {} bits", bits),
            ReservedType::Int(bits) => format!("signed, {} bits", bits),
            ReservedType::BytesN(1) => "1 byte".to_string(),
            ReservedType::BytesN(bytes) => format!("{} bytes", bytes),
        }
    }
}

/// The bits that a `uint` or an `int` can have: 8, 16 .. 256.
fn bits(size: u64) -> Option<u16> {
    u16::try_from(size).ok().filter(|bits| (8..=256).contains(bits) && bits % 8 == 0)
}

/// The type's name, with its size if it has one: `uint256` for `uint` too.
impl fmt::Display for ReservedType {
    fn fmt(&self, f: &mut fmt::Formatter<'_>) -> fmt::Result {
        match self {
            ReservedType::Address => f.write_str("address"),
            ReservedType::Bool => f.write_str("bool"),
            ReservedType::String => f.write_str("string"),
            ReservedType::Bytes => f.write_str("bytes"),
            ReservedType::Uint(bits) => write!(f, "uint{}", bits),
            ReservedType::Int(bits) => write!(f, "int{}", bits),
            ReservedType::BytesN(bytes) => write!(f, "bytes{}", bytes),
        }
    }
}

#[cfg(test)]
mod tests {
    use super::*;
    use std::collections::HashSet;

    #[test]
    fn two_numbers_are_a_type_where_a_rule_has_them() {
        let mut names = HashSet::new();
        for (number, size) in (0..10).flat_map(|number| (0..600).map(move |size| (number, size))) {
            let is_type = match number {
                1..=4 => size == 0,
                5 | 6 => size != 0 && size <= 256 && size % 8 == 0,
                7 => size != 0 && size <= 32,
                _ => false,
            };
            let found = ReservedType::from_numbers(number, size);
            assert_eq!(found.is_some(), is_type, "{} {}", number, size);
            if let Some(found) = found {
                assert_eq!((u64::from(found.number()), u64::from(found.size())), (number, size));
                names.insert(found.to_string());
            }
        }
        // The 102 names but `uint` and `int`, which are `uint256` and `int256`.
        assert_eq!(names.len(), 100);
    }

    /// The low bits of each are a type's.
    #[test]
    fn numbers_beyond_their_bits_are_no_type() {
        for (number, size) in [(1 << 32 | 1, 0), (1, 1 << 32), (5, 1 << 16 | 8), (6, 1 << 32 | 8), (7, 1 << 8 | 1)] {
            assert_eq!(ReservedType::from_numbers(number, size), None, "{} {}", number, size);
        }
    }

    #[test]
    fn each_type_has_its_name_and_its_words() {
        for (number, size, name, words) in [
            (1, 0, "address", "an address"),
            (2, 0, "bool", "true or false"),
            (3, 0, "string", "text"),
            (4, 0, "bytes", "bytes of any length"),
            (5, 256, "uint256", "unsigned, 256 bits"),
            (5, 8, "uint8", "unsigned, 8 bits"),
            (6, 16, "int16", "signed, 16 bits"),
            (7, 1, "bytes1", "1 byte"),
            (7, 2, "bytes2", "2 bytes"),
            (7, 32, "bytes32", "32 bytes"),
        ] {
            let found = ReservedType::from_numbers(number, size).expect(name);
            assert_eq!((found.to_string(), found.in_words()), (name.to_string(), words.to_string()));
        }
    }
}
