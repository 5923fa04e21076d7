//! Why input is refused.

use crate::raw::Answer;
use crate::reserved::ReservedType;
use std::fmt;

/// The reason of a refusal, with the numbers of the archive.
#[derive(Clone, Copy, Debug, PartialEq, Eq, Hash, PartialOrd, Ord)]
pub enum Refusal {
    /// 1. Another kind of token was required.
    UnexpectedType,
    /// 2. `#define` is followed by nothing that can be defined.
    InvalidDefinition,
    /// 3. A constant's value is neither a literal nor the free storage pointer.
    InvalidConstantValue,
    /// 4. A push has no literal, or one that is too large for it. Under a label in [`Mode::Strict`](crate::Mode::Strict) alone.
    InvalidPush,
    /// 5. A token that can't stand in a macro's body.
    InvalidTokenInMacroBody,
    /// 6. A token that can't stand in a label's body.
    InvalidTokenInLabelDefinition,
    /// 7. A type's name in the place of an argument's name; [`Refused::reserved_type`] says which type's.
    InvalidTypeAsArgumentName,
    /// 8. A token that can't stand in a list of arguments.
    InvalidArgs,
    /// 9. `takes` or `returns` without a number.
    InvalidSingleArg,
    /// 10. A token that can't stand among the arguments of an invocation.
    InvalidMacroArgs,
    /// 11. A token that can't stand in a table.
    InvalidTableBodyToken,
    /// 12. `[` without a constant's name.
    InvalidConstant,
    /// 13. `<` without an argument's name.
    InvalidArgCallIdent,
    /// 20. A macro, fn or test is named like an earlier one.
    RepeatedName,
    /// 21. `#` alone outside of definitions.
    PoundAtTopLevel,
    /// 22. A label is named like an earlier one of its body. In [`Mode::Strict`](crate::Mode::Strict) alone.
    DuplicateLabel,
    /// 30. The text is too long, or the token list is not well formed.
    NotWellFormed,
    /// 31. The body's start is not below the number of kept tokens.
    StartOutside,
    /// 32. The definition table has too few records. A [`Room`](crate::Room) never answers so.
    DefinitionsTooSmall,
    /// 33. The statement table has too few records. A [`Room`](crate::Room) never answers so.
    StatementsTooSmall,
    /// 34. The argument table has too few records. A [`Room`](crate::Room) never answers so.
    ArgumentsTooSmall,
    /// 35. The kept list is too short. A [`Room`](crate::Room) never answers so.
    KeptTooShort,
    /// 36. No mode has the number that was given. A [`Room`](crate::Room) never answers so.
    UnknownMode,
    /// 38. No edition has the number that was given for a body. A [`Room`](crate::Room) never answers so.
    UnknownEdition,
    /// A number that this crate does not know, which an archive of another version may give.
    Unknown(u32),
}

/// What a refusal's cursor counts.
#[derive(Clone, Copy, Debug, PartialEq, Eq, Hash)]
pub enum Cursor {
    /// A place: an index among the kept tokens (1 to 22).
    Place,
    /// A token's number in the token list as lent, or 0 if the list as a whole or the text is at fault (30).
    Token,
    /// The start that the caller gave (31).
    Start,
    /// How many records, or words of the kept list, are needed (32 to 35).
    Needed,
    /// Nothing: it is 0 (36 and 38).
    Nothing,
}

impl Refusal {
    /// Every refusal of the rules, in the order of the numbers.
    pub const ALL: [Refusal; 24] = [
        Refusal::UnexpectedType,
        Refusal::InvalidDefinition,
        Refusal::InvalidConstantValue,
        Refusal::InvalidPush,
        Refusal::InvalidTokenInMacroBody,
        Refusal::InvalidTokenInLabelDefinition,
        Refusal::InvalidTypeAsArgumentName,
        Refusal::InvalidArgs,
        Refusal::InvalidSingleArg,
        Refusal::InvalidMacroArgs,
        Refusal::InvalidTableBodyToken,
        Refusal::InvalidConstant,
        Refusal::InvalidArgCallIdent,
        Refusal::RepeatedName,
        Refusal::PoundAtTopLevel,
        Refusal::DuplicateLabel,
        Refusal::NotWellFormed,
        Refusal::StartOutside,
        Refusal::DefinitionsTooSmall,
        Refusal::StatementsTooSmall,
        Refusal::ArgumentsTooSmall,
        Refusal::KeptTooShort,
        Refusal::UnknownMode,
        Refusal::UnknownEdition,
    ];

    /// The refusal's number.
    pub fn number(self) -> u32 {
        match self {
            Refusal::UnexpectedType => 1,
            Refusal::InvalidDefinition => 2,
            Refusal::InvalidConstantValue => 3,
            Refusal::InvalidPush => 4,
            Refusal::InvalidTokenInMacroBody => 5,
            Refusal::InvalidTokenInLabelDefinition => 6,
            Refusal::InvalidTypeAsArgumentName => 7,
            Refusal::InvalidArgs => 8,
            Refusal::InvalidSingleArg => 9,
            Refusal::InvalidMacroArgs => 10,
            Refusal::InvalidTableBodyToken => 11,
            Refusal::InvalidConstant => 12,
            Refusal::InvalidArgCallIdent => 13,
            Refusal::RepeatedName => 20,
            Refusal::PoundAtTopLevel => 21,
            Refusal::DuplicateLabel => 22,
            Refusal::NotWellFormed => 30,
            Refusal::StartOutside => 31,
            Refusal::DefinitionsTooSmall => 32,
            Refusal::StatementsTooSmall => 33,
            Refusal::ArgumentsTooSmall => 34,
            Refusal::KeptTooShort => 35,
            Refusal::UnknownMode => 36,
            Refusal::UnknownEdition => 38,
            Refusal::Unknown(number) => number,
        }
    }

    /// The refusal of a number, if the rules have one.
    pub fn from_number(number: u32) -> Option<Refusal> {
        Refusal::ALL.iter().copied().find(|refusal| refusal.number() == number)
    }

    /// The refusal's name.
    pub fn name(self) -> &'static str {
        match self {
            Refusal::UnexpectedType => "UnexpectedType",
            Refusal::InvalidDefinition => "InvalidDefinition",
            Refusal::InvalidConstantValue => "InvalidConstantValue",
            Refusal::InvalidPush => "InvalidPush",
            Refusal::InvalidTokenInMacroBody => "InvalidTokenInMacroBody",
            Refusal::InvalidTokenInLabelDefinition => "InvalidTokenInLabelDefinition",
            Refusal::InvalidTypeAsArgumentName => "InvalidTypeAsArgumentName",
            Refusal::InvalidArgs => "InvalidArgs",
            Refusal::InvalidSingleArg => "InvalidSingleArg",
            Refusal::InvalidMacroArgs => "InvalidMacroArgs",
            Refusal::InvalidTableBodyToken => "InvalidTableBodyToken",
            Refusal::InvalidConstant => "InvalidConstant",
            Refusal::InvalidArgCallIdent => "InvalidArgCallIdent",
            Refusal::RepeatedName => "RepeatedName",
            Refusal::PoundAtTopLevel => "PoundAtTopLevel",
            Refusal::DuplicateLabel => "DuplicateLabel",
            Refusal::NotWellFormed => "NotWellFormed",
            Refusal::StartOutside => "StartOutside",
            Refusal::DefinitionsTooSmall => "DefinitionsTooSmall",
            Refusal::StatementsTooSmall => "StatementsTooSmall",
            Refusal::ArgumentsTooSmall => "ArgumentsTooSmall",
            Refusal::KeptTooShort => "KeptTooShort",
            Refusal::UnknownMode => "UnknownMode",
            Refusal::UnknownEdition => "UnknownEdition",
            Refusal::Unknown(_) => "Unknown",
        }
    }

    /// What was wrong, in a line without a full stop.
    pub fn message(self) -> &'static str {
        match self {
            Refusal::UnexpectedType => "another kind of token was required here",
            Refusal::InvalidDefinition => "nothing that can be defined follows #define",
            Refusal::InvalidConstantValue => "a constant's value must be a literal or the free storage pointer",
            Refusal::InvalidPush => "a push lacks its literal, or the literal does not fit",
            Refusal::InvalidTokenInMacroBody => "this token can't stand in a macro's body",
            Refusal::InvalidTokenInLabelDefinition => "this token can't stand under a label",
            Refusal::InvalidTypeAsArgumentName => "a type's name can't be an argument's name",
            Refusal::InvalidArgs => "this token can't stand in a list of arguments",
            Refusal::InvalidSingleArg => "takes and returns need a number",
            Refusal::InvalidMacroArgs => "this token can't stand among the arguments of an invocation",
            Refusal::InvalidTableBodyToken => "this token can't stand in a table",
            Refusal::InvalidConstant => "a constant's name must follow [",
            Refusal::InvalidArgCallIdent => "an argument's name must follow <",
            Refusal::RepeatedName => "an earlier macro, fn or test has this name",
            Refusal::PoundAtTopLevel => "a lone # can't stand outside of definitions",
            Refusal::DuplicateLabel => "an earlier label of this body has this name",
            Refusal::NotWellFormed => "the text is too long or the token list is not well formed",
            Refusal::StartOutside => "the body's start lies outside of the kept tokens",
            Refusal::DefinitionsTooSmall => "the definition table has too few records",
            Refusal::StatementsTooSmall => "the statement table has too few records",
            Refusal::ArgumentsTooSmall => "the argument table has too few records",
            Refusal::KeptTooShort => "the kept list is too short",
            Refusal::UnknownMode => "no mode has the number that was given",
            Refusal::UnknownEdition => "no edition has the number that was given",
            Refusal::Unknown(_) => "the archive gave a number that this crate does not know",
        }
    }

    /// What the cursor counts.
    pub fn cursor(self) -> Cursor {
        match self {
            Refusal::NotWellFormed => Cursor::Token,
            Refusal::StartOutside => Cursor::Start,
            Refusal::DefinitionsTooSmall | Refusal::StatementsTooSmall | Refusal::ArgumentsTooSmall | Refusal::KeptTooShort => {
                Cursor::Needed
            }
            Refusal::UnknownMode | Refusal::UnknownEdition => Cursor::Nothing,
            _ => Cursor::Place,
        }
    }
}

impl fmt::Display for Refusal {
    fn fmt(&self, f: &mut fmt::Formatter<'_>) -> fmt::Result {
        f.write_str(self.name())
    }
}

/// A refusal, its cursor, and for a type's name that type.
///
/// As long as the list stays well formed, white space and comments change none of the three. Where the cursor is a place, neither
/// do other tokens behind it or, for a body, as many others before its start; [`Refusal::RepeatedName`] alone depends on tokens
/// behind its cursor too, those of its macro up to the brace.
#[derive(Clone, Copy, Debug, PartialEq, Eq, Hash)]
pub struct Refused {
    /// Why.
    pub refusal: Refusal,
    /// Where, or how many; [`Refusal::cursor`] says which.
    pub cursor: usize,
    /// The type whose name stands at the cursor, after [`Refusal::InvalidTypeAsArgumentName`]. Nothing after every other refusal,
    /// and where a token of the kind [`PrimitiveType`](crate::Kind::PrimitiveType) has a text that is no type's name.
    pub reserved_type: Option<ReservedType>,
}

impl Refused {
    /// The refusal of an answer of the archive; nothing if its number is 0, accepted.
    pub fn from_answer(answer: Answer) -> Option<Refused> {
        let [number, cursor, .., type_number, size] = answer;
        if number == 0 {
            return None;
        }
        let number = u32::try_from(number).unwrap_or(u32::MAX);
        let refusal = Refusal::from_number(number).unwrap_or(Refusal::Unknown(number));
        let cursor = usize::try_from(cursor).unwrap_or(usize::MAX);
        Some(Refused { refusal, cursor, reserved_type: ReservedType::from_numbers(type_number, size) })
    }

    /// What was wrong, with the type where there is one. The text is not known here: `uint` is a name of the type uint256 too.
    fn message(&self) -> String {
        match self.reserved_type {
            Some(found) => format!("a name of the type {} ({}) can't be an argument's name", found, found.in_words()),
            None => self.refusal.message().to_string(),
        }
    }
}

impl fmt::Display for Refused {
    fn fmt(&self, f: &mut fmt::Formatter<'_>) -> fmt::Result {
        write!(f, "{} ({}, {})", self.message(), self.refusal.name(), self.refusal.number())?;
        match self.refusal.cursor() {
            Cursor::Nothing => Ok(()),
            counted => write!(f, " at {} {}", counted, self.cursor),
        }
    }
}

impl fmt::Display for Cursor {
    fn fmt(&self, f: &mut fmt::Formatter<'_>) -> fmt::Result {
        f.write_str(match self {
            Cursor::Place => "place",
            Cursor::Token => "token",
            Cursor::Start => "start",
            Cursor::Needed => "a need of",
            Cursor::Nothing => "nothing",
        })
    }
}

impl std::error::Error for Refused {}
