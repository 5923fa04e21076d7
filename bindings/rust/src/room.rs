//! The room that calls write into.

use crate::body::Body;
use crate::file::File;
use crate::options::Options;
use crate::raw::{self, Answer};
use crate::reading::{Reading, Tables};
use crate::refusal::{Refusal, Refused};
use crate::token::{kept_count, TokenAt};
use crate::{MAX_TOKENS, NONE, TOKEN_WORDS};
use std::fmt;

/// Buffers for the kept list and the tables, used again from call to call. They grow as needed and never shrink. All calls read
/// by the room's options.
///
/// A room serves one call at a time; threads take one each.
pub struct Room {
    options: Options,
    tables: Tables,
}

/// Records that are enough for every list of so many tokens.
#[derive(Clone, Copy)]
struct Enough {
    kept: usize,
    definitions: usize,
    statements: usize,
    arguments: usize,
}

impl Enough {
    /// Each definition has two tokens or more, each statement and each argument one. A list above the limit is refused before
    /// anything is written, so it needs no room at all.
    fn for_tokens(tokens: &[u32]) -> Enough {
        let count = Some(tokens.len() / TOKEN_WORDS).filter(|count| *count <= MAX_TOKENS).unwrap_or(0);
        Enough { kept: count, definitions: count / 2, statements: count, arguments: count }
    }
}

impl Room {
    /// An empty room that reads leniently, and measures bodies in the first edition.
    pub fn new() -> Room {
        Room::with(Options::default())
    }

    /// An empty room that reads by these options.
    pub fn with(options: Options) -> Room {
        Room { options, tables: Tables::new() }
    }

    /// Reads a whole file: its text and its token list, four words a token.
    pub fn read_file<'a>(&'a mut self, text: &'a [u8], tokens: &'a [u32]) -> Result<File<'a>, Refused> {
        let options = self.options;
        let answer = self.tables.until_room(tokens, |tables, enough| tables.call_file(options, text, tokens, enough));
        let [_, _, definitions, statements, arguments, _, _] = answer;
        let end = self.tables.settle(tokens, answer, [definitions, statements, arguments])?;
        Ok(File { reading: Reading { text, tokens, tables: &self.tables }, end })
    }

    /// Reads the body whose opening brace is at place `start`, and measures it.
    pub fn read_body<'a>(&'a mut self, text: &'a [u8], tokens: &'a [u32], start: usize) -> Result<Body<'a>, Refused> {
        let options = self.options;
        let answer = self.tables.until_room(tokens, |tables, enough| tables.call_body(options, text, tokens, start, enough));
        let [_, _, statements, arguments, length, _, _] = answer;
        let end = self.tables.settle(tokens, answer, [0, statements, arguments])?;
        let plain_length = Some(length).filter(|length| *length != u64::from(NONE));
        Ok(Body { reading: Reading { text, tokens, tables: &self.tables }, end, edition: options.edition, plain_length })
    }

    /// The token numbers of all places, after the last call: accepted or refused, but for `NotWellFormed` and `StartOutside`.
    /// Otherwise empty.
    pub fn kept(&self) -> &[u32] {
        self.tables.kept.words()
    }

    /// The token at a place, by the kept list of the last call and the token list that it was given.
    pub fn token(&self, tokens: &[u32], place: usize) -> Option<TokenAt> {
        self.tables.token(tokens, place)
    }
}

impl Tables {
    /// Calls until no table is too small. A first call takes what is there and a modest size; each answer that asks for more
    /// room gets it. There are three tables and an answer names the whole need of one, so three times suffice; the last
    /// call lends enough for any list, whatever was answered before.
    fn until_room(&mut self, tokens: &[u32], call: impl Fn(&mut Tables, Enough) -> Answer) -> Answer {
        let enough = Enough::for_tokens(tokens);
        self.make_modest(enough);
        for _ in 0..3 {
            let answer = call(self, enough);
            if !self.make_needed(answer, enough) {
                return answer;
            }
        }
        self.make_enough(enough);
        call(self, enough)
    }

    /// Room that most lists need.
    fn make_modest(&mut self, enough: Enough) {
        let tokens = enough.kept;
        self.kept.grow(enough.kept);
        self.definitions.grow((tokens / 16 + 16).min(enough.definitions));
        self.statements.grow((tokens / 2 + 16).min(enough.statements));
        self.arguments.grow((tokens / 4 + 16).min(enough.arguments));
    }

    /// Room for every list of that many tokens.
    fn make_enough(&mut self, enough: Enough) {
        self.definitions.grow(enough.definitions);
        self.statements.grow(enough.statements);
        self.arguments.grow(enough.arguments);
    }

    /// If the answer says that a table is too small, room for what it needs. Whether it does.
    fn make_needed(&mut self, answer: Answer, enough: Enough) -> bool {
        let refused = match Refused::from_answer(answer) {
            Some(refused) => refused,
            None => return false,
        };
        let need = refused.cursor;
        match refused.refusal {
            Refusal::DefinitionsTooSmall => self.definitions.grow(need.min(enough.definitions)),
            Refusal::StatementsTooSmall => self.statements.grow(need.min(enough.statements)),
            Refusal::ArgumentsTooSmall => self.arguments.grow(need.min(enough.arguments)),
            _ => return false,
        }
        true
    }

    /// A table that has grown for a large list is lent to a small one only as far as that can need: a call clears all it gets.
    fn call_file(&mut self, options: Options, text: &[u8], tokens: &[u32], enough: Enough) -> Answer {
        raw::read_file(
            options.mode.number(),
            text,
            tokens,
            self.kept.lend(enough.kept),
            self.definitions.lend(enough.definitions),
            self.statements.lend(enough.statements),
            self.arguments.lend(enough.arguments),
        )
    }

    fn call_body(&mut self, options: Options, text: &[u8], tokens: &[u32], start: usize, enough: Enough) -> Answer {
        raw::read_body(
            options.mode.number(),
            options.edition.number(),
            text,
            tokens,
            start,
            self.kept.lend(enough.kept),
            self.statements.lend(enough.statements),
            self.arguments.lend(enough.arguments),
        )
    }

    /// Makes what a call has left readable: the kept list where it was written, the records where it accepted.
    fn settle(&mut self, tokens: &[u32], answer: Answer, counts: [u64; 3]) -> Result<usize, Refused> {
        let refused = Refused::from_answer(answer);
        if refused.map_or(true, |refused| wrote_kept(refused.refusal)) {
            self.kept.hold(kept_count(tokens));
        }
        if let Some(refused) = refused {
            return Err(refused);
        }
        let [_, cursor, ..] = answer;
        let [definitions, statements, arguments] = counts;
        self.definitions.hold(to_size(definitions));
        self.statements.hold(to_size(statements));
        self.arguments.hold(to_size(arguments));
        Ok(to_size(cursor))
    }
}

/// Whether the kept list was written before this refusal.
fn wrote_kept(refusal: Refusal) -> bool {
    !matches!(
        refusal,
        Refusal::UnknownMode
            | Refusal::UnknownEdition
            | Refusal::NotWellFormed
            | Refusal::StartOutside
            | Refusal::KeptTooShort
            | Refusal::Unknown(_)
    )
}

fn to_size(number: u64) -> usize {
    usize::try_from(number).unwrap_or(usize::MAX)
}

impl Default for Room {
    fn default() -> Room {
        Room::new()
    }
}

impl fmt::Debug for Room {
    fn fmt(&self, f: &mut fmt::Formatter<'_>) -> fmt::Result {
        f.debug_struct("Room").field("options", &self.options).field("kept", &self.tables.kept.records()).finish()
    }
}

#[cfg(test)]
mod tests {
    use super::*;
    use crate::kinds::Kind;

    fn room_in(tables: &Tables) -> [usize; 4] {
        [&tables.kept, &tables.definitions, &tables.statements, &tables.arguments].map(|table| table.room())
    }

    fn opcodes(count: usize) -> Vec<u32> {
        [Kind::Opcode.number(), 0, 0, 1].repeat(count)
    }

    #[test]
    fn a_list_beyond_the_limit_takes_no_room() {
        let mut room = Room::new();
        let refused = room.read_file(b"", &opcodes(MAX_TOKENS + 1)).unwrap_err();
        assert_eq!(refused, Refused { refusal: Refusal::NotWellFormed, cursor: 0, reserved_type: None });
        assert_eq!(room_in(&room.tables), [0; 4]);
        assert!(room.read_file(b"", &opcodes(MAX_TOKENS)).is_err());
        assert_eq!(room_in(&room.tables), [65_536, 4_112, 32_784, 16_400]);
    }

    #[test]
    fn a_table_grows_to_its_need_and_not_beyond() {
        let mut tokens = vec![Kind::OpenBrace.number(), 0, 0, 0];
        tokens.extend(opcodes(997));
        tokens.extend([Kind::CloseBrace.number(), 0, 0, 0, Kind::Eof.number(), 0, 0, 0]);
        let mut room = Room::new();
        assert_eq!(room.read_body(b"", &tokens, 0).map(|body| body.end()), Ok(999));
        assert_eq!(room_in(&room.tables), [1_000, 78, 997, 266]);
    }

    #[test]
    fn a_small_list_is_lent_no_more_than_it_can_need() {
        let mut room = Room::new();
        assert!(room.read_file(b"", &opcodes(MAX_TOKENS)).is_err());
        let enough = Enough::for_tokens(&opcodes(10));
        assert_eq!(room.tables.kept.lend(enough.kept).len(), 10);
        assert_eq!(room.tables.definitions.lend(enough.definitions).len(), 5 * 14);
        assert_eq!(room.tables.statements.lend(enough.statements).len(), 10 * 8);
        assert_eq!(room.tables.arguments.lend(enough.arguments).len(), 10 * 7);
    }

    /// An archive that always asks for more is called four times and then believed.
    #[test]
    fn calls_end_whatever_is_answered() {
        for number in [32, 33, 34] {
            let calls = std::cell::Cell::new(0);
            let always = |_: &mut Tables, _: Enough| {
                calls.set(calls.get() + 1);
                [number, u64::MAX, 0, 0, 0, 0, 0]
            };
            let mut tables = Tables::new();
            assert_eq!(tables.until_room(&opcodes(100), always), [number, u64::MAX, 0, 0, 0, 0, 0]);
            assert_eq!(calls.get(), 4);
            assert_eq!(room_in(&tables), [100, 50, 100, 100]);
        }
    }

    #[test]
    fn an_unknown_number_is_a_refusal() {
        let mut tables = Tables::new();
        let refused = tables.settle(&opcodes(1), [37, 7, 0, 0, 0, 0, 0], [0; 3]).unwrap_err();
        assert_eq!((refused.refusal, refused.refusal.number(), refused.cursor), (Refusal::Unknown(37), 37, 7));
        assert!(tables.kept.words().is_empty());
    }

    /// No room gives an unknown mode or edition, but an older archive might not know a newer one's number.
    #[test]
    fn an_unknown_mode_or_edition_is_a_refusal_that_wrote_nothing() {
        for (number, refusal) in [(36, Refusal::UnknownMode), (38, Refusal::UnknownEdition)] {
            let mut tables = Tables::new();
            tables.kept.grow(1);
            let refused = tables.settle(&opcodes(1), [number, 0, 0, 0, 0, 0, 0], [0; 3]).unwrap_err();
            assert_eq!(refused, Refused { refusal, cursor: 0, reserved_type: None });
            assert!(tables.kept.words().is_empty());
        }
    }
}
