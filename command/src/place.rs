//! Where a byte of the text stands, and how it is shown.

use simmerotter::{token_at, TokenAt};
use std::fmt;
use std::ops::Range;

/// A longer line is shown as a window of this many characters around the token.
const LINE_SHOWN: usize = 160;

/// How many characters of the window lie before the token, if there are so many.
const BEFORE_TOKEN: usize = 60;

const CUT: &str = "...";

/// Line and column, both from 1. A column counts characters: bytes that don't continue one in UTF-8.
#[derive(Clone, Copy, Debug, PartialEq, Eq)]
pub struct Position {
    pub line: usize,
    pub column: usize,
}

impl fmt::Display for Position {
    fn fmt(&self, f: &mut fmt::Formatter<'_>) -> fmt::Result {
        write!(f, "{}:{}", self.line, self.column)
    }
}

/// A text with its lines found and its characters counted, so that a position costs a search and no walk: a text may be one
/// line of a million characters.
pub struct Lines<'t> {
    text: &'t [u8],
    starts: Vec<usize>,
    characters_before: Vec<usize>,
}

/// A line of the text and the carets that go under a token of it.
#[derive(Debug, PartialEq, Eq)]
pub struct Excerpt {
    pub line: String,
    pub carets: String,
}

impl<'t> Lines<'t> {
    pub fn new(text: &'t [u8]) -> Lines<'t> {
        let ends = text.iter().enumerate().filter(|(_, byte)| **byte == b'\n');
        let starts = std::iter::once(0).chain(ends.map(|(at, _)| at + 1)).collect();
        let counted = text.iter().scan(0, |count, byte| {
            *count += usize::from(starts_character(*byte));
            Some(*count)
        });
        Lines { text, starts, characters_before: std::iter::once(0).chain(counted).collect() }
    }

    /// Where a byte stands; a byte behind the text stands at its end.
    pub fn position(&self, byte: usize) -> Position {
        let byte = byte.min(self.text.len());
        let line = self.starts.partition_point(|start| *start <= byte);
        let before = self.characters(byte) - self.characters(self.line_start(line));
        Position { line, column: before + 1 }
    }

    /// The token's line, cut to a window if it is long, and carets under the token's part of it.
    pub fn excerpt(&self, token: &Range<usize>) -> Excerpt {
        let start = token.start.min(self.text.len());
        let line = self.line_around(start);
        let shown = characters(self.text.get(line.clone()).unwrap_or_default());
        let index_of = |byte: usize| shown.partition_point(|(at, _)| line.start + at < byte);
        let first = index_of(start);
        let end = index_of(token.end.min(line.end)).max(first + 1);
        excerpt_of(&shown, first..end)
    }

    fn characters(&self, byte: usize) -> usize {
        self.characters_before.get(byte).copied().unwrap_or(0)
    }

    fn line_start(&self, line: usize) -> usize {
        self.starts.get(line.wrapping_sub(1)).copied().unwrap_or(0)
    }

    /// The line that a byte stands in, without its end: LF, or CR and LF.
    fn line_around(&self, byte: usize) -> Range<usize> {
        let line = self.position(byte).line;
        let start = self.line_start(line);
        let end = self.starts.get(line).map_or(self.text.len(), |next| next - 1);
        let has_return = end > start && end < self.text.len() && self.text.get(end - 1) == Some(&b'\r');
        start..(if has_return { end - 1 } else { end })
    }
}

/// The token at a place, by the kept list.
pub fn token_of(tokens: &[u32], kept: &[u32], place: usize) -> Option<TokenAt> {
    token_at(tokens, usize::try_from(*kept.get(place)?).ok()?)
}

/// Bytes as they may be printed: what is no UTF-8 is U+FFFD, and nothing of it steers a terminal.
pub fn clean(bytes: &[u8]) -> String {
    characters(bytes).into_iter().map(|(_, character)| character).collect()
}

fn starts_character(byte: u8) -> bool {
    byte & 0xc0 != 0x80
}

/// The characters of some bytes as they may be printed, each with the byte where it starts.
fn characters(bytes: &[u8]) -> Vec<(usize, char)> {
    let mut found = Vec::new();
    let mut at = 0;
    while let Some(rest) = bytes.get(at..).filter(|rest| !rest.is_empty()) {
        let (sound, unsound) = match std::str::from_utf8(rest) {
            Ok(_) => (rest.len(), 0),
            Err(error) => (error.valid_up_to(), error.error_len().unwrap_or(rest.len() - error.valid_up_to())),
        };
        let text = rest.get(..sound).and_then(|part| std::str::from_utf8(part).ok()).unwrap_or_default();
        found.extend(text.char_indices().map(|(offset, character)| (at + offset, printable(character))));
        at += sound;
        if unsound > 0 {
            found.push((at, char::REPLACEMENT_CHARACTER));
            at += unsound;
        }
    }
    found
}

/// Control characters could move the cursor or hide text, and so could those that turn the direction of writing.
fn printable(character: char) -> char {
    let turns = matches!(character, '\u{200e}' | '\u{200f}' | '\u{202a}'..='\u{202e}' | '\u{2066}'..='\u{2069}');
    if turns || (character.is_control() && character != '\t') {
        '?'
    } else {
        character
    }
}

fn excerpt_of(shown: &[(usize, char)], token: Range<usize>) -> Excerpt {
    let window = window(shown.len(), token.start);
    let part = |range: Range<usize>| shown.get(range).unwrap_or_default().iter().map(|(_, character)| *character);
    let cut_before = if window.start > 0 { CUT } else { "" };
    let cut_behind = if window.end < shown.len() { CUT } else { "" };
    let line = format!("{}{}{}", cut_before, part(window.clone()).collect::<String>(), cut_behind);
    // A tab before the token is a tab below it too: only then does the caret stand under the token.
    let below: String = part(window.start..token.start).map(|c| if c == '\t' { '\t' } else { ' ' }).collect();
    let width = token.end.min(window.end).saturating_sub(token.start).max(1);
    Excerpt { line, carets: format!("{}{}{}", " ".repeat(cut_before.len()), below, "^".repeat(width)) }
}

/// What is shown of a line with so many characters when the token starts at one of them.
fn window(length: usize, token: usize) -> Range<usize> {
    if length <= LINE_SHOWN {
        return 0..length;
    }
    let first = token.saturating_sub(BEFORE_TOKEN).min(length - LINE_SHOWN);
    first..first + LINE_SHOWN
}

#[cfg(test)]
mod tests {
    use super::*;

    #[test]
    fn positions_count_lines_and_characters_from_one() {
        let lines = Lines::new("a\nüx\n".as_bytes());
        let found: Vec<(usize, usize)> = (0..=6).map(|at| lines.position(at)).map(|p| (p.line, p.column)).collect();
        // The second byte of ü lies behind the one character that starts before it.
        assert_eq!(found, [(1, 1), (1, 2), (2, 1), (2, 2), (2, 2), (2, 3), (3, 1)]);
        assert_eq!(lines.position(999), lines.position(6));
    }

    #[test]
    fn an_empty_text_has_a_first_line() {
        let lines = Lines::new(b"");
        assert_eq!(lines.position(0), Position { line: 1, column: 1 });
        assert_eq!(lines.excerpt(&(0..0)), Excerpt { line: String::new(), carets: "^".to_string() });
    }

    #[test]
    fn carets_cover_the_token_and_stop_at_the_line() {
        let lines = Lines::new(b"ab cde\nfg");
        assert_eq!(lines.excerpt(&(3..6)).carets, "   ^^^");
        assert_eq!(lines.excerpt(&(3..9)).carets, "   ^^^");
        assert_eq!(lines.excerpt(&(9..9)), Excerpt { line: "fg".to_string(), carets: "  ^".to_string() });
    }

    #[test]
    fn a_line_end_is_not_shown() {
        let lines = Lines::new(b"ab\r\ncd\r\n");
        assert_eq!(lines.excerpt(&(0..2)).line, "ab");
        assert_eq!(lines.excerpt(&(4..6)).line, "cd");
        // A token that starts in the line end has its caret behind the last character.
        assert_eq!(lines.excerpt(&(2..4)), Excerpt { line: "ab".to_string(), carets: "  ^".to_string() });
    }

    #[test]
    fn a_lone_return_at_the_end_is_a_character() {
        assert_eq!(Lines::new(b"ab\r").excerpt(&(0..1)).line, "ab?");
    }

    #[test]
    fn a_window_stays_within_the_line() {
        assert_eq!(window(160, 159), 0..160);
        assert_eq!(window(161, 0), 0..160);
        assert_eq!(window(1000, 500), 440..600);
        assert_eq!(window(1000, 1000), 840..1000);
    }

    #[test]
    fn nothing_steers_the_terminal() {
        assert_eq!(clean(b"a\x1b[31m\x07\tb\x7f"), "a?[31m?\tb?");
        assert_eq!(clean("\u{9b}\u{202e}é".as_bytes()), "??é");
        assert_eq!(clean(b"a\xffb\xe2\x82"), "a\u{fffd}b\u{fffd}");
    }
}
