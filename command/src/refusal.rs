//! A refusal in words, with the place it points at.

use crate::arguments::{shown, Job};
use crate::place::{clean, token_of, Lines, Position};
use crate::well_formed::{fault, words_of, Fault, TokenWords};
use simmerotter::{Cursor, Kind, Refusal, Refused, TokenAt};
use std::ops::Range;

/// What a refusal's cursor points at: a token of the list and its place in the text, as far as there is one.
pub struct Site<'a> {
    text: &'a [u8],
    tokens: &'a [u32],
    kept: &'a [u32],
    lines: &'a Lines<'a>,
    /// The token's number in the list.
    pub number: Option<usize>,
    bytes: Option<Range<usize>>,
}

impl<'a> Site<'a> {
    /// `kept` is the kept list of the refused call, empty where it wrote none.
    pub fn new(text: &'a [u8], tokens: &'a [u32], kept: &'a [u32], lines: &'a Lines<'a>, refused: Refused) -> Site<'a> {
        let nowhere = Site { text, tokens, kept, lines, number: None, bytes: None };
        match refused.refusal.cursor() {
            Cursor::Place => match token_of(tokens, kept, refused.cursor) {
                Some(token) => Site { number: Some(token.number), bytes: Some(token.bytes), ..nowhere },
                None => nowhere,
            },
            Cursor::Token => match fault(text, tokens, refused.cursor) {
                Fault::Token(_) => {
                    let bytes = words_of(tokens, refused.cursor).and_then(|words| bytes_within(words, text.len()));
                    Site { number: Some(refused.cursor), bytes, ..nowhere }
                }
                Fault::Whole(_) => nowhere,
            },
            Cursor::Start | Cursor::Needed | Cursor::Nothing => nowhere,
        }
    }

    pub fn position(&self) -> Option<Position> {
        self.bytes.as_ref().map(|bytes| self.lines.position(bytes.start))
    }

    fn token(&self, place: usize) -> Option<TokenAt> {
        token_of(self.tokens, self.kept, place)
    }

    fn text_of(&self, token: &TokenAt) -> String {
        clean(token.text_in(self.text))
    }

    /// The labels before a place of a body, the nearest first. A body holds no braces, so the nearest one opens it.
    fn labels_before(&self, place: usize) -> impl Iterator<Item = TokenAt> + '_ {
        let tokens = (0..place).rev().map_while(move |place| self.token(place));
        tokens.take_while(|token| token.kind != Kind::OpenBrace).filter(|token| token.kind == Kind::Label)
    }
}

/// The bytes that a bad token names, as far as they lie in the text.
fn bytes_within(words: TokenWords, length: usize) -> Option<Range<usize>> {
    let start = usize::try_from(words.start).ok().filter(|start| *start <= length)?;
    let end = usize::try_from(words.end).unwrap_or(length).min(length).max(start);
    Some(start..end)
}

/// The whole message, lines and all.
pub fn message(job: &Job, refused: Refused, site: &Site) -> String {
    introduced("", job, refused, site)
}

/// The same message about input that was accepted, for `--strict` was not given.
pub fn warning(job: &Job, refused: Refused, site: &Site) -> String {
    introduced("warning: --strict would refuse this: ", job, refused, site)
}

fn introduced(introduction: &str, job: &Job, refused: Refused, site: &Site) -> String {
    let (head, sentence) = (head(job, refused.refusal, site), sentence(refused, site));
    let (number, name) = (refused.refusal.number(), refused.refusal.name());
    let mut message = format!("{}: {}{} {}: {}\n", head, introduction, number, name, sentence);
    if let Some(bytes) = &site.bytes {
        let excerpt = site.lines.excerpt(bytes);
        message += &format!("{}\n{}\n", excerpt.line, excerpt.carets);
    }
    message + &token_line(refused, site)
}

/// The text's path and the position, or the path of the file that is at fault as a whole.
fn head(job: &Job, refusal: Refusal, site: &Site) -> String {
    match site.position() {
        Some(position) => format!("{}:{}", shown(&job.text), position),
        None if refusal == Refusal::NotWellFormed => shown(&job.words),
        None => shown(&job.text),
    }
}

fn sentence(refused: Refused, site: &Site) -> String {
    let message = refused.refusal.message();
    match refused.refusal {
        Refusal::NotWellFormed => fault(site.text, site.tokens, refused.cursor).sentence().to_string(),
        Refusal::StartOutside => start_sentence(refused.cursor, site.tokens),
        Refusal::InvalidPush => push_sentence(refused.cursor, site).unwrap_or_else(|| message.to_string()),
        Refusal::InvalidTypeAsArgumentName => type_sentence(refused, site).unwrap_or_else(|| message.to_string()),
        Refusal::RepeatedName => repeated_sentence(message, refused.cursor, site),
        Refusal::DuplicateLabel => duplicate_sentence(refused.cursor, site).unwrap_or_else(|| message.to_string()),
        Refusal::InvalidArgs => args_sentence(message, refused.cursor, site),
        _ => match (refused.refusal.cursor(), site.token(refused.cursor)) {
            (Cursor::Place, Some(token)) => format!("{}; found {}", message, token.kind),
            _ => format!("{} (cursor {})", message, refused.cursor),
        },
    }
}

fn start_sentence(start: usize, tokens: &[u32]) -> String {
    let is_kept = |kind: &u32| Kind::from_number(*kind).map_or(true, |kind| !kind.is_dropped());
    let count = tokens.iter().step_by(simmerotter::TOKEN_WORDS).filter(|kind| is_kept(kind)).count();
    format!("no body starts at place {}: the list keeps {} tokens", start, count)
}

/// A push is refused behind its literal if that is too large, and where the literal is missed if there is none.
fn push_sentence(cursor: usize, site: &Site) -> Option<String> {
    let before = site.token(cursor.checked_sub(1)?)?;
    let under = under_label(cursor, site);
    if before.kind == Kind::Opcode {
        let found = site.token(cursor)?.kind;
        return Some(format!("{}{} needs a literal behind it; found {}", under, site.text_of(&before), found));
    }
    let push = site.token(cursor.checked_sub(2)?)?;
    let takes = push.extra.checked_sub(0x5f)?;
    let has = significant_bytes(before.text_in(site.text));
    Some(format!("{}{} has {} bytes and {} takes {}", under, site.text_of(&before), has, site.text_of(&push), takes))
}

/// Names the label that a push stands under, if it does: there only strict reading refuses it.
fn under_label(cursor: usize, site: &Site) -> String {
    let label = site.labels_before(cursor).next();
    label.map_or_else(String::new, |label| format!("under the label `{}` ", site.text_of(&label)))
}

/// How many bytes a literal's digits take without the zeros in front.
fn significant_bytes(literal: &[u8]) -> usize {
    let digits = literal.iter().skip(2).skip_while(|digit| **digit == b'0').count();
    ((digits + 1) / 2).max(1)
}

/// Says which type the word is; one that is none is a type by its kind in the list alone.
fn type_sentence(refused: Refused, site: &Site) -> Option<String> {
    let word = site.text_of(&site.token(refused.cursor)?);
    let why = match refused.reserved_type {
        Some(found) => format!("`{}` is a type ({}) and can't be an argument's name", word, found.in_words()),
        None => format!("the token list calls `{}` a type, and so it can't be an argument's name", word),
    };
    Some(format!("{}; give the argument another name", why))
}

/// Says where the first of two names stands: macros, fns and tests alone start with these three tokens.
fn repeated_sentence(message: &str, cursor: usize, site: &Site) -> String {
    let name = match site.token(cursor) {
        Some(token) => token.text_in(site.text),
        None => return message.to_string(),
    };
    let is_first = |place: &usize| {
        let kind = |at: Option<usize>| at.and_then(|at| site.token(at)).map(|token| token.kind);
        let names_macro = matches!(kind(place.checked_sub(1)), Some(Kind::Macro | Kind::Fn | Kind::Test));
        let is_defined = kind(place.checked_sub(2)) == Some(Kind::Define);
        names_macro && is_defined && site.token(*place).map_or(false, |token| token.text_in(site.text) == name)
    };
    match (0..cursor).find(is_first).and_then(|place| site.token(place)) {
        Some(first) => format!("{}, at {}", message, site.lines.position(first.bytes.start)),
        None => message.to_string(),
    }
}

/// Says where the first of two labels stands.
fn duplicate_sentence(cursor: usize, site: &Site) -> Option<String> {
    let later = site.token(cursor)?;
    let has_its_name = |label: &TokenAt| label.text_in(site.text) == later.text_in(site.text);
    let first = site.lines.position(site.labels_before(cursor).find(has_its_name)?.bytes.start);
    let name = site.text_of(&later);
    Some(format!("the label `{}` stands twice in this body, first at {}; give one of them another name", name, first))
}

/// Lists of macros and builtins are refused one past a comma that follows nothing.
fn args_sentence(message: &str, cursor: usize, site: &Site) -> String {
    let found = site.token(cursor).map_or(Kind::Eof, |token| token.kind);
    let before = cursor.checked_sub(1).and_then(|place| site.token(place));
    if before.map_or(false, |token| token.kind == Kind::Comma) {
        return format!("this token or the comma before it can't stand in a list of arguments; found {}", found);
    }
    format!("{}; found {}", message, found)
}

fn token_line(refused: Refused, site: &Site) -> String {
    match (refused.refusal.cursor(), site.number) {
        (Cursor::Place, Some(number)) => format!("token place {} (number {} of the list)\n", refused.cursor, number),
        (Cursor::Token, Some(number)) => words_of(site.tokens, number).map_or_else(String::new, |words| {
            let kind = Kind::from_number(words.kind).map_or("unknown", Kind::name);
            let TokenWords { kind: of, start, end, extra } = words;
            format!(
                "token number {} of the list: kind {} ({}), start {}, end {}, extra {}\n",
                number, of, kind, start, end, extra
            )
        }),
        _ => String::new(),
    }
}
