//! Which rule of "Well formed" a list breaks, in words. The library has refused it already; this only explains.

use simmerotter::{Kind, MAX_TEXT, MAX_TOKENS, TOKEN_WORDS};

/// The rule that is broken, and whether one token breaks it or the list as a whole.
#[derive(Debug, PartialEq, Eq)]
pub enum Fault {
    Whole(String),
    Token(String),
}

impl Fault {
    pub fn sentence(&self) -> &str {
        match self {
            Fault::Whole(sentence) | Fault::Token(sentence) => sentence,
        }
    }
}

/// Four words of a list as they are.
#[derive(Clone, Copy, Debug, PartialEq, Eq)]
pub struct TokenWords {
    pub kind: u32,
    pub start: u32,
    pub end: u32,
    pub extra: u32,
}

/// The words of a token, if the list has it.
pub fn words_of(tokens: &[u32], number: usize) -> Option<TokenWords> {
    match tokens.chunks_exact(TOKEN_WORDS).nth(number) {
        Some(&[kind, start, end, extra]) => Some(TokenWords { kind, start, end, extra }),
        _ => None,
    }
}

/// The fault of a list that was refused at this token. The rules for the whole list come first, as in the library.
pub fn fault(text: &[u8], tokens: &[u32], number: usize) -> Fault {
    if let Some(sentence) = whole_fault(text, tokens) {
        return Fault::Whole(sentence);
    }
    match words_of(tokens, number) {
        Some(words) => Fault::Token(token_fault(text, tokens, number, words)),
        None => Fault::Whole("the token list is not well formed".to_string()),
    }
}

fn whole_fault(text: &[u8], tokens: &[u32]) -> Option<String> {
    let count = tokens.len() / TOKEN_WORDS;
    if text.len() > MAX_TEXT {
        Some(format!("the text has {} bytes; at most {} are allowed", text.len(), MAX_TEXT))
    } else if tokens.len() % TOKEN_WORDS != 0 {
        Some(format!("the list's {} words are not four a token", tokens.len()))
    } else if count == 0 {
        Some("the list has no token, not even Eof".to_string())
    } else if count > MAX_TOKENS {
        Some(format!("the list has {} tokens; at most {} are allowed", count, MAX_TOKENS))
    } else {
        None
    }
}

fn token_fault(text: &[u8], tokens: &[u32], number: usize, words: TokenWords) -> String {
    let kind = match Kind::from_number(words.kind) {
        Some(kind) => kind,
        None => return format!("no kind has the number {}", words.kind),
    };
    range_fault(text, previous_end(tokens, number), words)
        .or_else(|| end_fault(tokens, number, kind))
        .or_else(|| text_fault(own_text(text, words), kind))
        .or_else(|| extra_fault(kind, words.extra))
        .unwrap_or_else(|| "this token is not well formed".to_string())
}

/// The first token comes after nothing.
fn previous_end(tokens: &[u32], number: usize) -> u32 {
    number.checked_sub(1).and_then(|before| words_of(tokens, before)).map_or(0, |words| words.end)
}

fn own_text(text: &[u8], words: TokenWords) -> &[u8] {
    match (usize::try_from(words.start), usize::try_from(words.end)) {
        (Ok(start), Ok(end)) => text.get(start..end).unwrap_or_default(),
        _ => &[],
    }
}

fn range_fault(text: &[u8], previous_end: u32, words: TokenWords) -> Option<String> {
    let TokenWords { start, end, .. } = words;
    if start > end {
        Some(format!("the token starts at byte {}, behind its end {}", start, end))
    } else if usize::try_from(end).map_or(true, |end| end > text.len()) {
        Some(format!("the token ends at byte {}, and the text has {} bytes", end, text.len()))
    } else if start < previous_end {
        Some(format!("the token starts at byte {}, before the previous one's end {}", start, previous_end))
    } else {
        None
    }
}

fn end_fault(tokens: &[u32], number: usize, kind: Kind) -> Option<String> {
    let is_last = number + 1 == tokens.len() / TOKEN_WORDS;
    match (kind, is_last) {
        (Kind::Eof, false) => Some("an Eof stands before the last token".to_string()),
        (Kind::Eof, true) | (_, false) => None,
        (_, true) => Some(format!("the last token has to be Eof, and it is {}", kind)),
    }
}

fn text_fault(own: &[u8], kind: Kind) -> Option<String> {
    match kind {
        Kind::Ident | Kind::Label if own.is_empty() => Some(format!("the text of this {} is empty", kind)),
        Kind::Literal if !is_literal(own) => Some("a Literal's text is 0x and 1 to 64 hex digits".to_string()),
        _ => None,
    }
}

fn is_literal(own: &[u8]) -> bool {
    let digits = own.strip_prefix(b"0x").unwrap_or_default();
    (1..=64).contains(&digits.len()) && digits.iter().all(u8::is_ascii_hexdigit)
}

fn extra_fault(kind: Kind, extra: u32) -> Option<String> {
    match kind {
        Kind::Num => None,
        Kind::Opcode if extra > 255 => Some(format!("an opcode's byte is at most 255, and extra is {}", extra)),
        Kind::Opcode => None,
        _ if extra != 0 => Some(format!("extra is 0 for {}, and here it is {}", kind, extra)),
        _ => None,
    }
}

#[cfg(test)]
mod tests {
    use super::*;
    use simmerotter::Room;

    const IDENT: u32 = 38;
    const LITERAL: u32 = 40;

    /// The fault of a list that the library does refuse, at the library's cursor.
    fn refused_for(text: &[u8], tokens: &[u32]) -> Fault {
        let refused = Room::new().read_file(text, tokens).expect_err("the list is well formed");
        assert_eq!(refused.refusal.number(), 30);
        fault(text, tokens, refused.cursor)
    }

    fn whole(text: &[u8], tokens: &[u32]) -> String {
        match refused_for(text, tokens) {
            Fault::Whole(sentence) => sentence,
            Fault::Token(sentence) => panic!("of a token: {}", sentence),
        }
    }

    fn of_token(text: &[u8], tokens: &[u32]) -> String {
        match refused_for(text, tokens) {
            Fault::Token(sentence) => sentence,
            Fault::Whole(sentence) => panic!("of the whole: {}", sentence),
        }
    }

    #[test]
    fn faults_of_the_whole_list() {
        assert_eq!(whole(b"", &[]), "the list has no token, not even Eof");
        assert_eq!(whole(b"", &[0, 0, 0, 0, 0]), "the list's 5 words are not four a token");
        let long = vec![b' '; MAX_TEXT + 1];
        assert_eq!(whole(&long, &[0, 0, 0, 0]), "the text has 1048577 bytes; at most 1048576 are allowed");
        let many = [1, 0, 0, 0].repeat(MAX_TOKENS + 1);
        assert_eq!(whole(b"", &many), "the list has 65537 tokens; at most 65536 are allowed");
    }

    #[test]
    fn faults_of_kind_and_range() {
        assert_eq!(of_token(b"ab", &[46, 0, 1, 0, 0, 2, 2, 0]), "no kind has the number 46");
        assert_eq!(of_token(b"ab", &[IDENT, 2, 1, 0, 0, 2, 2, 0]), "the token starts at byte 2, behind its end 1");
        assert_eq!(of_token(b"ab", &[IDENT, 0, 3, 0, 0, 3, 3, 0]), "the token ends at byte 3, and the text has 2 bytes");
        let overlap = [IDENT, 0, 2, 0, IDENT, 1, 2, 0, 0, 2, 2, 0];
        assert_eq!(of_token(b"ab", &overlap), "the token starts at byte 1, before the previous one's end 2");
    }

    #[test]
    fn faults_of_the_end() {
        assert_eq!(of_token(b"", &[0, 0, 0, 0, 0, 0, 0, 0]), "an Eof stands before the last token");
        assert_eq!(of_token(b"a", &[IDENT, 0, 1, 0]), "the last token has to be Eof, and it is Ident");
    }

    #[test]
    fn faults_of_text_and_extra() {
        assert_eq!(of_token(b"a", &[IDENT, 0, 0, 0, 0, 1, 1, 0]), "the text of this Ident is empty");
        assert_eq!(of_token(b"a", &[39, 0, 0, 0, 0, 1, 1, 0]), "the text of this Label is empty");
        for text in [&b"0x"[..], b"0X1", b"0xg", b"12", &[&b"0x"[..], &[b'1'; 65]].concat()] {
            let end = u32::try_from(text.len()).unwrap();
            let sentence = of_token(text, &[LITERAL, 0, end, 0, 0, end, end, 0]);
            assert_eq!(sentence, "a Literal's text is 0x and 1 to 64 hex digits");
        }
        assert_eq!(of_token(b"a", &[41, 0, 1, 256, 0, 1, 1, 0]), "an opcode's byte is at most 255, and extra is 256");
        assert_eq!(of_token(b"a", &[IDENT, 0, 1, 7, 0, 1, 1, 0]), "extra is 0 for Ident, and here it is 7");
    }
}
