//! The two files: read whole, but never more than a byte above the limit.

use crate::arguments::shown;
use simmerotter::{MAX_TEXT, MAX_TOKENS, TOKEN_WORDS};
use std::ffi::{OsStr, OsString};
use std::fmt;
use std::fs::File;
use std::io::{self, Read};

const WORD_BYTES: usize = 4;
const MAX_WORD_BYTES: usize = MAX_TOKENS * TOKEN_WORDS * WORD_BYTES;

/// Why a file gives no input.
#[derive(Debug)]
pub enum Problem {
    CannotRead {
        path: OsString,
        reason: io::Error,
    },
    /// `size` is unknown for what isn't a plain file: it was not read to its end.
    TooLarge {
        path: OsString,
        what: &'static str,
        size: Option<u64>,
        limit: usize,
    },
    NotWholeWords {
        path: OsString,
        bytes: usize,
    },
}

impl fmt::Display for Problem {
    fn fmt(&self, f: &mut fmt::Formatter<'_>) -> fmt::Result {
        match self {
            Problem::CannotRead { path, reason } => write!(f, "can't read {}: {}", shown(path), reason),
            Problem::TooLarge { path, what, size: Some(size), limit } => {
                write!(f, "{} is too large: {} bytes, and {} has at most {}", shown(path), size, what, limit)
            }
            Problem::TooLarge { path, what, size: None, limit } => {
                write!(f, "{} is too large: {} has at most {} bytes", shown(path), what, limit)
            }
            Problem::NotWholeWords { path, bytes } => {
                write!(f, "{} is no token list: its {} bytes are not whole words of four bytes", shown(path), bytes)
            }
        }
    }
}

/// The text's bytes.
pub fn read_text(path: &OsStr) -> Result<Vec<u8>, Problem> {
    read_at_most(path, "a text", MAX_TEXT)
}

/// The token list's words. Whether they are four a token is the library's to say.
pub fn read_words(path: &OsStr) -> Result<Vec<u32>, Problem> {
    let bytes = read_at_most(path, "a token list", MAX_WORD_BYTES)?;
    if bytes.len() % WORD_BYTES != 0 {
        return Err(Problem::NotWholeWords { path: path.to_owned(), bytes: bytes.len() });
    }
    let words = bytes.chunks_exact(WORD_BYTES).filter_map(|word| word.try_into().ok());
    Ok(words.map(u32::from_le_bytes).collect())
}

fn read_at_most(path: &OsStr, what: &'static str, limit: usize) -> Result<Vec<u8>, Problem> {
    let cannot = |reason| Problem::CannotRead { path: path.to_owned(), reason };
    let file = File::open(path).map_err(cannot)?;
    let size = file.metadata().ok().filter(|about| about.is_file()).map(|about| about.len());
    let mut bytes = Vec::new();
    file.take(above(limit)).read_to_end(&mut bytes).map_err(cannot)?;
    if bytes.len() > limit {
        return Err(Problem::TooLarge { path: path.to_owned(), what, size, limit });
    }
    Ok(bytes)
}

/// One byte more than the limit tells a file that is too large from one that just fits.
fn above(limit: usize) -> u64 {
    u64::try_from(limit).unwrap_or(u64::MAX).saturating_add(1)
}
