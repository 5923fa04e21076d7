//! The command line.

use crate::place::clean;
use simmerotter::{Edition, Mode};
use std::ffi::OsString;
use std::fmt;

/// What `--help` prints.
pub const HELP: &str = "\
simmerotter reads a Huff text and its token list and shows what the proved parser found in them.

Usage:
  simmerotter TEXT WORDS               reads a whole file and prints what it found, for a person
  simmerotter --body PLACE TEXT WORDS  reads one body, whose { stands at PLACE
  simmerotter --records [...] TEXT WORDS
                                       prints a record a line, for programs; --places adds a line a place
  simmerotter --help                   prints this

  --strict, with any of them, also refuses a push in a label without a literal that fits it, and a label that
  stands twice in a body. Without it both are accepted, and a person is warned of the first

  --edition N, where N is 1 or 2, says in which edition plain lengths are counted; without it they are in 1.
  They differ in a zero literal that is no push's operand. In 1 it has two bytes, for contracts lodged before the
  ledger's change; in 2 it has one, for a ledger on which one byte, PUSH0, pushes a zero. A file's records have no
  plain length, so with --records it goes with --body alone

  TEXT   the Huff text; at most 1048576 bytes
  WORDS  its token list: little-endian 32-bit words, four a token (kind, start, end, extra); at most 65536
         tokens. simmerotter cuts no tokens itself: the list comes from the compiler's lexer
  PLACE  counts the tokens that are neither white space nor comment, from 0

Status:
  0 accepted, 1 refused, 2 wrong usage or a file that can't be read

Example:
  simmerotter examples/settlement.huff examples/settlement.words

docs/COMMAND.md explains both forms and every message.
";

const HINT: &str = "simmerotter --help explains the usage.\n";

/// Which of the library's two entries is called.
#[derive(Clone, Copy, Debug, PartialEq, Eq)]
pub enum Entry {
    File,
    Body(usize),
}

/// Whom the output is for.
#[derive(Clone, Copy, Debug, PartialEq, Eq)]
pub enum Form {
    Person,
    Records { places: bool },
}

/// One call of the library.
#[derive(Debug, PartialEq, Eq)]
pub struct Job {
    pub entry: Entry,
    pub mode: Mode,
    /// Of a body's plain length, and for a person of those of a file's macros.
    pub edition: Edition,
    pub form: Form,
    pub text: OsString,
    pub words: OsString,
}

#[derive(Debug, PartialEq, Eq)]
pub enum Request {
    Help,
    Read(Job),
}

/// Why the command line says nothing that can be done.
#[derive(Debug, PartialEq, Eq)]
pub enum Wrong {
    Nothing,
    UnknownOption(OsString),
    Twice(&'static str),
    /// Behind the option stands this, or nothing.
    NoValue(Valued, Option<OsString>),
    PlacesAlone,
    EditionOfRecords,
    Paths(usize),
}

impl fmt::Display for Wrong {
    fn fmt(&self, f: &mut fmt::Formatter<'_>) -> fmt::Result {
        match self {
            Wrong::Nothing => return f.write_str(HELP),
            Wrong::UnknownOption(option) => writeln!(f, "simmerotter: unknown option {}", shown(option)),
            Wrong::Twice(option) => writeln!(f, "simmerotter: {} is given twice", option),
            Wrong::NoValue(option, None) => writeln!(f, "simmerotter: {} needs {}", option.name, option.needs),
            Wrong::NoValue(option, Some(found)) => {
                writeln!(f, "simmerotter: {} needs {}, not {}", option.name, option.needs, shown(found))
            }
            Wrong::PlacesAlone => writeln!(f, "simmerotter: --places goes with --records"),
            Wrong::EditionOfRecords => {
                writeln!(f, "simmerotter: --edition with --records goes with --body: a file's records have no plain length")
            }
            Wrong::Paths(count) => writeln!(f, "simmerotter: two paths are needed, TEXT and WORDS; {} given", count),
        }?;
        f.write_str(HINT)
    }
}

/// A word of the command line as it may be printed.
pub fn shown(word: &std::ffi::OsStr) -> String {
    clean(word.to_string_lossy().as_bytes())
}

/// An option that a value follows, and what that has to be.
#[derive(Clone, Copy, Debug, PartialEq, Eq)]
pub struct Valued {
    name: &'static str,
    needs: &'static str,
}

const BODY: Valued = Valued { name: "--body", needs: "a place from 0 to 4294967295" };
const EDITION: Valued = Valued { name: "--edition", needs: "1 or 2" };

/// Options as they are found; each may stand anywhere and once.
#[derive(Default)]
struct Found {
    help: bool,
    strict: bool,
    records: bool,
    places: bool,
    body: Option<usize>,
    edition: Option<Edition>,
    paths: Vec<OsString>,
}

/// Reads the words after the command's name.
pub fn parse(words: impl Iterator<Item = OsString>) -> Result<Request, Wrong> {
    let mut words = words.peekable();
    if words.peek().is_none() {
        return Err(Wrong::Nothing);
    }
    let mut found = Found::default();
    while let Some(word) = words.next() {
        match word.to_str() {
            Some("--help") => found.help = true,
            Some("--strict") => once(&mut found.strict, "--strict")?,
            Some("--records") => once(&mut found.records, "--records")?,
            Some("--places") => once(&mut found.places, "--places")?,
            Some("--body") => valued(&mut found.body, BODY, words.next(), place)?,
            Some("--edition") => valued(&mut found.edition, EDITION, words.next(), edition)?,
            Some("--") => found.paths.extend(words.by_ref()),
            _ if is_option(&word) => return Err(Wrong::UnknownOption(word)),
            _ => found.paths.push(word),
        }
    }
    found.request()
}

/// A lone `-` is a path like another.
fn is_option(word: &std::ffi::OsStr) -> bool {
    word.len() > 1 && word.to_string_lossy().starts_with('-')
}

fn once(flag: &mut bool, option: &'static str) -> Result<(), Wrong> {
    if *flag {
        return Err(Wrong::Twice(option));
    }
    *flag = true;
    Ok(())
}

/// The same for an option with a value, which the word behind it has to be.
fn valued<T>(
    value: &mut Option<T>,
    option: Valued,
    word: Option<OsString>,
    value_of: impl Fn(&str) -> Option<T>,
) -> Result<(), Wrong> {
    if value.is_some() {
        return Err(Wrong::Twice(option.name));
    }
    *value = word.as_ref().and_then(|word| word.to_str()).and_then(value_of);
    match value {
        Some(_) => Ok(()),
        None => Err(Wrong::NoValue(option, word)),
    }
}

/// Decimal digits alone: `+1` is no place.
fn place(word: &str) -> Option<usize> {
    let is_plain = word.bytes().all(|byte| byte.is_ascii_digit());
    let number = word.parse::<u32>().ok().filter(|_| is_plain)?;
    usize::try_from(number).ok()
}

/// The edition's number as it is written here: `01` is none.
fn edition(word: &str) -> Option<Edition> {
    Edition::ALL.into_iter().find(|edition| edition.number().to_string() == word)
}

impl Found {
    fn request(self) -> Result<Request, Wrong> {
        if self.help {
            return Ok(Request::Help);
        }
        if self.places && !self.records {
            return Err(Wrong::PlacesAlone);
        }
        if self.edition.is_some() && self.records && self.body.is_none() {
            return Err(Wrong::EditionOfRecords);
        }
        let mode = if self.strict { Mode::Strict } else { Mode::Lenient };
        let edition = self.edition.unwrap_or_default();
        let form = if self.records { Form::Records { places: self.places } } else { Form::Person };
        let entry = self.body.map_or(Entry::File, Entry::Body);
        let count = self.paths.len();
        let mut paths = self.paths.into_iter();
        match (paths.next(), paths.next(), paths.next()) {
            (Some(text), Some(words), None) => Ok(Request::Read(Job { entry, mode, edition, form, text, words })),
            _ => Err(Wrong::Paths(count)),
        }
    }
}
