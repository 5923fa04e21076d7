//! What the tests share: files to read, and a run of the built command.
#![allow(dead_code)]

use simmerotter::{push_token, Kind};
use std::ffi::OsStr;
use std::fs;
use std::path::PathBuf;
use std::process::{Command, Stdio};

/// What a run printed, and its status.
#[derive(Debug, PartialEq, Eq)]
pub struct Run {
    pub out: String,
    pub err: String,
    pub status: Option<i32>,
}

pub fn command() -> Command {
    let mut command = Command::new(env!("CARGO_BIN_EXE_simmerotter"));
    command.stdin(Stdio::null());
    command
}

pub fn run<S: AsRef<OsStr>>(arguments: &[S]) -> Run {
    let done = command().args(arguments).output().unwrap();
    Run { out: String::from_utf8(done.stdout).unwrap(), err: String::from_utf8(done.stderr).unwrap(), status: done.status.code() }
}

/// The message of wrong usage, without the hint that follows it.
pub fn wrong(arguments: &[&str]) -> String {
    let found = run(arguments);
    assert_eq!((found.status, found.out.as_str()), (Some(2), ""), "{:?}", arguments);
    let hint = "\nsimmerotter --help explains the usage.\n";
    found.err.strip_suffix(hint).expect("no hint").to_string()
}

/// A path for this test alone.
pub fn path(name: &str) -> PathBuf {
    PathBuf::from(env!("CARGO_TARGET_TMPDIR")).join(name)
}

pub fn bytes_of(words: &[u32]) -> Vec<u8> {
    words.iter().flat_map(|word| word.to_le_bytes()).collect()
}

/// A text and its list, written down.
pub struct Input {
    pub text: PathBuf,
    pub words: PathBuf,
}

impl Input {
    /// `name` has to differ from test to test: they run at the same time.
    pub fn new(name: &str, text: &[u8], words: &[u32]) -> Input {
        let input = Input { text: path(&format!("{}.huff", name)), words: path(&format!("{}.words", name)) };
        fs::write(&input.text, text).unwrap();
        fs::write(&input.words, bytes_of(words)).unwrap();
        input
    }

    pub fn run(&self, options: &[&str]) -> Run {
        let mut arguments: Vec<&OsStr> = options.iter().map(OsStr::new).collect();
        arguments.extend([self.text.as_os_str(), self.words.as_os_str()]);
        run(&arguments)
    }

    /// What a refused run tells a person, without the folder's name.
    pub fn refused(&self, options: &[&str]) -> String {
        let run = self.run(options);
        assert_eq!((run.status, run.out.as_str()), (Some(1), ""), "{}", run.err);
        self.without_folder(&run.err)
    }

    /// What an accepted run tells a person or a program, without the folder's name.
    pub fn accepted(&self, options: &[&str]) -> String {
        let run = self.run(options);
        assert_eq!((run.status, run.err.as_str()), (Some(0), ""), "{}", run.out);
        self.without_folder(&run.out)
    }

    /// What a run that was accepted with a warning tells a person: both outputs, without the folder's name.
    pub fn warned(&self, options: &[&str]) -> (String, String) {
        let run = self.run(options);
        assert_eq!(run.status, Some(0), "{}", run.err);
        (self.without_folder(&run.out), self.without_folder(&run.err))
    }

    fn without_folder(&self, printed: &str) -> String {
        printed.replace(&format!("{}/", env!("CARGO_TARGET_TMPDIR")), "")
    }
}

/// The list of these tokens, each found in the text behind the one before, and an Eof at the text's end.
pub fn list(text: &[u8], tokens: &[(Kind, &str, u32)]) -> Vec<u32> {
    let mut words = Vec::new();
    let mut at = 0;
    for (kind, own, extra) in tokens {
        let own = own.as_bytes();
        let found = (at..).find(|start| text[*start..].starts_with(own)).unwrap();
        at = found + own.len();
        push_token(&mut words, *kind, found as u32, at as u32, *extra);
    }
    let end = text.len() as u32;
    push_token(&mut words, Kind::Eof, end, end, 0);
    words
}

/// The list of the words of a text, of as many kinds as the tests need: signs, keywords, literals, some opcodes, labels before a
/// colon, strings without their quotes, builtins, two types, numbers; the rest are names. Words stand between white space.
pub fn cut(text: &str) -> Vec<u32> {
    let words: Vec<&str> = text.split_whitespace().collect();
    let tokens: Vec<(Kind, &str, u32)> = words.iter().enumerate().map(|(i, word)| token(word, words.get(i + 1))).collect();
    list(text.as_bytes(), &tokens)
}

fn token<'w>(word: &'w str, next: Option<&&str>) -> (Kind, &'w str, u32) {
    let kind = match word {
        "#include" => Kind::Include,
        "#define" => Kind::Define,
        "#" => Kind::Pound,
        "macro" => Kind::Macro,
        "fn" => Kind::Fn,
        "test" => Kind::Test,
        "function" => Kind::Function,
        "event" => Kind::Event,
        "error" => Kind::Error,
        "constant" => Kind::Constant,
        "jumptable" => Kind::JumpTable,
        "jumptable__packed" => Kind::JumpTablePacked,
        "table" => Kind::CodeTable,
        "takes" => Kind::Takes,
        "returns" => Kind::Returns,
        "view" => Kind::View,
        "pure" => Kind::Pure,
        "payable" => Kind::Payable,
        "nonpayable" => Kind::NonPayable,
        "indexed" => Kind::Indexed,
        "calldata" => Kind::Calldata,
        "memory" => Kind::Memory,
        "storage" => Kind::Storage,
        "=" => Kind::Assign,
        "(" => Kind::OpenParen,
        ")" => Kind::CloseParen,
        "{" => Kind::OpenBrace,
        "}" => Kind::CloseBrace,
        "[" => Kind::OpenBracket,
        "]" => Kind::CloseBracket,
        "<" => Kind::LeftAngle,
        ">" => Kind::RightAngle,
        "," => Kind::Comma,
        ":" => Kind::Colon,
        "FREE_STORAGE_POINTER()" => Kind::FreeStoragePointer,
        "uint256" | "address" => Kind::PrimitiveType,
        "stop" => return (Kind::Opcode, word, 0),
        "dup1" => return (Kind::Opcode, word, 0x80),
        "push0" => return (Kind::Opcode, word, 0x5f),
        "push1" => return (Kind::Opcode, word, 0x60),
        "push2" => return (Kind::Opcode, word, 0x61),
        "push4" => return (Kind::Opcode, word, 0x63),
        _ if word.starts_with("0x") => Kind::Literal,
        _ if word.starts_with('"') => return (Kind::Str, word.trim_matches('"'), 0),
        _ if word.starts_with("__") => Kind::BuiltinFunction,
        _ if next == Some(&":") => Kind::Label,
        _ => match word.parse() {
            Ok(number) => return (Kind::Num, word, number),
            Err(_) => Kind::Ident,
        },
    };
    (kind, word, 0)
}
