//! How a room reads.

/// How much is refused. [`Mode::number`] has the numbers of the archive.
#[derive(Clone, Copy, Debug, Default, PartialEq, Eq, Hash, PartialOrd, Ord)]
pub enum Mode {
    /// As huff-rs reads: no push is tested inside a label, and a label's name may stand twice in a body. For a compiler whose
    /// answers must equal those of huff-rs.
    #[default]
    Lenient,
    /// Inside a label, too, a value push needs a literal that fits it, and a label's name may stand once in a body. For new
    /// code, and for every compiler that is free to refuse: a label that ends in a bare push swallows the code behind it as its
    /// operand, and of two labels with one name a jump goes to one of them unseen.
    Strict,
}

impl Mode {
    /// Both modes, in the order of the numbers.
    pub const ALL: [Mode; 2] = [Mode::Lenient, Mode::Strict];

    /// The mode's number, the first argument of the archive's functions: 0 or 1.
    pub fn number(self) -> u32 {
        self as u32
    }
}

/// The edition of a body's plain length: what a zero literal counts that is no push's operand. [`Edition::number`] has the
/// numbers of the archive.
///
/// Both stay, since a contract is measured by what held when it was lodged. A body's two lengths differ by the number of such
/// zeros, and a body without a length in one edition has none in the other; nothing else of an answer differs. A zero is told by
/// its value: `0x0` and `0x0000` are zeros too. The operand of a push counts what the push takes, in both.
///
/// ```
/// use simmerotter::{push_token, Edition, Kind, Options, Room};
///
/// let text = b"{ 0x00 }";
/// let mut tokens = Vec::new();
/// push_token(&mut tokens, Kind::OpenBrace, 0, 1, 0);
/// push_token(&mut tokens, Kind::Literal, 2, 6, 0);
/// push_token(&mut tokens, Kind::CloseBrace, 7, 8, 0);
/// push_token(&mut tokens, Kind::Eof, 8, 8, 0);
///
/// for (edition, length) in [(Edition::First, 2), (Edition::Second, 1)] {
///     let mut room = Room::with(Options::default().edition(edition));
///     let body = room.read_body(text, &tokens, 0)?;
///     assert_eq!((body.edition(), body.plain_length()), (edition, Some(length)));
/// }
/// # Ok::<(), simmerotter::Refused>(())
/// ```
#[derive(Clone, Copy, Debug, Default, PartialEq, Eq, Hash, PartialOrd, Ord)]
pub enum Edition {
    /// Such a zero counts 2, a push and a byte. For contracts lodged before the ledger's change.
    #[default]
    First = 1,
    /// Such a zero counts 1. For a ledger on which one byte, PUSH0, pushes a zero (EIP-3855).
    Second = 2,
}

impl Edition {
    /// Both editions, in the order of the numbers.
    pub const ALL: [Edition; 2] = [Edition::First, Edition::Second];

    /// The edition's number, the second argument of the archive's function for bodies: 1 or 2.
    pub fn number(self) -> u32 {
        self as u32
    }
}

/// What a [`Room`](crate::Room) is told about all its calls. Others may join these, so options are made from the default ones,
/// which are lenient and of the first edition: `Options::default().mode(Mode::Strict).edition(Edition::Second)`.
#[derive(Clone, Copy, Debug, Default, PartialEq, Eq, Hash)]
pub struct Options {
    pub(crate) mode: Mode,
    pub(crate) edition: Edition,
}

impl Options {
    /// The same options with this mode.
    pub fn mode(mut self, mode: Mode) -> Options {
        self.mode = mode;
        self
    }

    /// The same options with this edition. Bodies alone are measured, so it changes nothing in the reading of files.
    pub fn edition(mut self, edition: Edition) -> Options {
        self.edition = edition;
        self
    }
}
