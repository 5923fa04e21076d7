//! The token lists that are measured. Each shape grows to about as many tokens as asked for, and every list is one that the Rust accepts too, and mode 1: in a label every
//! value push has its literal, and no two labels of a body have the same name.

/// A text and its token list, four words a token.
pub struct List {
    pub text: Vec<u8>,
    pub words: Vec<u32>,
    /// Whether it is a body, read by a body call from its first place, and not a file.
    pub is_body: bool,
    white: bool,
}

// Kinds by document 01's numbers.
const WHITESPACE: u32 = 1;
const DEFINE: u32 = 4;
const MACRO: u32 = 6;
const FUNCTION: u32 = 9;
const EVENT: u32 = 10;
const CONSTANT: u32 = 11;
const ERROR: u32 = 12;
const JUMP_TABLE: u32 = 13;
const CODE_TABLE: u32 = 15;
const TAKES: u32 = 16;
const RETURNS: u32 = 17;
const VIEW: u32 = 18;
const INDEXED: u32 = 22;
const ASSIGN: u32 = 26;
const OPEN_PAREN: u32 = 27;
const CLOSE_PAREN: u32 = 28;
const OPEN_BRACE: u32 = 29;
const CLOSE_BRACE: u32 = 30;
const OPEN_BRACKET: u32 = 31;
const CLOSE_BRACKET: u32 = 32;
const COMMA: u32 = 35;
const COLON: u32 = 36;
const IDENT: u32 = 38;
const LABEL: u32 = 39;
const LITERAL: u32 = 40;
const OPCODE: u32 = 41;
const NUM: u32 = 42;
const PRIMITIVE_TYPE: u32 = 45;

/// Of `List::items`, those with a constant, which has no length.
const CONSTANT_ITEM: usize = 4;

impl List {
    fn new(white: bool) -> List {
        List { text: Vec::new(), words: Vec::new(), is_body: false, white }
    }

    /// How many tokens.
    pub fn tokens(&self) -> usize {
        self.words.len() / 4
    }

    /// A token and a space behind it, which is a token of its own where white space is asked for.
    fn put(&mut self, kind: u32, own: &str, extra: u32) -> &mut List {
        let start = self.text.len() as u32;
        self.text.extend_from_slice(own.as_bytes());
        let end = self.text.len() as u32;
        self.words.extend_from_slice(&[kind, start, end, extra]);
        self.text.push(b' ');
        if self.white {
            self.words.extend_from_slice(&[WHITESPACE, end, end + 1, 0]);
        }
        self
    }

    fn name(&mut self, own: &str) -> &mut List {
        self.put(IDENT, own, 0)
    }

    fn literal(&mut self, own: &str) -> &mut List {
        self.put(LITERAL, own, 0)
    }

    fn opcode(&mut self, own: &str, byte: u32) -> &mut List {
        self.put(OPCODE, own, byte)
    }

    fn eof(mut self) -> List {
        let at = self.text.len() as u32;
        self.words.extend_from_slice(&[0, at, at, 0]);
        self
    }

    /// `#define macro NAME ( ) = takes ( 0 ) returns ( 1 ) {`
    fn macro_head(&mut self, name: &str) -> &mut List {
        self.put(DEFINE, "#define", 0).put(MACRO, "macro", 0).name(name);
        self.put(OPEN_PAREN, "(", 0).put(CLOSE_PAREN, ")", 0).put(ASSIGN, "=", 0);
        for (kind, own, number) in [(TAKES, "takes", 0), (RETURNS, "returns", 1)] {
            self.put(kind, own, 0).put(OPEN_PAREN, "(", 0).put(NUM, &number.to_string(), number).put(CLOSE_PAREN, ")", 0);
        }
        self.put(OPEN_BRACE, "{", 0)
    }

    /// `#define macro NAME ( ) = {`, the shortest there is.
    fn short_head(&mut self, name: &str) -> &mut List {
        self.put(DEFINE, "#define", 0).put(MACRO, "macro", 0).name(name);
        self.put(OPEN_PAREN, "(", 0).put(CLOSE_PAREN, ")", 0).put(ASSIGN, "=", 0).put(OPEN_BRACE, "{", 0)
    }

    /// A label with one opcode, three tokens.
    fn labelled(&mut self, name: &str) -> &mut List {
        self.put(LABEL, name, 0).put(COLON, ":", 0).opcode("jumpdest", 0x5b)
    }

    fn close(&mut self) -> &mut List {
        self.put(CLOSE_BRACE, "}", 0)
    }

    /// Some items of a body, other ones for other numbers.
    fn items(&mut self, i: usize) {
        match i % 8 {
            0 => self.literal("0x04").opcode("calldataload", 0x35),
            1 => self.opcode("push2", 0x61).literal("0x0140"),
            2 => self.opcode("dup1", 0x80).opcode("swap1", 0x90).opcode("add", 0x01),
            3 => self.name("refund").opcode("jumpi", 0x57),
            CONSTANT_ITEM => self.put(OPEN_BRACKET, "[", 0).name("OWED").put(CLOSE_BRACKET, "]", 0).opcode("sload", 0x54),
            5 => self.literal("0x8fc2a3d4e5f60718293a4b5c6d7e8f90a1b2c3d4").opcode("eq", 0x14),
            6 => self.opcode("sstore", 0x55).opcode("pop", 0x50),
            _ => self.opcode("push1", 0x60).literal("0xff").opcode("and", 0x16),
        };
    }

    /// Items up to about so many tokens of the list, a label after every forty tokens or so.
    fn long_part(&mut self, tokens: usize, constants: bool) {
        let mut i = 0;
        while self.tokens() + 10 < tokens {
            if i % 16 == 15 {
                self.put(LABEL, &format!("step_{i}"), 0).put(COLON, ":", 0);
            }
            if constants || i % 8 != CONSTANT_ITEM {
                self.items(i);
            }
            i += 1;
        }
    }

    /// A typed list with a name behind every type.
    fn typed(&mut self, indexed: bool) {
        self.put(OPEN_PAREN, "(", 0).put(PRIMITIVE_TYPE, "address", 0);
        if indexed {
            self.put(INDEXED, "indexed", 0);
        }
        self.name("buyer").put(COMMA, ",", 0).put(PRIMITIVE_TYPE, "uint256", 0).name("amount").put(CLOSE_PAREN, ")", 0);
    }
}

/// Macros of some twenty tokens, every name another.
fn macros(tokens: usize, white: bool) -> List {
    let mut list = List::new(white);
    let mut i = 0;
    while list.tokens() + 30 < tokens {
        list.macro_head(&format!("SETTLE_{i}"));
        list.items(i);
        list.items(i + 3);
        list.close();
        i += 1;
    }
    list.eof()
}

fn many_macros(tokens: usize) -> List {
    macros(tokens, false)
}

fn half_white_space(tokens: usize) -> List {
    macros(tokens, true)
}

/// One macro with a long body.
fn long_body(tokens: usize) -> List {
    let mut list = List::new(false);
    list.macro_head("MAIN");
    list.long_part(tokens, true);
    list.close();
    list.eof()
}

/// A body by itself, like the long one but without constants, so that it has a plain length.
fn body_call(tokens: usize) -> List {
    let mut list = List::new(false);
    list.is_body = true;
    list.put(OPEN_BRACE, "{", 0);
    list.long_part(tokens, false);
    list.close();
    list.eof()
}

/// One macro with a call after the other, five tokens each.
fn calls(tokens: usize) -> List {
    let mut list = List::new(false);
    list.macro_head("MAIN");
    while list.tokens() + 8 < tokens {
        list.name("PAY").put(OPEN_PAREN, "(", 0).literal("0x20").name("order").put(CLOSE_PAREN, ")", 0);
    }
    list.close();
    list.eof()
}

/// Functions, events, constants, errors, macros and tables by turns.
fn mixed(tokens: usize) -> List {
    let mut list = List::new(false);
    let mut i = 0;
    while list.tokens() + 60 < tokens {
        list.put(DEFINE, "#define", 0).put(FUNCTION, "function", 0).name(&format!("settle_{i}"));
        list.typed(false);
        list.put(VIEW, "view", 0).put(RETURNS, "returns", 0);
        list.put(OPEN_PAREN, "(", 0).put(PRIMITIVE_TYPE, "bool", 0).put(CLOSE_PAREN, ")", 0);
        list.put(DEFINE, "#define", 0).put(EVENT, "event", 0).name(&format!("Refunded_{i}"));
        list.typed(true);
        list.put(DEFINE, "#define", 0).put(CONSTANT, "constant", 0).name(&format!("OWED_{i}")).put(ASSIGN, "=", 0).literal("0x0140");
        list.put(DEFINE, "#define", 0).put(ERROR, "error", 0).name(&format!("NotDue_{i}"));
        list.typed(false);
        list.macro_head(&format!("PAY_{i}"));
        list.items(i);
        list.items(i + 5);
        list.close();
        list.put(DEFINE, "#define", 0).put(JUMP_TABLE, "jumptable", 0).name(&format!("ROUTES_{i}"));
        list.put(OPEN_BRACE, "{", 0).name("refund").name("failed").close();
        i += 1;
    }
    list.eof()
}

/// Names of arguments, some of which begin as a type's does.
const ARGUMENTS: [&str; 10] = ["amount", "recipient", "id", "owner", "value", "bytesPaid", "uints", "i", "internal", "stringAt"];

/// Errors of four arguments each, all of whose names are tested.
fn errors(tokens: usize) -> List {
    let mut list = List::new(false);
    let mut names = ARGUMENTS.iter().cycle();
    let mut i = 0;
    while list.tokens() + 17 <= tokens {
        list.put(DEFINE, "#define", 0).put(ERROR, "error", 0).name(&format!("NotDue_{i}"));
        for (argument, own) in names.by_ref().take(4).enumerate() {
            let (kind, sign) = if argument == 0 { (OPEN_PAREN, "(") } else { (COMMA, ",") };
            list.put(kind, sign, 0).put(PRIMITIVE_TYPE, "uint256", 0).name(own);
        }
        list.put(CLOSE_PAREN, ")", 0);
        i += 1;
    }
    list.eof()
}

/// Constants: of all that is written, the definition records are the most.
fn constants(tokens: usize) -> List {
    let mut list = List::new(false);
    let mut i = 0;
    while list.tokens() + 6 <= tokens {
        list.put(DEFINE, "#define", 0).put(CONSTANT, "constant", 0).name(&format!("OWED_{i}")).put(ASSIGN, "=", 0).literal("0x0140");
        i += 1;
    }
    list.eof()
}

/// Code tables with eight entries each.
fn code_tables(tokens: usize) -> List {
    let mut list = List::new(false);
    let mut i = 0;
    while list.tokens() + 16 < tokens {
        list.put(DEFINE, "#define", 0).put(CODE_TABLE, "table", 0).name(&format!("CODE_{i}")).put(OPEN_BRACE, "{", 0);
        for _ in 0..8 {
            list.name("604260005260206000f3");
        }
        list.close();
        i += 1;
    }
    list.eof()
}

/// A body by itself of as many labels as fit, every name another: 20,000 of them in 60,000 tokens.
fn labels(tokens: usize) -> List {
    let mut list = List::new(false);
    list.is_body = true;
    list.put(OPEN_BRACE, "{", 0);
    let mut i = 0;
    while list.tokens() + 5 <= tokens {
        list.labelled(&format!("step_{i}"));
        i += 1;
    }
    list.close();
    list.eof()
}

/// A body by itself of zeros that are no push's operand, each with an opcode behind it.
fn zeros(tokens: usize) -> List {
    let mut list = List::new(false);
    list.is_body = true;
    list.put(OPEN_BRACE, "{", 0);
    while list.tokens() + 4 <= tokens {
        list.literal("0x00").opcode("sload", 0x54);
    }
    list.close();
    list.eof()
}

/// Macros of four labels, the same four names in each: the names of one body say nothing of the next. A list has at most 65,536 tokens, and such a macro takes at least
/// 16, with an opcode in each label 20: so a file can have some 3,000 of them here, never 8,000.
fn labelled_macros(tokens: usize) -> List {
    let mut list = List::new(false);
    let mut i = 0;
    while list.tokens() + 21 <= tokens {
        list.short_head(&format!("SETTLE_{i}"));
        for name in ["start", "refund", "failed", "end"] {
            list.labelled(name);
        }
        list.close();
        i += 1;
    }
    list.eof()
}

/// The shortest macros there are, so many, whose names begin alike: what is measured is mostly the test for repeated names.
pub fn names(count: usize, front: &str) -> List {
    let mut list = List::new(false);
    for i in 0..count {
        list.short_head(&format!("{front}{i}")).close();
    }
    list.eof()
}

/// A shape's name and how a list of it is made.
pub type Shape = (&'static str, fn(usize) -> List);

/// All shapes, in the order in which they are measured.
pub const SHAPES: [Shape; 11] = [
    ("many macros", many_macros),
    ("one long body", long_body),
    BODY_CALL,
    ("one macro of calls", calls),
    ("mixed definitions", mixed),
    ("many code tables", code_tables),
    ("half white space", half_white_space),
    LABELLED[0],
    LABELLED[1],
    ("errors of four arguments", errors),
    ("many constants", constants),
];

const BODY_CALL: Shape = ("a body call", body_call);

/// Those that a body call reads, since it alone has an edition; the last is there for that.
pub const BODIES: [Shape; 3] = [BODY_CALL, LABELLED[0], ("a body of zeros", zeros)];

/// Those whose labels are most of the work in mode 1.
pub const LABELLED: [Shape; 2] = [("a body of labels", labels), ("macros of four labels", labelled_macros)];
