//! The proved library against the Rust, on the same token lists, in one run.
//!
//!     bench              ratios at 60,000 tokens, then growth from 1,000 to 64,000
//!     bench --names      the test for repeated names alone: microseconds a file, by the number of macros
//!     bench --strict     mode 1 against mode 0 on the same lists, and how it grows with the labels
//!     bench --editions   edition 2 against edition 1 on the same bodies
//!     bench --quick      short lists and few rounds: whether all of it runs, not figures
//!
//! What is timed: on one side a call of `simmerotter_read_file`, for a body of `simmerotter_read_body`, with tables of exactly the need, which it zeroes itself, in mode 0 and edition 1; on the other `Parser::new(list, None)` and
//! `parse()` or `parse_body()`, whose list was cloned before, once without and once with the freeing of the list and of what was read: the library has nothing to free. Beside them a call
//! that makes its own room (`Room`), and a bare pass that adds up the token list's words.

mod shapes;
mod timing;
#[allow(dead_code)]
#[path = "../../oracle/driver/src/tokens.rs"]
mod tokens;

use huff_parser::Parser;
use huff_utils::token::Token;
use shapes::{List, Shape, BODIES, LABELLED, SHAPES};
use simmerotter::{
    raw::{self, Answer},
    Room, NONE,
};
use timing::{black_box, sample, spread, Spread};

/// The numbers that say how a call reads: its mode, and the edition of a body's plain length, which a file call doesn't take.
#[derive(Clone, Copy)]
struct Way {
    mode: u32,
    edition: u32,
}

/// As the Rust reads.
const PLAIN: Way = Way { mode: 0, edition: 1 };
/// Strictly.
const STRICT: Way = Way { mode: 1, ..PLAIN };
/// Where one byte pushes a zero.
const SHORT_ZEROS: Way = Way { edition: 2, ..PLAIN };

/// The number of a body's answer that is its plain length.
const LENGTH: usize = 4;

/// The lent tables, each exactly as long as a list needs.
struct Tables {
    kept: Vec<u32>,
    definitions: Vec<u32>,
    statements: Vec<u32>,
    arguments: Vec<u32>,
}

impl Tables {
    /// Learns the need from a call with more than can be needed.
    fn exact(list: &List) -> Tables {
        let n = list.tokens();
        let mut large = Tables { kept: vec![0; n], definitions: vec![0; 14 * n], statements: vec![0; 8 * n], arguments: vec![0; 7 * n] };
        let answer = large.read(PLAIN, list);
        let [number, cursor, ..] = answer;
        assert_eq!(number, 0, "the list is refused at {cursor}");
        assert!(!list.is_body || answer[LENGTH] != u64::from(NONE), "the body has no plain length");
        let [definitions, statements, arguments] = if list.is_body { [0, answer[2], answer[3]] } else { [answer[2], answer[3], answer[4]] };
        Tables {
            kept: vec![0; cursor as usize + 1],
            definitions: vec![0; 14 * definitions as usize],
            statements: vec![0; 8 * statements as usize],
            arguments: vec![0; 7 * arguments as usize],
        }
    }

    fn read(&mut self, way: Way, list: &List) -> Answer {
        let Way { mode, edition } = way;
        if list.is_body {
            return raw::read_body(mode, edition, &list.text, &list.words, 0, &mut self.kept, &mut self.statements, &mut self.arguments);
        }
        raw::read_file(mode, &list.text, &list.words, &mut self.kept, &mut self.definitions, &mut self.statements, &mut self.arguments)
    }

    /// Bytes of all that a call reads or writes.
    fn bytes(&self, list: &List) -> usize {
        list.text.len() + 4 * (list.words.len() + self.kept.len() + self.definitions.len() + self.statements.len() + self.arguments.len())
    }
}

/// Nanoseconds a call: the library, the library with its own room, the Rust without and with freeing, a bare pass; and the Rust's two times by the library's.
struct Times {
    tokens: usize,
    bytes: usize,
    library: Spread,
    room: Spread,
    rust: Spread,
    freed: Spread,
    pass: Spread,
    ratio: Spread,
    freed_ratio: Spread,
}

/// The Rust's time for reading, and for reading and freeing.
fn rust_sample(list: &[Token], is_body: bool, turns: usize) -> (f64, f64) {
    if is_body {
        timed(list, turns, Parser::parse_body)
    } else {
        timed(list, turns, Parser::parse)
    }
}

fn timed<T, E>(list: &[Token], turns: usize, parse: fn(&mut Parser) -> Result<T, E>) -> (f64, f64) {
    let mut lists: Vec<Vec<Token>> = (0..turns).map(|_| list.to_vec()).collect();
    let mut kept = Vec::with_capacity(turns);
    let read = sample(turns, || {
        let mut parser = Parser::new(lists.pop().unwrap_or_default(), None);
        let read = parse(&mut parser);
        assert!(read.is_ok(), "the Rust refuses the list");
        kept.push((parser, read));
    });
    let free = sample(turns, || drop(kept.pop()));
    (read, read + free)
}

/// How long the lists are and how much is done with them.
struct Pace {
    tokens: usize,
    sizes: &'static [usize],
    /// Tokens that are read in a round, in as many calls as it takes.
    round: usize,
    rounds: usize,
    growth_rounds: usize,
}

const FULL: Pace = Pace { tokens: 60_000, sizes: &[1_000, 2_000, 4_000, 8_000, 16_000, 32_000, 64_000], round: 200_000, rounds: 15, growth_rounds: 7 };
const QUICK: Pace = Pace { tokens: 6_000, sizes: &[1_000, 2_000, 4_000], round: 12_000, rounds: 2, growth_rounds: 1 };

fn measure(list: &List, round: usize, rounds: usize) -> Times {
    let built = tokens::build(&list.text, &list.words).expect("tokens that the Rust can hold");
    let mut tables = Tables::exact(list);
    let mut room = Room::new();
    let turns = (round / list.tokens()).max(2);
    let (mut library, mut own, mut rust, mut freed) = (vec![], vec![], vec![], vec![]);
    let (mut pass, mut ratio, mut freed_ratio) = (vec![], vec![], vec![]);
    for _ in 0..rounds {
        let a = sample(turns, || {
            black_box(tables.read(PLAIN, black_box(list)));
        });
        let b = sample(turns, || {
            let (text, words) = (black_box(&list.text), black_box(&list.words));
            black_box(if list.is_body { room.read_body(text, words, 0).is_ok() } else { room.read_file(text, words).is_ok() });
        });
        let (c, e) = rust_sample(&built, list.is_body, (turns / 8).max(1));
        let d = sample(turns, || {
            black_box(black_box(&list.words).iter().fold(0u32, |sum, &word| sum.wrapping_add(word)));
        });
        library.push(a);
        own.push(b);
        rust.push(c);
        freed.push(e);
        pass.push(d);
        ratio.push(c / a);
        freed_ratio.push(e / a);
    }
    Times {
        tokens: list.tokens(),
        bytes: tables.bytes(list),
        library: spread(library),
        room: spread(own),
        rust: spread(rust),
        freed: spread(freed),
        pass: spread(pass),
        ratio: spread(ratio),
        freed_ratio: spread(freed_ratio),
    }
}

/// A time as nanoseconds a token.
fn each(times: &Times, time: f64) -> f64 {
    time / times.tokens as f64
}

/// Least, middle and greatest.
fn show(s: Spread) -> String {
    format!("{:.1} {:.1} {:.1}", s.least, s.middle, s.greatest)
}

fn ratios(pace: &Pace) {
    println!("{} tokens, {} rounds; least, middle and greatest; nanoseconds a token", pace.tokens, pace.rounds);
    println!();
    println!("| Shape | Rust / library | with freeing | Library | With own room | Rust | with freeing | Bare pass | Bytes a token |");
    println!("|---|---|---|---|---|---|---|---|---|");
    for (name, make) in SHAPES {
        let times = measure(&make(pace.tokens), pace.round, pace.rounds);
        let each = |s: Spread| show(Spread { least: each(&times, s.least), middle: each(&times, s.middle), greatest: each(&times, s.greatest) });
        let cells = [show(times.ratio), show(times.freed_ratio), each(times.library), each(times.room), each(times.rust), each(times.freed), each(times.pass)];
        println!("| {name} | {} | {:.1} |", cells.join(" | "), times.bytes as f64 / times.tokens as f64);
    }
}

/// A table of shapes by sizes; `cell` says what stands there for a list.
fn grown(pace: &Pace, shapes: &[Shape], cell: &dyn Fn(&List) -> String) {
    let columns = |cell: &dyn Fn(usize) -> String| pace.sizes.iter().map(|&n| cell(n)).collect::<Vec<_>>().join(" | ");
    println!();
    println!("| Shape | {} |", columns(&|n| n.to_string()));
    println!("|---|{}", "---|".repeat(pace.sizes.len()));
    for (name, make) in shapes {
        println!("| {name} | {} |", columns(&|n| cell(&make(n))));
    }
}

fn growth(pace: &Pace) {
    println!();
    println!("Growth: nanoseconds a token, middle of {} rounds, library / Rust", pace.growth_rounds);
    grown(pace, &SHAPES, &|list| {
        let times = measure(list, pace.round, pace.growth_rounds);
        format!("{:.1} / {:.0}", each(&times, times.library.middle), each(&times, times.rust.middle))
    });
}

/// Nanoseconds a token as the Rust reads and in another way, and the second by the first.
struct Ways {
    plain: Spread,
    other: Spread,
    ratio: Spread,
}

/// Another way reads a list as the first one does: the same answer, but for the length in another edition.
fn reads_alike(tables: &mut Tables, list: &List, other: Way) -> bool {
    let [mut one, mut another] = [PLAIN, other].map(|way| tables.read(way, list));
    if other.edition != PLAIN.edition {
        (one[LENGTH], another[LENGTH]) = (0, 0);
    }
    one == another
}

/// A sample of each way a round, over the same tables.
fn measure_ways(list: &List, other: Way, round: usize, rounds: usize) -> Ways {
    let mut tables = Tables::exact(list);
    assert!(reads_alike(&mut tables, list, other), "the list is read otherwise");
    let turns = (round / list.tokens()).max(2);
    let tokens = list.tokens() as f64;
    let (mut plain, mut others, mut ratio) = (vec![], vec![], vec![]);
    for _ in 0..rounds {
        let [a, b] = [PLAIN, other].map(|way| {
            sample(turns, || {
                black_box(tables.read(black_box(way), black_box(list)));
            })
        });
        plain.push(a / tokens);
        others.push(b / tokens);
        ratio.push(b / a);
    }
    Ways { plain: spread(plain), other: spread(others), ratio: spread(ratio) }
}

/// A table of some shapes: another way against the first.
fn against(pace: &Pace, what: &str, shapes: &[Shape], other: Way) {
    println!("{} tokens, {} rounds; least, middle and greatest; nanoseconds a token", pace.tokens, pace.rounds);
    println!();
    println!("{what}");
    println!("|---|---|---|---|");
    for (name, make) in shapes {
        let ways = measure_ways(&make(pace.tokens), other, pace.round, pace.rounds);
        let Spread { least, middle, greatest } = ways.ratio;
        println!("| {name} | {least:.2} {middle:.2} {greatest:.2} | {} | {} |", show(ways.plain), show(ways.other));
    }
}

/// Mode 1 against mode 0 on all shapes, then growth where labels are most of a list.
fn strict(pace: &Pace) {
    print!("Strict reading: ");
    against(pace, "| Shape | Mode 1 / mode 0 | Mode 0 | Mode 1 |", &SHAPES, STRICT);
    println!();
    println!("Growth: nanoseconds a token, middle of {} rounds, mode 0 / mode 1", pace.growth_rounds);
    grown(pace, &LABELLED, &|list| {
        let ways = measure_ways(list, STRICT, pace.round, pace.growth_rounds);
        format!("{:.1} / {:.1}", ways.plain.middle, ways.other.middle)
    });
}

/// Edition 2 against edition 1 on the shapes that are bodies.
fn editions(pace: &Pace) {
    print!("Editions: ");
    against(pace, "| Shape | Edition 2 / edition 1 | Edition 1 | Edition 2 |", &BODIES, SHORT_ZEROS);
}

const COUNTS: [usize; 8] = [1, 10, 100, 500, 1_000, 2_000, 4_000, 8_000];

/// A file of so many shortest macros, a call: least, middle and greatest of the rounds, in microseconds.
fn names(rounds: usize) {
    println!("Files of macros with nothing in them, {rounds} rounds; microseconds a call, least, middle and greatest");
    println!();
    println!("| Names | {} |", COUNTS.map(|n| n.to_string()).join(" | "));
    println!("|---|{}", "---|".repeat(COUNTS.len()));
    for (name, front) in [("short", "M"), ("57 bytes alike in front", "SETTLE_THE_REFUND_OF_AN_ORDER_THAT_THE_STORE_HAS_ACCEPTED")] {
        let cells = COUNTS.map(|count| {
            let list = shapes::names(count, front);
            let mut tables = Tables::exact(&list);
            let turns = (20_000 / list.tokens()).max(1);
            let times = (0..rounds).map(|_| sample(turns, || { black_box(tables.read(PLAIN, black_box(&list))); })).collect();
            let Spread { least, middle, greatest } = spread(times);
            format!("{:.1} {:.1} {:.1}", least / 1e3, middle / 1e3, greatest / 1e3)
        });
        println!("| {name} | {} |", cells.join(" | "));
    }
}

fn main() {
    let asked = |option: &str| std::env::args().any(|word| word == option);
    let pace = if asked("--quick") { QUICK } else { FULL };
    if asked("--names") {
        return names(pace.rounds);
    }
    if asked("--strict") {
        return strict(&pace);
    }
    if asked("--editions") {
        return editions(&pace);
    }
    ratios(&pace);
    growth(&pace);
    if asked("--quick") {
        println!();
        strict(&pace);
        println!();
        editions(&pace);
    }
}
