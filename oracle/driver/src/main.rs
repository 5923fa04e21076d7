//! Runs the unchanged Rust parser on cases and writes its answers.
//!
//! Cases on standard input, answers on standard output, a line each, in the format of
//! docs/CASES.md. Beside the answers of document 01 there are
//!
//! * `PANIC`: the Rust panicked;
//! * `X_name`: the Rust refused for a reason that has no number in document 01, or read a
//!   decorator (`X_Decorator`), or can't hold one of the tokens (`X_CannotHold`);
//! * `X_Strict`: the case is in mode 1, which the Rust doesn't know;
//! * `X_NotACase`, `X_TooLarge`: the line is no case, or asks for more than the driver lends;
//! * `X_DriverLost`: what the driver derives doesn't fit the nodes. It never should.
//!
//! `driver --unformed` runs the Rust on lists that are not well formed too, instead of answering 30,
//! and doesn't look at the length of the kept list. `driver --raw` prints the Rust's own result, its
//! nodes or its error, as Rust shows it; a span's start is the token's place.
//!
//! What the nodes don't hold the driver derives: 30, 31, 35, 36, 38, 32 to 34, the kept list, the
//! ranges that are wider than the nodes' spans, imports' places, the bytes of the text that a
//! definition's spans stand for, the arguments of calls, the forms of a builtin's arguments, record
//! numbers, the plain length, in either edition, and the numbers of the type that the Rust's refusal 7
//! holds. docs/DIFFERENCES.md says so.

mod case;
mod nodes;
mod tokens;

use case::{Case, Lent};
use std::io::{self, BufRead, Write};

/// Mode 1, strict reading; 0 is the Rust's own, and there are no others.
const STRICT: u32 = 1;
/// The editions of the plain length. The Rust has neither: the driver adds up both.
const FIRST: u32 = 1;
const SECOND: u32 = 2;

/// What the options ask for.
#[derive(Clone, Copy, Default)]
struct Ways {
    unformed: bool,
    raw: bool,
}

fn main() {
    let mut ways = Ways::default();
    for option in std::env::args().skip(1) {
        match option.as_str() {
            "--unformed" => ways.unformed = true,
            "--raw" => ways.raw = true,
            _ => {
                println!("usage: driver [--unformed] [--raw] < cases > answers (docs/CASES.md)");
                std::process::exit(if option == "--help" { 0 } else { 2 });
            }
        }
    }
    // A panic is an answer, so its message isn't wanted.
    std::panic::set_hook(Box::new(|_| {}));
    let worker = std::thread::Builder::new()
        .stack_size(256 << 20)
        .spawn(move || serve(ways))
        .expect("a thread");
    if !matches!(worker.join(), Ok(Ok(()))) {
        std::process::exit(1);
    }
}

fn serve(ways: Ways) -> io::Result<()> {
    let mut input = io::BufReader::with_capacity(1 << 20, io::stdin().lock());
    let mut output = io::BufWriter::with_capacity(1 << 20, io::stdout().lock());
    let mut line = Vec::new();
    loop {
        line.clear();
        if input.read_until(b'\n', &mut line)? == 0 {
            return output.flush();
        }
        if line.last() == Some(&b'\n') {
            line.pop();
        }
        let answer = match Case::read(&line) {
            Ok(case) => answer(&case, ways),
            Err(why) => why.to_string(),
        };
        output.write_all(answer.as_bytes())?;
        output.write_all(b"\n")?;
    }
}

fn answer(case: &Case, ways: Ways) -> String {
    let mut lent = Lent::new(case);

    // The door: 36, 38, 30, 35, 31, in this order, with nothing lent changed.
    if case.mode > STRICT {
        return lent.refuse(36, 0);
    }
    if !matches!(case.edition, None | Some(FIRST | SECOND)) {
        return lent.refuse(38, 0);
    }
    if !ways.unformed {
        if let Some(bad) = tokens::first_bad(&case.text, &case.words) {
            return lent.refuse(30, bad as u32);
        }
    }
    let kept = tokens::kept(&case.words);
    if !ways.unformed && case.kept < kept.len() {
        return lent.refuse(35, kept.len() as u32);
    }
    if !ways.unformed && case.body && case.start as usize >= kept.len() {
        return lent.refuse(31, case.start);
    }

    // Only now may the case be out of reach of the Rust.
    if case.mode == STRICT {
        return "X_Strict".to_string();
    }
    let list = match tokens::build(&case.text, &case.words) {
        Some(list) => list,
        None => return "X_CannotHold".to_string(),
    };
    if ways.raw {
        let shown = std::panic::catch_unwind(|| nodes::raw(list, case.body, case.start as usize));
        return shown.unwrap_or_else(|_| "PANIC".to_string());
    }
    lent.write_kept(&kept);
    let read = std::panic::catch_unwind(|| match case.edition {
        Some(edition) => nodes::read_body(list, case.start as usize, edition),
        None => nodes::read_file(list, &tokens::ranges(&case.words)),
    });
    match read {
        Err(_) => "PANIC".to_string(),
        Ok(Err(nodes::No::Number(number, cursor, told))) => {
            lent.zero_tables();
            lent.refuse_telling(number, cursor as u32, told)
        }
        Ok(Err(nodes::No::Other(name))) => format!("X_{name}"),
        Ok(Ok(found)) => lent.settle(case, &found),
    }
}
