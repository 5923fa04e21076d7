//! The command `simmerotter`: reads a Huff text and its token list and shows what the proved parser found.
//!
//! Everything that is printed is made in full before the first byte is written.

#![forbid(unsafe_code)]

mod arguments;
mod input;
mod person;
mod place;
mod records;
mod refusal;
mod well_formed;

use arguments::{Entry, Form, Job, Request};
use place::Lines;
use refusal::Site;
use simmerotter::{Mode, Options, Refused, Room};
use std::env;
use std::io::{self, ErrorKind, Write};
use std::process::ExitCode;

/// What is printed, where to, and the status that goes with it.
struct Outcome {
    out: String,
    err: String,
    status: u8,
}

const ACCEPTED: u8 = 0;
const REFUSED: u8 = 1;
const NOT_READ: u8 = 2;

impl Outcome {
    fn accepted(out: String) -> Outcome {
        Outcome { out, err: String::new(), status: ACCEPTED }
    }

    fn not_read(err: String) -> Outcome {
        Outcome { out: String::new(), err, status: NOT_READ }
    }
}

fn main() -> ExitCode {
    let outcome = answer();
    match print(&outcome) {
        Ok(()) => ExitCode::from(outcome.status),
        Err(problem) => {
            // Nobody is left to tell when the reader has gone.
            if problem.kind() != ErrorKind::BrokenPipe {
                let _ = writeln!(io::stderr(), "simmerotter: can't write: {}", problem);
            }
            ExitCode::from(NOT_READ)
        }
    }
}

fn print(outcome: &Outcome) -> io::Result<()> {
    let mut out = io::stdout().lock();
    out.write_all(outcome.out.as_bytes())?;
    out.flush()?;
    io::stderr().lock().write_all(outcome.err.as_bytes())
}

fn answer() -> Outcome {
    match arguments::parse(env::args_os().skip(1)) {
        Ok(Request::Help) => Outcome::accepted(arguments::HELP.to_string()),
        Ok(Request::Read(job)) => read(&job),
        Err(wrong) => Outcome::not_read(wrong.to_string()),
    }
}

fn read(job: &Job) -> Outcome {
    let loaded = input::read_text(&job.text).and_then(|text| Ok((text, input::read_words(&job.words)?)));
    match loaded {
        Ok((text, tokens)) => call(job, &text, &tokens),
        Err(problem) => Outcome::not_read(format!("simmerotter: {}\n", problem)),
    }
}

fn call(job: &Job, text: &[u8], tokens: &[u32]) -> Outcome {
    let lines = Lines::new(text);
    let mut room = Room::with(Options::default().mode(job.mode).edition(job.edition));
    let shown = match job.entry {
        Entry::File => room.read_file(text, tokens).map(|file| match job.form {
            Form::Person => person::file(job, file, text, tokens, &lines),
            Form::Records { places } => records::file(file, tokens, &lines, places),
        }),
        Entry::Body(start) => room.read_body(text, tokens, start).map(|body| match job.form {
            Form::Person => person::body(job, body, tokens, &lines),
            Form::Records { places } => records::body(body, tokens, &lines, places),
        }),
    };
    match shown {
        Ok(out) => Outcome { err: warning(job, text, tokens, &lines), ..Outcome::accepted(out) },
        Err(refused) => refusal_of(job, refused, &Site::new(text, tokens, room.kept(), &lines, refused)),
    }
}

/// What `--strict` would refuse of input that was accepted without it. A person is told unasked; a program gets what it asked for
/// and nothing on standard error.
fn warning(job: &Job, text: &[u8], tokens: &[u32], lines: &Lines) -> String {
    if job.mode == Mode::Strict || job.form != Form::Person {
        return String::new();
    }
    let mut room = Room::with(Options::default().mode(Mode::Strict));
    let refused = match job.entry {
        Entry::File => room.read_file(text, tokens).err(),
        Entry::Body(start) => room.read_body(text, tokens, start).err(),
    };
    match refused {
        Some(refused) => refusal::warning(job, refused, &Site::new(text, tokens, room.kept(), lines, refused)),
        None => String::new(),
    }
}

/// A refusal is a message for a person, but an answer like any other for a program.
fn refusal_of(job: &Job, refused: Refused, site: &Site) -> Outcome {
    match job.form {
        Form::Person => Outcome { out: String::new(), err: refusal::message(job, refused, site), status: REFUSED },
        Form::Records { .. } => Outcome { out: records::refused(job, refused, site), err: String::new(), status: REFUSED },
    }
}
