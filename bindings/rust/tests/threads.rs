//! Calls share nothing: threads that call at once get the answers that one thread gets, each with lists of its own.

mod common;

use common::{cases, room_in, Case, Chance, Left, Source};
use simmerotter::{Mode, Room};
use std::sync::{Arc, Barrier};
use std::thread;

/// Every thread reads the whole list so often.
const ROUNDS: usize = 3;

#[test]
fn two_threads_answer_like_one() {
    assert_threads_answer_like_one(2);
}

#[test]
fn four_threads_answer_like_one() {
    assert_threads_answer_like_one(4);
}

/// A case, and the edition in which it is read in place of its own, which need not be one.
struct Asked {
    case: Case,
    edition: u32,
}

impl Asked {
    fn call(&self) -> Left {
        self.case.call_in(self.edition)
    }
}

fn assert_threads_answer_like_one(count: usize) {
    let mut chance = Chance::new(3);
    let asked = cases().into_iter().map(|case| Asked { case, edition: chance.edition() });
    let cases: Arc<Vec<Asked>> = Arc::new(asked.collect());
    let alone: Arc<Vec<Left>> = Arc::new(cases.iter().map(Asked::call).collect());
    let start = Arc::new(Barrier::new(count));
    let threads: Vec<_> = (0..count)
        .map(|thread| {
            let (cases, alone, start) = (cases.clone(), alone.clone(), start.clone());
            thread::spawn(move || {
                start.wait();
                compare(&cases, &alone, thread * cases.len() / count)
            })
        })
        .collect();
    let compared: usize = threads.into_iter().map(|thread| thread.join().expect("a thread without a difference")).sum();
    println!("{} threads: {} calls as one thread makes them", count, compared);
    assert!(compared >= 3_000 * ROUNDS * count);
}

/// Starts at another case in each thread, so that files and bodies of all sorts are read at the same time.
fn compare(cases: &[Asked], alone: &[Left], offset: usize) -> usize {
    let order = (0..ROUNDS * cases.len()).map(|index| (offset + index) % cases.len());
    order
        .map(|index| {
            assert_eq!(cases[index].call(), alone[index], "line {}", cases[index].case.line);
        })
        .count()
}

/// The beginning of a file. It has more than 12,288 kept tokens: the archive then takes its largest table of names.
fn macros() -> Source {
    let mut source = Source::new();
    (0..2_000).for_each(|number| source.line(&format!("#define macro M{} ( ) = {{ }}", number)));
    source
}

fn many_macros() -> Source {
    macros().end().without_space()
}

#[test]
fn large_files_are_read_at_once() {
    let source = Arc::new(many_macros());
    let threads: Vec<_> = (0..4)
        .map(|_| {
            let source = source.clone();
            thread::spawn(move || names(&source))
        })
        .collect();
    for thread in threads {
        assert_eq!(thread.join().expect("a thread that has read its file"), names(&source));
    }
    assert_eq!(names(&source).len(), 2_000);
}

/// A lenient call takes up to about 70 KB, and what the thread does besides comes on top. Half a megabyte has to do for both, or
/// the thread would end by a fault.
#[test]
fn half_a_megabyte_of_stack_suffices() {
    let source = many_macros();
    let thread = thread::Builder::new().stack_size(512 * 1024).spawn(move || names(&source).len());
    assert_eq!(thread.expect("a thread").join().expect("its answer"), 2_000);
}

/// A body of more than 8,192 tokens has the largest table of labels, which strict reading takes besides that of names.
fn many_macros_and_labels() -> Source {
    let mut source = macros();
    source.line("#define macro LAST ( ) = {");
    (0..10_000).for_each(|number| source.line(&format!("~l{} :", number)));
    source.line("}");
    source.end().without_space()
}

/// A strict call takes up to about 400 KB.
#[test]
fn a_megabyte_of_stack_suffices_in_strict_mode() {
    let source = many_macros_and_labels();
    let read = move || {
        let mut room = room_in(Mode::Strict);
        room.read_file(&source.text, &source.tokens).map(|file| file.all_statements().count())
    };
    let thread = thread::Builder::new().stack_size(1024 * 1024).spawn(read);
    assert_eq!(thread.expect("a thread").join().expect("its answer"), Ok(10_000));
}

fn names(source: &Source) -> Vec<Vec<u8>> {
    let mut room = Room::new();
    let file = room.read_file(&source.text, &source.tokens).expect("a file that follows the rules");
    file.definitions().map(|definition| definition.name().to_vec()).collect()
}
