//! The command line and its statuses.

mod common;

use common::{command, path, run, wrong, Input, Run};
use std::fs;
use std::process::Stdio;

fn help() -> String {
    run(&["--help"]).out
}

#[test]
fn help_is_printed_on_standard_output() {
    let found = run(&["--help"]);
    assert_eq!((found.status, found.err.as_str()), (Some(0), ""));
    let options = ["--body PLACE", "--strict", "--edition N", "--records", "--places", "--help"];
    for part in options.into_iter().chain(["simmerotter TEXT WORDS", "Example:"]) {
        assert!(found.out.contains(part), "{}", part);
    }
}

#[test]
fn help_wins_over_what_else_is_given() {
    assert_eq!(run(&["nowhere", "--records", "--help"]), Run { out: help(), err: String::new(), status: Some(0) });
}

#[test]
fn no_argument_prints_the_help_as_an_error() {
    assert_eq!(run::<&str>(&[]), Run { out: String::new(), err: help(), status: Some(2) });
}

#[test]
fn wrong_usage_is_named() {
    assert_eq!(wrong(&["--record", "a", "b"]), "simmerotter: unknown option --record");
    assert_eq!(wrong(&["-r", "a", "b"]), "simmerotter: unknown option -r");
    assert_eq!(wrong(&["--records", "a", "b", "--records"]), "simmerotter: --records is given twice");
    assert_eq!(wrong(&["--strict", "--strict", "a", "b"]), "simmerotter: --strict is given twice");
    assert_eq!(wrong(&["--strict=1", "a", "b"]), "simmerotter: unknown option --strict=1");
    assert_eq!(wrong(&["--strict"]), "simmerotter: two paths are needed, TEXT and WORDS; 0 given");
    assert_eq!(wrong(&["--body", "1", "--body", "1", "a", "b"]), "simmerotter: --body is given twice");
    assert_eq!(wrong(&["--places", "a", "b"]), "simmerotter: --places goes with --records");
    assert_eq!(wrong(&["a"]), "simmerotter: two paths are needed, TEXT and WORDS; 1 given");
    assert_eq!(wrong(&["--records"]), "simmerotter: two paths are needed, TEXT and WORDS; 0 given");
    assert_eq!(wrong(&["a", "b", "c"]), "simmerotter: two paths are needed, TEXT and WORDS; 3 given");
}

#[test]
fn a_place_is_a_number() {
    assert_eq!(wrong(&["--body"]), "simmerotter: --body needs a place from 0 to 4294967295");
    for place in ["", "-1", "+1", "0x1", "1.0", "4294967296", "99999999999999999999999", "text"] {
        let message = format!("simmerotter: --body needs a place from 0 to 4294967295, not {}", place);
        assert_eq!(wrong(&["--body", place, "a", "b"]), message);
    }
}

#[test]
fn an_option_shown_does_not_steer_the_terminal() {
    assert_eq!(wrong(&["--\u{1b}[31m"]), "simmerotter: unknown option --?[31m");
}

#[test]
fn options_may_stand_anywhere() {
    let input = Input::new("usage_anywhere", b"{}", &[29, 0, 1, 0, 30, 1, 2, 0, 0, 2, 2, 0]);
    let first = input.run(&["--body", "0", "--records"]);
    assert_eq!(first.out, "body 0 2 0 0 0 1 0 0\n");
    let last = run(&[input.text.as_os_str(), input.words.as_os_str(), "--records".as_ref(), "--body".as_ref(), "0".as_ref()]);
    assert_eq!(last, first);
}

#[test]
fn paths_that_look_like_options_stand_behind_two_dashes() {
    let folder = path("usage_dashes");
    fs::create_dir_all(&folder).unwrap();
    fs::write(folder.join("--help"), b"").unwrap();
    fs::write(folder.join("-w"), [0; 16]).unwrap();
    let done = command().current_dir(&folder).args(["--records", "--", "--help", "-w"]).output().unwrap();
    assert_eq!((done.stdout.as_slice(), done.status.code()), (&b"file 0 0 0 0 0 0 0\n"[..], Some(0)));
}

#[cfg(unix)]
#[test]
fn paths_need_not_be_utf8() {
    use std::ffi::OsStr;
    use std::os::unix::ffi::OsStrExt;
    let text = path("usage_").join("..").join(OsStr::from_bytes(b"usage_\xff.huff"));
    fs::create_dir_all(path("usage_")).unwrap();
    fs::write(&text, b"x").unwrap();
    let words = path("usage_utf8.words");
    fs::write(&words, common::bytes_of(&[38, 0, 1, 0, 0, 1, 1, 0])).unwrap();
    let found = run(&[text.as_os_str(), words.as_os_str()]);
    assert_eq!(found.status, Some(1));
    assert!(found.err.contains("usage_\u{fffd}.huff:1:1: 1 UnexpectedType: "), "{}", found.err);
}

#[test]
fn a_reader_that_goes_away_ends_it_quietly() {
    // An output larger than a pipe holds: the command is still writing when the reading end is closed.
    let text = "stop ".repeat(40_000);
    let mut words: Vec<u32> = vec![29, 0, 0, 0];
    for i in 0..40_000 {
        words.extend([41, 5 * i, 5 * i + 4, 0]);
    }
    words.extend([30, 200_000, 200_000, 0, 0, 200_000, 200_000, 0]);
    let input = Input::new("usage_pipe", text.as_bytes(), &words);
    let mut command = command();
    command.args(["--body", "0"]).arg(&input.text).arg(&input.words);
    let mut child = command.stdout(Stdio::piped()).stderr(Stdio::piped()).spawn().unwrap();
    drop(child.stdout.take());
    let done = child.wait_with_output().unwrap();
    assert_eq!((done.status.code(), String::from_utf8(done.stderr).unwrap()), (Some(2), String::new()));
}

#[cfg(target_os = "linux")]
#[test]
fn an_output_that_is_full_is_named() {
    let full = fs::OpenOptions::new().write(true).open("/dev/full").unwrap();
    let done = command().arg("--help").stdout(full).stderr(Stdio::piped()).output().unwrap();
    let message = String::from_utf8(done.stderr).unwrap();
    assert!(message.starts_with("simmerotter: can't write: "), "{}", message);
    assert_eq!((done.status.code(), message.matches('\n').count()), (Some(2), 1));
}
