//! Files that can't be read, are too large or are no token list.

mod common;

use common::{bytes_of, path, run, Input, Run};
use std::ffi::OsStr;
use std::fs;
use std::path::Path;

const EOF: [u32; 4] = [0, 0, 0, 0];

/// The message of a run that read nothing.
fn problem(text: &Path, words: &Path) -> String {
    let Run { out, err, status } = run(&[text.as_os_str(), words.as_os_str()]);
    assert_eq!((out.as_str(), status), ("", Some(2)), "{}", err);
    assert_eq!(err.matches('\n').count(), 1, "one line");
    err.trim_end().to_string()
}

#[test]
fn a_missing_file_is_named_whichever_it_is() {
    let input = Input::new("inputs_missing", b"", &EOF);
    let nowhere = path("inputs_nowhere");
    let message = format!("simmerotter: can't read {}: No such file or directory", nowhere.display());
    assert!(problem(&nowhere, &input.words).starts_with(&message));
    assert!(problem(&input.text, &nowhere).starts_with(&message));
}

#[test]
fn a_directory_is_no_text() {
    let input = Input::new("inputs_directory", b"", &EOF);
    let folder = Path::new(env!("CARGO_TARGET_TMPDIR"));
    let message = format!("simmerotter: can't read {}: ", folder.display());
    assert!(problem(folder, &input.words).starts_with(&message));
    assert!(problem(&input.text, folder).starts_with(&message));
}

#[test]
fn an_empty_path_is_no_file() {
    let input = Input::new("inputs_empty_path", b"", &EOF);
    assert!(problem(Path::new(""), &input.words).starts_with("simmerotter: can't read : No such file"));
}

#[test]
fn a_text_above_the_limit_is_refused_with_its_size() {
    let input = Input::new("inputs_long_text", &vec![b' '; 1_048_576], &EOF);
    assert_eq!(input.run(&["--records"]).out, "file 0 0 0 0 0 0 0\n", "the limit itself is allowed");
    fs::write(&input.text, vec![b' '; 1_048_577]).unwrap();
    let message = "is too large: 1048577 bytes, and a text has at most 1048576";
    assert_eq!(problem(&input.text, &input.words), format!("simmerotter: {} {}", input.text.display(), message));
}

#[test]
fn a_list_above_the_limit_is_refused_with_its_size() {
    let mut words = [1, 0, 0, 0].repeat(65_535);
    words.extend(EOF);
    let input = Input::new("inputs_long_list", b"", &words);
    assert_eq!(input.run(&["--records"]).out, "file 0 0 0 0 0 0 0\n", "the limit itself is allowed");
    words.push(0);
    fs::write(&input.words, bytes_of(&words)).unwrap();
    let message = "is too large: 1048580 bytes, and a token list has at most 1048576";
    assert_eq!(problem(&input.text, &input.words), format!("simmerotter: {} {}", input.words.display(), message));
}

#[cfg(unix)]
#[test]
fn what_has_no_end_is_not_read_to_it() {
    let zero = Path::new("/dev/zero");
    let input = Input::new("inputs_endless", b"", &EOF);
    let [text, list] =
        ["a text", "a token list"].map(|what| format!("simmerotter: /dev/zero is too large: {} has at most 1048576 bytes", what));
    assert_eq!(problem(zero, &input.words), text);
    assert_eq!(problem(&input.text, zero), list);
}

#[cfg(unix)]
#[test]
fn a_pipe_is_read_like_a_file() {
    use std::io::Write;
    use std::process::Stdio;
    let input = Input::new("inputs_pipe", b"", &EOF);
    let mut command = common::command();
    command.args([OsStr::new("--records"), OsStr::new("/dev/stdin"), input.words.as_os_str()]);
    let mut child = command.stdin(Stdio::piped()).stdout(Stdio::piped()).spawn().unwrap();
    child.stdin.take().unwrap().write_all(b"// nothing").unwrap();
    assert_eq!(child.wait_with_output().unwrap().stdout, b"file 0 0 0 0 0 0 0\n");
}

#[test]
fn bytes_that_are_no_words_are_no_list() {
    let input = Input::new("inputs_odd", b"", &EOF);
    for length in [1, 2, 3, 5, 15, 17] {
        fs::write(&input.words, vec![0; length]).unwrap();
        let message = format!("is no token list: its {} bytes are not whole words of four bytes", length);
        assert_eq!(problem(&input.text, &input.words), format!("simmerotter: {} {}", input.words.display(), message));
    }
}

#[test]
fn words_are_little_endian() {
    let input = Input::new("inputs_order", b"{}", &[]);
    let mut bytes = vec![29, 0, 0, 0, 0, 0, 0, 0, 1, 0, 0, 0, 0, 0, 0, 0];
    bytes.extend(bytes_of(&[30, 1, 2, 0, 0, 2, 2, 0]));
    fs::write(&input.words, bytes).unwrap();
    assert_eq!(input.accepted(&["--records", "--body", "0"]), "body 0 2 0 0 0 1 0 0\n");
}
