//! The form for programs, against the library's own answer.

mod common;

use common::{cut, Input};
use simmerotter::{raw, Edition, Mode, Room, NONE};

const FILE: &str = "\
#include \"a\"
#define constant C = 0x0a
#define macro M ( a , calldata b ) = takes ( 2 ) returns ( 1 ) { F ( 0x01 , < a > ) go : [ C ] push1 __x ( \"s\" ) }
#define event E ( address indexed a , uint256 )
#define table K { abc d }
";

/// The lines that the tables of an answer make: its first line, then each table's records in order.
fn lines_of(first: String, tables: &[(&str, usize, usize, &[u32])]) -> String {
    let mut lines = first + "\n";
    for (name, width, count, words) in tables {
        for number in 0..*count {
            let record: Vec<String> = words[width * number..width * (number + 1)].iter().map(u32::to_string).collect();
            lines += &format!("{} {} {}\n", name, number, record.join(" "));
        }
    }
    lines
}

#[test]
fn a_file_is_the_library_s_answer_and_tables() {
    let words = cut(FILE);
    let room = words.len();
    let (mut kept, mut definitions) = (vec![0; room], vec![0; 3 * room]);
    let (mut statements, mut arguments) = (vec![0; 2 * room], vec![0; 2 * room]);
    let mode = Mode::Lenient.number();
    let answer = raw::read_file(mode, FILE.as_bytes(), &words, &mut kept, &mut definitions, &mut statements, &mut arguments);
    let [number, cursor, d, s, a, kind, size] = answer;
    assert_eq!((number, d, s, a), (0, 5, 7, 7));
    let wanted = lines_of(
        format!("file {} {} {} {} {} {} {}", number, cursor, d, s, a, kind, size),
        &[
            ("definition", 14, d as usize, &definitions),
            ("statement", 8, s as usize, &statements),
            ("argument", 7, a as usize, &arguments),
        ],
    );
    let input = Input::new("records_file", FILE.as_bytes(), &words);
    assert_eq!(input.accepted(&["--records"]), wanted);
}

#[test]
fn a_body_is_the_library_s_answer_and_tables() {
    let text = "{ push1 0x01 F ( a ) go : stop }";
    let words = cut(text);
    let (mut kept, mut statements, mut arguments) = (vec![0; 20], vec![0; 80], vec![0; 70]);
    let (mode, edition) = (Mode::Lenient.number(), Edition::First.number());
    let answer = raw::read_body(mode, edition, text.as_bytes(), &words, 0, &mut kept, &mut statements, &mut arguments);
    let [number, cursor, s, a, length, kind, size] = answer;
    assert_eq!((number, s, a, length), (0, 5, 1, u64::from(NONE)));
    let wanted = lines_of(
        format!("body {} {} {} {} {} {} {} {}", number, cursor, s, a, length, edition, kind, size),
        &[("statement", 8, s as usize, &statements), ("argument", 7, a as usize, &arguments)],
    );
    let input = Input::new("records_body", text.as_bytes(), &words);
    assert_eq!(input.accepted(&["--records", "--body", "0"]), wanted);
}

#[test]
fn a_body_s_edition_stands_behind_its_plain_length() {
    let text = "{ push4 0x01 stop }";
    let input = Input::new("records_length", text.as_bytes(), &cut(text));
    let found = input.accepted(&["--body", "0", "--records"]);
    assert_eq!(found.lines().next(), Some("body 0 5 3 0 6 1 0 0"));
}

#[test]
fn places_are_added_when_asked_for() {
    let text = "{ a :\n\tü stop }";
    let input = Input::new("records_places", text.as_bytes(), &cut(text));
    let plain = input.accepted(&["--records", "--body", "0"]);
    let places = "place 0 0 1 1\nplace 1 1 1 3\nplace 2 2 1 5\nplace 3 3 2 2\nplace 4 4 2 4\nplace 5 5 2 9\nplace 6 6 2 10\n";
    assert_eq!(input.accepted(&["--records", "--places", "--body", "0"]), plain + places);
}

#[test]
fn places_name_kept_tokens_only() {
    let input = Input::new("records_kept", b" {}", &[1, 0, 1, 0, 29, 1, 2, 0, 30, 2, 3, 0, 0, 3, 3, 0]);
    let found = input.accepted(&["--records", "--places", "--body", "0"]);
    assert_eq!(found, "body 0 2 0 0 0 1 0 0\nplace 0 1 1 2\nplace 1 2 1 3\nplace 2 3 1 4\n");
}

/// A refusal's lines; nothing on standard error, for the answer is the answer.
fn refused(name: &str, text: &str, words: &[u32], options: &[&str]) -> String {
    let run = Input::new(name, text.as_bytes(), words).run(&[&["--records"], options].concat());
    assert_eq!((run.status, run.err.as_str()), (Some(1), ""));
    run.out
}

#[test]
fn a_refusal_at_a_place() {
    let text = "#define macro M ( ) = {\n push1 0x0100 }";
    let found = refused("records_refused", text, &cut(text), &[]);
    assert_eq!(found, "file 4 9 0 0 0 0 0\nrefused 4 InvalidPush 9 9 2 15\n");
    let found = refused("records_refused_body", text, &cut(text), &["--body", "6", "--places"]);
    assert_eq!(found, "body 4 9 0 0 0 1 0 0\nrefused 4 InvalidPush 9 9 2 15\n");
}

#[test]
fn a_refusal_without_a_place_has_dashes() {
    let list = [0, 0, 0, 0];
    let found = refused("records_31", "", &list, &["--body", "8"]);
    assert_eq!(found, "body 31 8 0 0 0 1 0 0\nrefused 31 StartOutside 8 - - -\n");
    assert_eq!(refused("records_30", "", &list[..3], &[]), "file 30 0 0 0 0 0 0\nrefused 30 NotWellFormed 0 - - -\n");
    let far = [38, 9, 9, 0, 0, 9, 9, 0];
    assert_eq!(refused("records_30b", "", &far, &[]), "file 30 0 0 0 0 0 0\nrefused 30 NotWellFormed 0 0 - -\n");
    let near = [1, 0, 1, 0, 38, 1, 1, 0, 0, 2, 2, 0];
    assert_eq!(refused("records_30c", "\n\n", &near, &[]), "file 30 1 0 0 0 0 0\nrefused 30 NotWellFormed 1 1 2 1\n");
}

#[test]
fn the_largest_list_fits() {
    // 32,767 imports of an empty string: the most definitions that a list can hold, and Eof.
    let mut words = [3, 0, 0, 0, 43, 0, 0, 0].repeat(32_767);
    words.extend([1, 0, 0, 0, 0, 0, 0, 0]);
    let found = Input::new("records_most", b"", &words).accepted(&["--records"]);
    assert_eq!(found.lines().count(), 32_768);
    assert!(found.starts_with("file 0 65534 32767 0 0 0 0\n"));
    assert!(found.lines().skip(1).all(|line| line.split(' ').count() == 2 + 14));
    assert!(Room::new().read_file(b"", &words).is_ok());
}
