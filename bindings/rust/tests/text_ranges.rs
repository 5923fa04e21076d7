//! Where definitions stand in the text: rows by hand, and files made by chance with bytes of all sorts between the tokens.

mod common;

use common::{assert_text_ranges, refusal, room_in, token_of, Chance, Lists, Source, FILL};
use simmerotter::raw::Answer;
use simmerotter::{push_token, Kind, Mode, Room, MAX_TEXT};
use std::ops::Range;

const CONSTANT: &str = "#define constant C = 0x01";
const FILES: usize = 3_000;

/// Adds a definition's tokens, with what `gap` puts between each two.
fn put_definition(source: &mut Source, line: &str, mut gap: impl FnMut(&mut Source)) {
    for (index, word) in line.split(' ').enumerate() {
        if index > 0 {
            gap(source);
        }
        let (kind, text, extra) = token_of(word);
        source.put(kind, text, extra);
    }
}

/// Adds bytes: a token of this kind, or none.
fn put_bytes(source: &mut Source, kind: Option<Kind>, bytes: &str) {
    match kind {
        Some(kind) if !bytes.is_empty() => source.put(kind, bytes, 0),
        _ => source.text.extend_from_slice(bytes.as_bytes()),
    }
}

fn space(source: &mut Source) {
    source.put(Kind::Whitespace, " ", 0);
}

/// The ranges of a file that is accepted in both modes.
fn ranges(source: &Source) -> Vec<Range<usize>> {
    let [lenient, strict] = Mode::ALL.map(|mode| {
        let mut room = room_in(mode);
        let file = room.read_file(&source.text, &source.tokens).expect("a file that follows the rules");
        assert_text_ranges(file, &source.text);
        file.definitions().map(|one| one.text_range()).collect::<Vec<_>>()
    });
    assert_eq!(lenient, strict);
    lenient
}

/// A constant between bytes that are a token of white space, one of a comment, or none.
#[test]
fn what_stands_before_moves_both_ends_and_what_stands_behind_neither() {
    let parts = ["", " ", "\n\t \r\n", "/* a */", "// #define constant C = 0x01\n", "/* ü */"];
    let kinds = [Some(Kind::Whitespace), Some(Kind::Comment), None];
    for (before, behind) in parts.into_iter().flat_map(|before| parts.map(|behind| (before, behind))) {
        for kind in kinds {
            let mut source = Source::new();
            put_bytes(&mut source, kind, before);
            put_definition(&mut source, CONSTANT, space);
            put_bytes(&mut source, kind, behind);
            let source = source.end();
            let mut room = Room::new();
            let file = room.read_file(&source.text, &source.tokens).expect("a constant");
            let start = before.len() as u32;
            assert_eq!(file.definition_words(), [4, 2, 0, 5, 0, 0, 0, 0, 0, 0, 1, 4, start, start + 25]);
            let definition = file.definition(0).expect("a constant");
            assert_eq!(definition.text_range(), before.len()..before.len() + 25);
            assert_eq!(definition.text(), CONSTANT.as_bytes());
        }
    }
}

#[test]
fn what_stands_between_its_tokens_is_a_definition_s() {
    let mut source = Source::new();
    put_definition(&mut source, "#define constant C", |source| put_bytes(source, Some(Kind::Comment), "/* } */"));
    put_bytes(&mut source, None, "\u{fffd} ");
    put_definition(&mut source, "= 0x01", |source| put_bytes(source, Some(Kind::Whitespace), "\n\n"));
    let end = source.text.len();
    put_bytes(&mut source, Some(Kind::Comment), "// of the next one\n");
    let next = source.text.len();
    put_definition(&mut source, "#include \"a\"", space);
    let source = source.end();
    assert_eq!(ranges(&source), [0..end, next..source.text.len()]);
    let wanted = "#define/* } */constant/* } */C\u{fffd} =\n\n0x01";
    assert_eq!(&source.text[..end], wanted.as_bytes());
}

#[test]
fn a_table_of_13_words_has_room_for_no_definition() {
    for (count, words) in [(1, 13), (1, 12), (1, 0), (2, 27), (2, 24), (2, 14)] {
        let (answer, definitions) = read_constants(count, words);
        assert_eq!(answer, refusal(32, count as u64), "{} words", words);
        assert!(definitions.iter().all(|word| *word == 0));
    }
    for (count, words) in [(1, 14), (1, 27), (2, 28), (2, 29)] {
        let (answer, definitions) = read_constants(count, words);
        assert_eq!(answer, [0, 5 * count as u64, count as u64, 0, 0, 0, 0], "{} words", words);
        let ends: Vec<_> = definitions.chunks_exact(14).map(|record| [record[12], record[13]]).collect();
        assert_eq!(ends, [[0, 25], [26, 51]][..count]);
        assert!(definitions[14 * count..].iter().all(|word| *word == 0));
    }
}

/// So many constants, one behind the other, into a table of so many words: the answer and the table.
fn read_constants(count: usize, words: usize) -> (Answer, Vec<u32>) {
    let source = Source::of_lines(&vec![CONSTANT; count]);
    let mut lists = Lists::filled([5 * count + 1, words, 0, 0], FILL);
    (lists.read_file(Mode::Lenient.number(), &source.text, &source.tokens), lists.definitions)
}

/// A string's token may have its quotes or not, and an import's may have no text at all.
#[test]
fn an_import_ends_with_its_string() {
    for (text, include, string, wanted) in [
        ("#include \"a\" ", 0..8, 9..12, "#include \"a\""),
        ("#include \"a\" ", 0..8, 10..11, "#include \"a"),
        ("#include \"\" ", 0..8, 9..11, "#include \"\""),
        ("#include \"\" ", 0..8, 10..10, "#include \""),
        (" #include", 1..9, 9..9, "#include"),
        ("abc", 1..1, 2..2, "b"),
        ("abc", 3..3, 3..3, ""),
        ("", 0..0, 0..0, ""),
    ] {
        let mut tokens = Vec::new();
        push_token(&mut tokens, Kind::Include, include.start, include.end, 0);
        push_token(&mut tokens, Kind::Str, string.start, string.end, 0);
        push_token(&mut tokens, Kind::Eof, text.len() as u32, text.len() as u32, 0);
        let range = include.start as usize..string.end as usize;
        assert_eq!(&text[range.clone()], wanted);
        assert_eq!(ranges(&Source { text: text.as_bytes().to_vec(), tokens }), [range], "{}", text);
    }
}

#[test]
fn definitions_without_text_have_empty_ranges_one_behind_the_other() {
    let mut source = Source::new();
    for bytes in ["", "", "ab", ""] {
        put_bytes(&mut source, None, bytes);
        source.put(Kind::Include, "", 0);
        source.put(Kind::Str, "", 0);
    }
    assert_eq!(ranges(&source.end()), [0..0, 0..0, 2..2, 2..2]);
}

#[test]
fn a_range_may_reach_the_end_of_the_longest_text() {
    let mut source = Source::new();
    source.line("#include \"a\"");
    source.put(Kind::Comment, &"c".repeat(MAX_TEXT / 2), 0);
    let start = source.text.len();
    source.put(Kind::Include, "#include", 0);
    let between = " ".repeat(MAX_TEXT - source.text.len() - 3);
    source.put(Kind::Whitespace, &between, 0);
    source.put(Kind::Str, "\"b\"", 0);
    assert_eq!(ranges(&source.end()), [0..12, start..MAX_TEXT]);
}

/// Each kind of definition; `NAME` stands for a name of its own.
const DEFINITIONS: [&str; 12] = [
    "#include \"a\"",
    "#define function NAME ( %uint256 calldata a , %address ) view returns ( %bool )",
    "#define event NAME ( %address indexed a )",
    "#define error NAME ( )",
    "#define constant NAME = FREE",
    "#define constant NAME = 0x0f",
    "#define macro NAME ( a ) = takes ( 1 ) { < a > [ C ] op55 ~go : op60 0x01 F ( a , 0x02 ) }",
    "#define fn NAME ( ) = { }",
    "#define test NAME ( ) = returns ( 7 ) { @err ( \"s\" ) }",
    "#define jumptable NAME { x y }",
    "#define packed NAME ( ) = { x }",
    "#define table NAME { abc d }",
];

/// White space, comments and bytes that no token has, some of them no UTF-8; often nothing.
fn put_gap(source: &mut Source, chance: &mut Chance) {
    for _ in 0..chance.below(3) {
        match chance.below(4) {
            0 => source.put(Kind::Whitespace, [" ", "\n", "", "\t\t "][chance.below(4)], 0),
            1 => source.put(Kind::Comment, ["/**/", "// #define\n", "ü", ""][chance.below(4)], 0),
            2 => source.text.extend([&b"}"[..], b"\xff", b"\0#define", b""][chance.below(4)]),
            _ => {}
        }
    }
}

/// A file, and the bytes that each of its definitions was written to.
fn file_by_chance(chance: &mut Chance) -> (Source, Vec<Range<usize>>) {
    let mut source = Source::new();
    let mut written = Vec::new();
    for number in 0..chance.below(6) {
        put_gap(&mut source, chance);
        let start = source.text.len();
        let line = DEFINITIONS[chance.below(12)].replace("NAME", &format!("n{}", number));
        put_definition(&mut source, &line, |source| put_gap(source, chance));
        written.push(start..source.text.len());
    }
    put_gap(&mut source, chance);
    (source.end(), written)
}

#[test]
fn files_by_chance_have_the_ranges_that_were_written() {
    let mut chance = Chance::new(7);
    let mut definitions = 0;
    for _ in 0..FILES {
        let (source, written) = file_by_chance(&mut chance);
        assert_eq!(ranges(&source), written);
        definitions += written.len();
    }
    println!("{} definitions in {} files by chance, each where it was written", definitions, FILES);
    assert!(definitions > 2 * FILES, "only {} definitions", definitions);
}
