//! Which type's name was refused: 7 with its type and size, through the archive and through rooms.

mod common;

use common::{answer_of, cases, refusal, Chance, Lists, Setting, Source, SETTINGS};
use simmerotter::raw::Answer;
use simmerotter::{token_at, Kind, Refused, ReservedType};
use std::collections::HashMap;

/// A type's number and size as an answer has them.
type Told = [u64; 2];

const NO_TYPE: Told = [0, 0];

/// The reserved names of the rules.
fn types() -> HashMap<String, Told> {
    let bare =
        [("address", [1, 0]), ("bool", [2, 0]), ("string", [3, 0]), ("bytes", [4, 0]), ("uint", [5, 256]), ("int", [6, 256])];
    let mut types: HashMap<_, _> = bare.into_iter().map(|(name, told)| (name.to_string(), told)).collect();
    for bits in (8..=256).step_by(8) {
        types.insert(format!("uint{}", bits), [5, bits]);
        types.insert(format!("int{}", bits), [6, bits]);
    }
    types.extend((1..=32).map(|bytes| (format!("bytes{}", bytes), [7, bytes])));
    assert_eq!(types.len(), 102);
    types
}

/// Texts that are close to a type's name.
const NEAR: [&str; 40] = [
    "uint08",
    "Uint8",
    "UINT8",
    "uint0",
    "uint00",
    "uint7",
    "uint9",
    "uint008",
    "uint0256",
    "uint257",
    "uint264",
    "uint512",
    "uint800",
    "uint2560",
    "uint8a",
    "uint+8",
    "uint8.",
    "uin",
    "uin8",
    "uint\u{668}",
    // The same low 32 and 64 bits as 8.
    "uint4294967304",
    "uint18446744073709551624",
    "int08",
    "int264",
    "Int",
    "in",
    "integer",
    "bytes0",
    "bytes00",
    "bytes01",
    "bytes33",
    "bytes40",
    "bytes320",
    "bytes4294967297",
    "byte",
    "byte32",
    "address20",
    "bool1",
    "string32",
    "strings",
];

/// Where a name is tested: the tokens around it, and its place.
struct Tested {
    is_body: bool,
    before: &'static str,
    after: &'static str,
    place: usize,
}

impl Tested {
    const fn body(before: &'static str, after: &'static str, place: usize) -> Tested {
        Tested { is_body: true, before, after, place }
    }

    const fn file(before: &'static str, after: &'static str, place: usize) -> Tested {
        Tested { is_body: false, before, after, place }
    }

    /// A token with this text in that place.
    fn source(&self, kind: Kind, text: &str) -> Source {
        let mut source = Source::new();
        source.line(self.before);
        source.put(kind, text, 0);
        source.put(Kind::Whitespace, " ", 0);
        source.line(self.after);
        source.end()
    }
}

/// Every sort of list in which names are tested.
const TESTED: [Tested; 10] = [
    Tested::body("{ @f ( a", ") }", 4),
    Tested::body("{ @f ( a calldata", ", b ) op00 }", 5),
    Tested::body("{ ~l : @f ( b , a", ") }", 8),
    Tested::file("#define macro M ( a", ") = { }", 5),
    Tested::file("#define macro M ( ) = { @f ( a", ") }", 10),
    Tested::file("#define error E ( %bool", ")", 5),
    Tested::file("#define event E ( %bool indexed", ", %bool )", 6),
    Tested::file("#define function f ( %bool memory", ") view returns ( )", 6),
    Tested::file("#define function f ( ) view returns ( %bool", ")", 9),
    Tested::file("#define table T { } #define fn F ( b , a", ") = { }", 12),
];

/// The archive's answer, and the refusal of a room.
fn read(setting: Setting, is_body: bool, source: &Source) -> (Answer, Option<Refused>) {
    let (mut lists, mut room, [mode, edition]) = (Lists::enough(&source.tokens), setting.room(), setting.numbers());
    match is_body {
        true => {
            let answer = lists.read_body(mode, edition, &source.text, &source.tokens, 0);
            (answer, room.read_body(&source.text, &source.tokens, 0).err())
        }
        false => {
            let answer = lists.read_file(mode, &source.text, &source.tokens);
            (answer, room.read_file(&source.text, &source.tokens).err())
        }
    }
}

/// In every setting the text is refused as a name, by a token of this kind, and told with this type.
fn assert_told(tested: &Tested, kind: Kind, text: &str, told: Told) {
    let source = tested.source(kind, text);
    for setting in SETTINGS {
        let (answer, refused) = read(setting, tested.is_body, &source);
        assert_eq!(answer, [7, tested.place as u64, 0, 0, 0, told[0], told[1]], "{} {}", tested.before, text);
        assert_eq!(refused.map(answer_of), Some(answer), "{} {}", tested.before, text);
    }
}

/// In every setting the text is accepted as a name.
fn assert_accepted(tested: &Tested, text: &str) {
    let source = tested.source(Kind::Ident, text);
    for setting in SETTINGS {
        let (answer, refused) = read(setting, tested.is_body, &source);
        assert_eq!((answer[0], &answer[5..]), (0, &NO_TYPE[..]), "{} {}", tested.before, text);
        assert_eq!(refused, None, "{} {}", tested.before, text);
    }
}

#[test]
fn each_name_is_told_with_its_type_and_size() {
    for (name, told) in types() {
        for tested in &TESTED {
            assert_told(tested, Kind::Ident, &name, told);
            assert_told(tested, Kind::PrimitiveType, &name, told);
        }
    }
}

#[test]
fn what_is_only_near_a_name_is_no_type() {
    let types = types();
    for text in NEAR {
        assert!(!types.contains_key(text), "{}", text);
        for tested in &TESTED {
            assert_accepted(tested, text);
            assert_told(tested, Kind::PrimitiveType, text, NO_TYPE);
        }
    }
    // A PrimitiveType may be empty.
    assert_told(&TESTED[0], Kind::PrimitiveType, "", NO_TYPE);
}

#[test]
fn words_by_chance_are_told_as_the_names_are() {
    const STEMS: [&str; 8] = ["uint", "int", "bytes", "address", "bool", "string", "byte", "Int"];
    let (types, mut chance, mut found) = (types(), Chance::new(5), 0);
    for _ in 0..6_000 {
        let (stem, tested) = (STEMS[chance.below(STEMS.len())], &TESTED[chance.below(TESTED.len())]);
        let digits = (0..chance.below(4)).map(|_| char::from(b'0' + chance.below(10) as u8));
        let text: String = stem.chars().chain(digits).collect();
        let told = types.get(&text).copied();
        found += usize::from(told.is_some());
        match told {
            Some(told) => assert_told(tested, Kind::Ident, &text, told),
            None => assert_accepted(tested, &text),
        }
        assert_told(tested, Kind::PrimitiveType, &text, told.unwrap_or(NO_TYPE));
    }
    assert!((1_000..5_000).contains(&found), "{} of the words are names", found);
}

#[test]
fn a_type_that_is_refused_otherwise_is_not_told() {
    for (body, number, cursor) in [
        ("{ @f ( %bool ) }", 1, 3),
        ("{ @f ( a , %bool ) }", 1, 5),
        ("{ @f ( calldata %uint8 ) }", 1, 4),
        ("{ @f ( a b %uint8 ) }", 1, 5),
        ("{ F ( %address ) }", 10, 3),
        ("{ %bytes32 }", 5, 1),
        ("{ ~l : %bytes32 }", 6, 3),
        ("{ op60 uint256 }", 4, 2),
    ] {
        let (answer, refused) = read(SETTINGS[0], true, &Source::of_lines(&[body]));
        assert_eq!((answer, refused.map(answer_of)), (refusal(number, cursor), Some(answer)), "{}", body);
    }
    for (file, number, cursor) in [
        ("#define macro M ( %uint8 ) = { }", 1, 4),
        ("#define error E ( uint256 )", 8, 4),
        ("#define error E ( %bool a uint256 )", 8, 6),
        ("#define %uint8 f ( )", 2, 1),
        ("#define constant C = %uint8", 3, 4),
    ] {
        let (answer, refused) = read(SETTINGS[0], false, &Source::of_lines(&[file]));
        assert_eq!((answer, refused.map(answer_of)), (refusal(number, cursor), Some(answer)), "{}", file);
    }
}

/// On the sample in every setting: a type only with 7, and then the one that the text at the cursor has.
#[test]
fn on_the_sample_the_text_at_the_cursor_is_told() {
    let (types, mut told, mut not_told) = (types(), 0, 0);
    for (case, setting) in cases().iter().flat_map(|case| SETTINGS.map(|setting| (case, setting))) {
        let (answer, lists) = case.call_with_enough(setting);
        let wanted = match answer[0] {
            7 => {
                let token = token_at(&case.tokens, lists.kept[answer[1] as usize] as usize).expect("the token at the cursor");
                let text = String::from_utf8_lossy(token.text_in(&case.text)).into_owned();
                types.get(&text).copied().unwrap_or(NO_TYPE)
            }
            _ => NO_TYPE,
        };
        assert_eq!(answer[5..], wanted, "line {}", case.line);
        told += usize::from(wanted != NO_TYPE);
        not_told += usize::from(answer[0] != 0 && answer[0] != 7);
    }
    println!("{} cases told with a type, {} refused otherwise", told, not_told);
    assert!(told > 100 && not_told > 1_000, "only {} and {} cases", told, not_told);
}

#[test]
fn a_refusal_says_the_type() {
    for (text, reserved_type, name) in [
        ("uint", Some(ReservedType::Uint(256)), "a name of the type uint256 (unsigned, 256 bits)"),
        ("uint256", Some(ReservedType::Uint(256)), "a name of the type uint256 (unsigned, 256 bits)"),
        ("%bytes1", Some(ReservedType::BytesN(1)), "a name of the type bytes1 (1 byte)"),
        ("%foo", None, "a type's name"),
    ] {
        let (_, refused) = read(SETTINGS[0], true, &Source::of_lines(&[&format!("{{ @f ( a {} ) }}", text)]));
        let said = format!("{} can't be an argument's name (InvalidTypeAsArgumentName, 7) at place 4", name);
        assert_eq!(refused.map(|refused| (refused.reserved_type, refused.to_string())), Some((reserved_type, said)));
    }
}
