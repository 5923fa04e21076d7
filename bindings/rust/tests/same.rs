//! The same mistake gets the same answer, on the fixed sample: white space and comments change no answer, and a refusal is the
//! same whatever stands behind its cursor, and before the body that was read.

mod common;

use common::{cases, refusal, Case, Left, Lists, Source, FILL, SETTINGS};
use simmerotter::{token_at, Edition, Kind, Mode, TokenAt, DEFINITION_WORDS, MAX_TEXT, MAX_TOKENS, TOKEN_WORDS};
use std::collections::BTreeMap;
use std::ops::Range;

/// The refusals that nothing behind their cursor changes. 20 is apart: see the last test.
const TOLD_AT_THE_CURSOR: [u64; 15] = [1, 2, 3, 4, 5, 6, 7, 8, 9, 10, 11, 12, 13, 21, 22];

/// Of cases with each number: with fewer these tests would show less than they say.
const FEWEST: usize = 10;

/// How many cases there were of each number.
type Tried = BTreeMap<u64, usize>;

fn assert_enough(tried: &Tried, numbers: impl IntoIterator<Item = u64>) {
    for number in numbers {
        let count = tried.get(&number).copied().unwrap_or(0);
        assert!(count >= FEWEST, "{} only {} times: {:?}", number, count, tried);
    }
}

/// A case's tokens with these numbers.
fn tokens(case: &Case, numbers: Range<usize>) -> impl Iterator<Item = TokenAt> + '_ {
    numbers.map(|number| token_at(&case.tokens, number).expect("a token of a known kind"))
}

fn count(tokens: &[u32]) -> usize {
    tokens.len() / TOKEN_WORDS
}

/// The numbers of a list's kept tokens.
fn kept(tokens: &[u32]) -> Vec<u32> {
    let dropped = [Kind::Whitespace.number(), Kind::Comment.number()];
    (0..count(tokens)).filter(|number| !dropped.contains(&tokens[TOKEN_WORDS * number])).map(|number| number as u32).collect()
}

/// Whether the case's list is well formed, whatever its mode, edition and room are.
fn is_well_formed(case: &Case) -> bool {
    case.call_with_enough(SETTINGS[0]).0[0] != 30
}

/// Calls as the case does, but with this list and lent lists of these lengths.
fn call(case: &Case, edition: u32, Source { text, tokens }: &Source, lengths: [usize; 4]) -> Left {
    // The sample's lists are short. Beyond the limits a list would be answered by 30, and these tests would have to leave it out.
    assert!(text.len() <= MAX_TEXT && count(tokens) <= MAX_TOKENS, "line {}", case.line);
    let mut lists = Lists::filled(lengths, FILL);
    let answer = match case.is_body {
        true => lists.read_body(case.mode, edition, text, tokens, case.start),
        false => lists.read_file(case.mode, text, tokens),
    };
    (answer, lists)
}

/// What is put at the token of a number.
type Put = fn(usize) -> &'static [(Kind, &'static str)];

/// A change of a list's white space and comments.
struct Change {
    name: &'static str,
    before: Put,
    behind: Put,
    own: Own,
}

/// What becomes of the list's own white space and comments.
enum Own {
    Stay,
    /// They are tokens no more, but their bytes stay.
    LeaveTheList,
    /// Their bytes go too.
    LeaveTheText,
    /// White space becomes a comment, a comment white space without a byte.
    Turn,
}

const NOTHING: Put = |_| &[];

const CHANGES: [Change; 7] = [
    Change { name: "a space before each token", before: |_| &[(Kind::Whitespace, " ")], behind: NOTHING, own: Own::Stay },
    Change {
        name: "a comment behind each third token",
        before: NOTHING,
        behind: |number| if number % 3 == 2 { &[(Kind::Comment, "// } #define\n")] } else { &[] },
        own: Own::Stay,
    },
    Change {
        name: "a comment before the first token",
        before: |number| if number == 0 { &[(Kind::Comment, "/* ü */")] } else { &[] },
        behind: NOTHING,
        own: Own::Stay,
    },
    Change { name: "none in the list", before: NOTHING, behind: NOTHING, own: Own::LeaveTheList },
    Change { name: "none in the text", before: NOTHING, behind: NOTHING, own: Own::LeaveTheText },
    Change { name: "others for each", before: NOTHING, behind: NOTHING, own: Own::Turn },
    Change {
        name: "others elsewhere",
        before: |number| if number % 2 == 0 { &[(Kind::Comment, ""), (Kind::Whitespace, "\t\n")] } else { &[] },
        behind: |number| if number % 5 == 0 { &[(Kind::Whitespace, "\r\n"), (Kind::Comment, "0x")] } else { &[] },
        own: Own::LeaveTheText,
    },
];

fn put_all(list: &mut Source, tokens: &[(Kind, &str)]) {
    tokens.iter().for_each(|(kind, text)| list.put(*kind, text, 0));
}

/// The case's list after a change: the same kept tokens, moved. Bytes that no token has stay before the token that they preceded.
fn changed(case: &Case, change: &Change) -> Source {
    let (mut list, mut at) = (Source::new(), 0);
    for token in tokens(case, 0..count(&case.tokens)) {
        let text = token.text_in(&case.text);
        list.text.extend_from_slice(&case.text[at..token.bytes.start]);
        put_all(&mut list, (change.before)(token.number));
        match change.own {
            _ if !token.kind.is_dropped() => list.put(token.kind, text, token.extra),
            Own::Stay => list.put(token.kind, text, 0),
            Own::LeaveTheList => list.text.extend_from_slice(text),
            Own::LeaveTheText => {}
            Own::Turn if token.kind == Kind::Comment => list.put(Kind::Whitespace, "", 0),
            Own::Turn => list.put(Kind::Comment, "/* a space */", 0),
        }
        // Nothing may follow Eof.
        if token.kind != Kind::Eof {
            put_all(&mut list, (change.behind)(token.number));
        }
        at = token.bytes.end;
    }
    list.text.extend_from_slice(&case.text[at..]);
    list
}

/// What a call has to leave after a change: what the case says, but for the kept list's numbers and the last two words of each
/// definition.
fn wanted(case: &Case, list: &Source) -> Lists {
    let (mut wanted, kept) = (case.wanted.clone(), kept(&list.tokens));
    let token = |place: u32| token_at(&list.tokens, kept[place as usize] as usize).expect("a kept token");
    if !matches!(case.answer[0], 31 | 35 | 36 | 38) {
        wanted.kept[..kept.len()].copy_from_slice(&kept);
    }
    let definitions = if case.is_body { 0 } else { case.answer[2] as usize };
    for record in wanted.definitions.chunks_exact_mut(DEFINITION_WORDS).take(definitions) {
        let (first, end) = (record[2], record[3]);
        record[12] = token(first).bytes.start as u32;
        record[13] = token(end - 1).bytes.end as u32;
    }
    wanted
}

#[test]
fn white_space_and_comments_change_no_answer() {
    let mut cases = cases();
    cases.retain(is_well_formed);
    let mut tried = Tried::new();
    for change in &CHANGES {
        let mut moved = 0;
        for case in &cases {
            let list = changed(case, change);
            if list.tokens != case.tokens {
                let left = call(case, case.edition, &list, case.wanted.lengths());
                assert_eq!(left, (case.answer, wanted(case, &list)), "line {} with {}", case.line, change.name);
                *tried.entry(case.answer[0]).or_default() += 1;
                moved += 1;
            }
        }
        assert!(moved > 1_000, "only {} lists with {}", moved, change.name);
    }
    let lists: usize = tried.values().sum();
    println!("{} cases with other white space and comments, {} lists, answered the same", cases.len(), lists);
    assert_enough(&tried, TOLD_AT_THE_CURSOR.into_iter().chain([20, 31, 32, 33, 34, 35, 36, 38]));
    assert!(cases.len() > 4_000 && lists > 15_000 && tried[&0] > 5_000, "{} cases, {:?}", cases.len(), tried);
}

/// What is put behind a cursor.
const BEHIND: [&str; 8] = [
    "",
    "}",
    "#",
    "0x00 ) ] > , : = a ( )",
    "{ ~a : ~a : op60 0x010000 }",
    ") = { } #define macro A ( ) = { } #define fn A ( ) = { }",
    "#include \"a\" #define constant C = 0x01",
    "%uint8 @f calldata \"s\" 7 op7f FREE",
];

/// What is put in the places before a body, one after the other.
const BEFORE: [(Kind, &str); 5] =
    [(Kind::CloseBrace, "}"), (Kind::Label, "a"), (Kind::Pound, "#"), (Kind::Ident, "uint256"), (Kind::OpenBrace, "{")];

/// Adds the case's tokens with these numbers, each with the bytes before it that no token has.
fn copy(list: &mut Source, case: &Case, numbers: Range<usize>) {
    let mut at = numbers.start.checked_sub(1).map_or(0, |before| case.tokens[TOKEN_WORDS * before + 2] as usize);
    for token in tokens(case, numbers) {
        list.text.extend_from_slice(&case.text[at..token.bytes.start]);
        list.put(token.kind, token.text_in(&case.text), token.extra);
        at = token.bytes.end;
    }
}

/// Lists with the case's tokens from its start up to its cursor, and with others behind, before or both.
fn with_others(case: &Case) -> Vec<Source> {
    let [start, cursor] = [case.start, case.answer[1] as usize].map(|place| case.wanted.kept[place] as usize);
    let rest = cursor + 1..count(&case.tokens);
    let [mut own, mut other] = [Source::new(), Source::new()];
    copy(&mut own, case, 0..start);
    (0..case.start).for_each(|place| put_all(&mut other, &[BEFORE[place % BEFORE.len()]]));
    let mut lists = Vec::new();
    for mut list in [Some(own), Some(other).filter(|_| case.start > 0)].into_iter().flatten() {
        copy(&mut list, case, start..cursor + 1);
        for line in BEHIND {
            lists.extend(with_others_behind(list.clone(), line, case, rest.clone()));
        }
    }
    lists.retain(|list| list.tokens != case.tokens);
    lists
}

/// A list that ends at the cursor, gone on with a line: its end there, and the case's rest behind it. At Eof it can't go on.
fn with_others_behind(mut list: Source, line: &str, case: &Case, rest: Range<usize>) -> Vec<Source> {
    if rest.is_empty() {
        return if line.is_empty() { vec![list] } else { Vec::new() };
    }
    if !line.is_empty() {
        list.line(line);
    }
    let cut = list.clone().end();
    copy(&mut list, case, rest);
    vec![cut, list]
}

/// The call gets the case's refusal, in every edition, and leaves zeros in tables that have room for a record each.
fn assert_refused_alike(case: &Case, list: &Source) {
    let lengths = [count(&list.tokens), if case.is_body { 0 } else { 14 }, 8, 7];
    let mut wanted = Lists::filled(lengths, 0);
    let kept = kept(&list.tokens);
    wanted.kept.fill(FILL);
    wanted.kept[..kept.len()].copy_from_slice(&kept);
    for edition in Edition::ALL {
        let left = call(case, edition.number(), list, lengths);
        assert_eq!(left, (case.answer, wanted.clone()), "line {}", case.line);
    }
}

#[test]
fn other_tokens_behind_the_cursor_and_before_the_body_change_no_refusal() {
    let (mut tried, mut lists, mut cut, mut bodies) = (Tried::new(), 0, 0, 0);
    for case in cases().iter().filter(|case| TOLD_AT_THE_CURSOR.contains(&case.answer[0])) {
        let others = with_others(case);
        others.iter().for_each(|list| assert_refused_alike(case, list));
        *tried.entry(case.answer[0]).or_default() += usize::from(!others.is_empty());
        cut += usize::from(others.iter().any(|list| list.tokens.len() < case.tokens.len()));
        bodies += usize::from(case.start > 0);
        lists += others.len();
    }
    let refused: usize = tried.values().sum();
    println!("{} cases with other tokens behind the cursor or before the body, {} lists, refused the same", refused, lists);
    assert_enough(&tried, TOLD_AT_THE_CURSOR);
    assert!(refused > 1_500 && lists > 20_000 && cut > 1_000 && bodies > 100, "{:?}: {} {} {}", tried, lists, cut, bodies);
}

/// 20 is told when its macro has been read up to the brace, so a mistake behind its cursor may come first.
#[test]
fn a_repeated_name_is_told_behind_its_cursor() {
    for (again, number, cursor) in [
        ("#define fn a ( ) = { }", 20, 10),
        ("#define fn a ( ) = { } # ]", 20, 10),
        ("#define fn a ( ) = { op00 # }", 5, 16),
        ("#define fn a ( ) = { op00", 5, 16),
        ("#define fn a", 1, 11),
    ] {
        let source = Source::of_lines(&["#define macro a ( ) = { }", again]);
        for mode in Mode::ALL {
            let answer = Lists::enough(&source.tokens).read_file(mode.number(), &source.text, &source.tokens);
            assert_eq!(answer, refusal(number, cursor), "{}", again);
        }
    }
}
