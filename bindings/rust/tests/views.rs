//! What the views say about a file with every kind of definition, statement and argument, worked out by hand.

mod common;

use common::Source;
use simmerotter::{
    token_at, ArgumentForm, Cursor, DefinitionKind, File, FunctionType, Kind, Location, Refusal, Room, StatementKind, Value,
};

const LINES: [&str; 12] = [
    "#include \"store.huff\"",
    "#define function settle ( %uint256 calldata order , %address ) nonpayable returns ( %bool done )",
    "#define event Refunded ( %address indexed buyer , %uint256 amount )",
    "#define error NotSettled ( %uint256 order )",
    "#define constant OWED = FREE",
    "#define constant FEE = 0x0f",
    "#define macro PAY ( amount memory more ) = takes ( 1 ) returns ( 2 ) { < amount > [ OWED ] op55 }",
    "#define fn SETTLE ( ) = { 0x04 PAY ( 0x20 , it < that > ) ~refund : op60 0x00 ~failed : @err ( NotSettled \"s\" 0x01 ) }",
    "#define test TRY ( ) = takes ( 0 ) returns ( 7 ) { refund }",
    "#define jumptable ROUTES { refund failed }",
    "#define packed TIGHT { refund failed }",
    "#define table CODE { abc d }",
];

fn with_file(check: impl Fn(File<'_>)) {
    let source = Source::of_lines(&LINES);
    let mut room = Room::new();
    check(room.read_file(&source.text, &source.tokens).expect("a file that follows the rules"));
}

#[test]
fn definitions_have_kinds_and_names() {
    with_file(|file| {
        use DefinitionKind::*;
        let found: Vec<_> = file.definitions().map(|one| (one.number(), one.kind(), one.name())).collect();
        let wanted: [(DefinitionKind, &[u8]); 12] = [
            (Import, b"\"store.huff\""),
            (Function, b"settle"),
            (Event, b"Refunded"),
            (Error, b"NotSettled"),
            (Constant, b"OWED"),
            (Constant, b"FEE"),
            (Macro, b"PAY"),
            (Fn, b"SETTLE"),
            (Test, b"TRY"),
            (JumpTable, b"ROUTES"),
            (JumpTablePacked, b"TIGHT"),
            (CodeTable, b"CODE"),
        ];
        let wanted: Vec<_> = wanted.iter().enumerate().map(|(number, (kind, name))| (number, *kind, *name)).collect();
        assert_eq!(found, wanted);
    });
}

#[test]
fn definitions_lie_behind_each_other() {
    with_file(|file| {
        let mut end = 0;
        for definition in file.definitions() {
            assert_eq!(definition.places().start, end);
            end = definition.places().end;
            let first = if definition.kind() == DefinitionKind::Import { Kind::Include } else { Kind::Define };
            assert_eq!(file.token(definition.places().start).map(|token| token.kind), Some(first));
            assert_eq!(file.text_of(definition.name_place()), definition.name());
        }
        assert_eq!(end, file.end());
        assert_eq!(file.token(end).map(|token| token.kind), Some(Kind::Eof));
        assert_eq!(file.token(end + 1), None);
        assert_eq!(file.kept().len(), end + 1);
    });
}

#[test]
fn definitions_have_their_lines_of_the_text() {
    with_file(|file| {
        let found: Vec<_> = file.definitions().map(|one| String::from_utf8_lossy(one.text())).collect();
        // The marks that say a token's kind are no part of the text.
        let wanted: Vec<_> = LINES.iter().map(|line| line.replace(&['%', '~', '@'][..], "")).collect();
        assert_eq!(found, wanted);
        let starts: Vec<_> = file.definitions().map(|one| one.text_range().start).collect();
        let ends: Vec<_> = file.definitions().map(|one| one.text_range().end + 1).collect();
        assert_eq!((starts[0], &starts[1..]), (0, &ends[..11]), "a space lies between each two");
    });
}

#[test]
fn each_kind_has_its_own_values() {
    with_file(|file| {
        let macros: Vec<_> = file.definitions().map(|one| (one.takes(), one.returns())).collect();
        let sizes: Vec<_> = file.definitions().map(|one| one.table_size()).collect();
        for number in 0..12 {
            let wanted = match number {
                6 => (Some(1), Some(2)),
                7 => (Some(0), Some(0)),
                8 => (Some(0), Some(7)),
                _ => (None, None),
            };
            assert_eq!(macros[number], wanted);
            let wanted = match number {
                9 => Some(64),
                10 => Some(4),
                11 => Some(2),
                _ => None,
            };
            assert_eq!(sizes[number], wanted);
            let wanted = if number == 1 { Some(FunctionType::NonPayable) } else { None };
            assert_eq!(file.definition(number).and_then(|one| one.function_type()), wanted);
        }
    });
}

#[test]
fn constants_have_values() {
    with_file(|file| {
        let values: Vec<_> = file.definitions().filter_map(|one| one.constant_value()).collect();
        assert!(matches!(values[..], [Value::FreeStoragePointer(_), Value::Literal(_)]));
        let texts: Vec<_> = values.iter().map(|value| file.text_of(value.place())).collect();
        assert_eq!(texts, [&b"FREE"[..], &b"0x0f"[..]]);
    });
}

/// Type, name, indexed, location, number of tokens.
type Declared = (Option<&'static [u8]>, Option<&'static [u8]>, bool, Option<Location>, usize);

#[test]
fn declared_arguments_have_types_names_and_marks() {
    with_file(|file| {
        let of = |number: usize| file.definition(number).expect("a definition");
        let found: Vec<_> = (0..12)
            .flat_map(|number| of(number).arguments().chain(of(number).outputs()))
            .map(|one| (one.type_text(), one.name(), one.indexed(), one.location(), one.places().len()))
            .collect();
        let wanted: [Declared; 8] = [
            (Some(b"uint256"), Some(b"order"), false, Some(Location::Calldata), 3),
            (Some(b"address"), None, false, None, 1),
            (Some(b"bool"), Some(b"done"), false, None, 2),
            (Some(b"address"), Some(b"buyer"), true, None, 3),
            (Some(b"uint256"), Some(b"amount"), false, None, 2),
            (Some(b"uint256"), Some(b"order"), false, None, 2),
            (None, Some(b"amount"), false, None, 1),
            (None, Some(b"more"), false, Some(Location::Memory), 2),
        ];
        assert_eq!(found, wanted);
        assert_eq!(of(1).arguments().count(), 2);
        assert_eq!(of(1).outputs().count(), 1);
        assert!(of(1).outputs().all(|one| one.form() == ArgumentForm::Declared));
    });
}

#[test]
fn statements_stand_under_their_labels() {
    with_file(|file| {
        use StatementKind::*;
        let settle = file.definition(7).expect("SETTLE");
        let top: Vec<_> = settle.statements().map(|one| (one.kind(), one.value_text())).collect();
        let wanted: [(StatementKind, &[u8]); 4] =
            [(Literal, b"0x04"), (Invocation, b"PAY"), (Label, b"refund"), (Label, b"failed")];
        assert_eq!(top, wanted);
        let under: Vec<_> = settle.statements().map(|one| one.inner().map(|inner| inner.kind()).collect::<Vec<_>>()).collect();
        assert_eq!(under, [vec![], vec![], vec![Opcode, Literal], vec![Builtin]]);
        let all: Vec<_> = settle.all_statements().map(|one| one.kind()).collect();
        assert_eq!(all, [Literal, Invocation, Label, Opcode, Literal, Label, Builtin]);
        let push = settle.all_statements().nth(3).and_then(|one| one.value_token()).expect("the push");
        assert_eq!((push.kind, push.extra), (Kind::Opcode, 0x60));
    });
}

#[test]
fn every_kind_of_statement_occurs() {
    with_file(|file| {
        use StatementKind::*;
        let kinds = |number: usize| -> Vec<StatementKind> {
            file.definition(number).expect("a definition").statements().map(|one| one.kind()).collect()
        };
        assert_eq!(kinds(6), [ArgumentCall, Constant, Opcode]);
        assert_eq!(kinds(8), [LabelCall]);
        assert_eq!(kinds(9), [LabelCall, LabelCall]);
        assert_eq!(kinds(10), [LabelCall, LabelCall]);
        assert_eq!(kinds(11), [Code, Code]);
        let pay: Vec<_> =
            file.definition(6).expect("PAY").statements().map(|one| (one.value_text(), one.places().len())).collect();
        assert_eq!(pay, [(&b"amount"[..], 3), (&b"OWED"[..], 3), (&b"op55"[..], 1)]);
        let numbers: Vec<_> = file.all_statements().map(|one| one.number()).collect();
        assert_eq!(numbers, (0..numbers.len()).collect::<Vec<_>>());
        assert_eq!(file.statement(numbers.len()).map(|one| one.kind()), None);
    });
}

#[test]
fn given_arguments_have_forms() {
    with_file(|file| {
        use ArgumentForm::*;
        let given: Vec<_> = file
            .all_statements()
            .flat_map(|one| one.arguments())
            .map(|one| (one.form(), one.name().unwrap_or_default(), one.places().len()))
            .collect();
        let wanted: [(ArgumentForm, &[u8], usize); 6] = [
            (CallLiteral, b"0x20", 1),
            (CallName, b"it", 1),
            (CallArgument, b"that", 3),
            (Declared, b"NotSettled", 1),
            (Str, b"\"s\"", 1),
            (Literal, b"0x01", 1),
        ];
        assert_eq!(given, wanted);
        assert!(file.argument(8).map_or(false, |one| one.form() == CallLiteral && one.number() == 8));
    });
}

#[test]
fn a_refusal_leads_to_its_token() {
    let source = Source::of_lines(&["#define macro M ( ) = {", "op60 0x0100 }"]);
    let mut room = Room::new();
    let refused = room.read_file(&source.text, &source.tokens).unwrap_err();
    assert_eq!((refused.refusal, refused.cursor), (Refusal::InvalidPush, 9));
    assert_eq!(refused.refusal.cursor(), Cursor::Place);
    let token = room.token(&source.tokens, refused.cursor).expect("a token");
    assert_eq!((token.number, token.kind, token.text_in(&source.text)), (18, Kind::CloseBrace, &b"}"[..]));
    assert_eq!(token_at(&source.tokens, 18), Some(token));
    let shown = refused.to_string();
    assert!(shown.contains("InvalidPush") && shown.contains('4') && shown.ends_with("place 9"), "{}", shown);
}

#[test]
fn plain_lengths_are_counted_where_there_are_any() {
    let mut room = Room::new();
    let rows = [
        ("{ }", Some(0)),
        ("{ op63 0x01 }", Some(5)),
        ("{ go ~go : 0x0100 }", Some(7)),
        ("{ F ( ) }", None),
        // A push in a label has its operand directly behind it, or the body has no length.
        ("{ ~go : op63 0x01 }", Some(6)),
        ("{ ~go : op60 0x01 0x01 }", Some(5)),
        ("{ ~go : op60 0x0100 }", None),
        ("{ ~go : op60 ~b : 0x01 }", None),
    ];
    for (body, length) in rows {
        let source = Source::of_lines(&[body]);
        assert_eq!(room.read_body(&source.text, &source.tokens, 0).map(|body| body.plain_length()), Ok(length), "{}", body);
    }
}

#[test]
fn numbers_and_names_belong_together() {
    for (number, kind) in (0..).zip(Kind::ALL) {
        assert_eq!((kind.number(), Kind::from_number(number)), (number, Some(kind)));
        assert_eq!(kind.name(), format!("{:?}", kind));
    }
    assert_eq!(Kind::from_number(46), None);
    let numbers: Vec<_> = Refusal::ALL.iter().map(|refusal| refusal.number()).collect();
    let wanted: Vec<_> = (1..=13).chain(20..=22).chain(30..=36).chain([38]).collect();
    assert_eq!(numbers, wanted);
    for refusal in Refusal::ALL {
        assert_eq!(Refusal::from_number(refusal.number()), Some(refusal));
        assert_eq!(refusal.name(), format!("{:?}", refusal));
    }
    assert_eq!([0, 14, 23, 29, 37, 39].map(Refusal::from_number), [None; 6]);
}
