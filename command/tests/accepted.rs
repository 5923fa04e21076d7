//! The form for people.

mod common;

use common::{cut, list, Input};
use simmerotter::Kind;

fn file(name: &str, text: &str) -> String {
    Input::new(name, text.as_bytes(), &cut(text)).accepted(&[])
}

fn body(name: &str, text: &str) -> String {
    Input::new(name, text.as_bytes(), &cut(text)).accepted(&["--body", "0"])
}

#[test]
fn every_kind_of_definition() {
    let text = "\
#include \"a\"
#define function f ( uint256 calldata a , address ) view returns ( uint256 memory r )
#define function g ( ) pure returns ( )
#define function h ( ) payable returns ( )
#define function i ( ) nonpayable returns ( )
#define event E ( address indexed a , uint256 indexed storage b , uint256 )
#define error R ( uint256 x )
#define constant C = 0x0a
#define constant D = FREE_STORAGE_POINTER()
#define macro M ( a , calldata b ) = takes ( 2 ) returns ( 1 ) { }
#define fn N ( ) = { stop }
#define test T ( ) = returns ( 3 ) { 0x0100 }
#define jumptable J { x y }
#define jumptable__packed P ( ) = { x y }
#define table K { abc d }
";
    let wanted = "\
accepted_kinds.huff: accepted: 15 definitions, 8 statements, 9 arguments; the end is place 144
line:col  places        what
1:1       0..2          import \"a\"; text bytes 0..11
2:1       2..19         function f, view; text bytes 13..98
2:22      6..9            argument uint256 calldata a
2:43      10..11          argument address
2:68      15..18          output uint256 memory r
3:1       19..28        function g, pure; text bytes 99..138
4:1       28..37        function h, payable; text bytes 139..181
5:1       37..46        function i, nonpayable; text bytes 182..227
6:1       46..61        event E; text bytes 228..303
6:19      50..53          argument address indexed a
6:39      54..58          argument uint256 indexed storage b
6:67      59..60          argument uint256
7:1       61..68        error R; text bytes 304..333
7:19      65..67          argument uint256 x
8:1       68..73        constant C = 0x0a; text bytes 334..359
9:1       73..78        constant D = the free storage pointer; text bytes 360..403
10:1      78..98        macro M, takes 2, returns 1, plain length 0 (edition 1); text bytes 404..470
10:19     82..83          argument a
10:23     84..86          argument calldata b
11:1      98..107       fn N, takes 0, returns 0, plain length 1 (edition 1); text bytes 471..498
11:22     105..106        opcode stop (0x00)
12:1      107..120      test T, takes 0, returns 3, plain length 3 (edition 1); text bytes 499..544
12:38     118..119        literal 0x0100
13:1      120..127      jump table J, size 64; text bytes 545..572
13:23     124..125        label call x
13:25     125..126        label call y
14:1      127..137      packed jump table P, size 4; text bytes 573..614
14:37     134..135        label call x
14:39     135..136        label call y
15:1      137..144      code table K, size 2; text bytes 615..640
15:19     141..142        code abc
15:23     142..143        code d
";
    assert_eq!(file("accepted_kinds", text), wanted);
}

#[test]
fn every_type_of_statement() {
    let text = "{ 0x04 push1 0x01 go F ( ) F ( 0x20 , a < b > calldata ) [ C ] < a >\n __x ( \"s\" , 0x01 memory n ) go : dup1 \
                push4 0x01 [ C ] end : }";
    let wanted = "\
accepted_types.huff: accepted: 15 statements, 7 arguments, no plain length; the end is place 43
line:col  places        what
1:3       1..2          literal 0x04
1:8       2..3          opcode push1 (0x60)
1:14      3..4          literal 0x01
1:19      4..5          label call go
1:22      5..8          invocation F()
1:28      8..18         invocation F(0x20, a, <b>, calldata)
1:58      18..21        constant [C]
1:64      21..24        argument call <a>
2:2       24..32        builtin __x(\"s\", 0x01, memory n)
2:30      32..40        label go:
2:35      34..35          opcode dup1 (0x80)
2:40      35..36          opcode push4 (0x63)
2:46      36..37          literal 0x01
2:51      37..40          constant [C]
2:57      40..42        label end:
";
    assert_eq!(body("accepted_types", text), wanted);
}

#[test]
fn a_body_with_a_plain_length() {
    let wanted = "\
accepted_length.huff: accepted: 4 statements, 0 arguments, plain length 9 (edition 1); the end is place 6
line:col  places        what
1:3       1..2          opcode push4 (0x63)
1:9       2..3          literal 0x01
1:14      3..4          label call go
1:17      4..5          opcode stop (0x00)
";
    assert_eq!(body("accepted_length", "{ push4 0x01 go stop }"), wanted);
}

#[test]
fn a_push_in_a_label_has_its_operand_or_the_body_no_length() {
    let rows = [
        ("{ go : push4 0x01 }", "plain length 6 (edition 1)"),
        ("{ push1 0x01 go : push4 0x0001 x }", "plain length 11 (edition 1)"),
        ("{ go : push1 }", "no plain length"),
        ("{ go : push1 0x0100 }", "no plain length"),
        ("{ go : push1 b : 0x01 }", "no plain length"),
    ];
    for (text, length) in rows {
        let (found, _) = Input::new("accepted_operand", text.as_bytes(), &cut(text)).warned(&["--body", "0"]);
        assert!(found.lines().next().unwrap().contains(&format!(", {};", length)), "{}: {}", text, found);
    }
}

#[test]
fn a_body_may_start_anywhere() {
    let text = "#define macro M ( ) = { stop }";
    let input = Input::new("accepted_start", text.as_bytes(), &cut(text));
    let wanted = "accepted_start.huff: accepted: 1 statement, 0 arguments, plain length 1 (edition 1); the end is place 9\n";
    assert!(input.accepted(&["--body", "6"]).starts_with(wanted));
}

#[test]
fn nothing_read_is_one_line() {
    let wanted = "accepted_none.huff: accepted: 0 definitions, 0 statements, 0 arguments; the end is place 0\n";
    assert_eq!(file("accepted_none", " \n"), wanted);
    let wanted = "accepted_braces.huff: accepted: 0 statements, 0 arguments, plain length 0 (edition 1); the end is place 2\n";
    assert_eq!(body("accepted_braces", "{ }"), wanted);
}

#[test]
fn lengths_of_macros_are_those_of_their_bodies() {
    // Comments and white space lie between the tokens, a macro before and one behind.
    let text = b"#define macro A() = {}//x\n#define macro B(p) = { /* { */ push1 0x01 a: a }\n#define macro C() = { <p> }";
    let tokens = [
        (Kind::Define, "#define", 0),
        (Kind::Macro, "macro", 0),
        (Kind::Ident, "A", 0),
        (Kind::OpenParen, "(", 0),
        (Kind::CloseParen, ")", 0),
        (Kind::Assign, "=", 0),
        (Kind::OpenBrace, "{", 0),
        (Kind::CloseBrace, "}", 0),
        (Kind::Comment, "//x", 0),
        (Kind::Define, "#define", 0),
        (Kind::Macro, "macro", 0),
        (Kind::Ident, "B", 0),
        (Kind::OpenParen, "(", 0),
        (Kind::Ident, "p", 0),
        (Kind::CloseParen, ")", 0),
        (Kind::Assign, "=", 0),
        (Kind::OpenBrace, "{", 0),
        (Kind::Comment, "/* { */", 0),
        (Kind::Opcode, "push1", 0x60),
        (Kind::Literal, "0x01", 0),
        (Kind::Label, "a", 0),
        (Kind::Colon, ":", 0),
        (Kind::Ident, "a", 0),
        (Kind::CloseBrace, "}", 0),
        (Kind::Define, "#define", 0),
        (Kind::Macro, "macro", 0),
        (Kind::Ident, "C", 0),
        (Kind::OpenParen, "(", 0),
        (Kind::CloseParen, ")", 0),
        (Kind::Assign, "=", 0),
        (Kind::OpenBrace, "{", 0),
        (Kind::LeftAngle, "<", 0),
        (Kind::Ident, "p", 0),
        (Kind::RightAngle, ">", 0),
        (Kind::CloseBrace, "}", 0),
    ];
    let found = Input::new("accepted_lengths", text, &list(text, &tokens)).accepted(&[]);
    let headings: Vec<&str> = found.lines().filter_map(|line| line.split_once("macro ")).map(|(_, rest)| rest).collect();
    let wanted = [
        "A, takes 0, returns 0, plain length 0 (edition 1); text bytes 0..22",
        "B, takes 0, returns 0, plain length 6 (edition 1); text bytes 26..74",
        "C, takes 0, returns 0, no plain length; text bytes 75..102",
    ];
    assert_eq!(headings, wanted);
}

#[test]
fn names_do_not_steer_the_terminal() {
    let text = b"{ a\x1b[2Jb\xff }";
    let mut words = vec![29, 0, 1, 0, 38, 2, 9, 0, 30, 10, 11, 0];
    words.extend([0, 11, 11, 0]);
    let found = Input::new("accepted_clean", text, &words).accepted(&["--body", "0"]);
    assert!(found.ends_with("label call a?[2Jb\u{fffd}\n"), "{:?}", found);
}

#[test]
fn a_large_file_takes_a_moment() {
    // A line of nearly a million characters with 7,000 macros: what costs a walk for each of them would be felt.
    let one = "#define macro M0000 ( ) = { stop }";
    let mut text = String::new();
    for i in 0..7_000 {
        text += &one.replace("0000", &format!("{:04}", i));
        text += &" ".repeat(100);
    }
    let input = Input::new("accepted_large", text.as_bytes(), &cut(&text));
    let before = std::time::Instant::now();
    let found = input.accepted(&[]);
    assert!(found.contains("7000 definitions, 7000 statements"));
    assert_eq!(found.matches("plain length 1 (edition 1); text bytes ").count(), 7_000);
    assert!(found.contains("; text bytes 937866..937900\n"), "the last one stands behind 6,999 of 134 bytes");
    assert!(before.elapsed().as_secs() < 20, "{:?}", before.elapsed());
}
