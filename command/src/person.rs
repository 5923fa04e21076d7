//! The form for people: a line for each definition, argument and statement, with where it stands on the left and what it is
//! on the right, indented under what it belongs to. A definition's line ends with its bytes in the text.

use crate::arguments::{shown, Job};
use crate::place::{clean, token_of, Lines};
use simmerotter::{
    Argument, ArgumentForm, Arguments, Body, Definition, DefinitionKind, File, FunctionType, Kind, Location, Options, Room,
    Statement, StatementKind, Statements, Value, TOKEN_WORDS,
};
use std::ops::Range;

const HEADING: &str = "line:col  places        what\n";
const INDENT: usize = 2;
const NO_LENGTH: &str = "no plain length";

pub fn file(job: &Job, file: File, text: &[u8], tokens: &[u32], lines: &Lines) -> String {
    let mut page = Page::new(tokens, file.kept(), lines);
    let counts = [
        counted(file.definitions().count(), "definition"),
        counted(file.all_statements().count(), "statement"),
        counted(file.arguments().count(), "argument"),
    ];
    page.out += &format!("{}: accepted: {}; the end is place {}\n", shown(&job.text), counts.join(", "), file.end());
    if file.definitions().next().is_some() {
        page.out += HEADING;
    }
    let room = Room::with(Options::default().edition(job.edition));
    let mut lengths = Lengths { text, tokens, kept: file.kept(), room };
    for definition in file.definitions() {
        page.put_definition(definition, text, &mut lengths);
    }
    page.out
}

pub fn body(job: &Job, body: Body, tokens: &[u32], lines: &Lines) -> String {
    let mut page = Page::new(tokens, body.kept(), lines);
    let counts = [counted(body.all_statements().count(), "statement"), counted(body.arguments().count(), "argument")];
    let length = length_text(body);
    page.out += &format!("{}: accepted: {}, {}; the end is place {}\n", shown(&job.text), counts.join(", "), length, body.end());
    if body.all_statements().next().is_some() {
        page.out += HEADING;
    }
    page.put_statements(body.statements(), 0);
    page.out
}

/// The lines so far, and what is needed to say where a place stands.
struct Page<'a> {
    out: String,
    tokens: &'a [u32],
    kept: &'a [u32],
    lines: &'a Lines<'a>,
}

impl<'a> Page<'a> {
    fn new(tokens: &'a [u32], kept: &'a [u32], lines: &'a Lines<'a>) -> Page<'a> {
        Page { out: String::new(), tokens, kept, lines }
    }

    fn put(&mut self, places: Range<usize>, depth: usize, what: &str) {
        let token = token_of(self.tokens, self.kept, places.start);
        let position = token.map_or_else(String::new, |token| self.lines.position(token.bytes.start).to_string());
        let places = format!("{}..{}", places.start, places.end);
        self.out += &format!("{:<9} {:<13} {}{}\n", position, places, " ".repeat(INDENT * depth), what);
    }

    fn put_definition(&mut self, definition: Definition, text: &[u8], lengths: &mut Lengths) {
        let heading = heading(definition, |place| self.text_at(place, text), lengths);
        let bytes = definition.text_range();
        self.put(definition.places(), 0, &format!("{}; text bytes {}..{}", heading, bytes.start, bytes.end));
        self.put_declared(definition.arguments(), "argument");
        self.put_declared(definition.outputs(), "output");
        self.put_statements(definition.statements(), 1);
    }

    fn put_declared(&mut self, declared: Arguments, role: &str) {
        for argument in declared {
            self.put(argument.places(), 1, &format!("{} {}", role, argument_text(argument)));
        }
    }

    fn put_statements(&mut self, statements: Statements, depth: usize) {
        for statement in statements {
            self.put(statement.places(), depth, &statement_text(statement));
            for inner in statement.inner() {
                self.put(inner.places(), depth + 1, &statement_text(inner));
            }
        }
    }

    fn text_at(&self, place: usize, text: &[u8]) -> String {
        token_of(self.tokens, self.kept, place).map_or_else(String::new, |token| clean(token.text_in(text)))
    }
}

fn counted(count: usize, what: &str) -> String {
    format!("{} {}{}", count, what, if count == 1 { "" } else { "s" })
}

/// A definition in a line, without its arguments and statements.
fn heading(definition: Definition, text_at: impl Fn(usize) -> String, lengths: &mut Lengths) -> String {
    let name = clean(definition.name());
    match definition.kind() {
        DefinitionKind::Import => format!("import \"{}\"", name),
        DefinitionKind::Function => format!("function {}, {}", name, function_type(definition.function_type())),
        DefinitionKind::Event => format!("event {}", name),
        DefinitionKind::Error => format!("error {}", name),
        DefinitionKind::Constant => format!("constant {} = {}", name, value(definition.constant_value(), text_at)),
        DefinitionKind::Macro => macro_heading("macro", &name, definition, lengths),
        DefinitionKind::Fn => macro_heading("fn", &name, definition, lengths),
        DefinitionKind::Test => macro_heading("test", &name, definition, lengths),
        DefinitionKind::JumpTable => table_heading("jump table", &name, definition),
        DefinitionKind::JumpTablePacked => table_heading("packed jump table", &name, definition),
        DefinitionKind::CodeTable => table_heading("code table", &name, definition),
    }
}

fn function_type(of: Option<FunctionType>) -> &'static str {
    match of {
        Some(FunctionType::View) => "view",
        Some(FunctionType::Pure) => "pure",
        Some(FunctionType::Payable) => "payable",
        Some(FunctionType::NonPayable) => "nonpayable",
        None => "of no type",
    }
}

fn value(of: Option<Value>, text_at: impl Fn(usize) -> String) -> String {
    match of {
        Some(Value::Literal(place)) => text_at(place),
        // Its text isn't compared with anything, so the pointer is named as what the parser took it for.
        Some(Value::FreeStoragePointer(_)) => "the free storage pointer".to_string(),
        None => "nothing".to_string(),
    }
}

fn macro_heading(what: &str, name: &str, definition: Definition, lengths: &mut Lengths) -> String {
    let [takes, returns] = [definition.takes(), definition.returns()].map(|count| count.unwrap_or(0));
    format!("{} {}, takes {}, returns {}, {}", what, name, takes, returns, lengths.text_of(definition))
}

fn table_heading(what: &str, name: &str, definition: Definition) -> String {
    format!("{} {}, size {}", what, name, definition.table_size().unwrap_or(0))
}

/// A length goes with its edition; that there is none both editions say alike.
fn length_text(body: Body) -> String {
    match body.plain_length() {
        Some(length) => format!("plain length {} (edition {})", length, body.edition().number()),
        None => NO_LENGTH.to_string(),
    }
}

/// A statement in a line, without what lies under a label.
fn statement_text(statement: Statement) -> String {
    let text = clean(statement.value_text());
    match statement.kind() {
        StatementKind::Literal => format!("literal {}", text),
        // The list's byte decides, and the text isn't compared with it: both are shown.
        StatementKind::Opcode => match statement.value_token() {
            Some(token) => format!("opcode {} (0x{:02x})", text, token.extra),
            None => format!("opcode {}", text),
        },
        StatementKind::LabelCall => format!("label call {}", text),
        StatementKind::Invocation => format!("invocation {}({})", text, list_text(statement.arguments())),
        StatementKind::Label => format!("label {}:", text),
        StatementKind::Constant => format!("constant [{}]", text),
        StatementKind::ArgumentCall => format!("argument call <{}>", text),
        StatementKind::Builtin => format!("builtin {}({})", text, list_text(statement.arguments())),
        StatementKind::Code => format!("code {}", text),
    }
}

fn list_text(arguments: Arguments) -> String {
    arguments.map(argument_text).collect::<Vec<_>>().join(", ")
}

/// Type, indexed, location and name, as far as they are there.
fn argument_text(argument: Argument) -> String {
    let name = argument.name().map(clean);
    match argument.form() {
        ArgumentForm::Declared => {
            let indexed = if argument.indexed() { Some("indexed".to_string()) } else { None };
            let location = argument.location().map(|location| location_text(location).to_string());
            let parts = [argument.type_text().map(clean), indexed, location, name];
            parts.into_iter().flatten().collect::<Vec<_>>().join(" ")
        }
        ArgumentForm::Str => format!("\"{}\"", name.unwrap_or_default()),
        ArgumentForm::Literal | ArgumentForm::CallLiteral | ArgumentForm::CallName => name.unwrap_or_default(),
        ArgumentForm::CallArgument => format!("<{}>", name.unwrap_or_default()),
    }
}

fn location_text(location: Location) -> &'static str {
    match location {
        Location::Calldata => "calldata",
        Location::Memory => "memory",
        Location::Storage => "storage",
    }
}

/// Finds the plain length of a macro's body, which the file's own call doesn't give.
struct Lengths<'a> {
    text: &'a [u8],
    tokens: &'a [u32],
    kept: &'a [u32],
    room: Room,
}

impl Lengths<'_> {
    /// In words. The body is read once more, by itself: its own tokens and an Eof. With the whole list a file of many macros
    /// would be walked once for each of them.
    fn text_of(&mut self, definition: Definition) -> String {
        let list = self.body_list(definition.places()).unwrap_or_default();
        self.room.read_body(self.text, &list, 0).map_or_else(|_| NO_LENGTH.to_string(), length_text)
    }

    /// A macro's first brace opens its body, for its head has none; its last token closes it.
    fn body_list(&self, places: Range<usize>) -> Option<Vec<u32>> {
        let number = |place: usize| self.kept.get(place).and_then(|number| usize::try_from(*number).ok());
        let is_open =
            |place: &usize| token_of(self.tokens, self.kept, *place).map_or(false, |token| token.kind == Kind::OpenBrace);
        let first = number(places.clone().find(is_open)?)?;
        let end = number(places.end.checked_sub(1)?)?.checked_add(1)?;
        let words = self.tokens.get(first.checked_mul(TOKEN_WORDS)?..end.checked_mul(TOKEN_WORDS)?)?;
        let mut list = words.to_vec();
        let end_byte = *words.get(words.len().checked_sub(2)?)?;
        simmerotter::push_token(&mut list, Kind::Eof, end_byte, end_byte, 0);
        Some(list)
    }
}
