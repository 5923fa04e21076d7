//! Runs the Rust and turns its nodes into document 01's records.

use crate::{tokens::Range, SECOND};
use huff_parser::Parser;
use huff_utils::{
    ast::*,
    error::{ParserError, ParserErrorKind as Kind},
    token::{Token, TokenKind},
    types::PrimitiveEVMType,
};

const NONE: u32 = 4_294_967_295;

/// What was read.
pub struct Found {
    pub cursor: usize,
    pub length: u32,
    pub definitions: Vec<[u32; 14]>,
    pub statements: Vec<[u32; 8]>,
    pub arguments: Vec<[u32; 7]>,
}

/// Type and size of request [10]; both are 0 where no type is told.
pub type Told = [u32; 2];
pub const NO_TYPE: Told = [0, 0];

/// What was refused: document 01's number and cursor with what is told, or a name where it has no
/// number.
pub enum No {
    Number(u32, usize, Told),
    Other(&'static str),
}

impl From<ParserError> for No {
    fn from(e: ParserError) -> No {
        let number = match e.kind {
            Kind::UnexpectedType(_) => 1,
            Kind::InvalidDefinition(_) => 2,
            Kind::InvalidConstantValue(_) => 3,
            Kind::InvalidPush(_) => 4,
            Kind::InvalidTokenInMacroBody(_) => 5,
            Kind::InvalidTokenInLabelDefinition(_) => 6,
            Kind::InvalidTypeAsArgumentName(token) => {
                return told(&token).map_or(LOST, |told| No::Number(7, e.cursor, told))
            }
            Kind::InvalidArgs(_) => 8,
            Kind::InvalidSingleArg(_) => 9,
            Kind::InvalidMacroArgs(_) => 10,
            Kind::InvalidTableBodyToken(_) => 11,
            Kind::InvalidConstant(_) => 12,
            Kind::InvalidArgCallIdent(_) => 13,
            // The Rust's cursor is past the brace; its span is that of the later name.
            Kind::DuplicateMacro(_) => return No::Number(20, e.spans[0].start, NO_TYPE),
            Kind::InvalidName(_) => return No::Other("InvalidName"),
            Kind::InvalidDecoratorFlag(_) => return No::Other("InvalidDecoratorFlag"),
            Kind::InvalidDecoratorFlagArg(_) => return No::Other("InvalidDecoratorFlagArg"),
            Kind::InvalidUint256(_) => return No::Other("InvalidUint256"),
            Kind::InvalidInt(_) => return No::Other("InvalidInt"),
            Kind::InvalidBytes(_) => return No::Other("InvalidBytes"),
        };
        No::Number(number, e.cursor, NO_TYPE)
    }
}

/// What the token in the Rust's refusal tells. A PrimitiveType holds its type; a name's text has to
/// be asked for it again, by the test that the Rust refused it by.
fn told(token: &TokenKind) -> Option<Told> {
    match token {
        TokenKind::PrimitiveType(ty) => Some(type_and_size(ty)),
        TokenKind::Ident(name) => {
            PrimitiveEVMType::try_from(name.clone()).ok().map(|ty| type_and_size(&ty))
        }
        _ => None,
    }
}

/// A size that no reserved name has tells nothing: the Rust holds it, and tests it only where a type
/// is read.
fn type_and_size(ty: &PrimitiveEVMType) -> Told {
    let is_bits = |n: usize| n % 8 == 0 && (8..=256).contains(&n);
    match *ty {
        PrimitiveEVMType::Address => [1, 0],
        PrimitiveEVMType::Bool => [2, 0],
        PrimitiveEVMType::String => [3, 0],
        PrimitiveEVMType::DynBytes => [4, 0],
        PrimitiveEVMType::Uint(n) if is_bits(n) => [5, n as u32],
        PrimitiveEVMType::Int(n) if is_bits(n) => [6, n as u32],
        PrimitiveEVMType::Bytes(n) if (1..=32).contains(&n) => [7, n as u32],
        _ => NO_TYPE,
    }
}

/// What is derived doesn't fit the nodes.
const LOST: No = No::Other("DriverLost");

fn sure(fits: bool) -> Result<(), No> {
    if fits {
        Ok(())
    } else {
        Err(LOST)
    }
}

/// A parser that stands at a place. The Rust drops white space only for a whole file, so it is
/// dropped here, as there.
fn parser_at(mut list: Vec<Token>, start: usize) -> Parser {
    list.retain(|t| !matches!(t.kind, TokenKind::Whitespace | TokenKind::Comment(_)));
    let mut parser = Parser::new(list, None);
    parser.cursor = start;
    parser.current_token = parser.tokens[start].clone();
    parser
}

/// Reads a body from a place; its length is that of an edition.
pub fn read_body(list: Vec<Token>, start: usize, edition: u32) -> Result<Found, No> {
    let mut parser = parser_at(list, start);
    let body = parser.parse_body()?;
    let mut maker = Maker::new(&parser.tokens, &[]);
    maker.statements(&body, start + 1, parser.cursor - 1)?;
    let length = plain_length(&body, edition).unwrap_or(NONE);
    Ok(maker.found(parser.cursor, length))
}

/// The Rust's own result, as Rust shows it.
pub fn raw(list: Vec<Token>, body: bool, start: usize) -> String {
    if body {
        format!("{:?}", parser_at(list, start).parse_body())
    } else {
        format!("{:?}", Parser::new(list, None).parse())
    }
}

/// Reads a file. The ranges are those of the kept tokens, in the text: the Rust's spans are places.
pub fn read_file(list: Vec<Token>, ranges: &[Range]) -> Result<Found, No> {
    let mut parser = Parser::new(list, None);
    let contract = parser.parse()?;
    if contract.macros.iter().any(|m| m.decorator.is_some()) {
        return Err(No::Other("Decorator"));
    }
    let constants = contract.constants.lock().unwrap();
    let mut all: Vec<(&AstSpan, Def)> = vec![];
    all.extend(contract.functions.iter().map(|d| (&d.span, Def::Function(d))));
    all.extend(contract.events.iter().map(|d| (&d.span, Def::Event(d))));
    all.extend(constants.iter().map(|d| (&d.span, Def::Constant(d))));
    all.extend(contract.errors.iter().map(|d| (&d.span, Def::Error(d))));
    all.extend(contract.macros.iter().map(|d| (&d.span, Def::Macro(d))));
    all.extend(contract.tables.iter().map(|d| (&d.span, Def::Table(d))));
    all.sort_by_key(|(span, _)| span[0].start);

    let mut maker = Maker::new(&parser.tokens, ranges);
    let mut imports = contract.imports.len();
    let mut place = 0;
    for (span, def) in &all {
        let (first, end) = (span[0].start, span.0[span.0.len() - 1].end);
        maker.imports(&mut place, first, &mut imports)?;
        sure(span.0.len() == end - first)?;
        maker.definition(def, first, end)?;
        place = end;
    }
    maker.imports(&mut place, parser.cursor, &mut imports)?;
    sure(imports == 0)?;
    Ok(maker.found(parser.cursor, 0))
}

enum Def<'a> {
    Function(&'a FunctionDefinition),
    Event(&'a EventDefinition),
    Constant(&'a ConstantDefinition),
    Error(&'a ErrorDefinition),
    Macro(&'a MacroDefinition),
    Table(&'a TableDefinition),
}

/// Writes records in reading order.
struct Maker<'a> {
    tokens: &'a [Token],
    ranges: &'a [Range],
    definitions: Vec<[u32; 14]>,
    statements: Vec<[u32; 8]>,
    arguments: Vec<[u32; 7]>,
}

impl<'a> Maker<'a> {
    fn new(tokens: &'a [Token], ranges: &'a [Range]) -> Self {
        Maker { tokens, ranges, definitions: vec![], statements: vec![], arguments: vec![] }
    }

    fn found(self, cursor: usize, length: u32) -> Found {
        let Maker { definitions, statements, arguments, .. } = self;
        Found { cursor, length, definitions, statements, arguments }
    }

    /// Imports have no spans: they are the pairs of tokens between the other definitions.
    fn imports(&mut self, place: &mut usize, end: usize, left: &mut usize) -> Result<(), No> {
        while *place < end {
            sure(*left > 0 && *place + 2 <= end)?;
            sure(matches!(self.tokens[*place].kind, TokenKind::Include))?;
            sure(matches!(self.tokens[*place + 1].kind, TokenKind::Str(_)))?;
            let (s, a, p) =
                (self.statements.len() as u32, self.arguments.len() as u32, *place as u32);
            let [start, end] = self.in_text(*place, *place + 2);
            self.definitions.push([1, p + 1, p, p + 2, a, 0, a, 0, s, 0, 0, 0, start, end]);
            *place += 2;
            *left -= 1;
        }
        Ok(())
    }

    /// Where the tokens from a place to another stand in the text, request [7]: from the start of the
    /// first to the end of the last.
    fn in_text(&self, first: usize, end: usize) -> Range {
        [self.ranges[first][0], self.ranges[end - 1][1]]
    }

    fn definition(&mut self, def: &Def, first: usize, end: usize) -> Result<(), No> {
        let nothing: (&[Argument], &[Argument], &[Statement]) = (&[], &[], &[]);
        let (kind, (inputs, outputs, body), a, b) = match def {
            Def::Function(f) => {
                let ty = match f.fn_type {
                    FunctionType::View => 1,
                    FunctionType::Pure => 2,
                    FunctionType::Payable => 3,
                    FunctionType::NonPayable => 4,
                };
                (2, (&f.inputs[..], &f.outputs[..], nothing.2), ty, 0)
            }
            Def::Event(e) => (3, (&e.parameters[..], nothing.1, nothing.2), 0, 0),
            Def::Constant(c) => {
                let form = match c.value {
                    ConstVal::Literal(_) => 1,
                    ConstVal::FreeStoragePointer(_) => 2,
                };
                (4, nothing, form, end as u32 - 1)
            }
            Def::Error(e) => (5, (&e.parameters[..], nothing.1, nothing.2), 0, 0),
            Def::Macro(m) => {
                let kind = if m.outlined {
                    7
                } else if m.test {
                    8
                } else {
                    6
                };
                let body = (&m.parameters[..], nothing.1, &m.statements[..]);
                (kind, body, m.takes as u32, m.returns as u32)
            }
            Def::Table(t) => {
                let kind = match t.kind {
                    TableKind::JumpTable => 9,
                    TableKind::JumpTablePacked => 10,
                    TableKind::CodeTable => 11,
                };
                sure(t.size[..28].iter().all(|b| *b == 0))?;
                let size = u32::from_be_bytes(t.size[28..].try_into().unwrap());
                (kind, (nothing.0, nothing.1, &t.statements[..]), size, 0)
            }
        };
        let first_argument = self.arguments.len() as u32;
        self.declared(inputs)?;
        let first_output = self.arguments.len() as u32;
        self.declared(outputs)?;
        let first_statement = self.statements.len() as u32;
        // A body's or a table's statements stand directly before the closing brace; where they
        // begin only they say.
        if let Some(s) = body.first() {
            self.statements(body, first_of(s), end - 1)?;
        }
        let written = self.statements.len() as u32 - first_statement;
        let [text_start, text_end] = self.in_text(first, end);
        self.definitions.push([
            kind,
            first as u32 + 2,
            first as u32,
            end as u32,
            first_argument,
            inputs.len() as u32,
            first_output,
            outputs.len() as u32,
            first_statement,
            written,
            a,
            b,
            text_start,
            text_end,
        ]);
        Ok(())
    }

    /// Statements tile the tokens from `place` to `end`, which is the place of a Label or a brace.
    fn statements(&mut self, list: &[Statement], place: usize, end: usize) -> Result<(), No> {
        let mut place = place;
        for (i, s) in list.iter().enumerate() {
            let first = first_of(s);
            sure(first == place)?;
            let next = list.get(i + 1).map_or(end, first_of);
            place = self.statement(s, first, next)?;
            sure(place == next)?;
        }
        sure(place == end)
    }

    /// Writes a statement and gives its end. `next` is where the one after it begins.
    fn statement(&mut self, s: &Statement, first: usize, next: usize) -> Result<usize, No> {
        let own = self.statements.len();
        self.statements.push([0; 8]);
        let first_argument = self.arguments.len() as u32;
        let mut arguments = 0;
        let (ty, end, name) = match &s.ty {
            StatementType::Literal(_) => (1, first + 1, first),
            StatementType::Opcode(_) => (2, first + 1, first),
            StatementType::LabelCall(_) => (3, first + 1, first),
            StatementType::Code(_) => (9, first + 1, first),
            StatementType::Constant(_) => (6, first + 3, first + 1),
            StatementType::ArgCall(_) => (7, first + 3, first + 1),
            StatementType::MacroInvocation(m) => {
                let end = m.span.0[m.span.0.len() - 1].end;
                arguments = self.call(m, first, end)?;
                (4, end, first)
            }
            // The nodes don't hold the parentheses, so the end is where the next one begins.
            StatementType::BuiltinFunctionCall(b) => {
                self.declared(&b.args)?;
                arguments = b.args.len() as u32;
                (8, next, first)
            }
            StatementType::Label(l) => {
                self.statements(&l.inner, first + 2, next)?;
                (5, next, first)
            }
        };
        let inner = if ty == 5 { self.statements.len() - own - 1 } else { 0 };
        self.statements[own] = [
            ty,
            first as u32,
            end as u32,
            own as u32 + 1,
            inner as u32,
            first_argument,
            arguments,
            name as u32,
        ];
        Ok(end)
    }

    /// Declared arguments and those of builtins. A builtin's strings and literals look like names in
    /// the nodes, so the token tells the form.
    fn declared(&mut self, list: &[Argument]) -> Result<(), No> {
        for a in list {
            let (first, end) = (a.span[0].start, a.span.0[a.span.0.len() - 1].end);
            sure(a.span.0.len() == end - first)?;
            let form = match self.tokens[first].kind {
                TokenKind::Str(_) => 2,
                TokenKind::Literal(_) => 3,
                _ => 1,
            };
            let ty = if a.arg_type.is_some() { first as u32 } else { NONE };
            let name = if a.name.is_some() { end as u32 - 1 } else { NONE };
            let location = match a.arg_location {
                None => 0,
                Some(ArgumentLocation::Calldata) => 1,
                Some(ArgumentLocation::Memory) => 2,
                Some(ArgumentLocation::Storage) => 3,
            };
            let indexed = u32::from(a.indexed);
            self.arguments.push([form, ty, name, indexed, location, first as u32, end as u32]);
        }
        Ok(())
    }

    /// The arguments of a call have no spans: they are read again from its tokens, and have to be
    /// those of the nodes.
    fn call(&mut self, m: &MacroInvocation, first: usize, end: usize) -> Result<u32, No> {
        let mut place = first + 2;
        let mut found = vec![];
        while place < end - 1 {
            let (form, name, after) = match &self.tokens[place].kind {
                TokenKind::Comma => {
                    place += 1;
                    continue;
                }
                TokenKind::Literal(l) => {
                    found.push(MacroArg::Literal(*l));
                    (4, place, place + 1)
                }
                TokenKind::Ident(s) => {
                    found.push(MacroArg::Ident(s.clone()));
                    (5, place, place + 1)
                }
                TokenKind::Calldata => {
                    found.push(MacroArg::Ident("calldata".to_string()));
                    (5, place, place + 1)
                }
                TokenKind::LeftAngle => {
                    match &self.tokens[place + 1].kind {
                        TokenKind::Ident(s) => found.push(MacroArg::ArgCall(s.clone())),
                        _ => return Err(LOST),
                    }
                    (6, place + 1, place + 3)
                }
                _ => return Err(LOST),
            };
            self.arguments.push([form, NONE, name as u32, 0, 0, place as u32, after as u32]);
            place = after;
        }
        sure(place == end - 1 && found == m.args)?;
        Ok(found.len() as u32)
    }
}

/// A constant's and an argument call's node holds the name alone, which the bracket stands before.
fn first_of(s: &Statement) -> usize {
    match s.ty {
        StatementType::Constant(_) | StatementType::ArgCall(_) => s.span[0].start - 1,
        _ => s.span[0].start,
    }
}

/// The plain length of a body in an edition, which the Rust doesn't know: document 01's added rule,
/// with requests [3] and [8].
fn plain_length(body: &[Statement], edition: u32) -> Option<u32> {
    let labels = body.iter().position(|s| matches!(s.ty, StatementType::Label(_)));
    let (main, groups) = body.split_at(labels.unwrap_or(body.len()));
    let mut total = part_length(main, edition)?;
    for s in groups {
        match &s.ty {
            StatementType::Label(l) => total += 1 + part_length(&l.inner, edition)?,
            _ => unreachable!("behind a label stands another statement than a label"),
        }
    }
    Some(total)
}

/// The bytes of a macro part or of a label's items.
fn part_length(part: &[Statement], edition: u32) -> Option<u32> {
    let mut total = 0;
    let mut rest = part.iter();
    while let Some(s) = rest.next() {
        total += match &s.ty {
            StatementType::Opcode(o) if o.is_value_push() => {
                let n = u32::from(o.0 - 0x5f);
                match &rest.next()?.ty {
                    StatementType::Literal(l) if significant(l) <= n => 1 + n,
                    _ => return None,
                }
            }
            StatementType::Opcode(_) => 1,
            // PUSH0.
            StatementType::Literal(l) if edition == SECOND && *l == [0; 32] => 1,
            StatementType::Literal(l) => 1 + significant(l),
            StatementType::LabelCall(_) => 3,
            _ => return None,
        };
    }
    Some(total)
}

fn significant(l: &[u8; 32]) -> u32 {
    32 - l.iter().position(|b| *b != 0).unwrap_or(31) as u32
}
