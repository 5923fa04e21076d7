"""The rules of files and bodies, read straightforwardly: document 01 with the requests that are done (docs/requests).

Where the papers are brief it follows docs/DECISIONS.md, and it shares nothing with the Rust: it is the other
side of the comparison. Every answer is given in full, refusals 30 to 38 and all lent contents too. `oracle/answer` answers
cases with it.
"""
import re

NONE = 4294967295
FILL = 2779096485
LARGEST = 4194304

KINDS = """Eof Whitespace Comment Include Define Pound Macro Fn Test Function Event Constant Error
JumpTable JumpTablePacked CodeTable Takes Returns View Pure Payable NonPayable Indexed Calldata
Memory Storage Assign OpenParen CloseParen OpenBrace CloseBrace OpenBracket CloseBracket LeftAngle
RightAngle Comma Colon FreeStoragePointer Ident Label Literal Opcode Num Str BuiltinFunction
PrimitiveType""".split()
(EOF, WHITESPACE, COMMENT, INCLUDE, DEFINE, POUND, MACRO, FN, TEST, FUNCTION, EVENT, CONSTANT,
 ERROR, JUMP_TABLE, JUMP_TABLE_PACKED, CODE_TABLE, TAKES, RETURNS, VIEW, PURE, PAYABLE, NON_PAYABLE,
 INDEXED, CALLDATA, MEMORY, STORAGE, ASSIGN, OPEN_PAREN, CLOSE_PAREN, OPEN_BRACE, CLOSE_BRACE,
 OPEN_BRACKET, CLOSE_BRACKET, LEFT_ANGLE, RIGHT_ANGLE, COMMA, COLON, FREE_STORAGE_POINTER, IDENT,
 LABEL, LITERAL, OPCODE, NUM, STR, BUILTIN, PRIMITIVE) = range(46)

# The numbers of refusals.
(UNEXPECTED_TYPE, INVALID_DEFINITION, INVALID_CONSTANT_VALUE, INVALID_PUSH, INVALID_IN_MACRO,
 INVALID_IN_LABEL, TYPE_AS_NAME, INVALID_ARGS, INVALID_SINGLE_ARG, INVALID_MACRO_ARGS,
 INVALID_TABLE_TOKEN, INVALID_CONSTANT, INVALID_ARG_CALL) = range(1, 14)
DUPLICATE, POUND_AT_TOP, REPEATED_LABEL = 20, 21, 22
NOT_WELL_FORMED, NO_SUCH_START, KEPT_SHORT, NO_SUCH_MODE, NO_SUCH_EDITION = 30, 31, 35, 36, 38

# The modes of a call.
PLAIN, STRICT = 0, 1

# The editions of the plain length.
FIRST, SECOND = 1, 2

# The types that a name can be (request [10]).
ADDRESS, BOOL, STRING, BYTES, UINT, INT, BYTES_N = range(1, 8)
NO_TYPE = (0, 0)
# Type and size of the names without digits; of those with digits the type, the step of the sizes and the last one.
BARE = {b"address": (ADDRESS, 0), b"bool": (BOOL, 0), b"string": (STRING, 0), b"bytes": (BYTES, 0),
        b"uint": (UINT, 256), b"int": (INT, 256)}
SIZED = {b"uint": (UINT, 8, 256), b"int": (INT, 8, 256), b"bytes": (BYTES_N, 1, 32)}
# No size has more than three digits, and none begins with a zero.
WITH_SIZE = re.compile(rb"(uint|int|bytes)([1-9][0-9]{0,2})")

# The words of a record: a definition's (request [7]), a statement's, an argument's.
WIDTHS = (14, 8, 7)

LOCATIONS = {CALLDATA: 1, MEMORY: 2, STORAGE: 3}
HEX = frozenset(b"0123456789abcdefABCDEF")


class Refused(Exception):
    """A refusal with one of 1 to 22, and its cursor; for 7 the type and the size that it tells."""

    def __init__(self, number, cursor, told=NO_TYPE):
        super().__init__(number, cursor, told)
        self.number = number
        self.cursor = cursor
        self.told = told


# The door.

def literal_is_sound(own):
    return 3 <= len(own) <= 66 and own[:2] == b"0x" and HEX.issuperset(own[2:])


def first_bad(text, words):
    """The cursor of 30, or None for a list that is well formed."""
    tokens, rest = divmod(len(words), 4)
    if len(text) > 1048576 or rest != 0 or tokens == 0 or tokens > 65536:
        return 0
    previous_end = 0
    for number in range(tokens):
        kind, start, end, extra = words[4 * number:4 * number + 4]
        sound = (
            kind <= 45
            and start <= end <= len(text)
            and start >= previous_end
            and (kind == EOF) == (number == tokens - 1)
        )
        if sound:
            if kind in (IDENT, LABEL):
                sound = start < end
            elif kind == LITERAL:
                sound = literal_is_sound(text[start:end])
        if sound:
            if kind == OPCODE:
                sound = extra <= 255
            elif kind != NUM:
                sound = extra == 0
        if not sound:
            return number
        previous_end = end
    return None


def kept_numbers(words):
    kinds = words[0::4]
    return [number for number, kind in enumerate(kinds) if kind != WHITESPACE and kind != COMMENT]


# Literals and pushes.

def value(own):
    """The literal's number, whatever its digits."""
    return int(own[2:], 16)


def significant_bytes(own):
    """How many bytes the literal's number takes; zero takes one."""
    return max(1, (value(own).bit_length() + 7) // 8)


def pushing_bytes(own, edition):
    """What a literal that is no push's operand comes to: a push and its bytes; in edition 2 (request [8]) a zero has
    PUSH0, a push without any."""
    if edition == SECOND and value(own) == 0:
        return 1
    return 1 + significant_bytes(own)


def pushed_bytes(byte):
    """n for a value push, 0 for any other opcode."""
    return byte - 0x5f if 0x60 <= byte <= 0x7f else 0


# Types.

def type_of(own):
    """The type that a name is, and its size: bits of uint and int, bytes of bytesN, else 0. NO_TYPE for a name that is
    none: exactly the names with a type are reserved."""
    if own in BARE:
        return BARE[own]
    found = WITH_SIZE.fullmatch(own)
    if found is None:
        return NO_TYPE
    number, step, last = SIZED[found.group(1)]
    size = int(found.group(2))
    return (number, size) if size % step == 0 and size <= last else NO_TYPE


class Reading:
    """Reads kept tokens by document 01's grammar and keeps the records, tables without bounds.

    Strict reading (request [1]) asks two things more of labels: their value pushes have their literals, and no two
    labels of a body have the same name."""

    def __init__(self, kinds, texts, extras, ranges, place, strict=False):
        self.kinds = kinds
        self.texts = texts
        self.extras = extras
        self.ranges = ranges
        self.place = place
        self.strict = strict
        self.definitions = []
        self.statements = []
        self.arguments = []
        self.names = set()

    # Single tokens.

    def here(self):
        return self.kinds[self.place]

    def refuse(self, number):
        raise Refused(number, self.place)

    def need(self, kind, number=UNEXPECTED_TYPE):
        """The token here has to be of this kind; its place is given and the next one is here."""
        if self.kinds[self.place] != kind:
            raise Refused(number, self.place)
        self.place += 1
        return self.place - 1

    def take(self, kind):
        """Goes past the token here if it is of this kind."""
        if self.kinds[self.place] != kind:
            return False
        self.place += 1
        return True

    # Bodies.

    def body(self):
        self.need(OPEN_BRACE)
        while self.here() not in (LABEL, CLOSE_BRACE):
            self.item(in_label=False)
        labels = set()
        while self.here() == LABEL:
            if self.strict:
                self.name_once(labels)
            self.group()
        self.need(CLOSE_BRACE)

    def name_once(self, labels):
        """The Label here may not have the name of an earlier one of its body; whether a Colon follows isn't asked yet."""
        own = self.texts[self.place]
        if own in labels:
            self.refuse(REPEATED_LABEL)
        labels.add(own)

    def group(self):
        own = len(self.statements)
        self.statements.append(None)
        arguments_before = len(self.arguments)
        first = self.need(LABEL)
        self.need(COLON)
        while self.here() not in (LABEL, CLOSE_BRACE):
            self.item(in_label=True)
        inner = len(self.statements) - own - 1
        self.statements[own] = (5, first, self.place, own + 1, inner, arguments_before, 0, first)

    def item(self, in_label):
        first = self.place
        kind = self.kinds[first]
        if kind == LITERAL:
            self.place += 1
            self.statement(1, first, first)
        elif kind == OPCODE:
            self.place += 1
            self.statement(2, first, first)
            n = pushed_bytes(self.extras[first])
            if n > 0 and (self.strict or not in_label):
                operand = self.need(LITERAL, INVALID_PUSH)
                if significant_bytes(self.texts[operand]) > n:
                    self.refuse(INVALID_PUSH)
                self.statement(1, operand, operand)
        elif kind == IDENT:
            self.place += 1
            if self.here() == OPEN_PAREN:
                arguments_before = len(self.arguments)
                self.call_list()
                self.statement(4, first, first, arguments_before)
            else:
                self.statement(3, first, first)
        elif kind == OPEN_BRACKET:
            self.place += 1
            name = self.need(IDENT, INVALID_CONSTANT)
            self.need(CLOSE_BRACKET)
            self.statement(6, first, name)
        elif kind == LEFT_ANGLE:
            self.place += 1
            name = self.need(IDENT, INVALID_ARG_CALL)
            self.need(RIGHT_ANGLE)
            self.statement(7, first, name)
        elif kind == BUILTIN:
            self.place += 1
            arguments_before = len(self.arguments)
            self.untyped_list(builtin=True)
            self.statement(8, first, first, arguments_before)
        else:
            self.refuse(INVALID_IN_LABEL if in_label else INVALID_IN_MACRO)

    def statement(self, kind, first, place, arguments_before=None):
        """The record of a statement that isn't a label and ends here."""
        own = len(self.statements)
        so_far = len(self.arguments)
        if arguments_before is None:
            arguments_before = so_far
        self.statements.append((kind, first, self.place, own + 1, 0, arguments_before,
                                so_far - arguments_before, place))

    def plain_length(self, edition):
        """Of the body that was read, by its statements' records: the macro part's and each label's."""
        parts = [[]]
        for record in self.statements:
            if record[0] == 5:
                parts.append([])
            else:
                parts[-1].append(record)
        lengths = [self.part_length(part, edition) for part in parts]
        return NONE if NONE in lengths else len(parts) - 1 + sum(lengths)

    def part_length(self, part, edition):
        """The bytes of statements that are no labels; request [3]: a value push has its operand directly behind it."""
        length = 0
        rest = iter(part)
        for kind, *_, place in rest:
            if kind == 1:
                length += pushing_bytes(self.texts[place], edition)
            elif kind == 2:
                n = pushed_bytes(self.extras[place])
                if n > 0:
                    behind, *_, operand = next(rest, (0, 0))
                    if behind != 1 or significant_bytes(self.texts[operand]) > n:
                        return NONE
                length += 1 + n
            elif kind == 3:
                length += 3
            else:
                return NONE
        return length

    # Lists.

    def call_list(self):
        self.need(OPEN_PAREN)
        while self.here() != CLOSE_PAREN:
            first = self.place
            kind = self.kinds[first]
            if kind == LITERAL:
                self.place += 1
                form, name = 4, first
            elif kind in (IDENT, CALLDATA):
                self.place += 1
                form, name = 5, first
            elif kind == LEFT_ANGLE:
                self.place += 1
                name = self.need(IDENT)
                self.need(RIGHT_ANGLE)
                form = 6
            else:
                self.refuse(INVALID_MACRO_ARGS)
            self.arguments.append((form, NONE, name, 0, 0, first, self.place))
            self.take(COMMA)
        self.need(CLOSE_PAREN)

    def untyped_list(self, builtin):
        """A builtin's list, or a macro's, which has no strings and no literals; gives its count."""
        before = len(self.arguments)
        self.need(OPEN_PAREN)
        names = 0
        while self.here() != CLOSE_PAREN:
            first = self.place
            kind = self.kinds[first]
            if builtin and kind in (STR, LITERAL):
                self.place += 1
                self.arguments.append((2 if kind == STR else 3, NONE, first, 0, 0, first, first + 1))
            else:
                location = self.location()
                tested = names % 2 == 1
                if not self.name(tested):
                    # The Comma is eaten before the refusal is given.
                    self.take(COMMA)
                    self.refuse(INVALID_ARGS)
                names += 1
                self.arguments.append((1, NONE, self.place - 1, 0, location, first, self.place))
            if self.take(COMMA):
                names = 0
        self.need(CLOSE_PAREN)
        return len(self.arguments) - before

    def typed_list(self, indexes=False):
        """A function's, an event's or an error's list; gives its count."""
        before = len(self.arguments)
        self.need(OPEN_PAREN)
        while self.here() != CLOSE_PAREN:
            first = self.need(PRIMITIVE, INVALID_ARGS)
            indexed = 1 if indexes and self.take(INDEXED) else 0
            location = self.location()
            name = self.place - 1 if self.name(tested=True) else NONE
            self.arguments.append((1, first, name, indexed, location, first, self.place))
            self.take(COMMA)
        self.need(CLOSE_PAREN)
        return len(self.arguments) - before

    def location(self):
        found = LOCATIONS.get(self.here(), 0)
        if found:
            self.place += 1
        return found

    def name(self, tested):
        """Goes past a name if one is here. A type stands in no name's place; where names are tested it is told which."""
        kind = self.here()
        if kind not in (IDENT, PRIMITIVE):
            return False
        if tested:
            told = type_of(self.texts[self.place])
            if kind == PRIMITIVE or told != NO_TYPE:
                raise Refused(TYPE_AS_NAME, self.place, told)
        self.need(IDENT)
        return True

    # Files.

    def file(self):
        while self.here() != EOF:
            kind = self.here()
            if kind == INCLUDE:
                self.include()
            elif kind == DEFINE:
                self.define()
            elif kind == POUND:
                self.refuse(POUND_AT_TOP)
            else:
                self.refuse(UNEXPECTED_TYPE)

    def include(self):
        first = self.need(INCLUDE)
        name = self.need(STR)
        a, s = len(self.arguments), len(self.statements)
        self.definition(1, name, first, a, 0, a, 0, s, 0, 0, 0)

    def define(self):
        first = self.need(DEFINE)
        keyword = self.here()
        if keyword not in DEFINITIONS:
            self.refuse(INVALID_DEFINITION)
        number, rest = DEFINITIONS[keyword]
        self.place += 1
        name = self.need(IDENT)
        first_argument, first_statement = len(self.arguments), len(self.statements)
        arguments, outputs, a, b = rest(self, keyword, name)
        self.definition(number, name, first, first_argument, arguments, first_argument + arguments, outputs,
                        first_statement, len(self.statements) - first_statement, a, b)

    def definition(self, number, name, first, *runs):
        """The record of a definition that ends here. Where it stands in the text is told last (request [7]): from the
        start of its first token to the end of its last one, in bytes."""
        (start, _), (_, end) = self.ranges[first], self.ranges[self.place - 1]
        self.definitions.append((number, name, first, self.place, *runs, start, end))

    # Each of these goes to the definition's end and gives its declared arguments, its outputs, and
    # the record's A and B.

    def rest_of_function(self, keyword, name):
        arguments = self.typed_list()
        types = {VIEW: 1, PURE: 2, PAYABLE: 3, NON_PAYABLE: 4}
        if self.here() not in types:
            self.refuse(UNEXPECTED_TYPE)
        found = types[self.here()]
        self.place += 1
        self.need(RETURNS)
        outputs = self.typed_list()
        return arguments, outputs, found, 0

    def rest_of_event(self, keyword, name):
        return self.typed_list(indexes=True), 0, 0, 0

    def rest_of_error(self, keyword, name):
        return self.typed_list(), 0, 0, 0

    def rest_of_constant(self, keyword, name):
        self.need(ASSIGN)
        if self.here() == LITERAL:
            found = 1
        elif self.here() == FREE_STORAGE_POINTER:
            found = 2
        else:
            self.refuse(INVALID_CONSTANT_VALUE)
        self.place += 1
        return 0, 0, found, self.place - 1

    def rest_of_macro(self, keyword, name):
        arguments = self.untyped_list(builtin=False)
        self.need(ASSIGN)
        takes = self.single() if self.take(TAKES) else 0
        returns = self.single() if self.take(RETURNS) else 0
        self.body()
        self.remember(name)
        return arguments, 0, takes, returns

    def remember(self, name):
        """No two macros, fns or tests have the same name."""
        if self.texts[name] in self.names:
            raise Refused(DUPLICATE, name)
        self.names.add(self.texts[name])

    def single(self):
        self.need(OPEN_PAREN)
        number = self.need(NUM, INVALID_SINGLE_ARG)
        self.need(CLOSE_PAREN)
        return self.extras[number]

    def rest_of_table(self, keyword, name):
        self.take(OPEN_PAREN)
        self.take(CLOSE_PAREN)
        self.take(ASSIGN)
        self.need(OPEN_BRACE)
        digits = entries = 0
        while self.here() != CLOSE_BRACE:
            entry = self.place
            if self.here() != IDENT:
                self.refuse(INVALID_TABLE_TOKEN)
            own = self.texts[entry]
            if keyword == CODE_TABLE and not self.is_code(own):
                self.refuse(INVALID_TABLE_TOKEN)
            self.place += 1
            self.statement(9 if keyword == CODE_TABLE else 3, entry, entry)
            entries += 1
            digits += len(own)
        self.need(CLOSE_BRACE)
        if keyword == CODE_TABLE:
            return 0, 0, digits // 2, 0
        return 0, 0, entries * (2 if keyword == JUMP_TABLE_PACKED else 32), 0

    def is_code(self, own):
        return HEX.issuperset(own)


DEFINITIONS = {
    FUNCTION: (2, Reading.rest_of_function),
    EVENT: (3, Reading.rest_of_event),
    CONSTANT: (4, Reading.rest_of_constant),
    ERROR: (5, Reading.rest_of_error),
    MACRO: (6, Reading.rest_of_macro),
    FN: (7, Reading.rest_of_macro),
    TEST: (8, Reading.rest_of_macro),
    JUMP_TABLE: (9, Reading.rest_of_table),
    JUMP_TABLE_PACKED: (10, Reading.rest_of_table),
    CODE_TABLE: (11, Reading.rest_of_table),
}


def read(entry, mode, start, text, words, kept, reading=Reading):
    """The reading of a well-formed list in mode 0 or 1, or Refused."""
    kinds, texts, extras, ranges = [], [], [], []
    for number in kept:
        kind, first, end, extra = words[4 * number:4 * number + 4]
        kinds.append(kind)
        texts.append(text[first:end])
        extras.append(extra)
        ranges.append((first, end))
    found = reading(kinds, texts, extras, ranges, start, mode == STRICT)
    if entry == "B":
        found.body()
    else:
        found.file()
    return found


# Cases and answers.

NUMBER = rb"([0-9]{1,10})"
CASE = re.compile(rb"([FB]) " + NUMBER + rb" (-|[0-9]{1,10}) " + rb" ".join([NUMBER] * 5)
                  + rb" (-|(?:[0-9a-fA-F]{2})+) (-|[0-9]{1,10}(?:,[0-9]{1,10})*)")


def read_case(line):
    """(entry, mode, edition, start, four lengths, text, words) of a line, or the answer that says why not. A file has
    no edition: None."""
    found = CASE.fullmatch(line)
    if found is None:
        return "X_NotACase"
    entry = found.group(1).decode()
    mode, start, *lengths = [int(found.group(i)) for i in (2, 4, 5, 6, 7, 8)]
    edition = None if found.group(3) == b"-" else int(found.group(3))
    text, words = found.group(9), found.group(10)
    text = b"" if text == b"-" else bytes.fromhex(text.decode())
    words = [] if words == b"-" else [int(w) for w in words.split(b",")]
    if max([mode, edition or 0, start] + lengths + words) > NONE:
        return "X_NotACase"
    if (entry == "F") != (edition is None):
        return "X_NotACase"
    if (entry == "F" and start != 0) or (entry == "B" and lengths[1] != 0):
        return "X_NotACase"
    if max(lengths + [len(text), len(words)]) > LARGEST:
        return "X_TooLarge"
    return entry, mode, edition, start, lengths, text, words


def refusal(number, cursor, told=NO_TYPE):
    """The seven numbers of a refusal: the counts are 0."""
    return number, cursor, 0, 0, 0, *told


def answer(entry, mode, edition, start, lengths, text, words, reading=Reading):
    """The seven numbers and the four lent lists after the call."""
    untouched = [[FILL] * n for n in lengths]
    if mode not in (PLAIN, STRICT):
        return refusal(NO_SUCH_MODE, 0), untouched
    if entry == "B" and edition not in (FIRST, SECOND):
        return refusal(NO_SUCH_EDITION, 0), untouched
    bad = first_bad(text, words)
    if bad is not None:
        return refusal(NOT_WELL_FORMED, bad), untouched
    kept = kept_numbers(words)
    if lengths[0] < len(kept):
        return refusal(KEPT_SHORT, len(kept)), untouched
    if entry == "B" and start >= len(kept):
        return refusal(NO_SUCH_START, start), untouched

    lists = [kept + [FILL] * (lengths[0] - len(kept))] + [[0] * n for n in lengths[1:]]
    try:
        found = read(entry, mode, start, text, words, kept, reading)
    except Refused as no:
        return refusal(no.number, no.cursor, no.told), lists
    tables = list(zip((32, 33, 34), WIDTHS, (found.definitions, found.statements, found.arguments)))
    for (number, width, records), length in zip(tables, lengths[1:]):
        if len(records) > length // width:
            return refusal(number, len(records)), lists
    for i, (number, width, records) in enumerate(tables, 1):
        flat = [word for record in records for word in record]
        lists[i][:len(flat)] = flat
    counts = [len(records) for _, _, records in tables]
    if entry == "B":
        counts = [counts[1], counts[2], found.plain_length(edition)]
    return (0, found.place, *counts, *NO_TYPE), lists


def show(numbers, lists):
    return " ".join(map(str, numbers)) + "".join("|" + ",".join(map(str, l)) for l in lists)
