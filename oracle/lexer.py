"""The tokens of a text (request [4]), read straightforwardly: a regular expression for each sort of lexeme.

It shares nothing with the port but the numbers of the kinds and the names of the types, which are document 01's and stand
in oracle/rules.py. `oracle/answer` answers the cases of texts with it.
"""
import re

import rules

# What a text and a token list may hold.
LONGEST_TEXT, MOST_TOKENS = 1048576, 65536
# What a Num and a Literal may hold.
LARGEST_NUM, NUM_DIGITS, LITERAL_DIGITS = 4294967295, 10, 64

# The numbers of refusals.
TEXT_TOO_LONG, STARTS_NOTHING, NOT_CLOSED, TOO_LARGE, LIST_SHORT = range(39, 44)

# Outside braces. A keyword is told by its spelling alone, wherever it stands.
KEYWORDS = {
    b"macro": rules.MACRO, b"fn": rules.FN, b"test": rules.TEST, b"function": rules.FUNCTION, b"event": rules.EVENT,
    b"constant": rules.CONSTANT, b"error": rules.ERROR, b"jumptable": rules.JUMP_TABLE,
    b"jumptable__packed": rules.JUMP_TABLE_PACKED, b"table": rules.CODE_TABLE, b"takes": rules.TAKES,
    b"returns": rules.RETURNS, b"view": rules.VIEW, b"pure": rules.PURE, b"payable": rules.PAYABLE,
    b"nonpayable": rules.NON_PAYABLE, b"indexed": rules.INDEXED, b"calldata": rules.CALLDATA, b"memory": rules.MEMORY,
    b"storage": rules.STORAGE,
}
HASHES = {b"#define": rules.DEFINE, b"#include": rules.INCLUDE}
MARKS = {
    b"#": rules.POUND, b"=": rules.ASSIGN, b"(": rules.OPEN_PAREN, b")": rules.CLOSE_PAREN, b"{": rules.OPEN_BRACE,
    b"}": rules.CLOSE_BRACE, b"[": rules.OPEN_BRACKET, b"]": rules.CLOSE_BRACKET, b"<": rules.LEFT_ANGLE,
    b">": rules.RIGHT_ANGLE, b",": rules.COMMA, b":": rules.COLON,
}
# Inside braces that are no code table's: the Yellow Paper's names, from a byte on. Editions differ in the names of 0x20 and
# 0x44, so both are taken.
MNEMONIC_RUNS = [
    (0x00, "stop add mul sub div sdiv mod smod addmod mulmod exp signextend"),
    (0x10, "lt gt slt sgt eq iszero and or xor not byte shl shr sar"),
    (0x20, "keccak256"), (0x20, "sha3"),
    (0x30, "address balance origin caller callvalue calldataload calldatasize calldatacopy codesize codecopy gasprice"
           " extcodesize extcodecopy returndatasize returndatacopy extcodehash"),
    (0x40, "blockhash coinbase timestamp number prevrandao gaslimit chainid selfbalance basefee"), (0x44, "difficulty"),
    (0x50, "pop mload mstore mstore8 sload sstore jump jumpi pc msize gas jumpdest"),
    (0x5f, " ".join("push%d" % n for n in range(33))),
    (0x80, " ".join("dup%d" % n for n in range(1, 17))),
    (0x90, " ".join("swap%d" % n for n in range(1, 17))),
    (0xa0, "log0 log1 log2 log3 log4"),
    (0xf0, "create call callcode return delegatecall create2"),
    (0xfa, "staticcall"),
    (0xfd, "revert invalid selfdestruct"),
]
MNEMONICS = {name.encode(): byte for first, names in MNEMONIC_RUNS for byte, name in enumerate(names.split(), first)}

# Where a lexeme stands: outside braces; outside them behind a CodeTable, so that the next ones are a code table's; inside
# braces; inside a code table's.
OUTSIDE, BEFORE_CODE, BODY, CODE = range(4)
# Braces reach from an OpenBrace to the next CloseBrace: they don't nest. Every other kind leaves the place as it is.
NEXT_PLACE = {
    (OUTSIDE, rules.CODE_TABLE): BEFORE_CODE,
    (OUTSIDE, rules.OPEN_BRACE): BODY,
    (BEFORE_CODE, rules.OPEN_BRACE): CODE,
    (BODY, rules.CLOSE_BRACE): OUTSIDE,
    (CODE, rules.CLOSE_BRACE): OUTSIDE,
}

# The sorts of lexemes. Of two that can begin with the same byte the one that is longer, or refused, comes first; a
# run takes all it can, so that each is the longest match. Nothing shorter is tried where one is refused.
SPACE = rb"(?P<space>[ \t\r\n]+)"
# A line's comment runs up to the next LF; a CR stays inside. The other one runs to the first `*/` behind its `/*`.
COMMENT = rb"(?P<comment>//[^\n]*|/\*(?s:.)*?\*/)"
# Closed by the quote that opened it, on its line. There are no escapes.
STRING = rb"(?P<string>\"[^\"\n]*\"|'[^'\n]*')"
UNCLOSED = rb"(?P<unclosed>/\*|[\"'])"
HASH = rb"(?P<hash>#(?:define|include)(?![A-Za-z0-9_]))"
MARK = rb"(?P<mark>[#=(){}\[\]<>,:])"
LITERAL = rb"(?P<literal>0x[0-9A-Fa-f]*)"
NUM = rb"(?P<num>[0-9]+)"
POINTER = rb"(?P<pointer>FREE_STORAGE_POINTER\(\))"
WORD = rb"(?P<word>[A-Za-z_][A-Za-z0-9_]*)"
# In a code table words may have digits first, and nothing else is told from them.
ENTRY = rb"(?P<entry>[A-Za-z0-9_]+)"
NOTHING = rb"(?P<nothing>(?s:.))"

EVERYWHERE = [SPACE, COMMENT, STRING, UNCLOSED, HASH, MARK]
AMONG_WORDS = re.compile(rb"|".join(EVERYWHERE + [LITERAL, NUM, POINTER, WORD, NOTHING]))
IN_CODE = re.compile(rb"|".join(EVERYWHERE + [ENTRY, NOTHING]))
LEXEMES = {OUTSIDE: AMONG_WORDS, BEFORE_CODE: AMONG_WORDS, BODY: AMONG_WORDS, CODE: IN_CODE}


def refuse(number, found):
    raise rules.Refused(number, found.start())


# Each of these gives the token of a lexeme that was found: kind, start, end, extra.

def of_kind(kind):
    return lambda found, place: (kind, found.start(), found.end(), 0)


def listed(kinds):
    return lambda found, place: (kinds[found[0]], found.start(), found.end(), 0)


def refused(number):
    return lambda found, place: refuse(number, found)


def string(found, place):
    """The quotes lie outside."""
    return rules.STR, found.start() + 1, found.end() - 1, 0


def literal(found, place):
    """Too long by its digits, whatever their value."""
    digits = len(found[0]) - 2
    if digits == 0:
        refuse(STARTS_NOTHING, found)
    if digits > LITERAL_DIGITS:
        refuse(TOO_LARGE, found)
    return rules.LITERAL, found.start(), found.end(), 0


def num(found, place):
    """Too large by its value, however many zeros stand in front of it."""
    digits = found[0].lstrip(b"0") or b"0"
    if len(digits) > NUM_DIGITS or int(digits) > LARGEST_NUM:
        refuse(TOO_LARGE, found)
    return rules.NUM, found.start(), found.end(), int(digits)


def word(found, place):
    kind, extra = word_kind(found[0], found.string[found.end():found.end() + 1], place)
    return kind, found.start(), found.end(), extra


def word_kind(own, behind, place):
    """Kind and extra of a word by the byte behind it, before its place and its spelling are asked for."""
    if behind == b":":
        return rules.LABEL, 0
    if own.startswith(b"__") and behind == b"(":
        return rules.BUILTIN, 0
    if place == BODY:
        return (rules.OPCODE, MNEMONICS[own]) if own in MNEMONICS else (rules.IDENT, 0)
    if own in KEYWORDS:
        return KEYWORDS[own], 0
    return (rules.IDENT if rules.type_of(own) == rules.NO_TYPE else rules.PRIMITIVE), 0


TOKENS = {
    "space": of_kind(rules.WHITESPACE), "comment": of_kind(rules.COMMENT), "string": string,
    "unclosed": refused(NOT_CLOSED), "hash": listed(HASHES), "mark": listed(MARKS), "literal": literal, "num": num,
    "pointer": of_kind(rules.FREE_STORAGE_POINTER), "word": word, "entry": of_kind(rules.IDENT),
    "nothing": refused(STARTS_NOTHING),
}


def tokens(text):
    """The tokens of a text, Eof too, as tuples; or Refused with 40, 41 or 42, its cursor the byte."""
    out, at, place = [], 0, OUTSIDE
    while at < len(text):
        found = LEXEMES[place].match(text, at)
        token = TOKENS[found.lastgroup](found, place)
        out.append(token)
        place = NEXT_PLACE.get((place, token[0]), place)
        at = found.end()
    out.append((rules.EOF, at, at, 0))
    return out


def flat(list_of_tokens):
    return [number for token in list_of_tokens for number in token]


# Cases and answers.

CASE = re.compile(rb"L " + rules.NUMBER + rb" (-|(?:[0-9a-fA-F]{2})+)")


def read_case(line):
    """(words lent, text) of a line, or the answer that says why not."""
    found = CASE.fullmatch(line)
    if found is None or int(found.group(1)) > rules.NONE:
        return "X_NotACase"
    lent = int(found.group(1))
    text = b"" if found.group(2) == b"-" else bytes.fromhex(found.group(2).decode())
    return "X_TooLarge" if max(lent, len(text)) > rules.LARGEST else (lent, text)


def answer(lent, text):
    """The three numbers and the token list after the call, alone in a list. Refused, it is as it was lent."""
    untouched = [[rules.FILL] * lent]
    if len(text) > LONGEST_TEXT:
        return (TEXT_TOO_LONG, 0, 0), untouched
    try:
        found = tokens(text)
    except rules.Refused as no:
        return (no.number, no.cursor, 0), untouched
    # Eof is counted. A last part of a token is no room.
    needed = len(found)
    if needed > MOST_TOKENS or needed > lent // 4:
        return (LIST_SHORT, needed, 0), untouched
    words = flat(found)
    return (0, 0, needed), [words + [0] * (lent - len(words))]
