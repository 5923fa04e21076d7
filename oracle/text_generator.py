"""Cases of texts, seeded: the families of oracle/generator.py that the lexer answers.

  lexer             lexemes of every sort and what is nearly one, outside braces, inside, in code tables, with and without
                    space between; what is refused now and then
  lexer-bytes       bytes by chance, of all or of those that mean something; every byte in turn in many surroundings; texts
                    with a byte changed, put in or gone
  lexer-exhaustive  all short texts over reduced alphabets, outside braces, inside, in code tables, shortest first; seed s and
                    count n are the cases from s * n on
  lexer-contracts   parts of the examples, as they are, cut anywhere and changed
  lexer-limits      the largest texts, lists, numbers and literals, and one more (few cases, long lines)

What is lent is exactly enough, mostly, or a word or a token short, or ragged, or more.
"""
import itertools
import os
import random

import lexer
import notation
import programs
import rules

SPACES = [" ", " ", " ", "  ", "\n", "\n    ", "\t", "\r\n", "\r", " \t\r\n"]
MARKS = [mark.decode() for mark in lexer.MARKS]
KEYWORDS = [word.decode() for word in lexer.KEYWORDS]
MNEMONICS = [word.decode() for word in lexer.MNEMONICS]
TYPES = (["address", "bool", "string", "bytes", "uint", "int"] + ["uint%d" % n for n in range(8, 257, 8)]
         + ["int%d" % n for n in range(8, 257, 8)] + ["bytes%d" % n for n in range(1, 33)])
NAMES = ["a", "b", "x", "go", "M", "amount", "A_b1", "_", "_f", "__", "___", "__f", "__FUNC_SIG", "____a", "f__", "dead", "e0",
         "x1", "ab", "true", "FREE"]
# In a letter, its case, a size or an underscore.
NEARLY = ["macros", "Macro", "fn_", "_fn", "tabl", "tables", "Table", "jumptable_packed", "jumptable__", "jumptable__packed_",
          "non_payable", "define", "include", "packed", "uint7", "uint08", "uint264", "int0", "bytes0", "bytes33", "bytes01",
          "Bool", "addresss", "uint256_", "ADD", "Add", "add_", "_add", "adds", "push", "push00", "push01", "push33", "push320",
          "dup0", "dup17", "swap17", "log5", "tload", "mcopy", "suicide", "sha", "sha33", "keccak", "create3", "returns_"]
POINTER = "FREE_STORAGE_POINTER"
POINTERS = [POINTER + "()"] * 4 + [POINTER, POINTER + "(", POINTER + "( )", POINTER + " ()", POINTER + "():", POINTER + ":",
                                   POINTER + "S()", "x" + POINTER + "()", "0" + POINTER + "()", POINTER + "())",
                                   POINTER.lower() + "()", POINTER[:-1] + "()", POINTER + ")("]
HASHES = ["#define"] * 3 + ["#include"] * 3 + ["#", "# define", "#defineX", "#define_", "#include1", "#Define", "##define",
                                               "#define:", "#include(", "#defin", "#includes", "#macro", "#define#", "#define0x1"]
NUMS = ["0", "1", "7", "12", "007", "00", "4294967295", "4294967294", "04294967295", "3999999999", "999999999"]
NUMS_TOO_LARGE = ["4294967296", "4294967300", "5000000000", "04294967296", "10000000000", "18446744073709551616",
                  "18446744073709551617", "99999999999999999999999"]
STRINGS = ['""', "''", '"a"', "'a'", "\"a'b\"", "'a\"b'", '"}"', "'{'", '"//"', "'/*'", '"\\"', '"0x"', "'\r'", '"\0\xff"',
           '"table{"']
COMMENTS = ["//", "// a\n", "// a\r\n", "//{\n", "//\"\n", "///*\n", "/**/", "/* a */", "/***/", "/*/*/", "/* { */", "/*\n}*/",
            "/*\"*/", "/* // */", "/*\xff\0*/"]
# 40, but for digits that follow, and 41 unless it is closed behind.
STARTS_NOTHING = ["/", "*", "0x", "0xg", "+", "-", ".", ";", "@", "\\", "`", "$", "\0", "\x0b", "\x0c", "\x7f", "\x80", "\xa0",
                  "\xc3\xa4", "\xff", "*/", "|", "!", "~"]
NOT_CLOSED = ["/*", "/*/", '"', "'", '"\n"', "'\n'", "/* *"]
HEX = "0123456789abcdefABCDEF"

# Bytes that mean something to the lexer.
TELLING = b" \t\r\n//**\"'0x19afgAFG__##{}{}()[]<>,:=-\x00\x80"
# One byte in the middle of each.
AROUND = ["%s", "a%s", "%sa", "a%sb", "{%s}", "{add%sadd}", "table{%s}", "table{a%sb}", "table%s{add}", '"%s"', "'%s", "//%s\na",
          "/*%s*/", "/%s", "/*%s", "*%s/", "0%s", "0%sf", "0x%s", "0x1%s", "1%s2", "4294967295%s", "#%s", "#define%s",
          "#include%s", "%sdefine", "__f%s(", "__f%s", "_%s_f(", "go%s", "go%s:", "macro%s", "uint8%s", "uint%s8",
          POINTER + "%s", POINTER + "(%s", POINTER + "(%s)", POINTER + "()%s", "{ push%s }", "{push1%s}"]

SINGLE = [" ", "\n", "\r", "/", "*", '"', "'", "0", "x", "1", "a", "g", "_", "#", "{", "}", "(", ")", ":", ",", "\xff"]
PIECES = ["table", "{", "}", "add", "macro", "uint8", ":", "(", ")", "__", "0x", "12", "#", "define", " ", "\n", "/*", "*/",
          "//", '"', POINTER]
# The places that a short text is tried in.
PLACES = ["", "{", "table{"]

CONTRACTS = ["ledger", "settlement", "vouchers"]


def room(text):
    """The tokens that a text needs; one if it is refused."""
    try:
        return len(lexer.tokens(text))
    except rules.Refused:
        return 1


class TextMaker:
    """Makes texts with one source of chance. They are strings here, a character for each byte."""

    def __init__(self, seed):
        self.r = random.Random(seed)

    def some(self, *choices):
        return self.r.choice(choices)

    def likely(self, p):
        return self.r.random() < p

    # Lexemes.

    def word(self):
        """Any word, and what may make it another kind behind it."""
        own = self.r.choice(self.some(NAMES, NAMES, KEYWORDS, TYPES, MNEMONICS, MNEMONICS, NEARLY))
        roll = self.r.random()
        if roll < 0.7:
            return own
        if roll < 0.8:
            return own + ":"
        if roll < 0.9:
            return self.some("", "", "_", "__") + own + "("
        return own + self.some(" :", " (", "()", "\n:", "/**/(", "1", "_", "0x1", "[]", "#")

    def literal(self):
        digits = self.some(1, 2, 2, 4, 8, 40, 63, 64, self.r.randint(1, 64))
        if self.likely(0.03):
            digits = self.some(65, 66, 128)
        return "0x" + "".join(self.r.choice(HEX) for _ in range(digits))

    def num(self):
        if self.likely(0.03):
            return self.r.choice(NUMS_TOO_LARGE)
        return self.some(self.r.choice(NUMS), str(self.r.randint(0, 4294967295)),
                         "0" * self.r.randint(1, 40) + self.r.choice(NUMS))

    def lexeme(self):
        """Any lexeme; now and then what is refused."""
        roll = self.r.random()
        if roll < 0.4:
            return self.word()
        if roll < 0.62:
            return self.r.choice(MARKS)
        if roll < 0.7:
            return self.literal()
        if roll < 0.77:
            return self.num()
        if roll < 0.82:
            return self.r.choice(STRINGS)
        if roll < 0.87:
            return self.r.choice(COMMENTS)
        if roll < 0.91:
            return self.r.choice(HASHES)
        if roll < 0.94:
            return self.r.choice(POINTERS)
        if roll < 0.98:
            return self.r.choice(SPACES)
        return self.r.choice(self.some(STARTS_NOTHING, NOT_CLOSED))

    def between(self):
        roll = self.r.random()
        return "" if roll < 0.4 else " " if roll < 0.75 else self.r.choice(SPACES) if roll < 0.95 else self.r.choice(COMMENTS)

    def run(self, most):
        return "".join(self.lexeme() + self.between() for _ in range(self.r.randint(0, most)))

    def mixed(self):
        """Lexemes outside braces, inside, in a code table, or with braces anywhere."""
        way = self.r.choice(["plain", "body", "body", "code", "any"])
        if way == "plain":
            return self.run(8)
        if way == "body":
            return self.run(2) + "{" + self.between() + self.run(6) + "}" + self.run(2)
        if way == "code":
            name = self.some("", " T", " T = ", self.run(2))
            return self.run(1) + "table" + self.between() + name + "{" + self.between() + self.run(6) + "}" + self.run(3)
        return "".join(self.some(self.run(2), self.run(2), "{", "}", "table", "table ", "{" + self.run(2) + "}")
                       for _ in range(self.r.randint(1, 8)))

    # Bytes.

    def changed(self, text):
        """A text with one byte changed, put in or gone, or a part doubled or gone."""
        at = self.r.randint(0, len(text))
        other = self.some(chr(self.r.randrange(256)), chr(self.r.choice(TELLING)), chr(self.r.choice(TELLING)), self.lexeme())
        way = self.r.choice(["change", "put", "drop", "part", "twice"])
        if way == "change":
            return text[:at] + other + text[at + 1:]
        if way == "put":
            return text[:at] + other + text[at:]
        behind = at + self.some(1, 1, 2, 3, self.r.randint(1, 12))
        if way == "twice":
            return text[:behind] + text[at:]
        return text[:at] + text[behind if way == "part" else at + 1:]

    def hostile(self):
        way = self.r.choice(["any", "telling", "telling", "changed", "changed"])
        if way == "any":
            return "".join(chr(self.r.randrange(256)) for _ in range(self.r.randint(1, 12)))
        if way == "telling":
            return self.some("", "", "{", "table{") + "".join(chr(self.r.choice(TELLING)) for _ in range(self.r.randint(1, 16)))
        return self.changed(self.mixed())

    # What is lent.

    def lent(self, text):
        """So many words: for the tokens, or nearly."""
        exact = 4 * room(text)
        roll = self.r.random()
        if roll < 0.5:
            return exact
        if roll < 0.75:
            return exact + self.r.randint(1, 9)
        if roll < 0.85:
            return exact - 1
        return self.some(0, exact - 4, exact - 2, exact - 3, self.r.randint(0, exact))

    def case(self, text):
        text = text.encode("latin-1")
        return notation.text_line(self.lent(text), text)


# Families.

def mixed(m, seed, count):
    for _ in range(count):
        yield m.case(m.mixed())


def hostile(m, seed, count):
    """Every byte in turn in all surroundings, then by chance: a seed of its own goes through a part of them."""
    every = len(AROUND) * 256
    for i in range(count):
        if i % 4 == 0:
            turn, byte = divmod((seed * count + i) // 4 % every, 256)
            yield m.case(AROUND[turn] % chr(byte))
        else:
            yield m.case(m.hostile())


def short_texts():
    for length in itertools.count(1):
        for alphabet, place in itertools.product((SINGLE, PIECES), PLACES):
            for parts in itertools.product(alphabet, repeat=length):
                yield place + "".join(parts)


def exhaustive(m, seed, count):
    for text in itertools.islice(short_texts(), seed * count, (seed + 1) * count):
        yield m.case(text)


def contract(name):
    with open(os.path.join(programs.HERE, "..", "examples", name + ".huff"), "rb") as file:
        return file.read().decode("latin-1")


def contracts(m, seed, count):
    whole = [contract(name) for name in CONTRACTS]
    for _ in range(count):
        text = m.r.choice(whole)
        at = m.r.randrange(len(text))
        if m.likely(0.5):
            at = text.rfind("\n", 0, at) + 1
        part = text[at:at + m.some(10, 40, 80, m.r.randint(1, 300))]
        for _ in range(m.some(0, 1, 1, 2, 3)):
            part = m.changed(part)
        yield m.case(m.some("", "", "", "{", "table{") + part)


LENT_MOST = 4 * (lexer.MOST_TOKENS + 1)


def limits(m, seed, count):
    """The largest and one more: 1,048,576 bytes, 65,536 tokens, with enough and with a word less; what is refused stands first
    or last in such texts."""
    most, tokens, lent = lexer.LONGEST_TEXT, lexer.MOST_TOKENS, LENT_MOST
    ledger = contract("ledger")
    made = [
        # Space, and one byte too many, whatever it is.
        (9, " " * most), (9, " " * (most + 1)), (9, ";" + " " * most),
        # The longest words, by all that can stand behind them and around them.
        (0, "a" * most), (8, "a" * most), (12, "a" * (most - 1) + ":"), (12, "_" * (most - 1) + "("),
        (12, "{" + "a" * (most - 1)), (16, "table{" + "0" * (most - 6)),
        # The longest numbers, literals, strings and comments, closed and not.
        (8, "0" * most), (8, "0" * (most - 1) + "7"), (8, "9" * most), (8, "0x" + "0" * (most - 2)),
        (8, '"' + "a" * (most - 2) + '"'), (8, '"' + "a" * (most - 1)), (8, "//" + "/" * (most - 2)),
        (8, "/*" + "*" * (most - 3) + "/"), (8, "/*" + "*" * (most - 2)),
        # What ends with the text.
        (9, " " * (most - 1) + ";"), (9, " " * (most - 1) + "'"), (12, " " * (most - 2) + "0x"), (12, " " * (most - 3) + "0x0"),
        (9, " " * (most - 1) + "/"), (12, " " * (most - 22) + POINTER + "()"), (8, "\n" * (most - 67) + "0x" + "0" * 65),
        # As many tokens as there are bytes, as many as a list may have, and one more.
        (9, "(" * most), (9, "(" * (most - 1) + ";"), (4 * tokens, "(" * (tokens - 1)), (4 * tokens - 1, "(" * (tokens - 1)),
        (lent, "(" * (tokens - 1)), (lent, "(" * tokens), (4, "(" * tokens),
        # What is refused behind too many tokens comes first.
        (lent, "(" * tokens + "\xff"), (lent, "(" * tokens + "/*"), (lent, "(" * tokens + "4294967296"),
        # As many tokens of other kinds.
        (lent, "''" * (tokens - 1)), (lent, "a " * (tokens // 2 - 1) + "a"), (lent, "a " * (tokens // 2)),
        (lent, "{" + "add " * (tokens // 2 - 1)), (lent, "table{" + "0f " * (tokens // 2 - 2) + "}"),
        (lent, "l:" * (tokens // 2 - 1)), (lent, "__f(" * (tokens // 2 - 1)), (lent, ("0x" + "f" * 64 + " ") * (most // 67)),
        (lent, "4294967295 " * (tokens // 2 - 1)), (lent, (POINTER + "()") * (most // 22)),
        (lent, ledger * 27), (lent, ledger * 28),
        # The longest literals and the largest number, and one more.
        (8, "0x" + "f" * 64), (8, "0x" + "f" * 65), (8, "0x" + "0" * 64), (8, "0x" + "0" * 65),
        (8, "4294967295"), (8, "4294967296"),
    ]
    for words, text in made[:count]:
        yield notation.text_line(words, text.encode("latin-1"))


FAMILIES = {"lexer": mixed, "lexer-bytes": hostile, "lexer-exhaustive": exhaustive, "lexer-contracts": contracts,
            "lexer-limits": limits}
# All but the largest.
SHARED = [name for name in FAMILIES if name != "lexer-limits"]


def cases(family, seed, count):
    # A string as seed is hashed the same way everywhere.
    return FAMILIES[family](TextMaker("%s %d" % (family, seed)), seed, count)
