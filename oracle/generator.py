"""Cases, seeded. `oracle/generate` prints them, `oracle/compare` runs them.

Families:
  bodies      bodies that follow the grammar, every construct, white space and comments between
  files       files that follow the grammar, every definition
  mutations   both, with tokens dropped, doubled, swapped, replaced or put in
  exhaustive  all short lists over reduced alphabets, in many surroundings, shortest first; seed s and
              count n are the cases from s * n on, so that seeds 0, 1, 2 .. walk through them
  pushes      every push size with every literal size, leading zeros too
  labels      what strict reading asks: labels whose names stand again or nearly, and pushes with and without fitting
              literals, everywhere in a label; refused before and behind that
  zeros       what editions ask: bodies with zeros of every spelling and with what is nearly zero, as operands, behind
              PUSH0, first in a label, by themselves
  types       what refusal 7 tells: every name of a type and what is nearly one, in turn, as a name or as a type's token,
              everywhere that names are tested; then also where they are not
  texts       where definitions stand in the text: files with white space, comments and bytes that no token covers before,
              inside, between and behind definitions, with tokens and definitions that touch, with empty tokens
  illformed   lists that are not well formed, in every way of document 01, and near misses
  tables      tables exactly full, a word or a record short, ragged, empty; the kept list one short
  starts      bodies read from anywhere
  odd         what docs/DIFFERENCES.md lists: repeated names, Pound, odd types, other digits, bytes that
              are not UTF-8
  limits      the largest texts and lists, and one more (few cases, long lines)

Modes: `0`, the only one that the Rust knows; `1`; or `mixed`, mostly 1, and now and then one that there is none.
Editions, of bodies: `1`, `2`, or `mixed`, mostly 2, and now and then one that there is none. The lists and what is lent
are the same in all modes and editions, but that limits has every list in mode 1 and in mode 0 if modes are mixed, and
bodies in edition 2, those with literals also in edition 1, if editions are.

The families of texts, for the lexer, have neither mode nor edition: see oracle/text_generator.py. `all` are the families above but
limits, `lexer-all` those of texts but lexer-limits.
"""
import itertools
import random

import notation
import rules
import text_generator

T = notation.token
EOF = (rules.EOF, b"", 0)
CLOSE_PAREN, OPEN_PAREN, COMMA = T(")"), T("("), T(",")

RESERVED = ["uint256", "bool", "address", "bytes32", "uint", "int", "int8", "string", "bytes", "bytes1",
            "uint8", "int256"]
NEARLY_RESERVED = ["uint7", "bytes33", "uint08", "int264", "bytes0", "Bool", "uint2560", "addres", "addresss",
                   "in", "uin", "byte", "uint0", "bytes01", "bytes320", "bytes3_", "int 8", "strings"]
PLAIN = ["a", "b", "c", "x", "y", "F", "G", "abc", "dead", "beef", "M1", "_", "go", "amount", "0", "1f"]
TYPES = ["address", "bool", "string", "bytes", "uint", "int", "uint256", "uint8", "int128", "bytes32", "bytes4"]
# Every name of a type, from the Solidity ABI specification.
TYPE_NAMES = (["address", "bool", "string", "bytes", "uint", "int"] + ["uint%d" % n for n in range(8, 257, 8)]
              + ["int%d" % n for n in range(8, 257, 8)] + ["bytes%d" % n for n in range(1, 33)])
# Words that are nearly such names: in a size, in zeros, signs or letters about it, in the case or a letter of the name. The
# largest sizes would be those of a type if they were kept in 32 or 64 bits.
NO_TYPE_NAMES = (
    [name + size for name in ("uint", "int") for size in
     ("0", "00", "08", "008", "1", "7", "9", "12", "80 ", "+8", "-8", "8_", "08x", "025", "0256", "255", "257", "260", "264",
      "512", "1000", "2560", "4294967304", "18446744073709551624", "\u0668")]
    + ["bytes" + size for size in ("0", "00", "01", "032", "33", "034", "40", "64", "99", "100", "256", "257", "320", "1_", "-1",
                                   "4294967297", "18446744073709551617")]
    + ["Uint8", "uinT8", "UINT256", "Int8", "iNt", "Bytes32", "byteS", "Bool", "bool8", "bool1", "boolean", "boo", "Address",
       "addres", "addresss", "address20", "String", "strin", "strings", "string32", "uin", "uin8", "unt8", "in", "in8", "nt8",
       "uuint8", "iuint8", "uintint8", "byte", "byte1", "bites1", "tes1", "8", "256", "8uint", "uint8uint8", "uint8[]",
       "fixed", "ufixed128x18", "function", "uint\0", "uint8\0", "\0bool", "bool\0", " int8"])
STRINGS = ['"s"', '""', '"f(uint256)"', '"calldata"']
OPCODES = [0x00, 0x01, 0x15, 0x35, 0x52, 0x54, 0x56, 0x57, 0x5b, 0x5f, 0x80, 0x90, 0xa0, 0xf3, 0xfd, 0xff, 0x0c, 0x5e]
FIXED = [T(w) for w in notation.FIXED if w != "EOF"]
LABELS = [b"l", b"go", b"end", b"uint256"]
LONG = b"the_label_of_a_very_long_way_to_the_end_of_the_refund"
# Names of which each is close to others: in one byte, in case, as a prefix, in length alone. Zero bytes change a name
# and, put in front or behind, leave a sum over its bytes as it was.
CLOSE = [
    [b"a", b"b", b"A", b"aa", b"ab", b"ba", b"aaa"],
    [b"go", b"gp", b"fo", b"g", b"gone", b"goo", b"gO"],
    [b"step1", b"step2", b"step10", b"step", b"step11", b"tsep1"],
    [LONG, LONG[:-1], LONG + b"s", LONG[:-1] + b"e", b"T" + LONG[1:], LONG.replace(b"very", b"very"[::-1])],
    [b"a", b"\0a", b"a\0", b"\0\0a", b"\0", b"\0\0"],
    [b"abcd", b"abcd\0", b"\0\0\0\0abcd", b"abcd\0\0", b"abce", b"bbcd", b"abcdabcd"],
    [b"l", b"go", b"end", b"uint256", b"0x01", b"{"],
]
# The shortest definitions; a macro's name is put in.
SHORT = ['#include "x"', '#include ""', "#define constant C = 0x01", "#define constant C = FREE", "#define error E ( )",
         "#define error E ( %bool a , )", "#define event E ( %bool )", "#define function f ( ) view returns ( )",
         "#define jumptable T { a }", "#define jumptable__packed T ( ) = { }", "#define table T { ab }",
         "#define macro M ( ) = { }", "#define fn M ( ) = { ADD }", "#define test M ( ) = { ~l : }"]
# What may stand between tokens, letters of two, three and four bytes among it.
BETWEEN = [b"", b" ", b"  ", b"\n\n", b"\n\t  ", b"// a", b"/* #define */", b"}", "\u00e4".encode(),
           "// \u20ac \U0001d7d8".encode()]
# Tokens whose texts are looked at.
READ = (rules.IDENT, rules.LABEL, rules.LITERAL, rules.PRIMITIVE)
MODES = ("0", "1", "mixed")
# Modes that there are none.
NO_MODES = [2, 3, 16, 255, 256, 257, 65536, 65537, 2147483648, 2147483649, 4294967294, 4294967295]
EDITIONS = ("1", "2", "mixed")
# Editions that there are none.
NO_EDITIONS = [0, 0, 3, 3, 4, 255, 256, 257, 258, 65537, 65538, 2147483649, 2147483650, 4294967294, 4294967295]
PUSH0, PUSH32 = 0x5f, 0x7f


class Maker:
    """Makes token lists with one source of chance."""

    def __init__(self, seed, modes="0", editions="1"):
        self.r = random.Random(seed)
        self.serial = 0
        # Modes and editions have each a source of their own, so that the lists are the same whatever they are.
        self.modes = modes
        self.of_modes = random.Random("%s, modes" % seed)
        self.editions = editions
        self.of_editions = random.Random("%s, editions" % seed)

    def mode(self):
        """The mode of the next case."""
        if self.modes != "mixed":
            return int(self.modes)
        roll = self.of_modes.random()
        return 1 if roll < 0.65 else 0 if roll < 0.96 else self.of_modes.choice(NO_MODES)

    def edition(self, entry):
        """The edition of the next case; a file has none."""
        if entry == "F":
            return None
        if self.editions != "mixed":
            return int(self.editions)
        roll = self.of_editions.random()
        return 2 if roll < 0.65 else 1 if roll < 0.95 else self.of_editions.choice(NO_EDITIONS)

    # Tokens.

    def some(self, *choices):
        return self.r.choice(choices)

    def likely(self, p):
        return self.r.random() < p

    def ident(self, tested=False):
        """A name; one that is tested is no reserved one."""
        roll = self.r.random()
        if roll < 0.12 and not tested:
            word = self.r.choice(RESERVED)
        elif roll < 0.2:
            word = self.r.choice(NEARLY_RESERVED)
        else:
            word = self.r.choice(PLAIN)
        return rules.IDENT, word.encode(), 0

    def fresh(self):
        """A name that isn't used yet."""
        self.serial += 1
        return rules.IDENT, b"%s%d" % (self.r.choice([b"m", b"M", b"z", b"_"]), self.serial), 0

    def literal(self, most=32):
        """A literal of at most so many significant bytes, leading zeros or not."""
        nibbles = self.r.choice([0, 1, 2, 2, 2, 3, 4, self.r.randint(0, 64)])
        return self.literal_of(min(nibbles, 2 * most))

    def literal_of(self, nibbles, zeros=None):
        """A literal of exactly so many significant digits."""
        digits = "".join(self.r.choice("0123456789abcdefABCDEF") for _ in range(nibbles))
        if nibbles:
            digits = self.r.choice("123456789abcdefABCDEF") + digits[1:]
        if zeros is None:
            zeros = self.r.choice([0, 0, 1, self.r.randint(0, 64)])
        zeros = max(min(zeros, 64 - nibbles), 0 if nibbles else 1)
        return rules.LITERAL, b"0x" + b"0" * zeros + digits.encode(), 0

    def opcode(self, byte=None):
        if byte is None:
            byte = self.r.choice(OPCODES)
        return rules.OPCODE, b"op", byte

    def push(self):
        return self.r.choice([0x60, 0x61, 0x62, 0x63, 0x73, 0x7f, self.r.randint(0x60, 0x7f)])

    def label(self):
        return self.label_of(self.r.choice(LABELS))

    def label_of(self, name):
        return rules.LABEL, name, 0

    def labels(self, count):
        """So many labels: in two of three bodies every name another, else any."""
        names = LABELS + self.r.choice(CLOSE)[:6]
        if self.likely(0.67):
            names = list(dict.fromkeys(names))
            self.r.shuffle(names)
            return [self.label_of(name) for name in names[:count]]
        return [self.label_of(self.r.choice(names[:5])) for _ in range(count)]

    def builtin(self):
        return rules.BUILTIN, self.r.choice([b"__FUNC_SIG", b"__tablesize", b"", b"f"]), 0

    def string(self):
        return T(self.r.choice(STRINGS))

    def type(self):
        return rules.PRIMITIVE, self.r.choice(TYPES).encode(), 0

    def num(self):
        return rules.NUM, b"7", self.r.choice([0, 1, 2, 7, 4294967295])

    def location(self):
        return T(self.r.choice(["calldata", "memory", "storage"]))

    def any_token(self):
        """A token of any kind but Eof."""
        roll = self.r.random()
        if roll < 0.45:
            return self.r.choice(FIXED)
        make = self.r.choice([self.ident, self.ident, self.literal, self.opcode, self.label, self.builtin,
                              self.string, self.type, self.num, lambda: self.opcode(self.push()), self.location])
        return make()

    # Lists.

    def maybe_comma(self):
        return [COMMA] if self.likely(0.6) else []

    def count(self):
        return self.r.choice([0, 1, 1, 2, 2, 3, 4])

    def call_list(self):
        out = [OPEN_PAREN]
        for _ in range(self.count()):
            out += self.some([self.literal()], [self.ident()], [T("calldata")], [T("<"), self.ident(), T(">")])
            out += self.maybe_comma()
        return out + [CLOSE_PAREN]

    def untyped_list(self, builtin):
        out = [OPEN_PAREN]
        odd = False
        for _ in range(self.count()):
            if builtin and self.likely(0.4):
                out.append(self.some(self.string(), self.literal()))
            else:
                if self.likely(0.2):
                    out.append(self.location())
                out.append(self.ident(tested=odd))
                odd = not odd
            comma = self.maybe_comma()
            if comma:
                odd = False
            out += comma
        return out + [CLOSE_PAREN]

    def typed_list(self, indexes=False):
        out = [OPEN_PAREN]
        for _ in range(self.count()):
            out.append(self.type())
            if indexes and self.likely(0.4):
                out.append(T("indexed"))
            if self.likely(0.25):
                out.append(self.location())
            named = self.likely(0.7)
            if named:
                out.append(self.ident(tested=True))
            # Without a name and a Comma the next type would stand in a name's place.
            out += self.maybe_comma() if named else [COMMA]
        return out + [CLOSE_PAREN]

    # Bodies.

    def item(self, in_label, sound=False):
        """A push in a label has any literal or none, or, in a sound body, one that fits."""
        roll = self.r.random()
        if roll < 0.15:
            return [self.literal()]
        if roll < 0.3:
            return [self.opcode()]
        if roll < 0.5:
            byte = self.push()
            if in_label and not sound:
                return [self.opcode(byte)] + ([self.literal()] if self.likely(0.6) else [])
            return [self.opcode(byte), self.literal(byte - 0x5f)]
        if roll < 0.65:
            return [self.ident()]
        if roll < 0.8:
            return [self.ident()] + self.call_list()
        if roll < 0.86:
            return [T("["), self.ident(), T("]")]
        if roll < 0.92:
            return [T("<"), self.ident(), T(">")]
        return [self.builtin()] + self.untyped_list(builtin=True)

    def body(self):
        most = self.r.choice([0, 1, 2, 3, 4, 6, 6, 15])
        out = [T("{")]
        for _ in range(self.r.randint(0, most)):
            out += self.item(in_label=False)
        sound = self.likely(0.5)
        for label in self.labels(self.r.choice([0, 0, 1, 1, 2, 3])):
            out += [label, T(":")]
            for _ in range(self.r.randint(0, most)):
                out += self.item(in_label=True, sound=sound)
        return out + [T("}")]

    def plain_body(self):
        """A body of statements that have a length; now and then a push in a label lacks its operand."""
        out = [T("{")]
        for _ in range(self.r.randint(0, 5)):
            out += self.plain_item(False)
        for label in self.labels(self.r.choice([0, 0, 1, 2])):
            out += [label, T(":")]
            for _ in range(self.r.randint(0, 4)):
                out += self.plain_item(True)
        return out + [T("}")]

    def plain_item(self, in_label):
        byte = self.push()
        if in_label and self.likely(0.1):
            return self.some([self.opcode(byte)], [self.opcode(byte), self.literal()])
        return self.some([self.literal()], [self.opcode()], [self.ident()],
                         [self.opcode(byte), self.literal(byte - 0x5f)])

    # Bodies for editions.

    def zero(self):
        """A zero, of one digit to 64."""
        return self.literal_of(0, self.r.choice([1, 2, 2, 4, 64, self.r.randint(1, 64)]))

    def nearly_zero(self):
        """Zeros with one other digit among them, anywhere."""
        digits = bytearray(b"0" * self.r.choice([1, 2, 4, 64, self.r.randint(1, 64)]))
        digits[self.r.randrange(len(digits))] = self.r.choice(b"123456789abcdefABCDEF")
        return rules.LITERAL, b"0x" + bytes(digits), 0

    def zero_item(self):
        """An item with a zero, mostly. PUSH32 takes what is nearly zero, whatever it is."""
        return self.some([self.zero()], [self.zero()], [self.zero()], [self.opcode(PUSH0), self.zero()],
                         [self.opcode(self.push()), self.zero()], [self.opcode(self.push()), self.zero()],
                         [self.nearly_zero()], [self.opcode(PUSH32), self.nearly_zero()], [self.opcode(), self.zero()],
                         [self.ident()])

    def zeros_body(self):
        """Statements that have a length, most of them zeros. Now and then an item has none, or a label ends in a push,
        of which the next one's first literal is no operand."""
        out = [T("{")]
        for _ in range(self.r.choice([0, 1, 1, 2, 3, 5])):
            out += self.zero_item()
        for label in self.labels(self.r.choice([0, 0, 1, 1, 2, 3])):
            out += [label, T(":")]
            for _ in range(self.r.choice([0, 1, 1, 2, 3])):
                out += self.zero_item()
            if self.likely(0.06):
                out.append(self.opcode(self.push()))
        if self.likely(0.06):
            out += self.item(in_label=True)
        return out + [T("}")]

    # Bodies for strict reading.

    def label_push(self):
        """A push for a label: with a literal that just fits, mostly, or just doesn't, or with none."""
        byte = self.r.choice([0x5f, 0x60, 0x61, 0x7e, 0x7f, 0x80, self.push()])
        n = min(max(byte - 0x5f, 0), 32)
        roll = self.r.random()
        if roll < 0.8:
            return [self.opcode(byte), self.literal_of(max(2 * n - self.r.randint(0, 1), 0))]
        if roll < 0.9:
            return [self.opcode(byte), self.literal_of(min(2 * n + 1, 64))]
        return [self.opcode(byte)]

    def label_item(self, name):
        """An item of a label of this name; a call of it is no second label."""
        roll = self.r.random()
        if roll < 0.5:
            return self.label_push()
        if roll < 0.6:
            return [(rules.IDENT, name, 0)]
        return self.item(in_label=True, sound=True)

    def labelled_body(self, names):
        """Labels with names of these, none twice or any."""
        count = self.r.choice([1, 2, 2, 3, 3, 4, 5])
        if self.likely(0.5):
            chosen = self.r.sample(names, min(count, len(names)))
        else:
            chosen = [self.r.choice(names[:self.r.randint(1, len(names))]) for _ in range(count)]
        out = [T("{")]
        if self.likely(0.3):
            out += self.item(in_label=False)
        for name in chosen:
            out += [self.label_of(name), T(":")]
            for _ in range(self.r.choice([0, 0, 1, 1, 2, 3])):
                out += self.label_item(name)
            if self.likely(0.05):
                out.append(self.opcode(self.push()))
        return out + [T("}")]

    def many_labels(self, count):
        """So many labels, of which the last may have the name of another: room for names comes in sizes."""
        names = [b"l%d" % i for i in range(count)]
        if self.likely(0.5):
            names[-1] = names[self.some(0, count // 2, count - 2, self.r.randrange(count))]
        out = [T("{")]
        for name in names:
            out += [self.label_of(name), T(":")]
        return out + [T("}")]

    def spoil_body(self, tokens):
        """One thing more that is wrong, before or behind what strict reading refuses: a Colon is gone, the list ends
        early, a token stands there that begins no item, a brace is gone."""
        i = self.r.randrange(len(tokens))
        way = self.r.choice(["colon", "colon", "cut", "cut", "odd", "odd", "brace"])
        colons = [k for k, token in enumerate(tokens) if token[0] == rules.COLON]
        if way == "colon" and colons:
            del tokens[self.r.choice(colons)]
        elif way == "odd":
            tokens.insert(i, T(self.r.choice(["#", ",", ")", "=", ":", "{", "7", "calldata"])))
        elif way == "brace":
            tokens.pop()
        else:
            del tokens[i + 1:]

    # Lists in which a type is told.

    def type_word(self, word):
        """The word as a name or as the token of a type."""
        return self.some((rules.IDENT, word, 0), (rules.PRIMITIVE, word, 0))

    def any_type_word(self):
        return self.r.choice(TYPE_NAMES).encode()

    def before_tested(self, builtin):
        """What may stand in an untyped list before a name that is tested: names, and what is no name. The last name, which
        isn't tested, is often a type's too."""
        out = []
        for _ in range(self.r.choice([0, 0, 1, 2])):
            out += self.some([self.ident(), COMMA], [self.ident(), T("b"), COMMA], [self.ident(), T("b")])
        out.append(self.some((rules.IDENT, self.any_type_word(), 0), self.ident()))
        if builtin and self.likely(0.3):
            out.append(self.some(self.string(), self.literal_of(2)))
        return out

    def told_untyped(self, builtin, token, tested):
        """An untyped list with this token where a name is tested, or where none is."""
        before = self.before_tested(builtin)
        if not tested:
            before = before + [COMMA] if self.likely(0.5) else []
        if self.likely(0.2):
            before.append(self.location())
        behind = self.some([], [], [COMMA, self.ident()], [self.type_word(self.any_type_word())])
        return [OPEN_PAREN] + before + [token] + behind + [CLOSE_PAREN]

    def told_typed(self, indexes, token, tested):
        """A typed list with this token in a name's place, or in a type's."""
        out = [OPEN_PAREN]
        if self.likely(0.3):
            out += [self.type(), T("a"), COMMA]
        if tested:
            out.append(self.type())
            if indexes and self.likely(0.4):
                out.append(T("indexed"))
            if self.likely(0.25):
                out.append(self.location())
        return out + [token] + self.some([], [T("a")], [COMMA, self.type()]) + [CLOSE_PAREN]

    def told_body(self, token, tested):
        """A body with this token in a builtin's list, in the macro part or in a label."""
        out = [T("{")]
        if self.likely(0.3):
            out += self.item(in_label=False)
        if self.likely(0.3):
            out += [self.label(), T(":")]
        out += [self.builtin()] + self.told_untyped(True, token, tested)
        return out + self.some([], [], [self.ident()]) + [T("}")]

    def told_file(self, token, tested):
        """A file with this token in the list of a macro, of a builtin in one, of a function, an event or an error."""
        kind = self.r.choice(["macro", "fn", "body", "body", "function", "outputs", "event", "error"])
        out = [T("#include"), self.string()] if self.likely(0.2) else []
        out += [T("#define"), T({"body": "test", "outputs": "function"}.get(kind, kind)), self.ident()]
        if kind in ("macro", "fn"):
            return out + self.told_untyped(False, token, tested) + [T("="), T("{"), T("}")]
        if kind == "body":
            return out + [OPEN_PAREN, CLOSE_PAREN, T("=")] + self.told_body(token, tested)
        if kind == "outputs":
            return out + [OPEN_PAREN, CLOSE_PAREN, T("view"), T("returns")] + self.told_typed(False, token, tested)
        out += self.told_typed(kind == "event", token, tested)
        return out + ([T("pure"), T("returns"), OPEN_PAREN, CLOSE_PAREN] if kind == "function" else [])

    # Files.

    def definition(self):
        kind = self.r.choice(["include", "function", "event", "constant", "error", "macro", "macro", "macro",
                              "fn", "test", "jumptable", "jumptable__packed", "table"])
        if kind == "include":
            return [T("#include"), self.string()]
        out = [T("#define"), T(kind)]
        if kind in ("macro", "fn", "test"):
            out.append(self.fresh())
            out += self.untyped_list(builtin=False) + [T("=")]
            if self.likely(0.7):
                out += [T("takes"), OPEN_PAREN, self.num(), CLOSE_PAREN]
            if self.likely(0.7):
                out += [T("returns"), OPEN_PAREN, self.num(), CLOSE_PAREN]
            return out + self.body()
        out.append(self.ident())
        if kind == "function":
            out += self.typed_list()
            out += [T(self.r.choice(["view", "pure", "payable", "nonpayable"])), T("returns")]
            return out + self.typed_list()
        if kind in ("event", "error"):
            return out + self.typed_list(indexes=kind == "event")
        if kind == "constant":
            return out + [T("="), self.some(T("FREE"), self.literal())]
        for word in "()=":
            if self.likely(0.7):
                out.append(T(word))
        out.append(T("{"))
        for _ in range(self.count()):
            if kind == "table":
                length = self.r.choice([1, 2, 3, 4, 64])
                out.append((rules.IDENT, "".join(self.r.choice("0123456789abcdefABCDEF")
                                                 for _ in range(length)).encode(), 0))
            else:
                out.append(self.ident())
        return out + [T("}")]

    def file(self):
        out = []
        for _ in range(self.r.choice([0, 1, 1, 1, 2, 2, 3, 4])):
            out += self.definition()
        return out

    def short_definition(self):
        """One of few tokens."""
        out = [T(word) for word in self.r.choice(SHORT).split()]
        return [self.fresh() if token == T("M") else token for token in out]

    def base(self):
        """A list that follows the grammar, without Eof: (entry, start, tokens)."""
        if self.likely(0.5):
            return "F", 0, self.file()
        before = [self.any_token() for _ in range(self.r.randint(0, 4))] if self.likely(0.3) else []
        after = [self.any_token() for _ in range(self.r.randint(0, 3))] if self.likely(0.3) else []
        return "B", len(before), before + self.body() + after

    # Cases.

    def spaced(self, tokens):
        """With white space and comments between tokens, or not."""
        if self.likely(0.5):
            return tokens
        out = []
        for token in tokens:
            while self.likely(0.2):
                out.append(self.some((rules.WHITESPACE, b" ", 0), (rules.COMMENT, b"// a", 0),
                                     (rules.COMMENT, b"", 0), (rules.WHITESPACE, b"\n\t", 0)))
            out.append(token)
        return out

    def laid_out(self, tokens, spaced=True):
        if spaced:
            tokens = self.spaced(tokens + [EOF])
        else:
            tokens = tokens + [EOF]
        return notation.lay_out(tokens, self.some(b" ", b"", b" ", b"\n  "))

    def scattered(self, tokens):
        """Laid out with something between tokens now and then: dropped ones, bytes that no token covers; some are empty.
        How often is the list's own."""
        dropped, gaps, empty = self.some(0, 0.1, 0.3, 0.6), self.some(0, 0.1, 0.3, 1), self.some(0, 0, 0.1, 0.4)
        out = []
        for kind, own, extra in tokens + [EOF]:
            while self.likely(dropped):
                out += self.gap(gaps) + [(self.some(rules.WHITESPACE, rules.COMMENT), self.between(), 0)]
            if kind not in READ and self.likely(empty):
                own = b""
            out += self.gap(gaps) + [(kind, own, extra)]
        text, words = notation.lay_out(out, self.some(b"", b" "))
        return text + self.some(b"", b"", b" ", b"rest"), words

    def gap(self, often):
        return [(notation.GAP, self.between(), 0)] if self.likely(often) else []

    def between(self):
        """Seldom more bytes than one byte counts, and more seldom than two bytes count."""
        roll = self.r.random()
        return b"." * 66000 if roll < 0.0003 else b"." * self.r.randint(200, 300) if roll < 0.01 else self.r.choice(BETWEEN)

    def roomy(self, entry, start, text, words):
        """Lengths with room for all, mostly not much more."""
        return self.lengths(entry, start, text, words,
                            lambda width, need: need * width + self.some(0, 0, 1, width - 1, width, 3 * width))

    def lengths(self, entry, start, text, words, choose, refused=(2, 3, 3)):
        """By the reading in mode 0: what mode 1 accepts has the same records. A list that is refused gets up to so many."""
        kept = needs = None
        if rules.first_bad(text, words) is None:
            kept = rules.kept_numbers(words)
            if entry == "F" or start < len(kept):
                try:
                    read = rules.read(entry, rules.PLAIN, start, text, words, kept)
                    needs = len(read.definitions), len(read.statements), len(read.arguments)
                except rules.Refused:
                    pass
        if needs is None:
            needs = [self.r.randint(0, most) for most in refused]
        room = [choose(width, need) for width, need in zip(rules.WIDTHS, needs)]
        if entry == "B":
            room[0] = 0
        count = len(words) // 4 if kept is None else len(kept)
        return [count + self.some(0, 0, 0, 1, 4)] + room

    def case(self, entry, start, room, text, words):
        """The case's line, in a mode and an edition of those that are asked for."""
        return notation.case_line(entry, self.mode(), self.edition(entry), start, room, text, words)

    def line(self, entry, start, tokens, spaced=True):
        text, words = self.laid_out(tokens, spaced)
        return self.case(entry, start, self.roomy(entry, start, text, words), text, words)


def bodies(m, seed, count):
    for _ in range(count):
        if m.likely(0.25):
            yield m.line("B", 0, m.plain_body())
        else:
            before = [m.any_token() for _ in range(m.r.randint(0, 4))] if m.likely(0.3) else []
            after = [m.any_token() for _ in range(m.r.randint(0, 3))] if m.likely(0.3) else []
            yield m.line("B", len(before), before + m.body() + after)


def files(m, seed, count):
    for _ in range(count):
        yield m.line("F", 0, m.file())


def mutations(m, seed, count):
    for _ in range(count):
        entry, start, tokens = m.base()
        for _ in range(m.r.choice([1, 1, 1, 2, 3])):
            mutate(m, tokens)
        yield m.line(entry, min(start, len(tokens)), tokens)


def mutate(m, tokens):
    if not tokens:
        tokens.append(m.any_token())
        return
    i = m.r.randrange(len(tokens))
    way = m.r.choice(["drop", "double", "swap", "replace", "replace", "insert", "cut"])
    if way == "drop":
        del tokens[i]
    elif way == "double":
        tokens.insert(i, tokens[i])
    elif way == "swap":
        j = m.r.choice([min(i + 1, len(tokens) - 1), m.r.randrange(len(tokens))])
        tokens[i], tokens[j] = tokens[j], tokens[i]
    elif way == "replace":
        tokens[i] = m.any_token()
    elif way == "insert":
        tokens.insert(i, m.any_token())
    else:
        del tokens[i + 1:]


# All short lists. A surrounding: entry, what stands before, what may stand behind, the alphabet.
BODY = '{ } ( ) [ ] < > , : a uint256 ~l 0x01 0x0100 ADD PUSH1 @f "s" calldata %bool = # 7'
LIST = ', a uint256 0x01 calldata memory storage "s" %bool ) ( < > indexed } ~l'
TYPED = '%bool %uint256 a uint256 indexed calldata storage , ) ( 0x01 "s" = '
SURROUNDINGS = [
    ("B", "", "", BODY),
    ("B", "{", "}", BODY),
    ("B", "{ ~l :", "}", BODY),
    ("B", "{ ~l : PUSH1", "~l : }", BODY),
    ("B", "{ PUSH1", "}", BODY),
    ("B", "{ F (", ") }", LIST),
    ("B", "{ ~l : F (", ") }", LIST),
    ("B", "{ @f (", ") }", LIST),
    ("B", "{ @f ( a", ") }", LIST),
    ("F", "", "", '#include #define # "s" macro constant error a = 0x01 ( ) { } [ ] // _'),
    ("F", "#define", "", "macro fn test function event constant error jumptable jumptable__packed table a ( ) = "
     "{ } 0x01 FREE # #define #include"),
    ("F", "#define macro M (", ") = { }", LIST),
    ("F", "#define macro M ( )", "{ }", "= takes returns ( ) 7 a { } 0x01 view"),
    ("F", "#define fn M ( ) = takes ( 1 )", "{ }", "takes returns ( ) 7 a { } = , calldata"),
    ("F", "#define function f (", ") view returns ( )", TYPED),
    ("F", "#define function f ( ) pure returns (", ")", TYPED),
    ("F", "#define function f ( )", "( %bool )", "view pure payable nonpayable returns ( ) = a takes"),
    ("F", "#define event E (", ")", TYPED),
    ("F", "#define error E (", ")", TYPED),
    ("F", "#define jumptable T", "}", "( ) = { } a abc 0x01 , ~l"),
    ("F", "#define jumptable__packed T {", "}", 'a g 0x01 , ~l } { "s" ADD #define'),
    ("F", "#define table T {", "}", 'abc d g uint 0x01 , ~l } { "s" 7'),
    ("F", "#define constant C", "", "= 0x01 FREE a ( ) #define 7"),
    ("F", "#define macro a ( ) = { } #define", "( ) = { }", "macro fn test a b error function { } #define"),
]


def exhaustive(m, seed, count):
    blocks = []
    for entry, before, behind, alphabet in SURROUNDINGS:
        letters = [T(w) for w in alphabet.split()]
        first = [T(w) for w in before.split()]
        blocks.append((entry, first, [], letters))
        if behind:
            blocks.append((entry, first, [T(w) for w in behind.split()], letters))
    at, left, length = seed * count, count, 0
    while left > 0:
        for entry, first, last, letters in blocks:
            size = len(letters) ** length
            while at < size and left > 0:
                middle, index = [], at
                for _ in range(length):
                    index, letter = divmod(index, len(letters))
                    middle.append(letters[letter])
                yield m.line(entry, 0, first + middle + last, spaced=False)
                at += 1
                left -= 1
            at -= size
            if left == 0:
                return
            at = max(at, 0)
        length += 1


def pushes(m, seed, count):
    for i in range(count):
        byte, nibbles = 0x5f + i % 34, i // 34 % 65
        pair = [m.opcode(byte), m.literal_of(nibbles)]
        tokens = m.some(pair, pair, pair, pair + [m.literal()], [m.literal()] + pair,
                        [m.label(), T(":")] + pair, pair + [m.label(), T(":")] + pair)
        yield m.line("B", 0, [T("{")] + tokens + [T("}")], spaced=False)


def labels(m, seed, count):
    for _ in range(count):
        names = m.r.choice(CLOSE)
        roll = m.r.random()
        if roll < 0.02:
            # Some dozens, around the first size of room, and now and then some more than the second one.
            yield m.line("B", 0, m.many_labels(m.some(31, 32, 33, 60) if m.likely(0.9) else m.some(1023, 1024, 1025)))
            continue
        if roll < 0.65:
            entry, tokens = "B", m.labelled_body(names)
        else:
            entry, tokens = "F", labelled_file(m, names)
        if m.likely(0.35) and tokens:
            m.spoil_body(tokens)
        yield m.line(entry, 0, tokens)


def labelled_file(m, names):
    """Macros, fns and tests whose labels share their names, now and then two of one name."""
    out = []
    for _ in range(m.r.choice([1, 2, 2, 3])):
        name = (rules.IDENT, m.r.choice(names), 0) if m.likely(0.3) else m.fresh()
        out += [T("#define"), T(m.r.choice(["macro", "fn", "test"])), name]
        out += [OPEN_PAREN, CLOSE_PAREN, T("=")] + m.labelled_body(names)
    return out


def zeros(m, seed, count):
    for _ in range(count):
        tokens = m.zeros_body()
        if m.likely(0.1):
            mutate(m, tokens)
        # What stands before and behind the body counts nothing.
        before = [m.zero()] if m.likely(0.1) else []
        after = [m.zero()] if m.likely(0.1) else []
        yield m.line("B", len(before), before + tokens + after)


def types(m, seed, count):
    """The words come in turn, in an order of the seed's, so that a list of some hundreds has them all, first where they
    are tested."""
    told = TYPE_NAMES + NO_TYPE_NAMES
    m.r.shuffle(told)
    for i in range(count):
        turn, at = divmod(i, len(told))
        token = m.type_word(told[at].encode())
        tested = turn == 0 or m.likely(0.75)
        # A word that stood in a body stands in a file in the next turn.
        body = (at + turn) % 2 == 0
        tokens = m.told_body(token, tested) if body else m.told_file(token, tested)
        if turn > 0 and m.likely(0.15):
            mutate(m, tokens)
        entry = "B" if body else "F"
        text, words = m.laid_out(tokens)
        room = m.lengths(entry, 0, text, words, lambda width, need: width * need, refused=(1, 1, 1))
        yield m.case(entry, 0, room, text, words)


def texts(m, seed, count):
    """Most have room for all; else the definitions lack a word or two for each, or one, or a record."""
    for _ in range(count):
        tokens = []
        for _ in range(m.r.choice([1, 1, 2, 2, 3, 4])):
            tokens += m.short_definition() if m.likely(0.75) else m.definition()
        if m.likely(0.1):
            mutate(m, tokens)
        text, words = m.scattered(tokens)

        def choose(width, need):
            exact = width * need
            if width != rules.WIDTHS[0] or m.likely(0.75):
                return exact
            return max(0, m.some(exact - 1, exact - need, exact - 2 * need, exact - width, exact + 1, exact + width - 1))

        yield m.case("F", 0, m.lengths("F", 0, text, words, choose, refused=(1, 1, 1)), text, words)


BAD_LITERALS = [b"", b"0", b"0x", b"x1", b"0X1", b"1x1", b"0xg", b"0x1g", b"0xG1", b"0x1/", b"0x1:", b"0x@1",
                b"0x`1", b"0x1 ", b"0x" + b"1" * 65, b"0x" + b"0" * 65, b"0x-1", b"0x\xff", b"00x1"]
GOOD_LITERALS = [b"0x" + b"f" * 64, b"0x" + b"0" * 64, b"0xA", b"0x9aFf", b"0x0"]


def illformed(m, seed, count):
    for _ in range(count):
        entry, start, tokens = m.base()
        if m.likely(0.2):
            mutate(m, tokens)
        tokens = m.spaced(tokens + [EOF])
        if m.likely(0.25) and len(tokens) > 1:
            own = m.some(m.r.choice(BAD_LITERALS), m.r.choice(BAD_LITERALS), m.r.choice(GOOD_LITERALS))
            tokens[m.r.randrange(len(tokens) - 1)] = (rules.LITERAL, own, 0)
        text, words = notation.lay_out(tokens, m.some(b" ", b""))
        for _ in range(m.r.choice([1, 1, 2])):
            text = spoil(m, text, words)
        if m.likely(0.03):
            words = []
        room = m.roomy(entry, start, text, words)
        if m.likely(0.3):
            room = [m.some(0, n, max(n - 1, 0), m.r.randint(0, 20)) for n in room]
            room[1] = 0 if entry == "B" else room[1]
        if entry == "B" and m.likely(0.2):
            start = m.some(0, len(words) // 4, len(words) // 4 + 1, 4294967295)
        yield m.case(entry, start, room, text, words)


def spoil(m, text, words):
    """Breaks one rule of a well-formed list, or only nearly; gives the text."""
    tokens = len(words) // 4
    if tokens == 0:
        return text
    k = 4 * m.r.randrange(tokens)
    last = 4 * (tokens - 1)
    way = m.r.choice(["kind", "order", "beyond", "overlap", "last", "no-last", "early", "empty", "extra", "opcode",
                      "ragged", "text", "text", "near"])
    if way == "kind":
        words[k] = m.some(46, 47, 255, 256, 4294967295, m.r.randint(46, 4294967295))
    elif way == "order":
        words[k + 1] = m.some(min(words[k + 2] + 1, 4294967295), len(text) + 1, 4294967295)
    elif way == "beyond":
        words[k + 2] = m.some(len(text) + 1, 4294967295)
    elif way == "overlap" and k >= 4 and words[k - 2] > 0:
        words[k + 1] = words[k - 2] - 1
    elif way == "last":
        words[last] = m.r.randint(1, 45)
    elif way == "no-last":
        del words[last:]
    elif way == "early":
        words[k] = rules.EOF
        words[k + 3] = m.some(0, 0, words[k + 3])
    elif way == "empty":
        words[k + 2] = words[k + 1]
        if m.likely(0.5):
            words[k] = m.some(rules.IDENT, rules.LABEL, rules.LITERAL, rules.STR, rules.BUILTIN, rules.COMMENT)
            words[k + 3] = 0
    elif way == "extra":
        words[k + 3] = m.some(1, 255, 256, 4294967295)
    elif way == "opcode":
        words[k] = rules.OPCODE
        words[k + 3] = m.some(255, 256, 4294967295, 0x60)
    elif way == "ragged":
        if m.likely(0.5):
            del words[-m.r.randint(1, 3):]
        else:
            words += [0] * m.r.randint(1, 3)
    elif way == "text":
        return text[:m.some(0, len(text) // 2, max(len(text) - 1, 0))]
    elif way == "near":
        # Still well formed: a number with any extra, an opcode with any byte, an Eof with a range.
        if words[k] == rules.NUM:
            words[k + 3] = 4294967295
        elif words[k] == rules.OPCODE:
            words[k + 3] = 255
        words[last + 1] = max(words[last - 2], 0) if last else 0
        words[last + 2] = max(len(text), words[last + 1])
    return text


def tables(m, seed, count):
    for _ in range(count):
        entry, start, tokens = m.base()
        if m.likely(0.1):
            mutate(m, tokens)
        start = min(start, len(tokens))
        text, words = m.laid_out(tokens)
        tight = m.likely(0.5)

        def choose(width, need):
            exact = need * width
            if tight and m.likely(0.6):
                return exact
            return max(0, m.some(exact, exact - 1, exact + 1, exact - width, exact + width - 1, exact + width,
                                 m.r.randint(0, exact + width), 0, 1, width - 1))

        room = m.lengths(entry, start, text, words, choose)
        kept = sum(1 for k in words[0::4] if k not in (rules.WHITESPACE, rules.COMMENT))
        room[0] = m.some(kept, kept, kept, kept + 1, kept + 7, kept - 1, 0)
        yield m.case(entry, start, room, text, words)


def starts(m, seed, count):
    for _ in range(count):
        _, _, tokens = m.base()
        if m.likely(0.3):
            tokens = tokens + m.body()
        if m.likely(0.3):
            mutate(m, tokens)
        text, words = m.laid_out(tokens)
        kept = rules.kept_numbers(words)
        braces = [i for i, n in enumerate(kept) if words[4 * n] == rules.OPEN_BRACE]
        brace = m.r.choice(braces or [0])
        start = m.some(brace, brace, brace, brace, m.r.randint(0, len(kept) + 1), m.r.randint(0, len(kept) + 1),
                       len(kept) - 1, len(kept), 4294967295)
        room = m.roomy("B", start, text, words)
        if m.likely(0.1):
            room[0] = len(kept) - 1
        yield m.case("B", start, room, text, words)


OTHER_DIGITS = ["\u0663", "\u0967", "\uff11", "a\u0663", "\u09ea\u09ea", "\U0001d7d8"]
NOT_DIGITS = ["\u00bd", "\u00b2", "\u2163", "g\u0663", "\u00e4"]
ODD_TYPES = ["uint7", "uint0", "uint264", "int9", "int0", "int512", "bytes33", "bytes0", "bytes1000000", "uint08"]
NO_TYPES = ["", "foo", "uint_", "bytesx", "Bool", "uint256[]", "\u00e4"]


def odd(m, seed, count):
    for _ in range(count):
        way = m.r.choice(["names", "names", "pound", "types", "digits", "bytes"])
        if way == "names":
            tokens = []
            for _ in range(m.r.randint(2, 6)):
                tokens += [T("#define"), T(m.r.choice(["macro", "fn", "test"])), T(m.r.choice("abcd"))]
                tokens += [OPEN_PAREN, CLOSE_PAREN, T("=")] + (m.body() if m.likely(0.2) else [T("{"), T("}")])
                if m.likely(0.1):
                    tokens += m.definition()
            if m.likely(0.3):
                mutate(m, tokens)
        elif way == "pound":
            tokens = m.file() + [T("#")]
            for word in m.some("[ ]", "[ x ( ) ]", "[ 'calldata ( \"s\" ) ]", "[ value ( 0x01 ) , ]", "[", "x",
                               "[ x", "[ 'value ( \"s\" ) ]").split():
                tokens.append(T(word))
            tokens += m.file()
            if m.likely(0.3):
                mutate(m, tokens)
        elif way == "types":
            tokens = [T("#define"), T(m.r.choice(["error", "event", "function"])), T("E"), OPEN_PAREN]
            for _ in range(m.r.randint(1, 3)):
                word = m.r.choice(m.some(ODD_TYPES, ODD_TYPES, NO_TYPES, TYPES))
                tokens += [(rules.PRIMITIVE, word.encode(), 0), m.ident(), COMMA]
            tokens += [CLOSE_PAREN] + m.file()
            if m.likely(0.3):
                mutate(m, tokens)
        elif way == "digits":
            tokens = m.file() + [T("#define"), T("table"), T("T"), T("{")]
            for _ in range(m.r.randint(1, 3)):
                word = m.r.choice(m.some(OTHER_DIGITS, OTHER_DIGITS, NOT_DIGITS, ["ab", "1"]))
                tokens.append((rules.IDENT, word.encode(), 0))
            tokens += [T("}")] + m.file()
        else:
            tokens = m.file()
            for _ in range(m.r.randint(1, 2)):
                own = m.some(b"\xff", b"a\x80", b"\xc3", "\u00e4".encode(), b"\xed\xa0\x80")
                kind = m.some(rules.IDENT, rules.LABEL, rules.STR, rules.BUILTIN, rules.COMMENT, rules.PRIMITIVE,
                              rules.DEFINE, rules.WHITESPACE, rules.NUM)
                tokens.insert(m.r.randint(0, len(tokens)), (kind, own, 0))
        yield m.line("F", 0, tokens)


def limits(m, seed, count):
    """The largest and one more: 1,048,576 bytes, 65,536 tokens."""
    add, comma, space = T("ADD"), T(","), (rules.WHITESPACE, b" ", 0)

    def of(entry, tokens, text=None, room=None):
        laid, words = notation.lay_out(tokens + [EOF], b"")
        text = laid if text is None else laid + b" " * (text - len(laid))
        return entry, room or m.roomy(entry, 0, text, words), text, words

    def labelled(names, behind=()):
        return [T("{")] + [w for name in names for w in (m.label_of(b"l%d" % name), T(":"))] + list(behind) + [T("}")]

    small = [T("{"), T("}")]
    made = [
        lambda: of("B", small, 1048576),
        lambda: of("B", small, 1048577),
        lambda: of("B", [T("{"), (rules.IDENT, b"a" * 1048574, 0), T("}")]),
        lambda: of("F", [], 1048577),
        lambda: of("B", [T("{")] + [add] * 65533 + [T("}")]),
        lambda: of("B", [T("{")] + [add] * 65534 + [T("}")]),
        lambda: of("B", [T("{")] + [T("a")] * 65533 + [T("}")], None, [65536, 0, 8 * 65532, 0]),
        lambda: of("B", [T("{"), T("F"), OPEN_PAREN] + [T("a")] * 65530 + [CLOSE_PAREN, T("}")]),
        lambda: of("B", [T("{"), T("F"), OPEN_PAREN] + [T("a"), comma] * 32765 + [CLOSE_PAREN, T("}")]),
        lambda: of("B", [space] * 65533 + small),
        lambda: of("B", [space] * 65534 + small),
        # As many imports as there can be, with all the room for definitions that the port's program has, and one more. Then as
        # many as that room holds, and with a word less of it.
        lambda: of("F", [T("#include"), T('"x"')] * 32767, None, [65535, 393252, 0, 0]),
        lambda: of("F", [T("#include"), T('"x"')] * 32768),
        lambda: of("F", [T("#include"), T('"x"')] * 28089, None, [56179, 393246, 0, 0]),
        lambda: of("F", [T("#include"), T('"x"')] * 28089, None, [56179, 393245, 0, 0]),
        lambda: of("F", [w for i in range(8191) for w in
                         [T("#define"), T("macro"), T("m%05d" % i), OPEN_PAREN, CLOSE_PAREN, T("="), T("{"), T("}")]]),
        lambda: of("F", [T("#define"), T("table"), T("T"), T("{")] + [T("abc")] * 65530 + [T("}")]),
        lambda: of("B", [T("{")] + [w for _ in range(32766) for w in (T("~l"), T(":"))] + [T("}")]),
        # As many labels as there can be, every name another; then the last has that of the first, or of the one before.
        lambda: of("B", labelled(range(32766))),
        lambda: of("B", labelled(list(range(32765)) + [0])),
        lambda: of("B", labelled(list(range(32765)) + [32764])),
        lambda: of("B", labelled(range(32765), [T("PUSH1"), T("0x01")])),
        lambda: of("B", labelled(range(32765), [T("PUSH1")])),
        # The labels of a macro are forgotten in the next: as many macros of four labels as fit, the same four in each.
        lambda: of("F", [w for i in range(4095) for w in
                         [T("#define"), T("fn"), T("m%04d" % i), OPEN_PAREN, CLOSE_PAREN, T("=")] + labelled(range(4))]),
        # As many zeros as there can be, the shortest and the longest.
        lambda: of("B", [T("{")] + [T("0x0")] * 65533 + [T("}")]),
        lambda: of("B", [T("{")] + [T("0x" + "0" * 64)] * 15887 + [T("}")]),
    ]
    left = count
    for make in made:
        entry, room, text, words = make()
        for mode, edition in itertools.product(of_limits(m.modes, (1, 0)), editions_of_limits(m, entry, words)):
            if left == 0:
                return
            left -= 1
            yield notation.case_line(entry, mode, edition, 0, room, text, words)


def of_limits(chosen, mixed):
    """The modes or editions that limits has a list in."""
    return mixed if chosen == "mixed" else (int(chosen),)


def editions_of_limits(m, entry, words):
    if entry == "F":
        return (None,)
    # Without a literal the editions are alike, and these lists take long.
    return of_limits(m.editions, (2, 1) if rules.LITERAL in words[0::4] else (2,))


FAMILIES = {"bodies": bodies, "files": files, "mutations": mutations, "exhaustive": exhaustive, "pushes": pushes,
            "labels": labels, "zeros": zeros, "types": types, "texts": texts, "illformed": illformed, "tables": tables,
            "starts": starts, "odd": odd, "limits": limits}


# What a count is shared among.
SHARED = {"all": [name for name in FAMILIES if name != "limits"], "lexer-all": text_generator.SHARED}
NAMES = [*SHARED, *FAMILIES, *text_generator.FAMILIES]


def is_of_texts(name):
    return name == "lexer-all" or name in text_generator.FAMILIES


def cases(family, seed, count, modes="0", editions="1"):
    """Case lines, one after the other."""
    if family in SHARED:
        names = SHARED[family]
        for i, name in enumerate(names):
            share = count // len(names) + (1 if i < count % len(names) else 0)
            yield from cases(name, seed, share, modes, editions)
    elif is_of_texts(family):
        yield from text_generator.cases(family, seed, count)
    else:
        # A string as seed is hashed the same way everywhere.
        yield from FAMILIES[family](Maker("%s %d" % (family, seed), modes, editions), seed, count)
