"""The differences that docs/DIFFERENCES.md lists, each as a narrow test on a case and two answers.

`explain` takes a case, the answer by document 01's rules and the Rust's answer. The first has to be
what oracle/rules.py answers: a program that is wrong about the rules isn't excused by a difference
that happens to lie in the same case. Where the Rust only passes over a rule and reads on (a repeated
name that it misses, digits of other scripts), the rules are read again without that rule, and the
Rust has to give that answer in full. Where it stops for a reason that has no number, or reads what
the port leaves out, the reason has to be in the input, before the place where the rules stop. In mode 1,
which the Rust doesn't know, it isn't run. Texts are for a lexer, of which the Rust here has none.
"""
import re
import unicodedata

import lexer
import rules

HOLDS_TEXT = (rules.COMMENT, rules.IDENT, rules.LABEL, rules.STR, rules.BUILTIN, rules.PRIMITIVE)
TYPE = re.compile(r"(address|bool|string|bytes|uint|int)|(uint|int|bytes)([0-9]+)")
# The sizes that the Rust's types hold are below this.
SIZES = 2 ** 64
ODD = {"X_InvalidUint256": "uint", "X_InvalidInt": "int", "X_InvalidBytes": "bytes"}
DECORATED = ("PANIC", "X_Decorator", "X_InvalidDecoratorFlag", "X_InvalidDecoratorFlagArg")
# What the driver's door answers by itself, before it is asked whether the Rust can read the list.
AT_DOOR = (rules.NO_SUCH_MODE, rules.NO_SUCH_EDITION, rules.NOT_WELL_FORMED, rules.KEPT_SHORT, rules.NO_SUCH_START)


class Look:
    """A case and two answers, taken apart."""

    def __init__(self, case, by_rules, by_rust):
        self.case = rules.read_case(case.encode())
        _, self.mode, _, _, _, self.text, self.words = self.case
        self.tokens = [self.words[i:i + 4] for i in range(0, len(self.words) - 3, 4)]
        self.kept = [t for t in self.tokens if t[0] not in (rules.WHITESPACE, rules.COMMENT)]
        self.see(by_rules)
        self.rust = by_rust
        self.rust_says = None
        if by_rust[0].isdigit():
            self.rust_says = [int(w) for w in by_rust.split("|")[0].split()]

    def see(self, by_rules):
        self.by_rules = by_rules
        self.number, self.cursor = [int(w) for w in by_rules.split("|")[0].split()[:2]]

    def own(self, token):
        return self.text[token[1]:token[2]]

    def word(self, token):
        """A token's text, or None if it isn't UTF-8."""
        try:
            return self.own(token).decode()
        except UnicodeDecodeError:
            return None

    def read_on(self):
        """The rules' reading goes to the end."""
        return self.number in (0, 32, 33, 34)


def is_other_digits(entry):
    return (entry is not None and not entry.isascii()
            and all(c in "abcdefABCDEF" or unicodedata.category(c) == "Nd" for c in entry))


class Ending(rules.Reading):
    """Gives the place behind the brace, instead of the later name's, as cursor of 20."""

    def remember(self, name):
        if self.texts[name] in self.names:
            raise rules.Refused(20, self.place)
        self.names.add(self.texts[name])


def misses_name(look):
    """A macro, fn or test named like an earlier one, which the Rust's search by halving misses.

    It then reads on, so a refusal of its own lies behind that macro's brace."""
    if look.number != 20:
        return False
    number, behind = rules.answer(*look.case, reading=Ending)[0][:2]
    on = look.rust_says is None or look.rust_says[0] in (0, 32, 33, 34) or look.rust_says[1] >= behind
    return number == 20 and on


def finds_later_name(look):
    """The same, but the Rust finds another one later and refuses there."""
    if look.number != 20 or look.rust_says is None or look.rust_says[0] != 20:
        return False
    later = look.rust_says[1]
    names = [p for p in range(2, later + 1)
             if look.kept[p - 2][0] == rules.DEFINE and look.kept[p][0] == rules.IDENT
             and look.kept[p - 1][0] in (rules.MACRO, rules.FN, rules.TEST)]
    repeated = (later > look.cursor and later in names
                and any(look.own(look.kept[p]) == look.own(look.kept[later]) for p in names if p < later))
    as_there = look.by_rules.replace("20 %d " % look.cursor, "20 %d " % later, 1)
    return repeated and look.rust == as_there


def takes_digits(look):
    """A code table's entry with decimal digits of other scripts, which the Rust's pattern takes."""
    if look.number != 11:
        return False
    token = look.kept[look.cursor]
    return token[0] == rules.IDENT and is_other_digits(look.word(token))


def reads_decorator(look):
    """Pound at the top level, where the Rust reads a decorator."""
    if look.number != 21 or look.kept[look.cursor][0] != rules.POUND:
        return False
    if look.rust_says is None:
        return look.rust in DECORATED or look.rust in ODD
    return look.rust_says[0] <= 20 and look.rust_says[1] > look.cursor


def refuses_type(look):
    """A PrimitiveType of a size that the Rust's own test refuses, where the rules read on."""
    if look.rust not in ODD:
        return False
    for place, t in enumerate(look.kept):
        if t[0] == rules.PRIMITIVE and (look.read_on() or place < look.cursor):
            found = TYPE.fullmatch(look.word(t) or "")
            if found and found.group(2) == ODD[look.rust]:
                size = int(found.group(3))
                if found.group(2) == "bytes" and not 1 <= size <= 32:
                    return True
                if found.group(2) != "bytes" and (size % 8 or not 8 <= size <= 256):
                    return True
    return False


def tells_size(look):
    """A PrimitiveType in a tested name's place with zeros in front of its size, which the Rust's token doesn't hold: it
    tells the type without them, the rules none."""
    if look.number != rules.TYPE_AS_NAME or look.kept[look.cursor][0] != rules.PRIMITIVE:
        return False
    found = TYPE.fullmatch(look.word(look.kept[look.cursor]) or "")
    if not found or not (found.group(3) or "").startswith("0"):
        return False
    told = rules.type_of(("%s%d" % (found.group(2), int(found.group(3)))).encode())
    head, lists = look.by_rules.split("|", 1)
    as_there = " ".join(head.split()[:-2] + [str(n) for n in told])
    return look.rust == as_there + "|" + lists


def is_held(word):
    """A type's text that the Rust's types can hold."""
    found = TYPE.fullmatch(word)
    return found is not None and int(found.group(3) or 0) < SIZES


def cannot_hold(look):
    """A token that the Rust's tokens can't hold: text that is not UTF-8, or no type's text, or one of a huge size."""
    if look.rust != "X_CannotHold" or look.number in AT_DOOR:
        return False
    return any(look.word(t) is None or (t[0] == rules.PRIMITIVE and not is_held(look.word(t)))
               for t in look.tokens if t[0] in HOLDS_TEXT)


def knows_no_mode(look):
    """Strict reading, behind the driver's door: the Rust has no such thing."""
    return look.rust == "X_Strict" and look.mode == rules.STRICT and look.number not in AT_DOOR


def no_end(look):
    """No Eof at the list's end: the Rust runs off it. Only where its door is left out."""
    return look.number == 30 and look.rust == "PANIC" and (not look.kept or look.tokens[-1][0] != 0)


def relaxed(names_too, digits_too):
    """Document 01's reading without one rule or two."""

    class Relaxed(rules.Reading):
        def remember(self, name):
            if not names_too:
                rules.Reading.remember(self, name)

        def is_code(self, own):
            if rules.Reading.is_code(self, own):
                return True
            try:
                return digits_too and is_other_digits(own.decode())
            except UnicodeDecodeError:
                return False

    return Relaxed


def has_no_lexer(case, by_rules, by_rust):
    """A text is no case to the driver, whatever it holds."""
    found = lexer.read_case(case.encode())
    return not isinstance(found, str) and by_rules == rules.show(*lexer.answer(*found)) and by_rust == "X_NotACase"


def explain(case, by_rules, by_rust, unformed=False):
    """The listed differences between two unequal answers, joined by +, or None."""
    if not by_rules[:1].isdigit():
        return None
    if case.startswith("L"):
        return "no-lexer" if has_no_lexer(case, by_rules, by_rust) else None
    look = Look(case, by_rules, by_rust)
    if by_rules != rules.show(*rules.answer(*look.case)):
        return None
    if unformed:
        return "no-end" if no_end(look) else None
    if knows_no_mode(look):
        return "strict"
    if cannot_hold(look):
        return "cannot-hold"
    used = []
    while look.by_rules != by_rust:
        if finds_later_name(look):
            return "+".join(used + ["duplicate"])
        if tells_size(look):
            return "+".join(used + ["leading-zero"])
        if misses_name(look) and "duplicate" not in used:
            used.append("duplicate")
        elif takes_digits(look) and "other-digits" not in used:
            used.append("other-digits")
        elif reads_decorator(look):
            return "+".join(used + ["pound"])
        elif refuses_type(look):
            return "+".join(used + ["odd-type"])
        else:
            return None
        reading = relaxed("duplicate" in used, "other-digits" in used)
        look.see(rules.show(*rules.answer(*look.case, reading=reading)))
    return "+".join(used)
