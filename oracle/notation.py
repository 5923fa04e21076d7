"""Token lists written for people, and back.

Words stand between spaces; each is one token:

  { } ( ) [ ] < > , : = #      as in document 01; # is Pound
  #include #define             Include, Define
  macro fn test function event constant error jumptable jumptable__packed table takes returns view
  pure payable nonpayable indexed calldata memory storage FREE
                               the keywords; FREE is FreeStoragePointer
  STOP ADD JUMP JUMPI JUMPDEST DUP1 SWAP1 RETURN PUSH0 .. PUSH32, op:ab
                               Opcode, the last by its byte
  0x.. lit:..                  Literal, the second with any text
  12                           Num
  "text"                       Str (no space inside)
  %bool                        PrimitiveType
  @f                           BuiltinFunction
  ~l                           Label
  _ ___ // //a                 Whitespace of so many spaces, Comment with its text
  EOF                          Eof
  no:word                      the token that the word is, without a text
  'word                        Ident, whatever the word
  ^text                        no token: bytes that none covers, in place of the space between two; ^ alone: they touch
  anything else                Ident

Eof follows the list by itself unless the last word is `...`. \\xab in a word is that byte.

A text and what is read in it:

  `a\\n b`                      a text: \\n \\r \\t \\\\ and \\xab are single bytes, a backquote is \\x60
  `0x` `0`*65                  parts of one text, the second so many times
  Ident 0-1 Num 2-4=12         a reading: each token's kind and bytes, and its extra where the kind has one
  (Eof alone)                  the reading of no text. Eof, which is empty at the text's end, isn't named otherwise
"""
import re

import lexer
import rules

FIXED = {
    "{": rules.OPEN_BRACE, "}": rules.CLOSE_BRACE, "(": rules.OPEN_PAREN, ")": rules.CLOSE_PAREN,
    "[": rules.OPEN_BRACKET, "]": rules.CLOSE_BRACKET, "<": rules.LEFT_ANGLE, ">": rules.RIGHT_ANGLE,
    ",": rules.COMMA, ":": rules.COLON, "=": rules.ASSIGN, "#": rules.POUND,
    "#include": rules.INCLUDE, "#define": rules.DEFINE, "macro": rules.MACRO, "fn": rules.FN,
    "test": rules.TEST, "function": rules.FUNCTION, "event": rules.EVENT,
    "constant": rules.CONSTANT, "error": rules.ERROR, "jumptable": rules.JUMP_TABLE,
    "jumptable__packed": rules.JUMP_TABLE_PACKED, "table": rules.CODE_TABLE, "takes": rules.TAKES,
    "returns": rules.RETURNS, "view": rules.VIEW, "pure": rules.PURE, "payable": rules.PAYABLE,
    "nonpayable": rules.NON_PAYABLE, "indexed": rules.INDEXED, "calldata": rules.CALLDATA,
    "memory": rules.MEMORY, "storage": rules.STORAGE, "FREE": rules.FREE_STORAGE_POINTER,
    "EOF": rules.EOF,
}
OPCODES = {"STOP": 0, "ADD": 1, "JUMP": 0x56, "JUMPI": 0x57, "JUMPDEST": 0x5b, "DUP1": 0x80,
           "SWAP1": 0x90, "RETURN": 0xf3}
OPCODES.update({"PUSH%d" % n: 0x5f + n for n in range(33)})
# No kind: a text that no token covers.
GAP = -1
SHOWN = {kind: word for word, kind in FIXED.items()}
SHOWN_OPCODES = {byte: word for word, byte in OPCODES.items()}


def raw(word):
    """The word's bytes."""
    parts = re.split(r"\\x([0-9a-f]{2})", word)
    return b"".join(bytes.fromhex(p) if i % 2 else p.encode() for i, p in enumerate(parts))


def token(word):
    """(kind, text, extra) of a word."""
    if word.startswith("no:"):
        kind, _, extra = token(word[3:])
        return kind, b"", extra
    if word.startswith("^"):
        return GAP, raw(word[1:]), 0
    if word in FIXED:
        return FIXED[word], (b"" if word == "EOF" else raw(word)), 0
    if word in OPCODES:
        return rules.OPCODE, raw(word), OPCODES[word]
    if word.startswith("op:"):
        return rules.OPCODE, raw(word), int(word[3:], 16)
    if word.startswith("0x"):
        return rules.LITERAL, raw(word), 0
    if word.startswith("lit:"):
        return rules.LITERAL, raw(word[4:]), 0
    if word.isdigit() and word.isascii():
        return rules.NUM, raw(word), int(word)
    if word.strip("_") == "":
        return rules.WHITESPACE, b" " * len(word), 0
    if word.startswith("//"):
        return rules.COMMENT, raw(word), 0
    for mark, kind in (("%", rules.PRIMITIVE), ("@", rules.BUILTIN), ("~", rules.LABEL),
                       ("'", rules.IDENT)):
        if word.startswith(mark):
            return kind, raw(word[1:]), 0
    if word.startswith('"'):
        return rules.STR, raw(word.strip('"')), 0
    return rules.IDENT, raw(word), 0


def tokens(line):
    """The tokens of a line."""
    words = line.split()
    if words and words[-1] == "...":
        words.pop()
    else:
        words.append("EOF")
    return [token(word) for word in words]


def lay_out(list_of_tokens, between=b" "):
    """Text and words of (kind, text, extra) tokens, with this between them, or with the text of a GAP that stands there."""
    text, words, gap = bytearray(), [], None
    for kind, own, extra in list_of_tokens:
        if kind == GAP:
            gap = (gap or b"") + own
            continue
        if gap is not None:
            text += gap
        elif text and own:
            text += between
        gap = None
        words += [kind, len(text), len(text) + len(own), extra]
        text += own
    return bytes(text), words


PART = re.compile(r"`([^`]*)`(?:\*([0-9]+))?")
SINGLE = {"n": b"\n", "r": b"\r", "t": b"\t", "\\": b"\\"}
TOKEN_READ = re.compile(r"([A-Za-z]+) ([0-9]+)-([0-9]+)(?:=([0-9]+))?")
NO_TOKENS = "(Eof alone)"
# A text for people is cut behind so many bytes.
SHOWN_BYTES = 300


def unescaped(part):
    """The bytes of a text's part."""
    pieces = re.split(r"\\(x[0-9a-f]{2}|[nrt\\])", part)
    return b"".join((SINGLE.get(p) or bytes.fromhex(p[1:])) if i % 2 else p.encode() for i, p in enumerate(pieces))


def escaped(text):
    """A text as one part."""
    single = {bytes_of[0]: "\\" + letter for letter, bytes_of in SINGLE.items()}
    return "`%s`" % "".join(single.get(b) or (chr(b) if 32 <= b < 127 and b != 96 else "\\x%02x" % b) for b in text)


def text_of(written):
    """The bytes of a text that is written in parts."""
    return b"".join(unescaped(part) * int(times or 1) for part, times in PART.findall(written))


def words_of(reading, text):
    """The words of a reading of a text; Eof follows."""
    words = []
    if reading != NO_TOKENS:
        if TOKEN_READ.sub("", reading).strip():
            raise ValueError("no reading: " + reading)
        for kind, start, end, extra in TOKEN_READ.findall(reading):
            words += [rules.KINDS.index(kind), int(start), int(end), int(extra or 0)]
    return words + [rules.EOF, len(text), len(text), 0]


def reading(words):
    """A list that ends with its Eof as a reading."""
    out = []
    for i in range(0, len(words) - 4, 4):
        kind, start, end, extra = words[i:i + 4]
        told = "=%d" % extra if kind in (rules.OPCODE, rules.NUM) else ""
        out.append("%s %d-%d%s" % (rules.KINDS[kind], start, end, told))
    return " ".join(out) or NO_TOKENS


def text_line(lent, text):
    """The case of a text."""
    return "L %d %s" % (lent, text.hex() or "-")


def edition_word(edition):
    """The edition as a case has it; a file has none."""
    return "-" if edition is None else str(edition)


def edition_of(word):
    """The edition that such a word is."""
    return None if word == "-" else int(word)


def case_line(entry, mode, edition, start, lengths, text, words):
    return " ".join([entry, str(mode), edition_word(edition), str(start)] + [str(n) for n in lengths]
                    + [text.hex() or "-", ",".join(map(str, words)) or "-"])


def shown(text, words):
    """A list as its line, as far as it can be shown; sizes and ranges aren't."""
    out = []
    for i in range(0, len(words) - len(words) % 4, 4):
        kind, start, end, extra = words[i:i + 4]
        own = "".join(chr(b) if 33 <= b < 127 and b != 92 else "\\x%02x" % b for b in text[start:end])
        if kind in SHOWN:
            out.append(SHOWN[kind])
        elif kind == rules.OPCODE:
            out.append(SHOWN_OPCODES.get(extra, "op:%02x" % extra))
        elif kind == rules.NUM:
            out.append(str(extra))
        elif kind == rules.STR:
            out.append('"%s"' % own)
        elif kind in (rules.WHITESPACE, rules.COMMENT):
            out.append("_" if kind == rules.WHITESPACE else "//")
        elif kind in (rules.PRIMITIVE, rules.BUILTIN, rules.LABEL):
            out.append({rules.PRIMITIVE: "%", rules.BUILTIN: "@", rules.LABEL: "~"}[kind] + own)
        elif kind == rules.IDENT and (own in FIXED or own in OPCODES or not re.match(r"[A-Za-z\\]", own)
                                      or own.startswith(("op:", "lit:", "no:"))):
            out.append("'" + own)
        elif kind > 45:
            out.append("kind:%d" % kind)
        else:
            out.append(own)
    if out and out[-1] == "EOF":
        out.pop()
    else:
        out.append("...")
    return " ".join(out)


def shown_case(line):
    """A case as a line for people; a line that is no case as it is."""
    if line.startswith("L"):
        return shown_text_case(line)
    case = rules.read_case(line.encode("latin-1"))
    if isinstance(case, str):
        return line
    entry, mode, edition, start, lengths, text, words = case
    return "%s %d %s %d lent %s | %s" % (entry, mode, edition_word(edition), start, lengths, shown(text, words))


def shown_text_case(line):
    case = lexer.read_case(line.encode("latin-1"))
    if isinstance(case, str):
        return line
    lent, text = case
    cut = " .. %d bytes" % len(text) if len(text) > SHOWN_BYTES else ""
    return "L lent %d | %s%s" % (lent, escaped(text[:SHOWN_BYTES]), cut)
