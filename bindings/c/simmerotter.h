/*
 * Simmerotter for C: reads the token list of a Huff file or of one macro body into tables that the caller lends.
 * The repository's docs/RULES.md has the rules: what a token list holds, what is refused, what the records say.
 *
 * Before a call
 * - A list passes as a pointer and its length in elements: bytes of text, 32-bit words elsewhere. A token is four words.
 * - No pointer may be null, at length 0 either: give any aligned address then.
 * - The lent lists (kept, definitions, statements, arguments) and the answer must not overlap anything else that is passed.
 * - A call takes up to about 70 KB of stack in mode 0. In mode 1 it takes as much where no body has more than 512 tokens, else
 *   up to about 400 KB. Calls share nothing: threads may call at once, each with lists of its own.
 *
 * Room that always suffices, for n tokens: n words of kept list, n / 2 definition records, n statement records, n argument
 * records. With less, a call answers 32 to 35 and its cursor says how many records (kept list: words) are needed.
 *
 * A program that was built against an older header has to be built again with this one before it is linked with this archive:
 * - An answer has seven numbers, all of them written by every call. It had five, and a call writes beyond those.
 * - A definition's record has 14 words. It had 12: a table that is lent by records of 12 may be too small, and every record but the
 *   first is looked for at the wrong word.
 *
 * After a call
 * - answer[SIMMEROTTER_NUMBER] is 0 if the input was accepted, else a refusal's number.
 * - After 30, 31, 35, 36 and 38 nothing lent has changed.
 * - Otherwise the first words of the kept list hold the numbers of the tokens that are neither Whitespace nor Comment, in order,
 *   and its other words are untouched. The tables hold the records followed by zeros; after a refusal, only zeros.
 * - A place counts kept tokens from 0: place p is the token whose four words start at tokens[4 * kept[p]]. Ends are exclusive.
 * - White space and comments, put in or taken out, change no answer, and no word of a table but the last two of a definition's
 *   record, as long as the list stays well formed and as many words are lent.
 * - After 1 to 13, 21 and 22 number, cursor, type and size are those of the kept tokens up to the one at the cursor, for a body
 *   from its start on, in one mode. What stands behind changes none of them, as long as the list is well formed (else 30) and the
 *   kept list long enough (else 35). 20 depends on its macro's tokens up to the brace as well.
 */
#ifndef SIMMEROTTER_H
#define SIMMEROTTER_H

#include <stddef.h>
#include <stdint.h>

#ifdef __cplusplus
extern "C" {
#endif

/* Limits: a longer text or list is answered by 30 with cursor 0. */
#define SIMMEROTTER_MAX_TEXT 1048576u
#define SIMMEROTTER_MAX_TOKENS 65536u

/* Words of a token and of each record, and numbers of an answer. */
#define SIMMEROTTER_TOKEN_WORDS 4
#define SIMMEROTTER_DEFINITION_WORDS 14
#define SIMMEROTTER_STATEMENT_WORDS 8
#define SIMMEROTTER_ARGUMENT_WORDS 7
#define SIMMEROTTER_ANSWER_NUMBERS 7

/* A place that is absent; as a plain length: the body has none. */
#define SIMMEROTTER_NONE 4294967295u

/*
 * The mode of a call; any other number is answered by 36.
 *
 * Strict is for new code and for every compiler that is free to refuse: a label that ends in a bare push swallows the code behind
 * it as its operand, and of two labels with one name a jump goes to one of them unseen. Lenient is for where the answer must
 * equal huff-rs's.
 */
enum simmerotter_mode {
    SIMMEROTTER_LENIENT = 0, /* as huff-rs reads: no push is tested inside a label, and a label's name may stand twice in a body */
    SIMMEROTTER_STRICT = 1   /* inside a label, too, a value push needs a literal that fits it (4), and a label's name may stand
                              * once in a body (22) */
};

/*
 * The edition of a body's plain length; any other number is answered by 38. Only a body is measured: a file's call has none.
 *
 * Both stay, since a contract is measured by what held when it was lodged. A body's two lengths differ by the number of zero
 * literals that are no push's operand, and a body without a length in one edition has none in the other; nothing else of an answer
 * differs. A zero is told by its value: 0x0 and 0x0000 are zeros too.
 */
enum simmerotter_edition {
    SIMMEROTTER_EDITION_FIRST = 1, /* for contracts lodged before the ledger's change: such a zero counts 2, PUSH1 and a byte */
    SIMMEROTTER_EDITION_SECOND = 2 /* for a ledger on which one byte, PUSH0, pushes a zero (EIP-3855): it counts 1 */
};

/* Reads a whole file. */
void simmerotter_read_file(
    uint32_t mode,
    const uint8_t *text, size_t text_len,
    const uint32_t *tokens, size_t tokens_len,
    uint32_t *kept, size_t kept_len,
    uint32_t *definitions, size_t definitions_len,
    uint32_t *statements, size_t statements_len,
    uint32_t *arguments, size_t arguments_len,
    uint64_t answer[SIMMEROTTER_ANSWER_NUMBERS]);

/*
 * Reads one body, whose opening brace is at place `start`, and measures it in an edition. What follows the body's closing brace is
 * not read.
 */
void simmerotter_read_body(
    uint32_t mode,
    uint32_t edition,
    const uint8_t *text, size_t text_len,
    const uint32_t *tokens, size_t tokens_len,
    size_t start,
    uint32_t *kept, size_t kept_len,
    uint32_t *statements, size_t statements_len,
    uint32_t *arguments, size_t arguments_len,
    uint64_t answer[SIMMEROTTER_ANSWER_NUMBERS]);

/* The numbers of an answer. After a refusal the three counts, 2 to 4, are 0. Type and size are 0 unless the number is 7. */
enum simmerotter_answer {
    SIMMEROTTER_NUMBER = 0, /* 0 accepted, else one of simmerotter_refusal */
    SIMMEROTTER_CURSOR = 1, /* accepted: the place of Eof, or one past the closing brace; else see simmerotter_refusal */
    SIMMEROTTER_FILE_DEFINITIONS = 2,
    SIMMEROTTER_FILE_STATEMENTS = 3,
    SIMMEROTTER_FILE_ARGUMENTS = 4,
    SIMMEROTTER_BODY_STATEMENTS = 2,
    SIMMEROTTER_BODY_ARGUMENTS = 3,
    /* Bytes of code, counted as simmerotter_edition says; SIMMEROTTER_NONE if the body holds more than literals, opcodes, labels
     * and label calls, or, in mode 0, if a value push in a label has directly behind it, in the same label, no literal that fits
     * it. */
    SIMMEROTTER_BODY_PLAIN_LENGTH = 4,
    SIMMEROTTER_TYPE = 5, /* after 7: one of simmerotter_type, the type whose name the token at the cursor is */
    SIMMEROTTER_SIZE = 6  /* after 7: that type's size, as simmerotter_type says */
};

/*
 * Which type a word is that was refused as an argument's name (7), with what its size counts. The names are address, bool, string,
 * bytes, uint, int, uintM and intM for M = 8, 16 .. 256, and bytes1 to bytes32, byte for byte: uint08, Uint8, bytes0, bytes33 and
 * uint264 are none of them.
 */
enum simmerotter_type {
    SIMMEROTTER_TYPE_NONE = 0,    /* size 0. After 7: a PrimitiveType token whose text is none of the names */
    SIMMEROTTER_TYPE_ADDRESS = 1, /* size 0 */
    SIMMEROTTER_TYPE_BOOL = 2,    /* size 0 */
    SIMMEROTTER_TYPE_STRING = 3,  /* size 0 */
    SIMMEROTTER_TYPE_BYTES = 4,   /* size 0 */
    SIMMEROTTER_TYPE_UINT = 5,    /* size in bits, 8 to 256; uint alone has 256 */
    SIMMEROTTER_TYPE_INT = 6,     /* size in bits, 8 to 256; int alone has 256 */
    SIMMEROTTER_TYPE_BYTES_N = 7  /* size in bytes, 1 to 32 */
};

/* Why input was refused. For 1 to 22 the cursor is a place. */
enum simmerotter_refusal {
    SIMMEROTTER_ACCEPTED = 0,
    SIMMEROTTER_UNEXPECTED_TYPE = 1,
    SIMMEROTTER_INVALID_DEFINITION = 2,
    SIMMEROTTER_INVALID_CONSTANT_VALUE = 3,
    SIMMEROTTER_INVALID_PUSH = 4,
    SIMMEROTTER_INVALID_TOKEN_IN_MACRO_BODY = 5,
    SIMMEROTTER_INVALID_TOKEN_IN_LABEL_DEFINITION = 6,
    SIMMEROTTER_INVALID_TYPE_AS_ARGUMENT_NAME = 7, /* the answer says which type */
    SIMMEROTTER_INVALID_ARGS = 8,
    SIMMEROTTER_INVALID_SINGLE_ARG = 9,
    SIMMEROTTER_INVALID_MACRO_ARGS = 10,
    SIMMEROTTER_INVALID_TABLE_BODY_TOKEN = 11,
    SIMMEROTTER_INVALID_CONSTANT = 12,
    SIMMEROTTER_INVALID_ARG_CALL_IDENT = 13,
    SIMMEROTTER_REPEATED_NAME = 20,        /* cursor: the later name */
    SIMMEROTTER_POUND_AT_TOP_LEVEL = 21,
    SIMMEROTTER_DUPLICATE_LABEL = 22,      /* mode 1 alone; cursor: the later Label */
    SIMMEROTTER_NOT_WELL_FORMED = 30,      /* cursor: the first bad token's number in the lent list, or 0 */
    SIMMEROTTER_START_OUTSIDE = 31,        /* cursor: that start */
    SIMMEROTTER_DEFINITIONS_TOO_SMALL = 32, /* cursor: the records needed */
    SIMMEROTTER_STATEMENTS_TOO_SMALL = 33, /* cursor: the records needed */
    SIMMEROTTER_ARGUMENTS_TOO_SMALL = 34,  /* cursor: the records needed */
    SIMMEROTTER_KEPT_TOO_SHORT = 35,       /* cursor: the words needed */
    SIMMEROTTER_UNKNOWN_MODE = 36,         /* before any other; cursor: 0 */
    SIMMEROTTER_UNKNOWN_EDITION = 38       /* a body call alone, before any other but 36; cursor: 0 */
};

/* The words of a token. Start and end count bytes of the text. */
enum simmerotter_token {
    SIMMEROTTER_TOKEN_KIND = 0, /* one of simmerotter_kind */
    SIMMEROTTER_TOKEN_START = 1,
    SIMMEROTTER_TOKEN_END = 2,
    SIMMEROTTER_TOKEN_EXTRA = 3 /* the byte of an Opcode, the number of a Num, else 0 */
};

/* The kinds of token. */
enum simmerotter_kind {
    SIMMEROTTER_KIND_EOF = 0,
    SIMMEROTTER_KIND_WHITESPACE = 1,
    SIMMEROTTER_KIND_COMMENT = 2,
    SIMMEROTTER_KIND_INCLUDE = 3,
    SIMMEROTTER_KIND_DEFINE = 4,
    SIMMEROTTER_KIND_POUND = 5,
    SIMMEROTTER_KIND_MACRO = 6,
    SIMMEROTTER_KIND_FN = 7,
    SIMMEROTTER_KIND_TEST = 8,
    SIMMEROTTER_KIND_FUNCTION = 9,
    SIMMEROTTER_KIND_EVENT = 10,
    SIMMEROTTER_KIND_CONSTANT = 11,
    SIMMEROTTER_KIND_ERROR = 12,
    SIMMEROTTER_KIND_JUMP_TABLE = 13,
    SIMMEROTTER_KIND_JUMP_TABLE_PACKED = 14,
    SIMMEROTTER_KIND_CODE_TABLE = 15,
    SIMMEROTTER_KIND_TAKES = 16,
    SIMMEROTTER_KIND_RETURNS = 17,
    SIMMEROTTER_KIND_VIEW = 18,
    SIMMEROTTER_KIND_PURE = 19,
    SIMMEROTTER_KIND_PAYABLE = 20,
    SIMMEROTTER_KIND_NON_PAYABLE = 21,
    SIMMEROTTER_KIND_INDEXED = 22,
    SIMMEROTTER_KIND_CALLDATA = 23,
    SIMMEROTTER_KIND_MEMORY = 24,
    SIMMEROTTER_KIND_STORAGE = 25,
    SIMMEROTTER_KIND_ASSIGN = 26,
    SIMMEROTTER_KIND_OPEN_PAREN = 27,
    SIMMEROTTER_KIND_CLOSE_PAREN = 28,
    SIMMEROTTER_KIND_OPEN_BRACE = 29,
    SIMMEROTTER_KIND_CLOSE_BRACE = 30,
    SIMMEROTTER_KIND_OPEN_BRACKET = 31,
    SIMMEROTTER_KIND_CLOSE_BRACKET = 32,
    SIMMEROTTER_KIND_LEFT_ANGLE = 33,
    SIMMEROTTER_KIND_RIGHT_ANGLE = 34,
    SIMMEROTTER_KIND_COMMA = 35,
    SIMMEROTTER_KIND_COLON = 36,
    SIMMEROTTER_KIND_FREE_STORAGE_POINTER = 37,
    SIMMEROTTER_KIND_IDENT = 38,
    SIMMEROTTER_KIND_LABEL = 39,
    SIMMEROTTER_KIND_LITERAL = 40,
    SIMMEROTTER_KIND_OPCODE = 41,
    SIMMEROTTER_KIND_NUM = 42,
    SIMMEROTTER_KIND_STR = 43,
    SIMMEROTTER_KIND_BUILTIN_FUNCTION = 44,
    SIMMEROTTER_KIND_PRIMITIVE_TYPE = 45
};

/* The words of a definition's record. A "first" word is a record's number in its table; at count 0 it is the number of such
 * records before the point where its own would be written. */
enum simmerotter_definition {
    SIMMEROTTER_DEFINITION_KIND = 0, /* one of simmerotter_definition_kind */
    SIMMEROTTER_DEFINITION_NAME = 1, /* a place; an import's is its Str */
    SIMMEROTTER_DEFINITION_FIRST = 2, /* the place of Define or Include */
    SIMMEROTTER_DEFINITION_END = 3,
    SIMMEROTTER_DEFINITION_FIRST_ARGUMENT = 4,
    SIMMEROTTER_DEFINITION_ARGUMENTS = 5,
    SIMMEROTTER_DEFINITION_FIRST_OUTPUT = 6, /* a function's outputs are argument records too */
    SIMMEROTTER_DEFINITION_OUTPUTS = 7,
    SIMMEROTTER_DEFINITION_FIRST_STATEMENT = 8,
    SIMMEROTTER_DEFINITION_STATEMENTS = 9, /* those inside labels counted */
    /* Macro, fn, test: takes, returns. Function: one of simmerotter_function_type, 0. Constant: one of simmerotter_value, its
     * place. Table: its size in bytes, 0. Else 0, 0. */
    SIMMEROTTER_DEFINITION_A = 10,
    SIMMEROTTER_DEFINITION_B = 11,
    /* Its bytes in the text: where its first token starts and where its last one ends. So they hold all of its tokens with what
     * stands between them, and not what stands behind: white space, comments, a closing quote that an import's Str leaves out. */
    SIMMEROTTER_DEFINITION_TEXT_START = 12,
    SIMMEROTTER_DEFINITION_TEXT_END = 13
};

enum simmerotter_definition_kind {
    SIMMEROTTER_DEFINITION_IMPORT = 1,
    SIMMEROTTER_DEFINITION_FUNCTION = 2,
    SIMMEROTTER_DEFINITION_EVENT = 3,
    SIMMEROTTER_DEFINITION_CONSTANT = 4,
    SIMMEROTTER_DEFINITION_ERROR = 5,
    SIMMEROTTER_DEFINITION_MACRO = 6,
    SIMMEROTTER_DEFINITION_FN = 7,
    SIMMEROTTER_DEFINITION_TEST = 8,
    SIMMEROTTER_DEFINITION_JUMP_TABLE = 9,
    SIMMEROTTER_DEFINITION_JUMP_TABLE_PACKED = 10,
    SIMMEROTTER_DEFINITION_CODE_TABLE = 11
};

enum simmerotter_function_type {
    SIMMEROTTER_FUNCTION_VIEW = 1,
    SIMMEROTTER_FUNCTION_PURE = 2,
    SIMMEROTTER_FUNCTION_PAYABLE = 3,
    SIMMEROTTER_FUNCTION_NON_PAYABLE = 4
};

enum simmerotter_value {
    SIMMEROTTER_VALUE_LITERAL = 1,
    SIMMEROTTER_VALUE_FREE_STORAGE_POINTER = 2
};

/* The words of a statement's record. A label's inner records follow it directly; "first inner" is the record's own number + 1,
 * at count 0 too. */
enum simmerotter_statement {
    SIMMEROTTER_STATEMENT_TYPE = 0, /* one of simmerotter_statement_type */
    SIMMEROTTER_STATEMENT_FIRST = 1,
    SIMMEROTTER_STATEMENT_END = 2,
    SIMMEROTTER_STATEMENT_FIRST_INNER = 3,
    SIMMEROTTER_STATEMENT_INNER = 4,
    SIMMEROTTER_STATEMENT_FIRST_ARGUMENT = 5,
    SIMMEROTTER_STATEMENT_ARGUMENTS = 6,
    SIMMEROTTER_STATEMENT_VALUE = 7 /* the place of the name or value token */
};

enum simmerotter_statement_type {
    SIMMEROTTER_STATEMENT_LITERAL = 1,
    SIMMEROTTER_STATEMENT_OPCODE = 2,
    SIMMEROTTER_STATEMENT_LABEL_CALL = 3,
    SIMMEROTTER_STATEMENT_INVOCATION = 4,
    SIMMEROTTER_STATEMENT_LABEL = 5,
    SIMMEROTTER_STATEMENT_CONSTANT = 6,
    SIMMEROTTER_STATEMENT_ARGUMENT_CALL = 7,
    SIMMEROTTER_STATEMENT_BUILTIN = 8,
    SIMMEROTTER_STATEMENT_CODE = 9
};

/* The words of an argument's record. Commas lie outside its range. */
enum simmerotter_argument {
    SIMMEROTTER_ARGUMENT_FORM = 0, /* one of simmerotter_argument_form */
    SIMMEROTTER_ARGUMENT_TYPE = 1, /* a place or SIMMEROTTER_NONE */
    SIMMEROTTER_ARGUMENT_NAME = 2, /* a place or SIMMEROTTER_NONE; forms 2 to 5: their token; 6: the name in the angles */
    SIMMEROTTER_ARGUMENT_INDEXED = 3, /* 1 or 0 */
    SIMMEROTTER_ARGUMENT_LOCATION = 4, /* one of simmerotter_location */
    SIMMEROTTER_ARGUMENT_FIRST = 5,
    SIMMEROTTER_ARGUMENT_END = 6
};

enum simmerotter_argument_form {
    SIMMEROTTER_ARGUMENT_DECLARED = 1, /* declared, or a name given to a builtin */
    SIMMEROTTER_ARGUMENT_STR = 2,
    SIMMEROTTER_ARGUMENT_LITERAL = 3,
    SIMMEROTTER_ARGUMENT_CALL_LITERAL = 4,
    SIMMEROTTER_ARGUMENT_CALL_NAME = 5,
    SIMMEROTTER_ARGUMENT_CALL_ARGUMENT = 6 /* <name> */
};

enum simmerotter_location {
    SIMMEROTTER_LOCATION_NONE = 0,
    SIMMEROTTER_LOCATION_CALLDATA = 1,
    SIMMEROTTER_LOCATION_MEMORY = 2,
    SIMMEROTTER_LOCATION_STORAGE = 3
};

#ifdef __cplusplus
}
#endif

#endif
