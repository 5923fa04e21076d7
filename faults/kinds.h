/* Document 01's kinds of tokens, the widths of its records, a definition's with request [7], and of answers, and the types
 * that request [10] tells. */
#ifndef KINDS_H
#define KINDS_H

enum kind {
    EOF_KIND, WHITESPACE, COMMENT, INCLUDE, DEFINE, POUND, MACRO, FN, TEST, FUNCTION, EVENT, CONSTANT, ERROR,
    JUMP_TABLE, JUMP_TABLE_PACKED, CODE_TABLE, TAKES, RETURNS, VIEW, PURE, PAYABLE, NON_PAYABLE, INDEXED, CALLDATA,
    MEMORY, STORAGE, ASSIGN, OPEN_PAREN, CLOSE_PAREN, OPEN_BRACE, CLOSE_BRACE, OPEN_BRACKET, CLOSE_BRACKET,
    LEFT_ANGLE, RIGHT_ANGLE, COMMA, COLON, FREE_STORAGE_POINTER, IDENT, LABEL, LITERAL, OPCODE, NUM, STR, BUILTIN,
    PRIMITIVE, KINDS
};

enum { MOST_TEXT = 1048576, MOST_TOKENS = 65536, TOKEN = 4, DEFINITION = 14, STATEMENT = 8, ARGUMENT = 7 };

/* Number, cursor, three counts, type, size. */
enum { ANSWER_NUMBERS = 7 };

/* The types that a name can be. */
enum type { NO_TYPE, TYPE_ADDRESS, TYPE_BOOL, TYPE_STRING, TYPE_BYTES, TYPE_UINT, TYPE_INT, TYPE_BYTES_N };

/* The modes there are. */
enum { PLAIN_MODE, STRICT_MODE };

/* The editions of the plain length there are. */
enum { FIRST_EDITION = 1, SECOND_EDITION };

#define NONE 4294967295u

#endif
