/*
 * Reads bodies and files, and checks every number and word that the calls leave: the examples of docs/CASES.md, where a definition
 * stands in the text, what modes and editions differ in, and which type it was whose name no argument may have. Every lent list has
 * a length of its own, so that arguments in another order than the archive's would be seen.
 */
#include <stdio.h>
#include <string.h>

#include "simmerotter.h"

#define LENGTH(list) (sizeof(list) / sizeof((list)[0]))
#define FILL 2779096485u

static int failures = 0;

static void fill(uint32_t *list, size_t length)
{
    for (size_t i = 0; i < length; i++)
        list[i] = FILL;
}

/* So that a number that a call doesn't write is seen. */
static void fill_answer(uint64_t *answer)
{
    for (size_t i = 0; i < SIMMEROTTER_ANSWER_NUMBERS; i++)
        answer[i] = FILL;
}

static void expect_words(const char *what, const uint32_t *got, const uint32_t *wanted, size_t length)
{
    for (size_t i = 0; i < length; i++) {
        if (got[i] != wanted[i]) {
            printf("%s at %zu: wanted %lu, got %lu\n", what, i, (unsigned long)wanted[i], (unsigned long)got[i]);
            failures++;
        }
    }
}

static void expect_answer(const char *what, const uint64_t *got, const uint64_t *wanted)
{
    for (size_t i = 0; i < SIMMEROTTER_ANSWER_NUMBERS; i++) {
        if (got[i] != wanted[i]) {
            printf("%s, answer at %zu: wanted %llu, got %llu\n", what, i, (unsigned long long)wanted[i],
                (unsigned long long)got[i]);
            failures++;
        }
    }
}

/* { PUSH1 0xff }: a kept list of six words, two records and a word of statements, no argument record but a word. */
static void read_push(void)
{
    static const char text[] = "{ PUSH1 0xff }";
    static const uint32_t tokens[] = {
        SIMMEROTTER_KIND_OPEN_BRACE, 0, 1, 0, SIMMEROTTER_KIND_OPCODE, 2, 7, 0x60, SIMMEROTTER_KIND_LITERAL, 8, 12, 0,
        SIMMEROTTER_KIND_CLOSE_BRACE, 13, 14, 0, SIMMEROTTER_KIND_EOF, 14, 14, 0,
    };
    static const uint32_t wanted_kept[6] = {0, 1, 2, 3, 4, FILL};
    static const uint32_t wanted_statements[17] = {
        SIMMEROTTER_STATEMENT_OPCODE, 1, 2, 1, 0, 0, 0, 1, SIMMEROTTER_STATEMENT_LITERAL, 2, 3, 2, 0, 0, 0, 2, 0,
    };
    static const uint32_t wanted_arguments[1] = {0};
    static const uint64_t wanted[SIMMEROTTER_ANSWER_NUMBERS] = {SIMMEROTTER_ACCEPTED, 4, 2, 0, 2, 0, 0};
    uint32_t kept[6], statements[17], arguments[1];
    uint64_t answer[SIMMEROTTER_ANSWER_NUMBERS];

    fill_answer(answer);
    fill(kept, LENGTH(kept));
    fill(statements, LENGTH(statements));
    fill(arguments, LENGTH(arguments));
    simmerotter_read_body(SIMMEROTTER_LENIENT, SIMMEROTTER_EDITION_FIRST, (const uint8_t *)text, strlen(text), tokens,
        LENGTH(tokens), 0, kept, LENGTH(kept), statements, LENGTH(statements), arguments, LENGTH(arguments), answer);
    expect_answer("push", answer, wanted);
    expect_words("push, kept", kept, wanted_kept, LENGTH(kept));
    expect_words("push, statements", statements, wanted_statements, LENGTH(statements));
    expect_words("push, arguments", arguments, wanted_arguments, LENGTH(arguments));
    if (statements[SIMMEROTTER_STATEMENT_WORDS + SIMMEROTTER_STATEMENT_VALUE] != 2) {
        printf("push: the literal's place is not 2\n");
        failures++;
    }
}

/* { PUSH1 } with a kept list that is one word short: refused, and nothing lent has changed. */
static void read_short(void)
{
    static const char text[] = "{ PUSH1 }";
    static const uint32_t tokens[] = {
        SIMMEROTTER_KIND_OPEN_BRACE, 0, 1, 0, SIMMEROTTER_KIND_OPCODE, 2, 7, 0x60, SIMMEROTTER_KIND_CLOSE_BRACE, 8, 9, 0,
        SIMMEROTTER_KIND_EOF, 9, 9, 0,
    };
    static const uint64_t wanted[SIMMEROTTER_ANSWER_NUMBERS] = {SIMMEROTTER_KEPT_TOO_SHORT, 4, 0, 0, 0, 0, 0};
    uint32_t kept[3], statements[8], arguments[7], untouched[8];
    uint64_t answer[SIMMEROTTER_ANSWER_NUMBERS];

    fill_answer(answer);
    fill(kept, LENGTH(kept));
    fill(statements, LENGTH(statements));
    fill(arguments, LENGTH(arguments));
    fill(untouched, LENGTH(untouched));
    simmerotter_read_body(SIMMEROTTER_LENIENT, SIMMEROTTER_EDITION_FIRST, (const uint8_t *)text, strlen(text), tokens,
        LENGTH(tokens), 0, kept, LENGTH(kept), statements, LENGTH(statements), arguments, LENGTH(arguments), answer);
    expect_answer("short", answer, wanted);
    expect_words("short, kept", kept, untouched, LENGTH(kept));
    expect_words("short, statements", statements, untouched, LENGTH(statements));
    expect_words("short, arguments", arguments, untouched, LENGTH(arguments));
}

/* #define table T { abc }: every list a word or more longer than it needs to be, each by another number. */
static void read_table(void)
{
    static const char text[] = "#define table T { abc }";
    static const uint32_t tokens[] = {
        SIMMEROTTER_KIND_DEFINE, 0, 7, 0, SIMMEROTTER_KIND_CODE_TABLE, 8, 13, 0, SIMMEROTTER_KIND_IDENT, 14, 15, 0,
        SIMMEROTTER_KIND_OPEN_BRACE, 16, 17, 0, SIMMEROTTER_KIND_IDENT, 18, 21, 0, SIMMEROTTER_KIND_CLOSE_BRACE, 22, 23, 0,
        SIMMEROTTER_KIND_EOF, 23, 23, 0,
    };
    static const uint32_t wanted_kept[8] = {0, 1, 2, 3, 4, 5, 6, FILL};
    static const uint32_t wanted_definitions[16] = {
        SIMMEROTTER_DEFINITION_CODE_TABLE, 2, 0, 6, 0, 0, 0, 0, 0, 1, 1, 0, 0, 23, 0, 0,
    };
    static const uint32_t wanted_statements[11] = {SIMMEROTTER_STATEMENT_CODE, 4, 5, 1, 0, 0, 0, 4, 0, 0, 0};
    static const uint32_t wanted_arguments[5] = {0, 0, 0, 0, 0};
    static const uint64_t wanted[SIMMEROTTER_ANSWER_NUMBERS] = {SIMMEROTTER_ACCEPTED, 6, 1, 1, 0, 0, 0};
    uint32_t kept[8], definitions[16], statements[11], arguments[5];
    uint64_t answer[SIMMEROTTER_ANSWER_NUMBERS];

    fill_answer(answer);
    fill(kept, LENGTH(kept));
    fill(definitions, LENGTH(definitions));
    fill(statements, LENGTH(statements));
    fill(arguments, LENGTH(arguments));
    simmerotter_read_file(SIMMEROTTER_LENIENT, (const uint8_t *)text, strlen(text), tokens, LENGTH(tokens), kept, LENGTH(kept),
        definitions, LENGTH(definitions), statements, LENGTH(statements), arguments, LENGTH(arguments), answer);
    expect_answer("table", answer, wanted);
    expect_words("table, kept", kept, wanted_kept, LENGTH(kept));
    expect_words("table, definitions", definitions, wanted_definitions, LENGTH(definitions));
    expect_words("table, statements", statements, wanted_statements, LENGTH(statements));
    expect_words("table, arguments", arguments, wanted_arguments, LENGTH(arguments));
    if (definitions[SIMMEROTTER_DEFINITION_A] != 1) {
        printf("table: its size is not 1\n");
        failures++;
    }
}

static const char constant_text[] = "/* a */#define constant C = 0x01 \n";

/* A constant between a comment and white space, into a table of so many words. */
static void read_constant(const char *what, uint32_t *definitions, size_t definitions_len, const uint64_t *wanted,
    const uint32_t *wanted_definitions)
{
    static const uint32_t tokens[] = {
        SIMMEROTTER_KIND_COMMENT, 0, 7, 0, SIMMEROTTER_KIND_DEFINE, 7, 14, 0, SIMMEROTTER_KIND_CONSTANT, 15, 23, 0,
        SIMMEROTTER_KIND_IDENT, 24, 25, 0, SIMMEROTTER_KIND_ASSIGN, 26, 27, 0, SIMMEROTTER_KIND_LITERAL, 28, 32, 0,
        SIMMEROTTER_KIND_WHITESPACE, 32, 34, 0, SIMMEROTTER_KIND_EOF, 34, 34, 0,
    };
    static const uint32_t wanted_kept[6] = {1, 2, 3, 4, 5, 7};
    uint32_t kept[6], nothing_here[1], nothing_there[1];
    uint64_t answer[SIMMEROTTER_ANSWER_NUMBERS];

    fill_answer(answer);
    fill(kept, LENGTH(kept));
    fill(definitions, definitions_len);
    simmerotter_read_file(SIMMEROTTER_LENIENT, (const uint8_t *)constant_text, strlen(constant_text), tokens, LENGTH(tokens),
        kept, LENGTH(kept), definitions, definitions_len, nothing_here, 0, nothing_there, 0, answer);
    expect_answer(what, answer, wanted);
    expect_words(what, kept, wanted_kept, LENGTH(kept));
    expect_words(what, definitions, wanted_definitions, definitions_len);
}

/* A definition is cut out of the text by two words of its record. A table that is a word too short for it asks for one record. */
static void read_where(void)
{
    static const uint64_t accepted[SIMMEROTTER_ANSWER_NUMBERS] = {SIMMEROTTER_ACCEPTED, 5, 1, 0, 0, 0, 0};
    static const uint64_t refused[SIMMEROTTER_ANSWER_NUMBERS] = {SIMMEROTTER_DEFINITIONS_TOO_SMALL, 1, 0, 0, 0, 0, 0};
    static const uint32_t record[SIMMEROTTER_DEFINITION_WORDS] = {
        SIMMEROTTER_DEFINITION_CONSTANT, 2, 0, 5, 0, 0, 0, 0, 0, 0, SIMMEROTTER_VALUE_LITERAL, 4, 7, 32,
    };
    static const uint32_t zeros[SIMMEROTTER_DEFINITION_WORDS] = {0};
    static const char wanted[] = "#define constant C = 0x01";
    uint32_t definitions[SIMMEROTTER_DEFINITION_WORDS];
    size_t start, end;

    read_constant("constant, a word short", definitions, LENGTH(definitions) - 1, refused, zeros);
    read_constant("constant", definitions, LENGTH(definitions), accepted, record);
    start = definitions[SIMMEROTTER_DEFINITION_TEXT_START];
    end = definitions[SIMMEROTTER_DEFINITION_TEXT_END];
    if (end > strlen(constant_text) || end - start != strlen(wanted) || memcmp(constant_text + start, wanted, end - start) != 0) {
        printf("constant: what is cut out is not the constant\n");
        failures++;
    }
}

/* { } behind a comment, read from place 1: the start is counted in kept tokens, and no table is lent. */
static void read_later_body(void)
{
    static const char text[] = "a/**/{}";
    static const uint32_t tokens[] = {
        SIMMEROTTER_KIND_IDENT, 0, 1, 0, SIMMEROTTER_KIND_COMMENT, 1, 5, 0, SIMMEROTTER_KIND_OPEN_BRACE, 5, 6, 0,
        SIMMEROTTER_KIND_CLOSE_BRACE, 6, 7, 0, SIMMEROTTER_KIND_EOF, 7, 7, 0,
    };
    static const uint32_t wanted_kept[4] = {0, 2, 3, 4};
    static const uint64_t wanted[SIMMEROTTER_ANSWER_NUMBERS] = {SIMMEROTTER_ACCEPTED, 3, 0, 0, 0, 0, 0};
    uint32_t kept[4], nothing_here[1], nothing_there[1];
    uint64_t answer[SIMMEROTTER_ANSWER_NUMBERS];

    fill_answer(answer);
    fill(kept, LENGTH(kept));
    simmerotter_read_body(SIMMEROTTER_LENIENT, SIMMEROTTER_EDITION_FIRST, (const uint8_t *)text, strlen(text), tokens,
        LENGTH(tokens), 1, kept, LENGTH(kept), nothing_here, 0, nothing_there, 0, answer);
    expect_answer("later body", answer, wanted);
    expect_words("later body, kept", kept, wanted_kept, LENGTH(kept));
}

/* { 0x00 a:a: } in a mode and an edition: the modes differ in the label that stands twice, the editions in the zero. */
static void read_zero(const char *what, uint32_t mode, uint32_t edition, const uint64_t *wanted, const uint32_t *wanted_kept,
    const uint32_t *wanted_statements)
{
    static const char text[] = "{ 0x00 a:a: }";
    static const uint32_t tokens[] = {
        SIMMEROTTER_KIND_OPEN_BRACE, 0, 1, 0, SIMMEROTTER_KIND_LITERAL, 2, 6, 0, SIMMEROTTER_KIND_LABEL, 7, 8, 0,
        SIMMEROTTER_KIND_COLON, 8, 9, 0, SIMMEROTTER_KIND_LABEL, 9, 10, 0, SIMMEROTTER_KIND_COLON, 10, 11, 0,
        SIMMEROTTER_KIND_CLOSE_BRACE, 12, 13, 0, SIMMEROTTER_KIND_EOF, 13, 13, 0,
    };
    uint32_t kept[8], statements[24], nothing[1];
    uint64_t answer[SIMMEROTTER_ANSWER_NUMBERS];

    fill_answer(answer);
    fill(kept, LENGTH(kept));
    fill(statements, LENGTH(statements));
    simmerotter_read_body(mode, edition, (const uint8_t *)text, strlen(text), tokens, LENGTH(tokens), 0, kept, LENGTH(kept),
        statements, LENGTH(statements), nothing, 0, answer);
    expect_answer(what, answer, wanted);
    expect_words(what, kept, wanted_kept, LENGTH(kept));
    expect_words(what, statements, wanted_statements, LENGTH(statements));
}

/*
 * The lenient mode accepts it, with a length by the edition, and the strict one refuses the later label. A number that is no mode's
 * or no edition's changes nothing; it would be known if one were taken for the other.
 */
static void read_in_modes_and_editions(void)
{
    static const uint64_t first[SIMMEROTTER_ANSWER_NUMBERS] = {SIMMEROTTER_ACCEPTED, 7, 3, 0, 4, 0, 0};
    static const uint64_t second[SIMMEROTTER_ANSWER_NUMBERS] = {SIMMEROTTER_ACCEPTED, 7, 3, 0, 3, 0, 0};
    static const uint64_t refused[SIMMEROTTER_ANSWER_NUMBERS] = {SIMMEROTTER_DUPLICATE_LABEL, 4, 0, 0, 0, 0, 0};
    static const uint64_t no_mode[SIMMEROTTER_ANSWER_NUMBERS] = {SIMMEROTTER_UNKNOWN_MODE, 0, 0, 0, 0, 0, 0};
    static const uint64_t no_edition[SIMMEROTTER_ANSWER_NUMBERS] = {SIMMEROTTER_UNKNOWN_EDITION, 0, 0, 0, 0, 0, 0};
    static const uint32_t kept[8] = {0, 1, 2, 3, 4, 5, 6, 7};
    static const uint32_t records[24] = {
        SIMMEROTTER_STATEMENT_LITERAL, 1, 2, 1, 0, 0, 0, 1, SIMMEROTTER_STATEMENT_LABEL, 2, 4, 2, 0, 0, 0, 2,
        SIMMEROTTER_STATEMENT_LABEL, 4, 6, 3, 0, 0, 0, 4,
    };
    static const uint32_t zeros[24] = {0};
    uint32_t untouched[24];

    fill(untouched, LENGTH(untouched));
    read_zero("first edition", SIMMEROTTER_LENIENT, SIMMEROTTER_EDITION_FIRST, first, kept, records);
    read_zero("second edition", SIMMEROTTER_LENIENT, SIMMEROTTER_EDITION_SECOND, second, kept, records);
    read_zero("strict", SIMMEROTTER_STRICT, SIMMEROTTER_EDITION_FIRST, refused, kept, zeros);
    read_zero("unknown mode", 2, SIMMEROTTER_EDITION_FIRST, no_mode, untouched, untouched);
    read_zero("unknown edition", SIMMEROTTER_STRICT, 0, no_edition, untouched, untouched);
    read_zero("neither known", 2, 0, no_mode, untouched, untouched);
}

/* { f(a WORD) } with a builtin f, where WORD has seven bytes and is a token of this kind: the answer says which type it is. */
static void read_type(const char *text, uint32_t kind, uint64_t type, uint64_t size)
{
    const uint32_t tokens[] = {
        SIMMEROTTER_KIND_OPEN_BRACE, 0, 1, 0, SIMMEROTTER_KIND_BUILTIN_FUNCTION, 2, 3, 0, SIMMEROTTER_KIND_OPEN_PAREN, 3, 4, 0,
        SIMMEROTTER_KIND_IDENT, 4, 5, 0, kind, 6, 13, 0, SIMMEROTTER_KIND_CLOSE_PAREN, 13, 14, 0,
        SIMMEROTTER_KIND_CLOSE_BRACE, 15, 16, 0, SIMMEROTTER_KIND_EOF, 16, 16, 0,
    };
    const uint64_t wanted[SIMMEROTTER_ANSWER_NUMBERS] = {
        [SIMMEROTTER_NUMBER] = SIMMEROTTER_INVALID_TYPE_AS_ARGUMENT_NAME,
        [SIMMEROTTER_CURSOR] = 4,
        [SIMMEROTTER_TYPE] = type,
        [SIMMEROTTER_SIZE] = size,
    };
    uint32_t kept[8], nothing_here[1], nothing_there[1];
    uint64_t answer[SIMMEROTTER_ANSWER_NUMBERS];

    fill_answer(answer);
    simmerotter_read_body(SIMMEROTTER_LENIENT, SIMMEROTTER_EDITION_FIRST, (const uint8_t *)text, strlen(text), tokens,
        LENGTH(tokens), 0, kept, LENGTH(kept), nothing_here, 0, nothing_there, 0, answer);
    expect_answer(text, answer, wanted);
}

/* The last text is no type's name, but the token list calls it a type. */
static void read_types(void)
{
    read_type("{ f(a uint256) }", SIMMEROTTER_KIND_IDENT, SIMMEROTTER_TYPE_UINT, 256);
    read_type("{ f(a bytes32) }", SIMMEROTTER_KIND_IDENT, SIMMEROTTER_TYPE_BYTES_N, 32);
    read_type("{ f(a address) }", SIMMEROTTER_KIND_PRIMITIVE_TYPE, SIMMEROTTER_TYPE_ADDRESS, 0);
    read_type("{ f(a bytes99) }", SIMMEROTTER_KIND_PRIMITIVE_TYPE, SIMMEROTTER_TYPE_NONE, 0);
}

int main(void)
{
    read_push();
    read_short();
    read_table();
    read_where();
    read_later_body();
    read_in_modes_and_editions();
    read_types();
    if (failures != 0)
        return 1;
    printf("C: sixteen calls as they should be\n");
    return 0;
}
