/*
 * Faults planted on purpose, to see that the search finds them. The linker puts these functions between the driver
 * and the library (--wrap); SLIP in the environment says which fault is added after the true call, or in its mode, its
 * edition or what is lent to it.
 */
#include <sched.h>
#include <stdlib.h>
#include <string.h>

#include "../bindings/c/simmerotter.h"
#include "memcheck.h"

void __real_simmerotter_read_file(uint32_t mode, const uint8_t *text, size_t text_len, const uint32_t *tokens,
                                  size_t tokens_len, uint32_t *kept, size_t kept_len, uint32_t *definitions,
                                  size_t definitions_len, uint32_t *statements, size_t statements_len,
                                  uint32_t *arguments, size_t arguments_len, uint64_t *answer);
void __real_simmerotter_read_body(uint32_t mode, uint32_t edition, const uint8_t *text, size_t text_len,
                                  const uint32_t *tokens, size_t tokens_len, size_t start, uint32_t *kept,
                                  size_t kept_len, uint32_t *statements, size_t statements_len, uint32_t *arguments,
                                  size_t arguments_len, uint64_t *answer);
void __wrap_simmerotter_read_file(uint32_t mode, const uint8_t *text, size_t text_len, const uint32_t *tokens,
                                  size_t tokens_len, uint32_t *kept, size_t kept_len, uint32_t *definitions,
                                  size_t definitions_len, uint32_t *statements, size_t statements_len,
                                  uint32_t *arguments, size_t arguments_len, uint64_t *answer);
void __wrap_simmerotter_read_body(uint32_t mode, uint32_t edition, const uint8_t *text, size_t text_len,
                                  const uint32_t *tokens, size_t tokens_len, size_t start, uint32_t *kept,
                                  size_t kept_len, uint32_t *statements, size_t statements_len, uint32_t *arguments,
                                  size_t arguments_len, uint64_t *answer);

/* Accesses that the compiler may not leave out. */
static volatile uint32_t seen;

static uint32_t calls;

/* What a library with a buffer of its own would do: all threads answer through the same words. */
static uint64_t shared[SIMMEROTTER_ANSWER_NUMBERS];

static void answer_through_shared(uint64_t *answer)
{
    memcpy(shared, answer, sizeof shared);
    sched_yield();
    memcpy(answer, shared, sizeof shared);
}

static void use(uint32_t word)
{
    if (word == 77)
        seen = word;
}

static int passed_door(const uint64_t *answer)
{
    return answer[0] != 30 && answer[0] != 31 && answer[0] != 35 && answer[0] != 36 && answer[0] != 38;
}

static int chosen_slip(void)
{
    const char *word = getenv("SLIP");
    return word == NULL ? 0 : atoi(word);
}

/* What a library would do that takes modes it doesn't know for mode 0. */
static uint32_t mode_read(uint32_t mode)
{
    return chosen_slip() == 20 && mode > 1 ? 0 : mode;
}

/* What a library would do that takes editions it doesn't know for edition 1, or one that takes edition 2 for it. */
static uint32_t edition_read(uint32_t edition)
{
    int chosen = chosen_slip();
    return (chosen == 21 && edition != 2) || (chosen == 22 && edition == 2) ? 1 : edition;
}

/* What mode 1 refuses and mode 0 doesn't is overlooked: the call is made again in mode 0. */
static int overlooks(const uint64_t *answer)
{
    int chosen = chosen_slip();
    return (chosen == 18 && answer[0] == 22) || (chosen == 19 && answer[0] == 4);
}

static void slip(const uint8_t *text, size_t text_len, const uint32_t *tokens, size_t tokens_len, uint32_t *kept,
                 size_t kept_len, uint32_t *table, size_t table_len, uint64_t *answer)
{
    volatile uint8_t *text_bytes = (volatile uint8_t *)text;
    switch (chosen_slip()) {
    case 1: use(text_bytes[text_len]); break;
    case 2: use(((const volatile uint32_t *)tokens)[-1]); break;
    case 3: use(((const volatile uint32_t *)tokens)[tokens_len]); break;
    case 4: kept[kept_len] = 1; break;
    case 5: table[table_len] = 0; break;
    case 6: ((volatile uint32_t *)table)[-1] = 0; break;
    case 7: if (text_len > 0) text_bytes[0] ^= 1; break;
    case 8: if (text_len > 0) text_bytes[0] = text_bytes[0]; break;
    case 9: if (table_len > 0 && passed_door(answer)) table[table_len - 1] ^= 4; break;
    case 10: if (table_len > 0) table[0] = 0; break;
    case 11: if (table_len > 0) VALGRIND_MAKE_MEM_UNDEFINED(table + table_len - 1, 4); break;
    case 12: if (kept_len > 0 && answer[0] == 30) VALGRIND_MAKE_MEM_DEFINED(kept, 4); break;
    case 13: if (kept_len > 0 && passed_door(answer)) kept[0] = 1; break;
    case 14: answer[0] = answer[0] == 4 ? 14 : answer[0]; break;
    case 15: answer[1] += ++calls % 100 == 0; break;
    case 16: answer[4] += answer[0] == 0; break;
    case 17: answer_through_shared(answer); break;
    /* Of a type: another one, a size in bytes, one told with another number than 7, none written, one told of no type. */
    case 23: answer[5] += answer[5] == SIMMEROTTER_TYPE_UINT; break;
    case 24: if (answer[5] == SIMMEROTTER_TYPE_UINT) answer[6] /= 8; break;
    case 25: answer[5] += answer[0] == 1; break;
    case 26: VALGRIND_MAKE_MEM_UNDEFINED(answer + 5, 2 * sizeof *answer); break;
    case 27: answer[5] += answer[0] == 7 && answer[5] == SIMMEROTTER_TYPE_NONE; break;
    default: break;
    }
}

/* Of where definitions stand in the text: an end that is the start of the token behind, a start that is that of the second
 * token, an end by the place of a token in place of its number. */
static void slip_in_text(const uint32_t *tokens, const uint32_t *kept, uint32_t *definitions, const uint64_t *answer)
{
    for (uint64_t i = 0; answer[0] == 0 && i < answer[2]; i++) {
        uint32_t *d = definitions + SIMMEROTTER_DEFINITION_WORDS * i;
        uint32_t first = d[SIMMEROTTER_DEFINITION_FIRST], end = d[SIMMEROTTER_DEFINITION_END];
        switch (chosen_slip()) {
        case 28: d[SIMMEROTTER_DEFINITION_TEXT_END] = tokens[SIMMEROTTER_TOKEN_WORDS * kept[end] + 1]; break;
        case 29: d[SIMMEROTTER_DEFINITION_TEXT_START] = tokens[SIMMEROTTER_TOKEN_WORDS * kept[first + 1] + 1]; break;
        case 30: d[SIMMEROTTER_DEFINITION_TEXT_END] = tokens[SIMMEROTTER_TOKEN_WORDS * (end - 1) + 2]; break;
        default: break;
        }
    }
}

/* What a library would do that counts the room for definitions by 12 words a record: it takes more of them than fit, and
 * writes those that do. */
static void read_file_by_12(uint32_t mode, const uint8_t *text, size_t text_len, const uint32_t *tokens,
                            size_t tokens_len, uint32_t *kept, size_t kept_len, uint32_t *definitions,
                            size_t definitions_len, uint32_t *statements, size_t statements_len, uint32_t *arguments,
                            size_t arguments_len, uint64_t *answer)
{
    size_t words = definitions_len / 12 * SIMMEROTTER_DEFINITION_WORDS + definitions_len % 12;
    uint32_t *wide = calloc(words + 1, sizeof *wide);
    if (wide == NULL)
        exit(2);
    __real_simmerotter_read_file(mode, text, text_len, tokens, tokens_len, kept, kept_len, wide, words, statements,
                                 statements_len, arguments, arguments_len, answer);
    if (passed_door(answer))
        memcpy(definitions, wide, definitions_len * sizeof *wide);
    free(wide);
}

void __wrap_simmerotter_read_file(uint32_t mode, const uint8_t *text, size_t text_len, const uint32_t *tokens,
                                  size_t tokens_len, uint32_t *kept, size_t kept_len, uint32_t *definitions,
                                  size_t definitions_len, uint32_t *statements, size_t statements_len,
                                  uint32_t *arguments, size_t arguments_len, uint64_t *answer)
{
    if (chosen_slip() == 31) {
        read_file_by_12(mode, text, text_len, tokens, tokens_len, kept, kept_len, definitions, definitions_len,
                        statements, statements_len, arguments, arguments_len, answer);
        return;
    }
    __real_simmerotter_read_file(mode_read(mode), text, text_len, tokens, tokens_len, kept, kept_len, definitions,
                                 definitions_len, statements, statements_len, arguments, arguments_len, answer);
    if (overlooks(answer))
        __real_simmerotter_read_file(0, text, text_len, tokens, tokens_len, kept, kept_len, definitions,
                                     definitions_len, statements, statements_len, arguments, arguments_len, answer);
    slip(text, text_len, tokens, tokens_len, kept, kept_len, definitions, definitions_len, answer);
    slip_in_text(tokens, kept, definitions, answer);
}

void __wrap_simmerotter_read_body(uint32_t mode, uint32_t edition, const uint8_t *text, size_t text_len,
                                  const uint32_t *tokens, size_t tokens_len, size_t start, uint32_t *kept,
                                  size_t kept_len, uint32_t *statements, size_t statements_len, uint32_t *arguments,
                                  size_t arguments_len, uint64_t *answer)
{
    __real_simmerotter_read_body(mode_read(mode), edition_read(edition), text, text_len, tokens, tokens_len, start, kept,
                                 kept_len, statements, statements_len, arguments, arguments_len, answer);
    if (overlooks(answer))
        __real_simmerotter_read_body(0, edition, text, text_len, tokens, tokens_len, start, kept, kept_len, statements,
                                     statements_len, arguments, arguments_len, answer);
    slip(text, text_len, tokens, tokens_len, kept, kept_len, arguments, arguments_len, answer);
}
