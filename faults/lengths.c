/*
 * Lengths above 4,294,967,295: a library that kept a length in 32 bits would take such a list for a short one. The
 * lists are address space that nobody writes to, so they take no memory. Tables are left out: they are zeroed whole.
 *
 *   lengths
 *
 * Status 0 if all answers are right, 1 if not, 3 if so much address space is not to be had.
 */
#define _GNU_SOURCE
#include <inttypes.h>
#include <stdio.h>
#include <sys/mman.h>

#include "../bindings/c/simmerotter.h"

static const size_t WRAP = (size_t)1 << 32;

/* What a list's length is tested for is the same in both editions. */
enum { EDITION = 1 };

/* `{ }` and Eof: accepted as a body, refused with 1 as a file. */
static const uint8_t TEXT[] = "{}";
static const uint32_t TOKENS[] = {29, 0, 1, 0, 30, 1, 2, 0, 0, 2, 2, 0};
enum { WORDS = sizeof TOKENS / sizeof *TOKENS, KEPT = 3 };

static uint32_t kept[KEPT];

static void *space(size_t bytes)
{
    void *at = mmap(NULL, bytes, PROT_READ | PROT_WRITE, MAP_PRIVATE | MAP_ANONYMOUS | MAP_NORESERVE, -1, 0);
    return at == MAP_FAILED ? NULL : at;
}

static int is_answer(const char *what, const uint64_t *answer, uint64_t number, uint64_t cursor)
{
    if (answer[0] == number && answer[1] == cursor)
        return 1;
    fprintf(stderr, "%s: answered %" PRIu64 " at %" PRIu64 ", wanted %" PRIu64 " at %" PRIu64 "\n", what, answer[0],
            answer[1], number, cursor);
    return 0;
}

static int long_text(uint32_t mode, uint8_t *text, size_t length)
{
    uint64_t body[SIMMEROTTER_ANSWER_NUMBERS], file[SIMMEROTTER_ANSWER_NUMBERS];
    uint32_t empty[1];
    simmerotter_read_body(mode, EDITION, text, length, TOKENS, WORDS, 0, kept, KEPT, empty, 0, empty, 0, body);
    simmerotter_read_file(mode, text, length, TOKENS, WORDS, kept, KEPT, empty, 0, empty, 0, empty, 0, file);
    return is_answer("a long text, body", body, 30, 0) && is_answer("a long text, file", file, 30, 0);
}

static int long_tokens(uint32_t mode, uint32_t *tokens, size_t length)
{
    uint64_t body[SIMMEROTTER_ANSWER_NUMBERS], file[SIMMEROTTER_ANSWER_NUMBERS];
    uint32_t empty[1];
    simmerotter_read_body(mode, EDITION, TEXT, 2, tokens, length, 0, kept, KEPT, empty, 0, empty, 0, body);
    simmerotter_read_file(mode, TEXT, 2, tokens, length, kept, KEPT, empty, 0, empty, 0, empty, 0, file);
    return is_answer("long tokens, body", body, 30, 0) && is_answer("long tokens, file", file, 30, 0);
}

/* Long enough, though its length in 32 bits would not be. */
static int long_kept(uint32_t mode, uint32_t *list, size_t length)
{
    uint64_t body[SIMMEROTTER_ANSWER_NUMBERS], file[SIMMEROTTER_ANSWER_NUMBERS];
    uint32_t empty[1];
    simmerotter_read_body(mode, EDITION, TEXT, 2, TOKENS, WORDS, 0, list, length, empty, 0, empty, 0, body);
    simmerotter_read_file(mode, TEXT, 2, TOKENS, WORDS, list, length, empty, 0, empty, 0, empty, 0, file);
    return is_answer("a long kept list, body", body, 0, 2) && is_answer("a long kept list, file", file, 1, 0);
}

static int far_start(uint32_t mode, size_t start)
{
    uint64_t body[SIMMEROTTER_ANSWER_NUMBERS];
    uint32_t empty[1];
    simmerotter_read_body(mode, EDITION, TEXT, 2, TOKENS, WORDS, start, kept, KEPT, empty, 0, empty, 0, body);
    return is_answer("a far start", body, 31, start);
}

int main(void)
{
    uint8_t *text = space(WRAP + 4096);
    uint32_t *words = space((WRAP + 4096) * sizeof *words);
    if (text == NULL || words == NULL) {
        printf("no address space for lists of 2^32 words\n");
        return 3;
    }
    text[0] = TEXT[0];
    text[1] = TEXT[1];
    int good = 1;
    for (uint32_t mode = 0; mode <= 1; mode++)
        good = good && long_text(mode, text, WRAP + 2) && long_kept(mode, words, WRAP + 1) && far_start(mode, WRAP) &&
               far_start(mode, SIZE_MAX);
    for (size_t i = 0; i < WORDS; i++)
        words[i] = TOKENS[i];
    for (uint32_t mode = 0; mode <= 1; mode++)
        good = good && long_tokens(mode, words, WRAP + WORDS);
    if (good)
        printf("lengths and starts above 2^32: 16 calls as document 01 says\n");
    return good ? 0 : 1;
}
