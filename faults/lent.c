#define _GNU_SOURCE
#include "lent.h"

#include <stdio.h>
#include <stdlib.h>
#include <string.h>
#include <sys/mman.h>

#include "../bindings/c/simmerotter.h"
#include "kinds.h"
#include "memcheck.h"

_Static_assert(SIMMEROTTER_ANSWER_NUMBERS == ANSWER_NUMBERS, "the header's answers are those that are lent and tested");
_Static_assert(SIMMEROTTER_DEFINITION_WORDS == DEFINITION && SIMMEROTTER_STATEMENT_WORDS == STATEMENT &&
                   SIMMEROTTER_ARGUMENT_WORDS == ARGUMENT,
               "the header's records are those that are lent and tested");

enum { PAGE = 4096, CANARY = 0xc5 };

/* Bytes that the largest case can lend in one block: 65,537 tokens, a record for each. */
static const size_t MOST_BYTES = (size_t)(MOST_TOKENS + 64) * STATEMENT * 4;

static void fail(const char *what)
{
    perror(what);
    exit(2);
}

static size_t pages_of(size_t bytes)
{
    return (bytes + PAGE - 1) / PAGE * PAGE;
}

/* All pages are forbidden until some of them are opened. */
static void area_open(struct area *a)
{
    size_t bytes = pages_of(MOST_BYTES);
    uint8_t *at = mmap(NULL, bytes + 2 * PAGE, PROT_NONE, MAP_PRIVATE | MAP_ANONYMOUS | MAP_NORESERVE, -1, 0);
    if (at == MAP_FAILED)
        fail("mmap");
    a->first = at + PAGE;
    a->end = a->first + bytes;
    a->open = a->shut = a->first;
}

void lender_open(struct lender *l, bool guards, uint64_t seed)
{
    memset(l, 0, sizeof *l);
    l->guards = guards;
    l->chance = stream(seed, UINT64_MAX);
    for (int part = 0; guards && part < PARTS; part++)
        area_open(&l->areas[part]);
}

void lender_close(struct lender *l)
{
    for (int part = 0; l->guards && part < PARTS; part++)
        munmap(l->areas[part].first - PAGE, (size_t)(l->areas[part].end - l->areas[part].first) + 2 * PAGE);
}

static void protect(uint8_t *from, uint8_t *to, int how)
{
    if (from != to && mprotect(from, (size_t)(to - from), how) != 0)
        fail("mprotect");
}

/* The block ends at the forbidden page behind or begins after the one before; the other pages are forbidden too. */
static void *lend_guarded(struct lender *l, struct area *a, size_t bytes)
{
    bool behind = likely(&l->chance, 50);
    uint8_t *open = behind ? a->end - pages_of(bytes) : a->first;
    uint8_t *shut = behind ? a->end : a->first + pages_of(bytes);
    if (open != a->open || shut != a->shut)
        protect(a->open, a->shut, PROT_NONE);
    protect(open, shut, PROT_READ | PROT_WRITE);
    a->open = open;
    a->shut = shut;
    a->at = behind ? a->end - bytes : a->first;
    memset(open, CANARY, (size_t)(a->at - open));
    memset(a->at + bytes, CANARY, (size_t)(shut - a->at) - bytes);
    return a->at;
}

/* A block of exactly this size. An empty list has an address too, whose byte is not lent. */
static void *lend_on_heap(struct area *a, size_t bytes)
{
    a->at = malloc(bytes == 0 ? 1 : bytes);
    if (a->at == NULL)
        fail("malloc");
    if (bytes == 0)
        VALGRIND_MAKE_MEM_NOACCESS(a->at, 1);
    return a->at;
}

static void *lend_bytes(struct lender *l, enum part part, size_t bytes)
{
    struct area *a = &l->areas[part];
    if (bytes > MOST_BYTES) {
        fprintf(stderr, "a block of %zu bytes is more than a case should need\n", bytes);
        exit(2);
    }
    a->bytes = bytes;
    return l->guards ? lend_guarded(l, a, bytes) : lend_on_heap(a, bytes);
}

static void *lend_input(struct lender *l, enum part part, const void *from, size_t bytes)
{
    void *at = lend_bytes(l, part, bytes);
    if (bytes != 0)
        memcpy(at, from, bytes);
    if (l->guards)
        protect(l->areas[part].open, l->areas[part].shut, PROT_READ);
    return at;
}

static uint32_t *lend_words(struct lender *l, enum part part, size_t words, const struct call *call)
{
    uint32_t *at = lend_bytes(l, part, words * sizeof *at);
    for (size_t i = 0; i < words; i++)
        at[i] = call->stain + (uint32_t)i;
    if (call->undefined)
        VALGRIND_MAKE_MEM_UNDEFINED(at, words * sizeof *at);
    return at;
}

void lend(struct lender *l, const struct maker *m, struct sizes sizes, uint32_t stain, bool undefined,
          struct call *call)
{
    *call = (struct call){.body = m->body, .mode = m->mode, .edition = m->edition, .start = m->start,
                          .text_len = m->text_len, .tokens_len = m->words_len, .sizes = sizes, .stain = stain,
                          .undefined = undefined};
    call->text = lend_input(l, TEXT, m->text, m->text_len);
    call->tokens = lend_input(l, TOKENS, m->words, m->words_len * sizeof *m->words);
    call->kept = lend_words(l, KEPT, sizes.kept, call);
    call->definitions = lend_words(l, DEFINITIONS, sizes.definitions, call);
    call->statements = lend_words(l, STATEMENTS, sizes.statements, call);
    call->arguments = lend_words(l, ARGUMENTS, sizes.arguments, call);
    call->answer = (uint64_t *)lend_words(l, ANSWER, 2 * ANSWER_NUMBERS, call);
}

void run_call(const struct call *c)
{
    if (c->body)
        simmerotter_read_body(c->mode, c->edition, c->text, c->text_len, c->tokens, c->tokens_len, (size_t)c->start,
                              c->kept, c->sizes.kept, c->statements, c->sizes.statements, c->arguments,
                              c->sizes.arguments, c->answer);
    else
        simmerotter_read_file(c->mode, c->text, c->text_len, c->tokens, c->tokens_len, c->kept, c->sizes.kept,
                              c->definitions, c->sizes.definitions, c->statements, c->sizes.statements, c->arguments,
                              c->sizes.arguments, c->answer);
}

static bool is_canary(const uint8_t *from, const uint8_t *to)
{
    for (; from < to; from++)
        if (*from != CANARY)
            return false;
    return true;
}

bool surroundings_kept(const struct lender *l)
{
    for (int part = 0; l->guards && part < PARTS; part++) {
        const struct area *a = &l->areas[part];
        if (!is_canary(a->open, a->at) || !is_canary(a->at + a->bytes, a->shut))
            return false;
    }
    return true;
}

void give_back(struct lender *l)
{
    for (int part = 0; !l->guards && part < PARTS; part++)
        free(l->areas[part].at);
}
