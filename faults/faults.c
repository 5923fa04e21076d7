/*
 * Random calls of the library, each with lists of exactly the sizes lent, each answer tested by document 01.
 *
 *   faults SEED COUNT [--guards] [--from N]
 *
 * COUNT cases, from case N on (0 if none is given). A case is called three times: with room for all, to learn what
 * it needs; with table sizes chosen by chance; and so again, which has to give the same. With --guards the lists lie
 * in pages of their own next to forbidden ones, the inputs in pages that can only be read. The first broken rule or
 * fault ends the run with status 1 and names seed and case, so that `faults SEED 1 --from CASE` repeats it.
 */
#define _GNU_SOURCE
#include <inttypes.h>
#include <signal.h>
#include <stdio.h>
#include <stdlib.h>
#include <string.h>
#include <unistd.h>

#include "checks.h"
#include "kinds.h"
#include "memcheck.h"
#include "sizing.h"

enum { NUMBERS = 39 };

struct search {
    uint64_t seed, number;
    struct maker maker;
    struct lender lender;
    /* What the chosen call left, for the call that repeats it. */
    uint64_t answer[ANSWER_NUMBERS];
    uint32_t *tables;
    size_t tables_room;
    /* Counts. */
    uint64_t calls, large, files[NUMBERS], bodies[NUMBERS];
};

/* Which case is under way, for the handler of a fault. */
static struct search running;

static void print_words(const char *name, const uint32_t *words, size_t length)
{
    fprintf(stderr, "  %s, %zu words:", name, length);
    for (size_t i = 0; i < length && i < 2000; i++)
        fprintf(stderr, " %" PRIu32, words[i]);
    fprintf(stderr, "\n");
}

static void print_case(const struct search *s, const struct call *c)
{
    const struct maker *m = &s->maker;
    fprintf(stderr, "  %s, family %s, mode %" PRIu32 ", edition %" PRIu32 ", start %" PRIu64 ", text of %zu bytes:",
            m->body ? "body" : "file", m->family, m->mode, m->edition, m->start, m->text_len);
    for (size_t i = 0; i < m->text_len && i < 2000; i++)
        fprintf(stderr, " %02x", m->text[i]);
    fprintf(stderr, "\n");
    print_words("tokens", m->words, m->words_len);
    fprintf(stderr, "  lent: kept %zu, definitions %zu, statements %zu, arguments %zu\n", c->sizes.kept,
            c->sizes.definitions, c->sizes.statements, c->sizes.arguments);
    fprintf(stderr, "  answer:");
    for (int i = 0; i < ANSWER_NUMBERS; i++)
        fprintf(stderr, " %" PRIu64, c->answer[i]);
    fprintf(stderr, "\n");
}

static void stop(const struct search *s, const struct call *c, const char *which, const char *rule)
{
    fprintf(stderr, "seed %" PRIu64 " case %" PRIu64 ", %s call: broken: %s\n", s->seed, s->number, which, rule);
    print_case(s, c);
    exit(1);
}

static void test_call(struct search *s, const struct call *c, const char *which)
{
    const char *rule = broken_rule(c, &s->maker);
    if (rule == NULL && !surroundings_kept(&s->lender))
        rule = "nothing next to what is lent is written";
    if (rule == NULL && VALGRIND_COUNT_ERRORS != 0)
        rule = "memcheck reports nothing";
    if (rule != NULL)
        stop(s, c, which, rule);
}

/* Lends, calls and tests. What is lent stays lent until it is given back. */
static void do_call(struct search *s, struct sizes sizes, struct call *c, const char *which)
{
    struct chance *chance = &s->lender.chance;
    uint32_t stain = (uint32_t)draw(chance) | 1;
    bool undefined = RUNNING_ON_VALGRIND && likely(chance, 50);
    lend(&s->lender, &s->maker, sizes, stain, undefined, c);
    run_call(c);
    s->calls++;
    test_call(s, c, which);
}

static struct need need_of(const struct call *c, struct chance *chance)
{
    const uint64_t *a = c->answer;
    struct need n = {door_of(c).kept_count, below(chance, 3), below(chance, 4), below(chance, 4)};
    if (a[0] != 0)
        return n;
    return c->body ? (struct need){n.kept, 0, a[2], a[3]} : (struct need){n.kept, a[2], a[3], a[4]};
}

/* What the chosen sizes have to change in the answer of the roomy call. */
static unsigned wanted_number(const uint64_t *roomy, struct need n, const struct call *c)
{
    struct door door = door_of(c);
    if (door.number != 0)
        return door.number;
    if (roomy[0] != 0)
        return (unsigned)roomy[0];
    if (c->sizes.definitions / DEFINITION < n.definitions)
        return 32;
    if (c->sizes.statements / STATEMENT < n.statements)
        return 33;
    return c->sizes.arguments / ARGUMENT < n.arguments ? 34 : 0;
}

static uint64_t wanted_cursor(const uint64_t *roomy, struct need n, const struct call *c)
{
    switch (c->answer[0]) {
    case 30: case 31: case 35: case 36: case 38: return door_of(c).cursor;
    case 32: return n.definitions;
    case 33: return n.statements;
    case 34: return n.arguments;
    default: return roomy[1];
    }
}

static void test_chosen(const struct search *s, const uint64_t *roomy, struct need n, const struct call *c)
{
    if (c->answer[0] != wanted_number(roomy, n, c) || c->answer[1] != wanted_cursor(roomy, n, c))
        stop(s, c, "chosen", "the sizes of the tables change the answer as 32 to 34 say");
    if (c->answer[0] == roomy[0] && memcmp(c->answer, roomy, sizeof s->answer) != 0)
        stop(s, c, "chosen", "an answer counts and tells the same whatever the tables");
}

static size_t table_words(const struct call *c)
{
    return c->sizes.definitions + c->sizes.statements + c->sizes.arguments;
}

static void remember(struct search *s, const struct call *c)
{
    size_t words = table_words(c);
    memcpy(s->answer, c->answer, sizeof s->answer);
    if (words > s->tables_room) {
        s->tables = realloc(s->tables, words * sizeof *s->tables);
        s->tables_room = words;
        if (s->tables == NULL)
            exit(2);
    }
    memcpy(s->tables, c->definitions, c->sizes.definitions * 4);
    memcpy(s->tables + c->sizes.definitions, c->statements, c->sizes.statements * 4);
    memcpy(s->tables + c->sizes.definitions + c->sizes.statements, c->arguments, c->sizes.arguments * 4);
}

static bool is_same(const uint32_t *a, const uint32_t *b, size_t words)
{
    return words == 0 || memcmp(a, b, words * sizeof *a) == 0;
}

/* After 30, 31, 35, 36 and 38 the tables hold what was there before, which differs from call to call. */
static void test_again(const struct search *s, const struct call *c)
{
    const uint32_t *t = s->tables;
    if (memcmp(s->answer, c->answer, sizeof s->answer) != 0)
        stop(s, c, "repeated", "the same call gives the same answer");
    if (leaves_all(c->answer[0]))
        return;
    if (!is_same(t, c->definitions, c->sizes.definitions) ||
        !is_same(t + c->sizes.definitions, c->statements, c->sizes.statements) ||
        !is_same(t + c->sizes.definitions + c->sizes.statements, c->arguments, c->sizes.arguments))
        stop(s, c, "repeated", "the same call leaves the same tables");
}

static void count_answer(struct search *s, const struct call *c)
{
    uint64_t *counts = c->body ? s->bodies : s->files;
    counts[c->answer[0]]++;
}

static void do_case(struct search *s)
{
    struct call call;
    uint64_t roomy[ANSWER_NUMBERS];
    make_case(&s->maker, s->seed, s->number);
    s->lender.chance = stream(~s->seed, s->number);
    s->large += s->number % LARGE_EVERY == LARGE_AT;

    do_call(s, roomy_sizes(&s->maker), &call, "roomy");
    if (call.answer[0] >= 32 && call.answer[0] <= 34)
        stop(s, &call, "roomy", "no more records are needed than there are tokens");
    memcpy(roomy, call.answer, sizeof roomy);
    struct need need = need_of(&call, &s->maker.chance);
    give_back(&s->lender);

    struct sizes sizes = chosen_sizes(&s->maker.chance, s->maker.body, need);
    do_call(s, sizes, &call, "chosen");
    test_chosen(s, roomy, need, &call);
    count_answer(s, &call);
    remember(s, &call);
    give_back(&s->lender);

    do_call(s, sizes, &call, "repeated");
    test_again(s, &call);
    give_back(&s->lender);
}

static void print_counts(const struct search *s, uint64_t cases)
{
    printf("seed %" PRIu64 ": %" PRIu64 " cases, %" PRIu64 " of them large, %" PRIu64 " calls, no rule broken\n", s->seed,
           cases, s->large, s->calls);
    printf("number      files     bodies        all\n");
    for (int i = 0; i < NUMBERS; i++)
        if (s->files[i] + s->bodies[i] != 0)
            printf("%6d %10" PRIu64 " %10" PRIu64 " %10" PRIu64 "\n", i, s->files[i], s->bodies[i],
                   s->files[i] + s->bodies[i]);
}

/* A fault is a broken rule too: it names its case before the program ends. */
static void on_fault(int signal)
{
    char line[160];
    int length = snprintf(line, sizeof line, "seed %" PRIu64 " case %" PRIu64 ": signal %d: access outside what is lent\n",
                          running.seed, running.number, signal);
    if (write(STDERR_FILENO, line, (size_t)length) < 0)
        _exit(2);
    _exit(1);
}

static void catch_faults(void)
{
    static char stack[65536];
    stack_t own = {.ss_sp = stack, .ss_size = sizeof stack};
    struct sigaction action = {.sa_handler = on_fault, .sa_flags = SA_ONSTACK};
    if (sigaltstack(&own, NULL) != 0 || sigaction(SIGSEGV, &action, NULL) != 0 || sigaction(SIGBUS, &action, NULL) != 0)
        exit(2);
}

static uint64_t number_argument(const char *word)
{
    char *end;
    uint64_t n = strtoull(word, &end, 10);
    if (*word == '\0' || *end != '\0') {
        fprintf(stderr, "not a number: %s\n", word);
        exit(2);
    }
    return n;
}

int main(int words, char **word)
{
    uint64_t count, from = 0;
    bool guards = false;
    if (words < 3) {
        fprintf(stderr, "usage: faults SEED COUNT [--guards] [--from N]\n");
        return 2;
    }
    running.seed = number_argument(word[1]);
    count = number_argument(word[2]);
    for (int i = 3; i < words; i++) {
        if (strcmp(word[i], "--guards") == 0)
            guards = true;
        else if (strcmp(word[i], "--from") == 0 && i + 1 < words)
            from = number_argument(word[++i]);
        else
            return 2;
    }
    maker_open(&running.maker);
    lender_open(&running.lender, guards, running.seed);
    if (guards)
        catch_faults();
    for (running.number = from; running.number < from + count; running.number++)
        do_case(&running);
    print_counts(&running, count);
    lender_close(&running.lender);
    maker_close(&running.maker);
    free(running.tables);
    return 0;
}
