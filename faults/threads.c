/*
 * The same calls from several threads at once, each with its own lists: every call has to leave what it leaves when
 * there is one thread.
 *
 *   threads SEED COUNT
 *
 * Each thread makes all COUNT cases and begins at another one, so that different cases are under way together, then
 * again from the first one on, so that the same case is. Status 1 if a call differs from that of the single thread, or
 * breaks a rule of document 01.
 */
#define _GNU_SOURCE
#include <inttypes.h>
#include <pthread.h>
#include <stdio.h>
#include <stdlib.h>
#include <string.h>

#include "checks.h"
#include "sizing.h"

enum { MOST_THREADS = 4 };

struct worker {
    pthread_t thread;
    pthread_barrier_t *barrier;
    uint64_t seed, count, first;
    uint64_t *digests;
};

static struct need needed(const struct call *c)
{
    const uint64_t *a = c->answer;
    struct need n = {door_of(c).kept_count, 1, 2, 2};
    if (a[0] != 0)
        return n;
    return c->body ? (struct need){n.kept, 0, a[2], a[3]} : (struct need){n.kept, a[2], a[3], a[4]};
}

/* The second call's sizes follow from the first one's answer, so that has to be a sound one. */
static void call_and_test(struct call *c, const struct maker *m, uint64_t seed, uint64_t number)
{
    run_call(c);
    const char *rule = broken_rule(c, m);
    if (rule != NULL) {
        fprintf(stderr, "seed %" PRIu64 " case %" PRIu64 ": broken: %s\n", seed, number, rule);
        exit(1);
    }
}

/* Digest of both calls of a case: with room for all, and with sizes chosen by chance. */
static uint64_t case_digest(struct maker *m, struct lender *l, uint64_t seed, uint64_t number)
{
    struct call call;
    make_case(m, seed, number);
    uint32_t stain = (uint32_t)draw(&m->chance) | 1;
    lend(l, m, roomy_sizes(m), stain, false, &call);
    call_and_test(&call, m, seed, number);
    uint64_t sum = digest(&call);
    struct sizes sizes = chosen_sizes(&m->chance, m->body, needed(&call));
    give_back(l);
    lend(l, m, sizes, stain, false, &call);
    call_and_test(&call, m, seed, number);
    sum = sum * 31 + digest(&call);
    give_back(l);
    return sum;
}

static void *work(void *argument)
{
    struct worker *w = argument;
    struct maker maker;
    struct lender lender;
    maker_open(&maker);
    lender_open(&lender, false, w->seed);
    if (w->barrier != NULL)
        pthread_barrier_wait(w->barrier);
    for (uint64_t i = 0; i < w->count; i++) {
        uint64_t number = (w->first + i) % w->count;
        w->digests[number] = case_digest(&maker, &lender, w->seed, number);
    }
    lender_close(&lender);
    maker_close(&maker);
    return NULL;
}

static uint64_t *room_for(uint64_t count)
{
    uint64_t *digests = calloc(count, sizeof *digests);
    if (digests == NULL)
        exit(2);
    return digests;
}

static bool is_same(const struct worker *w, const uint64_t *single, unsigned threads)
{
    for (uint64_t i = 0; i < w->count; i++) {
        if (w->digests[i] != single[i]) {
            fprintf(stderr, "seed %" PRIu64 " case %" PRIu64 ": differs with %u threads\n", w->seed, i, threads);
            return false;
        }
    }
    return true;
}

/* All threads at once; `apart` is the distance between the cases that they begin with. */
static bool run_threads(unsigned threads, uint64_t seed, uint64_t count, uint64_t apart, const uint64_t *single)
{
    struct worker workers[MOST_THREADS];
    pthread_barrier_t barrier;
    bool same = true;
    pthread_barrier_init(&barrier, NULL, threads);
    for (unsigned i = 0; i < threads; i++) {
        workers[i] = (struct worker){.barrier = &barrier, .seed = seed, .count = count, .first = i * apart,
                                     .digests = room_for(count)};
        if (pthread_create(&workers[i].thread, NULL, work, &workers[i]) != 0)
            exit(2);
    }
    for (unsigned i = 0; i < threads; i++) {
        pthread_join(workers[i].thread, NULL);
        same = is_same(&workers[i], single, threads) && same;
        free(workers[i].digests);
    }
    pthread_barrier_destroy(&barrier);
    return same;
}

int main(int words, char **word)
{
    static const unsigned THREADS[] = {2, MOST_THREADS};
    struct worker alone = {0};
    bool same = true;
    if (words != 3) {
        fprintf(stderr, "usage: threads SEED COUNT\n");
        return 2;
    }
    alone.seed = strtoull(word[1], NULL, 10);
    alone.count = strtoull(word[2], NULL, 10);
    alone.digests = room_for(alone.count);
    work(&alone);
    for (size_t i = 0; i < sizeof THREADS / sizeof *THREADS; i++) {
        same = run_threads(THREADS[i], alone.seed, alone.count, alone.count / THREADS[i], alone.digests) && same;
        same = run_threads(THREADS[i], alone.seed, alone.count, 0, alone.digests) && same;
    }
    free(alone.digests);
    if (same)
        printf("seed %" PRIu64 ": %" PRIu64 " cases, two calls each: the same with one, two and four threads\n", alone.seed,
               alone.count);
    return same ? 0 : 1;
}
