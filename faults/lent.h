/* What is lent to a call: each list a block of exactly its size, so that an access outside is seen. */
#ifndef LENT_H
#define LENT_H

#include "maker.h"

enum part { TEXT, TOKENS, KEPT, DEFINITIONS, STATEMENTS, ARGUMENTS, ANSWER, PARTS };

/* The lengths, in words, of the four lists that are written. */
struct sizes {
    size_t kept, definitions, statements, arguments;
};

/* Where a block lies: on the heap, or in pages of its own with a forbidden page before and behind. */
struct area {
    uint8_t *first, *end;   /* the pages between the two forbidden ones */
    uint8_t *open, *shut;   /* those that may be used now */
    uint8_t *at;
    size_t bytes;
};

struct lender {
    bool guards;
    struct chance chance;
    struct area areas[PARTS];
};

struct call {
    bool body;
    uint32_t mode, edition;
    uint64_t start;
    uint8_t *text;
    size_t text_len;
    uint32_t *tokens;
    size_t tokens_len;
    uint32_t *kept, *definitions, *statements, *arguments;
    struct sizes sizes;
    uint64_t *answer;
    /* Word i of a lent list holds stain + i before the call. */
    uint32_t stain;
    /* Under memcheck: the lists that are written were marked as undefined before the call. */
    bool undefined;
};

void lender_open(struct lender *l, bool guards, uint64_t seed);
void lender_close(struct lender *l);

void lend(struct lender *l, const struct maker *m, struct sizes sizes, uint32_t stain, bool undefined,
          struct call *call);

/* Calls the library. */
void run_call(const struct call *call);

/* False if a byte next to a block has changed; only where there are guards. */
bool surroundings_kept(const struct lender *l);

void give_back(struct lender *l);

#endif
