/* Makes cases: a text, a word list, the entry to be called, its mode and, of a body, its edition and its start. */
#ifndef MAKER_H
#define MAKER_H

#include "chance.h"

struct token {
    uint32_t kind, extra;
    const char *own;
    uint32_t length;
};

struct maker {
    struct chance chance;
    /* The tokens as they are put together, and room for texts that are made up. */
    struct token *tokens;
    size_t count;
    char *pool;
    size_t used;
    unsigned serial;
    uint32_t slip; /* how many tested names of a hundred are refused */
    bool sound; /* the labels of the body at hand have names of their own, and their pushes literals that fit */
    /* The case. */
    const char *family;
    bool body;
    uint32_t mode, edition;
    uint64_t start;
    uint8_t *text;
    size_t text_len;
    uint32_t *words;
    size_t words_len;
};

void maker_open(struct maker *m);
void maker_close(struct maker *m);

/* Every so many cases one has a list or a text near the largest sizes. */
enum { LARGE_EVERY = 20000, LARGE_AT = 19 };

/* The case of this number; the same seed and number give the same case. */
void make_case(struct maker *m, uint64_t seed, uint64_t number);

#endif
