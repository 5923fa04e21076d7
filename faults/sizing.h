/* Table sizes for a case. */
#ifndef SIZING_H
#define SIZING_H

#include "lent.h"

/* The records that a case needs, as far as they are known. */
struct need {
    size_t kept, definitions, statements, arguments;
};

/* Room that always suffices: a record is at least one token, a definition at least two. */
struct sizes roomy_sizes(const struct maker *m);

/* Exactly right, a word or a record off, odd, small, none or large; by chance. */
struct sizes chosen_sizes(struct chance *c, bool body, struct need need);

#endif
