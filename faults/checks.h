/* Document 01's rules for an answer, with those of the requests that are done, tested without the library. */
#ifndef CHECKS_H
#define CHECKS_H

#include "lent.h"

/* What the door has to answer: 36, 38, 30, 35 or 31 with its cursor; 0 if it lets the call through. */
struct door {
    unsigned number;
    uint64_t cursor;
    size_t kept_count;
};

struct door door_of(const struct call *call);

/* The rule that the call has broken, or NULL. `m` holds the inputs as they were before. */
const char *broken_rule(const struct call *call, const struct maker *m);

/* 30, 31, 35, 36 and 38 leave all that is lent as it was. */
bool leaves_all(uint64_t number);

/* A number over the answer and all lent contents. */
uint64_t digest(const struct call *call);

#endif
