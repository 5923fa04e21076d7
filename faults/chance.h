/* One source of chance: the same seed gives the same numbers on every machine. */
#ifndef CHANCE_H
#define CHANCE_H

#include <stdbool.h>
#include <stddef.h>
#include <stdint.h>

struct chance {
    uint64_t state;
};

/* splitmix64. */
static inline uint64_t draw(struct chance *c)
{
    uint64_t z = c->state += 0x9e3779b97f4a7c15u;
    z = (z ^ (z >> 30)) * 0xbf58476d1ce4e5b9u;
    z = (z ^ (z >> 27)) * 0x94d049bb133111ebu;
    return z ^ (z >> 31);
}

/* Every case has its own stream, so that it can be made again without those before it. */
static inline struct chance stream(uint64_t seed, uint64_t number)
{
    struct chance c = {seed * 0xd1342543de82ef95u + number};
    c.state = draw(&c) ^ number;
    return c;
}

/* A number below n, which is not 0. */
static inline uint32_t below(struct chance *c, uint32_t n)
{
    return (uint32_t)(((draw(c) >> 32) * n) >> 32);
}

static inline bool likely(struct chance *c, uint32_t percent)
{
    return below(c, 100) < percent;
}

#endif
