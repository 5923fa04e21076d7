#include "sizing.h"

#include "kinds.h"

struct sizes roomy_sizes(const struct maker *m)
{
    size_t tokens = m->words_len / TOKEN;
    return (struct sizes){tokens, m->body ? 0 : tokens / 2 * DEFINITION, tokens * STATEMENT, tokens * ARGUMENT};
}

static size_t less(size_t words, size_t by)
{
    return words < by ? 0 : words - by;
}

static size_t chosen_table(struct chance *c, size_t records, size_t width)
{
    size_t exact = records * width;
    switch (below(c, 12)) {
    case 0: return less(exact, 1);
    case 1: return exact + 1;
    case 2: return less(exact, width);
    case 3: return exact + width - 1;
    case 4: return exact + width;
    case 5: return below(c, (uint32_t)(exact + width));
    case 6: return below(c, (uint32_t)(2 * width));
    case 7: return 0;
    case 8: return exact + below(c, 200);
    default: return exact;
    }
}

/* Mostly enough: else nothing but 35 would be seen. */
static size_t chosen_kept(struct chance *c, size_t kept)
{
    switch (below(c, 24)) {
    case 0: return less(kept, 1);
    case 1: return below(c, (uint32_t)kept + 1);
    case 2: return 0;
    case 3: return kept + 1;
    case 4: return kept + below(c, 40);
    default: return kept;
    }
}

/* Half of the cases have most of their tables exactly full: with three free choices few would be accepted. */
struct sizes chosen_sizes(struct chance *c, bool body, struct need n)
{
    bool tight = likely(c, 50);
    struct sizes s = {chosen_kept(c, n.kept), n.definitions * DEFINITION, n.statements * STATEMENT,
                      n.arguments * ARGUMENT};
    if (!tight || likely(c, 20))
        s.definitions = chosen_table(c, n.definitions, DEFINITION);
    if (!tight || likely(c, 20))
        s.statements = chosen_table(c, n.statements, STATEMENT);
    if (!tight || likely(c, 20))
        s.arguments = chosen_table(c, n.arguments, ARGUMENT);
    if (body)
        s.definitions = 0;
    return s;
}
