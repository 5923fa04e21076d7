#include "checks.h"

#include <stdio.h>
#include <stdlib.h>
#include <string.h>

#include "kinds.h"
#include "memcheck.h"

/* The door. */

static bool is_hex(uint8_t byte)
{
    return (byte >= '0' && byte <= '9')
        || (byte >= 'a' && byte <= 'f')
        || (byte >= 'A' && byte <= 'F');
}

/* 0x and 1 to 64 hex digits. */
static bool is_literal(const uint8_t *own, size_t length)
{
    if (length < 3 || length > 66 || own[0] != '0' || own[1] != 'x')
        return false;
    for (size_t i = 2; i < length; i++)
        if (!is_hex(own[i]))
            return false;
    return true;
}

static bool extra_is_good(uint32_t kind, uint32_t extra)
{
    if (kind == OPCODE)
        return extra <= 255;
    return kind == NUM || extra == 0;
}

static bool own_is_good(const uint8_t *text, uint32_t kind, uint32_t start, uint32_t end)
{
    if (kind == IDENT || kind == LABEL)
        return start < end;
    return kind != LITERAL || is_literal(text + start, end - start);
}

static bool token_is_good(const struct call *c, const uint32_t *word, uint32_t previous_end, bool last)
{
    uint32_t kind = word[0], start = word[1], end = word[2];
    if (kind >= KINDS || (kind == EOF_KIND) != last)
        return false;
    if (start > end || end > c->text_len || start < previous_end)
        return false;
    return own_is_good(c->text, kind, start, end) && extra_is_good(kind, word[3]);
}

/* The first bad token's number; how many there are, if none is bad. */
static size_t first_bad(const struct call *c, size_t tokens)
{
    uint32_t previous_end = 0;
    for (size_t i = 0; i < tokens; i++) {
        if (!token_is_good(c, c->tokens + TOKEN * i, previous_end, i + 1 == tokens))
            return i;
        previous_end = c->tokens[TOKEN * i + 2];
    }
    return tokens;
}

static bool is_kept(const struct call *c, size_t token)
{
    uint32_t kind = c->tokens[TOKEN * token];
    return kind != WHITESPACE && kind != COMMENT;
}

static size_t count_kept(const struct call *c, size_t tokens)
{
    size_t count = 0;
    for (size_t i = 0; i < tokens; i++)
        count += is_kept(c, i);
    return count;
}

static bool is_edition(uint32_t edition)
{
    return edition == FIRST_EDITION || edition == SECOND_EDITION;
}

/* Only a body has an edition. */
static bool has_no_edition(const struct call *c)
{
    return c->body && !is_edition(c->edition);
}

struct door door_of(const struct call *c)
{
    size_t tokens = c->tokens_len / TOKEN;
    if (c->mode > STRICT_MODE)
        return (struct door){36, 0, 0};
    if (has_no_edition(c))
        return (struct door){38, 0, 0};
    if (c->text_len > MOST_TEXT || c->tokens_len % TOKEN != 0 || tokens == 0 || tokens > MOST_TOKENS)
        return (struct door){30, 0, 0};
    size_t bad = first_bad(c, tokens);
    if (bad != tokens)
        return (struct door){30, bad, 0};
    size_t kept = count_kept(c, tokens);
    if (c->sizes.kept < kept)
        return (struct door){35, kept, kept};
    if (c->body && c->start >= kept)
        return (struct door){31, c->start, kept};
    return (struct door){0, 0, kept};
}

bool leaves_all(uint64_t number)
{
    return number == 30 || number == 31 || number == 35 || number == 36 || number == 38;
}

/* The numbers of the table that this entry can give in this mode and edition. 2, 3, 9 and 11 belong to things outside
 * bodies. */
static bool number_is_known(const struct call *c, uint64_t number)
{
    if (number == 22)
        return c->mode == STRICT_MODE;
    if (number == 36)
        return c->mode > STRICT_MODE;
    if (number == 38)
        return has_no_edition(c);
    if (c->body)
        return number <= 1 || (number >= 4 && number <= 8) || number == 10 || number == 12 || number == 13 ||
               number == 30 || number == 31 || (number >= 33 && number <= 35);
    return number <= 13 || number == 20 || number == 21 || number == 30 || (number >= 32 && number <= 35);
}

/* Words left alone. */

/* Under memcheck a word that was marked undefined and then written, even with its old value, is defined. */
static bool still_undefined(const uint32_t *from, size_t bytes)
{
    uint8_t bits[512];
    const uint8_t *at = (const uint8_t *)from;
    while (bytes > 0) {
        size_t some = bytes < sizeof bits ? bytes : sizeof bits;
        if (VALGRIND_GET_VBITS(at, bits, some) != 1)
            return true;
        for (size_t i = 0; i < some; i++)
            if (bits[i] != 0xff)
                return false;
        at += some;
        bytes -= some;
    }
    return true;
}

static bool untouched(const struct call *c, const uint32_t *list, size_t from, size_t length)
{
    size_t bytes = (length - from) * sizeof *list;
    if (c->undefined) {
        if (!still_undefined(list + from, bytes))
            return false;
        VALGRIND_MAKE_MEM_DEFINED(list + from, bytes);
    }
    for (size_t i = from; i < length; i++)
        if (list[i] != c->stain + (uint32_t)i)
            return false;
    return true;
}

static bool all_untouched(const struct call *c)
{
    return untouched(c, c->kept, 0, c->sizes.kept) && untouched(c, c->definitions, 0, c->sizes.definitions) &&
           untouched(c, c->statements, 0, c->sizes.statements) && untouched(c, c->arguments, 0, c->sizes.arguments);
}

/* Words written. */

static bool is_defined(const void *at, size_t bytes)
{
    (void)at;
    return bytes == 0 || VALGRIND_CHECK_MEM_IS_DEFINED(at, bytes) == 0;
}

static bool tables_are_defined(const struct call *c)
{
    return is_defined(c->definitions, c->sizes.definitions * 4) && is_defined(c->statements, c->sizes.statements * 4) &&
           is_defined(c->arguments, c->sizes.arguments * 4);
}

static bool is_zero(const uint32_t *list, size_t from, size_t length)
{
    for (size_t i = from; i < length; i++)
        if (list[i] != 0)
            return false;
    return true;
}

static bool tables_are_zero(const struct call *c)
{
    return is_zero(c->definitions, 0, c->sizes.definitions) && is_zero(c->statements, 0, c->sizes.statements) &&
           is_zero(c->arguments, 0, c->sizes.arguments);
}

static bool kept_is_right(const struct call *c, size_t kept_count)
{
    size_t place = 0;
    if (!is_defined(c->kept, kept_count * 4))
        return false;
    for (size_t i = 0; i < c->tokens_len / TOKEN; i++)
        if (is_kept(c, i) && c->kept[place++] != i)
            return false;
    return untouched(c, c->kept, kept_count, c->sizes.kept);
}

/* Records. */

struct counts {
    uint64_t definitions, statements, arguments;
};

static struct counts counts_of(const struct call *c)
{
    const uint64_t *a = c->answer;
    return c->body ? (struct counts){0, a[2], a[3]} : (struct counts){a[2], a[3], a[4]};
}

static bool is_range(const uint32_t *first_end, size_t kept_count)
{
    return first_end[0] <= first_end[1] && first_end[1] <= kept_count;
}

/* Some records, from a first one on, of those there are. */
static bool is_run(uint32_t first, uint32_t run, uint64_t count)
{
    return (uint64_t)first + run <= count;
}

static uint32_t kind_at(const struct call *c, size_t place)
{
    return c->tokens[TOKEN * c->kept[place]];
}

static bool has_kind(const struct call *c, uint32_t place, size_t kept_count, uint32_t kind)
{
    return place < kept_count && kind_at(c, place) == kind;
}

static bool definition_is_good(const struct call *c, const uint32_t *d, size_t kept_count, struct counts n)
{
    if (d[0] < 1 || d[0] > 11 || !is_range(d + 2, kept_count))
        return false;
    return has_kind(c, d[1], kept_count, d[0] == 1 ? STR : IDENT) &&
           has_kind(c, d[2], kept_count, d[0] == 1 ? INCLUDE : DEFINE) && is_run(d[4], d[5], n.arguments) &&
           is_run(d[6], d[7], n.arguments) && is_run(d[8], d[9], n.statements);
}

/* Request [7]: the bytes from the start of its first token to the end of its last one. They lie in the text, and behind
 * those of the definition before it. */
static bool text_is_good(const struct call *c, const uint32_t *d, size_t kept_count, uint32_t previous_end)
{
    if (d[2] >= d[3] || d[3] > kept_count)
        return false;
    const uint32_t *first = c->tokens + TOKEN * c->kept[d[2]], *last = c->tokens + TOKEN * c->kept[d[3] - 1];
    return d[12] == first[1] && d[13] == last[2] && previous_end <= d[12] && d[12] <= d[13] && d[13] <= c->text_len;
}

static bool statement_is_good(const struct call *c, const uint32_t *s, size_t kept_count, struct counts n)
{
    static const uint8_t NAMED[] = {0, LITERAL, OPCODE, IDENT, IDENT, LABEL, IDENT, IDENT, BUILTIN};
    if (s[0] < 1 || s[0] > (c->body ? 8 : 9) || !is_range(s + 1, kept_count))
        return false;
    if (s[0] != 9 && !has_kind(c, s[7], kept_count, NAMED[s[0]]))
        return false;
    return (s[0] == 5 || s[4] == 0) && is_run(s[3], s[4], n.statements) && is_run(s[5], s[6], n.arguments);
}

static bool is_place_or_none(uint32_t place, size_t kept_count)
{
    return place < kept_count || place == NONE;
}

static bool argument_is_good(const uint32_t *a, size_t kept_count)
{
    if (a[0] < 1 || a[0] > 6 || !is_range(a + 5, kept_count) || a[3] > 1 || a[4] > 3)
        return false;
    if (a[0] > 1 && (a[3] != 0 || a[4] != 0 || a[1] != NONE || a[2] == NONE))
        return false;
    return is_place_or_none(a[1], kept_count) && is_place_or_none(a[2], kept_count);
}

static bool counts_fit(const struct call *c, struct counts n)
{
    return n.definitions <= c->sizes.definitions / DEFINITION && n.statements <= c->sizes.statements / STATEMENT &&
           n.arguments <= c->sizes.arguments / ARGUMENT;
}

static bool rest_is_zero(const struct call *c, struct counts n)
{
    return is_zero(c->definitions, n.definitions * DEFINITION, c->sizes.definitions) &&
           is_zero(c->statements, n.statements * STATEMENT, c->sizes.statements) &&
           is_zero(c->arguments, n.arguments * ARGUMENT, c->sizes.arguments);
}

static bool records_are_good(const struct call *c, size_t kept_count, struct counts n)
{
    for (uint64_t i = 0; i < n.definitions; i++)
        if (!definition_is_good(c, c->definitions + DEFINITION * i, kept_count, n))
            return false;
    for (uint64_t i = 0; i < n.statements; i++)
        if (!statement_is_good(c, c->statements + STATEMENT * i, kept_count, n))
            return false;
    for (uint64_t i = 0; i < n.arguments; i++)
        if (!argument_is_good(c->arguments + ARGUMENT * i, kept_count))
            return false;
    return true;
}

static bool texts_are_good(const struct call *c, size_t kept_count, struct counts n)
{
    uint32_t previous_end = 0;
    for (uint64_t i = 0; i < n.definitions; i++) {
        const uint32_t *d = c->definitions + DEFINITION * i;
        if (!text_is_good(c, d, kept_count, previous_end))
            return false;
        previous_end = d[13];
    }
    return true;
}

/* The plain length, from the records. */

static uint32_t pushed_bytes(const struct call *c, const uint32_t *s)
{
    uint32_t byte = c->tokens[TOKEN * c->kept[s[7]] + 3];
    return s[0] == 2 && byte >= 0x60 && byte <= 0x7f ? byte - 0x5f : 0;
}

static uint32_t significant_bytes(const struct call *c, uint32_t place)
{
    const uint32_t *word = c->tokens + TOKEN * c->kept[place];
    uint32_t at = word[1] + 2;
    while (at < word[2] && c->text[at] == '0')
        at++;
    return at == word[2] ? 1 : (word[2] - at + 1) / 2;
}

static bool is_zero_literal(const struct call *c, uint32_t place)
{
    const uint32_t *word = c->tokens + TOKEN * c->kept[place];
    for (uint32_t at = word[1] + 2; at < word[2]; at++)
        if (c->text[at] != '0')
            return false;
    return true;
}

/* Of a literal that is no push's operand: in edition 2 one byte pushes a zero, however many digits it has. */
static uint32_t literal_bytes(const struct call *c, uint32_t place)
{
    if (c->edition == SECOND_EDITION && is_zero_literal(c, place))
        return 1;
    return 1 + significant_bytes(c, place);
}

/* A push's operand is the next record: a label's inner records end at the next label's. */
static uint64_t plain_length(const struct call *c, uint64_t statements)
{
    uint64_t length = 0;
    for (uint64_t i = 0; i < statements; i++) {
        const uint32_t *s = c->statements + STATEMENT * i;
        uint32_t pushed = pushed_bytes(c, s);
        if (pushed != 0) {
            const uint32_t *operand = s + STATEMENT;
            if (++i == statements || operand[0] != 1 || significant_bytes(c, operand[7]) > pushed)
                return NONE;
            length += 1 + pushed;
            continue;
        }
        switch (s[0]) {
        case 1: length += literal_bytes(c, s[7]); break;
        case 2: length += 1; break;
        case 3: length += 3; break;
        case 5: length += 1; break;
        default: return NONE;
        }
    }
    return length;
}

/* Strict reading, from the records: what mode 1 asks of a body that it accepts. */

struct name {
    const uint8_t *own;
    size_t length;
};

static struct name name_at(const struct call *c, size_t place)
{
    const uint32_t *word = c->tokens + TOKEN * c->kept[place];
    return (struct name){c->text + word[1], word[2] - word[1]};
}

static int by_name(const void *one, const void *other)
{
    const struct name *a = one, *b = other;
    if (a->length != b->length)
        return a->length < b->length ? -1 : 1;
    return memcmp(a->own, b->own, a->length);
}

/* A value push has its literal directly behind it, which fits: in a label as in the macro part. */
static bool pushes_are_whole(const struct call *c, const uint32_t *records, uint64_t count)
{
    for (uint64_t i = 0; i < count; i++) {
        const uint32_t *s = records + STATEMENT * i, *behind = s + STATEMENT;
        uint32_t pushed = pushed_bytes(c, s);
        if (pushed == 0)
            continue;
        if (i + 1 == count || behind[0] != 1 || behind[7] != s[7] + 1 || significant_bytes(c, behind[7]) > pushed)
            return false;
    }
    return true;
}

/* No two labels have the same name: sorted, they would stand next to each other. */
static bool labels_differ(const struct call *c, const uint32_t *records, uint64_t count)
{
    bool differ = true;
    size_t labels = 0;
    struct name *names = malloc((count + 1) * sizeof *names);
    if (names == NULL) {
        perror("malloc");
        exit(2);
    }
    for (uint64_t i = 0; i < count; i++)
        if (records[STATEMENT * i] == 5)
            names[labels++] = name_at(c, records[STATEMENT * i + 7]);
    qsort(names, labels, sizeof *names, by_name);
    for (size_t i = 1; i < labels; i++)
        differ = differ && by_name(names + i - 1, names + i) != 0;
    free(names);
    return differ;
}

static const char *broken_strict_body(const struct call *c, const uint32_t *records, uint64_t count)
{
    if (!pushes_are_whole(c, records, count))
        return "in mode 1 every value push of an accepted body has its literal";
    return labels_differ(c, records, count) ? NULL : "in mode 1 no two labels of an accepted body have the same name";
}

/* Of a file the bodies of macros, fns and tests. */
static const char *broken_strict(const struct call *c, struct counts n)
{
    const char *rule = NULL;
    if (c->body)
        return broken_strict_body(c, c->statements, n.statements);
    for (uint64_t i = 0; rule == NULL && i < n.definitions; i++) {
        const uint32_t *d = c->definitions + DEFINITION * i;
        if (d[0] >= 6 && d[0] <= 8)
            rule = broken_strict_body(c, c->statements + STATEMENT * (size_t)d[8], d[9]);
    }
    return rule;
}

/* The Label here has the name of an earlier one of its body. */
static bool repeats_label(const struct call *c, size_t place)
{
    struct name own = name_at(c, place), other;
    if (kind_at(c, place) != LABEL)
        return false;
    while (place-- > 0 && kind_at(c, place) != OPEN_BRACE) {
        other = name_at(c, place);
        if (kind_at(c, place) == LABEL && by_name(&own, &other) == 0)
            return true;
    }
    return false;
}

/* Which type a name is: each of the names there are is spelled and compared. */

struct told {
    uint64_t type, size;
};

static bool is_spelled(struct name own, const char *word)
{
    return own.length == strlen(word) && memcmp(own.own, word, own.length) == 0;
}

static struct told bare_type(struct name own)
{
    static const struct {
        const char *word;
        struct told told;
    } BARE[] = {{"address", {TYPE_ADDRESS, 0}}, {"bool", {TYPE_BOOL, 0}},   {"string", {TYPE_STRING, 0}},
                {"bytes", {TYPE_BYTES, 0}},     {"uint", {TYPE_UINT, 256}}, {"int", {TYPE_INT, 256}}};
    for (size_t i = 0; i < sizeof BARE / sizeof *BARE; i++)
        if (is_spelled(own, BARE[i].word))
            return BARE[i].told;
    return (struct told){NO_TYPE, 0};
}

/* The word with one of the 32 sizes behind it; 0 if it is none of them. */
static uint64_t size_behind(struct name own, const char *word, unsigned step)
{
    char sized[16];
    for (unsigned size = step; size <= 32 * step; size += step) {
        snprintf(sized, sizeof sized, "%s%u", word, size);
        if (is_spelled(own, sized))
            return size;
    }
    return 0;
}

static struct told type_of(struct name own)
{
    uint64_t bits = size_behind(own, "uint", 8), signed_bits = size_behind(own, "int", 8);
    uint64_t bytes = size_behind(own, "bytes", 1);
    if (bits != 0)
        return (struct told){TYPE_UINT, bits};
    if (signed_bits != 0)
        return (struct told){TYPE_INT, signed_bits};
    return bytes != 0 ? (struct told){TYPE_BYTES_N, bytes} : bare_type(own);
}

/* After 7: a type's name stands at the cursor or a PrimitiveType, whatever its text. */
static const char *broken_telling(const struct call *c, size_t place)
{
    struct told told = type_of(name_at(c, place));
    uint32_t kind = kind_at(c, place);
    if (kind != PRIMITIVE && (kind != IDENT || told.type == NO_TYPE))
        return "the cursor of 7 is a type's name or a PrimitiveType";
    if (c->answer[5] != told.type || c->answer[6] != told.size)
        return "7 tells the type and the size of the text at its cursor";
    return NULL;
}

/* Answers. */

static const char *broken_acceptance(const struct call *c, size_t kept_count)
{
    struct counts n = counts_of(c);
    uint64_t cursor = c->answer[1];
    if (!counts_fit(c, n))
        return "the counts of an accepted call fit the tables";
    if (!rest_is_zero(c, n))
        return "the words beyond the records are zero";
    if (!records_are_good(c, kept_count, n))
        return "a record's numbers, ranges and places are ones there are";
    if (!texts_are_good(c, kept_count, n))
        return "a definition's last words are the bytes from its first token to its last, one definition behind the other";
    if (!c->body && cursor != kept_count - 1)
        return "an accepted file's cursor is the place of Eof";
    if (c->body && (cursor <= c->start || cursor >= kept_count || kind_at(c, cursor - 1) != CLOSE_BRACE))
        return "an accepted body's cursor is one past its brace";
    if (c->body && c->answer[4] != plain_length(c, n.statements))
        return "the plain length is that of the statements in this edition";
    return c->mode == STRICT_MODE ? broken_strict(c, n) : NULL;
}

/* 32 to 34: more records are needed than the table has. */
static bool is_too_small(const struct call *c)
{
    switch (c->answer[0]) {
    case 32: return c->answer[1] > c->sizes.definitions / DEFINITION;
    case 33: return c->answer[1] > c->sizes.statements / STATEMENT;
    default: return c->answer[1] > c->sizes.arguments / ARGUMENT;
    }
}

static const char *broken_refusal(const struct call *c, size_t kept_count)
{
    const uint64_t *a = c->answer;
    if (a[2] != 0 || a[3] != 0 || a[4] != 0)
        return "the counts and the length of a refusal are 0";
    if (!tables_are_zero(c))
        return "the tables after a refusal are zero";
    if (a[0] >= 32)
        return is_too_small(c) ? NULL : "a table called too small has fewer records than needed";
    if (a[1] >= kept_count)
        return "the cursor of 1 to 22 is the place of a kept token";
    if (a[0] == 7)
        return broken_telling(c, a[1]);
    if (a[0] == 20 && kind_at(c, a[1]) != IDENT)
        return "the cursor of 20 is a name";
    if (a[0] == 21 && kind_at(c, a[1]) != POUND)
        return "the cursor of 21 is Pound";
    if (a[0] == 22 && !repeats_label(c, a[1]))
        return "the cursor of 22 is a Label named like an earlier one of its body";
    return NULL;
}

static bool inputs_kept(const struct call *c, const struct maker *m)
{
    return (m->text_len == 0 || memcmp(c->text, m->text, m->text_len) == 0) &&
           (m->words_len == 0 || memcmp(c->tokens, m->words, m->words_len * sizeof *m->words) == 0);
}

static const char *broken_at_door(const struct call *c, struct door door)
{
    const uint64_t *a = c->answer;
    if (a[0] != door.number || a[1] != door.cursor || a[2] != 0 || a[3] != 0 || a[4] != 0)
        return "36, 38, 30, 35 and 31 are given in this order, with their cursors";
    return all_untouched(c) ? NULL : "after 30, 31, 35, 36 and 38 nothing lent has changed";
}

const char *broken_rule(const struct call *c, const struct maker *m)
{
    struct door door = door_of(c);
    uint64_t number;
    if (!is_defined(c->answer, ANSWER_NUMBERS * sizeof *c->answer))
        return "all seven numbers of the answer are written";
    number = c->answer[0];
    if (!number_is_known(c, number))
        return "the number is one of the table, and of this entry, mode and edition";
    if (number != 7 && (c->answer[5] != 0 || c->answer[6] != 0))
        return "type and size are 0 unless the number is 7";
    if (!inputs_kept(c, m))
        return "text and tokens are only read";
    if (door.number != 0)
        return broken_at_door(c, door);
    if (leaves_all(number))
        return "30, 31, 35, 36 and 38 are given only where their rules say so";
    if (!kept_is_right(c, door.kept_count))
        return "the kept list has the numbers of the kept tokens, its words beyond are untouched";
    if (!tables_are_defined(c))
        return "every word of the tables is written";
    return number == 0 ? broken_acceptance(c, door.kept_count) : broken_refusal(c, door.kept_count);
}

/* Digests: FNV-1a by words. */

static uint64_t mixed(uint64_t sum, const void *at, size_t bytes)
{
    const uint8_t *byte = at;
    for (size_t i = 0; i < bytes; i++)
        sum = (sum ^ byte[i]) * 0x100000001b3u;
    return sum;
}

uint64_t digest(const struct call *c)
{
    uint64_t sum = mixed(0xcbf29ce484222325u, c->answer, ANSWER_NUMBERS * sizeof *c->answer);
    sum = mixed(sum, c->text, c->text_len);
    sum = mixed(sum, c->tokens, c->tokens_len * 4);
    sum = mixed(sum, c->kept, c->sizes.kept * 4);
    sum = mixed(sum, c->definitions, c->sizes.definitions * 4);
    sum = mixed(sum, c->statements, c->sizes.statements * 4);
    return mixed(sum, c->arguments, c->sizes.arguments * 4);
}
