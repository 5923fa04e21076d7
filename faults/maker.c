#include "maker.h"

#include <stdio.h>
#include <stdlib.h>
#include <string.h>

#include "kinds.h"

enum { ROOM_TOKENS = MOST_TOKENS + 64, ROOM_WORDS = 4 * ROOM_TOKENS + 8, ROOM_TEXT = MOST_TEXT + 4096 };

static const char *const SPELLED[KINDS] = {
    "", " ", "// a", "#include", "#define", "#", "macro", "fn", "test", "function", "event", "constant", "error",
    "jumptable", "jumptable__packed", "table", "takes", "returns", "view", "pure", "payable", "nonpayable", "indexed",
    "calldata", "memory", "storage", "=", "(", ")", "{", "}", "[", "]", "<", ">", ",", ":", "FREE_STORAGE_POINTER",
    "a", "l", "0x1", "op", "7", "\"s\"", "__F", "bool",
};

static const char *const PLAIN[] = {"a", "b", "x", "F", "G", "abc", "dead", "M1", "_", "go", "amount", "0", "1f"};
static const char *const BARE_TYPES[] = {"address", "bool", "string", "bytes", "uint", "int"};
static const char *const NEARLY[] = {"uint7", "bytes33", "uint08", "int264", "bytes0", "Bool", "uint2560", "addres",
                                     "addresss", "in", "byte", "uint0", "bytes01", "bytes3_", "strings", "Uint8",
                                     "uint264", "int257", "bool8", "uint4294967304", "bytes032"};
static const char *const LABELS[] = {"l", "go", "end", "uint256"};
/* Labels' names that are close to each other: in one byte, in case, as a prefix, in length or in zero bytes alone. */
static const struct token CLOSE[] = {
    {LABEL, 0, "a", 1}, {LABEL, 0, "b", 1}, {LABEL, 0, "A", 1}, {LABEL, 0, "aa", 2}, {LABEL, 0, "ab", 2},
    {LABEL, 0, "ba", 2}, {LABEL, 0, "\0a", 2}, {LABEL, 0, "a\0", 2}, {LABEL, 0, "step1", 5}, {LABEL, 0, "step2", 5},
    {LABEL, 0, "step10", 6}, {LABEL, 0, "step", 4}, {LABEL, 0, "step\0", 5}, {LABEL, 0, "\0\0\0\0step", 8}};
enum { CLOSE_NAMES = sizeof CLOSE / sizeof *CLOSE };
static const char *const STRINGS[] = {"\"s\"", "", "\"f(uint256)\"", "\"calldata\""};
static const char *const NO_TYPES[] = {"", "foo", "_"};
static const char *const BAD_LITERALS[] = {"", "0", "0x", "x1", "0X1", "1x1", "0xg", "0x1g", "0x1/", "0x1:", "0x@1",
                                           "0x`1", "0x1 ", "0x-1", "0x\xff", "00x1"};
enum { PUSH0 = 0x5f, PUSH32 = 0x7f };
static const uint8_t OPCODES[] = {0x00, 0x01, 0x15, 0x35, 0x52, 0x54, 0x56, 0x57, 0x5b, 0x5e, 0x5f, 0x80, 0x90, 0xfd,
                                  0xff};

#define ONE_OF(m, list) ((list)[below(&(m)->chance, sizeof(list) / sizeof *(list))])

static void *room(size_t bytes)
{
    void *at = malloc(bytes);
    if (at == NULL) {
        perror("malloc");
        exit(2);
    }
    return at;
}

void maker_open(struct maker *m)
{
    memset(m, 0, sizeof *m);
    m->tokens = room(ROOM_TOKENS * sizeof *m->tokens);
    m->pool = room(ROOM_TEXT);
    m->text = room(ROOM_TEXT);
    m->words = room(ROOM_WORDS * sizeof *m->words);
}

void maker_close(struct maker *m)
{
    free(m->tokens);
    free(m->pool);
    free(m->text);
    free(m->words);
}

/* Single tokens. */

static void put_token(struct maker *m, uint32_t kind, const char *own, size_t length, uint32_t extra)
{
    if (m->count == ROOM_TOKENS) {
        fprintf(stderr, "the maker has no room for another token\n");
        exit(2);
    }
    m->tokens[m->count++] = (struct token){kind, extra, own, (uint32_t)length};
}

static void put_own(struct maker *m, uint32_t kind, const char *own)
{
    put_token(m, kind, own, strlen(own), 0);
}

static void put(struct maker *m, uint32_t kind)
{
    put_own(m, kind, SPELLED[kind]);
}

/* Room for a text that is made up. */
static char *pooled(struct maker *m, size_t length)
{
    if (m->used + length > ROOM_TEXT) {
        fprintf(stderr, "the maker has no room for another text\n");
        exit(2);
    }
    char *own = m->pool + m->used;
    m->used += length;
    return own;
}

/* The name of a type, of any size; each of the nine forms as often as the others. */
static const char *type_name(struct maker *m)
{
    static const char *const SIZED[] = {"uint", "int", "bytes"};
    uint32_t form = below(&m->chance, 9), size = 1 + below(&m->chance, 32);
    if (form >= 3)
        return BARE_TYPES[form - 3];
    char *own = pooled(m, 8);
    snprintf(own, 8, "%s%u", SIZED[form], form == 2 ? size : 8 * size);
    return own;
}

/* The token of a type. Its text is mostly a type's name, but need not be one. */
static void put_type(struct maker *m)
{
    uint32_t roll = below(&m->chance, 100);
    put_own(m, PRIMITIVE, roll < 70 ? type_name(m) : roll < 85 ? ONE_OF(m, NEARLY) : ONE_OF(m, NO_TYPES));
}

/* What stands in a tested name's place and is refused. */
static void put_refused_name(struct maker *m)
{
    if (likely(&m->chance, 40))
        put_type(m);
    else
        put_own(m, IDENT, type_name(m));
}

/* A name; one that is tested is seldom a reserved one, and never in a large case: it would end the reading early. */
static void put_ident(struct maker *m, bool tested)
{
    uint32_t roll = below(&m->chance, 100);
    if (tested && roll < m->slip)
        put_refused_name(m);
    else if (!tested && roll < 12)
        put_own(m, IDENT, type_name(m));
    else if (roll < 20 + m->slip)
        put_own(m, IDENT, ONE_OF(m, NEARLY));
    else
        put_own(m, IDENT, ONE_OF(m, PLAIN));
}

/* A name that no other definition of the case has. */
static void put_fresh(struct maker *m)
{
    char *own = pooled(m, 8);
    int length = snprintf(own, 8, "m%u", m->serial++);
    put_token(m, IDENT, own, (size_t)length, 0);
}

static char digit(struct maker *m, uint32_t least)
{
    static const char DIGITS[] = "0123456789abcdefABCDEF";
    return DIGITS[least + below(&m->chance, 22 - least)];
}

/* A literal of exactly so many significant digits, with so many zeros before them. */
static void put_literal_of(struct maker *m, uint32_t zeros, uint32_t digits)
{
    char *own = pooled(m, 2 + zeros + digits);
    memcpy(own, "0x", 2);
    memset(own + 2, '0', zeros);
    for (uint32_t i = 0; i < digits; i++)
        own[2 + zeros + i] = digit(m, i == 0);
    put_token(m, LITERAL, own, 2 + zeros + digits, 0);
}

/* A literal of at most so many significant bytes. */
static void put_literal(struct maker *m, uint32_t most)
{
    struct chance *c = &m->chance;
    uint32_t digits = likely(c, 25) ? below(c, 65) : below(c, 5);
    if (digits > 2 * most)
        digits = 2 * most;
    uint32_t zeros = likely(c, 60) ? 0 : likely(c, 50) ? 1 : below(c, 65);
    if (zeros > 64 - digits)
        zeros = 64 - digits;
    if (zeros + digits == 0)
        zeros = 1;
    put_literal_of(m, zeros, digits);
}

/* A zero of any spelling: one digit to 64. */
static void put_zero(struct maker *m)
{
    static const uint8_t DIGITS[] = {1, 2, 2, 4, 64};
    put_literal_of(m, likely(&m->chance, 70) ? ONE_OF(m, DIGITS) : 1 + below(&m->chance, 64), 0);
}

/* Zeros with one other digit among them, the last as often as any. */
static void put_nearly_zero(struct maker *m)
{
    uint32_t length = 1 + below(&m->chance, 64), at = below(&m->chance, length);
    char *own = pooled(m, 2 + length);
    memcpy(own, "0x", 2);
    memset(own + 2, '0', length);
    own[2 + at] = digit(m, 1);
    put_token(m, LITERAL, own, 2 + length, 0);
}

static void put_opcode(struct maker *m, uint32_t byte)
{
    put_token(m, OPCODE, "op", 2, byte);
}

static uint32_t push_byte(struct maker *m)
{
    static const uint8_t USUAL[] = {0x60, 0x61, 0x63, 0x73, 0x7f};
    return likely(&m->chance, 70) ? ONE_OF(m, USUAL) : 0x60 + below(&m->chance, 32);
}

static void put_location(struct maker *m)
{
    put(m, CALLDATA + below(&m->chance, 3));
}

static void put_num(struct maker *m)
{
    static const uint32_t NUMBERS[] = {0, 1, 2, 7, 4294967295u};
    put_token(m, NUM, "7", 1, ONE_OF(m, NUMBERS));
}

/* A well-formed token of this kind. */
static void put_kind(struct maker *m, uint32_t kind)
{
    switch (kind) {
    case IDENT: put_ident(m, false); break;
    case LABEL: put_own(m, LABEL, ONE_OF(m, LABELS)); break;
    case LITERAL: put_literal(m, 32); break;
    case OPCODE: put_opcode(m, likely(&m->chance, 50) ? push_byte(m) : below(&m->chance, 256)); break;
    case NUM: put_num(m); break;
    case STR: put_own(m, STR, ONE_OF(m, STRINGS)); break;
    case PRIMITIVE: put_type(m); break;
    default: put(m, kind); break;
    }
}

/* Any kind but Eof. */
static void put_any(struct maker *m)
{
    put_kind(m, likely(&m->chance, 50) ? IDENT + below(&m->chance, KINDS - IDENT) : 1 + below(&m->chance, KINDS - 1));
}

/* Lists. */

static uint32_t some(struct maker *m)
{
    static const uint8_t COUNTS[] = {0, 1, 1, 2, 2, 3, 4};
    return ONE_OF(m, COUNTS);
}

static bool put_comma(struct maker *m)
{
    bool comma = likely(&m->chance, 60);
    if (comma)
        put(m, COMMA);
    return comma;
}

static void put_between(struct maker *m, uint32_t open, uint32_t close)
{
    put(m, open);
    put_ident(m, false);
    put(m, close);
}

static void put_call_list(struct maker *m)
{
    put(m, OPEN_PAREN);
    for (uint32_t n = some(m); n > 0; n--) {
        switch (below(&m->chance, 4)) {
        case 0: put_literal(m, 32); break;
        case 1: put_ident(m, false); break;
        case 2: put(m, CALLDATA); break;
        default: put_between(m, LEFT_ANGLE, RIGHT_ANGLE); break;
        }
        put_comma(m);
    }
    put(m, CLOSE_PAREN);
}

/* The list of a builtin or of a macro. Every second name since a Comma is tested. */
static void put_untyped_list(struct maker *m, bool builtin)
{
    bool odd = false;
    put(m, OPEN_PAREN);
    for (uint32_t n = some(m); n > 0; n--) {
        if (builtin && likely(&m->chance, 40)) {
            put_kind(m, likely(&m->chance, 50) ? STR : LITERAL);
        } else {
            if (likely(&m->chance, 20))
                put_location(m);
            put_ident(m, odd);
            odd = !odd;
        }
        if (put_comma(m))
            odd = false;
    }
    put(m, CLOSE_PAREN);
}

/* A builtin's list of pairs: the second name of each is tested. */
static void put_pairs_of_names(struct maker *m)
{
    put(m, OPEN_PAREN);
    for (uint32_t n = 1 + below(&m->chance, 3); n > 0; n--) {
        put_ident(m, false);
        if (likely(&m->chance, 20))
            put_kind(m, likely(&m->chance, 50) ? STR : LITERAL);
        if (likely(&m->chance, 20))
            put_location(m);
        put_ident(m, true);
        put_comma(m);
    }
    put(m, CLOSE_PAREN);
}

static void put_typed_list(struct maker *m, bool event)
{
    put(m, OPEN_PAREN);
    for (uint32_t n = some(m); n > 0; n--) {
        put_kind(m, PRIMITIVE);
        if (event && likely(&m->chance, 40))
            put(m, INDEXED);
        if (likely(&m->chance, 25))
            put_location(m);
        if (likely(&m->chance, 70)) {
            put_ident(m, true);
            put_comma(m);
        } else {
            /* Without a name and a Comma the next type would stand in a name's place. */
            put(m, COMMA);
        }
    }
    put(m, CLOSE_PAREN);
}

/* Bodies. */

static void put_push(struct maker *m, bool in_label)
{
    uint32_t byte = push_byte(m);
    put_opcode(m, byte);
    if (!in_label || m->sound)
        put_literal(m, byte - 0x5f);
    else if (likely(&m->chance, 60))
        put_literal(m, 32);
}

/* An item whose length is known without the rest of the program; a push in a label may lack its operand. */
static void put_plain_item(struct maker *m, bool in_label)
{
    switch (below(&m->chance, 4)) {
    case 0: put_literal(m, 32); break;
    case 1: put_opcode(m, ONE_OF(m, OPCODES)); break;
    case 2: put_push(m, in_label); break;
    default: put_ident(m, false); break;
    }
}

static void put_item(struct maker *m, bool in_label)
{
    uint32_t roll = below(&m->chance, 100);
    if (roll < 60) {
        put_plain_item(m, in_label);
    } else if (roll < 80) {
        put_ident(m, false);
        put_call_list(m);
    } else if (roll < 86) {
        put_between(m, OPEN_BRACKET, CLOSE_BRACKET);
    } else if (roll < 92) {
        put_between(m, LEFT_ANGLE, RIGHT_ANGLE);
    } else {
        put(m, BUILTIN);
        put_untyped_list(m, true);
    }
}

static void put_items(struct maker *m, bool in_label, bool plain, uint32_t most)
{
    for (uint32_t n = below(&m->chance, most + 1); n > 0; n--) {
        if (plain)
            put_plain_item(m, in_label);
        else
            put_item(m, in_label);
    }
}

/* Of large cases all bodies are sound: else mode 1 would end the reading early. */
static bool is_sound(struct maker *m)
{
    return m->slip == 0 || likely(&m->chance, 50);
}

/* So many labels with their items. In a sound body every name is another: they are taken from CLOSE in turn. */
static void put_groups(struct maker *m, uint32_t count, bool plain, uint32_t most)
{
    uint32_t first = below(&m->chance, CLOSE_NAMES), names = 1 + below(&m->chance, 6);
    for (uint32_t i = 0; i < count; i++) {
        uint32_t name = m->sound ? i : below(&m->chance, names);
        struct token t = CLOSE[(first + name) % CLOSE_NAMES];
        if (!m->sound && likely(&m->chance, 30))
            put_kind(m, LABEL);
        else
            put_token(m, LABEL, t.own, t.length, 0);
        put(m, COLON);
        put_items(m, true, plain, most);
    }
}

static void put_body(struct maker *m)
{
    static const uint8_t SIZES[] = {0, 1, 2, 3, 4, 6, 12};
    static const uint8_t GROUPS[] = {0, 0, 1, 1, 2, 3};
    bool plain = likely(&m->chance, 30);
    uint32_t most = ONE_OF(m, SIZES);
    m->sound = is_sound(m);
    put(m, OPEN_BRACE);
    put_items(m, false, plain, most);
    put_groups(m, ONE_OF(m, GROUPS), plain, most);
    put(m, CLOSE_BRACE);
}

/* A body of labels, more of them than others have and little in each: what mode 1 looks at. */
static void put_labelled_body(struct maker *m)
{
    static const uint8_t GROUPS[] = {1, 2, 2, 3, 4, 6, 12};
    m->sound = is_sound(m);
    put(m, OPEN_BRACE);
    put_groups(m, ONE_OF(m, GROUPS), true, 2);
    if (likely(&m->chance, 10))
        put_opcode(m, push_byte(m));
    put(m, CLOSE_BRACE);
}

/* Mostly an item with a zero: by itself, behind PUSH0 or another opcode, as an operand. PUSH32 takes any literal. */
static void put_zero_item(struct maker *m)
{
    switch (below(&m->chance, 8)) {
    case 0: put_opcode(m, PUSH0); put_zero(m); break;
    case 1: put_opcode(m, ONE_OF(m, OPCODES)); put_zero(m); break;
    case 2: put_opcode(m, push_byte(m)); put_zero(m); break;
    case 3: put_opcode(m, PUSH32); put_nearly_zero(m); break;
    case 4: put_nearly_zero(m); break;
    case 5: put_ident(m, false); break;
    default: put_zero(m); break;
    }
}

/* Labels that begin with a zero or not; now and then a push ends one, and has no operand. */
static void put_zeros_body(struct maker *m)
{
    put(m, OPEN_BRACE);
    for (uint32_t n = some(m); n > 0; n--)
        put_zero_item(m);
    for (uint32_t n = below(&m->chance, 3); n > 0; n--) {
        put_kind(m, LABEL);
        put(m, COLON);
        for (uint32_t items = some(m); items > 0; items--)
            put_zero_item(m);
        if (likely(&m->chance, 5))
            put_opcode(m, push_byte(m));
    }
    put(m, CLOSE_BRACE);
}

/* Files. */

static void put_number_of(struct maker *m, uint32_t word)
{
    if (likely(&m->chance, 30))
        return;
    put(m, word);
    put(m, OPEN_PAREN);
    put_num(m);
    put(m, CLOSE_PAREN);
}

static void put_macro_head(struct maker *m, uint32_t kind, bool fresh)
{
    put(m, DEFINE);
    put(m, kind);
    if (fresh)
        put_fresh(m);
    else
        put_ident(m, false);
    put_untyped_list(m, false);
    put(m, ASSIGN);
    put_number_of(m, TAKES);
    put_number_of(m, RETURNS);
}

static void put_macro(struct maker *m, uint32_t kind, bool fresh)
{
    put_macro_head(m, kind, fresh);
    put_body(m);
}

static void put_function(struct maker *m)
{
    put_typed_list(m, false);
    put(m, VIEW + below(&m->chance, 4));
    put(m, RETURNS);
    put_typed_list(m, false);
}

static void put_hex_name(struct maker *m)
{
    static const uint8_t LENGTHS[] = {1, 2, 3, 4, 64};
    uint32_t length = ONE_OF(m, LENGTHS);
    char *own = pooled(m, length);
    for (uint32_t i = 0; i < length; i++)
        own[i] = digit(m, 0);
    put_token(m, IDENT, own, length, 0);
}

static void put_table(struct maker *m, uint32_t kind)
{
    static const uint8_t OPTIONAL[] = {OPEN_PAREN, CLOSE_PAREN, ASSIGN};
    for (size_t i = 0; i < sizeof OPTIONAL; i++)
        if (likely(&m->chance, 70))
            put(m, OPTIONAL[i]);
    put(m, OPEN_BRACE);
    for (uint32_t n = some(m); n > 0; n--) {
        if (kind == CODE_TABLE)
            put_hex_name(m);
        else
            put_ident(m, false);
    }
    put(m, CLOSE_BRACE);
}

static void put_constant(struct maker *m)
{
    put(m, ASSIGN);
    put_kind(m, likely(&m->chance, 30) ? FREE_STORAGE_POINTER : LITERAL);
}

static void put_definition(struct maker *m)
{
    static const uint8_t WHAT[] = {INCLUDE, FUNCTION, EVENT, CONSTANT, ERROR, MACRO, MACRO, FN, TEST,
                                   JUMP_TABLE, JUMP_TABLE_PACKED, CODE_TABLE};
    uint32_t kind = ONE_OF(m, WHAT);
    if (kind == INCLUDE) {
        put(m, INCLUDE);
        put_kind(m, STR);
        return;
    }
    if (kind == MACRO || kind == FN || kind == TEST) {
        put_macro(m, kind, true);
        return;
    }
    put(m, DEFINE);
    put(m, kind);
    put_ident(m, false);
    switch (kind) {
    case FUNCTION: put_function(m); break;
    case EVENT: put_typed_list(m, true); break;
    case ERROR: put_typed_list(m, false); break;
    case CONSTANT: put_constant(m); break;
    default: put_table(m, kind); break;
    }
}

static void put_file(struct maker *m)
{
    static const uint8_t COUNTS[] = {0, 1, 1, 1, 2, 2, 3};
    uint32_t n = likely(&m->chance, 1) ? 12 : ONE_OF(m, COUNTS);
    while (n-- > 0)
        put_definition(m);
}

/* Laying out: the texts one after the other, something between them or nothing. */

static void add_text(struct maker *m, const char *own, size_t length)
{
    if (m->text_len + length > ROOM_TEXT) {
        fprintf(stderr, "the maker has no room for the text\n");
        exit(2);
    }
    if (length != 0)
        memcpy(m->text + m->text_len, own, length);
    m->text_len += length;
}

static void add_words(struct maker *m, const struct token *t)
{
    uint32_t *w = m->words + m->words_len;
    w[0] = t->kind;
    w[1] = (uint32_t)m->text_len;
    add_text(m, t->own, t->length);
    w[2] = (uint32_t)m->text_len;
    w[3] = t->extra;
    m->words_len += 4;
}

static void lay_out(struct maker *m, const char *between)
{
    m->text_len = 0;
    m->words_len = 0;
    for (size_t i = 0; i < m->count; i++) {
        add_words(m, &m->tokens[i]);
        add_text(m, between, strlen(between));
    }
    add_words(m, &(struct token){EOF_KIND, 0, "", 0});
}

static bool is_dropped(uint32_t kind)
{
    return kind == WHITESPACE || kind == COMMENT;
}

/* Puts white space and comments in, so that places and numbers of tokens differ. */
static void put_spaces(struct maker *m)
{
    static const struct token SPACES[] = {
        {WHITESPACE, 0, " ", 1}, {WHITESPACE, 0, "\n\t", 2}, {COMMENT, 0, "// a", 4}, {COMMENT, 0, "", 0}};
    for (size_t i = 0; i <= m->count; i++) {
        if (!likely(&m->chance, 15) || m->count == ROOM_TOKENS)
            continue;
        memmove(m->tokens + i + 1, m->tokens + i, (m->count - i) * sizeof *m->tokens);
        m->tokens[i++] = ONE_OF(m, SPACES);
        m->count++;
    }
}

static void lay_out_small(struct maker *m)
{
    static const char *const BETWEEN[] = {"", " ", "\n  "};
    if (likely(&m->chance, 40))
        put_spaces(m);
    lay_out(m, ONE_OF(m, BETWEEN));
    if (likely(&m->chance, 10))
        add_text(m, "rest", 4);
}

/* Mutations of tokens. */

static void drop_token(struct maker *m, size_t i)
{
    m->count--;
    memmove(m->tokens + i, m->tokens + i + 1, (m->count - i) * sizeof *m->tokens);
}

static void double_token(struct maker *m, size_t i)
{
    put_token(m, 0, "", 0, 0);
    memmove(m->tokens + i + 1, m->tokens + i, (m->count - 1 - i) * sizeof *m->tokens);
}

static void swap_tokens(struct maker *m, size_t i, size_t j)
{
    struct token t = m->tokens[i];
    m->tokens[i] = m->tokens[j];
    m->tokens[j] = t;
}

static void replace_token(struct maker *m, size_t i)
{
    put_any(m);
    m->tokens[i] = m->tokens[--m->count];
}

static void mutate(struct maker *m)
{
    if (m->count == 0) {
        put_any(m);
        return;
    }
    size_t i = below(&m->chance, (uint32_t)m->count);
    size_t next = i + 1 < m->count ? i + 1 : i;
    switch (below(&m->chance, 8)) {
    case 0: drop_token(m, i); break;
    case 1: double_token(m, i); break;
    case 2: swap_tokens(m, i, next); break;
    case 3: swap_tokens(m, i, below(&m->chance, (uint32_t)m->count)); break;
    case 4: m->count = i + 1; break;
    case 5: double_token(m, i); replace_token(m, i); break;
    default: replace_token(m, i); break;
    }
}

/* Mutations of words: one rule of Well formed is broken, or nearly. */

static uint32_t odd_word(struct maker *m)
{
    static const uint32_t ODD[] = {0, 1, 45, 46, 255, 256, 2147483647u, 2147483648u, 4294967294u, 4294967295u};
    return likely(&m->chance, 50) ? ONE_OF(m, ODD) : (uint32_t)draw(&m->chance);
}

static void spoil_range(struct maker *m, uint32_t *w)
{
    switch (below(&m->chance, 5)) {
    case 0: w[1] = w[2] + 1; break;
    case 1: w[2] = (uint32_t)m->text_len + 1; break;
    case 2: w[2] = w[1]; break;
    case 3: w[1] -= 1; break;
    default: w[1 + below(&m->chance, 2)] = odd_word(m); break;
    }
}

/* The words are no longer four a token. */
static void spoil_length(struct maker *m)
{
    if (likely(&m->chance, 50)) {
        m->words_len -= 1 + below(&m->chance, 3);
        return;
    }
    for (uint32_t n = 1 + below(&m->chance, 3); n > 0; n--)
        m->words[m->words_len++] = odd_word(m);
}

static void spoil_text(struct maker *m)
{
    if (m->text_len == 0)
        return;
    uint32_t at = below(&m->chance, (uint32_t)m->text_len);
    if (likely(&m->chance, 50))
        m->text_len = at;
    else
        m->text[at] = (uint8_t)draw(&m->chance);
}

static void spoil(struct maker *m)
{
    size_t tokens = m->words_len / 4;
    if (tokens == 0 || m->words_len % 4 != 0)
        return;
    uint32_t *w = m->words + 4 * below(&m->chance, (uint32_t)tokens);
    switch (below(&m->chance, 9)) {
    case 0: w[below(&m->chance, 4)] = odd_word(m); break;
    case 1: w[0] = below(&m->chance, KINDS + 1); break;
    case 2: w[0] = KINDS + below(&m->chance, 3); break;
    case 3: spoil_range(m, w); break;
    case 4: w[3] = odd_word(m); break;
    case 5: spoil_length(m); break;
    case 6: spoil_text(m); break;
    case 7: m->words_len -= 4; break;
    default: w[0] = EOF_KIND; break;
    }
}

/* Starts, in and outside. */

static uint64_t any_start(struct maker *m)
{
    static const uint64_t FAR[] = {4294967295u, 4294967296u, 4294967297u, 9223372036854775808u, UINT64_MAX};
    size_t tokens = m->words_len / 4;
    if (likely(&m->chance, 10))
        return ONE_OF(m, FAR);
    return below(&m->chance, (uint32_t)tokens + 3);
}

/* The place of one of the braces, by chance; any start if there is none. */
static uint64_t brace_start(struct maker *m)
{
    uint64_t place = 0, found = 0, seen = 0;
    for (size_t i = 0; i + 4 <= m->words_len; i += 4) {
        if (m->words[i] == OPEN_BRACE && below(&m->chance, (uint32_t)++seen) == 0)
            found = place;
        place += !is_dropped(m->words[i]);
    }
    return seen == 0 ? any_start(m) : found;
}

/* Families. */

static void random_words(struct maker *m)
{
    struct chance *c = &m->chance;
    m->family = "random words";
    m->text_len = below(c, 30);
    for (size_t i = 0; i < m->text_len; i++)
        m->text[i] = (uint8_t)draw(c);
    m->words_len = likely(c, 80) ? 4 * below(c, 12) : below(c, 48);
    uint32_t span = likely(c, 50) ? KINDS : 4;
    for (size_t i = 0; i < m->words_len; i++)
        m->words[i] = likely(c, 20) ? odd_word(m) : below(c, span);
    m->body = likely(c, 50);
    m->start = any_start(m);
}

static void random_kinds(struct maker *m)
{
    m->family = "random kinds";
    m->body = likely(&m->chance, 60);
    if (likely(&m->chance, 70))
        put(m, m->body ? OPEN_BRACE : DEFINE);
    for (uint32_t n = below(&m->chance, 16); n > 0; n--)
        put_any(m);
    lay_out_small(m);
    m->start = likely(&m->chance, 60) ? 0 : any_start(m);
    if (likely(&m->chance, 20))
        spoil_text(m);
}

static void put_some(struct maker *m)
{
    if (!likely(&m->chance, 30))
        return;
    for (uint32_t n = below(&m->chance, 5); n > 0; n--)
        put_any(m);
}

/* A body, perhaps among other tokens. */
static void put_bodies(struct maker *m)
{
    put_some(m);
    m->body = true;
    for (size_t i = 0; i < m->count; i++)
        m->start += !is_dropped(m->tokens[i].kind);
    put_body(m);
    put_some(m);
}

static void put_either(struct maker *m)
{
    if (likely(&m->chance, 50))
        put_bodies(m);
    else
        put_file(m);
}

static void bodies(struct maker *m)
{
    m->family = "bodies";
    put_bodies(m);
    lay_out_small(m);
}

static void files(struct maker *m)
{
    m->family = "files";
    put_file(m);
    lay_out_small(m);
}

static void mutated_tokens(struct maker *m)
{
    m->family = "mutated tokens";
    put_either(m);
    for (uint32_t n = 1 + below(&m->chance, 3); n > 0; n--)
        mutate(m);
    lay_out_small(m);
}

static void put_bad_literal(struct maker *m)
{
    if (m->count == 0 || !likely(&m->chance, 20))
        return;
    const char *own = ONE_OF(m, BAD_LITERALS);
    struct token t = {LITERAL, 0, own, (uint32_t)strlen(own)};
    m->tokens[below(&m->chance, (uint32_t)m->count)] = t;
}

static void mutated_words(struct maker *m)
{
    m->family = "mutated words";
    put_either(m);
    put_bad_literal(m);
    lay_out_small(m);
    for (uint32_t n = 1 + below(&m->chance, 2); n > 0; n--)
        spoil(m);
}

static void pushes(struct maker *m)
{
    m->family = "pushes";
    m->body = true;
    put(m, OPEN_BRACE);
    if (likely(&m->chance, 40)) {
        put_kind(m, LABEL);
        put(m, COLON);
    }
    for (uint32_t n = 1 + below(&m->chance, 3); n > 0; n--) {
        uint32_t byte = 0x5f + below(&m->chance, 34), bytes = byte - 0x5f;
        uint32_t digits = likely(&m->chance, 80) ? 2 * bytes - below(&m->chance, 2) : 2 * bytes + 1;
        digits = digits > 64 ? 64 : digits;
        uint32_t zeros = below(&m->chance, 65 - digits);
        put_opcode(m, byte);
        put_literal_of(m, zeros + digits == 0 ? 1 : zeros, digits);
    }
    put(m, CLOSE_BRACE);
    lay_out_small(m);
}

/* For editions: zeros, and what is nearly zero, wherever a literal may stand. */
static void zeros(struct maker *m)
{
    m->family = "zeros";
    m->body = true;
    put_zeros_body(m);
    if (likely(&m->chance, 20))
        mutate(m);
    lay_out_small(m);
}

/* For 7: a builtin's list in a body, or any definition; many tested names are those of types. */
static void types(struct maker *m)
{
    m->family = "types";
    m->slip = 40;
    m->body = likely(&m->chance, 60);
    if (m->body) {
        put(m, OPEN_BRACE);
        put(m, BUILTIN);
        put_pairs_of_names(m);
        put(m, CLOSE_BRACE);
    } else {
        put_definition(m);
    }
    if (likely(&m->chance, 20))
        mutate(m);
    lay_out_small(m);
}

static void repeated_names(struct maker *m)
{
    m->family = "repeated names";
    for (uint32_t n = 1 + below(&m->chance, 4); n > 0; n--)
        put_macro(m, MACRO + below(&m->chance, 3), likely(&m->chance, 50));
    if (likely(&m->chance, 30))
        put(m, POUND);
    if (likely(&m->chance, 30))
        put_definition(m);
    lay_out_small(m);
}

/* For mode 1: labels whose names stand again, or nearly, in one body or in the next; pushes with and without literals. */
static void labels(struct maker *m)
{
    m->family = "labels";
    m->body = likely(&m->chance, 60);
    for (uint32_t n = m->body ? 1 : 1 + below(&m->chance, 3); n > 0; n--) {
        if (!m->body)
            put_macro_head(m, MACRO + below(&m->chance, 3), likely(&m->chance, 80));
        put_labelled_body(m);
    }
    if (likely(&m->chance, 30))
        mutate(m);
    lay_out_small(m);
}

static void starts(struct maker *m)
{
    m->family = "starts";
    put_either(m);
    if (likely(&m->chance, 20))
        mutate(m);
    lay_out_small(m);
    m->body = true;
    m->start = likely(&m->chance, 60) ? brace_start(m) : any_start(m);
}

/* Large cases: the largest sizes, and one more. */

static void put_times(struct maker *m, size_t times, uint32_t kind)
{
    while (times-- > 0)
        put_kind(m, kind);
}

static void put_pairs(struct maker *m, size_t times, uint32_t first, uint32_t second)
{
    while (times-- > 0) {
        put_kind(m, first);
        put_kind(m, second);
    }
}

static void put_opcodes(struct maker *m, size_t times)
{
    put(m, OPEN_BRACE);
    while (times-- > 0)
        put_opcode(m, ONE_OF(m, OPCODES));
    put(m, CLOSE_BRACE);
}

static void put_braced(struct maker *m, size_t times, uint32_t kind)
{
    put(m, OPEN_BRACE);
    put_times(m, times, kind);
    put(m, CLOSE_BRACE);
}

static void put_long_ident(struct maker *m, size_t length)
{
    char *own = pooled(m, length);
    memset(own, 'a', length);
    put(m, OPEN_BRACE);
    put_token(m, IDENT, own, length, 0);
    put(m, CLOSE_BRACE);
}

static void put_call_of(struct maker *m, uint32_t first, size_t arguments, uint32_t kind)
{
    put(m, OPEN_BRACE);
    put(m, first);
    put(m, OPEN_PAREN);
    put_times(m, arguments, kind);
    put(m, CLOSE_PAREN);
    put(m, CLOSE_BRACE);
}

/* A body of so many labels of two tokens, every name another; the last one may be that of the label in the middle. */
static void put_labels(struct maker *m, size_t count, bool again)
{
    put(m, OPEN_BRACE);
    for (size_t i = 0; i < count; i++) {
        char *own = pooled(m, 8);
        int length = snprintf(own, 8, "l%zu", again && i + 1 == count ? i / 2 : i);
        put_token(m, LABEL, own, (size_t)length, 0);
        put(m, COLON);
    }
    put(m, CLOSE_BRACE);
}

/* Macros of so many labels, the same in each. All earlier names are asked for each macro: fewer than would fit, or a
 * checked run takes too long. */
static void put_macros(struct maker *m, size_t times, size_t count)
{
    while (times-- > 0) {
        put(m, DEFINE);
        put(m, MACRO);
        put_fresh(m);
        put(m, OPEN_PAREN);
        put(m, CLOSE_PAREN);
        put(m, ASSIGN);
        put_labels(m, count, false);
    }
}

/* One label of so many pushes, each with its literal. */
static void put_label_pushes(struct maker *m, size_t times)
{
    put(m, OPEN_BRACE);
    put_kind(m, LABEL);
    put(m, COLON);
    while (times-- > 0) {
        put_opcode(m, 0x60);
        put_own(m, LITERAL, "0xff");
    }
    put(m, CLOSE_BRACE);
}

static void put_zeros(struct maker *m, size_t times)
{
    put(m, OPEN_BRACE);
    while (times-- > 0)
        put_own(m, LITERAL, "0x0");
    put(m, CLOSE_BRACE);
}

static void put_big_table(struct maker *m, uint32_t kind, size_t entries)
{
    put(m, DEFINE);
    put(m, kind);
    put(m, IDENT);
    put(m, OPEN_BRACE);
    while (entries-- > 0)
        put(m, IDENT);
    put(m, CLOSE_BRACE);
}

static void put_random_bulk(struct maker *m)
{
    put(m, OPEN_BRACE);
    while (m->count < 40000)
        put_plain_item(m, false);
    put(m, CLOSE_BRACE);
}

static void put_random_file(struct maker *m)
{
    while (m->count < 30000)
        put_definition(m);
}

/* The text's rest, up to this length. */
static void pad_text(struct maker *m, size_t length)
{
    if (m->text_len < length)
        memset(m->text + m->text_len, ' ', length - m->text_len);
    m->text_len = length;
}

static void large(struct maker *m, uint64_t shape)
{
    size_t text = 0;
    m->family = "large";
    m->slip = 0;
    m->body = true;
    switch (shape % 24) {
    case 0: put_braced(m, 0, OPCODE); text = MOST_TEXT; break;
    case 1: put_braced(m, 0, OPCODE); text = MOST_TEXT + 1; break;
    case 2: put_long_ident(m, MOST_TEXT - 2); break;
    case 3: put_opcodes(m, MOST_TOKENS - 3); break;
    case 4: put_braced(m, MOST_TOKENS - 2, IDENT); break;
    case 5: put_braced(m, MOST_TOKENS - 3, IDENT); break;
    case 6: put_times(m, MOST_TOKENS - 3, WHITESPACE); put_braced(m, 0, OPCODE); break;
    case 7: put_call_of(m, IDENT, MOST_TOKENS - 6, CALLDATA); break;
    case 8: put_pairs(m, 32767, INCLUDE, STR); m->body = false; break;
    case 9: put_pairs(m, 32768, INCLUDE, STR); m->body = false; break;
    case 10: put_macros(m, 1200, 0); m->body = false; break;
    case 11: put_big_table(m, CODE_TABLE, MOST_TOKENS - 6); m->body = false; break;
    case 12: put_big_table(m, JUMP_TABLE, MOST_TOKENS - 6); m->body = false; text = MOST_TEXT; break;
    case 13: put(m, OPEN_BRACE); put_pairs(m, 32766, LABEL, COLON); put(m, CLOSE_BRACE); break;
    case 14: put_random_bulk(m); break;
    case 15: put_random_file(m); m->body = false; break;
    case 16: put_call_of(m, BUILTIN, MOST_TOKENS - 6, STR); break;
    case 17: put_times(m, MOST_TOKENS - 1, COMMENT); m->body = false; break;
    case 18: put_labels(m, 32766, false); break;
    case 19: put_labels(m, 32766, true); break;
    case 20: put_macros(m, 1000, 4); m->body = false; break;
    case 21: put_label_pushes(m, 32765); break;
    case 22: put_zeros(m, MOST_TOKENS - 3); break;
    default: put_times(m, MOST_TOKENS, WHITESPACE); m->body = false; break;
    }
    lay_out(m, "");
    if (text != 0)
        pad_text(m, text);
}

static void small(struct maker *m)
{
    uint32_t roll = below(&m->chance, 100);
    if (roll < 8)
        random_words(m);
    else if (roll < 18)
        random_kinds(m);
    else if (roll < 33)
        bodies(m);
    else if (roll < 49)
        files(m);
    else if (roll < 63)
        mutated_tokens(m);
    else if (roll < 74)
        mutated_words(m);
    else if (roll < 77)
        pushes(m);
    else if (roll < 80)
        zeros(m);
    else if (roll < 84)
        types(m);
    else if (roll < 88)
        repeated_names(m);
    else if (roll < 95)
        labels(m);
    else
        starts(m);
}

/* Mostly one of the two modes there are. */
static uint32_t any_mode(struct maker *m)
{
    static const uint32_t OTHER[] = {2, 3, 255, 256, 257, 65536, 65537, 2147483648u, 2147483649u, 4294967295u};
    uint32_t roll = below(&m->chance, 100);
    return roll < 55 ? STRICT_MODE : roll < 96 ? PLAIN_MODE : ONE_OF(m, OTHER);
}

/* Mostly one of the two editions there are. */
static uint32_t any_edition(struct maker *m)
{
    static const uint32_t OTHER[] = {0, 3, 4, 255, 256, 257, 258, 65537, 65538, 2147483649u, 2147483650u, 4294967295u};
    uint32_t roll = below(&m->chance, 100);
    return roll < 55 ? SECOND_EDITION : roll < 96 ? FIRST_EDITION : ONE_OF(m, OTHER);
}

void make_case(struct maker *m, uint64_t seed, uint64_t number)
{
    m->chance = stream(seed, number);
    m->count = 0;
    m->used = 0;
    m->serial = 0;
    m->body = false;
    m->start = 0;
    m->slip = 2;
    m->sound = false;
    m->mode = any_mode(m);
    m->edition = any_edition(m);
    if (number % LARGE_EVERY == LARGE_AT)
        large(m, number / LARGE_EVERY + 9 * seed);
    else
        small(m);
}
