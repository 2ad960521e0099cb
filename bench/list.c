/* The listing of a strip that the check passes (requests C-11 and C-13): a line an instruction, with the kinds that are known on the
   stack before it. */
#include <stdio.h>
#include <string.h>

#include "names.h"
#include "typing.h"

/* Text that is written, or where `to` is NULL only counted. */
struct text {
    uint8_t *to;
    size_t len;
};

static void put(struct text *t, const char *s, size_t n)
{
    if (t->to)
        memcpy(t->to + t->len, s, n);
    t->len += n;
}

static void put_byte(struct text *t, char c)
{
    if (t->to)
        t->to[t->len] = c;
    t->len++;
}

static void put_decimal(struct text *t, uint64_t n)
{
    char digits[20];
    size_t first = sizeof digits;
    do
        digits[--first] = '0' + n % 10;
    while (n /= 10);
    put(t, digits + first, sizeof digits - first);
}

/* The least number's magnitude is no number of its own width: it is taken without a sign. */
static void put_signed(struct text *t, int64_t n)
{
    if (n < 0)
        put_byte(t, '-');
    put_decimal(t, n < 0 ? 0 - (uint64_t)n : (uint64_t)n);
}

static void put_field(struct text *t, uint64_t n)
{
    put_byte(t, ' ');
    put_decimal(t, n);
}

static void put_kinds(struct text *t, const uint8_t *kinds, size_t depth)
{
    put_byte(t, '[');
    for (size_t i = 0; i < depth; i++) {
        if (i)
            put_byte(t, ' ');
        switch (kinds[i]) {
        case I32: put(t, "i32", 3); break;
        case I64: put(t, "i64", 3); break;
        default: put(t, "v128", 4);
        }
    }
    put_byte(t, ']');
}

/* In the order of the file, each with a blank before it. */
static void put_immediates(struct text *t, const struct instruction *in)
{
    switch (rows[in->op].immediates) {
    case INDEX:
    case LABEL_INDEX:
        put_field(t, in->index);
        break;
    case BLOCK_TYPE:
        put_field(t, in->type);
        break;
    case WORD:
        put_byte(t, ' ');
        put_signed(t, (int32_t)in->number);
        break;
    case QUAD:
        put_byte(t, ' ');
        put_signed(t, (int64_t)in->number);
        break;
    case MEMARG:
        put_field(t, in->exponent);
        put_field(t, in->index);
        break;
    case MEMARG_LANE:
        put_field(t, in->exponent);
        put_field(t, in->index);
        put_field(t, in->lane);
        break;
    case LANE_INDEX:
        put_field(t, in->lane);
        break;
    case SIXTEEN:
    case SHUFFLE:
        for (int i = 0; i < 16; i++)
            put_field(t, in->bytes[i]);
    }
}

/* Values go; in dead code as many of them as are known. */
static void lower(struct typing *t, size_t count)
{
    t->depth = t->depth < t->floor + count ? t->floor : t->depth - count;
}

/* What an instruction does to the kinds; the check has found the ones that it takes. Answers whether it was the last one. */
static int moved(struct typing *t, const struct instruction *in)
{
    const struct row *row = &rows[in->op];
    switch (in->op) {
    case BLOCK:
    case LOOP:
    case END:
    case BR:
    case BR_IF:
    case LOCAL_TEE:
        return typed(2, t, in) == TRAILING;
    case DROP:
    case LOCAL_SET:
        lower(t, 1);
        return 0;
    case LOCAL_GET:
        t->kinds[t->depth++] = t->strip[8 + in->index];
        return 0;
    }
    lower(t, row->taken);
    if (row->leaves[0])
        t->kinds[t->depth++] = row->leaves[0];
    return 0;
}

/* Answers the length of the listing. */
static size_t written(const uint8_t *s, size_t len, uint8_t *out)
{
    struct text text = { out, 0 };
    struct room room;
    struct typing t = begin(s, &room, NULL);
    for (size_t at = t.frames[0].body;;) {
        struct instruction in;
        size_t place;
        decode(2, s, len, at, &in, &place);
        put_decimal(&text, at);
        put_byte(&text, ' ');
        put_kinds(&text, t.kinds, t.depth);
        put_byte(&text, ' ');
        put(&text, names[in.op].text, names[in.op].len);
        put_immediates(&text, &in);
        put_byte(&text, '\n');
        if (moved(&t, &in))
            return text.len;
        at = in.end;
    }
}

/* The room is asked about before the first byte is written. */
uint64_t plain_list(const uint8_t *s, size_t len, uint8_t *out, size_t out_len)
{
    const uint64_t check = plain_check(s, len);
    if (check != answer(DONE, 0, 0))
        return check;
    const size_t n = written(s, len, NULL);
    if (out_len < n)
        return answer(SMALL, 0, 0);
    written(s, len, out);
    return answer(DONE, 0, n);
}

size_t plain_listing(const uint8_t *s, size_t len, uint8_t out[LISTING_MOST])
{
    const uint64_t a = plain_list(s, len, out, LISTING_MOST);
    if (a & 0xFF)
        return sprintf((char *)out, "%u %u\n", (unsigned)(a & 0xFF), (unsigned)(a >> 8 & 0xFFFFFF));
    return a >> 32;
}
