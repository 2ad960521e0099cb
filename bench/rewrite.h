/* The rewriter (document 01): every number in its shortest form, all else as it is. */
#ifndef REWRITE_H
#define REWRITE_H

#include <string.h>

#include "decode.h"

/* Bytes that are written, or where `to` is NULL only counted. */
struct shortened {
    uint8_t *to;
    size_t len;
};

static void keep(struct shortened *t, const uint8_t *bytes, size_t n)
{
    if (t->to)
        memcpy(t->to + t->len, bytes, n);
    t->len += n;
}

static void keep_byte(struct shortened *t, uint8_t b)
{
    keep(t, &b, 1);
}

/* Seven bits a byte, until no other bit is set. */
static void shorten_unsigned(struct shortened *t, uint32_t n)
{
    for (; 0x7F < n; n >>= 7)
        keep_byte(t, 0x80 | (n & 0x7F));
    keep_byte(t, n);
}

/* The same until what is left has room in seven bits with its sign. */
static void shorten_signed(struct shortened *t, int64_t n)
{
    for (; n < -0x40 || 0x3F < n; n >>= 7)
        keep_byte(t, 0x80 | (n & 0x7F));
    keep_byte(t, n & 0x7F);
}

static void shorten_instruction(struct shortened *t, const struct instruction *in)
{
    if (in->op < VECTOR)
        keep_byte(t, in->op);
    else {
        keep_byte(t, PREFIX);
        shorten_unsigned(t, in->op - VECTOR);
    }
    switch (rows[in->op].immediates) {
    case INDEX:
    case LABEL_INDEX:
        shorten_unsigned(t, in->index);
        break;
    case BLOCK_TYPE:
        keep_byte(t, in->type);
        break;
    case WORD:
        shorten_signed(t, (int32_t)in->number);
        break;
    case QUAD:
        shorten_signed(t, (int64_t)in->number);
        break;
    case MEMARG:
    case MEMARG_LANE:
        shorten_unsigned(t, in->exponent);
        shorten_unsigned(t, in->index);
        if (rows[in->op].immediates == MEMARG_LANE)
            keep_byte(t, in->lane);
        break;
    case LANE_INDEX:
        keep_byte(t, in->lane);
        break;
    case SIXTEEN:
    case SHUFFLE:
        keep(t, in->bytes, 16);
    }
}

/* Of a strip that the check passes: its last byte is its `end`. Answers the length. */
static size_t shorten_all(const uint8_t *s, size_t len, uint8_t *out)
{
    struct shortened t = { out, 0 };
    struct instruction in = { 0 };
    size_t at = 8 + s[5] + s[6] + s[7], place;
    keep(&t, s, at);
    for (; at < len && !decode(2, s, len, at, &in, &place); at = in.end)
        shorten_instruction(&t, &in);
    return t.len;
}

/* The length is where a run has its steps. */
static uint64_t plain_rewrite(const uint8_t *s, size_t len, uint8_t *out, size_t out_len)
{
    const uint64_t check = plain_check(s, len);
    if (check != answer(DONE, 0, 0))
        return check;
    const size_t n = shorten_all(s, len, NULL);
    if (out_len < n)
        return answer(SMALL, 0, 0);
    shorten_all(s, len, out);
    return answer(DONE, 0, n);
}

#endif
