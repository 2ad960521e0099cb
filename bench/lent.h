/* What a strip is run on, at once or in slices. */
#ifndef LENT_H
#define LENT_H

#include "blocks.h"

enum { LOOP_BUDGET = 3000, IMAGE_ROOM = IMAGE_BYTES + 5 };

struct lent {
    uint8_t args[SLOT * PARAMETERS_MOST];
    size_t args_len;
    uint8_t memory[MEMORY_MOST + 1];
    size_t memory_len;
    uint8_t results[SLOT * RESULTS_MOST];
    size_t results_len;
    uint8_t image[IMAGE_ROOM];
    size_t image_len;
    uint32_t budget;
};

static void copy(struct lent *to, const struct lent *from)
{
    memcpy(to->args, from->args, sizeof to->args);
    memcpy(to->memory, from->memory, from->memory_len);
    memcpy(to->results, from->results, sizeof to->results);
    memcpy(to->image, from->image, sizeof to->image);
    to->args_len = from->args_len;
    to->memory_len = from->memory_len;
    to->results_len = from->results_len;
    to->image_len = from->image_len;
}

/* Whether a call left the same in both. */
static int same_left(const struct lent *x, const struct lent *y)
{
    return !memcmp(x->memory, y->memory, x->memory_len) && !memcmp(x->results, y->results, sizeof x->results)
        && !memcmp(x->image, y->image, sizeof x->image);
}

/* Seldom a large memory: it is copied and compared at every call. */
static size_t some_length(int calm)
{
    static const size_t sizes[] = { 0, 1, 7, 16, 100 };
    const size_t i = below(calm ? 200 : 8);
    return !below(200) ? MEMORY_MOST - below(2) * below(64) : i < sizeof sizes / sizeof *sizes ? sizes[i] : 1000;
}

static void put_depth(uint8_t *image, size_t depth)
{
    image[DEPTH_AT] = depth;
    image[DEPTH_AT + 1] = depth >> 8;
}

static size_t depth_in(const uint8_t *image)
{
    return image[DEPTH_AT] | image[DEPTH_AT + 1] << 8;
}

/* As much as the strip asks, but for a few times, and a memory of `memory_len` bytes. */
static void lend(const struct strip *s, struct lent *x)
{
    x->args_len = s->len < 8 ? 0 : SLOT * (s->bytes[5] % 17);
    memset(x->args, 0, sizeof x->args);
    for (size_t i = 0; i < x->args_len / SLOT; i++) {
        const uint8_t kind = 8 + i < s->len ? s->bytes[8 + i] : V128;
        for (int k = 0; k < (kind == I32 ? 4 : kind == I64 ? 8 : 16); k++)
            x->args[SLOT * i + k] = some_byte();
    }
    x->results_len = s->len < 8 ? 0 : SLOT * (s->bytes[7] % 5);
    memset(x->results, 0xEE, sizeof x->results);
    /* No two parts look alike, so that a load from another place is seen. */
    for (size_t i = 0; i < x->memory_len; i++)
        x->memory[i] = 151 * i + 29 * (i >> 8) + 83 * (i >> 16) + 7;
    memset(x->image, 0xEE, sizeof x->image);
    x->image_len = IMAGE_BYTES + below(IMAGE_ROOM - IMAGE_BYTES + 1);
    x->budget = !below(4) ? below(80) : s->len < 8 || s->bytes[3] == 1 ? 1000000 : LOOP_BUDGET;
    switch (below(64)) {
    case 0: x->args_len = SLOT * below(4); break;
    case 1: x->results_len = SLOT * below(4); break;
    case 2: x->args[below(x->args_len + 1)] ^= 1; break;
    case 3: x->memory_len = below(8) ? x->memory_len : MEMORY_MOST + 1; break;
    case 4: x->image_len = below(2) ? IMAGE_BYTES - 1 : below(IMAGE_BYTES); break;
    }
}

/* The doors of one side. */
struct doors {
    uint64_t (*run)(const uint8_t *, size_t, const uint8_t *, size_t, uint8_t *, size_t, uint8_t *, size_t, uint32_t);
    uint64_t (*start)(const uint8_t *, size_t, const uint8_t *, size_t, uint8_t *, size_t, uint8_t *, size_t, uint8_t *, size_t, uint32_t);
    uint64_t (*resume)(const uint8_t *, size_t, uint8_t *, size_t, uint8_t *, size_t, uint8_t *, size_t, uint32_t);
};

static uint64_t start(const struct doors *d, const struct strip *s, struct lent *x, uint32_t budget)
{
    return d->start(s->bytes, s->len, x->args, x->args_len, x->memory, x->memory_len, x->results, x->results_len, x->image, x->image_len,
                    budget);
}

static uint64_t resume(const struct doors *d, const struct strip *s, struct lent *x, uint32_t budget)
{
    return d->resume(s->bytes, s->len, x->memory, x->memory_len, x->results, x->results_len, x->image, x->image_len, budget);
}

static unsigned code_of(uint64_t a)
{
    return a & 0xFF;
}

static uint32_t steps_of(uint64_t a)
{
    return a >> 32;
}

/* One to three changes, by chance, to an image, or to the room or the memory that is lent with it; some of them leave it good. */
static void damage(const struct strip *s, struct lent *x)
{
    for (unsigned n = 1 + (below(4) ? 0 : below(3)); n; n--)
        switch (below(24)) {
        case 0: case 1: case 2: /* one of the first bytes */
            x->image[below(LOCALS_AT)] ^= 1 << below(8);
            break;
        case 3: case 4: /* the depth, one off, or in its other byte */
            put_depth(x->image, depth_in(x->image) + (below(8) ? 1 : 256) * (below(2) ? 1 : -1));
            break;
        case 5: case 6: case 7: /* another place */
            x->image[PLACE_AT] += 1 + below(8) - 2 * below(8);
            break;
        case 8: case 9: case 10: case 11: case 12: case 13: case 14: case 15: { /* any place, a few values that are all zero */
            const size_t at = below(s->len + 2);
            memset(x->image + PLACE_AT, 0, IMAGE_BYTES - PLACE_AT);
            x->image[PLACE_AT] = at;
            x->image[PLACE_AT + 1] = at >> 8;
            put_depth(x->image, below(2) ? 0 : below(below(4) ? 8 : STACK_MOST + 2));
            break;
        }
        case 16: case 17: case 18:
            x->image[LOCALS_AT + below(STACK_AT - LOCALS_AT)] ^= 1 << below(8);
            break;
        case 19: case 20: /* the lowest slots more often */
            x->image[STACK_AT + below(below(2) ? 4 * SLOT : IMAGE_BYTES - STACK_AT)] ^= 1 << below(8);
            break;
        case 21:
            x->image_len = below(4) ? IMAGE_BYTES - 1 : below(IMAGE_BYTES);
            break;
        case 22:
            if (below(2))
                x->results_len = SLOT * below(5);
            else
                x->memory_len = below(8) ? below(x->memory_len + 1) : MEMORY_MOST + 1;
            break;
        default: /* of no use to the strip */
            x->image[IMAGE_BYTES + below(IMAGE_ROOM - IMAGE_BYTES)] ^= 1;
        }
}

#endif
