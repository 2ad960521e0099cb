/* The machine between two instructions, and its image (requests C-14, C-15). */
#ifndef MACHINE_H
#define MACHINE_H

#include <string.h>

#include "lanes.h"
#include "walk.h"

/* A block that is open: where a branch to it carries on, and how. */
struct label {
    union slot *under; /* the values under it end here */
    uint32_t to;
    uint8_t carries; /* values that the branch brings along */
    uint8_t stays;   /* a loop is open after it, a block is not */
};

struct machine {
    size_t at;
    size_t depth;
    size_t blocks;
    union slot locals[PARAMETERS_MOST + LOCALS_MOST]; /* those that are not declared stay zero */
    union slot stack[STACK_MOST];
    struct label labels[BLOCKS_MOST];
};

static inline uint32_t number_at(const uint8_t *bytes, size_t at, size_t count)
{
    uint32_t n = 0;
    while (count--)
        n = n << 8 | bytes[at + count];
    return n;
}

static inline void put_number_at(uint8_t *bytes, size_t at, size_t count, uint32_t n)
{
    for (; count--; n >>= 8)
        bytes[at++] = n;
}

/* So many slots of these kinds, one after the other: no unused byte is other than zero. */
static inline int formed(const uint8_t *slots, const uint8_t *kinds, size_t count)
{
    for (size_t i = 0; i < count; i++)
        for (size_t k = kinds[i] == I32 ? 4 : kinds[i] == I64 ? 8 : 16; k < SLOT; k++)
            if (slots[SLOT * i + k])
                return 0;
    return 1;
}

/* All are looked at, so that a compiler takes many at a time. */
static inline int all_zero(const uint8_t *bytes, size_t count)
{
    uint8_t any = 0;
    for (size_t i = 0; i < count; i++)
        any |= bytes[i];
    return !any;
}

/* Mark and version. */
static const uint8_t image_front[PLACE_AT] = { 'W', 'G', 'S', IMAGE_VERSION & 0xFF, IMAGE_VERSION >> 8 };

/* All but code 25 has been asked. */
static inline int shows(const uint8_t *image, const uint8_t *s, const struct survey *survey)
{
    const size_t locals = s[5] + s[6];
    return !memcmp(image, image_front, PLACE_AT) && survey->known && number_at(image, DEPTH_AT, 2) == survey->depth
        && formed(image + LOCALS_AT, s + 8, locals) && all_zero(image + LOCALS_AT + SLOT * locals, STACK_AT - LOCALS_AT - SLOT * locals)
        && formed(image + STACK_AT, survey->kinds, survey->depth)
        && all_zero(image + STACK_AT + SLOT * survey->depth, SLOT * (STACK_MOST - survey->depth));
}

/* What is over the stack's depth is not the strip's any more. */
static inline void paint(uint8_t *image, size_t at, const struct machine *m, size_t depth)
{
    memcpy(image, image_front, PLACE_AT);
    put_number_at(image, PLACE_AT, 4, at);
    put_number_at(image, DEPTH_AT, 2, depth);
    memcpy(image + LOCALS_AT, m->locals, sizeof m->locals);
    memcpy(image + STACK_AT, m->stack, SLOT * depth);
    memset(image + STACK_AT + SLOT * depth, 0, SLOT * (STACK_MOST - depth));
}

/* The machine as the image shows it. The labels are those of the blocks that are open at the place. */
static inline void stand(struct machine *m, const uint8_t *image, const uint8_t *s, const struct survey *survey, const uint16_t *ends)
{
    m->at = survey->place;
    m->depth = survey->depth;
    m->blocks = survey->blocks;
    memcpy(m->locals, image + LOCALS_AT, sizeof m->locals);
    memcpy(m->stack, image + STACK_AT, sizeof m->stack);
    for (size_t i = 0; i < survey->blocks; i++) {
        const struct frame *f = &survey->frames[1 + i];
        const int loop = s[f->body - 2] == LOOP; /* before the block type */
        m->labels[i] = (struct label){ m->stack + f->floor, loop ? f->body : ends[f->body] + 1u, f->carries, loop };
    }
}

#endif
