/* What is known of the stack before an instruction, and the blocks that are open there (Core 2.0: 3.3, and the validation algorithm of
   its appendix). No instruction here leaves a value of unknown kind, so what dead code lacks is only missing under the known values. */
#ifndef TYPING_H
#define TYPING_H

#include <string.h>

#include "decode.h"

/* An open block, or the strip itself. The kinds that its `end` leaves stand right before its first instruction: they are the block type,
   or the header's results. */
struct frame {
    uint32_t body;   /* the place of its first instruction */
    uint16_t floor;  /* the known values under it, kept here while a block in it is open: STACK_MOST at most */
    uint8_t leaves;  /* how many kinds its `end` leaves */
    uint8_t carries; /* how many of them a branch to it takes: all, or of a loop none */
    uint8_t dead;    /* whether a br has been passed in it, kept as the floor is */
};
_Static_assert(STACK_MOST <= UINT16_MAX, "a floor, and an image's depth, have two bytes");

/* Apart from the numbers beside it, which a compiler keeps in registers only where nothing beside them is indexed. */
struct room {
    uint8_t kinds[STACK_MOST];            /* bottom first, of all frames */
    struct frame frames[1 + BLOCKS_MOST]; /* the strip itself, then the open blocks */
};

struct typing {
    const uint8_t *strip;
    uint8_t *kinds;
    struct frame *frames;
    uint16_t *ends; /* if lent, gets the place of each block's `end`, by the place of its first instruction */
    size_t locals;
    size_t depth;
    size_t blocks;
    size_t floor; /* of the innermost frame */
    int dead;     /* of the innermost frame */
};

/* Before the first instruction of a strip whose header is good. */
static inline struct typing begin(const uint8_t *strip, struct room *room, uint16_t *ends)
{
    room->frames[0].body = 8 + strip[5] + strip[6] + strip[7];
    room->frames[0].leaves = room->frames[0].carries = strip[7];
    return (struct typing){ strip, room->kinds, room->frames, ends, strip[5] + strip[6], 0, 0, 0, 0 };
}

static inline const uint8_t *kinds_of(const struct typing *t, const struct frame *f)
{
    return t->strip + f->body - f->leaves;
}

/* Takes kinds off the stack, if they are on top of it; in dead code those under the known values may be missing. */
static inline int take(struct typing *t, const uint8_t *kinds, size_t count)
{
    if (t->depth < t->floor + count) {
        if (!t->dead)
            return 0;
        const size_t missing = t->floor + count - t->depth;
        kinds += missing;
        count -= missing;
    }
    t->depth -= count;
    for (size_t i = 0; i < count; i++)
        if (t->kinds[t->depth + i] != kinds[i])
            return 0;
    return 1;
}

static inline int take_one(struct typing *t, uint8_t kind)
{
    if (t->depth == t->floor)
        return t->dead;
    return t->kinds[--t->depth] == kind;
}

static inline enum code leave(struct typing *t, uint8_t kind)
{
    if (t->depth == STACK_MOST)
        return DEEP;
    t->kinds[t->depth++] = kind;
    return DONE;
}

static inline enum code leave_all(struct typing *t, const uint8_t *kinds, size_t count)
{
    for (size_t i = 0; i < count; i++)
        if (leave(t, kinds[i]))
            return DEEP;
    return DONE;
}

static inline enum code open_block(struct typing *t, const struct instruction *in)
{
    if (t->blocks == BLOCKS_MOST)
        return NEST;
    t->frames[t->blocks].floor = t->floor;
    t->frames[t->blocks].dead = t->dead;
    struct frame *f = &t->frames[++t->blocks];
    f->body = in->end;
    f->leaves = in->type != EMPTY;
    f->carries = in->op == LOOP ? 0 : f->leaves;
    t->floor = t->depth;
    t->dead = 0;
    return DONE;
}

/* Answers TRAILING for the `end` of the strip itself: what follows it is that. */
static inline enum code close_block(struct typing *t, const struct instruction *in)
{
    const struct frame *f = &t->frames[t->blocks];
    if (!take(t, kinds_of(t, f), f->leaves) || t->depth != t->floor)
        return RESULT;
    if (t->blocks == 0)
        return TRAILING;
    if (t->ends)
        t->ends[f->body] = in->end - 1;
    t->blocks--;
    t->floor = t->frames[t->blocks].floor;
    t->dead = t->frames[t->blocks].dead;
    return leave_all(t, kinds_of(t, f), f->leaves);
}

/* What br_if takes under its condition stays there; nothing known stays after br. */
static inline enum code branch(struct typing *t, const struct instruction *in)
{
    if (t->blocks < in->index)
        return LABEL;
    const struct frame *to = &t->frames[t->blocks - in->index];
    if ((in->op == BR_IF && !take_one(t, I32)) || !take(t, kinds_of(t, to), to->carries))
        return OPERAND;
    if (in->op == BR_IF)
        return leave_all(t, kinds_of(t, to), to->carries);
    t->depth = t->floor;
    t->dead = 1;
    return DONE;
}

/* One instruction: answers DONE, a code whose place is the instruction, or TRAILING as above. Version 1 has no blocks, and where the
   compiler knows the version it asks nothing about them. */
static inline enum code typed(int version, struct typing *t, const struct instruction *in)
{
    switch (in->op) {
    case BLOCK:
    case LOOP:
        return version < 2 ? OPCODE : open_block(t, in);
    case END:
        return close_block(t, in);
    case BR:
    case BR_IF:
        return version < 2 ? OPCODE : branch(t, in);
    case DROP:
        if (t->depth == t->floor)
            return t->dead ? DONE : OPERAND;
        t->depth--;
        return DONE;
    case LOCAL_GET:
        return t->locals <= in->index ? LOCAL : leave(t, t->strip[8 + in->index]);
    case LOCAL_SET:
    case LOCAL_TEE: {
        if (t->locals <= in->index)
            return LOCAL;
        const uint8_t kind = t->strip[8 + in->index];
        if (!take_one(t, kind))
            return OPERAND;
        return in->op == LOCAL_SET ? DONE : leave(t, kind);
    }
    default: {
        const struct row *row = &rows[in->op];
        if (!take(t, (const uint8_t *)row->takes, row->taken))
            return OPERAND;
        return row->leaves[0] ? leave(t, row->leaves[0]) : DONE;
    }
    }
}

#endif
