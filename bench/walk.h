/* The check from the first instruction on. */
#ifndef WALK_H
#define WALK_H

#include "typing.h"

/* What the check knows before the instruction at one place, for a resume: nothing if no instruction starts there, or if it stands after a
   br, up to and with the `end` around it. */
struct survey {
    size_t place;
    int known;
    size_t depth;
    size_t blocks;
    uint8_t kinds[STACK_MOST];
    struct frame frames[1 + BLOCKS_MOST];
};

static inline void note(struct survey *x, const struct typing *t)
{
    x->known = 1;
    x->depth = t->depth;
    x->blocks = t->blocks;
    memcpy(x->kinds, t->kinds, t->depth);
    memcpy(x->frames, t->frames, (1 + t->blocks) * sizeof *t->frames);
    x->frames[t->blocks].floor = t->floor;
}

/* A survey has `place` set and the rest zero. Where the compiler knows that there is none it asks nothing about it. */
static inline uint64_t walk(int version, const uint8_t *s, size_t len, uint16_t *ends, struct survey *survey)
{
    struct room room;
    struct typing t = begin(s, &room, ends);
    size_t around = 0; /* after a br: the frames that are open there, until the innermost of them is closed */
    for (size_t at = t.frames[0].body;;) {
        struct instruction in;
        size_t place;
        if (survey && at == survey->place && !around)
            note(survey, &t);
        enum code code = decode(version, s, len, at, &in, &place);
        if (code)
            return answer(code, place, 0);
        if ((code = typed(version, &t, &in)) == TRAILING)
            return in.end == len ? answer(DONE, 0, 0) : answer(TRAILING, in.end, 0);
        if (code)
            return answer(code, at, 0);
        if (survey && !around && in.op == BR)
            around = 1 + t.blocks;
        else if (survey && 1 + t.blocks < around)
            around = 0;
        at = in.end;
    }
}

/* Version 1, compiled by itself: it knows no blocks and pays nothing for them. */
uint64_t walk_1(const uint8_t *s, size_t len);

/* The check before a resume. */
uint64_t plain_surveyed(const uint8_t *strip, size_t strip_len, uint16_t *ends, struct survey *survey);

#endif
