/* One instruction, read byte by byte, each item judged as soon as it is read. */
#ifndef DECODE_H
#define DECODE_H

#include "leb128.h"
#include "table.h"

struct instruction {
    unsigned op;          /* a row of the table */
    uint32_t index;       /* of a local or a label, or the offset of an access */
    uint64_t number;      /* of a constant */
    uint8_t exponent;     /* of an access */
    uint8_t lane;
    uint8_t type;         /* of a block */
    const uint8_t *bytes; /* the sixteen of v128.const and of a shuffle */
    size_t end;           /* where the next instruction starts */
};

/* Answers DONE, or another code and its place. */
static inline enum code decode(int version, const uint8_t *s, size_t len, size_t at, struct instruction *in, size_t *place)
{
    size_t end = at;
    uint64_t n;
    enum code code;

#define READ(width)                                      \
    if ((code = read_number(width, s, len, &end, &n))) { \
        *place = code == SHORT ? len : end;              \
        return code;                                     \
    }
#define REFUSE(c, p) return *place = (p), c

    if (len <= at)
        REFUSE(SHORT, len);
    in->op = s[end++];
    if (in->op == PREFIX) {
        READ(U32)
        if (0xFF < n)
            REFUSE(OPCODE, at);
        in->op = VECTOR + n;
    }
    const struct row *row = &rows[in->op];
    switch (row->immediates) {
    case NOT_HERE:
        REFUSE(OPCODE, at);
    case FLOATING:
        REFUSE(FLOAT, at);
    case NONE_2:
        if (version < 2)
            REFUSE(OPCODE, at); /* and nothing */
    case NONE:
        break;
    case BLOCK_TYPE:
        if (version < 2)
            REFUSE(OPCODE, at);
        if (len <= end)
            REFUSE(SHORT, len);
        if (s[end] != EMPTY && s[end] != I32 && s[end] != I64 && s[end] != V128)
            REFUSE(KIND, end);
        in->type = s[end++];
        break;
    case LABEL_INDEX:
        if (version < 2)
            REFUSE(OPCODE, at); /* and an index */
    case INDEX:
        READ(U32)
        in->index = n;
        break;
    case WORD:
        READ(S32)
        in->number = (uint32_t)n;
        break;
    case QUAD:
        READ(S64)
        in->number = n;
        break;
    case MEMARG:
    case MEMARG_LANE: {
        const size_t exponent = end;
        READ(U32)
        if (4 < n || row->moved < 1 << n)
            REFUSE(ALIGN, exponent);
        in->exponent = n;
        READ(U32)
        in->index = n;
        if (row->immediates == MEMARG)
            break;
    } /* and a lane */
    case LANE_INDEX:
        if (len <= end)
            REFUSE(SHORT, len);
        if (row->lanes <= s[end])
            REFUSE(LANE, end);
        in->lane = s[end++];
        break;
    case SHUFFLE:
        for (int i = 0; i < 16; i++) {
            if (len <= end + i)
                REFUSE(SHORT, len);
            if (row->lanes <= s[end + i])
                REFUSE(LANE, end + i);
        } /* and sixteen bytes */
    case SIXTEEN:
        if (len < end + 16)
            REFUSE(SHORT, len);
        in->bytes = s + end;
        end += 16;
    }
    in->end = end;
    return DONE;
#undef READ
#undef REFUSE
}

#endif
