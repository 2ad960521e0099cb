/* The instructions (documents 01 and 002, request C-13): what follows each, and what it takes and leaves. */
#ifndef TABLE_H
#define TABLE_H

#include "strip.h"

/* An instruction's number: its first byte, or VECTOR + the number after FD. */
enum {
    BLOCK = 0x02, LOOP = 0x03, END = 0x0B, BR = 0x0C, BR_IF = 0x0D, DROP = 0x1A, LOCAL_GET = 0x20, LOCAL_SET = 0x21, LOCAL_TEE = 0x22,
    I32_CONST = 0x41, I64_CONST = 0x42, I32_EQZ = 0x45, I32_LT_U = 0x49, I32_ADD = 0x6A, I32_SUB = 0x6B,
    PREFIX = 0xFD, VECTOR = 0x100, INSTRUCTIONS = 0x200
};

/* The last three are of version 2: what version 1 lacks is told by them, so that its other rows are asked nothing more. */
enum immediates {
    NOT_HERE, FLOATING, NONE, INDEX, WORD, QUAD, MEMARG, MEMARG_LANE, LANE_INDEX, SIXTEEN, SHUFFLE, NONE_2, LABEL_INDEX, BLOCK_TYPE
};

/* Kinds bottom first, as bytes of a header. */
#define I "\x7F"
#define L "\x7E"
#define V "\x7B"

struct row {
    uint8_t immediates; /* an enum immediates */
    uint8_t moved;      /* bytes that it moves */
    uint8_t lanes;
    uint8_t taken;
    char takes[4];
    char leaves[2];
};

#define ROW(imm, moved, lanes, takes, leaves) { imm, moved, lanes, sizeof takes - 1, takes, leaves }
#define LOAD(moved) ROW(MEMARG, moved, 0, I, V)
#define LOAD_LANE(moved) ROW(MEMARG_LANE, moved, 16 / moved, I V, V)
#define STORE_LANE(moved) ROW(MEMARG_LANE, moved, 16 / moved, I V, "")
#define EXTRACT(lanes, kind) ROW(LANE_INDEX, 0, lanes, V, kind)
#define REPLACE(lanes, kind) ROW(LANE_INDEX, 0, lanes, V kind, V)
#define SPLAT(kind) ROW(NONE, 0, 0, kind, V)
#define UNARY ROW(NONE, 0, 0, V, V)
#define BINARY ROW(NONE, 0, 0, V V, V)
#define SHIFT ROW(NONE, 0, 0, V I, V)
#define TEST ROW(NONE, 0, 0, V, I)
#define FLOATS { FLOATING, 0, 0, 0, "", "" }

/* drop, the three of locals and those of blocks take what is there: the check has rules for them. Rows left out are not assigned. */
static const struct row rows[INSTRUCTIONS] = {
    [END] = ROW(NONE, 0, 0, "", ""), [DROP] = ROW(NONE, 0, 0, "", ""),
    [LOCAL_GET ... LOCAL_TEE] = ROW(INDEX, 0, 0, "", ""),
    [BLOCK ... LOOP] = ROW(BLOCK_TYPE, 0, 0, "", ""), [BR ... BR_IF] = ROW(LABEL_INDEX, 0, 0, "", ""),
    [I32_EQZ] = ROW(NONE_2, 0, 0, I, I), [I32_LT_U] = ROW(NONE_2, 0, 0, I I, I),
    [I32_CONST] = ROW(WORD, 0, 0, "", I), [I64_CONST] = ROW(QUAD, 0, 0, "", L), [I32_ADD ... I32_SUB] = ROW(NONE, 0, 0, I I, I),

    [VECTOR + 0x00] = LOAD(16), [VECTOR + 0x01 ... VECTOR + 0x06] = LOAD(8),
    [VECTOR + 0x07] = LOAD(1), [VECTOR + 0x08] = LOAD(2), [VECTOR + 0x09] = LOAD(4), [VECTOR + 0x0A] = LOAD(8),
    [VECTOR + 0x0B] = ROW(MEMARG, 16, 0, I V, ""), [VECTOR + 0x0C] = ROW(SIXTEEN, 0, 0, "", V),
    [VECTOR + 0x0D] = ROW(SHUFFLE, 0, 32, V V, V), [VECTOR + 0x0E] = BINARY,
    [VECTOR + 0x0F ... VECTOR + 0x11] = SPLAT(I), [VECTOR + 0x12] = SPLAT(L), [VECTOR + 0x13 ... VECTOR + 0x14] = FLOATS,
    [VECTOR + 0x15 ... VECTOR + 0x16] = EXTRACT(16, I), [VECTOR + 0x17] = REPLACE(16, I),
    [VECTOR + 0x18 ... VECTOR + 0x19] = EXTRACT(8, I), [VECTOR + 0x1A] = REPLACE(8, I),
    [VECTOR + 0x1B] = EXTRACT(4, I), [VECTOR + 0x1C] = REPLACE(4, I), [VECTOR + 0x1D] = EXTRACT(2, L), [VECTOR + 0x1E] = REPLACE(2, L),
    [VECTOR + 0x1F ... VECTOR + 0x22] = FLOATS,
    [VECTOR + 0x23 ... VECTOR + 0x40] = BINARY, [VECTOR + 0x41 ... VECTOR + 0x4C] = FLOATS,
    [VECTOR + 0x4D] = UNARY, [VECTOR + 0x4E ... VECTOR + 0x51] = BINARY, [VECTOR + 0x52] = ROW(NONE, 0, 0, V V V, V), [VECTOR + 0x53] = TEST,
    [VECTOR + 0x54] = LOAD_LANE(1), [VECTOR + 0x55] = LOAD_LANE(2), [VECTOR + 0x56] = LOAD_LANE(4), [VECTOR + 0x57] = LOAD_LANE(8),
    [VECTOR + 0x58] = STORE_LANE(1), [VECTOR + 0x59] = STORE_LANE(2), [VECTOR + 0x5A] = STORE_LANE(4), [VECTOR + 0x5B] = STORE_LANE(8),
    [VECTOR + 0x5C] = LOAD(4), [VECTOR + 0x5D] = LOAD(8), [VECTOR + 0x5E ... VECTOR + 0x5F] = FLOATS,

    [VECTOR + 0x60 ... VECTOR + 0x62] = UNARY, [VECTOR + 0x63 ... VECTOR + 0x64] = TEST, [VECTOR + 0x65 ... VECTOR + 0x66] = BINARY,
    [VECTOR + 0x67 ... VECTOR + 0x6A] = FLOATS, [VECTOR + 0x6B ... VECTOR + 0x6D] = SHIFT, [VECTOR + 0x6E ... VECTOR + 0x73] = BINARY,
    [VECTOR + 0x74 ... VECTOR + 0x75] = FLOATS, [VECTOR + 0x76 ... VECTOR + 0x79] = BINARY, [VECTOR + 0x7A] = FLOATS,
    [VECTOR + 0x7B] = BINARY, [VECTOR + 0x7C ... VECTOR + 0x7F] = UNARY,

    [VECTOR + 0x80 ... VECTOR + 0x81] = UNARY, [VECTOR + 0x82] = BINARY, [VECTOR + 0x83 ... VECTOR + 0x84] = TEST,
    [VECTOR + 0x85 ... VECTOR + 0x86] = BINARY, [VECTOR + 0x87 ... VECTOR + 0x8A] = UNARY, [VECTOR + 0x8B ... VECTOR + 0x8D] = SHIFT,
    [VECTOR + 0x8E ... VECTOR + 0x93] = BINARY, [VECTOR + 0x94] = FLOATS, [VECTOR + 0x95 ... VECTOR + 0x99] = BINARY,
    [VECTOR + 0x9B ... VECTOR + 0x9F] = BINARY,

    [VECTOR + 0xA0 ... VECTOR + 0xA1] = UNARY, [VECTOR + 0xA3 ... VECTOR + 0xA4] = TEST, [VECTOR + 0xA7 ... VECTOR + 0xAA] = UNARY,
    [VECTOR + 0xAB ... VECTOR + 0xAD] = SHIFT, [VECTOR + 0xAE] = BINARY, [VECTOR + 0xB1] = BINARY,
    [VECTOR + 0xB5 ... VECTOR + 0xBA] = BINARY, [VECTOR + 0xBC ... VECTOR + 0xBF] = BINARY,

    [VECTOR + 0xC0 ... VECTOR + 0xC1] = UNARY, [VECTOR + 0xC3 ... VECTOR + 0xC4] = TEST, [VECTOR + 0xC7 ... VECTOR + 0xCA] = UNARY,
    [VECTOR + 0xCB ... VECTOR + 0xCD] = SHIFT, [VECTOR + 0xCE] = BINARY, [VECTOR + 0xD1] = BINARY,
    [VECTOR + 0xD5 ... VECTOR + 0xDF] = BINARY,

    [VECTOR + 0xE0 ... VECTOR + 0xE1] = FLOATS, [VECTOR + 0xE3 ... VECTOR + 0xED] = FLOATS, [VECTOR + 0xEF ... VECTOR + 0xFF] = FLOATS,
};

#undef I
#undef L
#undef V

#endif
