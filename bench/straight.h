/* Straight code made by chance: the instructions without blocks, and strips of them. */
#ifndef STRAIGHT_H
#define STRAIGHT_H

#include <string.h>

#include "chance.h"
#include "table.h"

/* A full stack has room, of constants that take 22 bytes at most, and more after it. */
enum { CONST_MOST = 22, STRIP_MOST = 8192 + CONST_MOST * STACK_MOST, KINDS_MOST = STACK_MOST + 512, BODY_MOST = STRIP_MOST };

struct strip {
    uint8_t bytes[STRIP_MOST];
    size_t len;
};

static const uint8_t all_kinds[] = { I32, I64, V128 };

/* What comes before the instructions. */
static struct {
    uint8_t version, parameters, locals, results;
    uint8_t local_kinds[PARAMETERS_MOST + LOCALS_MOST]; /* parameters first */
    uint8_t result_kinds[RESULTS_MOST];
} head;

/* The instructions so far, and what is known on the stack after them. */
static struct {
    uint8_t bytes[STRIP_MOST];
    size_t len;
    uint8_t kinds[KINDS_MOST]; /* bottom first */
    size_t depth;
    size_t floor; /* values under the innermost block */
    int dead;     /* after br: what is missing above the floor is of any kind */
    unsigned used[BODY_MOST];
    size_t count;
    size_t memory_len;
    int calm;  /* few accesses out of bounds */
    int slips; /* something is to be wrong somewhere */
} body;

/* In dead code more often: much passes there that would not elsewhere. */
static int slip(void)
{
    return body.slips && !below(body.dead ? 4 : 32);
}

static void put(uint8_t b)
{
    body.bytes[body.len++] = b;
}

/* LEB128, at times with padding as far as the width allows. */
static void put_number(int is_signed, unsigned most, int64_t n)
{
    const unsigned at_least = below(8) ? 1 : 1 + below(most);
    for (unsigned i = 1;; i++) {
        const uint8_t low = n & 0x7F;
        n = is_signed ? n >> 7 : (int64_t)((uint64_t)n >> 7);
        if (at_least <= i && (is_signed ? n == ((low & 0x40) ? -1 : 0) : n == 0)) {
            put(low);
            return;
        }
        put(low | 0x80);
    }
}

static void put_op(unsigned op)
{
    body.used[body.count++] = op;
    if (op < VECTOR)
        put(op);
    else {
        put(PREFIX);
        put_number(0, 5, op - VECTOR);
    }
}

static void push(uint8_t kind)
{
    body.kinds[body.depth++] = kind;
}

/* Values are taken; in dead code as many of them as are known. */
static void took(size_t count)
{
    body.depth = body.depth < body.floor + count ? body.floor : body.depth - count;
}

static void drop_to(size_t depth)
{
    for (; depth < body.depth; body.depth--)
        put_op(DROP);
}

static void put_i32(int32_t n)
{
    put_op(I32_CONST);
    put_number(1, 5, n);
    push(I32);
}

static void put_const(uint8_t kind)
{
    if (kind == I32) {
        put_i32((int32_t)some_number());
        return;
    }
    put_op(kind == I64 ? I64_CONST : VECTOR + 0x0C);
    if (kind == I64)
        put_number(1, 10, some_number());
    else
        for (int i = 0; i < 16; i++)
            put(some_byte());
    push(kind);
}

/* The kinds are pushed if they are not on top; in dead code those that are missing are at times left so. */
static void offer(const void *kinds, size_t count)
{
    const uint8_t *wanted = kinds;
    const size_t known = body.depth - body.floor, there = known < count ? known : count;
    if (slip())
        return;
    if (!memcmp(body.kinds + body.depth - there, wanted + count - there, there) && (there == count || (body.dead && below(4))))
        return;
    for (size_t i = 0; i < count; i++)
        put_const(wanted[i]);
}

/* An access takes 16 bytes at most, with a small offset 32. */
enum { NEAR = 40 };

/* In bounds more often than not, and now and then near the memory's end, which in a large one would hardly be met. */
static uint32_t some_address(void)
{
    if (body.memory_len <= NEAR || !below(body.calm ? 64 : 16))
        return some_number();
    return below(body.calm ? 64 : 8) ? below(body.memory_len - NEAR) : body.memory_len - 1 - below(NEAR);
}

static uint32_t some_offset(void)
{
    if (below(body.calm ? 64 : 4))
        return below(16);
    return below(8) ? below(MEMORY_MOST) : (uint32_t)chance();
}

/* The address of an access is put on the stack. Answers the offset: small, or at times any part of the way. */
static uint32_t put_address(void)
{
    const uint32_t address = some_address(), by = address < MEMORY_MOST && !below(4) ? below(address + 1) : 0;
    put_i32(address - by);
    return by ? by : some_offset();
}

/* Of an access: its address, and what lies over it. Answers the offset. */
static uint32_t offer_access(const struct row *row)
{
    if (body.dead && !below(4)) {
        offer(row->takes, row->taken);
        return some_offset();
    }
    const uint32_t offset = put_address();
    for (size_t i = 1; i < row->taken; i++)
        put_const(row->takes[i]);
    return offset;
}

static void put_row(unsigned op)
{
    const struct row *row = &rows[op];
    const int access = row->immediates == MEMARG || row->immediates == MEMARG_LANE;
    uint32_t offset = 0;
    if (access)
        offset = offer_access(row);
    else
        offer(row->takes, row->taken);
    put_op(op);
    if (access) {
        unsigned most = 0;
        while (2 << most <= row->moved)
            most++;
        put_number(0, 5, below(most + 1));
        put_number(0, 5, offset);
    }
    if (row->immediates == LANE_INDEX || row->immediates == MEMARG_LANE)
        put(below(row->lanes));
    if (row->immediates == SHUFFLE)
        for (int i = 0; i < 16; i++)
            put(below(32));
    took(row->taken);
    if (row->leaves[0])
        push(row->leaves[0]);
}

static void put_local(unsigned op, size_t index)
{
    const uint8_t kind = head.local_kinds[index];
    if (op != LOCAL_GET)
        offer(&kind, 1);
    put_op(op);
    put_number(0, 5, index);
    if (op != LOCAL_GET)
        took(1);
    if (op != LOCAL_SET)
        push(kind);
}

/* Some instruction of straight code, each as likely as any other, over the first `locals` of the locals. */
static void put_some(size_t locals)
{
    unsigned op;
    do
        op = below(INSTRUCTIONS);
    while (op == END || rows[op].immediates < NONE || (head.version < 2 ? NONE_2 : LABEL_INDEX) <= rows[op].immediates);
    drop_to(body.floor < STACK_MOST - 4 ? STACK_MOST - 4 : body.floor);
    if (rows[op].immediates == INDEX) {
        if (locals)
            put_local(op, below(locals));
    } else if (op == DROP) {
        if (body.floor < body.depth || body.dead) {
            put_op(DROP);
            took(1);
        }
    } else if (rows[op].taken == 0)
        put_const(rows[op].leaves[0]);
    else
        put_row(op);
}

/* Kinds of parameters and further locals, and no instruction yet. */
static void begin(uint8_t version, size_t memory_len)
{
    memset(&head, 0, sizeof head);
    head.version = version;
    head.parameters = below(4);
    head.locals = below(4);
    for (int i = 0; i < head.parameters + head.locals; i++)
        head.local_kinds[i] = all_kinds[below(3)];
    body.len = body.depth = body.floor = body.count = 0;
    body.dead = body.calm = body.slips = 0;
    body.memory_len = memory_len;
}

/* At times the stack is nearly full from the start, or too full. */
static void put_deep(void)
{
    for (unsigned deep = below(16) ? 0 : STACK_MOST - 6 + below(9); deep; deep--)
        put_const(all_kinds[below(3)]);
}

static void finish(struct strip *s)
{
    const uint8_t numbers[] = { 'W', 'G', 'P', head.version, 0, head.parameters, head.locals, head.results };
    const size_t locals = head.parameters + head.locals;
    memcpy(s->bytes, numbers, 8);
    memcpy(s->bytes + 8, head.local_kinds, locals);
    memcpy(s->bytes + 8 + locals, head.result_kinds, head.results);
    s->len = 8 + locals + head.results;
    put(END);
    memcpy(s->bytes + s->len, body.bytes, body.len);
    s->len += body.len;
}

/* A strip that passes the check, but for a few that are too deep. */
static void make_straight(struct strip *s, uint8_t version, size_t memory_len)
{
    begin(version, memory_len);
    put_deep();
    for (unsigned n = below(40); n; n--)
        put_some(head.parameters + head.locals);
    drop_to(RESULTS_MOST);
    head.results = body.depth;
    memcpy(head.result_kinds, body.kinds, body.depth);
    finish(s);
}

#endif
