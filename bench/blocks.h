/* Strips of version 2 made by chance: blocks in blocks, loops that end and loops that do not, branches to every label, dead code. */
#ifndef BLOCKS_H
#define BLOCKS_H

#include "straight.h"

/* After the locals that other code works on: each loop that ends counts in a local of its own, and a vector that is to be stored waits
   in one until its address is there. */
enum { COUNTERS = 3, RESERVED = COUNTERS + 1, BODY_FULL = STRIP_MOST / 2 };

static struct {
    uint8_t op, type;
    size_t floor; /* of what is around it */
    int dead;     /* of what is around it */
} opened[BLOCKS_MOST + 8];
static size_t blocks, counting;

static size_t first_reserved(void)
{
    return head.parameters + head.locals - RESERVED;
}

/* The kinds that a branch to a label takes. */
static size_t label_kinds(size_t label, const uint8_t **kinds)
{
    if (blocks <= label) {
        *kinds = head.result_kinds;
        return head.results;
    }
    *kinds = &opened[blocks - 1 - label].type;
    return opened[blocks - 1 - label].op == BLOCK && **kinds != EMPTY;
}

/* Exactly these kinds above the floor; in dead code at times fewer. */
static void fit(const uint8_t *kinds, size_t count)
{
    const size_t known = body.depth - body.floor;
    if (body.dead && below(2)) {
        if (count < known || memcmp(body.kinds + body.floor, kinds + count - known, known))
            drop_to(body.floor);
        return;
    }
    size_t same = 0;
    while (same < count && same < known && body.kinds[body.floor + same] == kinds[same])
        same++;
    drop_to(body.floor + same);
    for (; same < count; same++)
        put_const(kinds[same]);
}

static uint8_t some_type(void)
{
    static const uint8_t good[] = { EMPTY, EMPTY, I32, I64, V128 };
    static const uint8_t bad[] = { 0x00, 0x3F, 0x41, 0x6F, 0x70, 0x7A, 0x7C, 0x7D, 0x80, 0xC0, 0xFF };
    return slip() && !below(4) ? bad[below(sizeof bad)] : good[below(sizeof good)];
}

static void open_block(unsigned op, uint8_t type)
{
    put_op(op);
    put(type);
    opened[blocks].op = op;
    opened[blocks].type = type;
    opened[blocks].floor = body.floor;
    opened[blocks].dead = body.dead;
    blocks++;
    body.floor = body.depth;
    body.dead = 0;
}

static void close_block(void)
{
    blocks--;
    const uint8_t type = opened[blocks].type;
    if (!slip())
        fit(&type, type != EMPTY);
    put_op(END);
    body.depth = body.floor;
    body.floor = opened[blocks].floor;
    body.dead = opened[blocks].dead;
    if (type != EMPTY)
        push(type);
}

/* An i32 that is often 0 or 1. */
static void put_condition(void)
{
    switch (below(4)) {
    case 0:
        put_i32(some_number());
        break;
    case 1:
        put_i32(below(2));
        break;
    case 2:
        put_i32(below(2) ? 0 : some_number());
        put_row(I32_EQZ);
        break;
    default:
        if (below(2))
            put_local(LOCAL_GET, first_reserved() + below(COUNTERS));
        else
            put_i32(some_number());
        put_i32(below(2) ? (int32_t)below(4) : (int32_t)some_number());
        put_row(I32_LT_U);
    }
}

/* The value on top goes to memory, where it is seen after the run. */
static void put_store(void)
{
    const size_t waiting = first_reserved() + COUNTERS;
    if (body.floor < body.depth && body.kinds[body.depth - 1] != V128)
        put_row(VECTOR + (body.kinds[body.depth - 1] == I32 ? 0x11 : 0x12));
    put_local(LOCAL_SET, waiting);
    const uint32_t offset = put_address();
    put_local(LOCAL_GET, waiting);
    put_op(VECTOR + 0x0B);
    put_number(0, 5, below(5));
    put_number(0, 5, offset);
    took(2);
}

static void put_branch(unsigned op, size_t label)
{
    const uint8_t *kinds;
    const size_t count = label_kinds(label, &kinds);
    offer(kinds, count);
    const int bare = body.dead && body.depth == body.floor && below(2);
    if (op == BR_IF && !bare)
        put_condition();
    put_op(op);
    put_number(0, 5, label);
    if (op == BR) {
        body.depth = body.floor;
        body.dead = 1;
        return;
    }
    took(1);
    took(count);
    for (size_t i = 0; i < count; i++)
        push(kinds[i]);
}

/* Any that is there; seldom that of a loop, which would be a loop without end. */
static size_t some_label(void)
{
    if (slip())
        return below(4) ? blocks + 1 : (uint32_t)chance();
    size_t label;
    do
        label = below(blocks + 1);
    while (label < blocks && opened[blocks - 1 - label].op == LOOP && below(8));
    return label;
}

/* Down to 0, or up to some number; back to a label. */
static void put_turn(size_t counter, size_t label)
{
    const int up = below(2);
    put_local(LOCAL_GET, counter);
    put_i32(1);
    put_row(up ? I32_ADD : I32_SUB);
    put_local(LOCAL_TEE, counter);
    if (up) {
        put_i32(1 + below(8));
        put_row(I32_LT_U);
    }
    put_op(BR_IF);
    put_number(0, 5, label);
    took(1);
}

static void put_items(unsigned n);

static void put_loop(void)
{
    const size_t counter = first_reserved() + counting++;
    put_i32(1 + below(4));
    put_local(LOCAL_SET, counter);
    open_block(LOOP, some_type());
    put_items(below(6));
    if (!below(24))
        put_branch(BR, 0);
    else if (below(4))
        put_turn(counter, 0);
    else { /* from inside a block */
        open_block(BLOCK, some_type());
        put_turn(counter, 1);
        put_items(below(3));
        close_block();
    }
    close_block();
    counting--;
}

static void put_items(unsigned n)
{
    for (; n && body.len < BODY_FULL; n--) {
        const unsigned item = below(64);
        if (item < 8 && blocks < BLOCKS_MOST) {
            open_block(BLOCK, some_type());
            put_items(below(6));
            close_block();
        } else if (item < 13 && counting < COUNTERS && blocks + 2 <= BLOCKS_MOST)
            put_loop();
        else if (item < 18 && (blocks || !below(8)))
            put_branch(BR_IF, some_label());
        else if (item < 19 && (blocks || !below(8))) {
            put_branch(BR, some_label());
            n += below(4);
        } else if (item < 25)
            put_store();
        else
            put_some(first_reserved());
    }
}

/* Blocks in blocks, as many as may be or one more, left from inside to any of them. */
static void put_nested(void)
{
    const size_t most = below(4) ? BLOCKS_MOST : below(4) ? 1 + below(BLOCKS_MOST) : BLOCKS_MOST + 1;
    while (blocks < most) {
        if (!below(3))
            put_const(all_kinds[below(3)]);
        open_block(below(8) ? BLOCK : LOOP, some_type());
    }
    put_store();
    const size_t label = some_label();
    if (below(2))
        put_branch(BR, label);
    else
        put_branch(BR_IF, label);
    while (blocks) {
        put_items(below(3));
        close_block();
        if (!below(4))
            put_store();
    }
}

/* A stack that is full or nearly so, and on it blocks that are left from inside: at times by br_if, then by br, with their `end` in dead
   code. */
static void put_full(void)
{
    for (size_t most = STACK_MOST - below(4); body.depth < most;)
        put_const(all_kinds[below(3)]);
    open_block(BLOCK, EMPTY);
    open_block(below(4) ? BLOCK : LOOP, EMPTY);
    open_block(BLOCK, some_type());
    if (body.depth + 2 <= STACK_MOST && below(2))
        put_branch(BR_IF, below(2) ? 0 : 2);
    put_branch(BR, 2);
    if (!below(4))
        put_branch(BR_IF, below(3));
    if (!below(4))
        put_local(LOCAL_TEE, first_reserved() + below(RESERVED));
    while (blocks)
        close_block();
    drop_to(below(8));
}

static void begin_blocks(size_t memory_len, int slips)
{
    begin(2, memory_len);
    memset(head.local_kinds + head.parameters + head.locals, I32, COUNTERS);
    head.locals += RESERVED;
    head.local_kinds[head.parameters + head.locals - 1] = V128;
    head.results = below(RESULTS_MOST + 1);
    for (int i = 0; i < head.results; i++)
        head.result_kinds[i] = all_kinds[below(3)];
    body.calm = 1;
    body.slips = slips;
    blocks = counting = 0;
}

/* A strip that passes the check, but for a few that are too deep, and if it `slips` for more. */
static void make_blocks(struct strip *s, size_t memory_len, int slips)
{
    begin_blocks(memory_len, slips);
    put_items(below(4));
    switch (below(8)) {
    case 0:
        put_nested();
        break;
    case 1:
        if (below(2))
            put_full();
        break;
    case 2:
        put_deep();
    }
    put_items(4 + below(16));
    if (!slip())
        fit(head.result_kinds, head.results);
    finish(s);
}

#endif
