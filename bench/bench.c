/* Times both interpreters on long strips, side by side, after their answers, memory and results have been compared.
     bench                    a table of nanoseconds an instruction, one for loops, and one for a loop in slices
     bench DOOR SIDE NUMBER   one call alone, for a tool that counts instructions: check or run of a strip, loop (its run), loop_check or
                              slices of a loop, plain or proved, the number of the strip or the loop; prints its name, how many
                              instructions it has, or a loop how many are completed, and how many slices that were */
#include <stdio.h>
#include <stdlib.h>
#include <string.h>
#include <time.h>

#include "strip.h"

#define TEN(s) s s s s s s s s s s
#define EIGHT(s) s s s s s s s s
#define FIVE(s) s s s s s

/* Local 0 is an i32, not 0, locals 1 and 2 are vectors. A strip pushes local 1, repeats its unit, which leaves one vector where one was, as
   often as a file has room, and ends with that vector as its result. */
static const struct {
    const char *name;
    const char *unit;
    size_t bytes;
    unsigned instructions;
    uint8_t version;
} units[] = {
#define UNIT(name, bytes, instructions) { name, bytes, sizeof bytes - 1, instructions, 1 }
#define UNIT_2(name, bytes, instructions) { name, bytes, sizeof bytes - 1, instructions, 2 }
    UNIT("i32.const, drop", "\x41\xE8\x07\x1A", 2),
    UNIT("local.get, local.set", "\x20\x00\x21\x00", 2),
    UNIT("load, add, store", "\x1A\x20\x00\x20\x00\xFD\x00\x04\x00\x20\x02\xFD\xAE\x01\x22\x01\xFD\x0B\x04\x00\x20\x01", 9),
    UNIT("local.get, i8x16.add", "\x20\x02\xFD\x6E", 2),
    UNIT("local.get, i8x16.add_sat_s", "\x20\x02\xFD\x6F", 2),
    UNIT("i32.const, i8x16.shl", "\x41\x03\xFD\x6B", 2),
    UNIT("local.get, i8x16.narrow_i16x8_s", "\x20\x02\xFD\x65", 2),
    UNIT("local.get, i32x4.dot_i16x8_s", "\x20\x02\xFD\xBA\x01", 2),
    UNIT("i8x16.popcnt", "\xFD\x62", 1),
    UNIT("local.get, i8x16.bitmask, drop", "\x20\x02\xFD\x64\x1A", 3),
    UNIT("250 i32.const, 250 drop", FIVE(FIVE(TEN("\x41\xE8\x07"))) FIVE(FIVE(TEN("\x1A"))), 500), /* on a stack of up to 251 values */
    UNIT_2("version 2: load, add, store", "\x1A\x20\x00\x20\x00\xFD\x00\x04\x00\x20\x02\xFD\xAE\x01\x22\x01\xFD\x0B\x04\x00\x20\x01", 9),
    UNIT_2("block, i32.const 0, br_if, end", "\x02\x40\x41\x00\x0D\x00\x0B", 4),
};

/* What a strip and most loops are lent. A memory may be larger; this one stays, so that the rows can be compared with older ones. */
enum { UNIT_MEMORY = 256, LOOP_MEMORY = 65536 };

/* A loop: further local 3 is an i32 that begins at 0. Its turn is what it repeats; it leaves nothing, and the last of it goes back. */
static const struct {
    const char *name;
    const char *turn;
    size_t bytes;
    unsigned turns;
    unsigned instructions; /* completed in a turn */
    size_t memory;
} loops[] = {
#define LOOP_IN(memory, name, bytes, turns, instructions) { name, bytes, sizeof bytes - 1, turns, instructions, memory }
#define LOOP(name, bytes, turns, instructions) LOOP_IN(LOOP_MEMORY, name, bytes, turns, instructions)
/* local 3 plus 1, kept, and whether it is below 4,000: five instructions, and br_if */
#define COUNT_ON "\x20\x03\x41\x01\x6A\x22\x03\x41\xA0\x1F\x49\x0D\x00"
    /* local 3 is the address, up to LOOP_MEMORY */
    LOOP("load, i16x8.add, store", "\x20\x03\x20\x03\xFD\x00\x04\x00\x20\x02\xFD\x8E\x01\xFD\x0B\x04\x00"
         "\x20\x03\x41\x10\x6A\x22\x03\x41\x80\x80\x04\x49\x0D\x00", 4096, 13),
    LOOP("br over 200 instructions", "\x02\x40\x0C\x00" TEN(TEN("\x41\x01\x1A")) "\x0B" COUNT_ON, 4000, 9),
    LOOP("8 blocks left by br 7", EIGHT("\x02\x40") "\x0C\x07" EIGHT("\x0B") COUNT_ON, 4000, 16),
    LOOP("8 blocks left by br_if 7", EIGHT("\x02\x40") "\x20\x00\x0D\x07" EIGHT("\x0B") COUNT_ON, 4000, 17),
    LOOP("8 blocks left by their ends", EIGHT("\x02\x40") EIGHT("\x0B") COUNT_ON, 4000, 23),
    /* more than the ends that the proved run keeps */
    LOOP("100 blocks, each left by br 0", TEN(TEN("\x02\x40\x0C\x00\x0B")) COUNT_ON, 4000, 207),
    /* the first, over the largest memory: every sixteenth vector of 1,048,576 bytes */
    LOOP_IN(MEMORY_MOST, "load, i16x8.add, store, 1,048,576 bytes", "\x20\x03\x20\x03\xFD\x00\x04\x00\x20\x02\xFD\x8E\x01\xFD\x0B\x04\x00"
            "\x20\x03\x41\x80\x02\x6A\x22\x03\x41\x80\x80\xC0\x00\x49\x0D\x00", 4096, 13),
};
enum { UNITS = sizeof units / sizeof *units, LOOPS = sizeof loops / sizeof *loops, BUDGET_MOST = 1000000, SLICE_STEPS = 1000, ROUNDS = 400 };

static uint8_t strip[FILE_MOST];
static size_t strip_len;
static unsigned strip_instructions; /* that are completed */
static uint8_t args[3 * SLOT], memory[MEMORY_MOST], results[SLOT], image[IMAGE_BYTES];
static size_t memory_len;
static unsigned slices; /* of the last run in slices */

static void put(const void *bytes, size_t n)
{
    memcpy(strip + strip_len, bytes, n);
    strip_len += n;
}

static void lend(size_t len)
{
    memset(args, 0, sizeof args);
    args[0] = 64;
    for (int i = 0; i < 2 * SLOT; i++)
        args[SLOT + i] = 37 * i + 11;
    memory_len = len;
    for (size_t i = 0; i < len; i++)
        memory[i] = 91 * i + 29 * (i >> 8) + 83 * (i >> 16) + 5;
    memset(results, 0xEE, sizeof results);
}

static void make(int u)
{
    uint8_t head[] = { 'W', 'G', 'P', units[u].version, 0, 3, 0, 1, I32, V128, V128, V128, 0x20, 1 };
    strip_len = 0;
    put(head, sizeof head);
    strip_instructions = 2;
    while (strip_len + units[u].bytes < FILE_MOST) {
        put(units[u].unit, units[u].bytes);
        strip_instructions += units[u].instructions;
    }
    put("\x0B", 1);
    lend(UNIT_MEMORY);
}

static void make_loop(int n)
{
    static const uint8_t head[] = { 'W', 'G', 'P', 2, 0, 3, 1, 1, I32, V128, V128, I32, V128, 0x03, 0x40 };
    strip_len = 0;
    put(head, sizeof head);
    put(loops[n].turn, loops[n].bytes);
    put("\x0B\x20\x01\x0B", 4);
    strip_instructions = 1 + loops[n].turns * loops[n].instructions + 3;
    lend(loops[n].memory);
}

enum door { CHECK, RUN, SLICES };

typedef uint64_t check_door(const uint8_t *, size_t);
typedef uint64_t run_door(const uint8_t *, size_t, const uint8_t *, size_t, uint8_t *, size_t, uint8_t *, size_t, uint32_t);
typedef uint64_t start_door(const uint8_t *, size_t, const uint8_t *, size_t, uint8_t *, size_t, uint8_t *, size_t, uint8_t *, size_t, uint32_t);
typedef uint64_t resume_door(const uint8_t *, size_t, uint8_t *, size_t, uint8_t *, size_t, uint8_t *, size_t, uint32_t);
static check_door *const check_doors[] = { plain_check, gevurlat_check };
static run_door *const run_doors[] = { plain_run, gevurlat_run };
static start_door *const start_doors[] = { plain_start, gevurlat_start };
static resume_door *const resume_doors[] = { plain_resume, gevurlat_resume };
static const char *const sides[] = { "plain", "proved" };

/* Code and place of the last slice, the steps of all. */
static uint64_t call_slices(int side)
{
    uint64_t a = start_doors[side](strip, strip_len, args, sizeof args, memory, memory_len, results, sizeof results, image, sizeof image,
                                   SLICE_STEPS);
    uint64_t steps = a >> 32;
    for (slices = 1; (a & 0xFF) == BUDGET; slices++) {
        a = resume_doors[side](strip, strip_len, memory, memory_len, results, sizeof results, image, sizeof image, SLICE_STEPS);
        steps += a >> 32;
    }
    return (a & 0xFFFFFFFF) | steps << 32;
}

static uint64_t call(enum door door, int side)
{
    switch (door) {
    case CHECK:
        return check_doors[side](strip, strip_len);
    case RUN:
        return run_doors[side](strip, strip_len, args, sizeof args, memory, memory_len, results, sizeof results, BUDGET_MOST);
    default:
        return call_slices(side);
    }
}

static void differ(const char *name)
{
    printf("%s: the two differ\n", name);
    exit(1);
}

static void compare(void (*make_it)(int), int n, const char *name)
{
    static uint8_t memories[2][MEMORY_MOST], outs[2][SLOT];
    uint64_t answers[2][2];
    for (int side = 0; side < 2; side++) {
        make_it(n);
        answers[0][side] = call(CHECK, side);
        answers[1][side] = call(RUN, side);
        memcpy(memories[side], memory, memory_len);
        memcpy(outs[side], results, SLOT);
    }
    if (answers[0][0] != answer(DONE, 0, 0) || answers[1][0] != answer(DONE, 0, strip_instructions) || answers[0][0] != answers[0][1]
        || answers[1][0] != answers[1][1] || memcmp(memories[0], memories[1], memory_len) || memcmp(outs[0], outs[1], SLOT))
        differ(name);
}

/* In slices a loop leaves what it leaves at once. */
static void compare_slices(int n)
{
    static uint8_t left[MEMORY_MOST], out[SLOT];
    make_loop(n);
    call(RUN, 0);
    memcpy(left, memory, memory_len);
    memcpy(out, results, SLOT);
    for (int side = 0; side < 2; side++) {
        make_loop(n);
        if (call(SLICES, side) != answer(DONE, 0, strip_instructions) || memcmp(left, memory, memory_len) || memcmp(out, results, SLOT))
            differ(loops[n].name);
    }
}

static double now(void)
{
    struct timespec t;
    clock_gettime(CLOCK_MONOTONIC, &t);
    return 1e9 * t.tv_sec + t.tv_nsec;
}

static void measure_one(enum door door, int side, double *best)
{
    const double from = now();
    call(door, side);
    const double took = now() - from;
    if (took < *best)
        *best = took;
}

/* The best of all rounds, the two sides by turns. */
static void measure(enum door door, double best[2])
{
    best[0] = best[1] = 1e18;
    for (int round = 0; round < ROUNDS; round++)
        for (int side = 0; side < 2; side++)
            measure_one(door, side, &best[side]);
}

/* The same for a run at once and in slices, these by turns too. */
static void measure_slices(double run[2], double sliced[2])
{
    run[0] = run[1] = sliced[0] = sliced[1] = 1e18;
    for (int round = 0; round < ROUNDS; round++)
        for (int side = 0; side < 2; side++) {
            measure_one(RUN, side, &run[side]);
            measure_one(SLICES, side, &sliced[side]);
        }
}

static int one(char **words)
{
    static const struct {
        const char *name;
        enum door door;
        int loop;
    } doors[] = { { "check", CHECK, 0 }, { "run", RUN, 0 }, { "loop", RUN, 1 }, { "loop_check", CHECK, 1 }, { "slices", SLICES, 1 } };
    const int n = atoi(words[3]);
    for (size_t i = 0; i < sizeof doors / sizeof *doors; i++) {
        const int loop = doors[i].loop;
        if (strcmp(words[1], doors[i].name) || n < 0 || (loop ? LOOPS : UNITS) <= n)
            continue;
        (loop ? make_loop : make)(n);
        call(doors[i].door, !strcmp(words[2], sides[1]));
        printf("%s/%u", loop ? loops[n].name : units[n].name, strip_instructions);
        if (doors[i].door == SLICES)
            printf("/%u", slices);
        printf("\n");
        return 0;
    }
    return 1;
}

int main(int n, char **words)
{
    if (n == 4)
        return one(words);
    double check[2], run[2], sliced[2];
    printf("| unit of the strip | check: C ns | proved ns | ratio | run: C ns | proved ns | ratio |\n|---|---|---|---|---|---|---|\n");
    for (int u = 0; u < UNITS; u++) {
        compare(make, u, units[u].name);
        make(u);
        measure(CHECK, check);
        measure(RUN, run);
        const double k = strip_instructions;
        printf("| %s | %.2f | %.2f | %.2f | %.2f | %.2f | %.2f |\n", units[u].name, check[0] / k, check[1] / k, check[1] / check[0], run[0] / k,
               run[1] / k, run[1] / run[0]);
    }
    printf("\n| turn of the loop | run: C ns | proved ns | ratio |\n|---|---|---|---|\n");
    for (int i = 0; i < LOOPS; i++) {
        compare(make_loop, i, loops[i].name);
        make_loop(i);
        measure(RUN, run);
        const double k = strip_instructions;
        printf("| %s | %.2f | %.2f | %.2f |\n", loops[i].name, run[0] / k, run[1] / k, run[1] / run[0]);
    }
    compare_slices(0);
    make_loop(0);
    measure_slices(run, sliced);
    printf("\n| %s, in slices of %d steps | at once: ns | in slices: ns | more for a slice: ns |\n|---|---|---|---|\n", loops[0].name,
           SLICE_STEPS);
    for (int side = 0; side < 2; side++)
        printf("| %s | %.0f | %.0f | %.0f |\n", side ? "proved" : "C", run[side], sliced[side], (sliced[side] - run[side]) / (slices - 1));
    return 0;
}
