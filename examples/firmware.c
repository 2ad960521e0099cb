/*
 * A filter in a terminal: the average of eight weights that lie in lent memory.
 * docs/FIRMWARE.md says how this is compiled, and what it prints and why.
 */
#include <inttypes.h>
#include <stdio.h>
#include <string.h>

#include "gevurlat.h"

/* One parameter (the address of the weights), one further local, one result. */
static const uint8_t average[] = {
    0x57, 0x47, 0x50, 0x01, 0x00, 1, 1, 1, 0x7F, 0x7B, 0x7F,
    0x20, 0,                /* 11 local.get 0 */
    0xFD, 0x00, 4, 0,       /* 13 v128.load: eight weights of 16 bits */
    0xFD, 0x7E,             /* 17 i32x4.extadd_pairwise_i16x8_s: four sums of two */
    0x22, 1, 0x20, 1, 0x20, 1,
                            /* 19 local.tee 1, 21 local.get 1, 23 local.get 1 */
    0xFD, 0x0D, 8, 9, 10, 11, 12, 13, 14, 15, 0, 1, 2, 3, 4, 5, 6, 7,
                            /* 25 i8x16.shuffle: the halves change places */
    0xFD, 0xAE, 0x01,       /* 43 i32x4.add: two sums of four, each twice */
    0x22, 1, 0x20, 1, 0x20, 1,
                            /* 46 local.tee 1, 48 local.get 1, 50 local.get 1 */
    0xFD, 0x0D, 4, 5, 6, 7, 0, 1, 2, 3, 12, 13, 14, 15, 8, 9, 10, 11,
                            /* 52 i8x16.shuffle: neighbours change places */
    0xFD, 0xAE, 0x01,       /* 70 i32x4.add: the sum of eight in each lane */
    0x41, 3,                /* 73 i32.const 3 */
    0xFD, 0xAC, 0x01,       /* 75 i32x4.shr_s: by eight, rounded down */
    0xFD, 0x1B, 0,          /* 78 i32x4.extract_lane 0 */
    0x0B                    /* 81 end */
};

static const char *name(uint8_t code)
{
#define NAME(word) case GEVURLAT_##word: return #word;
    switch (code) {
        NAME(DONE) NAME(LONG) NAME(SHORT) NAME(MARK) NAME(VERSION) NAME(COUNT)
        NAME(KIND) NAME(OPCODE) NAME(FLOAT) NAME(NUMBER) NAME(LANE) NAME(ALIGN)
        NAME(LOCAL) NAME(OPERAND) NAME(DEEP) NAME(RESULT) NAME(TRAILING)
        NAME(NEST) NAME(LABEL)
        NAME(ROOM) NAME(ARGS) NAME(OUT) NAME(FORM) NAME(SMALL) NAME(IMAGE)
        NAME(TRAP) NAME(BUDGET)
    }
#undef NAME
    return "on no card";
}

static void show(const char *what, uint64_t answer)
{
    printf("%s: %s, place %" PRIu32 ", steps %" PRIu32 "\n", what,
           name(gevurlat_code(answer)), gevurlat_place(answer), gevurlat_steps(answer));
}

/* An i32 lies in the first four of a value's sixteen bytes, least byte first. */
static void put_i32(uint8_t value[GEVURLAT_VALUE_BYTES], uint32_t x)
{
    int i;
    memset(value, 0, GEVURLAT_VALUE_BYTES);
    for (i = 0; i < 4; i++)
        value[i] = (uint8_t)(x >> 8 * i);
}

static int32_t get_i32(const uint8_t value[GEVURLAT_VALUE_BYTES])
{
    uint32_t x = 0;
    int i;
    for (i = 0; i < 4; i++)
        x |= (uint32_t)value[i] << 8 * i;
    return x < 0x80000000u ? (int32_t)x : -(int32_t)(0xFFFFFFFFu - x) - 1;
}

int main(void)
{
    /* An empty scale that is a little off: their sum is -81. */
    static const int16_t weights[8] = { -12, -8, -11, -9, -10, -13, -7, -11 };
    uint8_t memory[16];
    uint8_t address[GEVURLAT_VALUE_BYTES];
    uint8_t result[GEVURLAT_VALUE_BYTES];
    uint8_t broken[sizeof average];
    uint64_t answer;
    int i;

    for (i = 0; i < 8; i++) {
        memory[2 * i] = (uint8_t)((uint16_t)weights[i] & 0xFF);
        memory[2 * i + 1] = (uint8_t)((uint16_t)weights[i] >> 8);
    }
    memset(result, 0, sizeof result);

    show("check", gevurlat_check(average, sizeof average));

    put_i32(address, 0);
    answer = gevurlat_run(average, sizeof average, address, sizeof address,
                          memory, sizeof memory, result, sizeof result, 1000);
    show("run", answer);
    if (gevurlat_code(answer) == GEVURLAT_DONE)
        printf("average: %" PRId32 "\n", get_i32(result));

    /* Weights that begin one byte later end past the memory. */
    put_i32(address, 1);
    show("from 1", gevurlat_run(average, sizeof average, address, sizeof address,
                                memory, sizeof memory, result, sizeof result, 1000));

    put_i32(address, 0);
    show("budget 5", gevurlat_run(average, sizeof average, address, sizeof address,
                                  memory, sizeof memory, result, sizeof result, 5));

    /* A strip that takes an argument is given none. */
    show("no args", gevurlat_run(average, sizeof average, NULL, 0,
                                 memory, sizeof memory, result, sizeof result, 1000));

    /* f32x4.add in the place of the first i32x4.add. */
    memcpy(broken, average, sizeof average);
    broken[44] = 0xE4;
    show("float", gevurlat_check(broken, sizeof broken));
    return 0;
}
