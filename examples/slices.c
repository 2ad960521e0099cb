/*
 * A filter that runs in slices of 1,000 steps, so that the terminal comes to
 * its other work between them. docs/FIRMWARE.md says how this is compiled, and
 * what it prints and why.
 */
#include <inttypes.h>
#include <stdio.h>
#include <string.h>

#include "gevurlat.h"

/*
 * A moving average in place: each weight of 16 bits becomes the mean of itself
 * and the next three. One parameter (the bytes of all weights), one further
 * local (the address), one result (the address at the end).
 */
static const uint8_t smooth[] = {
    0x57, 0x47, 0x50, 0x02, 0x00, 1, 1, 1, 0x7F, 0x7F, 0x7F,
    0x03, 0x40,             /* 11 loop, which leaves nothing */
    0x20, 1,                /* 13 local.get 1, for the store at 53 */
    0x20, 1, 0xFD, 0x00, 0, 0,
                            /* 15 local.get 1, 17 v128.load: eight weights */
    0x20, 1, 0xFD, 0x00, 0, 2, 0xFD, 0x8E, 0x01,
                            /* 21 the same one weight later, 27 i16x8.add */
    0x20, 1, 0xFD, 0x00, 0, 4, 0xFD, 0x8E, 0x01,
                            /* 30 two weights later */
    0x20, 1, 0xFD, 0x00, 0, 6, 0xFD, 0x8E, 0x01,
                            /* 39 three weights later */
    0x41, 2,                /* 48 i32.const 2 */
    0xFD, 0x8C, 0x01,       /* 50 i16x8.shr_s: by four, rounded down */
    0xFD, 0x0B, 0, 0,       /* 53 v128.store */
    0x20, 1, 0x41, 16, 0x6A, 0x22, 1,
                            /* 57 local.get 1, i32.const 16, i32.add, 62 local.tee 1 */
    0x20, 0, 0x49,          /* 64 local.get 0, 66 i32.lt_u */
    0x0D, 0,                /* 67 br_if 0: the next eight */
    0x0B,                   /* 69 end of the loop */
    0x20, 1,                /* 70 local.get 1 */
    0x0B                    /* 72 end */
};

enum { WEIGHTS = 2048, BYTES = 2 * WEIGHTS, SLICE = 1000 };

/* The last eight weights are read with the three after them. */
static uint8_t memory[BYTES + 6], once[BYTES + 6];
static uint8_t image[GEVURLAT_IMAGE_BYTES];

/* A weight that comes to rest at 1,200, with some noise. */
static void weigh(uint8_t *bytes)
{
    uint32_t noise = 1;
    int i;
    for (i = 0; i < WEIGHTS + 3; i++) {
        uint32_t weight = 1200;
        if (i < 600)
            weight = 2 * (uint32_t)i;
        noise = noise * 1103515245u + 12345u;
        weight += noise >> 16 & 15;
        bytes[2 * i] = (uint8_t)(weight & 0xFF);
        bytes[2 * i + 1] = (uint8_t)(weight >> 8);
    }
}

/* An i32 lies in the first four of a value's sixteen bytes, least byte first. */
static void put_i32(uint8_t value[GEVURLAT_VALUE_BYTES], uint32_t x)
{
    int i;
    memset(value, 0, GEVURLAT_VALUE_BYTES);
    for (i = 0; i < 4; i++)
        value[i] = (uint8_t)(x >> 8 * i);
}

static void show(const char *what, uint64_t answer)
{
    printf("%s: code %u, place %" PRIu32 ", steps %" PRIu32 "\n", what,
           (unsigned)gevurlat_code(answer), gevurlat_place(answer), gevurlat_steps(answer));
}

int main(void)
{
    uint8_t bytes[GEVURLAT_VALUE_BYTES];
    uint8_t result[GEVURLAT_VALUE_BYTES], result_once[GEVURLAT_VALUE_BYTES];
    uint64_t answer;
    uint32_t steps;

    weigh(memory);
    weigh(once);
    put_i32(bytes, BYTES);
    memset(image, 0, sizeof image);
    memset(result, 0, sizeof result);
    memset(result_once, 0, sizeof result_once);

    answer = gevurlat_start(smooth, sizeof smooth, bytes, sizeof bytes, memory, sizeof memory,
                            result, sizeof result, image, sizeof image, SLICE);
    show("start", answer);
    steps = gevurlat_steps(answer);
    while (gevurlat_code(answer) == GEVURLAT_BUDGET) {
        /*
         * Here the terminal does its other work. Memory and image are its own
         * and stay as they are; nothing else is kept, and none of it by the library.
         */
        answer = gevurlat_resume(smooth, sizeof smooth, memory, sizeof memory,
                                 result, sizeof result, image, sizeof image, SLICE);
        show("resume", answer);
        steps += gevurlat_steps(answer);
    }

    /* The same at once. */
    answer = gevurlat_run(smooth, sizeof smooth, bytes, sizeof bytes, once, sizeof once,
                          result_once, sizeof result_once, 1000000);
    show("at once", answer);
    printf("all slices: steps %" PRIu32 ", memory and result %s\n", steps,
           memcmp(memory, once, sizeof memory) || memcmp(result, result_once, sizeof result) ? "differ" : "are the same");

    /* The image is still that of the last slice that was out of steps. With another mark it is none. */
    image[2] = 'P';
    show("no image", gevurlat_resume(smooth, sizeof smooth, memory, sizeof memory,
                                     result, sizeof result, image, sizeof image, SLICE));
    show("no room", gevurlat_resume(smooth, sizeof smooth, memory, sizeof memory,
                                    result, sizeof result, image, sizeof image - 1, SLICE));
    return 0;
}
