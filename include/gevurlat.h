/*
 * Gevurlat: the check of a strip and its run, at once or in slices, for firmware
 * in C99 or C++. Link with libdoors.a; docs/FIRMWARE.md says how it is built.
 *
 * Every function returns, whatever bytes come in. They call memcpy, memmove and
 * memset and nothing else, allocate nothing and keep nothing between two calls.
 * docs/FIRMWARE.md says how much stack each takes.
 *
 * What the caller owes, since nothing proves a C caller:
 *  - each pointer leads to as many bytes as the length beside it says;
 *  - every byte that is lent has been written before the call;
 *  - memory, results and image overlap neither each other nor strip or args;
 *  - nobody else writes what is lent before the call returns.
 * Where a length is 0 nothing is read or written through its pointer, and the
 * pointer may be NULL.
 */
#ifndef GEVURLAT_H
#define GEVURLAT_H

#include <stddef.h>
#include <stdint.h>

#ifdef __cplusplus
extern "C" {
#endif

/* Limits. A longer strip is LONG, a larger memory is ROOM, a fuller stack is DEEP. */
#define GEVURLAT_STRIP_MOST 65536      /* bytes of a strip */
#define GEVURLAT_MEMORY_MOST 1048576   /* bytes of the lent memory */
#define GEVURLAT_PARAMETERS_MOST 16    /* values that a strip takes */
#define GEVURLAT_RESULTS_MOST 4        /* values that a strip gives */
#define GEVURLAT_VALUE_BYTES 16        /* bytes of a value in args and results */
#define GEVURLAT_STACK_MOST 256        /* values on the operand stack */
#define GEVURLAT_NEST_MOST 32          /* blocks inside blocks, the strip not counted */
#define GEVURLAT_IMAGE_BYTES 4619      /* bytes of the image of a run between two slices */

/* The codes of the inspector's card, and the place that goes with each. */
enum {
    GEVURLAT_DONE = 0,      /* all is well; 0 */
    /* The strip is turned away: all four functions answer these. */
    GEVURLAT_LONG = 1,      /* over 65,536 bytes; 0 */
    GEVURLAT_SHORT = 2,     /* stops before the item being read is whole; the strip's length */
    GEVURLAT_MARK = 3,      /* does not begin with "WGP"; 0 */
    GEVURLAT_VERSION = 4,   /* the version is neither 1 nor 2; 3 */
    GEVURLAT_COUNT = 5,     /* too many parameters, further locals or results; 5, 6 or 7 */
    GEVURLAT_KIND = 6,      /* a byte that is no kind, or no block type; that byte */
    GEVURLAT_OPCODE = 7,    /* no such instruction here; the instruction */
    GEVURLAT_FLOAT = 8,     /* a float instruction, which is not carried; the instruction */
    GEVURLAT_NUMBER = 9,    /* a LEB128 number too long or with bad last bits; its first byte */
    GEVURLAT_LANE = 10,     /* a lane index too large; that byte */
    GEVURLAT_ALIGN = 11,    /* an alignment exponent too large; its first byte */
    GEVURLAT_LOCAL = 12,    /* a local that is not declared; the instruction */
    GEVURLAT_OPERAND = 13,  /* an operand missing or of another kind; the instruction */
    GEVURLAT_DEEP = 14,     /* more than 256 known values on the stack; the instruction */
    GEVURLAT_RESULT = 15,   /* the stack at `end` is not its block's, or the strip's, results; `end` */
    GEVURLAT_TRAILING = 16, /* bytes after the strip's `end`; the first of them */
    GEVURLAT_NEST = 17,     /* a block inside 32 others; the instruction */
    GEVURLAT_LABEL = 18,    /* a branch to a block that is not there; the instruction */
    /* The strip is good, what is lent is not: the check answers none of these. */
    GEVURLAT_ROOM = 20,     /* the memory is over 1,048,576 bytes; 0 */
    GEVURLAT_ARGS = 21,     /* args_len is not 16 for each parameter; 0 (not the resume) */
    GEVURLAT_OUT = 22,      /* results_len is not 16 for each result; 0 */
    GEVURLAT_FORM = 23,     /* an argument's unused bytes are not zero; 0 (not the resume) */
    GEVURLAT_SMALL = 24,    /* image_len is below 4,619; 0 (the start and the resume) */
    GEVURLAT_IMAGE = 25,    /* the image's mark, version, place, depth or unused bytes are wrong; 0 (the resume) */
    /* The run began and did not reach `end`. */
    GEVURLAT_TRAP = 30,     /* an access past the memory's end; the instruction */
    GEVURLAT_BUDGET = 31    /* as many steps as the budget; the next instruction */
};

/*
 * The answer of each function is one number: code in bits 0-7, place in bits 8-31,
 * steps in bits 32-63. A place is a byte offset in the strip; steps are the
 * instructions completed, each as often as it is, `end` included.
 */
static inline uint8_t gevurlat_code(uint64_t answer)
{
    return (uint8_t)(answer & 0xFF);
}

static inline uint32_t gevurlat_place(uint64_t answer)
{
    return (uint32_t)(answer >> 8 & 0xFFFFFF);
}

static inline uint32_t gevurlat_steps(uint64_t answer)
{
    return (uint32_t)(answer >> 32);
}

/*
 * The check: DONE where the strip keeps every rule, else its first breach, 1 to
 * 18, and where it is. Steps are 0. Nothing is written.
 */
uint64_t gevurlat_check(const uint8_t *strip, size_t strip_len);

/*
 * The run. It asks what the check asks, then 20 to 23, then runs the strip.
 *
 *  strip    the strip file
 *  args     16 bytes for each parameter, first parameter first: an i32 in the
 *           first 4 bytes, an i64 in the first 8, least byte first, the rest
 *           zero; a v128 in all 16, byte 0 first
 *  memory   what the strip loads from and stores to, 0 to 1,048,576 bytes
 *  results  16 bytes for each result, in the same form
 *  budget   how many instructions may be completed
 *
 * What is written:
 *  DONE          memory, by the strip's stores, and all bytes of results
 *  TRAP, BUDGET  memory, by the stores of the completed steps; not results
 *  any other     nothing, and steps are 0
 */
uint64_t gevurlat_run(const uint8_t *strip, size_t strip_len,
                      const uint8_t *args, size_t args_len,
                      uint8_t *memory, size_t memory_len,
                      uint8_t *results, size_t results_len,
                      uint32_t budget);

/*
 * The first slice of a run. It asks what the run asks, then 24, also where the
 * strip would end within the budget; then it runs the strip as the run does.
 *
 *  image    room for an image: GEVURLAT_IMAGE_BYTES, or more
 *  budget   how many instructions may be completed in this slice
 *
 * What is written:
 *  DONE          memory, by the strip's stores, and all bytes of results
 *  TRAP          memory, by the stores of the completed steps
 *  BUDGET        memory, by the stores of the completed steps, and the first
 *                4,619 bytes of image: where the run is, its locals and its
 *                stack, for gevurlat_resume
 *  any other     nothing, and steps are 0
 * Only DONE writes results. Only BUDGET writes image, and no byte beyond 4,619.
 *
 * The memory is not in the image. It is the caller's, and has to be kept as it
 * is until the next slice.
 */
uint64_t gevurlat_start(const uint8_t *strip, size_t strip_len,
                        const uint8_t *args, size_t args_len,
                        uint8_t *memory, size_t memory_len,
                        uint8_t *results, size_t results_len,
                        uint8_t *image, size_t image_len,
                        uint32_t budget);

/*
 * The next slice: of the same strip, with the image that the last slice left,
 * with the memory as that left it, and with a buffer for the same results. It
 * asks what the check asks, then 20, 22, 24 and 25; then it goes on. There are
 * no arguments: they are in the image.
 *
 * IMAGE, 25: a wrong mark or version; a place at which no instruction of the
 * strip starts, or that stands after a `br`, up to and with the `end` around
 * it; a depth that is not the check's there; or unused bytes that are not zero.
 * The version is 2. An image of version 1 is IMAGE too, or SMALL where
 * image_len is below 4,619, since 24 is asked first.
 * An image that is not turned away is safe to go on from, whoever wrote it.
 *
 * Steps are those of this slice. What is written is what gevurlat_start writes.
 * However a budget is cut into slices, of 0 steps too: the last code and place,
 * the results, the memory and the sum of the steps are those of one run.
 */
uint64_t gevurlat_resume(const uint8_t *strip, size_t strip_len,
                         uint8_t *memory, size_t memory_len,
                         uint8_t *results, size_t results_len,
                         uint8_t *image, size_t image_len,
                         uint32_t budget);

#ifdef __cplusplus
}
#endif

#endif
