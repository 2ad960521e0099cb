/* What both interpreters answer (document 01, "Numbers on the inspector's card", and requests C-13 to C-15), and the doors of the plain
   one. */
#ifndef STRIP_H
#define STRIP_H

#include <stddef.h>
#include <stdint.h>

#include "../include/gevurlat.h" /* the doors of the proved one; its lister is a program */

enum code {
    DONE, LONG, SHORT, MARK, VERSION, COUNT, KIND, OPCODE, FLOAT, NUMBER, LANE, ALIGN, LOCAL, OPERAND, DEEP, RESULT, TRAILING, NEST, LABEL,
    ROOM = 20, ARGS, OUT, FORM, SMALL, IMAGE,
    TRAP = 30, BUDGET
};

enum { I32 = 0x7F, I64 = 0x7E, V128 = 0x7B, EMPTY = 0x40 };

enum { FILE_MOST = 65536, MEMORY_MOST = 1048576, STACK_MOST = 256, PARAMETERS_MOST = 16, LOCALS_MOST = 16, RESULTS_MOST = 4, SLOT = 16 };

/* Blocks that may be open at once, the strip itself not counted. */
enum { BLOCKS_MOST = 32 };

/* An image (requests C-14, C-15): "WGS", version, place and depth in 2, 4 and 2 bytes, least byte first; then the locals and the stack. */
enum { IMAGE_VERSION = 2, PLACE_AT = 5, DEPTH_AT = 9, LOCALS_AT = 11, STACK_AT = LOCALS_AT + SLOT * (PARAMETERS_MOST + LOCALS_MOST),
       IMAGE_BYTES = STACK_AT + SLOT * STACK_MOST };

/* The header for C programs names the same limits. */
_Static_assert(FILE_MOST == GEVURLAT_STRIP_MOST && MEMORY_MOST == GEVURLAT_MEMORY_MOST && STACK_MOST == GEVURLAT_STACK_MOST
               && PARAMETERS_MOST == GEVURLAT_PARAMETERS_MOST && RESULTS_MOST == GEVURLAT_RESULTS_MOST && SLOT == GEVURLAT_VALUE_BYTES
               && BLOCKS_MOST == GEVURLAT_NEST_MOST && IMAGE_BYTES == GEVURLAT_IMAGE_BYTES, "a limit of the header is another");

/* An instruction has a byte at least. In its line a kind takes 5 bytes with the blank, all else less than 128: a name 29, sixteen bytes 64,
   a place 5. */
enum { LISTED_MOST = 5 * STACK_MOST + 128, LISTING_MOST = LISTED_MOST * FILE_MOST };

/* Code in bits 0-7, place in 8-31, steps in 32-63. */
static inline uint64_t answer(unsigned code, size_t place, uint32_t steps)
{
    return code | (uint64_t)place << 8 | (uint64_t)steps << 32;
}

uint64_t plain_check(const uint8_t *strip, size_t strip_len);

/* The check before a run: of each block and loop it writes the place of its `end` where the place of its first instruction says, if `ends`
   is lent: FILE_MOST numbers. */
uint64_t plain_matched(const uint8_t *strip, size_t strip_len, uint16_t *ends);

uint64_t plain_run(const uint8_t *strip, size_t strip_len, const uint8_t *args, size_t args_len, uint8_t *memory, size_t memory_len,
                   uint8_t *results, size_t results_len, uint32_t budget);

/* A run that leaves an image where its budget is spent, and the run that goes on from one (request C-14). */
uint64_t plain_start(const uint8_t *strip, size_t strip_len, const uint8_t *args, size_t args_len, uint8_t *memory, size_t memory_len,
                     uint8_t *results, size_t results_len, uint8_t *image, size_t image_len, uint32_t budget);
uint64_t plain_resume(const uint8_t *strip, size_t strip_len, uint8_t *memory, size_t memory_len, uint8_t *results, size_t results_len,
                      uint8_t *image, size_t image_len, uint32_t budget);

/* The listing of request C-11; its length is where a run has its steps. Then what the command prints: the listing, or code and place;
   it answers how many bytes that is. */
uint64_t plain_list(const uint8_t *strip, size_t strip_len, uint8_t *out, size_t out_len);
size_t plain_listing(const uint8_t *strip, size_t strip_len, uint8_t out[LISTING_MOST]);

#endif
