/* The check of a whole strip: the header, then each instruction and its kinds. */
#include "header.h"
#include "walk.h"

uint64_t plain_matched(const uint8_t *s, size_t len, uint16_t *ends)
{
    size_t place;
    const enum code code = header(s, len, &place);
    if (code)
        return answer(code, place, 0);
    return s[3] == 1 ? walk_1(s, len) : walk(2, s, len, ends, NULL);
}

uint64_t plain_check(const uint8_t *s, size_t len)
{
    return plain_matched(s, len, NULL);
}
