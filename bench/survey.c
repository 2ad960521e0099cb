/* The check before a resume: one walk tells whether the strip is good, where its blocks end, and what is known at the image's place. */
#include "header.h"
#include "walk.h"

uint64_t plain_surveyed(const uint8_t *s, size_t len, uint16_t *ends, struct survey *survey)
{
    size_t place;
    const enum code code = header(s, len, &place);
    return code ? answer(code, place, 0) : walk(s[3], s, len, ends, survey);
}
