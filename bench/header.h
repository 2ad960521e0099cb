/* What comes before the first instruction. */
#ifndef HEADER_H
#define HEADER_H

#include <string.h>

#include "strip.h"

/* Answers DONE and where the first instruction is, or another code and its place. */
static inline enum code header(const uint8_t *s, size_t len, size_t *place)
{
#define REFUSE(c, p) return *place = (p), c
    if (FILE_MOST < len)
        REFUSE(LONG, 0);
    if (len < 8)
        REFUSE(SHORT, len);
    if (memcmp(s, "WGP", 3))
        REFUSE(MARK, 0);
    if ((s[3] != 1 && s[3] != 2) || s[4] != 0)
        REFUSE(VERSION, 3);
    if (PARAMETERS_MOST < s[5])
        REFUSE(COUNT, 5);
    if (LOCALS_MOST < s[6])
        REFUSE(COUNT, 6);
    if (RESULTS_MOST < s[7])
        REFUSE(COUNT, 7);
    const size_t first = 8 + s[5] + s[6] + s[7];
    for (size_t i = 8; i < first; i++) {
        if (len <= i)
            REFUSE(SHORT, len);
        if (s[i] != I32 && s[i] != I64 && s[i] != V128)
            REFUSE(KIND, i);
    }
    REFUSE(DONE, first);
#undef REFUSE
}

#endif
