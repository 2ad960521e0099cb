/* Numbers (Core 5.2.2 and document 01, "Instructions"). */
#ifndef LEB128_H
#define LEB128_H

#include "strip.h"

enum width { U32, S32, S64 };

/* The last byte that a width may have holds the bits that are left, and for a signed number copies of its sign. */
static inline int last_allowed(enum width w, uint8_t b)
{
    switch (w) {
    case U32: return b <= 0x0F;
    case S32: return b <= 0x07 || (0x78 <= b && b <= 0x7F);
    default: return b == 0x00 || b == 0x7F;
    }
}

/* Reads the number at *at and moves *at past it. Answers DONE, SHORT or NUMBER. */
static inline enum code read_number(enum width w, const uint8_t *s, size_t len, size_t *at, uint64_t *value)
{
    const unsigned last = w == S64 ? 9 : 4;
    uint64_t v = 0;
    for (unsigned i = 0;; i++) {
        if (len <= *at + i)
            return SHORT;
        const uint8_t b = s[*at + i];
        if (i == last && !last_allowed(w, b))
            return NUMBER;
        v |= (uint64_t)(b & 0x7F) << 7 * i;
        if (b < 0x80) {
            if (w != U32 && (b & 0x40) && i < 9)
                v |= ~(uint64_t)0 << 7 * (i + 1);
            *value = v;
            *at += i + 1;
            return DONE;
        }
    }
}

#endif
