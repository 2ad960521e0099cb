/* The vector instructions that work lane by lane, as cases of the machine's switch. `sp` is one past the top of the stack; in an
   expression `a` is the first operand, `b` the second, `i` the lane. */
#ifndef LANES_H
#define LANES_H

#include <stdint.h>
#ifdef __SSE2__
#include <emmintrin.h>
#endif

/* A value of sixteen bytes; this host is little-endian, as lanes are. */
union slot {
    uint8_t u8[16];
    int8_t s8[16];
    uint16_t u16[8];
    int16_t s16[8];
    uint32_t u32[4];
    int32_t s32[4];
    uint64_t u64[2];
    int64_t s64[2];
};

static inline int clamp(int z, int least, int largest)
{
    return z < least ? least : largest < z ? largest : z;
}

static inline union slot number_slot(uint64_t n)
{
    union slot r = { .u64 = { n, 0 } };
    return r;
}

/* The ones of each of eight bytes: half a byte, less itself halved once, twice and thrice, is the number of its ones. GCC's builtin would be a
   call for each byte on plain x86-64. */
static inline uint64_t byte_counts(uint64_t x)
{
    uint64_t halved = x;
    for (int i = 0; i < 3; i++) {
        halved = halved >> 1 & 0x7777777777777777;
        x -= halved;
    }
    return (x + (x >> 4)) & 0x0F0F0F0F0F0F0F0F;
}

#define UNARY_LANES(op, n, to, e)             \
    case VECTOR + (op): {                     \
        const union slot a = sp[-1];          \
        union slot r;                         \
        for (int i = 0; i < n; i++)           \
            r.to[i] = e;                      \
        sp[-1] = r;                           \
        break;                                \
    }
/* Of two values: `second` declares what the expression takes of the upper one. */
#define PAIRED_LANES(op, n, to, e, second)    \
    case VECTOR + (op): {                     \
        const union slot a = sp[-2];          \
        second;                               \
        union slot r;                         \
        for (int i = 0; i < n; i++)           \
            r.to[i] = e;                      \
        sp--;                                 \
        sp[-1] = r;                           \
        break;                                \
    }
#define BINARY_LANES(op, n, to, e) PAIRED_LANES(op, n, to, e, const union slot b = sp[-1])
/* The count is taken modulo the width. */
#define SHIFT_LANES(op, n, to, e) PAIRED_LANES(op, n, to, e, const unsigned k = sp[-1].u32[0] % (128 / n))
/* One number of all lanes: r begins as `first` and takes in each lane. */
#define FOLD_LANES(op, n, first, e)           \
    case VECTOR + (op): {                     \
        const union slot a = sp[-1];          \
        uint32_t r = first;                   \
        for (int i = 0; i < n; i++)           \
            r = e;                            \
        sp[-1] = number_slot(r);              \
        break;                                \
    }
/* The lanes' signs: by the compiler's builtins for the chip's vector unit, which is what is timed; on another chip by a loop. */
#ifdef __SSE2__
#define SIGNS(op, n, s, e)                                          \
    case VECTOR + (op): {                                           \
        const __m128i a = _mm_loadu_si128((const __m128i *)&sp[-1]); \
        sp[-1] = number_slot(e);                                    \
        break;                                                      \
    }
#else
#define SIGNS(op, n, s, e) FOLD_LANES(op, n, 0, r | (uint32_t)(a.s[i] < 0) << i)
#endif

/* What every shape has beside its signs, at the same distance from its first number. */
#define SHAPE(base, n, u, s)                                        \
    UNARY_LANES(base + 0x00, n, u, a.s[i] < 0 ? 0 - a.u[i] : a.u[i]) \
    UNARY_LANES(base + 0x01, n, u, 0 - a.u[i])                      \
    FOLD_LANES(base + 0x03, n, 1, r & (a.u[i] != 0))                \
    SHIFT_LANES(base + 0x0B, n, u, a.u[i] << k)                     \
    SHIFT_LANES(base + 0x0C, n, s, a.s[i] >> k)                     \
    SHIFT_LANES(base + 0x0D, n, u, a.u[i] >> k)                     \
    BINARY_LANES(base + 0x0E, n, u, a.u[i] + b.u[i])                \
    BINARY_LANES(base + 0x11, n, u, a.u[i] - b.u[i])

#define COMPARISONS(base, n, u, s)                      \
    BINARY_LANES(base + 0, n, u, -(a.u[i] == b.u[i]))   \
    BINARY_LANES(base + 1, n, u, -(a.u[i] != b.u[i]))   \
    BINARY_LANES(base + 2, n, u, -(a.s[i] < b.s[i]))    \
    BINARY_LANES(base + 3, n, u, -(a.u[i] < b.u[i]))    \
    BINARY_LANES(base + 4, n, u, -(a.s[i] > b.s[i]))    \
    BINARY_LANES(base + 5, n, u, -(a.u[i] > b.u[i]))    \
    BINARY_LANES(base + 6, n, u, -(a.s[i] <= b.s[i]))   \
    BINARY_LANES(base + 7, n, u, -(a.u[i] <= b.u[i]))   \
    BINARY_LANES(base + 8, n, u, -(a.s[i] >= b.s[i]))   \
    BINARY_LANES(base + 9, n, u, -(a.u[i] >= b.u[i]))

#define SIGNED_COMPARISONS(base, n, u, s)               \
    BINARY_LANES(base + 0, n, u, -(a.u[i] == b.u[i]))   \
    BINARY_LANES(base + 1, n, u, -(a.u[i] != b.u[i]))   \
    BINARY_LANES(base + 2, n, u, -(a.s[i] < b.s[i]))    \
    BINARY_LANES(base + 3, n, u, -(a.s[i] > b.s[i]))    \
    BINARY_LANES(base + 4, n, u, -(a.s[i] <= b.s[i]))   \
    BINARY_LANES(base + 5, n, u, -(a.s[i] >= b.s[i]))

#define EXTREMES(base, n, u, s)                                     \
    BINARY_LANES(base + 0x16, n, s, a.s[i] < b.s[i] ? a.s[i] : b.s[i]) \
    BINARY_LANES(base + 0x17, n, u, a.u[i] < b.u[i] ? a.u[i] : b.u[i]) \
    BINARY_LANES(base + 0x18, n, s, a.s[i] > b.s[i] ? a.s[i] : b.s[i]) \
    BINARY_LANES(base + 0x19, n, u, a.u[i] > b.u[i] ? a.u[i] : b.u[i])

/* Lanes of 8 and 16 bits: an int holds every sum and difference. */
#define SATURATING(base, n, u, s, least, largest, most)                          \
    BINARY_LANES(base + 0x0F, n, s, clamp(a.s[i] + b.s[i], least, largest))      \
    BINARY_LANES(base + 0x10, n, u, clamp(a.u[i] + b.u[i], 0, most))             \
    BINARY_LANES(base + 0x12, n, s, clamp(a.s[i] - b.s[i], least, largest))      \
    BINARY_LANES(base + 0x13, n, u, clamp(a.u[i] - b.u[i], 0, most))             \
    BINARY_LANES(base + 0x1B, n, u, (a.u[i] + b.u[i] + 1) / 2)

/* From lanes twice as wide, read as signed for both endings. */
#define NARROWING(base, half, u, s, from, least, largest, most)                                 \
    BINARY_LANES(base + 0x05, 2 * half, s, clamp(i < half ? a.from[i] : b.from[i - half], least, largest)) \
    BINARY_LANES(base + 0x06, 2 * half, u, clamp(i < half ? a.from[i] : b.from[i - half], 0, most))

/* From lanes half as wide: n lanes of `wide`, out of lanes us and ss. */
#define WIDENING(base, n, wide, us, ss)                                                  \
    UNARY_LANES(base + 0x07, n, wide, a.ss[i])                                           \
    UNARY_LANES(base + 0x08, n, wide, a.ss[i + n])                                       \
    UNARY_LANES(base + 0x09, n, wide, a.us[i])                                           \
    UNARY_LANES(base + 0x0A, n, wide, a.us[i + n])                                       \
    BINARY_LANES(base + 0x1C, n, wide, (int64_t)a.ss[i] * b.ss[i])                       \
    BINARY_LANES(base + 0x1D, n, wide, (int64_t)a.ss[i + n] * b.ss[i + n])               \
    BINARY_LANES(base + 0x1E, n, wide, (uint64_t)a.us[i] * b.us[i])                      \
    BINARY_LANES(base + 0x1F, n, wide, (uint64_t)a.us[i + n] * b.us[i + n])

#define PAIRWISE(first, n, wide, us, ss)                               \
    UNARY_LANES(first, n, wide, a.ss[2 * i] + a.ss[2 * i + 1])         \
    UNARY_LANES(first + 1, n, wide, a.us[2 * i] + a.us[2 * i + 1])

#endif
