/* The run: one switch over the instructions, one slot of sixteen bytes for each value, whatever its kind. */
#include "machine.h"

/* What a run asks when the strip is good. */
static enum code lent(const uint8_t *s, const uint8_t *args, size_t args_len, size_t memory_len, size_t results_len, size_t image_len)
{
    if (MEMORY_MOST < memory_len)
        return ROOM;
    if (args_len != SLOT * (size_t)s[5])
        return ARGS;
    if (results_len != SLOT * (size_t)s[7])
        return OUT;
    if (!formed(args, s + 8, s[5]))
        return FORM;
    return image_len < IMAGE_BYTES ? SMALL : DONE;
}

/* What a resume asks. */
static enum code lent_again(const uint8_t *s, const struct survey *survey, size_t memory_len, size_t results_len, const uint8_t *image,
                            size_t image_len)
{
    if (MEMORY_MOST < memory_len)
        return ROOM;
    if (results_len != SLOT * (size_t)s[7])
        return OUT;
    if (image_len < IMAGE_BYTES)
        return SMALL;
    return shows(image, s, survey) ? DONE : IMAGE;
}

/* In a case: the bytes that the access moves, at `address`, are in bounds. */
#define ACCESS(slot, size)                                        \
    const uint64_t first = (uint64_t)slot.u32[0] + in.index;      \
    if (memory_len < first + size)                                \
        return answer(TRAP, at, steps);                           \
    uint8_t *const address = memory + first;

#define LOAD_LANES(op, size, n, to, from) \
    case VECTOR + (op): {                 \
        ACCESS(sp[-1], size)              \
        union slot a, r;                  \
        memcpy(&a, address, size);        \
        for (int i = 0; i < n; i++)       \
            r.to[i] = a.from[i];          \
        sp[-1] = r;                       \
        break;                            \
    }
#define LOAD_SPLAT(op, size, n, u)        \
    case VECTOR + (op): {                 \
        ACCESS(sp[-1], size)              \
        union slot a, r;                  \
        memcpy(&a, address, size);        \
        for (int i = 0; i < n; i++)       \
            r.u[i] = a.u[0];              \
        sp[-1] = r;                       \
        break;                            \
    }
#define LOAD_ZERO(op, size)               \
    case VECTOR + (op): {                 \
        ACCESS(sp[-1], size)              \
        sp[-1] = number_slot(0);          \
        memcpy(&sp[-1], address, size);   \
        break;                            \
    }
#define LOAD_LANE_OF(op, size)                               \
    case VECTOR + (op): {                                    \
        ACCESS(sp[-2], size)                                 \
        sp[-2] = sp[-1];                                     \
        memcpy(sp[-2].u8 + size * in.lane, address, size);   \
        sp--;                                                \
        break;                                               \
    }
#define STORE_LANE_OF(op, size)                              \
    case VECTOR + (op): {                                    \
        ACCESS(sp[-2], size)                                 \
        memcpy(address, sp[-1].u8 + size * in.lane, size);   \
        sp -= 2;                                             \
        break;                                               \
    }
#define SPLAT_OF(op, n, u) UNARY_LANES(op, n, u, a.u[0])
#define EXTRACT_OF(op, lane_value)           \
    case VECTOR + (op):                      \
        sp[-1] = number_slot(lane_value);    \
        break;
#define REPLACE_OF(op, u)                    \
    case VECTOR + (op):                      \
        sp[-2].u[in.lane] = sp[-1].u[0];     \
        sp--;                                \
        break;

/* From where the machine stands, until the strip is left, an access traps or the budget is spent. */
static uint64_t go_on(const uint8_t *s, size_t len, const uint16_t *ends, struct machine *m, uint8_t *memory, size_t memory_len,
                      uint8_t *results, size_t results_len, uint8_t *image, uint32_t budget)
{
    union slot *const locals = m->locals, *sp = m->stack + m->depth;
    struct label *const labels = m->labels;
    size_t blocks = m->blocks, at = m->at;
    for (uint32_t steps = 0;; steps++) {
        struct instruction in;
        size_t place;
        enum code code;
        if (steps == budget) {
            if (image)
                paint(image, at, m, sp - m->stack);
            return answer(BUDGET, at, steps);
        }
        if ((code = decode(2, s, len, at, &in, &place))) /* the check has seen to it that version 1 has nothing of version 2 */
            return answer(code, place, 0);
        switch (in.op) {
        case BLOCK:
            labels[blocks++] = (struct label){ sp, ends[in.end] + 1, in.type != EMPTY, 0 };
            break;
        case LOOP:
            labels[blocks++] = (struct label){ sp, in.end, 0, 1 };
            break;
        case BR_IF:
            if ((--sp)->u32[0] == 0)
                break; /* else as br */
        case BR: {
            if (blocks == in.index)
                goto done;
            const struct label *l = &labels[blocks - 1 - in.index];
            memmove(l->under, sp - l->carries, SLOT * l->carries);
            sp = l->under + l->carries;
            blocks = l - labels + l->stays;
            at = l->to;
            continue;
        }
        case END:
            if (blocks) {
                blocks--;
                break;
            }
        done:
            if (results_len)
                memcpy(results, (uint8_t *)sp - results_len, results_len);
            return answer(DONE, 0, steps + 1);
        case DROP:
            sp--;
            break;
        case LOCAL_GET:
            *sp++ = locals[in.index];
            break;
        case LOCAL_SET:
            locals[in.index] = *--sp;
            break;
        case LOCAL_TEE:
            locals[in.index] = sp[-1];
            break;
        case I32_CONST:
        case I64_CONST:
            *sp++ = number_slot(in.number);
            break;
        case I32_EQZ:
            sp[-1] = number_slot(sp[-1].u32[0] == 0);
            break;
        case I32_LT_U:
            sp--;
            sp[-1] = number_slot(sp[-1].u32[0] < sp[0].u32[0]);
            break;
        case I32_ADD:
            sp--;
            sp[-1] = number_slot(sp[-1].u32[0] + sp[0].u32[0]);
            break;
        case I32_SUB:
            sp--;
            sp[-1] = number_slot(sp[-1].u32[0] - sp[0].u32[0]);
            break;

        LOAD_LANES(0x00, 16, 2, u64, u64)
        LOAD_LANES(0x01, 8, 8, s16, s8)
        LOAD_LANES(0x02, 8, 8, u16, u8)
        LOAD_LANES(0x03, 8, 4, s32, s16)
        LOAD_LANES(0x04, 8, 4, u32, u16)
        LOAD_LANES(0x05, 8, 2, s64, s32)
        LOAD_LANES(0x06, 8, 2, u64, u32)
        LOAD_SPLAT(0x07, 1, 16, u8)
        LOAD_SPLAT(0x08, 2, 8, u16)
        LOAD_SPLAT(0x09, 4, 4, u32)
        LOAD_SPLAT(0x0A, 8, 2, u64)
        case VECTOR + 0x0B: {
            ACCESS(sp[-2], 16)
            memcpy(address, &sp[-1], 16);
            sp -= 2;
            break;
        }
        case VECTOR + 0x0C:
            memcpy(sp++, in.bytes, 16);
            break;
        BINARY_LANES(0x0D, 16, u8, in.bytes[i] < 16 ? a.u8[in.bytes[i]] : b.u8[in.bytes[i] - 16])
        BINARY_LANES(0x0E, 16, u8, b.u8[i] < 16 ? a.u8[b.u8[i]] : 0)
        SPLAT_OF(0x0F, 16, u8)
        SPLAT_OF(0x10, 8, u16)
        SPLAT_OF(0x11, 4, u32)
        SPLAT_OF(0x12, 2, u64)
        EXTRACT_OF(0x15, (uint32_t)sp[-1].s8[in.lane])
        EXTRACT_OF(0x16, sp[-1].u8[in.lane])
        REPLACE_OF(0x17, u8)
        EXTRACT_OF(0x18, (uint32_t)sp[-1].s16[in.lane])
        EXTRACT_OF(0x19, sp[-1].u16[in.lane])
        REPLACE_OF(0x1A, u16)
        EXTRACT_OF(0x1B, sp[-1].u32[in.lane])
        REPLACE_OF(0x1C, u32)
        EXTRACT_OF(0x1D, sp[-1].u64[in.lane])
        REPLACE_OF(0x1E, u64)

        COMPARISONS(0x23, 16, u8, s8)
        COMPARISONS(0x2D, 8, u16, s16)
        COMPARISONS(0x37, 4, u32, s32)
        SIGNED_COMPARISONS(0xD6, 2, u64, s64)

        UNARY_LANES(0x4D, 2, u64, ~a.u64[i])
        BINARY_LANES(0x4E, 2, u64, a.u64[i] & b.u64[i])
        BINARY_LANES(0x4F, 2, u64, a.u64[i] & ~b.u64[i])
        BINARY_LANES(0x50, 2, u64, a.u64[i] | b.u64[i])
        BINARY_LANES(0x51, 2, u64, a.u64[i] ^ b.u64[i])
        case VECTOR + 0x52: /* bitselect: the mask is on top */
            sp -= 2;
            for (int i = 0; i < 2; i++)
                sp[-1].u64[i] = (sp[-1].u64[i] & sp[1].u64[i]) | (sp[0].u64[i] & ~sp[1].u64[i]);
            break;
        FOLD_LANES(0x53, 2, 0, r | (a.u64[i] != 0))
        LOAD_LANE_OF(0x54, 1)
        LOAD_LANE_OF(0x55, 2)
        LOAD_LANE_OF(0x56, 4)
        LOAD_LANE_OF(0x57, 8)
        STORE_LANE_OF(0x58, 1)
        STORE_LANE_OF(0x59, 2)
        STORE_LANE_OF(0x5A, 4)
        STORE_LANE_OF(0x5B, 8)
        LOAD_ZERO(0x5C, 4)
        LOAD_ZERO(0x5D, 8)

        SHAPE(0x60, 16, u8, s8)
        SHAPE(0x80, 8, u16, s16)
        SHAPE(0xA0, 4, u32, s32)
        SHAPE(0xC0, 2, u64, s64)
        EXTREMES(0x60, 16, u8, s8)
        EXTREMES(0x80, 8, u16, s16)
        EXTREMES(0xA0, 4, u32, s32)
        SATURATING(0x60, 16, u8, s8, INT8_MIN, INT8_MAX, UINT8_MAX)
        SATURATING(0x80, 8, u16, s16, INT16_MIN, INT16_MAX, UINT16_MAX)
        NARROWING(0x60, 8, u8, s8, s16, INT8_MIN, INT8_MAX, UINT8_MAX)
        NARROWING(0x80, 4, u16, s16, s32, INT16_MIN, INT16_MAX, UINT16_MAX)
        WIDENING(0x80, 8, u16, u8, s8)
        WIDENING(0xA0, 4, u32, u16, s16)
        WIDENING(0xC0, 2, u64, u32, s32)
        PAIRWISE(0x7C, 8, u16, u8, s8)
        PAIRWISE(0x7E, 4, u32, u16, s16)
        UNARY_LANES(0x62, 2, u64, byte_counts(a.u64[i]))
        SIGNS(0x64, 16, s8, _mm_movemask_epi8(a))
        SIGNS(0x84, 8, s16, _mm_movemask_epi8(_mm_packs_epi16(a, _mm_setzero_si128())))
        SIGNS(0xA4, 4, s32, _mm_movemask_ps(_mm_castsi128_ps(a)))
        SIGNS(0xC4, 2, s64, _mm_movemask_pd(_mm_castsi128_pd(a)))
        BINARY_LANES(0x82, 8, s16, clamp((a.s16[i] * b.s16[i] + 0x4000) >> 15, INT16_MIN, INT16_MAX))
        BINARY_LANES(0x95, 8, u16, (uint32_t)a.u16[i] * b.u16[i])
        BINARY_LANES(0xB5, 4, u32, a.u32[i] * b.u32[i])
        BINARY_LANES(0xD5, 2, u64, a.u64[i] * b.u64[i])
        BINARY_LANES(0xBA, 4, u32,
                     (uint32_t)(a.s16[2 * i] * b.s16[2 * i]) + (uint32_t)(a.s16[2 * i + 1] * b.s16[2 * i + 1]))
        }
        at = in.end;
    }
}

/* A run that is lent no image is asked for no room: `image` is NULL then. */
static uint64_t begun(const uint8_t *s, size_t len, const uint8_t *args, size_t args_len, uint8_t *memory, size_t memory_len,
                      uint8_t *results, size_t results_len, uint8_t *image, size_t image_len, uint32_t budget)
{
    uint16_t ends[FILE_MOST];
    const uint64_t checked = plain_matched(s, len, ends);
    if (checked)
        return checked;
    const enum code code = lent(s, args, args_len, memory_len, results_len, image_len);
    if (code)
        return answer(code, 0, 0);

    struct machine m = { .at = 8 + s[5] + s[6] + s[7] };
    if (args_len)
        memcpy(m.locals, args, args_len);
    return go_on(s, len, ends, &m, memory, memory_len, results, results_len, image, budget);
}

uint64_t plain_run(const uint8_t *s, size_t len, const uint8_t *args, size_t args_len, uint8_t *memory, size_t memory_len, uint8_t *results,
                   size_t results_len, uint32_t budget)
{
    return begun(s, len, args, args_len, memory, memory_len, results, results_len, NULL, IMAGE_BYTES, budget);
}

uint64_t plain_start(const uint8_t *s, size_t len, const uint8_t *args, size_t args_len, uint8_t *memory, size_t memory_len,
                     uint8_t *results, size_t results_len, uint8_t *image, size_t image_len, uint32_t budget)
{
    return begun(s, len, args, args_len, memory, memory_len, results, results_len, image, image_len, budget);
}

uint64_t plain_resume(const uint8_t *s, size_t len, uint8_t *memory, size_t memory_len, uint8_t *results, size_t results_len,
                      uint8_t *image, size_t image_len, uint32_t budget)
{
    uint16_t ends[FILE_MOST];
    struct survey survey = { .place = image_len < IMAGE_BYTES ? 0 : number_at(image, PLACE_AT, 4) };
    const uint64_t checked = plain_surveyed(s, len, ends, &survey);
    if (checked)
        return checked;
    const enum code code = lent_again(s, &survey, memory_len, results_len, image, image_len);
    if (code)
        return answer(code, 0, 0);

    struct machine m;
    stand(&m, image, s, &survey, ends);
    return go_on(s, len, ends, &m, memory, memory_len, results, results_len, image, budget);
}
