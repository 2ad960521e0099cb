/* The names of the instructions: those of the vector instructions are document 002's, the others Core's (6.5, text format). */
#ifndef NAMES_H
#define NAMES_H

#include "table.h"

enum { NAME_MOST = 29 };

struct name {
    uint8_t len;
    char text[NAME_MOST];
};

#define P(op, text) [op] = { sizeof text - 1, text },
#define V(number, text) P(VECTOR + number, text)

static const struct name names[INSTRUCTIONS] = {
    P(END, "end") P(DROP, "drop") P(LOCAL_GET, "local.get") P(LOCAL_SET, "local.set") P(LOCAL_TEE, "local.tee")
    P(I32_CONST, "i32.const") P(I64_CONST, "i64.const") P(I32_ADD, "i32.add") P(I32_SUB, "i32.sub")
    P(BLOCK, "block") P(LOOP, "loop") P(BR, "br") P(BR_IF, "br_if") P(I32_EQZ, "i32.eqz") P(I32_LT_U, "i32.lt_u")

    V(0x00, "v128.load") V(0x01, "v128.load8x8_s") V(0x02, "v128.load8x8_u") V(0x03, "v128.load16x4_s") V(0x04, "v128.load16x4_u")
    V(0x05, "v128.load32x2_s") V(0x06, "v128.load32x2_u") V(0x07, "v128.load8_splat") V(0x08, "v128.load16_splat")
    V(0x09, "v128.load32_splat") V(0x0A, "v128.load64_splat") V(0x0B, "v128.store") V(0x0C, "v128.const") V(0x0D, "i8x16.shuffle")
    V(0x0E, "i8x16.swizzle") V(0x0F, "i8x16.splat") V(0x10, "i16x8.splat") V(0x11, "i32x4.splat") V(0x12, "i64x2.splat")
    V(0x15, "i8x16.extract_lane_s") V(0x16, "i8x16.extract_lane_u") V(0x17, "i8x16.replace_lane") V(0x18, "i16x8.extract_lane_s")
    V(0x19, "i16x8.extract_lane_u") V(0x1A, "i16x8.replace_lane") V(0x1B, "i32x4.extract_lane") V(0x1C, "i32x4.replace_lane")
    V(0x1D, "i64x2.extract_lane") V(0x1E, "i64x2.replace_lane")

    V(0x23, "i8x16.eq") V(0x24, "i8x16.ne") V(0x25, "i8x16.lt_s") V(0x26, "i8x16.lt_u") V(0x27, "i8x16.gt_s") V(0x28, "i8x16.gt_u")
    V(0x29, "i8x16.le_s") V(0x2A, "i8x16.le_u") V(0x2B, "i8x16.ge_s") V(0x2C, "i8x16.ge_u") V(0x2D, "i16x8.eq") V(0x2E, "i16x8.ne")
    V(0x2F, "i16x8.lt_s") V(0x30, "i16x8.lt_u") V(0x31, "i16x8.gt_s") V(0x32, "i16x8.gt_u") V(0x33, "i16x8.le_s")
    V(0x34, "i16x8.le_u") V(0x35, "i16x8.ge_s") V(0x36, "i16x8.ge_u") V(0x37, "i32x4.eq") V(0x38, "i32x4.ne") V(0x39, "i32x4.lt_s")
    V(0x3A, "i32x4.lt_u") V(0x3B, "i32x4.gt_s") V(0x3C, "i32x4.gt_u") V(0x3D, "i32x4.le_s") V(0x3E, "i32x4.le_u")
    V(0x3F, "i32x4.ge_s") V(0x40, "i32x4.ge_u")

    V(0x4D, "v128.not") V(0x4E, "v128.and") V(0x4F, "v128.andnot") V(0x50, "v128.or") V(0x51, "v128.xor")
    V(0x52, "v128.bitselect") V(0x53, "v128.any_true") V(0x54, "v128.load8_lane") V(0x55, "v128.load16_lane")
    V(0x56, "v128.load32_lane") V(0x57, "v128.load64_lane") V(0x58, "v128.store8_lane") V(0x59, "v128.store16_lane")
    V(0x5A, "v128.store32_lane") V(0x5B, "v128.store64_lane") V(0x5C, "v128.load32_zero") V(0x5D, "v128.load64_zero")

    V(0x60, "i8x16.abs") V(0x61, "i8x16.neg") V(0x62, "i8x16.popcnt") V(0x63, "i8x16.all_true") V(0x64, "i8x16.bitmask")
    V(0x65, "i8x16.narrow_i16x8_s") V(0x66, "i8x16.narrow_i16x8_u") V(0x6B, "i8x16.shl") V(0x6C, "i8x16.shr_s") V(0x6D, "i8x16.shr_u")
    V(0x6E, "i8x16.add") V(0x6F, "i8x16.add_sat_s") V(0x70, "i8x16.add_sat_u") V(0x71, "i8x16.sub") V(0x72, "i8x16.sub_sat_s")
    V(0x73, "i8x16.sub_sat_u") V(0x76, "i8x16.min_s") V(0x77, "i8x16.min_u") V(0x78, "i8x16.max_s") V(0x79, "i8x16.max_u")
    V(0x7B, "i8x16.avgr_u") V(0x7C, "i16x8.extadd_pairwise_i8x16_s") V(0x7D, "i16x8.extadd_pairwise_i8x16_u")
    V(0x7E, "i32x4.extadd_pairwise_i16x8_s") V(0x7F, "i32x4.extadd_pairwise_i16x8_u")

    V(0x80, "i16x8.abs") V(0x81, "i16x8.neg") V(0x82, "i16x8.q15mulr_sat_s") V(0x83, "i16x8.all_true") V(0x84, "i16x8.bitmask")
    V(0x85, "i16x8.narrow_i32x4_s") V(0x86, "i16x8.narrow_i32x4_u") V(0x87, "i16x8.extend_low_i8x16_s")
    V(0x88, "i16x8.extend_high_i8x16_s") V(0x89, "i16x8.extend_low_i8x16_u") V(0x8A, "i16x8.extend_high_i8x16_u") V(0x8B, "i16x8.shl")
    V(0x8C, "i16x8.shr_s") V(0x8D, "i16x8.shr_u") V(0x8E, "i16x8.add") V(0x8F, "i16x8.add_sat_s") V(0x90, "i16x8.add_sat_u")
    V(0x91, "i16x8.sub") V(0x92, "i16x8.sub_sat_s") V(0x93, "i16x8.sub_sat_u") V(0x95, "i16x8.mul") V(0x96, "i16x8.min_s")
    V(0x97, "i16x8.min_u") V(0x98, "i16x8.max_s") V(0x99, "i16x8.max_u") V(0x9B, "i16x8.avgr_u") V(0x9C, "i16x8.extmul_low_i8x16_s")
    V(0x9D, "i16x8.extmul_high_i8x16_s") V(0x9E, "i16x8.extmul_low_i8x16_u") V(0x9F, "i16x8.extmul_high_i8x16_u")

    V(0xA0, "i32x4.abs") V(0xA1, "i32x4.neg") V(0xA3, "i32x4.all_true") V(0xA4, "i32x4.bitmask") V(0xA7, "i32x4.extend_low_i16x8_s")
    V(0xA8, "i32x4.extend_high_i16x8_s") V(0xA9, "i32x4.extend_low_i16x8_u") V(0xAA, "i32x4.extend_high_i16x8_u") V(0xAB, "i32x4.shl")
    V(0xAC, "i32x4.shr_s") V(0xAD, "i32x4.shr_u") V(0xAE, "i32x4.add") V(0xB1, "i32x4.sub") V(0xB5, "i32x4.mul")
    V(0xB6, "i32x4.min_s") V(0xB7, "i32x4.min_u") V(0xB8, "i32x4.max_s") V(0xB9, "i32x4.max_u") V(0xBA, "i32x4.dot_i16x8_s")
    V(0xBC, "i32x4.extmul_low_i16x8_s") V(0xBD, "i32x4.extmul_high_i16x8_s") V(0xBE, "i32x4.extmul_low_i16x8_u")
    V(0xBF, "i32x4.extmul_high_i16x8_u")

    V(0xC0, "i64x2.abs") V(0xC1, "i64x2.neg") V(0xC3, "i64x2.all_true") V(0xC4, "i64x2.bitmask") V(0xC7, "i64x2.extend_low_i32x4_s")
    V(0xC8, "i64x2.extend_high_i32x4_s") V(0xC9, "i64x2.extend_low_i32x4_u") V(0xCA, "i64x2.extend_high_i32x4_u") V(0xCB, "i64x2.shl")
    V(0xCC, "i64x2.shr_s") V(0xCD, "i64x2.shr_u") V(0xCE, "i64x2.add") V(0xD1, "i64x2.sub") V(0xD5, "i64x2.mul") V(0xD6, "i64x2.eq")
    V(0xD7, "i64x2.ne") V(0xD8, "i64x2.lt_s") V(0xD9, "i64x2.gt_s") V(0xDA, "i64x2.le_s") V(0xDB, "i64x2.ge_s")
    V(0xDC, "i64x2.extmul_low_i32x4_s") V(0xDD, "i64x2.extmul_high_i32x4_s") V(0xDE, "i64x2.extmul_low_i32x4_u")
    V(0xDF, "i64x2.extmul_high_i32x4_u")
};

#undef P
#undef V

#endif
