/* Numbers made by chance, the same for the same seed. */
#ifndef CHANCE_H
#define CHANCE_H

#include <stdint.h>

static uint64_t state;

static uint64_t chance(void)
{
    state ^= state << 13;
    state ^= state >> 7;
    state ^= state << 17;
    return state * 0x2545F4914F6CDD1D;
}

static uint32_t below(uint32_t n)
{
    return (chance() >> 32) % n;
}

/* A byte, often one at which lanes change their sign or overflow. */
static uint8_t some_byte(void)
{
    static const uint8_t edges[] = { 0x00, 0x01, 0x7F, 0x80, 0xFF };
    return below(2) ? edges[below(sizeof edges)] : chance() >> 56;
}

static int64_t some_number(void)
{
    uint64_t n = 0;
    for (int i = 0; i < 8; i++)
        n = n << 8 | some_byte();
    return (int64_t)n >> below(64);
}

#endif
