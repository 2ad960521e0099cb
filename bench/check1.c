#include "walk.h"

uint64_t walk_1(const uint8_t *s, size_t len)
{
    return walk(1, s, len, NULL, NULL);
}
