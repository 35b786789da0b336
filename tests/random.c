#include "random.h"

static uint64_t state;

void random_restart(uint64_t row)
{
    state = (0x9E3779B97F4A7C15u ^ row * 0xD1B54A32D192ED03u) | 1;
}

/* xorshift64 with a multiplication at the end, so that low bits are as good as high ones. */
uint64_t random_number(void)
{
    state ^= state >> 12;
    state ^= state << 25;
    state ^= state >> 27;
    return state * 0x2545F4914F6CDD1Du;
}

uint64_t random_below(uint64_t bound)
{
    return (random_number() >> 16) % bound;
}

uint64_t random_between(uint64_t low, uint64_t high)
{
    return low + random_below(high - low + 1);
}

void random_bytes(uint8_t *bytes, size_t length)
{
    for (size_t i = 0; i < length; i++) {
        bytes[i] = (uint8_t)random_below(256);
    }
}
