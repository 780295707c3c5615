/* Random numbers: splitmix64. */
#include "random.h"

static uint64_t state;

uint64_t random_word(void)
{
    uint64_t z = state += 0x9E3779B97F4A7C15u;
    z = (z ^ z >> 30) * 0xBF58476D1CE4E5B9u;
    z = (z ^ z >> 27) * 0x94D049BB133111EBu;
    return z ^ z >> 31;
}

void random_start(uint64_t seed, uint64_t index)
{
    state = seed;
    state = random_word() ^ index;
    random_word();
}

uint32_t below(uint32_t n) { return (uint32_t)((random_word() >> 32) * n >> 32); }

int chance(uint32_t n) { return below(n) == 0; }

float random_float(uint32_t low_bits) { return (float)(random_word() >> 40 >> low_bits << low_bits) / 16777216.0f; }

void random_bytes(uint8_t *bytes, size_t count)
{
    for (size_t i = 0; i < count; i++) bytes[i] = (uint8_t)(random_word() >> 56);
}

uint32_t picked(const uint32_t *from, size_t count) { return from[below((uint32_t)count)]; }

float picked_float(const float *from, size_t count) { return from[below((uint32_t)count)]; }
