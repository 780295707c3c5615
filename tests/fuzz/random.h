/* Random numbers, from a seed and the number of a case, so that any case can be run again alone. */
#ifndef FUZZ_RANDOM_H
#define FUZZ_RANDOM_H

#include <stddef.h>
#include <stdint.h>

void random_start(uint64_t seed, uint64_t index);
uint64_t random_word(void);
uint32_t below(uint32_t n);            /* 0 to n - 1 */
int chance(uint32_t n);                /* 1 in n */
float random_float(uint32_t low_bits); /* between 0 and 1, a multiple of 2^-24 with so many low bits cut */
void random_bytes(uint8_t *bytes, size_t count);

#define PICK(...) picked((const uint32_t[]){__VA_ARGS__}, sizeof((const uint32_t[]){__VA_ARGS__}) / 4)
#define PICK_FLOAT(...) picked_float((const float[]){__VA_ARGS__}, sizeof((const float[]){__VA_ARGS__}) / sizeof(float))
uint32_t picked(const uint32_t *from, size_t count);
float picked_float(const float *from, size_t count);

#endif
