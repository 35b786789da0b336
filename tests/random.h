/* Fixed rows of numbers that look random: the same on every machine and in every run. */
#ifndef RANDOM_H
#define RANDOM_H

#include <stddef.h>
#include <stdint.h>

void random_restart(uint64_t row); /* any number: each has a row of its own */
uint64_t random_number(void);
uint64_t random_below(uint64_t bound);                /* 0 to bound - 1 */
uint64_t random_between(uint64_t low, uint64_t high); /* low to high, both included */
void random_bytes(uint8_t *bytes, size_t length);

#endif
