/* Random numbers that a seed repeats. */
#ifndef RANDOM_H
#define RANDOM_H

#include <stdbool.h>
#include <stddef.h>
#include <stdint.h>

struct random {
    uint64_t state;
};

/* A generator for one numbered trial of a seed, which so can be repeated without those before it. */
struct random random_start(uint64_t seed, uint64_t number);

uint64_t random_next(struct random *random);

/* A number below `limit`, which is from 1 to 2^32. */
size_t random_below(struct random *random, uint64_t limit);

/* True once in so many times. */
bool random_once_in(struct random *random, uint64_t times);

#endif
