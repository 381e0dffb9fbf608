/* Random numbers that a seed repeats: Steele, Lea and Flood's SplitMix64. */
#include "random.h"

uint64_t random_next(struct random *random)
{
    uint64_t z = random->state += UINT64_C(0x9E3779B97F4A7C15);
    z = (z ^ z >> 30) * UINT64_C(0xBF58476D1CE4E5B9);
    z = (z ^ z >> 27) * UINT64_C(0x94D049BB133111EB);
    return z ^ z >> 31;
}

struct random random_start(uint64_t seed, uint64_t number)
{
    struct random random = {seed};
    random.state = random_next(&random) ^ number;
    random.state = random_next(&random);
    return random;
}

size_t random_below(struct random *random, uint64_t limit)
{
    return (size_t)((random_next(random) >> 32) * limit >> 32);
}

bool random_once_in(struct random *random, uint64_t times)
{
    return random_below(random, times) == 0;
}
