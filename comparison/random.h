/* Random numbers that a seed decides, the same on every machine: splitmix64. */
#ifndef RANDOM_H
#define RANDOM_H

#include <stdbool.h>
#include <stdint.h>

struct random {
	uint64_t state;
};

static inline uint64_t random_next(struct random *random)
{
	uint64_t z = random->state += UINT64_C(0x9E3779B97F4A7C15);

	z = (z ^ z >> 30) * UINT64_C(0xBF58476D1CE4E5B9);
	z = (z ^ z >> 27) * UINT64_C(0x94D049BB133111EB);
	return z ^ z >> 31;
}

/* 0 to n - 1. The small favour that the lower numbers get does no harm here. */
static inline unsigned random_below(struct random *random, unsigned n)
{
	return (unsigned)(random_next(random) % n);
}

static inline bool random_chance(struct random *random, unsigned in_1000)
{
	return random_below(random, 1000) < in_1000;
}

/* One of a list. */
#define RANDOM_OF(random, list) ((list)[random_below(random, sizeof(list) / sizeof((list)[0]))])

#endif
