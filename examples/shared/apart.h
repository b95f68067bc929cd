/* The arrays of a receiver or a panel in parts: in another order than either has them, and with something between them, so that a call
 * that takes one for another, or leaves it, is seen. The ids that are held are a receiver's alone. */
#ifndef APART_H
#define APART_H

#include <stdint.h>

struct apart {
	uint8_t held[256];
	uint8_t first_gap[64];
	int32_t ys[256];
	uint8_t gap[64];
	uint8_t states[256];
	uint8_t other_gap[64];
	int32_t xs[256];
};

static inline void apart_put(struct apart *apart, uint8_t id, uint8_t state, int32_t x, int32_t y)
{
	apart->states[id] = state;
	apart->xs[id] = x;
	apart->ys[id] = y;
}

#endif
