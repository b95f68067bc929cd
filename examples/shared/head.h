/* A frame's head written by its bits, also one of more contacts than a frame may have, which pack does not give: kind 0 (2 bits), the low
 * bits of the count (6), offset (61), the high bits of the count (3), 96 zeros. */
#ifndef HEAD_H
#define HEAD_H

#include "kangirlo.h"

#include <string.h>

static inline void head_put(uint8_t head[KANGIRLO_RECORD_BYTES], unsigned count, uint64_t offset)
{
	const uint64_t behind = offset << 3 | count >> 6;

	memset(head, 0, KANGIRLO_RECORD_BYTES);
	head[0] = (uint8_t)(count & 0x3F);
	for (unsigned i = 0; i < 8; i++)
		head[1 + i] = (uint8_t)(behind >> (56 - 8 * i));
}

#endif
