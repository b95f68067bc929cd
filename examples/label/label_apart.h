/* A label in parts: in another order than a label has them, and with something between them, so that a call that takes one for the other,
 * or leaves it, is seen. */
#ifndef LABEL_APART_H
#define LABEL_APART_H

#include "kangirlo.h"

#include <string.h>

enum { LABEL_APART_GAP = 0x5A };

struct label_apart {
	size_t pressed[256];
	uint8_t gap[64];
	uint8_t states[256];
	uint8_t other_gap[64];
};

static inline void label_apart_set(struct label_apart *apart, const struct kangirlo_label *label)
{
	memset(apart, LABEL_APART_GAP, sizeof *apart);
	memcpy(apart->pressed, label->pressed, sizeof apart->pressed);
	memcpy(apart->states, label->states, sizeof apart->states);
}

/* Whether the parts are those of a label, and the gaps as they were. */
static inline bool label_apart_is(const struct label_apart *apart, const struct kangirlo_label *label)
{
	struct label_apart wanted;

	label_apart_set(&wanted, label);
	return memcmp(apart, &wanted, sizeof wanted) == 0;
}

#endif
