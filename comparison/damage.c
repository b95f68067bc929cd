#include "damage.h"

#include "twin.h"

#include <stdio.h>

/* Cuts off or appends some bytes, few or many. */
static void resize(struct random *random, struct wire *wire)
{
	unsigned bytes = 1 + random_below(random, random_chance(random, 500) ? 3 : 100);

	if (random_chance(random, 600))
		wire->n -= bytes < wire->n ? bytes : wire->n;
	else
		while (bytes-- > 0)
			wire_byte(wire, (uint8_t)random_next(random));
}

/* Ends the message inside its first padded integer: all that is wrong is that bytes are missing, which goes before the padding. */
static void cut_padded(struct random *random, struct wire *wire)
{
	wire->n = wire->padded_at + 1 + random_below(random, wire->padded_bytes - 1);
}

/* Appends to a length over the most that a message may have. */
static void make_too_long(struct random *random, struct wire *wire)
{
	size_t n = TWIN_MESSAGE_MOST + 1;

	if (random_chance(random, 50))
		n = WIRE_MOST;
	else if (random_chance(random, 500))
		n += random_below(random, 3000);
	while (wire->n < n)
		wire_byte(wire, (uint8_t)random_next(random));
}

static void spoil_length(struct random *random, struct wire *wire)
{
	static const uint32_t masks[] = { 1, 2, 3, 0x100, 0x10000, 0x01000000, 0x80000000 };

	if (wire->n < WIRE_HEADER_BYTES)
		return;
	for (uint32_t mask = RANDOM_OF(random, masks), i = 0; i < 4; i++)
		wire->bytes[2 + i] ^= (uint8_t)(mask >> 8 * i);
}

void damage(struct random *random, struct wire *wire)
{
	const unsigned kind = random_below(random, 100);
	const size_t at = wire->n == 0 ? 0 : random_next(random) % wire->n;

	if (kind < 15 && wire->padded_bytes > 0)
		cut_padded(random, wire);
	else if (kind < 40)
		resize(random, wire);
	else if (kind < 60)
		wire->bytes[at] ^= (uint8_t)(1u << random_below(random, 8));
	else if (kind < 75)
		wire->bytes[at] = (uint8_t)random_next(random);
	else if (kind < 85)
		wire->n = random_below(random, 1 + WIRE_HEADER_BYTES);
	else if (kind < 90)
		make_too_long(random, wire);
	if (wire->n >= WIRE_HEADER_BYTES && random_chance(random, 850))
		wire_length(wire);
	if (kind >= 90)
		spoil_length(random, wire);
}

void damage_stray(struct random *random, struct wire *wire)
{
	static const unsigned events[] = { 0, 1, 2, 3, 4, 5, 6, 7, 0x0102, 0x0103, 0x0300, 0xFFFF };
	unsigned bytes = random_chance(random, 500) ? 0 : random_below(random, 24);

	wire_header(wire, RANDOM_OF(random, events));
	while (bytes-- > 0)
		wire_byte(wire, (uint8_t)random_next(random));
	wire_length(wire);
}

void damage_cut(struct random *random)
{
	const unsigned n = 1 + random_below(random, random_chance(random, 500) ? 20 : WIRE_MOST);
	const unsigned there = random_below(random, n);

	putchar((int)(n >> 8));
	if (random_chance(random, 200))
		return;
	putchar((int)(n & 0xFF));
	for (unsigned i = 0; i < there; i++)
		putchar((int)(random_next(random) & 0xFF));
}
