/* Writes messages and bench files (01, "The five integers", "Messages", "A bench file"). */
#include "wire.h"

#include <stdlib.h>

const struct wire_form wire_u2 = { 1, 0, 2 }, wire_s2 = { 1, 1, 2 };
const struct wire_form wire_u4 = { 2, 0, 4 }, wire_s4 = { 2, 1, 4 };
const struct wire_form wire_u8 = { 3, 0, 8 };

uint64_t wire_greatest(const struct wire_form *form, unsigned bytes)
{
	return (UINT64_C(1) << (8 * bytes - form->c_bits - form->sign_bits)) - 1;
}

void wire_start(struct wire *wire)
{
	wire->padding = (struct wire_padding){ .padded = WIRE_SHORTEST };
	wire->padded_at = 0;
	wire->padded_bytes = 0;
	wire->n = 0;
}

void wire_byte(struct wire *wire, uint8_t byte)
{
	if (wire->n == WIRE_MOST) {
		fputs("a message does not fit in an entry\n", stderr);
		exit(2);
	}
	wire->bytes[wire->n++] = byte;
}

/* Keeps in mind where an integer stands that is longer than it need be, unless there is one before. */
static void note_padded(struct wire *wire, size_t at, unsigned bytes)
{
	if (wire->padded_bytes > 0)
		return;
	wire->padded_at = at;
	wire->padded_bytes = bytes;
}

void wire_append(struct wire *wire, const struct wire *more)
{
	note_padded(wire, wire->n + more->padded_at, more->padded_bytes);
	for (size_t i = 0; i < more->n; i++)
		wire_byte(wire, more->bytes[i]);
}

void wire_take_back(struct wire *wire, size_t n)
{
	wire->n = n;
	if (wire->padded_at >= n)
		wire->padded_bytes = 0;
}

void wire_little(struct wire *wire, unsigned bytes, uint64_t value)
{
	for (unsigned i = 0; i < bytes; i++)
		wire_byte(wire, (uint8_t)(value >> 8 * i));
}

void wire_big(struct wire *wire, unsigned bytes, uint64_t value)
{
	while (bytes-- > 0)
		wire_byte(wire, (uint8_t)(value >> 8 * bytes));
}

/* By how many bytes an integer is longer, where it could be by so many. */
static unsigned choose_padding(const struct wire_padding *padding, unsigned spare)
{
	if (spare == 0)
		return 0;
	switch (padding->padded) {
	case WIRE_SOME:
		return random_chance(padding->random, padding->longer) ? 1 + random_below(padding->random, spare) : 0;
	case WIRE_BY_ONE:
		return 1;
	default:
		return 0;
	}
}

static bool choose_minus(const struct wire_padding *padding)
{
	return padding->padded == WIRE_SOME && random_chance(padding->random, padding->minus);
}

static void integer(struct wire *wire, const struct wire_form *form, uint64_t magnitude, bool negative)
{
	const unsigned first_bits = 8 - form->c_bits - form->sign_bits;
	unsigned bytes = 1, more;

	while (magnitude > wire_greatest(form, bytes))
		bytes++;
	more = choose_padding(&wire->padding, form->bytes_most - bytes);
	bytes += more;
	if (more > 0)
		note_padded(wire, wire->n, bytes);
	if (form->sign_bits == 1 && magnitude == 0)
		negative = choose_minus(&wire->padding);
	wire_byte(wire, (uint8_t)((bytes - 1) << (8 - form->c_bits) | (unsigned)negative << first_bits |
	                          (unsigned)(magnitude >> 8 * (bytes - 1))));
	while (--bytes > 0)
		wire_byte(wire, (uint8_t)(magnitude >> 8 * (bytes - 1)));
}

void wire_unsigned(struct wire *wire, const struct wire_form *form, uint64_t value)
{
	integer(wire, form, value, false);
}

void wire_signed(struct wire *wire, const struct wire_form *form, int32_t value)
{
	integer(wire, form, (uint64_t)llabs(value), value < 0);
}

void wire_contact(struct wire *wire, const struct wire_contact *contact)
{
	wire_byte(wire, contact->id);
	wire_unsigned(wire, &wire_u2, contact->present);
	wire_signed(wire, &wire_s4, contact->x);
	wire_signed(wire, &wire_s4, contact->y);
	wire_unsigned(wire, &wire_u4, contact->flags);
	if (contact->present & 1)
		for (unsigned i = 0; i < 4; i++)
			wire_signed(wire, &wire_s2, contact->side[i]);
	if (contact->present & 2)
		wire_unsigned(wire, &wire_u4, contact->orientation);
	if (contact->present & 4)
		wire_unsigned(wire, &wire_u4, contact->pressure);
}

void wire_header(struct wire *wire, unsigned event)
{
	wire_little(wire, 2, event);
	wire_little(wire, 4, 0);
}

void wire_length(struct wire *wire)
{
	const size_t n = wire->n;

	wire->n = 2;
	wire_little(wire, 4, n);
	wire->n = n;
}

void wire_greeting(struct wire *wire, uint32_t version)
{
	wire_header(wire, WIRE_SERVER_READY);
	wire_little(wire, 4, version);
	wire_length(wire);
}

void wire_ready(struct wire *wire, uint32_t flags, uint32_t version, unsigned most)
{
	wire_header(wire, WIRE_CLIENT_READY);
	wire_little(wire, 4, flags);
	wire_little(wire, 4, version);
	wire_little(wire, 2, most);
	wire_length(wire);
}

void wire_dismiss(struct wire *wire, uint8_t id)
{
	wire_header(wire, WIRE_DISMISS);
	wire_byte(wire, id);
	wire_length(wire);
}

void wire_entry(const struct wire *wire, FILE *to)
{
	putc((int)(wire->n >> 8), to);
	putc((int)(wire->n & 0xFF), to);
	if (fwrite(wire->bytes, 1, wire->n, to) != wire->n) {
		perror("write");
		exit(2);
	}
}
