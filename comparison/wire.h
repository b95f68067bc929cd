/* Writes messages and bench files, also such as are not well formed. */
#ifndef WIRE_H
#define WIRE_H

#include "random.h"

#include <stddef.h>
#include <stdio.h>

enum { WIRE_MOST = 65535, WIRE_HEADER_BYTES = 6 };

enum wire_event {
	WIRE_SERVER_READY = 1,
	WIRE_CLIENT_READY = 2,
	WIRE_TOUCH = 3,
	WIRE_SUSPEND = 4,
	WIRE_RESUME = 5,
	WIRE_DISMISS = 6
};

/* One of the five integers: bits for the count of further bytes, sign bits, and the most bytes. */
struct wire_form {
	unsigned c_bits;
	unsigned sign_bits;
	unsigned bytes_most;
};
extern const struct wire_form wire_u2, wire_s2, wire_u4, wire_s4, wire_u8;

/* Which integers are longer than they need be: none, some by chance, each by one byte where it can be. */
enum wire_padded { WIRE_SHORTEST, WIRE_SOME, WIRE_BY_ONE };

struct wire_padding {
	enum wire_padded padded;
	struct random *random;  /* of some: decides which, and by how many bytes */
	unsigned longer;        /* of some: chance in 1000 that an integer is longer */
	unsigned minus;         /* of some: chance in 1000 that a zero that has a sign is minus zero, longer or not */
};

/* A message that is being written, with the first integer in it that is longer than it need be: where it stands, and how many bytes it has,
 * 0 if there is none. */
struct wire {
	struct wire_padding padding;
	size_t padded_at;
	unsigned padded_bytes;
	size_t n;
	uint8_t bytes[WIRE_MOST];
};

struct wire_contact {
	uint8_t id;
	uint32_t flags;
	uint32_t present;
	int32_t x;
	int32_t y;
	int32_t side[4];
	uint32_t orientation;
	uint32_t pressure;
};

/* The greatest value that takes so many bytes in this form. */
uint64_t wire_greatest(const struct wire_form *form, unsigned bytes);

/* Nothing, whose integers will be the shortest. */
void wire_start(struct wire *wire);
void wire_byte(struct wire *wire, uint8_t byte);
void wire_append(struct wire *wire, const struct wire *more);

/* Takes back all that is behind the first n bytes. */
void wire_take_back(struct wire *wire, size_t n);

void wire_little(struct wire *wire, unsigned bytes, uint64_t value);
void wire_big(struct wire *wire, unsigned bytes, uint64_t value);
void wire_unsigned(struct wire *wire, const struct wire_form *form, uint64_t value);
void wire_signed(struct wire *wire, const struct wire_form *form, int32_t value);
void wire_contact(struct wire *wire, const struct wire_contact *contact);

/* A header with an event; wire_length then says in it how long the message is. */
void wire_header(struct wire *wire, unsigned event);
void wire_length(struct wire *wire);

void wire_greeting(struct wire *wire, uint32_t version);
void wire_ready(struct wire *wire, uint32_t flags, uint32_t version, unsigned most);
void wire_dismiss(struct wire *wire, uint8_t id);

/* Writes a message as an entry of a bench file. */
void wire_entry(const struct wire *wire, FILE *to);

#endif
