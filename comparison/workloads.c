/* workloads NAME ENTRIES > FILE: a fixed bench file to measure on, of a client ready and so many messages.
 *
 * one      one frame of one contact a message, no optional fields: down, 98 updates, up
 * ten      one frame of ten contacts a message, all optional fields: down, 98 updates, up
 * frames   64 frames of one contact a message, with the contact's sides: down, 62 updates, up
 * refused  messages like those of ten, each with one fault, most of them in the last contact
 * padded   the messages of ten, each integer a byte longer than it need be where it can be
 * bare     one frame of ten contacts a message, no optional fields: down, 98 updates, up
 * wall     one frame of 256 contacts a message, as a wall panel sends it: otherwise those of bare, so that a contact of the one can be held
 *          against a contact of the other
 *
 * All integers but those of padded are the shortest. */
#include "wire.h"

#include <stdio.h>
#include <stdlib.h>
#include <string.h>

enum { STROKE = 100, FRAMES = 64, TEN = 10, ALL = 256, MICROSECONDS = 8333 };

/* A contact at one step of a stroke: a line across the screen, with the fields changing a little on the way. */
static struct wire_contact at_step(unsigned finger, unsigned step, unsigned steps, uint32_t present)
{
	const unsigned moved = step == steps - 1 ? step - 1 : step;
	const int32_t wide = (int32_t)(10 + moved % 20);

	return (struct wire_contact){
		.id = (uint8_t)finger,
		.flags = step == 0 ? 0x19 : step == steps - 1 ? 0x04 : 0x1A,
		.present = present,
		.x = (int32_t)(150 * finger + 7 * moved),
		.y = (int32_t)(1000 - 5 * moved),
		.side = { -wide, -wide - 3, wide, wide + 3 },
		.orientation = (90 + moved) % 360,
		.pressure = 20000 + 100 * moved,
	};
}

static void write_frame(struct wire *wire, bool first, unsigned fingers, unsigned step, unsigned steps, uint32_t present)
{
	wire_unsigned(wire, &wire_u2, fingers);
	wire_unsigned(wire, &wire_u8, first ? 0 : MICROSECONDS);
	for (unsigned finger = 0; finger < fingers; finger++) {
		const struct wire_contact contact = at_step(finger, step, steps, present);

		wire_contact(wire, &contact);
	}
}

static void start_touch(struct wire *wire, unsigned frames, enum wire_padded padded)
{
	wire_start(wire);
	wire->padding.padded = padded;
	wire_header(wire, WIRE_TOUCH);
	wire_unsigned(wire, &wire_u4, 4);
	wire_unsigned(wire, &wire_u2, frames);
}

/* A message of one frame, at one step of a stroke. */
static void make_step(struct wire *wire, bool first, unsigned fingers, unsigned step, uint32_t present, enum wire_padded padded)
{
	start_touch(wire, 1, padded);
	write_frame(wire, first, fingers, step, STROKE, present);
	wire_length(wire);
}

static void make_one(struct wire *wire, unsigned i)
{
	make_step(wire, i == 0, 1, i % STROKE, 0, WIRE_SHORTEST);
}

static void make_ten(struct wire *wire, unsigned i)
{
	make_step(wire, i == 0, TEN, i % STROKE, 7, WIRE_SHORTEST);
}

static void make_padded(struct wire *wire, unsigned i)
{
	make_step(wire, i == 0, TEN, i % STROKE, 7, WIRE_BY_ONE);
}

static void make_bare(struct wire *wire, unsigned i)
{
	make_step(wire, i == 0, TEN, i % STROKE, 0, WIRE_SHORTEST);
}

static void make_wall(struct wire *wire, unsigned i)
{
	make_step(wire, i == 0, ALL, i % STROKE, 0, WIRE_SHORTEST);
}

static void make_frames(struct wire *wire, unsigned i)
{
	start_touch(wire, FRAMES, WIRE_SHORTEST);
	for (unsigned step = 0; step < FRAMES; step++)
		write_frame(wire, i == 0 && step == 0, 1, step, FRAMES, 1);
	wire_length(wire);
}

/* A message of ten contacts that has a fault in the last of them, by kind: 0 pressure over its limit, 1 orientation over its limit, 2 flags
 * that are not in the table, 3 fields that are not listed, 4 all fields with one more that is not listed, in an integer of two bytes.
 * When padded integers were refused, the last was the same message with all fields in an integer that was padded to two bytes: it is as
 * long as it was, and refused at the same field. */
static void make_fault_in_contact(struct wire *wire, unsigned i, unsigned kind)
{
	struct wire_contact last = at_step(TEN - 1, i % STROKE, STROKE, 7);

	start_touch(wire, 1, WIRE_SHORTEST);
	write_frame(wire, true, TEN - 1, i % STROKE, STROKE, 7);
	wire->bytes[WIRE_HEADER_BYTES + 2] = TEN;
	if (kind == 0)
		last.pressure = 65001;
	else if (kind == 1)
		last.orientation = 360;
	else if (kind == 2)
		last.flags = 0x1B;
	else if (kind == 3)
		last.present = 8;
	else
		last.present = 0x80 | 7;
	wire_contact(wire, &last);
	wire_length(wire);
}

/* By kind: 0 to 4 faults in a contact; 5 a byte too few, 6 a byte too many, 7 another length than the header says, 8 an event of the host.
 * All are refused. */
static void make_refused(struct wire *wire, unsigned i)
{
	const unsigned kind = i % 9;

	if (kind < 5) {
		make_fault_in_contact(wire, i, kind);
		return;
	}
	make_step(wire, true, TEN, i % STROKE, 7, WIRE_SHORTEST);
	if (kind == 5)
		wire->n--;
	else if (kind == 8)
		wire->bytes[0] = 4;
	else
		wire_byte(wire, 0);
	if (kind != 7)
		wire_length(wire);
}

static const struct workload {
	const char *name;
	void (*make)(struct wire *, unsigned);
	unsigned most;          /* contacts that may be active at once */
} workloads[] = {
	{ "one", make_one, TEN },       { "ten", make_ten, TEN },   { "frames", make_frames, TEN }, { "refused", make_refused, TEN },
	{ "padded", make_padded, TEN }, { "bare", make_bare, TEN }, { "wall", make_wall, ALL },
};

static void write_all(const struct workload *workload, unsigned entries)
{
	static struct wire wire;

	wire_start(&wire);
	wire_ready(&wire, 0, 0x00010001, workload->most);
	wire_entry(&wire, stdout);
	for (unsigned i = 0; i < entries; i++) {
		workload->make(&wire, i);
		wire_entry(&wire, stdout);
	}
}

int main(int argc, char **argv)
{
	for (size_t i = 0; argc == 3 && i < sizeof workloads / sizeof workloads[0]; i++) {
		if (strcmp(argv[1], workloads[i].name) != 0)
			continue;
		write_all(&workloads[i], (unsigned)strtoul(argv[2], NULL, 10));
		return fflush(stdout) == 0 && !ferror(stdout) ? 0 : 2;
	}
	fputs("usage: workloads one|ten|frames|refused|padded|bare|wall ENTRIES > FILE\n", stderr);
	return 2;
}
