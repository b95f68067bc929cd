#include "touch.h"

void touch_frame(struct wire *wire, const struct frame *frame, uint64_t count, uint64_t offset)
{
	wire_unsigned(wire, &wire_u2, count);
	wire_unsigned(wire, &wire_u8, offset);
	for (unsigned i = 0; i < frame->count; i++)
		wire_contact(wire, &frame->contact[i]);
}

void touch_message(struct wire *wire, uint64_t time, uint64_t frames, const struct wire *body)
{
	wire_header(wire, WIRE_TOUCH);
	wire_unsigned(wire, &wire_u4, time);
	wire_unsigned(wire, &wire_u2, frames);
	wire_append(wire, body);
	wire_length(wire);
}

void touch_follow(struct twin *twin, const struct frame *frame)
{
	static uint8_t output[TWIN_OUTPUT_MOST];
	static struct wire wire, body;

	wire_start(&body);
	touch_frame(&body, frame, frame->count, 0);
	wire_start(&wire);
	touch_message(&wire, 0, 1, &body);
	twin_receive(twin, wire.bytes, wire.n, output, sizeof output);
}
