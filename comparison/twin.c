/* The second receiver. A message is judged whole first, into an array of contacts; then its frames are run over the table of
 * contacts where it stands, or, by the plain reading, written as they are. */
#include "twin.h"

#include <stdbool.h>
#include <string.h>

/* 01, "Refusal numbers and their order" */
enum refusal {
	TAKEN = 0,
	SHORT = 1,
	TOO_LONG = 2,
	UNEXPECTED = 3,
	BAD_LENGTH = 4,
	TRUNCATED = 5,
	NOT_SHORTEST = 6,
	BAD_COUNT = 7,
	BAD_FIELD = 8,
	BAD_FLAGS = 9,
	BAD_RANGE = 10,
	BAD_OFFSET = 11,
	TRAILING = 12,
	NO_ROOM = 13
};

/* 01, "Messages"; of contacts 02, "Frames of up to 256 contacts" */
enum event { CLIENT_READY = 2, TOUCH = 3, DISMISS = 6 };
enum { HEADER_BYTES = 6, FRAMES_MOST = 64, FRAME_CONTACTS_MOST = 256 };
enum { SIDES = 1, ORIENTATION = 2, PRESSURE = 4 };
enum { ORIENTATION_MOST = 359, PRESSURE_MOST = 65000 };

/* A contact takes 5 bytes or more, so that a message has no more of them than this. */
enum { CONTACTS_MOST = TWIN_MESSAGE_MOST / 5 };

enum kind { HEAD, CONTACT, CANCEL, DISMISSAL };

struct contact {
	uint8_t id;
	uint8_t flags;
	uint8_t present;
	int16_t side[4];        /* left, top, right, bottom */
	uint16_t orientation;
	uint16_t pressure;
	int32_t x;
	int32_t y;
};

struct frame {
	uint64_t offset;        /* microseconds */
	unsigned count;
};

struct touch {
	uint32_t time;          /* milliseconds */
	unsigned frames;
	unsigned contacts;
	struct frame frame[FRAMES_MOST];
	struct contact contact[CONTACTS_MOST];
};

/* 01, "Contact states": the states that contactFlags may be met in, as a set of bits, the state they lead to, and whether the
 * position must be the stored one. No state allows flags that are not listed. */
struct rule {
	uint8_t from;
	uint8_t to;
	bool stays;
};

#define IN(state) (1u << (state))

static const struct rule rules[] = {
	[0x0A] = { IN(TWIN_OUT) | IN(TWIN_HOVERING), TWIN_HOVERING, false },
	[0x19] = { IN(TWIN_OUT) | IN(TWIN_HOVERING), TWIN_ENGAGED, false },
	[0x1A] = { IN(TWIN_ENGAGED), TWIN_ENGAGED, false },
	[0x0C] = { IN(TWIN_ENGAGED), TWIN_HOVERING, true },
	[0x04] = { IN(TWIN_ENGAGED), TWIN_OUT, true },
	[0x24] = { IN(TWIN_ENGAGED), TWIN_OUT, true },
	[0x02] = { IN(TWIN_HOVERING), TWIN_OUT, false },
	[0x22] = { IN(TWIN_HOVERING), TWIN_OUT, false },
};
enum { RULES = sizeof rules / sizeof rules[0], HOVER = 0x0A, DOWN = 0x19 };

/* Reading. What is left of the message stands from at to end. A reader answers its refusal, and moves at past the field. Each reader
 * reads both ways: strict refuses what is not the shortest form, and all else is the same. */
struct source {
	const uint8_t *at;
	const uint8_t *end;
	bool strict;
};

/* The readers of a touch message are compiled into each call that uses them, so that the receiver's do not look at strict: measured
 * against it, the product is to find the second receiver no slower than it need be. */
#define READER static inline __attribute__((always_inline)) enum refusal

static enum refusal read_byte(struct source *in, uint8_t *value)
{
	if (in->at == in->end)
		return TRUNCATED;
	*value = *in->at++;
	return TAKEN;
}

static uint32_t little16(const uint8_t *at)
{
	return (uint32_t)at[1] << 8 | at[0];
}

static uint32_t little32(const uint8_t *at)
{
	return little16(at + 2) << 16 | little16(at);
}

static enum refusal read_little16(struct source *in, uint32_t *value)
{
	if (in->end - in->at < 2)
		return TRUNCATED;
	*value = little16(in->at);
	in->at += 2;
	return TAKEN;
}

static enum refusal read_little32(struct source *in, uint32_t *value)
{
	if (in->end - in->at < 4)
		return TRUNCATED;
	*value = little32(in->at);
	in->at += 4;
	return TAKEN;
}

/* 01, "The five integers": c bits for the count of further bytes, perhaps a sign bit, then the value. 000 (2.2.2.1 to 2.2.2.5) allows
 * every count that the bits can say, also where the value would fit in fewer bytes. To the strict reading the shortest form is the only
 * one: a value that would fit in one byte less is refused. */
READER read_magnitude(struct source *in, unsigned c_bits, unsigned sign_bits, uint64_t *value, bool *negative)
{
	const unsigned first_bits = 8 - c_bits - sign_bits;
	unsigned first, further;
	uint64_t read;

	if (in->at == in->end)
		return TRUNCATED;
	first = *in->at;
	further = first >> (8 - c_bits);
	if ((size_t)(in->end - in->at) <= further)
		return TRUNCATED;
	read = first & ((1u << first_bits) - 1);
	*negative = sign_bits != 0 && (first >> first_bits & 1) != 0;
	for (unsigned i = 1; i <= further; i++)
		read = read << 8 | in->at[i];
	if (further > 0 && in->strict && read >> (first_bits + 8 * (further - 1)) == 0)
		return NOT_SHORTEST;
	in->at += 1 + further;
	*value = read;
	return TAKEN;
}

READER read_unsigned(struct source *in, unsigned c_bits, uint64_t *value)
{
	bool negative;

	return read_magnitude(in, c_bits, 0, value, &negative);
}

/* 02: minus zero is zero, and to the strict reading no form of it. */
READER read_signed(struct source *in, unsigned c_bits, int32_t *value)
{
	uint64_t magnitude;
	bool negative;
	enum refusal refusal = read_magnitude(in, c_bits, 1, &magnitude, &negative);

	if (refusal != TAKEN)
		return refusal;
	if (negative && magnitude == 0 && in->strict)
		return NOT_SHORTEST;
	*value = negative ? -(int32_t)magnitude : (int32_t)magnitude;
	return TAKEN;
}

/* An unsigned integer that has a greatest value, and the refusal of a greater one. */
READER read_limited(struct source *in, unsigned c_bits, unsigned most, enum refusal above, unsigned *value)
{
	uint64_t read;
	enum refusal refusal = read_unsigned(in, c_bits, &read);

	if (refusal != TAKEN)
		return refusal;
	if (read > most)
		return above;
	*value = (unsigned)read;
	return TAKEN;
}

enum { U2 = 1, S2 = 1, U4 = 2, S4 = 2, U8 = 3 };

READER read_sides(struct source *in, int16_t side[4])
{
	for (unsigned i = 0; i < 4; i++) {
		int32_t value;
		enum refusal refusal = read_signed(in, S2, &value);

		if (refusal != TAKEN)
			return refusal;
		side[i] = (int16_t)value;
	}
	return TAKEN;
}

READER read_optional(struct source *in, struct contact *contact)
{
	enum refusal refusal = TAKEN;
	unsigned orientation = 0, pressure = 0;

	memset(contact->side, 0, sizeof contact->side);
	if (contact->present & SIDES)
		refusal = read_sides(in, contact->side);
	if (refusal == TAKEN && contact->present & ORIENTATION)
		refusal = read_limited(in, U4, ORIENTATION_MOST, BAD_RANGE, &orientation);
	if (refusal == TAKEN && contact->present & PRESSURE)
		refusal = read_limited(in, U4, PRESSURE_MOST, BAD_RANGE, &pressure);
	contact->orientation = (uint16_t)orientation;
	contact->pressure = (uint16_t)pressure;
	return refusal;
}

READER read_contact(struct source *in, struct contact *contact)
{
	unsigned present = 0, flags = 0;
	enum refusal refusal = read_byte(in, &contact->id);

	if (refusal == TAKEN)
		refusal = read_limited(in, U2, SIDES | ORIENTATION | PRESSURE, BAD_FIELD, &present);
	if (refusal == TAKEN)
		refusal = read_signed(in, S4, &contact->x);
	if (refusal == TAKEN)
		refusal = read_signed(in, S4, &contact->y);
	if (refusal == TAKEN)
		refusal = read_limited(in, U4, RULES - 1, BAD_FLAGS, &flags);
	if (refusal != TAKEN)
		return refusal;
	if (rules[flags].from == 0)
		return BAD_FLAGS;
	contact->present = (uint8_t)present;
	contact->flags = (uint8_t)flags;
	return read_optional(in, contact);
}

/* The contacts of a frame go behind those of the frames before it. */
READER read_frame(struct source *in, struct touch *touch, struct frame *frame, bool first)
{
	enum refusal refusal = read_limited(in, U2, FRAME_CONTACTS_MOST, BAD_COUNT, &frame->count);

	if (refusal == TAKEN)
		refusal = read_unsigned(in, U8, &frame->offset);
	if (refusal == TAKEN && first && frame->offset != 0)
		refusal = BAD_OFFSET;
	for (unsigned i = 0; refusal == TAKEN && i < frame->count; i++)
		refusal = read_contact(in, &touch->contact[touch->contacts++]);
	return refusal;
}

/* The whole body of a touch message. Without times an offset is read and then counts as 0, and so does encodeTime. With begins the first
 * frame's offset has to be 0. */
READER read_touch(struct source *in, struct touch *touch, bool times, bool begins)
{
	uint64_t time;
	enum refusal refusal = read_unsigned(in, U4, &time);

	touch->contacts = 0;
	if (refusal == TAKEN)
		refusal = read_limited(in, U2, FRAMES_MOST, BAD_COUNT, &touch->frames);
	if (refusal != TAKEN)
		return refusal;
	touch->time = times ? (uint32_t)time : 0;
	for (unsigned i = 0; i < touch->frames; i++) {
		refusal = read_frame(in, touch, &touch->frame[i], i == 0 && begins);
		if (refusal != TAKEN)
			return refusal;
		if (!times)
			touch->frame[i].offset = 0;
	}
	return in->at == in->end ? TAKEN : TRAILING;
}

/* Writing, by 01, "House records": the first bit is the most significant one of the first byte. */
static void put_big32(uint8_t *at, uint32_t value)
{
	at[0] = (uint8_t)(value >> 24);
	at[1] = (uint8_t)(value >> 16);
	at[2] = (uint8_t)(value >> 8);
	at[3] = (uint8_t)value;
}

static void put_big64(uint8_t *at, uint64_t value)
{
	put_big32(at, (uint32_t)(value >> 32));
	put_big32(at + 4, (uint32_t)value);
}

/* 02: the low 6 bits of the count where all of it was, and its three high bits directly after the offset. */
static void put_head(uint8_t *at, const struct frame *frame)
{
	at[0] = (uint8_t)(HEAD << 6 | (frame->count & 0x3F));
	put_big64(at + 1, frame->offset << 3 | frame->count >> 6);
	memset(at + 9, 0, TWIN_RECORD_BYTES - 9);
}

static inline uint64_t low(int32_t value, unsigned bits)
{
	return (uint64_t)(uint32_t)value & ((UINT64_C(1) << bits) - 1);
}

/* Byte one is kind and flags; then 64 bits up to the first 23 of y, 64 up to the first 12 of the bottom side, and 32. */
static void put_contact(uint8_t *at, enum kind kind, const struct contact *contact)
{
	const uint64_t y = low(contact->y, 30), bottom = low(contact->side[3], 15);

	at[0] = (uint8_t)(kind << 6 | contact->flags);
	put_big64(at + 1, (uint64_t)contact->present << 61 | (uint64_t)contact->id << 53 | low(contact->x, 30) << 23 | y >> 7);
	put_big64(at + 9, y << 57 | low(contact->side[0], 15) << 42 | low(contact->side[1], 15) << 27 |
	                  low(contact->side[2], 15) << 12 | bottom >> 3);
	put_big32(at + 17, (uint32_t)(bottom & 7) << 29 | (uint32_t)contact->orientation << 20 | (uint32_t)contact->pressure << 4);
}

/* Writes a record for a contact as it is stored, and takes the contact out of range. */
static void put_out(struct twin *twin, uint8_t *at, enum kind kind, uint8_t id, uint8_t flags)
{
	const struct contact contact = { .id = id, .flags = flags, .x = twin->x[id], .y = twin->y[id] };

	put_contact(at, kind, &contact);
	twin->state[id] = TWIN_OUT;
	twin->x[id] = 0;
	twin->y[id] = 0;
	twin->active--;
}

/* Running, by 01, "Contact states". */
static bool conforms(const struct twin *twin, const struct contact *contact, unsigned count)
{
	uint64_t seen[4] = { 0 };
	int active = twin->active;

	for (unsigned i = 0; i < count; i++, contact++) {
		const struct rule *rule = &rules[contact->flags];
		const uint8_t id = contact->id, state = twin->state[id];
		const uint64_t bit = UINT64_C(1) << id % 64;

		if (seen[id / 64] & bit)
			return false;
		seen[id / 64] |= bit;
		if ((rule->from & IN(state)) == 0)
			return false;
		if (rule->stays && (contact->x != twin->x[id] || contact->y != twin->y[id]))
			return false;
		active += (rule->to != TWIN_OUT) - (state != TWIN_OUT);
	}
	return active <= twin->most;
}

/* 02, "Hovering hands after a cancel": "all are 0x19, or all are 0x19 or 0x0A with no id in the set", of those that are pressed too. */
static bool opens(const struct twin *twin, const struct contact *contact, unsigned count)
{
	bool pressed = true, clear = true;

	for (unsigned i = 0; i < count; i++, contact++) {
		if (contact->flags != DOWN && contact->flags != HOVER)
			return false;
		pressed = pressed && contact->flags == DOWN;
		clear = clear && !twin->held[contact->id];
	}
	return count > 0 && (pressed || clear);
}

static void empty(struct twin *twin)
{
	memset(twin->held, 0, sizeof twin->held);
}

/* 02: the ids of an ignored or offending frame join the set, and those that it lists last with 0x02, 0x22, 0x04 or 0x24 leave: the flags
 * that lead out of range. What is said of an id first is overruled by what is said of it last. */
static void hold(struct twin *twin, const struct contact *contact, unsigned count)
{
	for (unsigned i = 0; i < count; i++, contact++)
		twin->held[contact->id] = rules[contact->flags].to != TWIN_OUT;
}

static size_t inject(struct twin *twin, const struct frame *frame, const struct contact *contact, uint8_t *at)
{
	put_head(at, frame);
	for (unsigned i = 0; i < frame->count; i++, contact++) {
		const uint8_t id = contact->id, to = rules[contact->flags].to;

		at += TWIN_RECORD_BYTES;
		put_contact(at, CONTACT, contact);
		twin->active = (uint16_t)(twin->active + (to != TWIN_OUT) - (twin->state[id] != TWIN_OUT));
		twin->state[id] = to;
		twin->x[id] = to == TWIN_OUT ? 0 : contact->x;
		twin->y[id] = to == TWIN_OUT ? 0 : contact->y;
	}
	twin->ignoring = 0;
	return 1 + (size_t)frame->count;
}

/* The set is made anew: the ids that were active, and what the offending frame does to them and with its own. */
static size_t cancel(struct twin *twin, const struct contact *contact, unsigned count, uint8_t *at)
{
	const size_t records = twin->active;

	empty(twin);
	for (unsigned id = 0; twin->active > 0; id++) {
		if (twin->state[id] == TWIN_OUT)
			continue;
		twin->held[id] = 1;
		put_out(twin, at, CANCEL, (uint8_t)id, twin->state[id] == TWIN_ENGAGED ? 0x24 : 0x22);
		at += TWIN_RECORD_BYTES;
	}
	hold(twin, contact, count);
	twin->ignoring = 1;
	return records;
}

/* Whether a frame is ignored. If it opens, the set is emptied before the frame is judged. */
static bool ignores(struct twin *twin, const struct contact *contact, unsigned count)
{
	if (!twin->ignoring)
		return false;
	if (opens(twin, contact, count)) {
		empty(twin);
		return false;
	}
	hold(twin, contact, count);
	return true;
}

static struct twin_answer run_frames(struct twin *twin, const struct touch *touch, uint8_t *output)
{
	struct twin_answer answer = { .time = touch->time };
	const struct contact *contact = touch->contact;

	for (unsigned i = 0; i < touch->frames; i++) {
		const struct frame *frame = &touch->frame[i];
		uint8_t *at = output + answer.records * TWIN_RECORD_BYTES;

		if (ignores(twin, contact, frame->count)) {
			answer.ignored++;
		} else if (conforms(twin, contact, frame->count)) {
			answer.records += inject(twin, frame, contact, at);
			answer.injected++;
		} else {
			answer.records += cancel(twin, contact, frame->count, at);
			answer.cancelled++;
		}
		contact += frame->count;
	}
	if (touch->frames > 0)
		twin->begun = 1;
	return answer;
}

static struct twin_answer refused(enum refusal refusal)
{
	return (struct twin_answer){ .refusal = (uint8_t)refusal };
}

/* Where it is not plain that the output is long enough: a copy of the receiver runs into output of its own, and both are kept
 * only if the records fit. */
static struct twin_answer run_in_doubt(struct twin *twin, const struct touch *touch, uint8_t *output, size_t room)
{
	uint8_t records[TWIN_OUTPUT_MOST];
	struct twin after = *twin;
	struct twin_answer answer = run_frames(&after, touch, records);

	if (answer.records * TWIN_RECORD_BYTES > room)
		return refused(NO_ROOM);
	memcpy(output, records, answer.records * TWIN_RECORD_BYTES);
	*twin = after;
	return answer;
}

/* 01: ready flag 2 takes the times away, and with them the rule for the first frame's offset. */
static struct twin_answer receive_touch(struct twin *twin, struct source in, uint8_t *output, size_t room)
{
	const bool times = (twin->flags & TWIN_NO_TIMES) == 0;
	struct touch touch;
	const enum refusal refusal = read_touch(&in, &touch, times, times && !twin->begun);
	size_t most;

	if (refusal != TAKEN)
		return refused(refusal);
	/* heads, contacts, and a cancel for each contact that was active or that this message made so */
	most = (size_t)touch.frames + 2 * touch.contacts + twin->active;
	if (most * TWIN_RECORD_BYTES > room)
		return run_in_doubt(twin, &touch, output, room);
	return run_frames(twin, &touch, output);
}

static struct twin_answer receive_dismiss(struct twin *twin, struct source in, uint8_t *output, size_t room)
{
	struct twin_answer answer = refused(TAKEN);
	uint8_t id;

	if (read_byte(&in, &id) != TAKEN)
		return refused(TRUNCATED);
	if (in.at != in.end)
		return refused(TRAILING);
	if (twin->state[id] == TWIN_HOVERING) {
		if (room < TWIN_RECORD_BYTES)
			return refused(NO_ROOM);
		put_out(twin, output, DISMISSAL, id, 0x02);
		answer.records = 1;
	}
	twin->held[id] = 0;
	return answer;
}

static struct twin_answer receive_ready(struct twin *twin, struct source in)
{
	uint32_t flags, version, most;

	if (read_little32(&in, &flags) != TAKEN)
		return refused(TRUNCATED);
	if (flags > 3)
		return refused(BAD_FIELD);
	if (read_little32(&in, &version) != TAKEN)
		return refused(TRUNCATED);
	if (version != 0x00010000 && version != 0x00010001)
		return refused(BAD_FIELD);
	if (read_little16(&in, &most) != TAKEN)
		return refused(TRUNCATED);
	if (in.at != in.end)
		return refused(TRAILING);
	twin->ready = 1;
	twin->flags = flags;
	twin->version = version;
	twin->most = (uint16_t)most;
	return refused(TAKEN);
}

void twin_fresh(struct twin *twin)
{
	memset(twin, 0, sizeof *twin);
}

/* Checks 1 to 4 of 01, "Refusal numbers and their order", where one of two events is taken. */
static enum refusal check_header(const uint8_t *message, size_t n, enum event one, enum event other)
{
	unsigned event;

	if (n < HEADER_BYTES)
		return SHORT;
	if (n > TWIN_MESSAGE_MOST)
		return TOO_LONG;
	event = little16(message);
	if (event != one && event != other)
		return UNEXPECTED;
	return little32(message + 2) == n ? TAKEN : BAD_LENGTH;
}

struct twin_answer twin_receive(struct twin *twin, const uint8_t *message, size_t n, uint8_t *output, size_t room)
{
	const enum refusal refusal = check_header(message, n, twin->ready ? TOUCH : CLIENT_READY, twin->ready ? DISMISS : CLIENT_READY);
	struct source in;

	if (refusal != TAKEN)
		return refused(refusal);
	in = (struct source){ message + HEADER_BYTES, message + n, false };
	switch (little16(message)) {
	case TOUCH:
		return receive_touch(twin, in, output, room);
	case DISMISS:
		return receive_dismiss(twin, in, output, room);
	default:
		return receive_ready(twin, in);
	}
}

/* All frames with their contacts, in the order of the message. */
static void put_frames(uint8_t *at, const struct touch *touch)
{
	const struct contact *contact = touch->contact;

	for (unsigned i = 0; i < touch->frames; i++) {
		put_head(at, &touch->frame[i]);
		at += TWIN_RECORD_BYTES;
		for (unsigned j = 0; j < touch->frame[i].count; j++) {
			put_contact(at, CONTACT, contact++);
			at += TWIN_RECORD_BYTES;
		}
	}
}

static struct twin_plain_answer refused_plainly(enum refusal refusal)
{
	return (struct twin_plain_answer){ .refusal = (uint8_t)refusal };
}

/* 01: "The plain reading takes only 3 and doesn't apply 11." It has no ready flags, so that times are as they are sent. */
struct twin_plain_answer twin_plain(enum twin_forms forms, const uint8_t *message, size_t n, uint8_t *output, size_t room)
{
	enum refusal refusal = check_header(message, n, TOUCH, TOUCH);
	struct touch touch;
	struct source in;
	size_t records;

	if (refusal != TAKEN)
		return refused_plainly(refusal);
	in = (struct source){ message + HEADER_BYTES, message + n, forms == TWIN_STRICT };
	refusal = read_touch(&in, &touch, true, false);
	if (refusal != TAKEN)
		return refused_plainly(refusal);
	records = (size_t)touch.frames + touch.contacts;
	if (records * TWIN_RECORD_BYTES > room)
		return refused_plainly(NO_ROOM);
	put_frames(output, &touch);
	return (struct twin_plain_answer){ TAKEN, touch.time, records };
}
