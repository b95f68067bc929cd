/* generate SEED ENTRIES > FILE: a bench file of one client's history, decided by the seed alone.
 *
 * A receiver follows what is written, so that each message can go on from where the history stands. Most messages are what a
 * client may send; between them stand damaged ones, and ones at both sides of every limit.
 *
 * One client in seven is a wall panel: its frames have up to 64, 127, 128, 255 or 256 contacts, four in ten of them just so many, and as a
 * rule all may be active at once. Of the other clients one frame in fifty is to have 63 to 256, as far as their ids and limit allow.
 *
 * While frames are ignored, the next one opens or almost does, by 0x19 alone or by contacts that hover, with ids just inside the set that
 * is kept then or just outside it, or it makes ids of the set leave; and dismissals come twice as often.
 *
 * Once its first frame is taken, one client in four never pads an integer; the others do so in one message of ten up to nine of ten, and
 * before that frame all do so in every other message. In such a message a random choice of the integers, from a few to all, takes more
 * bytes than it needs, by one byte or up to the most that there are, and a random choice of the zeros that have a sign is minus zero.
 * That is decided apart from damage, so that padded messages are damaged as often as others, also by an end inside a padded integer, and
 * messages at both sides of the longest are padded in their contacts. Of all touch messages that are sound about a quarter have an
 * integer that is not the shortest. */
#include "damage.h"
#include "history.h"
#include "touch.h"

#include <stdio.h>
#include <stdlib.h>

/* A contact's bytes, with the shortest integers and with the longest. */
enum { CONTACT_BYTES_MOST = 24, CONTACT_BYTES_PADDED = 31, STRAY_FRAMES_MOST = 32 };

/* What may be wrong inside the body of a touch message. That an integer is padded is nothing wrong, and may come with any of these. */
enum flaw { SOUND, OTHER_FRAMES, OTHER_CONTACTS, MANY_CONTACTS, BAD_VALUE, FLAWS };

/* A value that is not allowed, in one field of a contact. */
static void put_bad_value(struct random *random, struct wire_contact *contact)
{
	static const uint32_t presents[] = { 8, 9, 15, 16, 64, 127, 128, 0x0107, 0x7FFF };
	static const uint32_t flags[] = { 0, 1, 3, 8, 9, 0x0B, 0x10, 0x12, 0x18, 0x1B, 0x1E, 0x23, 0x25, 0x26, 0x2A, 0x2C, 0x39, 0x3A,
	                                  0x3F, 0x40, 0x59, 0x119, 0x1901, 0x1A0000, 0x3FFFFFFF };
	static const uint32_t orientations[] = { 360, 361, 511, 512, 0x0100 + 359, 65536, 0x3FFFFFFF };
	static const uint32_t pressures[] = { 65001, 65535, 65536, 65536 + 5, 0x3FFFFFFF };

	switch (random_below(random, 4)) {
	case 0:
		contact->present = RANDOM_OF(random, presents);
		break;
	case 1:
		contact->flags = RANDOM_OF(random, flags);
		break;
	case 2:
		contact->present |= 2;
		contact->orientation = RANDOM_OF(random, orientations);
		break;
	default:
		contact->present |= 4;
		contact->pressure = RANDOM_OF(random, pressures);
	}
}

/* A count that is one off. */
static uint64_t off_by_one(struct random *random, uint64_t count)
{
	return count == 0 || random_chance(random, 500) ? count + 1 : count - 1;
}

/* A frame with a flaw in it, or none if the flaw is not one of a frame. Contacts that are only there to be too many have no optional fields,
 * so that they fit into a message. */
static void write_flawed(struct history *history, struct wire *wire, struct frame *frame, enum flaw flaw)
{
	static const unsigned counts[] = { 0, 63, 64, 127, 128, 255, 256, 257, 258, 319, 320, 511, 512, 513, 0x7FFF };
	struct random *random = &history->random;
	struct habits bare = history->habits;
	uint64_t count = frame->count;

	bare.present = 0;
	if (flaw == BAD_VALUE && frame->count > 0)
		put_bad_value(random, &frame->contact[random_below(random, frame->count)]);
	if (flaw == MANY_CONTACTS) {
		while (frame->count <= FRAME_CONTACTS_MOST)
			frames_stray(random, &bare, &frame->contact[frame->count++]);
		count = frame->count;
	}
	if (flaw == OTHER_CONTACTS)
		count = random_chance(random, 300) ? RANDOM_OF(random, counts) : off_by_one(random, count);
	touch_frame(wire, frame, count, frame->offset);
}

/* Frames one after the other, as many as fit. Answers how many. */
static unsigned write_frames(struct history *history, struct wire *wire, unsigned frames, enum flaw flaw)
{
	struct random *random = &history->random;
	const unsigned flawed = frames == 0 ? 0 : random_below(random, frames);
	struct twin ahead = history->twin;

	for (unsigned i = 0; i < frames; i++) {
		const size_t before = wire->n;
		struct frame frame;

		history_frame(history, &ahead, i == 0, &frame);
		touch_follow(&ahead, &frame);
		write_flawed(history, wire, &frame, i == flawed ? flaw : SOUND);
		if (wire->n > TWIN_MESSAGE_MOST - 16) {
			wire_take_back(wire, before);
			return i;
		}
	}
	return frames;
}

/* Goes on with frames of contacts at random, until frames of no contacts can fill the rest. */
static unsigned write_strays(struct history *history, struct wire *body, unsigned frames)
{
	const size_t enough = TWIN_MESSAGE_MOST - EMPTY_FRAME_MOST * (FRAMES_MOST - STRAY_FRAMES_MOST);
	const size_t contact = body->padding.padded == WIRE_SHORTEST ? CONTACT_BYTES_MOST : CONTACT_BYTES_PADDED;

	while (body->n < enough && frames < STRAY_FRAMES_MOST) {
		const size_t fit = (enough - body->n) / contact + 1;
		struct frame frame = { .count = 0 };

		while (frame.count < FRAME_CONTACTS_MOST && frame.count < fit)
			frames_stray(&history->random, &history->habits, &frame.contact[frame.count++]);
		touch_frame(body, &frame, frame.count, 0);
		frames++;
	}
	return frames;
}

/* Fills a body of frames with frames of no contacts to just so many bytes, by the lengths of their offsets. */
static unsigned fill(struct history *history, struct wire *body, unsigned frames, size_t target)
{
	while (frames < FRAMES_MOST && body->n + EMPTY_FRAME_LEAST <= target) {
		struct frame frame;

		history_filler(history, target - body->n, &frame);
		touch_frame(body, &frame, 0, frame.offset);
		frames++;
	}
	return frames;
}

static void make_touch(struct history *history, struct wire *wire, enum flaw flaw)
{
	static const unsigned counts[] = { 0, 65, 66, 127, 128, 0x100, 0x7FFF };
	static struct wire body;
	struct random *random = &history->random;
	uint64_t frames;

	wire_start(&body);
	body.padding = wire->padding;
	frames = write_frames(history, &body, history_frames(history), flaw);
	if (flaw == OTHER_FRAMES)
		frames = random_chance(random, 300) ? RANDOM_OF(random, counts) : off_by_one(random, frames);
	touch_message(wire, history_time(history), frames, &body);
}

/* A touch message that is sound but for its length: 4,095 to 4,097 bytes. The integers that make the length just so are the shortest:
 * those of the frames that fill it, and the two in front of them. */
static void make_longest(struct history *history, struct wire *wire)
{
	static const unsigned crowds[] = { 63, FRAME_CONTACTS_MOST };
	static struct wire body;
	struct habits habits = history->habits;
	struct random *random = &history->random;
	const uint64_t time = history_time(history);
	unsigned frames, bytes = 1;

	while (time > wire_greatest(&wire_u4, bytes))
		bytes++;
	wire_start(&body);
	body.padding = wire->padding;
	history->habits.crowd = RANDOM_OF(random, crowds);
	frames = write_frames(history, &body, 8, SOUND);
	frames = write_strays(history, &body, frames);
	history->habits = habits;
	body.padding.padded = wire->padding.padded = WIRE_SHORTEST;
	frames = fill(history, &body, frames, TWIN_MESSAGE_MOST - 1 - WIRE_HEADER_BYTES - bytes - 1 + random_below(random, 3));
	touch_message(wire, time, frames, &body);
}

static void make_ready(struct history *history, struct wire *wire)
{
	uint32_t flags, version;

	history_ready(history, &flags, &version);
	wire_ready(wire, flags, version, history->most);
}

static void make_message(struct history *history, struct wire *wire, bool damaged)
{
	struct random *random = &history->random;
	const bool ready = history->twin.ready;
	const unsigned dismissals = history->twin.ignoring ? 200 : 100;
	const unsigned kind = random_below(random, 1000);
	const enum flaw flaw = damaged && random_chance(random, 400) ? 1 + random_below(random, FLAWS - 1) : SOUND;

	if (kind < (ready ? 10 : 700))
		make_ready(history, wire);
	else if (kind < (ready ? 20 : 800))
		damage_stray(random, wire);
	else if (kind < (ready ? 20 + dismissals : 870))
		wire_dismiss(wire, history_dismissed(history));
	else if (kind < (ready ? 30 + dismissals : 880))
		make_longest(history, wire);
	else
		make_touch(history, wire, flaw);
}

static void write_next(struct history *history)
{
	static uint8_t output[TWIN_OUTPUT_MOST];
	static struct wire wire;
	struct random *random = &history->random;
	const bool damaged = random_chance(random, history->twin.begun ? history->habits.damage : 300);

	wire_start(&wire);
	wire.padding = history_padding(history);
	make_message(history, &wire, damaged);
	if (damaged && random_chance(random, 500))
		damage(random, &wire);
	twin_receive(&history->twin, wire.bytes, wire.n, output, sizeof output);
	wire_entry(&wire, stdout);
}

int main(int argc, char **argv)
{
	struct history history;
	unsigned long long entries;

	if (argc != 3) {
		fputs("usage: generate SEED ENTRIES > FILE\n", stderr);
		return 2;
	}
	history_start(&history, strtoull(argv[1], NULL, 10));
	entries = strtoull(argv[2], NULL, 10);
	for (unsigned long long i = 0; i < entries; i++)
		write_next(&history);
	if (random_chance(&history.random, 200))
		damage_cut(&history.random);
	return fflush(stdout) == 0 && !ferror(stdout) ? 0 : 2;
}
