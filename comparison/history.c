#include "history.h"

/* Makes a client a wall panel: it uses all ids, and many of them in a frame. Most are sent without optional fields, so that a message has
 * room for more than one such frame. */
static void choose_wall(struct history *history)
{
	static const unsigned mosts[] = { 255, 256, 65535 }, crowds[] = { 64, 127, 128, 255, 256, 256 }, spoils[] = { 5, 30, 150 };
	struct random *random = &history->random;
	struct habits *habits = &history->habits;

	history->most = RANDOM_OF(random, mosts);
	habits->pool = 256;
	habits->crowd = RANDOM_OF(random, crowds);
	habits->full = 400;
	habits->spoil = RANDOM_OF(random, spoils);
	if (random_chance(random, 700))
		habits->present = 0;
}

static void choose_habits(struct history *history)
{
	static const unsigned mosts[] = { 0, 1, 2, 3, 10, 63, 64, 255, 256, 65535 };
	static const unsigned pools[] = { 1, 3, 10, 64, 256, 256 }, crowds[] = { 1, 2, 5, 10, 30, 63 };
	static const unsigned lifts[] = { 10, 100, 400 }, spoils[] = { 0, 5, 30, 150 }, damages[] = { 0, 30, 150, 500 };
	static const unsigned eagers[] = { 1000, 200, 30 }, hastes[] = { 0, 500, 950 }, pads[] = { 0, 100, 400, 900 };
	struct random *random = &history->random;

	history->flags = random_below(random, 4);
	history->version = 0x00010000 + random_below(random, 2);
	history->most = RANDOM_OF(random, mosts);
	history->eager = RANDOM_OF(random, eagers);
	history->hasty = RANDOM_OF(random, hastes);
	history->habits = (struct habits){
		.pool = RANDOM_OF(random, pools),
		.high = random_chance(random, 300),
		.crowd = RANDOM_OF(random, crowds),
		.reach = random_below(random, 3),
		.lift = RANDOM_OF(random, lifts),
		.spoil = RANDOM_OF(random, spoils),
		.damage = RANDOM_OF(random, damages),
		.pad = RANDOM_OF(random, pads),
		.present = random_chance(random, 700) ? 7 : random_below(random, 8),
	};
	if (random_chance(random, 150))
		choose_wall(history);
}

void history_start(struct history *history, uint64_t seed)
{
	history->random.state = seed;
	twin_fresh(&history->twin);
	choose_habits(history);
}

void history_ready(struct history *history, uint32_t *flags, uint32_t *version)
{
	static const uint32_t other_flags[] = { 4, 5, 8, 0x0100, 0x010000, 0x80000000, 0xFFFFFFFF };
	static const uint32_t versions[] = { 0, 1, 0x0000FFFF, 0x00010002, 0x00010100, 0x00020000, 0x01000100, 0xFFFFFFFF };
	struct random *random = &history->random;

	*flags = history->flags;
	*version = history->version;
	if (random_chance(random, history->eager))
		return;
	if (random_chance(random, 500))
		*flags = RANDOM_OF(random, other_flags);
	else
		*version = RANDOM_OF(random, versions);
}

struct wire_padding history_padding(struct history *history)
{
	static const unsigned longers[] = { 0, 20, 100, 400, 1000 }, minuses[] = { 0, 100, 500, 1000 };
	struct random *random = &history->random;

	if (!random_chance(random, history->twin.begun ? history->habits.pad : 500))
		return (struct wire_padding){ .padded = WIRE_SHORTEST };
	return (struct wire_padding){
		.padded = WIRE_SOME,
		.random = random,
		.longer = RANDOM_OF(random, longers),
		.minus = RANDOM_OF(random, minuses),
	};
}

uint64_t history_time(struct history *history)
{
	struct random *random = &history->random;

	return random_chance(random, 300) ? frames_edge(random, &wire_u4) : random_below(random, 100);
}

unsigned history_frames(struct history *history)
{
	struct random *random = &history->random;
	const unsigned kind = random_below(random, 1000);

	if (kind < 600)
		return 1;
	if (kind < 620)
		return 0;
	if (kind < 850)
		return 2 + random_below(random, 4);
	if (kind < 950)
		return 6 + random_below(random, 40);
	return FRAMES_MOST - 1 + random_below(random, 3);
}

void history_frame(struct history *history, const struct twin *ahead, bool first, struct frame *frame)
{
	frames_next(&history->random, &history->habits, ahead, frame);
	if (first && !ahead->begun && !random_chance(&history->random, history->hasty))
		frame->offset = 0;
}

void history_filler(struct history *history, size_t left, struct frame *frame)
{
	unsigned bytes = left < EMPTY_FRAME_MOST ? (unsigned)left : EMPTY_FRAME_MOST;

	if (left - bytes == 1)
		bytes--;
	frame->count = 0;
	frame->offset = wire_greatest(&wire_u8, bytes - 1) - random_below(&history->random, 8);
}

/* Whether a dismissal changes something: while frames are ignored the set, and otherwise a contact. */
static bool is_worth_dismissing(const struct twin *twin, unsigned id)
{
	return twin->ignoring ? twin->held[id] : twin->state[id] == TWIN_HOVERING;
}

uint8_t history_dismissed(struct history *history)
{
	unsigned id = random_below(&history->random, 256);

	if (random_chance(&history->random, 700))
		for (unsigned i = 0; i < 256 && !is_worth_dismissing(&history->twin, id); i++)
			id = (id + 1) % 256;
	return (uint8_t)id;
}
