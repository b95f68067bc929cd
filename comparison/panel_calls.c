/* panel_calls SEED ENTRIES MESSAGES > CALLS: calls of a panel, decided by the seed alone, and in the file MESSAGES what the panel has to
 * write for them, as a bench file.
 *
 * Each entry of CALLS is a call, as the program sent reads them: a byte that says which, and then what arrived (1); room, flags, version
 * and most contacts of a client ready (2); room, time and records of touch (3); room and id of a dismissal (6). Most calls are such that
 * the panel writes; between them stand refused ones, ones at both sides of every limit, and entries that are no call. */
#include "damage.h"
#include "history.h"
#include "records.h"
#include "touch.h"

#include <stdlib.h>
#include <string.h>

enum call { TAKE = 1, READY = 2, TOUCH = 3, DISMISS = 6 };

/* How many bytes follow the first of a call: of a ready and a dismissal just so many, of touch at least. */
enum { READY_BYTES = 12, TOUCH_BYTES = 6, DISMISS_BYTES = 3 };

/* A receiver has taken every message that the panel had to write, so that it is where the panel's contacts are. */
struct play {
	struct history history;
	bool greeted;
	bool suspended;
	FILE *messages;
};

/* The frames of a touch call: as records, and as the body of the message that they make. */
struct touch {
	unsigned frames;
	struct records records;
	struct wire body;
};

/* ---- What becomes of a call. */

/* Whether a receiver takes a message, and cancels nothing. */
static bool is_welcome(const struct twin *twin, const struct wire *message)
{
	static uint8_t output[TWIN_OUTPUT_MOST];
	struct twin after = *twin;
	const struct twin_answer answer = twin_receive(&after, message->bytes, message->n, output, sizeof output);

	return answer.refusal == 0 && answer.cancelled == 0;
}

/* The panel has to write this message, if there is room and the host would welcome it. */
static void send(struct play *play, const struct wire *message, unsigned room)
{
	static uint8_t output[TWIN_OUTPUT_MOST];

	if (message->n > room || !is_welcome(&play->history.twin, message))
		return;
	twin_receive(&play->history.twin, message->bytes, message->n, output, sizeof output);
	wire_entry(message, play->messages);
}

static bool is(const struct wire *message, const uint8_t *bytes, size_t n)
{
	return message->n == n && memcmp(message->bytes, bytes, n) == 0;
}

/* Each message that a panel takes has one form, but for the version of server ready. */
static void arrive(struct play *play, const struct wire *message)
{
	static const uint8_t greetings[2][10] = { { 1, 0, 10, 0, 0, 0, 0, 0, 1, 0 }, { 1, 0, 10, 0, 0, 0, 1, 0, 1, 0 } };
	static const uint8_t suspend[] = { 4, 0, 6, 0, 0, 0 }, resume[] = { 5, 0, 6, 0, 0, 0 };

	if (!play->greeted)
		play->greeted = is(message, greetings[0], sizeof greetings[0]) || is(message, greetings[1], sizeof greetings[1]);
	else if (is(message, suspend, sizeof suspend))
		play->suspended = true;
	else if (is(message, resume, sizeof resume))
		play->suspended = false;
}

/* ---- Calls. */

/* Room for a message of so many bytes: as a rule enough. */
static unsigned choose_room(struct random *random, size_t n)
{
	const unsigned kind = random_below(random, 100);

	if (kind < 60 || n > TWIN_MESSAGE_MOST)
		return TWIN_MESSAGE_MOST;
	if (kind < 80)
		return (unsigned)n;
	if (kind < 90)
		return TWIN_MESSAGE_MOST + random_below(random, WIRE_MOST + 1 - TWIN_MESSAGE_MOST);
	return kind < 95 ? (unsigned)n - 1 : random_below(random, (unsigned)n);
}

static void make_arrival(struct play *play, struct wire *message)
{
	struct random *random = &play->history.random;

	if (random_chance(random, 50)) {
		damage_stray(random, message);
	} else if (random_chance(random, play->greeted ? 50 : 900)) {
		wire_greeting(message, 0x00010000 + random_below(random, random_chance(random, 200) ? 4 : 2));
	} else {
		wire_header(message, random_chance(random, play->suspended ? 100 : 800) ? WIRE_SUSPEND : WIRE_RESUME);
		wire_length(message);
	}
	if (random_chance(random, 150))
		damage(random, message);
	if (message->n == WIRE_MOST)
		message->n--;
}

static void call_take(struct play *play, struct wire *call)
{
	static struct wire message;

	wire_start(&message);
	make_arrival(play, &message);
	wire_byte(call, TAKE);
	wire_append(call, &message);
	arrive(play, &message);
}

static void call_ready(struct play *play, struct wire *call)
{
	static struct wire message;
	uint32_t flags, version;
	unsigned room;

	history_ready(&play->history, &flags, &version);
	wire_start(&message);
	wire_ready(&message, flags, version, play->history.most);
	room = choose_room(&play->history.random, message.n);
	wire_byte(call, READY);
	wire_big(call, 2, room);
	wire_big(call, 4, flags);
	wire_big(call, 4, version);
	wire_big(call, 2, play->history.most);
	if (play->greeted)
		send(play, &message, room);
}

static void call_dismiss(struct play *play, struct wire *call)
{
	static struct wire message;
	const uint8_t id = history_dismissed(&play->history);
	unsigned room;

	wire_start(&message);
	wire_dismiss(&message, id);
	room = choose_room(&play->history.random, message.n);
	wire_byte(call, DISMISS);
	wire_big(call, 2, room);
	wire_byte(call, id);
	if (play->history.twin.state[id] == TWIN_HOVERING)
		send(play, &message, room);
}

/* An entry that is no call. */
static void no_call(struct random *random, struct wire *call)
{
	static const uint8_t unknown[] = { 0, 4, 5, 7, 8, 0x31, 0x82, 0xFF };
	unsigned bytes = random_below(random, 20);

	switch (random_below(random, 5)) {
	case 0:
		return;
	case 1:
		wire_byte(call, RANDOM_OF(random, unknown));
		break;
	case 2:
		wire_byte(call, READY);
		bytes += bytes == READY_BYTES;
		break;
	case 3:
		wire_byte(call, TOUCH);
		bytes %= TOUCH_BYTES;
		break;
	default:
		wire_byte(call, DISMISS);
		bytes += bytes == DISMISS_BYTES;
	}
	while (bytes-- > 0)
		wire_byte(call, (uint8_t)random_next(random));
}

/* ---- Touch. */

/* Appends a frame, unless the body would then be longer than this. */
static bool add_frame(struct touch *touch, const struct frame *frame, size_t most)
{
	const size_t before = touch->body.n;

	touch_frame(&touch->body, frame, frame->count, frame->offset);
	if (touch->body.n > most) {
		wire_take_back(&touch->body, before);
		return false;
	}
	records_frame(&touch->records, frame);
	touch->frames++;
	return true;
}

/* Appends so many frames or fewer, each going on from those before. Of legal ones, those that do not conform are left out. */
static void play_frames(struct play *play, struct touch *touch, struct twin *ahead, unsigned frames, size_t most, bool legal)
{
	for (unsigned i = 0; i < frames; i++) {
		struct twin after = *ahead;
		struct frame frame;

		history_frame(&play->history, ahead, touch->frames == 0, &frame);
		touch_follow(&after, &frame);
		if (legal && after.ignoring)
			continue;
		if (!add_frame(touch, &frame, most))
			return;
		*ahead = after;
	}
}

/* Frames that should be legal, at both sides of how long a message may be: large ones, then smaller ones, then empty ones. */
static void play_longest(struct play *play, struct touch *touch, size_t most)
{
	static const struct {
		unsigned crowd;
		unsigned frames;
	} steps[] = { { FRAME_CONTACTS_MOST, 2 }, { 63, 14 }, { 2, 24 } };
	struct habits *habits = &play->history.habits;
	const struct habits usual = *habits;
	struct twin ahead = play->history.twin;
	bool fits = true;

	habits->spoil = 0;
	for (size_t i = 0; i < sizeof steps / sizeof steps[0]; i++) {
		habits->crowd = steps[i].crowd;
		play_frames(play, touch, &ahead, steps[i].frames, most, true);
	}
	*habits = usual;
	while (fits && touch->frames < FRAMES_MOST && touch->body.n + EMPTY_FRAME_LEAST <= most) {
		struct frame frame;

		history_filler(&play->history, most - touch->body.n, &frame);
		fits = add_frame(touch, &frame, most);
	}
}

/* Frames that as a rule are legal, and fit into one message. */
static void play_some(struct play *play, struct touch *touch)
{
	struct random *random = &play->history.random;
	struct habits *habits = &play->history.habits;
	const struct habits usual = *habits;
	struct twin ahead = play->history.twin;
	const bool legal = random_chance(random, 850);
	const size_t most = random_chance(random, 20) ? 2 * TWIN_MESSAGE_MOST : TWIN_MESSAGE_MOST - 16;

	if (legal)
		habits->spoil = 0;
	play_frames(play, touch, &ahead, history_frames(&play->history), most, legal);
	*habits = usual;
}

static size_t time_bytes(uint64_t time)
{
	unsigned bytes = 1;

	while (time > wire_greatest(&wire_u4, bytes))
		bytes++;
	return bytes;
}

/* What is wrong with the call itself. */
enum fault { SOUND, BAD_TIME, BAD_RECORD, BAD_BYTES, FAULTS };

static void write_touch(struct random *random, struct wire *call, uint64_t time, struct records *records, enum fault fault)
{
	static const uint32_t times[] = { 0x40000000, 0x40000001, 0x80000000, 0xFFFFFFFF };

	if (fault == BAD_RECORD)
		records_spoil(random, records);
	wire_big(call, 4, fault == BAD_TIME ? RANDOM_OF(random, times) : time);
	records_write(call, records);
	if (fault == BAD_BYTES)
		records_spoil_bytes(random, call, records);
}

static void call_touch(struct play *play, struct wire *call)
{
	static struct touch touch;
	static struct wire message;
	struct random *random = &play->history.random;
	const uint64_t time = history_time(&play->history);
	enum fault fault = random_chance(random, 60) ? 1 + random_below(random, FAULTS - 1) : SOUND;
	unsigned room;

	touch.frames = 0;
	touch.records.n = 0;
	wire_start(&touch.body);
	if (random_chance(random, 20))
		play_longest(play, &touch, TWIN_MESSAGE_MOST - 1 - WIRE_HEADER_BYTES - time_bytes(time) - 1 + random_below(random, 3));
	else
		play_some(play, &touch);
	wire_start(&message);
	touch_message(&message, time, touch.frames, &touch.body);
	room = choose_room(random, message.n);
	if (touch.records.n == 0 && fault != BAD_TIME)
		fault = SOUND;
	wire_byte(call, TOUCH);
	wire_big(call, 2, room);
	write_touch(random, call, time, &touch.records, fault);
	if (fault == SOUND && !play->suspended)
		send(play, &message, room);
}

/* ---- The file. */

/* How often a panel is asked for what, in 1000 calls: for the rest it is asked for touch. */
struct chances {
	unsigned nothing;
	unsigned take;
	unsigned ready;
	unsigned dismiss;
};

/* By where it stands: before server ready, before client ready, free to write touch, suspended. */
static struct chances choose_chances(const struct play *play)
{
	if (!play->greeted)
		return (struct chances){ 20, 400, 300, 80 };
	if (!play->history.twin.ready)
		return (struct chances){ 20, 150, 500, 50 };
	if (!play->suspended)
		return (struct chances){ 20, 20, 10, 90 };
	return (struct chances){ 20, 180, 10, 90 };
}

static void make_call(struct play *play, struct wire *call)
{
	const struct chances of = choose_chances(play);
	const unsigned kind = random_below(&play->history.random, 1000);

	if (kind < of.nothing)
		no_call(&play->history.random, call);
	else if (kind < of.nothing + of.take)
		call_take(play, call);
	else if (kind < of.nothing + of.take + of.ready)
		call_ready(play, call);
	else if (kind < of.nothing + of.take + of.ready + of.dismiss)
		call_dismiss(play, call);
	else
		call_touch(play, call);
}

static void write_call(struct play *play)
{
	static struct wire call;

	wire_start(&call);
	make_call(play, &call);
	wire_entry(&call, stdout);
}

int main(int argc, char **argv)
{
	static struct play play;
	unsigned long long entries;

	if (argc != 4 || (play.messages = fopen(argv[3], "wb")) == NULL) {
		fputs("usage: panel_calls SEED ENTRIES MESSAGES > CALLS\n", stderr);
		return 2;
	}
	history_start(&play.history, strtoull(argv[1], NULL, 10));
	entries = strtoull(argv[2], NULL, 10);
	for (unsigned long long i = 0; i < entries; i++)
		write_call(&play);
	if (random_chance(&play.history.random, 200))
		damage_cut(&play.history.random);
	return fclose(play.messages) == 0 && fflush(stdout) == 0 && !ferror(stdout) ? 0 : 2;
}
