/* plains < FILE: reads each entry of a bench file by itself, leniently and strictly, by the product and by the second receiver's plain
 * reading, and compares all that the calls decide: the answers with the encode time, and every byte of the output, with too little room
 * and with enough. The two readings are held against each other: where the strict one answers anything but 6, the lenient one answers the
 * same, and 6 is not an answer of its own.
 *
 * What the lenient reading accepts is written back, into no more room than the message had. The message that this gives must be read the
 * same by both, by the strict reading too, and be itself when it is written back again. Where the strict reading accepted the first one,
 * the two must be the same bytes.
 *
 * Prints how many entries it read, how many were accepted, how many of these were padded, how many padded ones had another fault, and how
 * many of the accepted padded ones were written back in as many bytes. Ends with 1 at the first difference, after saying what it is. */
#include "entries.h"
#include "output.h"
#include "twin.h"

#include <inttypes.h>
#include <stdlib.h>
#include <string.h>

/* A reading, and what the product and the twin make of a message by it. */
struct reading {
	const char *name;
	struct kangirlo_plain_answer (*read)(const uint8_t *, size_t, uint8_t *, size_t);
	enum twin_forms forms;
	struct kangirlo_plain_answer answer;
	struct twin_plain_answer twin_answer;
	union output output;
	union output twin_output;
};

enum { LENIENT, STRICT, READINGS };

static struct reading readings[READINGS] = {
	{ .name = "kangirlo_plain", .read = kangirlo_plain, .forms = TWIN_LENIENT },
	{ .name = "kangirlo_plain_strictly", .read = kangirlo_plain_strictly, .forms = TWIN_STRICT },
};

/* What is read: an entry, or what an entry becomes when it is written back. */
struct given {
	uint64_t entry;
	const char *which;
	const uint8_t *message;
	size_t n, room;
};

/* A message that is written back, and some bytes more, to see that they are left alone. */
struct back {
	size_t n;
	uint8_t bytes[KANGIRLO_MESSAGE_MOST + 64];
};

enum { PAINT = 0xA5 };

static struct {
	uint64_t entries;
	uint64_t accepted;
	uint64_t padded;        /* accepted, and not by the strict reading */
	uint64_t padded_refused; /* refused by 6 strictly, and otherwise leniently */
	uint64_t as_long;       /* padded ones that are as long when they are written back: minus zeros in one byte */
} totals;

static void print_answer(const char *whose, struct twin_plain_answer answer)
{
	printf("%s: refusal %u, time %" PRIu32 ", records %zu\n", whose, answer.refusal, answer.time, answer.records);
}

/* The product's answer in the twin's form. */
static struct twin_plain_answer form(const struct kangirlo_plain_answer *answer)
{
	return (struct twin_plain_answer){ answer->refusal, answer->time.value, answer->records };
}

static void stop(const struct given *given, const char *whose, const char *what)
{
	printf("entry %" PRIu64 "%s with %zu bytes of output: %s %s\n", given->entry, given->which, given->room, whose, what);
	for (const struct reading *reading = readings; reading < readings + READINGS; reading++) {
		print_answer(reading->name, form(&reading->answer));
		print_answer(reading->forms == TWIN_STRICT ? "twin, strictly" : "twin", reading->twin_answer);
	}
	output_print_message(given->message, given->n);
	exit(1);
}

static bool same_answer(struct twin_plain_answer a, struct twin_plain_answer b)
{
	return a.refusal == b.refusal && a.time == b.time && a.records == b.records;
}

/* Compares all that became of a message by one of the readings. */
static void compare(const struct given *given, const struct reading *reading)
{
	const size_t written = reading->answer.records * KANGIRLO_RECORD_BYTES;

	if (!same_answer(form(&reading->answer), reading->twin_answer))
		stop(given, reading->name, "answers otherwise than the twin");
	if (written > given->room)
		stop(given, reading->name, "writes more than there is room");
	if (memcmp(reading->output.bytes, reading->twin_output.bytes, written) != 0)
		stop(given, reading->name, "writes other records than the twin");
	if (!output_is_clear(&reading->output, written))
		stop(given, reading->name, "touches the output past its records");
	if (!output_is_clear(&reading->twin_output, written))
		stop(given, "the twin", "touches the output past its records");
}

/* Makes the outputs as they were, from what the last reading left in them. */
static void wipe(struct reading *reading)
{
	const size_t written = reading->answer.records * KANGIRLO_RECORD_BYTES;

	output_clear_front(&reading->output, written);
	output_clear_front(&reading->twin_output, written);
}

/* Reads a message both ways with so much room. What is written stays until the next time. */
static void read_both(struct given *given, size_t room)
{
	given->room = room;
	for (struct reading *reading = readings; reading < readings + READINGS; reading++) {
		wipe(reading);
		reading->answer = reading->read(given->message, given->n, reading->output.bytes, room);
		reading->twin_answer = twin_plain(reading->forms, given->message, given->n, reading->twin_output.bytes, room);
	}
	for (const struct reading *reading = readings; reading < readings + READINGS; reading++)
		compare(given, reading);
}

/* What the two readings have to do with each other. */
static void compare_readings(const struct given *given)
{
	const struct reading *lenient = &readings[LENIENT], *strict = &readings[STRICT];

	if (lenient->answer.refusal == KANGIRLO_NOT_SHORTEST)
		stop(given, lenient->name, "refuses by 6");
	if (strict->answer.refusal == KANGIRLO_NOT_SHORTEST)
		return;
	if (!same_answer(form(&lenient->answer), form(&strict->answer)))
		stop(given, strict->name, "answers otherwise than the lenient reading, and not by 6");
	if (memcmp(&lenient->output, &strict->output, sizeof lenient->output) != 0)
		stop(given, strict->name, "writes other records than the lenient reading");
}

/* Writes back what the lenient reading has just read, into so much room. */
static void write_back(const struct given *given, struct back *back, size_t room)
{
	const struct reading *lenient = &readings[LENIENT];
	struct kangirlo_written written;
	size_t at;

	memset(back->bytes, PAINT, sizeof back->bytes);
	written = kangirlo_write_touch(back->bytes, room, lenient->answer.time, lenient->output.bytes,
	                               lenient->answer.records * KANGIRLO_RECORD_BYTES);
	if (written.refusal == KANGIRLO_NO_ROOM)
		stop(given, "kangirlo_write_touch", "writes it back longer than it is");
	if (written.refusal != KANGIRLO_TAKEN || written.bytes > room)
		stop(given, "kangirlo_write_touch", "does not write it back");
	for (at = written.bytes; at < sizeof back->bytes; at++)
		if (back->bytes[at] != PAINT)
			stop(given, "kangirlo_write_touch", "touches the output past its message");
	back->n = written.bytes;
}

static bool is_message(const struct back *back, const uint8_t *message, size_t n)
{
	return back->n == n && memcmp(back->bytes, message, n) == 0;
}

/* The message that was written back, instead of the one that it comes from: read the same, strictly too, and written back as itself. */
static void check_back(const struct given *given, const struct back *back)
{
	static struct back again;
	static union output first;
	const struct twin_plain_answer answer = form(&readings[LENIENT].answer);
	struct given now = { given->entry, ", written back,", back->bytes, back->n, 0 };

	first = readings[LENIENT].output;
	read_both(&now, KANGIRLO_OUTPUT_MOST);
	for (const struct reading *reading = readings; reading < readings + READINGS; reading++) {
		if (!same_answer(form(&reading->answer), answer))
			stop(&now, reading->name, "answers otherwise than for the message it comes from");
		if (memcmp(&reading->output, &first, sizeof first) != 0)
			stop(&now, reading->name, "writes other records than for the message it comes from");
	}
	write_back(&now, &again, now.n);
	if (!is_message(&again, now.message, now.n))
		stop(&now, "kangirlo_write_touch", "writes it back as another message");
}

/* What the lenient reading has accepted. */
static void check_accepted(const struct given *given)
{
	static struct back back;
	const bool shortest = readings[STRICT].answer.refusal == KANGIRLO_TAKEN;

	write_back(given, &back, given->n);
	if (shortest && !is_message(&back, given->message, given->n))
		stop(given, "kangirlo_write_touch", "does not give back the bytes of a message that the strict reading accepts");
	if (!shortest && is_message(&back, given->message, given->n))
		stop(given, "kangirlo_write_touch", "gives back the bytes of a message that the strict reading refuses");
	check_back(given, &back);
	totals.accepted++;
	totals.padded += !shortest;
	totals.as_long += !shortest && back.n == given->n;
}

/* How many bytes a message would write. The twin is asked; if it is wrong, the calls differ. */
static size_t need(const struct given *given)
{
	static uint8_t trial[TWIN_OUTPUT_MOST];

	return twin_plain(TWIN_LENIENT, given->message, given->n, trial, sizeof trial).records * TWIN_RECORD_BYTES;
}

static void check(struct given *given)
{
	const size_t bytes = need(given);

	if (bytes > 0) {
		read_both(given, given->entry % 2 == 0 ? bytes - 1 : given->entry % bytes);
		compare_readings(given);
	}
	read_both(given, given->entry % 4 < 2 ? bytes : KANGIRLO_OUTPUT_MOST);
	compare_readings(given);
	totals.entries++;
	if (readings[LENIENT].answer.refusal == KANGIRLO_TAKEN)
		check_accepted(given);
	else
		totals.padded_refused += readings[STRICT].answer.refusal == KANGIRLO_NOT_SHORTEST;
}

int main(void)
{
	struct entries entries = entries_load(stdin);
	struct given given = { .which = "" };

	for (struct reading *reading = readings; reading < readings + READINGS; reading++) {
		output_clear(&reading->output);
		output_clear(&reading->twin_output);
	}
	while (entries_next(&entries, &given.message, &given.n)) {
		given.entry++;
		check(&given);
	}
	printf("%" PRIu64 " %" PRIu64 " %" PRIu64 " %" PRIu64 " %" PRIu64 "\n", totals.entries, totals.accepted, totals.padded,
	       totals.padded_refused, totals.as_long);
	free(entries.bytes);
	return 0;
}
