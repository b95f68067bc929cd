/* differences < FILE: feeds each entry of a bench file to the second receiver and to each of the product's calls for one message, with a
 * receiver of its own, and compares all that the calls decide: the answers with the encode time, every byte of the output, and the
 * receivers. Each message that writes is first given too little room, then room enough. Ends with 1 at the first difference, after
 * saying what it is. */
#include "entries.h"
#include "output.h"
#include "same.h"

#include <inttypes.h>
#include <stdio.h>
#include <stdlib.h>
#include <string.h>

/* A call of the product, and what it is lent and answers. */
struct way {
	const char *name;
	struct kangirlo_answer (*receive)(struct kangirlo_receiver *, const uint8_t *, size_t, uint8_t *, size_t);
	struct kangirlo_receiver receiver;
	struct kangirlo_answer answer;
	union output output;
};

enum { WAYS = 2 };

static struct way ways[WAYS] = {
	{ .name = "kangirlo_receive", .receive = kangirlo_receive },
	{ .name = "kangirlo_receive_direct", .receive = kangirlo_receive_direct },
};

static struct {
	struct twin receiver;
	struct twin_answer answer;
	union output output;
} twin;

/* What all calls are given. */
struct given {
	uint64_t entry;
	const uint8_t *message;
	size_t n, room;
};

static struct twin_answer plain(const struct kangirlo_answer *answer)
{
	return (struct twin_answer){ answer->refusal, answer->injected, answer->ignored, answer->cancelled, answer->time.value,
		                     answer->records };
}

static void stop(const struct given *given, const char *whose, const char *what)
{
	printf("entry %" PRIu64 " with %zu bytes of output: %s %s\n", given->entry, given->room, whose, what);
	for (const struct way *way = ways; way < ways + WAYS; way++) {
		const struct twin_answer answer = plain(&way->answer);

		same_print(way->name, &answer);
	}
	same_print("twin", &twin.answer);
	output_print_message(given->message, given->n);
	exit(1);
}

static bool same_answer(const struct kangirlo_answer *a, const struct twin_answer *b)
{
	return a->refusal == b->refusal && a->injected == b->injected && a->ignored == b->ignored && a->cancelled == b->cancelled &&
	       a->time.value == b->time && a->records == b->records;
}

/* Compares all that became of a message by one of the calls. Leaves its output untouched again. */
static void compare(const struct given *given, struct way *way, const struct kangirlo_receiver *before)
{
	const size_t written = way->answer.records * KANGIRLO_RECORD_BYTES;

	if (!same_answer(&way->answer, &twin.answer))
		stop(given, way->name, "answers otherwise than the twin");
	if (written > given->room)
		stop(given, way->name, "writes more than there is room");
	if (memcmp(way->output.bytes, twin.output.bytes, written) != 0)
		stop(given, way->name, "writes other records than the twin");
	if (!output_is_clear(&way->output, written))
		stop(given, way->name, "touches the output past its records");
	if (way->answer.refusal != 0 && !same_fields(&way->receiver, before))
		stop(given, way->name, "refuses, and changes its receiver");
	if (!same_receiver(&way->receiver, &twin.receiver))
		stop(given, way->name, "leaves another receiver than the twin");
	if (!same_fields(&way->receiver, &ways[0].receiver))
		stop(given, way->name, "leaves another receiver than the first call");
	output_clear_front(&way->output, written);
}

/* Lends so much room to all, and compares everything. */
static void receive(struct given *given, size_t room)
{
	const struct kangirlo_receiver before = ways[0].receiver;
	size_t written;

	given->room = room;
	for (struct way *way = ways; way < ways + WAYS; way++)
		way->answer = way->receive(&way->receiver, given->message, given->n, way->output.bytes, room);
	twin.answer = twin_receive(&twin.receiver, given->message, given->n, twin.output.bytes, room);
	for (struct way *way = ways; way < ways + WAYS; way++)
		compare(given, way, &before);
	written = twin.answer.records * TWIN_RECORD_BYTES;
	if (!output_is_clear(&twin.output, written))
		stop(given, "the twin", "touches the output past its records");
	output_clear_front(&twin.output, written);
}

/* How many bytes a message would write. The twin is asked; if it is wrong, the calls differ. */
static size_t need(const struct given *given)
{
	static uint8_t trial[TWIN_OUTPUT_MOST];
	struct twin receiver = twin.receiver;

	return twin_receive(&receiver, given->message, given->n, trial, sizeof trial).records * TWIN_RECORD_BYTES;
}

static void begin(void)
{
	for (struct way *way = ways; way < ways + WAYS; way++) {
		way->receiver = kangirlo_fresh();
		output_clear(&way->output);
	}
	twin_fresh(&twin.receiver);
	output_clear(&twin.output);
}

int main(void)
{
	struct entries entries = entries_load(stdin);
	struct given given = { 0 };

	begin();
	while (entries_next(&entries, &given.message, &given.n)) {
		const size_t bytes = need(&given);

		given.entry++;
		if (bytes > 0)
			receive(&given, given.entry % 2 == 0 ? bytes - 1 : given.entry % bytes);
		receive(&given, given.entry % 4 < 2 ? bytes : KANGIRLO_OUTPUT_MOST);
	}
	printf("%" PRIu64 "\n", given.entry);
	free(entries.bytes);
	return 0;
}
