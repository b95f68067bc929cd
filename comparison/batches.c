/* batches SEED < FILE: cuts a bench file into bursts, as the seed decides, and feeds each as a batch to the second receiver and to each of
 * the product's calls for many messages, with a receiver of its own. Compares all that the calls decide: refusals, answers, records,
 * the rest of the list and of the output, and the receivers. Before a burst counts it is tried with less of everything: cut short
 * anywhere, with few places, with little output. Ends with 1 at the first difference, after saying what it is; else prints how many
 * batches there were, how many of them were refused because they were cut or because there were too few places, and in how many the
 * output ran out. */
#include "entries.h"
#include "random.h"
#include "same.h"
#include "twin_batch.h"

#include <stdio.h>
#include <stdlib.h>
#include <string.h>

enum { BURST_MOST = 40, PLACES = BURST_MOST + 3, OUTPUT_BYTES = 1 << 19, PAINT = 0xA5, TRIES = 4, NO_ROOM = 13 };

/* What a call is lent, beside the output. */
struct lent {
	const uint8_t *buffer;
	size_t n, places, room;
};

/* A call of the product, and what it is lent and answers. */
struct way {
	const char *name;
	struct kangirlo_batch (*receive_all)(struct kangirlo_receiver *, const uint8_t *, size_t, struct kangirlo_batch_answer *, size_t,
	                                     uint8_t *, size_t);
	struct kangirlo_receiver receiver;
	struct kangirlo_batch batch;
	struct kangirlo_batch_answer answers[PLACES];
	uint8_t output[OUTPUT_BYTES];
};

enum { WAYS = 2 };

static struct way ways[WAYS] = {
	{ .name = "kangirlo_receive_all", .receive_all = kangirlo_receive_all },
	{ .name = "kangirlo_receive_all_direct", .receive_all = kangirlo_receive_all_direct },
};

static struct {
	struct twin receiver;
	struct twin_batch batch;
	struct twin_answer answers[PLACES];
	uint8_t output[OUTPUT_BYTES];
} twin;

static struct {
	unsigned long batches, cut, few, ran_out;
} totals;

/* More than the list and the output have. */
static uint8_t painted[OUTPUT_BYTES];

static bool same_answer(const struct kangirlo_batch_answer *a, const struct twin_answer *b)
{
	return a->refusal == b->refusal && a->injected == b->injected && a->ignored == b->ignored && a->cancelled == b->cancelled &&
	       a->time == b->time && a->records == b->records;
}

static void stop(const struct lent *lent, const char *whose, const char *what)
{
	printf("batch %lu of %zu bytes with %zu places and %zu bytes of output: %s %s\n", totals.batches, lent->n, lent->places, lent->room,
	       whose, what);
	for (const struct way *way = ways; way < ways + WAYS; way++)
		printf("%s: refusal %u, entries %zu, records %zu\n", way->name, way->batch.refusal, way->batch.entries, way->batch.records);
	printf("twin: refusal %u, entries %zu, records %zu\n", twin.batch.refusal, twin.batch.entries, twin.batch.records);
	exit(1);
}

static void stop_at(const struct lent *lent, const struct way *way, size_t place)
{
	const struct twin_answer answer = same_form(&way->answers[place]);

	printf("the answers in place %zu differ\n", place);
	same_print(way->name, &answer);
	same_print("twin", &twin.answers[place]);
	stop(lent, way->name, "gives another answer than the twin");
}

static void compare_answers(const struct lent *lent, const struct way *way)
{
	const size_t n = way->batch.entries;

	for (size_t i = 0; i < n; i++)
		if (!same_answer(&way->answers[i], &twin.answers[i]))
			stop_at(lent, way, i);
	if (memcmp(way->answers + n, painted, (PLACES - n) * sizeof *way->answers) != 0)
		stop(lent, way->name, "touches the list past its answers");
}

/* Leaves the output painted again. */
static void compare_output(const struct lent *lent, struct way *way)
{
	const size_t written = way->batch.records * KANGIRLO_RECORD_BYTES;

	if (written > lent->room)
		stop(lent, way->name, "writes more than there is room");
	if (memcmp(way->output, twin.output, written) != 0)
		stop(lent, way->name, "writes other records than the twin");
	if (memcmp(way->output + written, painted, OUTPUT_BYTES - written) != 0)
		stop(lent, way->name, "touches the output past its records");
	memset(way->output, PAINT, written);
}

/* All that became of a batch by one of the calls. */
static void compare_way(const struct lent *lent, struct way *way)
{
	const struct kangirlo_batch *a = &way->batch;
	const struct twin_batch *b = &twin.batch;

	if (a->refusal != b->refusal || a->entries != b->entries || a->records != b->records)
		stop(lent, way->name, "answers otherwise than the twin");
	compare_answers(lent, way);
	compare_output(lent, way);
	if (!same_receiver(&way->receiver, &twin.receiver))
		stop(lent, way->name, "leaves another receiver than the twin");
	if (!same_fields(&way->receiver, &ways[0].receiver))
		stop(lent, way->name, "leaves another receiver than the first call");
}

/* What the twin must leave alone, and its output painted again. */
static void compare_twin(const struct lent *lent)
{
	const size_t n = twin.batch.entries, written = twin.batch.records * TWIN_RECORD_BYTES;

	if (memcmp(twin.answers + n, painted, (PLACES - n) * sizeof *twin.answers) != 0)
		stop(lent, "the twin", "touches the list past its answers");
	if (memcmp(twin.output + written, painted, OUTPUT_BYTES - written) != 0)
		stop(lent, "the twin", "touches the output past its records");
	memset(twin.output, PAINT, written);
}

static bool ran_out(void)
{
	for (size_t i = 0; i < twin.batch.entries; i++)
		if (twin.answers[i].refusal == NO_ROOM)
			return true;
	return false;
}

/* Feeds a batch to all, and compares everything. */
static void compare(const struct lent *lent, unsigned odd_numbers)
{
	const size_t numbers = KANGIRLO_BATCH_NUMBERS(lent->places) + odd_numbers;

	totals.batches++;
	for (struct way *way = ways; way < ways + WAYS; way++) {
		memset(way->answers, PAINT, sizeof way->answers);
		way->batch = way->receive_all(&way->receiver, lent->buffer, lent->n, way->answers, numbers, way->output, lent->room);
	}
	memset(twin.answers, PAINT, sizeof twin.answers);
	twin.batch = twin_receive_all(&twin.receiver, lent->buffer, lent->n, twin.answers, lent->places, twin.output, lent->room);
	for (struct way *way = ways; way < ways + WAYS; way++)
		compare_way(lent, way);
	compare_twin(lent);
	totals.ran_out += ran_out();
}

/* Gives each its receiver. */
static void begin(const struct kangirlo_receiver *receiver, const struct twin *twin_receiver)
{
	for (struct way *way = ways; way < ways + WAYS; way++)
		way->receiver = *receiver;
	twin.receiver = *twin_receiver;
}

static void begin_fresh(void)
{
	const struct kangirlo_receiver fresh = kangirlo_fresh();
	struct twin fresh_twin;

	twin_fresh(&fresh_twin);
	begin(&fresh, &fresh_twin);
	memset(painted, PAINT, sizeof painted);
	for (struct way *way = ways; way < ways + WAYS; way++)
		memset(way->output, PAINT, sizeof way->output);
	memset(twin.output, PAINT, sizeof twin.output);
}

/* A burst with less of everything, which leaves the receivers as they were. */
static void try_less(struct random *random, const struct lent *burst, unsigned entries)
{
	const struct kangirlo_receiver before = ways[0].receiver;
	const struct twin twin_before = twin.receiver;
	const bool cut = random_chance(random, 300) && burst->n > 0, few = !cut && random_chance(random, 400);
	struct lent less = *burst;

	if (cut)
		less.n = random_next(random) % burst->n;
	if (few)
		less.places = random_below(random, entries + 1);
	if (random_chance(random, 700))
		less.room = random_below(random, random_chance(random, 500) ? 4096 : 65536);
	compare(&less, random_below(random, 6));
	totals.cut += cut && twin.batch.refusal != 0;
	totals.few += few && twin.batch.refusal != 0;
	begin(&before, &twin_before);
}

/* Feeds the next entries, at most so many. Answers how many there were. */
static unsigned feed_burst(struct random *random, struct entries *entries, unsigned most)
{
	struct lent burst = { entries->bytes + entries->at, 0, 0, OUTPUT_BYTES };
	const uint8_t *message;
	unsigned count = 0;
	size_t n;

	while (count < most && entries_next(entries, &message, &n)) {
		burst.n += 2 + n;
		count++;
	}
	burst.places = count + random_below(random, PLACES - BURST_MOST);
	for (unsigned i = 0; i < TRIES; i++)
		try_less(random, &burst, count);
	if (random_chance(random, 300))
		burst.room = random_below(random, 16384);
	compare(&burst, random_below(random, 6));
	return count;
}

int main(int argc, char **argv)
{
	struct random random = { argc == 2 ? strtoull(argv[1], NULL, 10) : 0 };
	struct entries entries = entries_load(stdin);
	unsigned most;

	begin_fresh();
	do
		most = random_below(&random, BURST_MOST + 1);
	while (feed_burst(&random, &entries, most) == most);
	printf("%lu %lu %lu %lu\n", totals.batches, totals.cut, totals.few, totals.ran_out);
	free(entries.bytes);
	return 0;
}
