/* call_batch PASSES < FILE: measures the product's call for many messages (measure.h), in bursts of 64; compiled with DIRECT, the call that
 * is lent the receiver's own fields. Where the bursts end is found by the pass that makes the checksum, so that it is not measured. */
#include "measure.h"
#include "same.h"

#include <stdlib.h>

#ifdef DIRECT
#define RECEIVE_ALL kangirlo_receive_all_direct
#else
#define RECEIVE_ALL kangirlo_receive_all
#endif

enum { BURST = 64 };

static struct kangirlo_batch_answer answers[BURST];
static uint8_t output[BURST * KANGIRLO_OUTPUT_MOST];
static size_t *ends, bursts;

static struct kangirlo_batch receive(struct kangirlo_receiver *receiver, const struct entries *entries, size_t from, size_t to)
{
	return RECEIVE_ALL(receiver, entries->bytes + from, to - from, answers, KANGIRLO_BATCH_NUMBERS(BURST), output, sizeof output);
}

/* Finds where each burst ends. */
static void cut(struct entries entries)
{
	const uint8_t *message;
	size_t n;

	ends = malloc((entries.n / BURST + 1) * sizeof *ends);
	if (ends == NULL) {
		perror("malloc");
		exit(2);
	}
	for (size_t i = 0; entries_next(&entries, &message, &n); i++) {
		bursts += i % BURST == 0;
		ends[bursts - 1] = entries.at;
	}
}

static uint64_t add_all(uint64_t sum, size_t count)
{
	const uint8_t *records = output;

	for (size_t i = 0; i < count; i++) {
		const struct twin_answer answer = same_form(&answers[i]);

		sum = measure_add(sum, &answer, records);
		records += answer.records * TWIN_RECORD_BYTES;
	}
	return sum;
}

static uint64_t sum_up(struct entries entries)
{
	struct kangirlo_receiver receiver = kangirlo_fresh();
	uint64_t sum = MEASURE_NOTHING;
	size_t from = 0;

	cut(entries);
	for (size_t i = 0; i < bursts; i++) {
		sum = add_all(sum, receive(&receiver, &entries, from, ends[i]).entries);
		from = ends[i];
	}
	return sum;
}

static void pass(struct entries entries)
{
	struct kangirlo_receiver receiver = kangirlo_fresh();
	size_t from = 0;

	for (size_t i = 0; i < bursts; i++) {
		receive(&receiver, &entries, from, ends[i]);
		from = ends[i];
	}
}

int main(int argc, char **argv)
{
	return measure(argc, argv, pass, sum_up);
}
