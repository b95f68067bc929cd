/* Many messages in one call: the buffer is walked twice, first to count its entries, and only if all is well to feed them. */
#include "twin_batch.h"

#include <stdbool.h>

/* 02, "Refusals: 18 BadBatch, before anything is fed" */
enum { BAD_BATCH = 18 };

/* 01, "A bench file": "entries of a 16-bit length, most significant first, then a message" */
enum { LENGTH_BYTES = 2 };

struct entry {
	const uint8_t *message;
	size_t n;
};

/* What is left of the buffer. */
struct rest {
	const uint8_t *at;
	size_t n;
};

/* Takes the next entry off the rest. False, and the rest as it was, where there is no further complete one. */
static bool take_entry(struct rest *rest, struct entry *entry)
{
	size_t n;

	if (rest->n < LENGTH_BYTES)
		return false;
	n = (size_t)rest->at[0] << 8 | rest->at[1];
	if (rest->n - LENGTH_BYTES < n)
		return false;
	*entry = (struct entry){ rest->at + LENGTH_BYTES, n };
	*rest = (struct rest){ entry->message + n, rest->n - LENGTH_BYTES - n };
	return true;
}

/* 02, "if the last entry is incomplete or the answer list is too short" */
static bool is_bad(struct rest rest, size_t places)
{
	struct entry entry;
	size_t entries = 0;

	while (take_entry(&rest, &entry))
		entries++;
	return rest.n > 0 || entries > places;
}

/* 02, "The result equals feeding them singly, each given the output that is left." A refused entry, by 13 too, writes nothing and
 * the next one is fed all the same. */
static struct twin_batch feed(struct twin *twin, struct rest rest, struct twin_answer *answers, uint8_t *output, size_t room)
{
	struct twin_batch batch = { 0 };
	struct entry entry;

	while (take_entry(&rest, &entry)) {
		const size_t used = batch.records * TWIN_RECORD_BYTES;
		const struct twin_answer answer = twin_receive(twin, entry.message, entry.n, output + used, room - used);

		answers[batch.entries++] = answer;
		batch.records += answer.records;
	}
	return batch;
}

struct twin_batch twin_receive_all(struct twin *twin, const uint8_t *buffer, size_t n, struct twin_answer *answers, size_t places,
                                   uint8_t *output, size_t room)
{
	const struct rest rest = { buffer, n };

	if (is_bad(rest, places))
		return (struct twin_batch){ .refusal = BAD_BATCH };
	return feed(twin, rest, answers, output, room);
}
