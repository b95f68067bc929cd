/* That a batch is its messages one by one, and that a direct call does what the other does. Every bench file is cut into bursts, and each
 * is fed to four receivers: to one by kangirlo_receive_all, to one by kangirlo_receive, and to two by their direct calls. All that the
 * calls are lent is compared, past what they write too.
 *
 *     bursts FILE..               ends with 'N passed, M failed' */
#include "bench_file.h"
#include "expect.h"
#include "kangirlo.h"

#include <string.h>

enum { BURST_MOST = 24, LENGTH_BYTES = 2, ENTRY_MOST = LENGTH_BYTES + UINT16_MAX };

/* What list and output are filled with before a call: other bits for the side that the others are compared with, so that a bit which a
 * call leaves as it was is seen. */
enum { PAINT = 0xA5, OTHER_PAINT = 0x5A };

/* The messages that are gathered for the next burst. */
static struct {
	uint8_t bytes[BURST_MOST * ENTRY_MOST];
	size_t length;
	size_t entries;
} burst;

/* What is lent to one of the two calls of its kind, and what is answered. */
struct side {
	struct kangirlo_batch (*receive_all)(struct kangirlo_receiver *, const uint8_t *, size_t, struct kangirlo_batch_answer *, size_t,
	                                     uint8_t *, size_t);
	struct kangirlo_answer (*receive)(struct kangirlo_receiver *, const uint8_t *, size_t, uint8_t *, size_t);
	struct kangirlo_receiver receiver;
	struct kangirlo_batch batch;
	struct kangirlo_batch_answer answers[BURST_MOST + 1];
	uint8_t output[BURST_MOST * KANGIRLO_OUTPUT_MOST];
	uint8_t paint;
};

static struct side together = {.receive_all = kangirlo_receive_all, .paint = OTHER_PAINT};
static struct side together_direct = {.receive_all = kangirlo_receive_all_direct, .paint = OTHER_PAINT};
static struct side singly = {.receive = kangirlo_receive, .paint = PAINT};
static struct side singly_direct = {.receive = kangirlo_receive_direct, .paint = OTHER_PAINT};
static unsigned bursts;

static void paint(struct side *side)
{
	memset(side->answers, side->paint, sizeof side->answers);
	memset(side->output, side->paint, sizeof side->output);
}

static int is_painted(const uint8_t *from, const uint8_t *end, uint8_t paint)
{
	return from == end || (*from == paint && memcmp(from, from + 1, (size_t)(end - from) - 1) == 0);
}

/* Nothing past the answers and the records is touched. */
static int rest_is_painted(const struct side *side)
{
	return is_painted((const uint8_t *)(side->answers + side->batch.entries), (const uint8_t *)(side->answers + BURST_MOST + 1),
	                  side->paint)
	       && is_painted(side->output + side->batch.records * KANGIRLO_RECORD_BYTES, side->output + sizeof side->output, side->paint);
}

/* All but the bytes between the fields, which may be anything. */
static int same_receiver(const struct kangirlo_receiver *a, const struct kangirlo_receiver *b)
{
	return a->ready == b->ready && a->begun == b->begun && a->ignoring == b->ignoring && a->settings.flags == b->settings.flags
	       && a->settings.version == b->settings.version && a->settings.most == b->settings.most
	       && memcmp(a->states, b->states, sizeof a->states) == 0 && memcmp(a->xs, b->xs, sizeof a->xs) == 0
	       && memcmp(a->ys, b->ys, sizeof a->ys) == 0 && memcmp(a->held, b->held, sizeof a->held) == 0;
}

/* As the reference is, which is fed by kangirlo_receive. */
static int same(const struct side *side)
{
	const struct kangirlo_batch *a = &side->batch, *b = &singly.batch;

	return a->refusal == b->refusal && a->entries == b->entries && a->records == b->records
	       && same_receiver(&side->receiver, &singly.receiver)
	       && memcmp(side->answers, singly.answers, b->entries * sizeof *side->answers) == 0
	       && memcmp(side->output, singly.output, b->records * KANGIRLO_RECORD_BYTES) == 0 && rest_is_painted(side);
}

static void feed_together(struct side *side, size_t length, size_t numbers, size_t room)
{
	side->batch = side->receive_all(&side->receiver, burst.bytes, length, side->answers, numbers, side->output, room);
}

static void feed_singly(struct side *side, size_t room)
{
	struct kangirlo_batch batch = {KANGIRLO_TAKEN, burst.entries, 0};
	const uint8_t *entry = burst.bytes;

	for (size_t i = 0; i < burst.entries; i++) {
		const size_t length = (size_t)entry[0] << 8 | entry[1], end = batch.records * KANGIRLO_RECORD_BYTES;
		const struct kangirlo_answer a =
			side->receive(&side->receiver, entry + LENGTH_BYTES, length, side->output + end, room - end);

		side->answers[i] = (struct kangirlo_batch_answer){a.refusal, a.injected, a.ignored,
		                                                  a.cancelled, a.time.value, (uint32_t)a.records};
		batch.records += a.records;
		entry += LENGTH_BYTES + length;
	}
	side->batch = batch;
}

static void paint_all(void)
{
	paint(&together);
	paint(&together_direct);
	paint(&singly);
	paint(&singly_direct);
}

/* A batch that has to be refused, with nothing changed. */
static void refuse(size_t length, size_t numbers)
{
	feed_together(&together, length, numbers, sizeof together.output);
	feed_together(&together_direct, length, numbers, sizeof together_direct.output);
	EXPECT(same(&together));
	EXPECT(same(&together_direct));
}

/* Refused for want of a byte, or with a byte too much, or with a place too few: none at all, or all numbers but one of it. */
static void test_refusals(void)
{
	const size_t places = burst.entries;

	paint_all();
	singly.batch = (struct kangirlo_batch){KANGIRLO_BAD_BATCH, 0, 0};
	refuse(burst.length + 1, KANGIRLO_BATCH_NUMBERS(places + 1));
	if (places == 0)
		return;
	refuse(burst.length - 1, KANGIRLO_BATCH_NUMBERS(places));
	refuse(burst.length, KANGIRLO_BATCH_NUMBERS(places - 1));
	refuse(burst.length, KANGIRLO_BATCH_NUMBERS(places) - 1);
}

/* The same burst from the same receivers with so many bytes of output, and as many places as are needed, or one more. */
static void test_feeding(size_t room)
{
	const size_t numbers = KANGIRLO_BATCH_NUMBERS(burst.entries + bursts % 2);

	paint_all();
	feed_singly(&singly, room);
	feed_singly(&singly_direct, room);
	feed_together(&together, burst.length, numbers, room);
	feed_together(&together_direct, burst.length, numbers, room);
	EXPECT(rest_is_painted(&singly));
	EXPECT(same(&singly_direct));
	EXPECT(same(&together));
	EXPECT(same(&together_direct));
}

static void go_on_from(struct kangirlo_receiver receiver)
{
	singly.receiver = singly_direct.receiver = together.receiver = together_direct.receiver = receiver;
}

/* Tried with room for all, then with less, then with just enough. The receivers go on from the last of these; every third time from
 * the second. */
static void test_burst(void)
{
	const struct kangirlo_receiver before = singly.receiver;
	size_t bytes;

	burst.bytes[burst.length] = 0;
	test_refusals();
	test_feeding(sizeof singly.output);
	bytes = singly.batch.records * KANGIRLO_RECORD_BYTES;
	go_on_from(before);
	test_feeding(bytes == 0 ? 0 : bursts % 5 == 0 ? bytes - 1 : bytes * (bursts % 5) / 5);
	if (bursts % 3 == 0)
		return;
	go_on_from(before);
	test_feeding(bytes);
}

static void end_burst(void)
{
	test_burst();
	burst.length = burst.entries = 0;
	bursts++;
}

/* Bursts of all sizes, one of them after the other. */
static void gather(const uint8_t *message, size_t length)
{
	uint8_t *entry;

	while (burst.entries >= bursts % BURST_MOST)
		end_burst();
	entry = burst.bytes + burst.length;
	entry[0] = (uint8_t)(length >> 8);
	entry[1] = (uint8_t)length;
	memcpy(entry + LENGTH_BYTES, message, length);
	burst.length += LENGTH_BYTES + length;
	burst.entries++;
}

int main(int count, char **words)
{
	for (int i = 1; i < count; i++) {
		go_on_from(kangirlo_fresh());
		bench_file_each(words[i], gather);
		end_burst();
	}
	return expect_end();
}
