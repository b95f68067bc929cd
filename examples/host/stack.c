/* How much stack each call takes, return address included.
 *
 *     stack FILE..                every message of some bench files, and what they hold, through every call */
#include "bench_file.h"
#include "kangirlo.h"
#include "painted.h"

#include <string.h>

/* What a call is lent. */
static struct {
	struct kangirlo_receiver receiver;
	const uint8_t *message;
	size_t length;
	uint8_t entry[2 + UINT16_MAX];
	struct kangirlo_batch_answer answer;
	uint8_t output[KANGIRLO_OUTPUT_MOST];
	size_t room;
	uint8_t written[KANGIRLO_MESSAGE_MOST];
	size_t records;
	size_t bytes;
} lent;

/* The direct calls as functions of their own, with the frame that they have where they are not inlined. */
static struct {
	struct kangirlo_answer (*volatile receive)(struct kangirlo_receiver *, const uint8_t *, size_t, uint8_t *, size_t);
	struct kangirlo_batch (*volatile receive_all)(struct kangirlo_receiver *, const uint8_t *, size_t, struct kangirlo_batch_answer *,
	                                              size_t, uint8_t *, size_t);
} direct = {kangirlo_receive_direct, kangirlo_receive_all_direct};

static void fresh(void)
{
	PAINTED_MARK();
	lent.receiver = kangirlo_fresh();
}

/* Some arguments of the calls for a receiver go on the stack, and are counted: five of receive_parts, two of receive_all and
 * receive_all_direct, seven of receive_all_parts. */
static void receive(void)
{
	PAINTED_MARK();
	lent.records = kangirlo_receive(&lent.receiver, lent.message, lent.length, lent.output, lent.room).records;
}

static void receive_parts(void)
{
	const struct kangirlo_marks marks = kangirlo_marks_of(&lent.receiver);
	struct kangirlo_turn turn;

	PAINTED_MARK();
	turn = kangirlo_receive_parts(marks, lent.message, lent.length, lent.output, lent.room, lent.receiver.states, lent.receiver.xs,
	                              lent.receiver.ys, lent.receiver.held);
	kangirlo_keep_marks(&lent.receiver, turn.marks);
	lent.records = turn.answer.records;
}

static void receive_direct(void)
{
	PAINTED_MARK();
	lent.records = direct.receive(&lent.receiver, lent.message, lent.length, lent.output, lent.room).records;
}

/* The message as a batch of one. */
static void receive_all(void)
{
	PAINTED_MARK();
	lent.records = kangirlo_receive_all(&lent.receiver, lent.entry, 2 + lent.length, &lent.answer, KANGIRLO_BATCH_NUMBERS(1), lent.output,
	                                    lent.room)
	                       .records;
}

static void receive_all_parts(void)
{
	const struct kangirlo_marks marks = kangirlo_marks_of(&lent.receiver);
	struct kangirlo_batch_turn turn;

	PAINTED_MARK();
	turn = kangirlo_receive_all_parts(marks, lent.entry, 2 + lent.length, &lent.answer, KANGIRLO_BATCH_NUMBERS(1), lent.output, lent.room,
	                                  lent.receiver.states, lent.receiver.xs, lent.receiver.ys, lent.receiver.held);
	kangirlo_keep_marks(&lent.receiver, turn.marks);
	lent.records = turn.batch.records;
}

static void receive_all_direct(void)
{
	PAINTED_MARK();
	lent.records = direct.receive_all(&lent.receiver, lent.entry, 2 + lent.length, &lent.answer, KANGIRLO_BATCH_NUMBERS(1), lent.output,
	                                  lent.room)
	                       .records;
}

static void plain(void)
{
	PAINTED_MARK();
	lent.records = kangirlo_plain(lent.message, lent.length, lent.output, sizeof lent.output).records;
}

/* What it reads is what the lenient reading has read, or nothing: the records for the calls after it stay those. */
static void plain_strictly(void)
{
	PAINTED_MARK();
	lent.bytes = kangirlo_plain_strictly(lent.message, lent.length, lent.output, sizeof lent.output).records;
}

static void write_touch(void)
{
	struct kangirlo_milliseconds time = {7};
	size_t length = lent.records * KANGIRLO_RECORD_BYTES;

	PAINTED_MARK();
	lent.bytes = kangirlo_write_touch(lent.written, sizeof lent.written, time, lent.output, length).bytes;
}

static void read_records(void)
{
	for (size_t i = 0; i < lent.records; i++) {
		PAINTED_MARK();
		lent.bytes = kangirlo_read_record(lent.output + i * KANGIRLO_RECORD_BYTES, KANGIRLO_RECORD_BYTES).count;
	}
}

static void write_server_ready(void)
{
	PAINTED_MARK();
	lent.bytes = kangirlo_write_server_ready(lent.written, sizeof lent.written, 0x00010001).bytes;
}

static void write_client_ready(void)
{
	PAINTED_MARK();
	lent.bytes = kangirlo_write_client_ready(lent.written, sizeof lent.written, 0, 0x00010001, 10).bytes;
}

static void write_suspend(void)
{
	PAINTED_MARK();
	lent.bytes = kangirlo_write_suspend(lent.written, sizeof lent.written).bytes;
}

static void write_resume(void)
{
	PAINTED_MARK();
	lent.bytes = kangirlo_write_resume(lent.written, sizeof lent.written).bytes;
}

static void write_dismiss(void)
{
	PAINTED_MARK();
	lent.bytes = kangirlo_write_dismiss(lent.written, sizeof lent.written, 1).bytes;
}

/* Each call for a receiver with room that is sure to be enough, and with just what the message writes and a byte less: then the message is
 * run dry first, on a copy of the contacts. */
enum { ENOUGH, LITTLE, ROOMS };
enum { RECEIVE, PARTS, DIRECT, ALL, ALL_PARTS, ALL_DIRECT, RECEIVING };

static struct painted_call receiving[RECEIVING][ROOMS] = {
	[RECEIVE] = {{"kangirlo_receive", receive, 0}, {"kangirlo_receive, little room", receive, 0}},
	[PARTS] = {{"kangirlo_receive_parts", receive_parts, 0}, {"kangirlo_receive_parts, little room", receive_parts, 0}},
	[DIRECT] = {{"kangirlo_receive_direct", receive_direct, 0}, {"kangirlo_receive_direct, little room", receive_direct, 0}},
	[ALL] = {{"kangirlo_receive_all", receive_all, 0}, {"kangirlo_receive_all, little room", receive_all, 0}},
	[ALL_PARTS] = {{"kangirlo_receive_all_parts", receive_all_parts, 0},
	               {"kangirlo_receive_all_parts, little room", receive_all_parts, 0}},
	[ALL_DIRECT] = {{"kangirlo_receive_all_direct", receive_all_direct, 0},
	                {"kangirlo_receive_all_direct, little room", receive_all_direct, 0}},
};

/* What a message holds, read and written by itself. */
static struct painted_call others[] = {
	{"kangirlo_plain", plain, 0},
	{"kangirlo_plain_strictly", plain_strictly, 0},
	{"kangirlo_write_touch", write_touch, 0},
	{"kangirlo_read_record", read_records, 0},
};

/* Calls for which one time is as any other. */
static struct painted_call constant[] = {
	{"kangirlo_fresh", fresh, 0},
	{"kangirlo_write_server_ready", write_server_ready, 0},
	{"kangirlo_write_client_ready", write_client_ready, 0},
	{"kangirlo_write_suspend", write_suspend, 0},
	{"kangirlo_write_resume", write_resume, 0},
	{"kangirlo_write_dismiss", write_dismiss, 0},
};

enum { OTHERS = sizeof others / sizeof *others, CONSTANT = sizeof constant / sizeof *constant };

static void measure_with(struct painted_call *call, const struct kangirlo_receiver *before, size_t room)
{
	lent.receiver = *before;
	lent.room = room;
	painted_measure(call);
}

/* A message to the receiver, and through all other calls. The receiver goes on from the last time, when the room was enough. */
static void measure_message(const uint8_t *message, size_t length)
{
	const struct kangirlo_receiver before = lent.receiver;

	lent.message = message;
	lent.length = length;
	lent.entry[0] = (uint8_t)(length >> 8);
	lent.entry[1] = (uint8_t)length;
	memcpy(lent.entry + 2, message, length);
	for (size_t i = 0; i < RECEIVING; i++) {
		size_t bytes;

		measure_with(&receiving[i][ENOUGH], &before, sizeof lent.output);
		bytes = lent.records * KANGIRLO_RECORD_BYTES;
		if (bytes > 0)
			measure_with(&receiving[i][LITTLE], &before, bytes - 1);
		measure_with(&receiving[i][LITTLE], &before, bytes);
	}
	painted_measure_all(others, OTHERS);
}

/* What a thread needs, beside its own frames, that serves its sessions by the direct calls, one after the other. */
static void print_thread(const char *name, int room)
{
	struct painted_call deepest = receiving[DIRECT][room];

	if (deepest.most < receiving[ALL_DIRECT][room].most)
		deepest = receiving[ALL_DIRECT][room];
	deepest.name = name;
	painted_print(&deepest, 1);
}

int main(int count, char **words)
{
	for (int i = 1; i < count; i++) {
		painted_measure_all(constant, CONSTANT);
		bench_file_each(words[i], measure_message);
	}
	painted_print(receiving[0], RECEIVING * ROOMS);
	painted_print(others, OTHERS);
	painted_print(constant, CONSTANT);
	print_thread("any number of sessions, direct", ENOUGH);
	print_thread("any number of sessions, direct, little room", LITTLE);
	return 0;
}
