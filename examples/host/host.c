/* A session host: 400 connections, each with a receiver of its own, whose messages come in turn, some at a time: each such burst is
 * drained by one call. There are two calls for it, which do the same; this host makes the cheaper, direct one for every other session, and
 * kangirlo_receive_all for the rest. What a client sends is read from a bench file (session i takes the file i modulo how many there
 * are); each session's records go to a file of its own.
 *
 *     host FOLDER FILE..          writes FOLDER/000.records to FOLDER/399.records */
#include "kangirlo.h"

#include <stdio.h>
#include <stdlib.h>

enum { SESSIONS = 400, LENGTH_BYTES = 2, BURST = 16 };

struct file {
	uint8_t *bytes;
	size_t length;
};

struct session {
	struct kangirlo_receiver receiver;
	struct kangirlo_batch (*receive_all)(struct kangirlo_receiver *, const uint8_t *, size_t, struct kangirlo_batch_answer *, size_t,
	                                     uint8_t *, size_t);
	const struct file *file;
	size_t at;              /* how much of the file is read */
	FILE *records;
};

struct totals {
	unsigned long messages;
	unsigned long refused;
	unsigned long records;
};

static struct session sessions[SESSIONS];

/* One output and one list of answers serve all sessions: a call keeps nothing, and its records are written out before the next. The
 * output is enough for any burst, so that no message is refused for want of room. */
static uint8_t output[BURST * KANGIRLO_OUTPUT_MOST];
static struct kangirlo_batch_answer answers[BURST];

static void fail(const char *what)
{
	perror(what);
	exit(1);
}

static struct file read_file(const char *name)
{
	struct file file = {NULL, 0};
	size_t room = 0, got = 1;
	FILE *in = fopen(name, "rb");

	if (!in)
		fail(name);
	while (got > 0) {
		if (file.length == room) {
			room = room ? 2 * room : 65536;
			file.bytes = realloc(file.bytes, room);
			if (!file.bytes)
				fail(name);
		}
		got = fread(file.bytes + file.length, 1, room - file.length, in);
		file.length += got;
	}
	if (ferror(in))
		fail(name);
	fclose(in);
	return file;
}

static void open_sessions(const char *folder, const struct file *files, size_t count)
{
	char name[4096];

	for (size_t i = 0; i < SESSIONS; i++) {
		snprintf(name, sizeof name, "%s/%03zu.records", folder, i);
		sessions[i].receiver = kangirlo_fresh();
		sessions[i].receive_all = i % 2 == 0 ? kangirlo_receive_all_direct : kangirlo_receive_all;
		sessions[i].file = &files[i % count];
		sessions[i].records = fopen(name, "wb");
		if (!sessions[i].records)
			fail(name);
	}
}

/* How many bytes a session's next entries have: the whole ones, as many as a burst may be. */
static size_t burst_bytes(const struct session *session)
{
	const uint8_t *bytes = session->file->bytes + session->at;
	size_t left = session->file->length - session->at, end = 0;

	for (int i = 0; i < BURST && left - end >= LENGTH_BYTES; i++) {
		size_t length = (size_t)bytes[end] << 8 | bytes[end + 1];

		if (left - end - LENGTH_BYTES < length)
			break;
		end += LENGTH_BYTES + length;
	}
	return end;
}

/* Takes a session's next messages, and answers 0 where there is none. */
static int take_burst(struct session *session, struct totals *totals)
{
	size_t bytes = burst_bytes(session);
	struct kangirlo_batch batch = session->receive_all(&session->receiver, session->file->bytes + session->at, bytes, answers,
	                                                   KANGIRLO_BATCH_NUMBERS(BURST), output, sizeof output);

	if (batch.refusal != KANGIRLO_TAKEN) {
		fprintf(stderr, "a batch is refused: %d\n", batch.refusal);
		exit(1);
	}
	if (fwrite(output, KANGIRLO_RECORD_BYTES, batch.records, session->records) != batch.records)
		fail("records");
	session->at += bytes;
	totals->messages += batch.entries;
	totals->records += batch.records;
	for (size_t i = 0; i < batch.entries; i++)
		totals->refused += answers[i].refusal != KANGIRLO_TAKEN;
	return batch.entries > 0;
}

int main(int count, char **words)
{
	struct totals totals = {0, 0, 0};
	struct file *files;
	int taken = 1;

	if (count < 3) {
		fprintf(stderr, "usage: host FOLDER FILE..\n");
		return 2;
	}
	files = calloc((size_t)count - 2, sizeof *files);
	if (!files)
		fail("files");
	for (int i = 2; i < count; i++)
		files[i - 2] = read_file(words[i]);
	open_sessions(words[1], files, (size_t)count - 2);
	while (taken) {
		taken = 0;
		for (size_t i = 0; i < SESSIONS; i++)
			taken |= take_burst(&sessions[i], &totals);
	}
	for (size_t i = 0; i < SESSIONS; i++)
		if (fclose(sessions[i].records) != 0)
			fail("records");
	printf("%d sessions, %lu messages, %lu refused, %lu records\n", SESSIONS, totals.messages, totals.refused, totals.records);
	return 0;
}
