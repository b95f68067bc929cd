/* The bench program over the second receiver (01, "A bench file"): reads entries from standard input, prints a line for each. A
 * file of any size takes the same memory. */
#include "twin.h"

#include <errno.h>
#include <stdbool.h>
#include <stdio.h>
#include <stdlib.h>
#include <string.h>
#include <unistd.h>

/* The longest entry is 65,537 bytes with its length, so that a buffer of twice 64 KiB always holds one entry whole. */
enum { INPUT_BYTES = 1 << 17, PRINT_BYTES = 1 << 16, LINE_MOST = 128 };

struct input {
	size_t at, end;         /* what is read and not yet used */
	uint8_t bytes[INPUT_BYTES];
};

struct print {
	size_t n;
	char bytes[PRINT_BYTES];
};

static void fail(const char *what)
{
	perror(what);
	exit(2);
}

/* Sees to it that the next n bytes are in the buffer. False if the input ends before. */
static bool have(struct input *in, size_t n)
{
	if (in->end - in->at >= n)
		return true;
	memmove(in->bytes, in->bytes + in->at, in->end - in->at);
	in->end -= in->at;
	in->at = 0;
	while (in->end < n) {
		ssize_t got = read(STDIN_FILENO, in->bytes + in->end, INPUT_BYTES - in->end);

		if (got == 0)
			return false;
		if (got < 0 && errno != EINTR)
			fail("read");
		if (got > 0)
			in->end += (size_t)got;
	}
	return true;
}

static void flush(struct print *out)
{
	size_t done = 0;

	while (done < out->n) {
		ssize_t put = write(STDOUT_FILENO, out->bytes + done, out->n - done);

		if (put < 0 && errno != EINTR)
			fail("write");
		if (put > 0)
			done += (size_t)put;
	}
	out->n = 0;
}

static void print_number(struct print *out, uint64_t number, char after)
{
	char digits[20];
	unsigned n = 0;

	do
		digits[n++] = (char)('0' + number % 10);
	while ((number /= 10) != 0);
	while (n > 0)
		out->bytes[out->n++] = digits[--n];
	out->bytes[out->n++] = after;
}

static void print_answer(struct print *out, uint64_t entry, const struct twin_answer *answer)
{
	if (PRINT_BYTES - out->n < LINE_MOST)
		flush(out);
	print_number(out, entry, ' ');
	print_number(out, answer->refusal, ' ');
	print_number(out, answer->injected, ' ');
	print_number(out, answer->ignored, ' ');
	print_number(out, answer->cancelled, ' ');
	print_number(out, answer->records, '\n');
}

static void print_cut(struct print *out, uint64_t entry)
{
	if (PRINT_BYTES - out->n < LINE_MOST)
		flush(out);
	print_number(out, entry, ' ');
	memcpy(out->bytes + out->n, "cut\n", 4);
	out->n += 4;
}

/* One entry. False where the input has ended, inside the entry or before it. */
static bool next(struct twin *twin, struct input *in, struct print *out, uint64_t entry)
{
	static uint8_t output[TWIN_OUTPUT_MOST];
	struct twin_answer answer;
	size_t n;

	if (have(in, 2)) {
		n = (size_t)in->bytes[in->at] << 8 | in->bytes[in->at + 1];
		if (have(in, 2 + n)) {
			answer = twin_receive(twin, in->bytes + in->at + 2, n, output, sizeof output);
			in->at += 2 + n;
			print_answer(out, entry, &answer);
			return true;
		}
	}
	if (in->end != in->at)
		print_cut(out, entry);
	return false;
}

int main(void)
{
	static struct input in;
	static struct print out;
	static struct twin twin;
	uint64_t entry = 1;

	twin_fresh(&twin);
	while (next(&twin, &in, &out, entry))
		entry++;
	flush(&out);
	return 0;
}
