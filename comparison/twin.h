/* The twin: a second receiver, in plain C, written from [MS-RDPEI] (cited as 000), from the paper with the work's rules (cited as 01, by
 * its headings) and from the paper with the later requests (cited as 02). The product is compared with it and measured against it;
 * nothing of the product is in it. */
#ifndef TWIN_H
#define TWIN_H

#include <stddef.h>
#include <stdint.h>

enum { TWIN_MESSAGE_MOST = 4096, TWIN_RECORD_BYTES = 21, TWIN_OUTPUT_MOST = 49152 };

/* What a client ready asks for by flag 2: no time of the client is to be used. */
enum { TWIN_NO_TIMES = 2 };

enum twin_state { TWIN_OUT, TWIN_HOVERING, TWIN_ENGAGED };

struct twin {
	uint8_t ready;
	uint8_t begun;          /* a touch message with a frame has been accepted */
	uint8_t ignoring;
	uint32_t flags;
	uint32_t version;
	uint16_t most;
	uint16_t active;        /* how many of the contacts are not out of range */
	uint8_t state[256];
	int32_t x[256];
	int32_t y[256];
	uint8_t held[256];      /* while ignoring: whether an id is in the set that hovering contacts must not be in to open; else 0 */
};

struct twin_answer {
	uint8_t refusal;
	uint8_t injected;
	uint8_t ignored;
	uint8_t cancelled;
	uint32_t time;          /* milliseconds */
	size_t records;
};

/* Which forms of an integer a reading takes: every one that 000 allows, or the shortest alone. */
enum twin_forms { TWIN_LENIENT, TWIN_STRICT };

struct twin_plain_answer {
	uint8_t refusal;
	uint32_t time;          /* milliseconds */
	size_t records;
};

void twin_fresh(struct twin *twin);

/* Judges a message of n bytes and carries it out. The records stand from the output's first byte. Integers are read leniently. */
struct twin_answer twin_receive(struct twin *twin, const uint8_t *message, size_t n, uint8_t *output, size_t room);

/* Reads a touch message of n bytes with no receiver: its heads and contacts stand as records from the output's first byte. */
struct twin_plain_answer twin_plain(enum twin_forms forms, const uint8_t *message, size_t n, uint8_t *output, size_t room);

#endif
