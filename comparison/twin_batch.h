/* Many messages in one call, of the twin: written from the paper with the later requests (cited as 02), "Many messages in one call". */
#ifndef TWIN_BATCH_H
#define TWIN_BATCH_H

#include "twin.h"

struct twin_batch {
	uint8_t refusal;
	size_t entries;         /* answers given */
	size_t records;         /* of all of them together */
};

/* Feeds the entries of a buffer of n bytes, with an answer for each in a list that has so many places. */
struct twin_batch twin_receive_all(struct twin *twin, const uint8_t *buffer, size_t n, struct twin_answer *answers, size_t places,
                                   uint8_t *output, size_t room);

#endif
