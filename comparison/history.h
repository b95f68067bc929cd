/* One client: what it is like, and where its history stands. */
#ifndef HISTORY_H
#define HISTORY_H

#include "frames.h"

enum { FRAMES_MOST = 64, EMPTY_FRAME_LEAST = 2, EMPTY_FRAME_MOST = 9 };

struct history {
	struct random random;
	struct habits habits;
	struct twin twin;       /* what has become of the receiver */
	uint32_t flags;         /* what the client ready will say */
	uint32_t version;
	unsigned most;
	unsigned eager;         /* chance in 1000 that a client ready is sound */
	unsigned hasty;         /* chance in 1000 that the very first frame has an offset */
};

/* A client that has sent nothing, decided by a seed. */
void history_start(struct history *history, uint64_t seed);

/* What a client ready says: as a rule what the client is to say, or else flags or a version that is not listed. */
void history_ready(struct history *history, uint32_t *flags, uint32_t *version);

/* How the integers of a message are padded: not at all, or some of them, from a few to all. Until a first frame is taken every client pads
 * often, since its offset is judged as no other is. */
struct wire_padding history_padding(struct history *history);

/* The time and the number of frames of a touch message. */
uint64_t history_time(struct history *history);
unsigned history_frames(struct history *history);

/* A frame that continues from a receiver's state, the first of a message or a further one. */
void history_frame(struct history *history, const struct twin *ahead, bool first, struct frame *frame);

/* A frame of no contacts, for the rest of some bytes. It leaves none of them, or enough for another. */
void history_filler(struct history *history, size_t left, struct frame *frame);

/* A contact to dismiss: for the most part one that hovers, if there is one, or while frames are ignored one in the set. */
uint8_t history_dismissed(struct history *history);

#endif
