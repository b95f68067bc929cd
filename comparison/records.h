/* Makes up the records that a panel is given (01, "House records"). */
#ifndef RECORDS_H
#define RECORDS_H

#include "frames.h"
#include "kangirlo.h"

/* Enough for two of the longest messages: a contact takes 5 bytes or more of one. */
enum { RECORDS_MOST = 2 * KANGIRLO_MESSAGE_MOST / 5 + 128 };

struct records {
	size_t n;
	struct kangirlo_record record[RECORDS_MOST];
};

/* Appends a frame's head and its contacts. */
void records_frame(struct records *records, const struct frame *frame);

/* Gives one of them a value that is not allowed, or a head another count. There is at least one record. */
void records_spoil(struct random *random, struct records *records);

/* Appends their bytes. */
void records_write(struct wire *wire, const struct records *records);

/* Cuts into the last of the records that end here, or sets an unused bit in one of them, or changes one of the three high bits of a head's
 * count, which then is over 256 or not that of its contacts. */
void records_spoil_bytes(struct random *random, struct wire *wire, const struct records *records);

#endif
