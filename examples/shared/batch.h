/* The records of some frames, one after the other, as a panel's touch writer takes them and a label. */
#ifndef BATCH_H
#define BATCH_H

#include "kangirlo.h"

/* Two of the greatest frames. */
enum { BATCH_MOST = 2 * (1 + KANGIRLO_CONTACTS_MOST) * KANGIRLO_RECORD_BYTES };

/* What a contact does: the eight contactFlags. */
enum batch_flags {
	LEAVE = 0x02,
	LIFT = 0x04,
	HOVER = 0x0A,
	LIFT_TO_HOVER = 0x0C,
	DOWN = 0x19,
	MOVE = 0x1A,
	LEAVE_CANCELLED = 0x22,
	LIFT_CANCELLED = 0x24
};

struct batch {
	size_t length;
	uint8_t bytes[BATCH_MOST];
};

/* Each appends a record. They end the program where a value does not fit in its bits, or the record not in the batch. */
void batch_record(struct batch *batch, struct kangirlo_record record);
void batch_head(struct batch *batch, uint16_t count, uint64_t offset);
void batch_contact(struct batch *batch, enum batch_flags flags, uint8_t id, int32_t x, int32_t y);

#endif
