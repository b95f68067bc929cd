#include "batch.h"

#include "pack.h"

#include <stdio.h>
#include <stdlib.h>

void batch_record(struct batch *batch, struct kangirlo_record record)
{
	if (batch->length == sizeof batch->bytes || !pack(&record, batch->bytes + batch->length)) {
		fputs("a record does not fit\n", stderr);
		exit(1);
	}
	batch->length += KANGIRLO_RECORD_BYTES;
}

void batch_head(struct batch *batch, uint16_t count, uint64_t offset)
{
	batch_record(batch, (struct kangirlo_record){.kind = KANGIRLO_HEAD, .count = count, .offset = {offset}});
}

void batch_contact(struct batch *batch, enum batch_flags flags, uint8_t id, int32_t x, int32_t y)
{
	batch_record(batch, (struct kangirlo_record){.kind = KANGIRLO_CONTACT, .flags = (uint8_t)flags, .id = id, .x = x, .y = y});
}
