#include "records.h"

#include "pack.h"

#include <stdlib.h>

enum { SIDES = 1, ORIENTATION = 2, PRESSURE = 4 };

static struct kangirlo_record contact_record(const struct wire_contact *contact)
{
	struct kangirlo_record record = { .kind = KANGIRLO_CONTACT, .flags = (uint8_t)contact->flags, .present = (uint8_t)contact->present,
		                          .id = contact->id, .x = contact->x, .y = contact->y };

	if (contact->present & SIDES) {
		record.left = (int16_t)contact->side[0];
		record.top = (int16_t)contact->side[1];
		record.right = (int16_t)contact->side[2];
		record.bottom = (int16_t)contact->side[3];
	}
	if (contact->present & ORIENTATION)
		record.orientation = (uint16_t)contact->orientation;
	if (contact->present & PRESSURE)
		record.pressure = (uint16_t)contact->pressure;
	return record;
}

void records_frame(struct records *records, const struct frame *frame)
{
	if (RECORDS_MOST - records->n < 1 + (size_t)frame->count) {
		fputs("there are too many records\n", stderr);
		exit(2);
	}
	records->record[records->n++] =
		(struct kangirlo_record){ .kind = KANGIRLO_HEAD, .count = (uint16_t)frame->count, .offset = { frame->offset } };
	for (unsigned i = 0; i < frame->count; i++)
		records->record[records->n++] = contact_record(&frame->contact[i]);
}

static void spoil_contact(struct random *random, struct kangirlo_record *record)
{
	static const uint8_t flags[] = { 0, 1, 3, 8, 9, 0x0B, 0x10, 0x12, 0x18, 0x1B, 0x1E, 0x23, 0x25, 0x26, 0x2A, 0x2C, 0x39, 0x3A, 0x3F };
	static const uint16_t orientations[] = { 360, 361, 511 }, pressures[] = { 65001, 65002, 65535 };

	switch (random_below(random, 7)) {
	case 0:
		record->flags = RANDOM_OF(random, flags);
		break;
	case 1:
		record->kind = random_chance(random, 500) ? KANGIRLO_CANCEL : KANGIRLO_DISMISSAL;
		break;
	case 2:
		*(random_chance(random, 500) ? &record->x : &record->y) = -0x20000000;
		break;
	case 3:
		record->present |= SIDES;
		*(random_chance(random, 500) ? &record->left : &record->bottom) = -0x4000;
		break;
	case 4:
		record->present |= ORIENTATION;
		record->orientation = RANDOM_OF(random, orientations);
		break;
	case 5:
		record->present |= PRESSURE;
		record->pressure = RANDOM_OF(random, pressures);
		break;
	default:
		record->present &= (uint8_t)~PRESSURE;
		record->pressure = 1;
	}
}

void records_spoil(struct random *random, struct records *records)
{
	struct kangirlo_record *record = &records->record[random_next(random) % records->n];

	if (record->kind != KANGIRLO_HEAD)
		spoil_contact(random, record);
	else if (record->count == 0 || (record->count < FRAME_CONTACTS_MOST && random_chance(random, 500)))
		record->count++;
	else
		record->count--;
}

void records_write(struct wire *wire, const struct records *records)
{
	uint8_t bytes[KANGIRLO_RECORD_BYTES];

	for (size_t i = 0; i < records->n; i++) {
		if (!pack(&records->record[i], bytes)) {
			fputs("a record does not fit\n", stderr);
			exit(2);
		}
		for (size_t j = 0; j < sizeof bytes; j++)
			wire_byte(wire, bytes[j]);
	}
}

void records_spoil_bytes(struct random *random, struct wire *wire, const struct records *records)
{
	const size_t which = random_next(random) % records->n, left = (records->n - which) * KANGIRLO_RECORD_BYTES;
	uint8_t *at = wire->bytes + wire->n - left;

	if (random_chance(random, 500))
		wire->n -= 1 + random_below(random, KANGIRLO_RECORD_BYTES - 1);
	else if (records->record[which].kind == KANGIRLO_HEAD && random_chance(random, 500))
		at[8] ^= (uint8_t)(1u << random_below(random, 3));
	else if (records->record[which].kind == KANGIRLO_HEAD)
		at[9 + random_below(random, KANGIRLO_RECORD_BYTES - 9)] |= (uint8_t)(1u << random_below(random, 8));
	else
		at[KANGIRLO_RECORD_BYTES - 1] |= (uint8_t)(1u << random_below(random, 4));
}
