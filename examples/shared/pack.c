/* Bits, most significant first, unused ones 0:
 * a head has kind 0 (2 bits), the low bits of the count (6), offset (61), the high bits of the count (3), 96 zeros;
 * any other has kind (2), flags (6), present (3), id (8), x and y (30 each), left, top, right, bottom (15 each), orientation (9),
 * pressure (16), 4 zeros. Signed values are two's complement. */
#include "pack.h"

#include <string.h>

struct bits {
	bool fit;
	unsigned at;
	uint8_t bytes[KANGIRLO_RECORD_BYTES];
};

/* Appends the low bits of a value. */
static void put_low(struct bits *bits, unsigned width, uint64_t value)
{
	while (width-- > 0) {
		bits->bytes[bits->at / 8] |= (uint8_t)((value >> width & 1) << (7 - bits->at % 8));
		bits->at++;
	}
}

static void put_unsigned(struct bits *bits, unsigned width, uint64_t value)
{
	bits->fit = bits->fit && value >> width == 0;
	put_low(bits, width, value);
}

static void put_signed(struct bits *bits, unsigned width, int64_t value)
{
	const int64_t limit = INT64_C(1) << (width - 1);

	bits->fit = bits->fit && -limit <= value && value < limit;
	put_low(bits, width, (uint64_t)value);
}

static void put_head(struct bits *bits, const struct kangirlo_record *record)
{
	bits->fit = bits->fit && record->count <= KANGIRLO_CONTACTS_MOST;
	put_low(bits, 6, record->count);
	put_unsigned(bits, 61, record->offset.value);
	put_low(bits, 3, record->count >> 6);
}

static void put_contact(struct bits *bits, const struct kangirlo_record *record)
{
	put_unsigned(bits, 6, record->flags);
	put_unsigned(bits, 3, record->present);
	put_unsigned(bits, 8, record->id);
	put_signed(bits, 30, record->x);
	put_signed(bits, 30, record->y);
	put_signed(bits, 15, record->left);
	put_signed(bits, 15, record->top);
	put_signed(bits, 15, record->right);
	put_signed(bits, 15, record->bottom);
	put_unsigned(bits, 9, record->orientation);
	put_unsigned(bits, 16, record->pressure);
}

bool pack(const struct kangirlo_record *record, uint8_t bytes[KANGIRLO_RECORD_BYTES])
{
	struct bits bits = {.fit = true};

	put_unsigned(&bits, 2, record->kind);
	if (record->kind == KANGIRLO_HEAD)
		put_head(&bits, record);
	else
		put_contact(&bits, record);
	if (bits.fit)
		memcpy(bytes, bits.bytes, sizeof bits.bytes);
	return bits.fit;
}
