/* Packs a record into its 21 bytes: what kangirlo_read_record reads, written. */
#ifndef PACK_H
#define PACK_H

#include "kangirlo.h"

#include <stdbool.h>

/* False, with no byte touched, where a value does not fit in its bits, or a head has more contacts than a frame may have. Whether the record
 * is well formed is for the library to say. */
bool pack(const struct kangirlo_record *record, uint8_t bytes[KANGIRLO_RECORD_BYTES]);

#endif
