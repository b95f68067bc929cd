/* A bench file in memory (01, "A bench file"). */
#ifndef ENTRIES_H
#define ENTRIES_H

#include <stdbool.h>
#include <stddef.h>
#include <stdint.h>
#include <stdio.h>

struct entries {
	uint8_t *bytes;
	size_t n;
	size_t at;              /* where the next entry begins */
};

/* Reads all that there is. */
struct entries entries_load(FILE *from);

/* The next entry's message. False where there is no further complete one. */
bool entries_next(struct entries *entries, const uint8_t **message, size_t *n);

#endif
