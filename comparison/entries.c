#include "entries.h"

#include <stdlib.h>

struct entries entries_load(FILE *from)
{
	struct entries entries = { NULL, 0, 0 };
	size_t room = 1 << 20, got;

	do {
		room *= 2;
		entries.bytes = realloc(entries.bytes, room);
		if (entries.bytes == NULL) {
			perror("realloc");
			exit(2);
		}
		got = fread(entries.bytes + entries.n, 1, room - entries.n, from);
		entries.n += got;
	} while (entries.n == room);
	if (ferror(from)) {
		perror("read");
		exit(2);
	}
	return entries;
}

bool entries_next(struct entries *entries, const uint8_t **message, size_t *n)
{
	const uint8_t *at = entries->bytes + entries->at;
	const size_t left = entries->n - entries->at;

	if (left < 2)
		return false;
	*n = (size_t)at[0] << 8 | at[1];
	if (left - 2 < *n)
		return false;
	*message = at + 2;
	entries->at += 2 + *n;
	return true;
}
