#include "bench_file.h"

#include <stdio.h>
#include <stdlib.h>

enum { ENTRY_MOST = 65535 };

void bench_file_each(const char *name, void (*with)(const uint8_t *message, size_t length))
{
	static uint8_t message[ENTRY_MOST];
	FILE *in = fopen(name, "rb");
	int high, low;

	if (!in) {
		perror(name);
		exit(1);
	}
	while ((high = getc(in)) != EOF && (low = getc(in)) != EOF) {
		const size_t length = (size_t)high << 8 | (size_t)low;

		if (fread(message, 1, length, in) != length)
			break;
		with(message, length);
	}
	fclose(in);
}
