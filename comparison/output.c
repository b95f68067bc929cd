#include "output.h"

#include <stdio.h>
#include <string.h>

/* What an output holds where nothing has been written. */
#define UNTOUCHED UINT64_C(0xA5C35A3CE7187E81)

static size_t words(size_t bytes)
{
	return (bytes + 7) / 8;
}

void output_clear(union output *output)
{
	output_clear_front(output, sizeof output->bytes);
}

void output_clear_front(union output *output, size_t bytes)
{
	for (size_t i = 0; i < words(bytes); i++)
		output->words[i] = UNTOUCHED;
}

bool output_is_clear(const union output *output, size_t from)
{
	const uint64_t untouched = UNTOUCHED;
	const size_t whole = words(from);

	if (memcmp(output->bytes + from, (const uint8_t *)&untouched + from % 8, whole * 8 - from) != 0)
		return false;
	for (size_t i = whole; i < OUTPUT_WORDS; i++)
		if (output->words[i] != UNTOUCHED)
			return false;
	return true;
}

void output_print_message(const uint8_t *message, size_t n)
{
	fputs("message:", stdout);
	for (size_t i = 0; i < n; i++)
		printf(" %02X", message[i]);
	putchar('\n');
}
