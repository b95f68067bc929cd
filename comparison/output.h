/* An output that is lent, and how to see what a call has done to it. */
#ifndef OUTPUT_H
#define OUTPUT_H

#include "kangirlo.h"

#include <stdbool.h>

enum { OUTPUT_WORDS = KANGIRLO_OUTPUT_MOST / 8 };

union output {
	uint64_t words[OUTPUT_WORDS];
	uint8_t bytes[KANGIRLO_OUTPUT_MOST];
};

/* Makes an output such that nothing has been written to it. */
void output_clear(union output *output);

/* The same for one that is written to only in its first bytes. */
void output_clear_front(union output *output, size_t bytes);

/* Whether nothing has been written to it from a byte on. */
bool output_is_clear(const union output *output, size_t from);

/* Prints a message in hexadecimal, for one that makes a difference. */
void output_print_message(const uint8_t *message, size_t n);

#endif
