#include "measure.h"

#include <inttypes.h>
#include <stdlib.h>
#include <sys/resource.h>

/* FNV-1a. */
static uint64_t mix(uint64_t sum, uint64_t value, unsigned bytes)
{
	for (unsigned i = 0; i < bytes; i++)
		sum = (sum ^ (value >> 8 * i & 0xFF)) * UINT64_C(0x100000001B3);
	return sum;
}

uint64_t measure_add(uint64_t sum, const struct twin_answer *answer, const uint8_t *records)
{
	sum = mix(sum, answer->refusal, 1);
	sum = mix(sum, answer->injected, 1);
	sum = mix(sum, answer->ignored, 1);
	sum = mix(sum, answer->cancelled, 1);
	sum = mix(sum, answer->time, 4);
	sum = mix(sum, answer->records, 8);
	for (size_t i = 0; i < answer->records * TWIN_RECORD_BYTES; i++)
		sum = mix(sum, records[i], 1);
	return sum;
}

static uint64_t user_microseconds(void)
{
	struct rusage usage;

	getrusage(RUSAGE_SELF, &usage);
	return (uint64_t)usage.ru_utime.tv_sec * 1000000 + (uint64_t)usage.ru_utime.tv_usec;
}

int measure(int argc, char **argv, void (*pass)(struct entries), uint64_t (*sum_up)(struct entries))
{
	const unsigned long passes = argc == 2 ? strtoul(argv[1], NULL, 10) : 1;
	const struct entries entries = entries_load(stdin);
	const uint64_t sum = sum_up(entries), before = user_microseconds();

	for (unsigned long i = 0; i < passes; i++)
		pass(entries);
	printf("%" PRIu64 " %016" PRIx64 "\n", user_microseconds() - before, sum);
	free(entries.bytes);
	return 0;
}
