/* PROGRAM PASSES < FILE: what a call takes by itself, without reading and printing. A bench file is fed from memory to a fresh
 * receiver, so many times over; printed are the user time of that in microseconds, and a checksum of all answers and records that one
 * further pass gives. */
#ifndef MEASURE_H
#define MEASURE_H

#include "entries.h"
#include "twin.h"

#define MEASURE_NOTHING UINT64_C(0xCBF29CE484222325)

/* Adds an answer and its records to a checksum. */
uint64_t measure_add(uint64_t sum, const struct twin_answer *answer, const uint8_t *records);

/* The whole program, of a pass and of a pass that answers the checksum. */
int measure(int argc, char **argv, void (*pass)(struct entries), uint64_t (*sum_up)(struct entries));

#endif
