#define _GNU_SOURCE
#include "painted.h"

#include <stdio.h>
#include <stdlib.h>
#include <string.h>
#include <ucontext.h>

enum { STACK = 1 << 16, BLOCK = 1 << 10, PAINT = 0xA5 };

const uint8_t *painted_top;

static uint8_t stack[STACK] __attribute__((aligned(64)));

static void run_on_stack(void (*make)(void))
{
	static ucontext_t here, there;

	if (getcontext(&there) != 0)
		exit(1);
	there.uc_stack.ss_sp = stack;
	there.uc_stack.ss_size = sizeof stack;
	there.uc_link = &here;
	makecontext(&there, make, 0);
	if (swapcontext(&here, &there) != 0)
		exit(1);
}

/* Where the paint ends: whole blocks of it are passed over at once. */
static const uint8_t *paint_end(void)
{
	static uint8_t block[BLOCK];
	const uint8_t *at = stack;

	memset(block, PAINT, sizeof block);
	while (painted_top - at >= BLOCK && memcmp(at, block, BLOCK) == 0)
		at += BLOCK;
	while (at < painted_top && *at == PAINT)
		at++;
	return at;
}

void painted_measure(struct painted_call *call)
{
	size_t taken;

	memset(stack, PAINT, sizeof stack);
	painted_top = stack;
	run_on_stack(call->make);
	taken = (size_t)(painted_top - paint_end());
	if (taken > call->most)
		call->most = taken;
}

void painted_measure_all(struct painted_call *calls, size_t count)
{
	for (size_t i = 0; i < count; i++)
		painted_measure(&calls[i]);
}

void painted_print(const struct painted_call *calls, size_t count)
{
	for (size_t i = 0; i < count; i++)
		printf("%-50s %6zu bytes\n", calls[i].name, calls[i].most);
}
