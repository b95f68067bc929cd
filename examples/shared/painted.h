/* How much stack a call takes below its caller's: it runs on a stack that was painted before, and the paint that is gone is counted. */
#ifndef PAINTED_H
#define PAINTED_H

#include <stddef.h>
#include <stdint.h>

/* A function that makes one call of the library, and the most that was measured. It takes no arguments: none cross to the other stack. */
struct painted_call {
	const char *name;
	void (*make)(void);
	size_t most;
};

extern const uint8_t *painted_top;

/* Stands right before the call. Arguments that go on the stack are laid below it, and so counted. */
#define PAINTED_MARK() __asm__ volatile("mov %%rsp, %0" : "=r"(painted_top))

void painted_measure(struct painted_call *call);
void painted_measure_all(struct painted_call *calls, size_t count);

/* A line for each call. */
void painted_print(const struct painted_call *calls, size_t count);

#endif
