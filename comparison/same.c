#include "same.h"

#include <inttypes.h>
#include <stdio.h>
#include <string.h>

/* As sets: what stands for an id that is in is each side's own. */
static bool same_set(const uint8_t ours[256], const uint8_t twin[256])
{
	for (unsigned id = 0; id < 256; id++)
		if (!ours[id] != !twin[id])
			return false;
	return true;
}

bool same_receiver(const struct kangirlo_receiver *ours, const struct twin *twin)
{
	return !ours->ready == !twin->ready && !ours->begun == !twin->begun && !ours->ignoring == !twin->ignoring &&
	       ours->settings.flags == twin->flags && ours->settings.version == twin->version && ours->settings.most == twin->most &&
	       memcmp(ours->states, twin->state, sizeof ours->states) == 0 && memcmp(ours->xs, twin->x, sizeof ours->xs) == 0 &&
	       memcmp(ours->ys, twin->y, sizeof ours->ys) == 0 && same_set(ours->held, twin->held);
}

bool same_fields(const struct kangirlo_receiver *a, const struct kangirlo_receiver *b)
{
	return a->ready == b->ready && a->begun == b->begun && a->ignoring == b->ignoring && a->settings.flags == b->settings.flags &&
	       a->settings.version == b->settings.version && a->settings.most == b->settings.most &&
	       memcmp(a->states, b->states, sizeof a->states) == 0 && memcmp(a->xs, b->xs, sizeof a->xs) == 0 &&
	       memcmp(a->ys, b->ys, sizeof a->ys) == 0 && memcmp(a->held, b->held, sizeof a->held) == 0;
}

struct twin_answer same_form(const struct kangirlo_batch_answer *answer)
{
	return (struct twin_answer){ (uint8_t)answer->refusal, (uint8_t)answer->injected, (uint8_t)answer->ignored,
		                     (uint8_t)answer->cancelled, answer->time, answer->records };
}

void same_print(const char *whose, const struct twin_answer *answer)
{
	printf("%s: refusal %u, injected %u, ignored %u, cancelled %u, time %" PRIu32 ", records %zu\n", whose, answer->refusal,
	       answer->injected, answer->ignored, answer->cancelled, answer->time, answer->records);
}
