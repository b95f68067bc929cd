/* A panel and the output that it writes its messages into: copied before a call, to see that a refusal changes nothing. Both are
 * there once more, for the direct calls: each call is made both ways, and is expected to answer and to leave the same. */
#ifndef SENDER_H
#define SENDER_H

#include "batch.h"
#include "kangirlo.h"

#include <stdbool.h>

struct sender {
	struct kangirlo_panel panel;
	uint8_t message[KANGIRLO_MESSAGE_MOST];
	struct kangirlo_panel direct;
	uint8_t direct_message[KANGIRLO_MESSAGE_MOST];
};

/* A fresh panel, and an output of this byte. */
void sender_begin(struct sender *sender, uint8_t byte);

/* The same panel, field by field, and the same output. */
bool sender_same(const struct sender *one, const struct sender *other);

uint8_t sender_take(struct sender *sender, const uint8_t *message, size_t length);

/* The writers, with so many bytes of the output. */
struct kangirlo_written sender_ready_in(struct sender *sender, size_t room, uint32_t flags, uint32_t version, uint16_t most);
struct kangirlo_written sender_touch_in(struct sender *sender, size_t room, uint32_t milliseconds, const struct batch *batch);
struct kangirlo_written sender_dismiss_in(struct sender *sender, size_t room, uint8_t id);

/* .. with all of it. */
struct kangirlo_written sender_ready(struct sender *sender, uint32_t flags, uint32_t version, uint16_t most);
struct kangirlo_written sender_touch(struct sender *sender, uint32_t milliseconds, const struct batch *batch);
struct kangirlo_written sender_dismiss(struct sender *sender, uint8_t id);

#endif
