/* Writes touch messages of frames. */
#ifndef TOUCH_H
#define TOUCH_H

#include "frames.h"

/* A frame, which may be said to have another count than its own, or another offset. */
void touch_frame(struct wire *wire, const struct frame *frame, uint64_t count, uint64_t offset);

/* A touch message, of a body of frames. */
void touch_message(struct wire *wire, uint64_t time, uint64_t frames, const struct wire *body);

/* Lets a receiver take one frame, as a message of its own. */
void touch_follow(struct twin *twin, const struct frame *frame);

#endif
