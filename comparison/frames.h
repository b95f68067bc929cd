/* Makes up the next frame of a history. */
#ifndef FRAMES_H
#define FRAMES_H

#include "random.h"
#include "twin.h"
#include "wire.h"

enum { FRAME_CONTACTS_MOST = 256 };

/* What one bench file's client is like. Chances are in 1000. */
struct habits {
	unsigned pool;          /* how many ids it uses */
	bool high;              /* they end at 255, instead of beginning at 0 */
	unsigned crowd;         /* contacts in a frame, as a rule at most */
	unsigned full;          /* chance that a frame has just so many */
	unsigned reach;         /* where contacts are: 0 close to the origin, 1 on a screen, 2 at the ends of the integers' lengths */
	unsigned lift;          /* chance that a contact that is touched is lifted */
	unsigned spoil;         /* chance that a frame is made not to conform */
	unsigned damage;        /* chance that a message is damaged */
	unsigned pad;           /* chance that a message has integers that are longer than they need be, damaged or not */
	uint32_t present;       /* the optional fields that it may send */
};

struct frame {
	unsigned count;
	uint64_t offset;
	struct wire_contact contact[FRAME_CONTACTS_MOST + 1];
};

/* A value at an end of the range of one of the integer's lengths, or between. */
uint64_t frames_edge(struct random *random, const struct wire_form *form);

/* A contact at random: one of the listed flags, whatever the receiver's state. */
void frames_stray(struct random *random, const struct habits *habits, struct wire_contact *contact);

/* A frame that continues from the receiver's state. As a rule it conforms. */
void frames_next(struct random *random, const struct habits *habits, const struct twin *twin, struct frame *frame);

#endif
