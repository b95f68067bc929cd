/* Makes up frames that continue a history: mostly what a client may do with the contacts as they are, and now and then what it
 * may not (01, "Contact states"). While frames are ignored, most are such as the set of ids decides that is kept then (02, "Hovering hands
 * after a cancel"). */
#include "frames.h"

/* A few ids, so that one that has just joined the set or left it is soon used again. */
enum { NO_ID = 256, FEW = 4 };

static const uint8_t listed[] = { 0x0A, 0x19, 0x1A, 0x0C, 0x04, 0x24, 0x02, 0x22 };

/* The flags that make an id leave the set, and those that do not. */
static const uint8_t leaving[] = { 0x02, 0x22, 0x04, 0x24 }, staying[] = { 0x0A, 0x19, 0x1A, 0x0C };

/* A frame that is being made: the ids it has, and how many contacts will be active after it. */
struct draft {
	struct random *random;
	const struct habits *habits;
	const struct twin *twin;
	struct frame *frame;
	unsigned active;
	bool used[256];
};

uint64_t frames_edge(struct random *random, const struct wire_form *form)
{
	const unsigned bytes = 1 + random_below(random, form->bytes_most);
	const uint64_t greatest = wire_greatest(form, bytes);
	const uint64_t least = bytes == 1 ? 0 : wire_greatest(form, bytes - 1) + 1;

	switch (random_below(random, 4)) {
	case 0:
		return greatest;
	case 1:
		return least;
	default:
		return least + random_next(random) % (greatest - least + 1);
	}
}

static int32_t signed_edge(struct random *random, const struct wire_form *form)
{
	const int32_t magnitude = (int32_t)frames_edge(random, form);

	return random_chance(random, 500) ? -magnitude : magnitude;
}

static int32_t coordinate(struct random *random, const struct habits *habits)
{
	switch (habits->reach) {
	case 0:
		return (int32_t)random_below(random, 5) - 2;
	case 1:
		return (int32_t)random_below(random, 3840);
	default:
		return signed_edge(random, &wire_s4);
	}
}

/* The optional fields: values up to their limits, and often the limit itself. */
static void dress(struct random *random, const struct habits *habits, struct wire_contact *contact)
{
	contact->present = random_below(random, 8) & habits->present;
	for (unsigned i = 0; i < 4; i++)
		contact->side[i] = signed_edge(random, &wire_s2);
	contact->orientation = random_chance(random, 200) ? 359 : random_below(random, 360);
	contact->pressure = random_chance(random, 200) ? 65000 : random_below(random, 65001);
}

void frames_stray(struct random *random, const struct habits *habits, struct wire_contact *contact)
{
	contact->id = (uint8_t)random_below(random, 256);
	contact->flags = RANDOM_OF(random, listed);
	contact->x = coordinate(random, habits);
	contact->y = coordinate(random, habits);
	dress(random, habits, contact);
}

static uint32_t next_flags(struct random *random, const struct habits *habits, uint8_t state)
{
	static const uint8_t lifts[] = { 0x0C, 0x04, 0x24 }, hides[] = { 0x02, 0x22 }, comes[] = { 0x19, 0x19, 0x0A };

	if (state == TWIN_ENGAGED)
		return random_chance(random, habits->lift) ? RANDOM_OF(random, lifts) : 0x1A;
	if (state == TWIN_HOVERING && random_chance(random, habits->lift))
		return RANDOM_OF(random, hides);
	return RANDOM_OF(random, comes);
}

/* Appends a contact that is legal from its state. */
static void append(struct draft *draft, unsigned id)
{
	const struct twin *twin = draft->twin;
	struct wire_contact *contact = &draft->frame->contact[draft->frame->count++];
	const uint8_t state = twin->state[id];

	frames_stray(draft->random, draft->habits, contact);
	contact->id = (uint8_t)id;
	contact->flags = next_flags(draft->random, draft->habits, state);
	if (state == TWIN_ENGAGED && contact->flags != 0x1A) {
		contact->x = twin->x[id];
		contact->y = twin->y[id];
	}
	draft->used[id] = true;
	if (state == TWIN_OUT)
		draft->active++;
	else if ((contact->flags & 0x18) == 0)
		draft->active--;
}

/* An id that is not yet in the frame: one that is active, or one of the client's that is not. */
static unsigned pick(struct draft *draft, bool active)
{
	const struct habits *habits = draft->habits;
	const unsigned first = habits->high ? 256 - habits->pool : 0, start = random_below(draft->random, 256);

	for (unsigned i = 0; i < 256; i++) {
		const unsigned id = (start + i) % 256;
		const bool is_active = draft->twin->state[id] != TWIN_OUT;

		if (draft->used[id] || is_active != active)
			continue;
		if (active || (id >= first && id < first + habits->pool))
			return id;
	}
	return NO_ID;
}

/* Contacts that go on or come, for the most part within the limit on active ones. */
static void append_some(struct draft *draft, unsigned count)
{
	while (count-- > 0) {
		const bool full = draft->active >= draft->twin->most && !random_chance(draft->random, 10);
		const bool active = full || random_chance(draft->random, 700);
		unsigned id = pick(draft, active);

		if (id == NO_ID && !full)
			id = pick(draft, !active);
		if (id == NO_ID)
			return;
		append(draft, id);
	}
}

/* New contacts up to the limit on active ones, or to one above it. */
static void append_to_limit(struct draft *draft)
{
	const unsigned limit = draft->twin->most + random_below(draft->random, 2);

	while (draft->active < limit && draft->frame->count < FRAME_CONTACTS_MOST) {
		const unsigned id = pick(draft, false);

		if (id == NO_ID)
			return;
		append(draft, id);
	}
}

/* The contacts of a frame, as a rule. */
static void append_usual(struct draft *draft, unsigned count)
{
	append_some(draft, count);
	if (random_chance(draft->random, 30))
		append_to_limit(draft);
}

/* While frames are ignored: one that opens by 0x19 alone, or one that almost does. */
static void turn_down(struct draft *draft)
{
	struct frame *frame = draft->frame;

	if (random_chance(draft->random, 300))
		return;
	if (frame->count == 0 && draft->twin->most > 0)
		append_some(draft, 1);
	for (unsigned i = 0; i < frame->count; i++)
		frame->contact[i].flags = 0x19;
	if (frame->count > 0 && random_chance(draft->random, 150))
		frame->contact[random_below(draft->random, frame->count)].flags = RANDOM_OF(draft->random, listed);
}

/* An id that is not yet in the frame: one in the set, or one of the client's that is not. */
static unsigned pick_by_set(struct draft *draft, bool held)
{
	const struct habits *habits = draft->habits;
	const unsigned first = habits->high ? 256 - habits->pool : 0;
	const unsigned start = first + random_below(draft->random, random_chance(draft->random, 700) ? FEW : 256);

	for (unsigned i = 0; i < 256; i++) {
		const unsigned id = (start + i) % 256;

		if (draft->used[id] || !draft->twin->held[id] == held)
			continue;
		if (held || (id >= first && id < first + habits->pool))
			return id;
	}
	return NO_ID;
}

/* Appends a contact of an id in the set or outside it, if there is one. */
static void append_by_set(struct draft *draft, bool held, uint32_t flags)
{
	const unsigned id = pick_by_set(draft, held);
	struct wire_contact *contact = &draft->frame->contact[draft->frame->count];

	if (id == NO_ID || draft->frame->count == FRAME_CONTACTS_MOST)
		return;
	frames_stray(draft->random, draft->habits, contact);
	contact->id = (uint8_t)id;
	contact->flags = flags;
	draft->frame->count++;
	draft->used[id] = true;
	draft->active++;
}

/* Lists a contact of the frame once more, with flags of its own. */
static void append_again(struct draft *draft, uint32_t flags)
{
	struct frame *frame = draft->frame;

	if (frame->count == 0 || frame->count == FRAME_CONTACTS_MOST)
		return;
	frame->contact[frame->count] = frame->contact[random_below(draft->random, frame->count)];
	frame->contact[frame->count++].flags = flags;
}

static uint32_t hover_or_down(struct random *random)
{
	return random_chance(random, 700) ? 0x0A : 0x19;
}

/* Contacts that hover, or that hover and are pressed, of ids outside the set: such a frame opens. With one of an id in the set, hovering or
 * pressed, it almost does; with an id twice it opens and is cancelled. */
static void hover(struct draft *draft, unsigned count)
{
	struct random *random = draft->random;
	const unsigned most = draft->twin->most, limit = most + random_chance(random, 50);

	while (count-- > 0 && (draft->active < limit || most == 0))
		append_by_set(draft, false, hover_or_down(random));
	if (draft->frame->count == 0 || random_chance(random, 250))
		append_by_set(draft, true, hover_or_down(random));
	if (random_chance(random, 100))
		append_again(draft, hover_or_down(random));
	if (draft->frame->count > 0 && random_chance(random, 50))
		draft->frame->contact[random_below(random, draft->frame->count)].flags = RANDOM_OF(random, listed);
}

static uint32_t leave_or_stay(struct random *random)
{
	return random_chance(random, 650) ? RANDOM_OF(random, leaving) : RANDOM_OF(random, staying);
}

/* Contacts most of which are of ids in the set, and leave it: some are listed again behind that, with other flags. */
static void leave(struct draft *draft, unsigned count)
{
	struct random *random = draft->random;

	for (unsigned i = 0; i < 1 + count; i++) {
		const bool held = !random_chance(random, 200);

		append_by_set(draft, held, leave_or_stay(random));
	}
	while (random_chance(random, 300))
		append_again(draft, leave_or_stay(random));
}

/* The contacts of a frame while frames are ignored. */
static void append_ignored(struct draft *draft, unsigned count)
{
	const unsigned kind = random_below(draft->random, 1000);

	if (kind < 350) {
		hover(draft, count);
	} else if (kind < 700) {
		leave(draft, count);
	} else {
		append_usual(draft, count);
		turn_down(draft);
	}
}

/* Lifts a contact away from where it is stored. */
static void lift_elsewhere(struct random *random, struct wire_contact *contact)
{
	static const uint8_t lifts[] = { 0x0C, 0x04, 0x24 };
	int32_t *moved = random_chance(random, 500) ? &contact->x : &contact->y;

	contact->flags = RANDOM_OF(random, lifts);
	*moved += *moved > 0 ? -1 : 1;
}

/* Makes one contact of the frame such that the frame should not conform. */
static void spoil(struct draft *draft)
{
	struct frame *frame = draft->frame;
	struct random *random = draft->random;
	struct wire_contact *contact;

	if (frame->count == 0)
		frames_stray(random, draft->habits, &frame->contact[frame->count++]);
	contact = &frame->contact[random_below(random, frame->count)];
	switch (random_below(random, 5)) {
	case 0:
		contact->flags = RANDOM_OF(random, listed);
		break;
	case 1:
		lift_elsewhere(random, contact);
		break;
	case 2:
		contact->id = frame->contact[random_below(random, frame->count)].id;
		break;
	case 3:
		contact->id = (uint8_t)random_below(random, 256);
		break;
	default:
		append_again(draft, random_chance(random, 500) ? RANDOM_OF(random, listed) : contact->flags);
	}
}

/* As a rule a crowd at most. Now and then one of the edges: where a head's count needs its high bits, where a message's needs two bytes,
 * and the greatest. */
static unsigned choose_count(struct random *random, const struct habits *habits)
{
	static const unsigned edges[] = { 63, 64, 127, 128, 255, FRAME_CONTACTS_MOST };

	if (random_chance(random, 20))
		return RANDOM_OF(random, edges);
	if (random_chance(random, 20))
		return 0;
	if (random_chance(random, habits->full))
		return habits->crowd;
	return random_below(random, habits->crowd + 1);
}

void frames_next(struct random *random, const struct habits *habits, const struct twin *twin, struct frame *frame)
{
	struct draft draft = { .random = random, .habits = habits, .twin = twin, .frame = frame, .active = twin->active };

	frame->count = 0;
	frame->offset = random_chance(random, 300) ? frames_edge(random, &wire_u8) : random_below(random, 20000);
	if (twin->ignoring)
		append_ignored(&draft, choose_count(random, habits));
	else
		append_usual(&draft, choose_count(random, habits));
	if (random_chance(random, habits->spoil))
		spoil(&draft);
}
