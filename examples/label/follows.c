/* A label follows a receiver over every message of some bench files: it refuses nothing but for want of room, and has the receiver's
 * states. Beside it a second label misses a message now and then: where it is refused by 14, the receiver's states set it right. Ends with
 * 'N passed, M failed'.
 *
 *     follows FILE.. */
#include "bench_file.h"
#include "expect.h"
#include "kangirlo.h"

#include <string.h>

enum { BUTTONS = 6, MISSES = 37 };

/* The four quarters of the plane; in front of them one that is shown and hidden by turns; and one that is behind all of them. */
static struct kangirlo_button buttons[BUTTONS] = {
	{1, -1000, -1000, 1000, 1000, 0},
	{2, INT32_MIN, INT32_MIN, 0, 0, 1},
	{3, 0, INT32_MIN, INT32_MAX, 0, 1},
	{4, INT32_MIN, 0, 0, INT32_MAX, 1},
	{5, 0, 0, INT32_MAX, INT32_MAX, 1},
	{6, INT32_MIN, INT32_MIN, INT32_MAX, INT32_MAX, 1},
};

static struct kangirlo_receiver receiver;
static struct kangirlo_label label, late;
static uint8_t records[KANGIRLO_OUTPUT_MOST];
static struct kangirlo_choice choices[KANGIRLO_CHOICES_MOST];
static unsigned messages;
static bool missed;
static unsigned long chosen, set_right;

static struct kangirlo_picked choose(struct kangirlo_label *with, size_t count, size_t places)
{
	return kangirlo_choose(with, buttons, BUTTONS, records, count * KANGIRLO_RECORD_BYTES, choices, places);
}

/* The label with a place more than records, so that nothing is counted; and a copy of it with a place too few for the choices, then with
 * just enough. */
static void follow(size_t count)
{
	const struct kangirlo_label before = label;
	struct kangirlo_label just = label;
	const struct kangirlo_picked picked = choose(&label, count, count + 1);

	EXPECT(picked.refusal == KANGIRLO_TAKEN && picked.count <= count);
	EXPECT(memcmp(label.states, receiver.states, sizeof label.states) == 0);
	if (picked.count > 0) {
		EXPECT(choose(&just, count, picked.count - 1).refusal == KANGIRLO_NO_ROOM);
		EXPECT(memcmp(&just, &before, sizeof just) == 0);
	}
	EXPECT(choose(&just, count, picked.count).count == picked.count && memcmp(&just, &label, sizeof just) == 0);
	chosen += picked.count;
}

/* The late label: set right, it has the receiver's states and no press. */
static void follow_late(size_t count)
{
	if (messages % MISSES == 0) {
		missed = true;
		return;
	}
	if (choose(&late, count, count + 1).refusal == KANGIRLO_TAKEN)
		return;
	EXPECT(missed);
	memcpy(late.states, receiver.states, sizeof late.states);
	memset(late.pressed, 0, sizeof late.pressed);
	missed = false;
	set_right++;
}

static void take_message(const uint8_t *message, size_t length)
{
	const size_t count = kangirlo_receive_direct(&receiver, message, length, records, sizeof records).records;

	messages++;
	EXPECT(kangirlo_set_shown(buttons, BUTTONS, 0, messages / 8 % 2));
	follow(count);
	follow_late(count);
}

static void begin(void)
{
	memset(&receiver, 0, sizeof receiver);
	memset(&label, 0, sizeof label);
	late = label;
	missed = false;
}

int main(int count, char **words)
{
	for (int i = 1; i < count; i++) {
		begin();
		bench_file_each(words[i], take_message);
	}
	EXPECT(chosen > 0 && set_right > 0);
	return expect_end();
}
