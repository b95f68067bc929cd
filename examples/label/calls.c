/* Every call of a label from C, on both sides of its limits: what it answers, and what it leaves of the label and the lists. Each choice is
 * made both ways, of a label and of one in parts, which must agree. What the calls do is proved; this is for the boundary. Ends with 'N
 * passed, M failed'. */
#include "batch.h"
#include "expect.h"
#include "head.h"
#include "kangirlo.h"
#include "label_apart.h"

#include <string.h>

/* More places than any of the lists of records here has records, so that nothing is counted where all are lent. */
enum { PLACES = BATCH_MOST / KANGIRLO_RECORD_BYTES + 1, NUMBERS = 2 * PLACES, UNTOUCHED = 0xA5 };

/* The button at the front covers the middle of the other two, which have an edge in common. */
enum { FRONT, LEFT, RIGHT, BUTTONS };

static const struct kangirlo_button three[BUTTONS] = {
	[FRONT] = {70, 40, 40, 60, 60, 0}, [LEFT] = {80, 0, 0, 50, 100, 1}, [RIGHT] = {90, 50, 0, 100, 100, 255}};

static struct kangirlo_button buttons[BUTTONS];
static struct kangirlo_label label;
static struct label_apart apart;
static uint32_t numbers[NUMBERS];
static struct kangirlo_choice choices[PLACES];

static void set_label(const struct kangirlo_label *wanted)
{
	label = *wanted;
	label_apart_set(&apart, wanted);
}

static void begin(void)
{
	static const struct kangirlo_label fresh;

	memcpy(buttons, three, sizeof buttons);
	set_label(&fresh);
}

/* Lends so many numbers of an untouched list. */
static struct kangirlo_picked choose_in(size_t room, const uint8_t *records, size_t bytes)
{
	struct kangirlo_picked picked, in_parts;

	memset(numbers, UNTOUCHED, sizeof numbers);
	memset(choices, UNTOUCHED, sizeof choices);
	in_parts = kangirlo_choose_parts(apart.states, apart.pressed, buttons, BUTTONS, records, bytes, numbers, room);
	picked = kangirlo_choose(&label, buttons, BUTTONS, records, bytes, choices, room / 2);
	EXPECT(picked.refusal == in_parts.refusal && picked.count == in_parts.count && memcmp(choices, numbers, sizeof numbers) == 0);
	EXPECT(label_apart_is(&apart, &label));
	return picked;
}

/* So many choices, and nothing behind them is touched. */
static int chose_in(size_t room, const struct batch *batch, size_t count)
{
	const struct kangirlo_picked picked = choose_in(room, batch->bytes, batch->length);
	const uint8_t *bytes = (const uint8_t *)numbers;
	size_t at = count * sizeof *choices;

	while (at < sizeof numbers && bytes[at] == UNTOUCHED)
		at++;
	return picked.refusal == KANGIRLO_TAKEN && picked.count == count && at == sizeof numbers;
}

static int is_choice(size_t place, uint32_t id, uint32_t item)
{
	return choices[place].id == id && choices[place].item == item;
}

/* A refusal: neither the label nor the list has changed. */
static int refused_in(size_t room, const uint8_t *records, size_t bytes, enum kangirlo_refusal refusal)
{
	static uint32_t untouched[NUMBERS];
	const struct kangirlo_label before = label;
	const struct kangirlo_picked picked = choose_in(room, records, bytes);

	memset(untouched, UNTOUCHED, sizeof untouched);
	return picked.refusal == refusal && picked.count == 0 && memcmp(&label, &before, sizeof label) == 0
	       && memcmp(numbers, untouched, sizeof numbers) == 0;
}

/* In any room: where choices are counted first, and where they are not. */
static int is_bad(const uint8_t *records, size_t bytes)
{
	return refused_in(0, records, bytes, KANGIRLO_BAD_RECORD) && refused_in(NUMBERS, records, bytes, KANGIRLO_BAD_RECORD);
}

static int is_bad_batch(const struct batch *batch)
{
	return is_bad(batch->bytes, batch->length);
}

/* A frame of one contact behind those before. */
static void put(struct batch *batch, enum batch_flags flags, uint8_t id, int32_t x, int32_t y)
{
	batch_head(batch, 1, 0);
	batch_contact(batch, flags, id, x, y);
}

/* A cancel's record or a dismissal's. */
static void put_kind(struct batch *batch, enum kangirlo_kind kind, enum batch_flags flags, uint8_t id)
{
	batch_record(batch, (struct kangirlo_record){.kind = (uint8_t)kind, .flags = (uint8_t)flags, .id = id});
}

/* Such a frame by itself, and how many choices it is. */
static int does(enum batch_flags flags, uint8_t id, int32_t x, int32_t y, size_t count)
{
	struct batch batch = {0};

	put(&batch, flags, id, x, y);
	return chose_in(NUMBERS, &batch, count);
}

static int does_kind(enum kangirlo_kind kind, enum batch_flags flags, uint8_t id)
{
	struct batch batch = {0};

	put_kind(&batch, kind, flags, id);
	return chose_in(NUMBERS, &batch, 0);
}

/* The place of a point in a list of one: 0, or 1 for none. */
static size_t at_one(struct kangirlo_button button, int32_t x, int32_t y)
{
	return kangirlo_button_at(&button, 1, x, y);
}

static void test_edges(void)
{
	const struct kangirlo_button one = {7, -10, 20, 30, 40, 1}, all = {7, INT32_MIN, INT32_MIN, INT32_MAX, INT32_MAX, 1};
	const struct kangirlo_button thin = {7, 5, 0, 5, 9, 1}, flat = {7, 0, 5, 9, 5, 1};
	const struct kangirlo_button turned = {7, 9, 0, 0, 9, 1}, upside_down = {7, 0, 9, 9, 0, 1};

	EXPECT(at_one(one, -10, 20) == 0 && at_one(one, 29, 20) == 0 && at_one(one, -10, 39) == 0 && at_one(one, 29, 39) == 0);
	EXPECT(at_one(one, -11, 20) == 1 && at_one(one, -10, 19) == 1);
	EXPECT(at_one(one, 30, 39) == 1 && at_one(one, 29, 40) == 1);
	EXPECT(at_one(all, INT32_MIN, INT32_MIN) == 0 && at_one(all, INT32_MAX - 1, INT32_MAX - 1) == 0);
	EXPECT(at_one(all, INT32_MAX, 0) == 1 && at_one(all, 0, INT32_MAX) == 1);
	EXPECT(at_one(thin, 5, 5) == 1 && at_one(flat, 5, 5) == 1 && at_one(turned, 5, 5) == 1 && at_one(upside_down, 5, 5) == 1);
}

static void test_button_at(void)
{
	begin();
	EXPECT(kangirlo_button_at(buttons, BUTTONS, 49, 50) == LEFT && kangirlo_button_at(buttons, BUTTONS, 50, 50) == RIGHT);
	EXPECT(kangirlo_button_at(buttons, BUTTONS, 100, 50) == BUTTONS);
	buttons[FRONT].shown = 1;
	EXPECT(kangirlo_button_at(buttons, BUTTONS, 49, 50) == FRONT && kangirlo_button_at(buttons, BUTTONS, 50, 50) == FRONT);
	EXPECT(kangirlo_button_at(buttons, BUTTONS, 39, 50) == LEFT && kangirlo_button_at(buttons, BUTTONS, 60, 50) == RIGHT);
	EXPECT(kangirlo_button_at(buttons, 1, 39, 50) == 1);
	EXPECT(kangirlo_button_at(buttons, 0, 50, 50) == 0);
}

/* Whether the list is the one of before but for one mark. Every byte is looked at, those that are no field's too. */
static int only_mark(const struct kangirlo_button *before, size_t place, uint8_t shown)
{
	struct kangirlo_button wanted[BUTTONS];

	memcpy(wanted, before, sizeof wanted);
	if (place < BUTTONS)
		wanted[place].shown = shown;
	return memcmp(buttons, wanted, sizeof wanted) == 0;
}

static void test_set_shown(void)
{
	struct kangirlo_button before[BUTTONS];

	memset(buttons, UNTOUCHED, sizeof buttons);
	memcpy(before, buttons, sizeof before);
	EXPECT(kangirlo_set_shown(buttons, BUTTONS, 1, 0) && only_mark(before, 1, 0));
	EXPECT(kangirlo_set_shown(buttons, BUTTONS, 1, UNTOUCHED) && only_mark(before, BUTTONS, 0));
	EXPECT(kangirlo_set_shown(buttons, BUTTONS, 0, 1) && only_mark(before, 0, 1));
	EXPECT(kangirlo_set_shown(buttons, BUTTONS, 0, UNTOUCHED) && kangirlo_set_shown(buttons, BUTTONS, BUTTONS - 1, 255));
	EXPECT(only_mark(before, BUTTONS - 1, 255) && kangirlo_set_shown(buttons, BUTTONS, BUTTONS - 1, UNTOUCHED));
	EXPECT(!kangirlo_set_shown(buttons, BUTTONS, BUTTONS, 0) && !kangirlo_set_shown(buttons, BUTTONS, SIZE_MAX, 0));
	EXPECT(!kangirlo_set_shown(buttons, BUTTONS - 1, BUTTONS - 1, 0) && !kangirlo_set_shown(buttons, 0, 0, 0));
	EXPECT(only_mark(before, BUTTONS, 0));
}

/* The two lifts, moves between, and the label after each. */
static void test_choice(void)
{
	begin();
	EXPECT(does(DOWN, 1, 10, 10, 0) && label.states[1] == 2 && label.pressed[1] == LEFT + 1);
	EXPECT(does(LIFT, 1, 10, 10, 1) && is_choice(0, 1, 80) && label.states[1] == 0 && label.pressed[1] == 0);
	EXPECT(does(HOVER, 255, 500, 500, 0) && label.states[255] == 1 && label.pressed[255] == 0);
	EXPECT(does(DOWN, 255, 90, 90, 0) && label.pressed[255] == RIGHT + 1);
	EXPECT(does(MOVE, 255, 500, 500, 0) && does(MOVE, 255, 10, 10, 0) && label.pressed[255] == RIGHT + 1);
	EXPECT(does(LIFT_TO_HOVER, 255, 50, 0, 1) && is_choice(0, 255, 90) && label.states[255] == 1 && label.pressed[255] == 0);
	EXPECT(does(DOWN, 255, 90, 90, 0) && does(LIFT, 255, 90, 90, 1));
}

static void test_no_choice(void)
{
	begin();
	EXPECT(does(DOWN, 1, 10, 10, 0) && does(MOVE, 1, 90, 10, 0) && does(LIFT, 1, 90, 10, 0));
	EXPECT(does(DOWN, 1, 10, 10, 0) && does(LIFT, 1, -1, 10, 0) && label.pressed[1] == 0);
	EXPECT(does(DOWN, 1, -1, 10, 0) && label.pressed[1] == 0 && does(LIFT, 1, 10, 10, 0));
	EXPECT(does(DOWN, 1, 10, 10, 0) && does(LIFT_CANCELLED, 1, 10, 10, 0) && label.states[1] == 0 && label.pressed[1] == 0);
	EXPECT(does(DOWN, 1, 10, 10, 0) && does_kind(KANGIRLO_CANCEL, LIFT_CANCELLED, 1));
	EXPECT(label.states[1] == 0 && label.pressed[1] == 0);
	EXPECT(does(HOVER, 1, 10, 10, 0) && does_kind(KANGIRLO_CANCEL, LEAVE_CANCELLED, 1) && label.states[1] == 0);
	EXPECT(does(HOVER, 1, 10, 10, 0) && does_kind(KANGIRLO_DISMISSAL, LEAVE, 1) && label.states[1] == 0);
	EXPECT(does(HOVER, 1, 10, 10, 0) && does(LEAVE, 1, 10, 10, 0) && label.states[1] == 0);
	EXPECT(does(HOVER, 1, 10, 10, 0) && does(LEAVE_CANCELLED, 1, 10, 10, 0) && label.states[1] == 0);
}

/* Buttons that change while a finger is down: what counts is the list at the press and at the lift. */
static void test_hiding(void)
{
	begin();
	EXPECT(does(DOWN, 1, 45, 45, 0) && kangirlo_set_shown(buttons, BUTTONS, LEFT, 0));
	EXPECT(does(LIFT, 1, 45, 45, 0));
	EXPECT(does(DOWN, 1, 45, 45, 0) && label.pressed[1] == 0 && kangirlo_set_shown(buttons, BUTTONS, LEFT, 1));
	EXPECT(does(LIFT, 1, 45, 45, 0));
	EXPECT(does(DOWN, 1, 45, 45, 0) && kangirlo_set_shown(buttons, BUTTONS, LEFT, 0));
	EXPECT(does(MOVE, 1, 45, 46, 0) && kangirlo_set_shown(buttons, BUTTONS, LEFT, 1));
	EXPECT(does(LIFT, 1, 45, 46, 1) && is_choice(0, 1, 80));
	EXPECT(does(DOWN, 1, 45, 45, 0) && kangirlo_set_shown(buttons, BUTTONS, FRONT, 1));
	EXPECT(does(LIFT, 1, 45, 45, 0));
	EXPECT(does(DOWN, 1, 45, 45, 0) && label.pressed[1] == FRONT + 1);
	buttons[FRONT] = (struct kangirlo_button){0xFFFFFFFF, 200, 200, 300, 300, 7};
	EXPECT(does(LIFT, 1, 200, 200, 1) && is_choice(0, 1, 0xFFFFFFFF));
}

/* Two presses in one frame, lifted the other way round, with an empty frame between. */
static struct batch two_choices(void)
{
	struct batch batch = {0};

	batch_head(&batch, 2, 0);
	batch_contact(&batch, DOWN, 0, 10, 10);
	batch_contact(&batch, DOWN, 200, 90, 10);
	batch_head(&batch, 0, 40);
	batch_head(&batch, 2, 40);
	batch_contact(&batch, LIFT, 200, 90, 10);
	batch_contact(&batch, LIFT, 0, 10, 10);
	return batch;
}

/* Choices stand in the order of the lifts. An id three times in a frame is taken one record after the other. */
static void test_order(void)
{
	struct batch batch = two_choices();

	begin();
	EXPECT(chose_in(NUMBERS, &batch, 2) && is_choice(0, 200, 90) && is_choice(1, 0, 80));
	batch_head(&batch, 3, 40);
	batch_contact(&batch, DOWN, 5, 10, 10);
	batch_contact(&batch, LIFT_TO_HOVER, 5, 10, 10);
	batch_contact(&batch, LEAVE, 5, 10, 10);
	EXPECT(chose_in(NUMBERS, &batch, 3) && is_choice(2, 5, 80) && label.states[5] == 0);
}

/* Numbers too few, just enough, for each record, and more than that, also where they are odd: half a place is none. What is refused is done
 * again with more. */
static void test_room(void)
{
	enum { FEW = 16 };
	struct batch batch = two_choices(), none = {0};

	put(&batch, HOVER, 9, 10, 10);
	EXPECT(batch.length / KANGIRLO_RECORD_BYTES < FEW);
	begin();
	for (size_t room = 0; room < KANGIRLO_CHOICE_NUMBERS(2); room++)
		EXPECT(refused_in(room, batch.bytes, batch.length, KANGIRLO_NO_ROOM));
	EXPECT(label.states[9] == 0);
	for (size_t room = KANGIRLO_CHOICE_NUMBERS(2); room <= KANGIRLO_CHOICE_NUMBERS(FEW); room++)
		EXPECT(chose_in(room, &batch, 2) && is_choice(0, 200, 90) && is_choice(1, 0, 80) && label.states[9] == 1);
	EXPECT(does(DOWN, 1, 10, 10, 0));
	EXPECT(chose_in(0, &none, 0) && label.states[1] == 2 && label.pressed[1] == LEFT + 1);
}

/* A frame of so many contacts at the same point of the left button, behind those before. */
static void put_wall(struct batch *batch, unsigned count, enum batch_flags flags)
{
	batch_head(batch, (uint16_t)count, 0);
	for (unsigned i = 0; i < count; i++)
		batch_contact(batch, flags, (uint8_t)i, 10, 10);
}

/* Whether the first contacts are in this state and have pressed this place plus 1, and the others are out. */
static int has_contacts(unsigned count, uint8_t state, size_t pressed)
{
	for (unsigned i = 0; i < 256; i++)
		if (label.states[i] != (i < count ? state : 0) || label.pressed[i] != (i < count ? pressed : 0))
			return 0;
	return 1;
}

/* Large frames: counts at both sides of what the low bits of a head's count hold, and of one byte, up to the greatest. */
static void test_wall(void)
{
	static const unsigned counts[] = {63, 64, 127, 128, 255, KANGIRLO_CONTACTS_MOST};

	for (size_t i = 0; i < sizeof counts / sizeof *counts; i++) {
		const unsigned count = counts[i];
		struct batch down = {0}, both = {0};

		put_wall(&down, count, DOWN);
		put_wall(&both, count, MOVE);
		put_wall(&both, count, LIFT);
		begin();
		EXPECT(chose_in(0, &down, 0) && has_contacts(count, 2, LEFT + 1));
		EXPECT(refused_in(KANGIRLO_CHOICE_NUMBERS(count) - 1, both.bytes, both.length, KANGIRLO_NO_ROOM));
		EXPECT(chose_in(KANGIRLO_CHOICE_NUMBERS(count), &both, count) && has_contacts(0, 0, 0));
		EXPECT(is_choice(0, 0, 80) && is_choice(62, 62, 80) && is_choice(count - 1, count - 1, 80));
		EXPECT(chose_in(NUMBERS, &down, 0) && chose_in(NUMBERS, &both, count) && has_contacts(0, 0, 0));
	}
}

/* The greatest frame with a contact more, legal for that contact: not by the head of 256, and not by one that says so. */
static void test_wall_refused(void)
{
	static const unsigned counts[] = {255, KANGIRLO_CONTACTS_MOST, KANGIRLO_CONTACTS_MOST + 1, 258, 511};
	struct batch batch = {0};

	put_wall(&batch, KANGIRLO_CONTACTS_MOST, DOWN);
	batch_contact(&batch, MOVE, 0, 10, 10);
	begin();
	for (size_t i = 0; i < sizeof counts / sizeof *counts; i++) {
		head_put(batch.bytes, counts[i], 0);
		EXPECT(is_bad_batch(&batch));
	}
	head_put(batch.bytes, KANGIRLO_CONTACTS_MOST, 0);
	batch.length -= KANGIRLO_RECORD_BYTES;
	batch.bytes[9] = 0x80; /* the first of the head's unused bits */
	EXPECT(is_bad_batch(&batch));
	batch.bytes[9] = 0;
	EXPECT(chose_in(NUMBERS, &batch, 0) && has_contacts(KANGIRLO_CONTACTS_MOST, 2, LEFT + 1));
}

/* No button: the contacts are followed all the same. */
static void test_no_buttons(void)
{
	struct kangirlo_picked picked;
	struct batch batch = {0};

	begin();
	put(&batch, DOWN, 3, 10, 10);
	picked = kangirlo_choose(&label, buttons, 0, batch.bytes, batch.length, choices, 0);
	EXPECT(picked.refusal == KANGIRLO_TAKEN && picked.count == 0 && label.states[3] == 2 && label.pressed[3] == 0);
	picked = kangirlo_choose(&label, buttons, 0, batch.bytes, batch.length, choices, 0);
	EXPECT(picked.refusal == KANGIRLO_BAD_RECORD && picked.count == 0 && label.states[3] == 2);
}

/* Behind two choices each: 14 is judged over all records, and before 13. */
static void test_not_whole(void)
{
	struct batch batch = two_choices();
	const size_t whole = batch.length;

	begin();
	EXPECT(is_bad(batch.bytes, whole - 1) && is_bad(batch.bytes, whole - KANGIRLO_RECORD_BYTES));
	put(&batch, DOWN, 1, 10, 10);
	EXPECT(is_bad(batch.bytes, whole + 1) && is_bad(batch.bytes, whole + KANGIRLO_RECORD_BYTES));
	batch.bytes[whole + KANGIRLO_RECORD_BYTES - 1] = 1; /* an unused bit of the head */
	EXPECT(is_bad_batch(&batch));
	batch.bytes[whole + KANGIRLO_RECORD_BYTES - 1] = 0;
	EXPECT(chose_in(NUMBERS, &batch, 2) && label.pressed[1] == LEFT + 1);
}

/* A contact without a head; and between a head and its contact another head, a cancel and a dismissal, all legal for the contacts. */
static void test_out_of_place(void)
{
	struct batch bare = {0}, head = {0}, cancel = {0}, dismissal = {0}, between = {0};

	begin();
	EXPECT(does(HOVER, 1, 10, 10, 0) && does(DOWN, 2, 10, 10, 0));
	batch_contact(&bare, MOVE, 2, 10, 10);
	EXPECT(is_bad_batch(&bare));
	batch_head(&head, 1, 0);
	put(&head, MOVE, 2, 10, 10);
	EXPECT(is_bad_batch(&head));
	batch_head(&cancel, 1, 0);
	put_kind(&cancel, KANGIRLO_CANCEL, LIFT_CANCELLED, 2);
	batch_contact(&cancel, HOVER, 1, 10, 10);
	EXPECT(is_bad_batch(&cancel));
	batch_head(&dismissal, 1, 0);
	put_kind(&dismissal, KANGIRLO_DISMISSAL, LEAVE, 1);
	batch_contact(&dismissal, MOVE, 2, 10, 10);
	EXPECT(is_bad_batch(&dismissal));
	put(&between, MOVE, 2, 10, 10);
	put_kind(&between, KANGIRLO_DISMISSAL, LEAVE, 1);
	put_kind(&between, KANGIRLO_CANCEL, LIFT_CANCELLED, 2);
	put(&between, DOWN, 2, 10, 10);
	EXPECT(chose_in(NUMBERS, &between, 0) && label.states[1] == 0 && label.states[2] == 2);
}

/* Whether a contact may do this now: the table's eight rows. The label is put back. */
static int may(enum batch_flags flags, uint8_t id)
{
	const struct kangirlo_label before = label;
	struct batch batch = {0};
	int taken;

	put(&batch, flags, id, 10, 10);
	taken = choose_in(NUMBERS, batch.bytes, batch.length).refusal == KANGIRLO_TAKEN;
	set_label(&before);
	return taken;
}

static void test_states(void)
{
	struct batch hovers = {0}, stranger = {0}, wrong = {0};

	begin();
	EXPECT(may(HOVER, 1) && may(DOWN, 1) && !may(MOVE, 1) && !may(LIFT_TO_HOVER, 1));
	EXPECT(!may(LIFT, 1) && !may(LIFT_CANCELLED, 1) && !may(LEAVE, 1) && !may(LEAVE_CANCELLED, 1) && !may((enum batch_flags)0, 1));
	EXPECT(does(HOVER, 1, 10, 10, 0));
	EXPECT(may(HOVER, 1) && may(DOWN, 1) && !may(MOVE, 1) && !may(LIFT_TO_HOVER, 1));
	EXPECT(!may(LIFT, 1) && !may(LIFT_CANCELLED, 1) && may(LEAVE, 1) && may(LEAVE_CANCELLED, 1) && !may((enum batch_flags)0, 1));
	put_kind(&hovers, KANGIRLO_CANCEL, LIFT_CANCELLED, 1);
	EXPECT(is_bad_batch(&hovers));
	EXPECT(does(DOWN, 1, 10, 10, 0));
	EXPECT(!may(HOVER, 1) && !may(DOWN, 1) && may(MOVE, 1) && may(LIFT_TO_HOVER, 1));
	EXPECT(may(LIFT, 1) && may(LIFT_CANCELLED, 1) && !may(LEAVE, 1) && !may(LEAVE_CANCELLED, 1) && !may((enum batch_flags)0, 1));
	put_kind(&wrong, KANGIRLO_DISMISSAL, LEAVE, 1);
	EXPECT(is_bad_batch(&wrong));
	put(&stranger, LIFT, 1, 10, 10);
	put(&stranger, MOVE, 2, 10, 10);
	EXPECT(is_bad_batch(&stranger) && label.pressed[1] == LEFT + 1);
}

/* A new list while a finger is down: without its press it chooses nothing, and is followed; a fresh label does not know it. A press of
 * no place that there is chooses nothing either. */
static void test_new_list(void)
{
	struct batch lift = {0};

	put(&lift, LIFT, 1, 10, 10);
	begin();
	EXPECT(is_bad_batch(&lift));
	EXPECT(does(DOWN, 1, 10, 10, 0));
	memset(label.pressed, 0, sizeof label.pressed);
	memset(apart.pressed, 0, sizeof apart.pressed);
	EXPECT(chose_in(NUMBERS, &lift, 0) && label.states[1] == 0);
	EXPECT(does(DOWN, 1, 10, 10, 0));
	label.pressed[1] = apart.pressed[1] = SIZE_MAX;
	EXPECT(chose_in(NUMBERS, &lift, 0) && label.states[1] == 0 && label.pressed[1] == 0);
}

int main(void)
{
	test_edges();
	test_button_at();
	test_set_shown();
	test_choice();
	test_no_choice();
	test_hiding();
	test_order();
	test_room();
	test_wall();
	test_wall_refused();
	test_no_buttons();
	test_not_whole();
	test_out_of_place();
	test_states();
	test_new_list();
	return expect_end();
}
