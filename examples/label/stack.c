/* How much stack each call of a label takes, return address included.
 *
 *     stack FILE..                the records of every message of some bench files through kangirlo_choose, and every point of a contact
 *                                 through kangirlo_button_at */
#include "bench_file.h"
#include "kangirlo.h"
#include "painted.h"

#include <string.h>

enum { BUTTONS = 64 };

/* What a call is lent. */
static struct {
	struct kangirlo_receiver receiver;
	struct kangirlo_label label;
	struct kangirlo_button buttons[BUTTONS];
	uint8_t records[KANGIRLO_OUTPUT_MOST];
	size_t bytes;
	struct kangirlo_choice choices[KANGIRLO_CHOICES_MOST];
	size_t places;
	size_t chosen;
	int32_t x;
	int32_t y;
	size_t place;
} lent;

/* The header's call as a function of its own, with the frame that it has where it is not inlined. */
static struct kangirlo_picked (*volatile own)(struct kangirlo_label *, const struct kangirlo_button *, size_t, const uint8_t *, size_t,
                                              struct kangirlo_choice *, size_t) = kangirlo_choose;

/* Some arguments go on the stack, and are counted: two of choose_parts, one of choose. */
static void choose_parts(void)
{
	PAINTED_MARK();
	lent.chosen = kangirlo_choose_parts(lent.label.states, lent.label.pressed, lent.buttons, BUTTONS, lent.records, lent.bytes,
	                                    &lent.choices->id, KANGIRLO_CHOICE_NUMBERS(lent.places))
	                      .count;
}

static void choose(void)
{
	PAINTED_MARK();
	lent.chosen = own(&lent.label, lent.buttons, BUTTONS, lent.records, lent.bytes, lent.choices, lent.places).count;
}

static void button_at(void)
{
	PAINTED_MARK();
	lent.place = kangirlo_button_at(lent.buttons, BUTTONS, lent.x, lent.y);
}

static void set_shown(void)
{
	PAINTED_MARK();
	lent.place = kangirlo_set_shown(lent.buttons, BUTTONS, lent.place, 1);
}

/* Each choice with more places than records, and with just enough and one too few: then the choices are counted first. */
enum { ENOUGH, LITTLE, ROOMS };
enum { PARTS, OWN, CHOOSING };

static struct painted_call choosing[CHOOSING][ROOMS] = {
	[PARTS] = {{"kangirlo_choose_parts", choose_parts, 0}, {"kangirlo_choose_parts, little room", choose_parts, 0}},
	[OWN] = {{"kangirlo_choose", choose, 0}, {"kangirlo_choose, little room", choose, 0}},
};

static struct painted_call others[] = {{"kangirlo_button_at", button_at, 0}, {"kangirlo_set_shown", set_shown, 0}};

enum { OTHERS = sizeof others / sizeof *others };

/* Stripes across the plane, the last of which holds what the others leave. */
static void lay_out(void)
{
	for (int32_t i = 0; i < BUTTONS; i++)
		lent.buttons[i] = (struct kangirlo_button){(uint32_t)i, INT32_MIN, 100 * i, INT32_MAX, 100 * i + 100, 1};
	lent.buttons[BUTTONS - 1].top = INT32_MIN;
	lent.buttons[BUTTONS - 1].bottom = INT32_MAX;
}

static void measure_with(struct painted_call *call, const struct kangirlo_label *before, size_t places)
{
	lent.label = *before;
	lent.places = places;
	painted_measure(call);
}

/* The records of a message. The label goes on from the last time, when the room was just enough. */
static void measure_choices(size_t count)
{
	const struct kangirlo_label before = lent.label;

	lent.bytes = count * KANGIRLO_RECORD_BYTES;
	for (size_t i = 0; i < CHOOSING; i++) {
		size_t chosen;

		measure_with(&choosing[i][ENOUGH], &before, count + 1);
		chosen = lent.chosen;
		if (chosen > 0)
			measure_with(&choosing[i][LITTLE], &before, chosen - 1);
		measure_with(&choosing[i][LITTLE], &before, chosen);
	}
}

static void measure_message(const uint8_t *message, size_t length)
{
	const size_t count = kangirlo_receive_direct(&lent.receiver, message, length, lent.records, sizeof lent.records).records;

	measure_choices(count);
	for (size_t i = 0; i < count; i++) {
		const struct kangirlo_record record =
			kangirlo_read_record(lent.records + i * KANGIRLO_RECORD_BYTES, KANGIRLO_RECORD_BYTES);

		lent.x = record.x;
		lent.y = record.y;
		painted_measure_all(others, OTHERS);
	}
}

int main(int count, char **words)
{
	lay_out();
	for (int i = 1; i < count; i++) {
		memset(&lent.receiver, 0, sizeof lent.receiver);
		memset(&lent.label, 0, sizeof lent.label);
		bench_file_each(words[i], measure_message);
	}
	painted_print(choosing[0], CHOOSING * ROOMS);
	painted_print(others, OTHERS);
	return 0;
}
