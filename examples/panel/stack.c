/* How much stack each call of a panel takes, return address included.
 *
 *     stack FILE..                what the messages of some bench files hold, sent again by a panel */
#include "bench_file.h"
#include "kangirlo.h"
#include "painted.h"

enum { DISMISS = 6, DISMISS_BYTES = 7, NO_TIMES = 2, VERSION = 0x00010001, ALL_CONTACTS = 256 };

static const struct kangirlo_milliseconds now = {7};

/* What a call is lent, and its answer. */
static struct {
	struct kangirlo_panel panel;
	const uint8_t *message;
	size_t length;
	uint8_t records[KANGIRLO_OUTPUT_MOST];
	size_t records_length;
	uint8_t id;
	uint8_t output[KANGIRLO_MESSAGE_MOST];
	size_t room;
	struct kangirlo_written written;
	uint8_t refusal;
} lent;

/* The direct calls as functions of their own, with the frame that they have where they are not inlined. */
static struct {
	uint8_t (*volatile take)(struct kangirlo_panel *, const uint8_t *, size_t);
	struct kangirlo_written (*volatile write_ready)(struct kangirlo_panel *, uint8_t *, size_t, uint32_t, uint32_t, uint16_t);
	struct kangirlo_written (*volatile write_touch)(struct kangirlo_panel *, uint8_t *, size_t, struct kangirlo_milliseconds,
	                                                const uint8_t *, size_t);
	struct kangirlo_written (*volatile write_dismiss)(struct kangirlo_panel *, uint8_t *, size_t, uint8_t);
} direct = {kangirlo_panel_take_direct, kangirlo_panel_write_ready_direct, kangirlo_panel_write_touch_direct,
            kangirlo_panel_write_dismiss_direct};

static void fresh(void)
{
	PAINTED_MARK();
	lent.panel = kangirlo_panel_fresh();
}

static void take(void)
{
	PAINTED_MARK();
	lent.refusal = kangirlo_panel_take(&lent.panel, lent.message, lent.length);
}

static void take_parts(void)
{
	const struct kangirlo_panel_marks marks = kangirlo_panel_marks_of(&lent.panel);
	struct kangirlo_panel_heard heard;

	PAINTED_MARK();
	heard = kangirlo_panel_take_parts(marks, lent.message, lent.length);
	kangirlo_panel_keep_marks(&lent.panel, heard.marks);
	lent.refusal = heard.refusal;
}

static void take_direct(void)
{
	PAINTED_MARK();
	lent.refusal = direct.take(&lent.panel, lent.message, lent.length);
}

static void keep(struct kangirlo_panel_said said)
{
	kangirlo_panel_keep_marks(&lent.panel, said.marks);
	lent.written = said.written;
}

/* Some arguments of the writers for a panel in parts go on the stack, and are counted: two of ready, five of touch, three of dismiss. */
static void write_ready(void)
{
	PAINTED_MARK();
	lent.written = kangirlo_panel_write_ready(&lent.panel, lent.output, lent.room, NO_TIMES, VERSION, ALL_CONTACTS);
}

static void write_ready_parts(void)
{
	const struct kangirlo_panel_marks marks = kangirlo_panel_marks_of(&lent.panel);
	struct kangirlo_panel_said said;

	PAINTED_MARK();
	said = kangirlo_panel_write_ready_parts(marks, lent.output, lent.room, NO_TIMES, VERSION, ALL_CONTACTS);
	keep(said);
}

static void write_ready_direct(void)
{
	PAINTED_MARK();
	lent.written = direct.write_ready(&lent.panel, lent.output, lent.room, NO_TIMES, VERSION, ALL_CONTACTS);
}

static void write_touch(void)
{
	PAINTED_MARK();
	lent.written = kangirlo_panel_write_touch(&lent.panel, lent.output, lent.room, now, lent.records, lent.records_length);
}

static void write_touch_parts(void)
{
	const struct kangirlo_panel_marks marks = kangirlo_panel_marks_of(&lent.panel);
	struct kangirlo_panel_said said;

	PAINTED_MARK();
	said = kangirlo_panel_write_touch_parts(marks, lent.output, lent.room, now, lent.records, lent.records_length, lent.panel.states,
	                                        lent.panel.xs, lent.panel.ys);
	keep(said);
}

static void write_touch_direct(void)
{
	PAINTED_MARK();
	lent.written = direct.write_touch(&lent.panel, lent.output, lent.room, now, lent.records, lent.records_length);
}

static void write_dismiss(void)
{
	PAINTED_MARK();
	lent.written = kangirlo_panel_write_dismiss(&lent.panel, lent.output, lent.room, lent.id);
}

static void write_dismiss_parts(void)
{
	const struct kangirlo_panel_marks marks = kangirlo_panel_marks_of(&lent.panel);
	struct kangirlo_panel_said said;

	PAINTED_MARK();
	said = kangirlo_panel_write_dismiss_parts(marks, lent.output, lent.room, lent.id, lent.panel.states, lent.panel.xs, lent.panel.ys);
	keep(said);
}

static void write_dismiss_direct(void)
{
	PAINTED_MARK();
	lent.written = direct.write_dismiss(&lent.panel, lent.output, lent.room, lent.id);
}

static struct painted_call fresh_call = {"kangirlo_panel_fresh", fresh, 0};

/* Each call but the first is there three times. */
enum { WAYS = 3 };

static struct painted_call taking[WAYS] = {
	{"kangirlo_panel_take", take, 0},
	{"kangirlo_panel_take_parts", take_parts, 0},
	{"kangirlo_panel_take_direct", take_direct, 0},
};

/* A writer with room for any message, and with just what it writes and a byte less. */
enum { ENOUGH, LITTLE, ROOMS };
enum { READY, TOUCH, DISMISSAL, WRITERS };

static struct painted_call writing[WRITERS][WAYS][ROOMS] = {
	[READY] = {{{"kangirlo_panel_write_ready", write_ready, 0}, {"kangirlo_panel_write_ready, little room", write_ready, 0}},
	           {{"kangirlo_panel_write_ready_parts", write_ready_parts, 0},
	            {"kangirlo_panel_write_ready_parts, little room", write_ready_parts, 0}},
	           {{"kangirlo_panel_write_ready_direct", write_ready_direct, 0},
	            {"kangirlo_panel_write_ready_direct, little room", write_ready_direct, 0}}},
	[TOUCH] = {{{"kangirlo_panel_write_touch", write_touch, 0}, {"kangirlo_panel_write_touch, little room", write_touch, 0}},
	           {{"kangirlo_panel_write_touch_parts", write_touch_parts, 0},
	            {"kangirlo_panel_write_touch_parts, little room", write_touch_parts, 0}},
	           {{"kangirlo_panel_write_touch_direct", write_touch_direct, 0},
	            {"kangirlo_panel_write_touch_direct, little room", write_touch_direct, 0}}},
	[DISMISSAL] = {{{"kangirlo_panel_write_dismiss", write_dismiss, 0},
	                {"kangirlo_panel_write_dismiss, little room", write_dismiss, 0}},
	               {{"kangirlo_panel_write_dismiss_parts", write_dismiss_parts, 0},
	                {"kangirlo_panel_write_dismiss_parts, little room", write_dismiss_parts, 0}},
	               {{"kangirlo_panel_write_dismiss_direct", write_dismiss_direct, 0},
	                {"kangirlo_panel_write_dismiss_direct, little room", write_dismiss_direct, 0}}},
};

static void take_message(const uint8_t *message, size_t length)
{
	const struct kangirlo_panel before = lent.panel;

	lent.message = message;
	lent.length = length;
	for (size_t i = 0; i < WAYS; i++) {
		lent.panel = before;
		painted_measure(&taking[i]);
	}
}

static void measure_with(struct painted_call *call, const struct kangirlo_panel *before, size_t room)
{
	lent.panel = *before;
	lent.room = room;
	painted_measure(call);
}

/* The panel goes on from the last time, when the room was enough. */
static void write_message(struct painted_call (*ways)[ROOMS])
{
	const struct kangirlo_panel before = lent.panel;

	for (size_t i = 0; i < WAYS; i++) {
		size_t bytes;

		measure_with(&ways[i][ENOUGH], &before, sizeof lent.output);
		bytes = lent.written.bytes;
		if (bytes > 0)
			measure_with(&ways[i][LITTLE], &before, bytes - 1);
		measure_with(&ways[i][LITTLE], &before, bytes);
	}
}

/* A panel that may send. */
static void begin(void)
{
	static uint8_t server_ready[KANGIRLO_MESSAGE_MOST];
	size_t length = kangirlo_write_server_ready(server_ready, sizeof server_ready, VERSION).bytes;

	painted_measure(&fresh_call);
	take_message(server_ready, length);
	write_message(writing[READY]);
}

/* A message arrives; then what it holds is sent. A client of the bench files may do what a panel may not: then the panel begins anew. */
static void measure_message(const uint8_t *message, size_t length)
{
	take_message(message, length);
	lent.panel.suspended = 0;
	lent.records_length = kangirlo_plain(message, length, lent.records, sizeof lent.records).records * KANGIRLO_RECORD_BYTES;
	write_message(writing[TOUCH]);
	if (lent.written.refusal == KANGIRLO_ILLEGAL)
		begin();
	if (length == DISMISS_BYTES && message[0] == DISMISS) {
		lent.id = message[DISMISS_BYTES - 1];
		write_message(writing[DISMISSAL]);
	}
}

int main(int count, char **words)
{
	for (int i = 1; i < count; i++) {
		begin();
		bench_file_each(words[i], measure_message);
	}
	painted_print(&fresh_call, 1);
	painted_print(taking, WAYS);
	painted_print(writing[0][0], WRITERS * WAYS * ROOMS);
	return 0;
}
