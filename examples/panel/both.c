/* A panel and a session host in one program, each with what it keeps, and nothing between them but messages. Every message of the panel
 * goes to the host's receiver, whose records must be, byte for byte, those that the panel was given; then the two ends must agree. The
 * panel makes each call both ways (sender.h), the host one or the other. Prints what it does, and ends with 'N passed, M failed'. */
#include "batch.h"
#include "expect.h"
#include "pack.h"
#include "sender.h"

#include <stdio.h>
#include <string.h>

enum { VERSION = 0x00010001, NO_TIMES = 2, FINGERS = 3, WALL = KANGIRLO_CONTACTS_MOST };

static struct sender sender, kept;
static struct kangirlo_receiver receiver;
static uint8_t from_host[KANGIRLO_MESSAGE_MOST];
static uint8_t output[KANGIRLO_OUTPUT_MOST];
static const struct batch nothing;

/* Of the panel's fields; and nothing is ignored, nor held for it. */
static bool ends_agree(void)
{
	static const uint8_t none_held[sizeof receiver.held];
	const struct kangirlo_panel *panel = &sender.panel;

	return receiver.ready == panel->ready && receiver.begun == panel->begun && receiver.ignoring == 0
	       && receiver.settings.flags == panel->settings.flags && receiver.settings.version == panel->settings.version
	       && receiver.settings.most == panel->settings.most && memcmp(receiver.states, panel->states, sizeof panel->states) == 0
	       && memcmp(receiver.xs, panel->xs, sizeof panel->xs) == 0 && memcmp(receiver.ys, panel->ys, sizeof panel->ys) == 0
	       && memcmp(receiver.held, none_held, sizeof none_held) == 0;
}

/* What the host wrote arrives at the panel. */
static void host_sends(const char *what, struct kangirlo_written written)
{
	printf("host:  %s\n", what);
	EXPECT(written.refusal == KANGIRLO_TAKEN);
	EXPECT(sender_take(&sender, from_host, written.bytes) == KANGIRLO_TAKEN);
	EXPECT(ends_agree());
	kept = sender;
}

/* What the panel wrote arrives at the host, which takes every other message by the direct call. */
static void panel_sends(const char *what, struct kangirlo_written written, const struct batch *expected)
{
	static bool direct;
	struct kangirlo_answer answer = (direct ? kangirlo_receive_direct : kangirlo_receive)(&receiver, sender.message, written.bytes,
	                                                                                      output, sizeof output);

	printf("panel: %s, %zu bytes; the host has %zu records of it\n", what, written.bytes, answer.records);
	EXPECT(written.refusal == KANGIRLO_TAKEN);
	EXPECT(answer.refusal == KANGIRLO_TAKEN && answer.ignored == 0 && answer.cancelled == 0);
	EXPECT(answer.records * KANGIRLO_RECORD_BYTES == expected->length);
	EXPECT(memcmp(output, expected->bytes, expected->length) == 0);
	EXPECT(ends_agree());
	kept = sender;
	direct = !direct;
}

/* What the panel would not write: nothing has changed. */
static void panel_refuses(const char *what, struct kangirlo_written written, enum kangirlo_refusal refusal)
{
	printf("panel: %s: refused by %d\n", what, written.refusal);
	EXPECT(written.refusal == refusal && written.bytes == 0);
	EXPECT(sender_same(&sender, &kept));
	EXPECT(ends_agree());
}

static void open_connection(uint32_t flags, uint16_t fingers)
{
	sender_begin(&sender, 0);
	kept = sender;
	receiver = kangirlo_fresh();
	panel_refuses("client ready before server ready", sender_ready(&sender, flags, VERSION, fingers), KANGIRLO_NOT_READY);
	host_sends("server ready", kangirlo_write_server_ready(from_host, sizeof from_host, VERSION));
	panel_refuses("touch before client ready", sender_touch(&sender, 0, &nothing), KANGIRLO_NOT_READY);
	panel_sends("client ready", sender_ready(&sender, flags, VERSION, fingers), &nothing);
}

static void offset_too_early(void)
{
	struct batch batch = {0};

	batch_head(&batch, 1, 8333);
	batch_contact(&batch, DOWN, 1, 100, 50);
	panel_refuses("a first frame with an offset", sender_touch(&sender, 4, &batch), KANGIRLO_BAD_OFFSET);
}

static void two_fingers_down(void)
{
	struct batch batch = {0};

	batch_head(&batch, 2, 0);
	batch_contact(&batch, DOWN, 1, 100, 50);
	batch_record(&batch, (struct kangirlo_record){.kind = KANGIRLO_CONTACT, .flags = DOWN, .present = 7, .id = 2, .x = -300, .y = 4000,
	                                              .left = -5, .top = 70, .right = 5, .bottom = -70, .orientation = 300,
	                                              .pressure = 40000});
	panel_sends("two fingers down", sender_touch(&sender, 4, &batch), &batch);
}

static void moved_in_two_frames(void)
{
	struct batch batch = {0};

	batch_head(&batch, 2, 8333);
	batch_contact(&batch, MOVE, 1, 110, 55);
	batch_contact(&batch, MOVE, 2, -290, 3990);
	batch_head(&batch, 1, 8334);
	batch_contact(&batch, MOVE, 2, -280, 3980);
	panel_sends("both moved, one once more", sender_touch(&sender, 5, &batch), &batch);
}

static void lifted_and_hovering(void)
{
	struct batch batch = {0};

	batch_head(&batch, 1, 8333);
	batch_contact(&batch, LIFT, 2, -280, 3980);
	panel_sends("one lifted", sender_touch(&sender, 4, &batch), &batch);
	batch.length = 0;
	batch_head(&batch, 2, 8333);
	batch_contact(&batch, LIFT_TO_HOVER, 1, 110, 55);
	batch_contact(&batch, HOVER, 7, 20, 30);
	panel_sends("the other lifted to hover, a third hovers", sender_touch(&sender, 4, &batch), &batch);
}

/* Each would have been cancelled by the host, and with it every finger. */
static void illegal(void)
{
	struct batch batch = {0};

	batch_head(&batch, 1, 8333);
	batch_contact(&batch, MOVE, 2, 0, 0);
	panel_refuses("a finger that is not there moves", sender_touch(&sender, 4, &batch), KANGIRLO_ILLEGAL);
	batch.length = 0;
	batch_head(&batch, 1, 8333);
	batch_contact(&batch, DOWN, 1, 110, 55);
	batch_head(&batch, 1, 8333);
	batch_contact(&batch, LIFT, 1, 111, 55);
	panel_refuses("a good frame, and a lift away from where the finger is", sender_touch(&sender, 4, &batch), KANGIRLO_ILLEGAL);
	batch.length = 0;
	batch_head(&batch, 2, 8333);
	batch_contact(&batch, DOWN, 8, 0, 0);
	batch_contact(&batch, DOWN, 9, 0, 0);
	panel_refuses("more fingers than its client ready said", sender_touch(&sender, 4, &batch), KANGIRLO_ILLEGAL);
	panel_refuses("a dismissal of a finger that is not there", sender_dismiss(&sender, 2), KANGIRLO_ILLEGAL);
}

static void suspended_and_resumed(void)
{
	struct batch batch = {0}, dismissal = {0};

	host_sends("suspend", kangirlo_write_suspend(from_host, sizeof from_host));
	host_sends("suspend once more", kangirlo_write_suspend(from_host, sizeof from_host));
	batch_head(&batch, 1, 8333);
	batch_contact(&batch, DOWN, 1, 120, 60);
	panel_refuses("a finger down while suspended", sender_touch(&sender, 4, &batch), KANGIRLO_SUSPENDED);
	batch_record(&dismissal, (struct kangirlo_record){.kind = KANGIRLO_DISMISSAL, .flags = LEAVE, .id = 7, .x = 20, .y = 30});
	panel_sends("a dismissal while suspended", sender_dismiss(&sender, 7), &dismissal);
	panel_refuses("the same dismissal again", sender_dismiss(&sender, 7), KANGIRLO_ILLEGAL);
	host_sends("resume", kangirlo_write_resume(from_host, sizeof from_host));
	panel_sends("the finger that was refused, down", sender_touch(&sender, 4, &batch), &batch);
}

static void all_leave(void)
{
	struct batch batch = {0};

	batch_head(&batch, 1, 8333);
	batch_contact(&batch, LIFT_TO_HOVER, 1, 120, 60);
	batch_head(&batch, 1, 8333);
	batch_contact(&batch, LEAVE, 1, 130, 70);
	batch_head(&batch, 0, 8333);
	panel_sends("the finger lifted and gone, and an empty frame", sender_touch(&sender, 20, &batch), &batch);
	panel_sends("a message of no frames", sender_touch(&sender, 20, &nothing), &nothing);
}

/* With ready flag 2 the host writes every offset as 0, and the first need not be. */
static void offset_at_once(void)
{
	struct batch batch = {0}, expected = {0};

	batch_head(&batch, 1, 8333);
	batch_contact(&batch, DOWN, 1, 100, 50);
	batch_head(&expected, 1, 0);
	batch_contact(&expected, DOWN, 1, 100, 50);
	panel_sends("a first frame with an offset", sender_touch(&sender, 4, &batch), &expected);
}

/* A wall panel: as many fingers in a frame as one may have, and two frames of them in a message. */
static void fingers_of_a_wall(void)
{
	static const enum batch_flags steps[] = {DOWN, MOVE, LIFT};
	struct batch batch = {0};

	for (size_t step = 0; step < sizeof steps / sizeof *steps; step++) {
		batch_head(&batch, WALL, step == 0 ? 0 : 8333);
		for (unsigned i = 0; i < WALL; i++)
			batch_contact(&batch, steps[step], (uint8_t)i, 20 * (int32_t)i + (step > 0), 500);
		if (step == 1)
			continue;
		panel_sends(step == 0 ? "256 fingers down" : "256 fingers moved and lifted", sender_touch(&sender, 4, &batch), &batch);
		batch.length = 0;
	}
}

/* A head is packed up to the greatest count, and read as it was. */
static void heads_packed_and_read(void)
{
	static const uint16_t counts[] = {0, 63, 64, 127, 128, 255, KANGIRLO_CONTACTS_MOST};
	uint8_t bytes[KANGIRLO_RECORD_BYTES];
	struct kangirlo_record read;

	for (size_t i = 0; i < sizeof counts / sizeof *counts; i++) {
		EXPECT(pack(&(struct kangirlo_record){.kind = KANGIRLO_HEAD, .count = counts[i], .offset = {0x1FFFFFFFFFFFFFFE}}, bytes));
		read = kangirlo_read_record(bytes, sizeof bytes);
		EXPECT(read.refusal == KANGIRLO_TAKEN && read.kind == KANGIRLO_HEAD && read.count == counts[i]);
		EXPECT(read.offset.value == 0x1FFFFFFFFFFFFFFE);
	}
	EXPECT(!pack(&(struct kangirlo_record){.kind = KANGIRLO_HEAD, .count = KANGIRLO_CONTACTS_MOST + 1}, bytes));
	EXPECT(kangirlo_read_record(bytes, sizeof bytes).count == KANGIRLO_CONTACTS_MOST);
}

/* What is packed here, the library reads as it was; and what does not fit is not packed. */
static void packed_and_read(void)
{
	struct kangirlo_record contact = {.kind = KANGIRLO_CONTACT, .flags = MOVE, .present = 7, .id = 255, .x = -0x1FFFFFFF, .y = 0x1FFFFFFF,
	                                  .left = -0x3FFF, .top = 0x3FFF, .right = 1, .bottom = -1, .orientation = 359, .pressure = 65000};
	uint8_t bytes[KANGIRLO_RECORD_BYTES];
	struct kangirlo_record read;

	EXPECT(pack(&contact, bytes));
	read = kangirlo_read_record(bytes, sizeof bytes);
	EXPECT(read.refusal == KANGIRLO_TAKEN && read.kind == KANGIRLO_CONTACT && read.flags == MOVE && read.present == 7 && read.id == 255);
	EXPECT(read.x == contact.x && read.y == contact.y && read.left == contact.left && read.top == contact.top);
	EXPECT(read.right == 1 && read.bottom == -1 && read.orientation == 359 && read.pressure == 65000);
	contact.x = 0x20000000;
	EXPECT(!pack(&contact, bytes));
	EXPECT(kangirlo_read_record(bytes, sizeof bytes).x == -0x1FFFFFFF);
}

int main(void)
{
	packed_and_read();
	heads_packed_and_read();
	open_connection(0, FINGERS);
	offset_too_early();
	two_fingers_down();
	moved_in_two_frames();
	lifted_and_hovering();
	illegal();
	suspended_and_resumed();
	all_leave();
	puts("a second connection, with ready flag 2");
	open_connection(NO_TIMES, FINGERS);
	offset_at_once();
	puts("a third connection, of a wall panel");
	open_connection(0, WALL);
	fingers_of_a_wall();
	return expect_end();
}
