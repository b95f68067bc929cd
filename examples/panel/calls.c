/* Every call of a panel from C, with each refusal that it can give; where several could be given, with the first of them. After a refusal
 * the panel and the output are looked at: nothing may have changed. Each call is made both ways (sender.h), and for a panel in
 * parts. What the calls do is proved; this is for the boundary. Ends with 'N passed, M failed'. */
#include "apart.h"
#include "batch.h"
#include "expect.h"
#include "head.h"
#include "sender.h"

#include <string.h>

enum { VERSION = 0x00010001, NO_TIMES = 2, FRAMES_MOST = 64, UNTOUCHED = 0xA5 };
enum { TIME_MOST = 0x3FFFFFFF, ALL_CONTACTS = 256, OVER = KANGIRLO_CONTACTS_MOST + 1 };

static const uint8_t server_ready[] = {1, 0, 10, 0, 0, 0, 1, 0, 1, 0};
static const uint8_t suspend[] = {4, 0, 6, 0, 0, 0}, resume[] = {5, 0, 6, 0, 0, 0};

static struct sender sender, kept;

/* A fresh panel and an output that nothing has written to. */
static void begin(void)
{
	sender_begin(&sender, UNTOUCHED);
	kept = sender;
}

static int takes(const uint8_t *message, size_t length)
{
	int taken = sender_take(&sender, message, length) == KANGIRLO_TAKEN;

	kept = sender;
	return taken;
}

static int rejects(const uint8_t *message, size_t length, enum kangirlo_refusal refusal)
{
	return sender_take(&sender, message, length) == refusal && sender_same(&sender, &kept);
}

/* Written: these bytes, and nothing past them touched. */
static int wrote(struct kangirlo_written written, const uint8_t *bytes, size_t count)
{
	int same = written.refusal == KANGIRLO_TAKEN && written.bytes == count && memcmp(sender.message, bytes, count) == 0
	           && memcmp(sender.message + count, kept.message + count, sizeof kept.message - count) == 0;

	kept = sender;
	return same;
}

static int refused(struct kangirlo_written written, enum kangirlo_refusal refusal)
{
	return written.refusal == refusal && written.bytes == 0 && sender_same(&sender, &kept);
}

/* A panel that has taken server ready and written client ready. */
static void begin_ready(uint32_t flags)
{
	begin();
	EXPECT(takes(server_ready, sizeof server_ready));
	EXPECT(sender_ready(&sender, flags, VERSION, ALL_CONTACTS).refusal == KANGIRLO_TAKEN);
	kept = sender;
}

static void test_fresh(void)
{
	static const struct sender zeros;

	sender_begin(&sender, 0);
	EXPECT(sender_same(&sender, &zeros));
}

static void test_take_at_first(void)
{
	static const uint8_t other_length[] = {1, 0, 11, 0, 0, 0, 1, 0, 1, 0}, other_version[] = {1, 0, 10, 0, 0, 0, 2, 0, 1, 0};
	static const uint8_t cut[] = {1, 0, 9, 0, 0, 0, 1, 0, 1}, longer[] = {1, 0, 11, 0, 0, 0, 1, 0, 1, 0, 0};
	static const uint8_t too_long[KANGIRLO_MESSAGE_MOST + 1];

	begin();
	EXPECT(rejects(server_ready, 0, KANGIRLO_SHORT));
	EXPECT(rejects(server_ready, 5, KANGIRLO_SHORT));
	EXPECT(rejects(too_long, sizeof too_long, KANGIRLO_TOO_LONG));
	EXPECT(rejects(suspend, sizeof suspend, KANGIRLO_UNEXPECTED));
	EXPECT(rejects(resume, sizeof resume, KANGIRLO_UNEXPECTED));
	EXPECT(rejects(other_length, sizeof other_length, KANGIRLO_BAD_LENGTH));
	EXPECT(rejects(cut, sizeof cut, KANGIRLO_TRUNCATED));
	EXPECT(rejects(other_version, sizeof other_version, KANGIRLO_BAD_FIELD));
	EXPECT(rejects(longer, sizeof longer, KANGIRLO_TRAILING));
	EXPECT(takes(server_ready, sizeof server_ready));
	EXPECT(sender.panel.greeted == 1 && sender.panel.ready == 0 && sender.panel.suspended == 0 && sender.panel.begun == 0);
}

static void test_take_afterwards(void)
{
	static const uint8_t other_length[] = {4, 0, 7, 0, 0, 0}, longer[] = {5, 0, 7, 0, 0, 0, 0};

	EXPECT(rejects(server_ready, sizeof server_ready, KANGIRLO_UNEXPECTED));
	EXPECT(rejects(other_length, sizeof other_length, KANGIRLO_BAD_LENGTH));
	EXPECT(rejects(longer, sizeof longer, KANGIRLO_TRAILING));
	EXPECT(takes(suspend, sizeof suspend) && sender.panel.suspended == 1 && sender.panel.greeted == 1);
	EXPECT(rejects(suspend, sizeof suspend, KANGIRLO_TAKEN));
	EXPECT(takes(resume, sizeof resume) && sender.panel.suspended == 0 && sender.panel.greeted == 1);
	EXPECT(rejects(resume, sizeof resume, KANGIRLO_TAKEN));
}

static void test_ready(void)
{
	static const uint8_t client_ready[] = {2, 0, 16, 0, 0, 0, 3, 0, 0, 0, 0, 0, 1, 0, 0x34, 0x12};

	begin();
	EXPECT(refused(sender_ready_in(&sender, 0, 4, 0, 10), KANGIRLO_NOT_READY));
	EXPECT(takes(server_ready, sizeof server_ready));
	EXPECT(takes(suspend, sizeof suspend));
	EXPECT(refused(sender_ready_in(&sender, 0, 4, VERSION, 10), KANGIRLO_BAD_FIELD));
	EXPECT(refused(sender_ready_in(&sender, 0, 0, VERSION + 1, 10), KANGIRLO_BAD_FIELD));
	EXPECT(refused(sender_ready_in(&sender, 15, 0, VERSION, 10), KANGIRLO_NO_ROOM));
	EXPECT(wrote(sender_ready_in(&sender, 16, 3, 0x00010000, 0x1234), client_ready, sizeof client_ready));
	EXPECT(sender.panel.ready == 1 && sender.panel.suspended == 1 && sender.panel.begun == 0);
	EXPECT(sender.panel.settings.flags == 3 && sender.panel.settings.version == 0x00010000 && sender.panel.settings.most == 0x1234);
	EXPECT(refused(sender_ready(&sender, 0, VERSION, 10), KANGIRLO_NOT_READY));
}

/* So many empty frames, of which the last may have a contact that moves without having come. */
static struct batch frames(unsigned count, uint64_t first_offset, bool stray_at_end)
{
	struct batch batch = {0};

	for (unsigned i = 0; i < count; i++)
		batch_head(&batch, stray_at_end && i == count - 1, i == 0 ? first_offset : 0);
	if (stray_at_end)
		batch_contact(&batch, MOVE, 1, 0, 0);
	return batch;
}

/* Hovering contacts with every field, 24 bytes each in a message: a frame of 256 is over 4,096 bytes. */
static struct batch crowd(void)
{
	struct batch batch = {0};
	struct kangirlo_record contact = {.kind = KANGIRLO_CONTACT, .flags = HOVER, .present = 7, .x = 0x1FFFFFFF, .y = -0x1FFFFFFF,
	                                  .left = -0x3FFF, .top = 0x3FFF, .right = 0x3FFF, .bottom = -0x3FFF, .orientation = 359,
	                                  .pressure = 65000};

	batch_head(&batch, KANGIRLO_CONTACTS_MOST, 0);
	for (unsigned i = 0; i < KANGIRLO_CONTACTS_MOST; i++) {
		contact.id = (uint8_t)i;
		batch_record(&batch, contact);
	}
	return batch;
}

/* Each refusal, with as many of those that come after it as can be had. */
static void test_touch_refusals(void)
{
	struct batch stray = frames(FRAMES_MOST + 1, 5, true), late = frames(FRAMES_MOST + 1, 5, false);
	struct batch many = frames(FRAMES_MOST + 1, 0, false), broken = stray, wide = crowd(), one = frames(1, 0, false);

	broken.length--;
	begin();
	EXPECT(takes(server_ready, sizeof server_ready));
	EXPECT(takes(suspend, sizeof suspend));
	EXPECT(refused(sender_touch(&sender, TIME_MOST + 1, &broken), KANGIRLO_BAD_RANGE));
	EXPECT(refused(sender_touch(&sender, TIME_MOST, &broken), KANGIRLO_BAD_RECORD));
	EXPECT(refused(sender_touch(&sender, TIME_MOST, &stray), KANGIRLO_NOT_READY));
	EXPECT(sender_ready(&sender, 0, VERSION, ALL_CONTACTS).refusal == KANGIRLO_TAKEN);
	kept = sender;
	EXPECT(refused(sender_touch(&sender, TIME_MOST, &stray), KANGIRLO_SUSPENDED));
	EXPECT(takes(resume, sizeof resume));
	EXPECT(refused(sender_touch(&sender, TIME_MOST, &stray), KANGIRLO_ILLEGAL));
	EXPECT(refused(sender_touch(&sender, TIME_MOST, &late), KANGIRLO_BAD_OFFSET));
	EXPECT(refused(sender_touch(&sender, TIME_MOST, &many), KANGIRLO_BAD_COUNT));
	EXPECT(refused(sender_touch_in(&sender, 0, 0, &wide), KANGIRLO_TOO_LONG));
	EXPECT(refused(sender_touch_in(&sender, 9, 0, &one), KANGIRLO_NO_ROOM));
}

/* A record that is not well formed: flags that are not listed, and a dismissal. */
static void test_touch_records(void)
{
	struct batch batch = {0};

	begin_ready(0);
	batch_head(&batch, 1, 0);
	batch_contact(&batch, LIFT | HOVER, 1, 0, 0);
	EXPECT(refused(sender_touch(&sender, 0, &batch), KANGIRLO_BAD_RECORD));
	batch.length = KANGIRLO_RECORD_BYTES;
	batch_record(&batch, (struct kangirlo_record){.kind = KANGIRLO_DISMISSAL, .flags = LEAVE, .id = 1});
	EXPECT(refused(sender_touch(&sender, 0, &batch), KANGIRLO_BAD_RECORD));
}

static void test_touch(void)
{
	static const uint8_t down[] = {3, 0, 17, 0, 0, 0, 0, 1, 1, 0, 1, 0, 0x40, 0x64, 0x40, 0x32, 0x19};
	static const uint8_t none[] = {3, 0, 8, 0, 0, 0, 9, 0};
	struct batch batch = {0};

	begin_ready(0);
	EXPECT(wrote(sender_touch(&sender, 9, &batch), none, sizeof none) && sender.panel.begun == 0);
	batch_head(&batch, 1, 0);
	batch_contact(&batch, DOWN, 1, 100, 50);
	EXPECT(refused(sender_touch_in(&sender, 16, 0, &batch), KANGIRLO_NO_ROOM));
	EXPECT(wrote(sender_touch_in(&sender, 17, 0, &batch), down, sizeof down));
	EXPECT(sender.panel.begun == 1 && sender.panel.states[1] == 2 && sender.panel.xs[1] == 100 && sender.panel.ys[1] == 50);
	EXPECT(refused(sender_touch(&sender, 0, &batch), KANGIRLO_ILLEGAL));
}

/* A frame of so many contacts, in five bytes of a message each: contact i at i modulo 32, i / 32. */
static struct batch wall(unsigned count, enum batch_flags flags)
{
	struct batch batch = {0};

	batch_head(&batch, (uint16_t)count, 0);
	for (unsigned i = 0; i < count; i++)
		batch_contact(&batch, flags, (uint8_t)i, (int32_t)i % 32, (int32_t)i / 32);
	return batch;
}

/* Writes it, and looks at how long the message is and what it says of the count, in one byte or two. */
static int writes_wall(unsigned count, enum batch_flags flags)
{
	const struct batch batch = wall(count, flags);
	const struct kangirlo_written written = sender_touch(&sender, 0, &batch);
	const uint8_t one[] = {(uint8_t)count}, two[] = {(uint8_t)(0x80 | count >> 8), (uint8_t)count};
	const size_t bytes = count > 127 ? sizeof two : sizeof one;

	kept = sender;
	return written.refusal == KANGIRLO_TAKEN && written.bytes == 9 + bytes + 5 * count
	       && memcmp(sender.message + 8, count > 127 ? two : one, bytes) == 0;
}

/* Whether the first contacts are in this state where a wall has them, and the others out. */
static int has_contacts(unsigned count, uint8_t state)
{
	const struct kangirlo_panel *panel = &sender.panel;

	for (unsigned i = 0; i < ALL_CONTACTS; i++) {
		const int in = i < count;

		if (panel->states[i] != (in ? state : 0) || panel->xs[i] != (in ? (int)i % 32 : 0) || panel->ys[i] != (in ? (int)i / 32 : 0))
			return 0;
	}
	return 1;
}

/* Counts at both sides of what the low bits of a head's count hold, and one byte of a message's, up to the greatest. */
static void test_wall(void)
{
	static const unsigned counts[] = {63, 64, 127, 128, 255, KANGIRLO_CONTACTS_MOST};

	for (size_t i = 0; i < sizeof counts / sizeof *counts; i++) {
		begin_ready(0);
		EXPECT(writes_wall(counts[i], DOWN) && has_contacts(counts[i], 2));
		EXPECT(writes_wall(counts[i], MOVE) && has_contacts(counts[i], 2));
		EXPECT(writes_wall(counts[i], LIFT_TO_HOVER) && has_contacts(counts[i], 1));
		EXPECT(writes_wall(counts[i], LEAVE) && has_contacts(0, 0));
	}
}

/* What is wrong with large frames: more contacts than the head says or than a frame may have, an id in its first and last contact, more
 * contacts than are declared; and 7 is of frames, however many contacts they have. */
static void test_wall_refused(void)
{
	struct batch over = wall(KANGIRLO_CONTACTS_MOST, HOVER), twice = over, many = over;

	batch_contact(&over, HOVER, 0, 0, 0);
	begin();
	EXPECT(refused(sender_touch(&sender, 0, &over), KANGIRLO_BAD_RECORD));
	head_put(over.bytes, OVER, 0);
	EXPECT(refused(sender_touch(&sender, 0, &over), KANGIRLO_BAD_RECORD));
	head_put(over.bytes, 511, 0);
	EXPECT(refused(sender_touch(&sender, 0, &over), KANGIRLO_BAD_RECORD));
	begin_ready(0);
	twice.length -= KANGIRLO_RECORD_BYTES;
	batch_contact(&twice, HOVER, 0, 0, 0);
	EXPECT(refused(sender_touch(&sender, 0, &twice), KANGIRLO_ILLEGAL));
	for (unsigned i = 0; i < FRAMES_MOST; i++)
		batch_head(&many, 0, 0);
	EXPECT(refused(sender_touch(&sender, 0, &many), KANGIRLO_BAD_COUNT));
	many.length -= KANGIRLO_RECORD_BYTES;
	EXPECT(sender_touch(&sender, 0, &many).refusal == KANGIRLO_TAKEN && has_contacts(KANGIRLO_CONTACTS_MOST, 1));
	begin();
	EXPECT(takes(server_ready, sizeof server_ready));
	EXPECT(sender_ready(&sender, 0, VERSION, ALL_CONTACTS - 1).refusal == KANGIRLO_TAKEN);
	kept = sender;
	many = wall(KANGIRLO_CONTACTS_MOST, DOWN);
	EXPECT(refused(sender_touch(&sender, 0, &many), KANGIRLO_ILLEGAL));
	EXPECT(writes_wall(KANGIRLO_CONTACTS_MOST - 1, DOWN));
}

/* 11 is of the first frame, and of none with ready flag 2. */
static void test_first_offset(void)
{
	struct batch late = frames(1, 5, false), first = frames(1, 0, false);

	begin_ready(0);
	EXPECT(refused(sender_touch(&sender, 0, &late), KANGIRLO_BAD_OFFSET));
	EXPECT(sender_touch(&sender, 0, &first).refusal == KANGIRLO_TAKEN && sender_touch(&sender, 0, &late).refusal == KANGIRLO_TAKEN);
	begin_ready(NO_TIMES);
	EXPECT(sender_touch(&sender, 0, &late).refusal == KANGIRLO_TAKEN && sender.panel.begun == 1);
}

static void test_dismiss(void)
{
	static const uint8_t message[] = {6, 0, 7, 0, 0, 0, 200};
	struct batch batch = {0};

	begin();
	EXPECT(refused(sender_dismiss_in(&sender, 0, 200), KANGIRLO_NOT_READY));
	begin_ready(0);
	batch_head(&batch, 2, 0);
	batch_contact(&batch, DOWN, 1, 100, 50);
	batch_contact(&batch, HOVER, 200, -7, 8);
	EXPECT(sender_touch(&sender, 0, &batch).refusal == KANGIRLO_TAKEN && sender.panel.xs[200] == -7);
	EXPECT(takes(suspend, sizeof suspend));
	EXPECT(refused(sender_dismiss_in(&sender, 0, 1), KANGIRLO_ILLEGAL));
	EXPECT(refused(sender_dismiss(&sender, 2), KANGIRLO_ILLEGAL));
	EXPECT(refused(sender_dismiss_in(&sender, 6, 200), KANGIRLO_NO_ROOM));
	EXPECT(wrote(sender_dismiss_in(&sender, 7, 200), message, sizeof message));
	EXPECT(sender.panel.states[200] == 0 && sender.panel.xs[200] == 0 && sender.panel.ys[200] == 0 && sender.panel.states[1] == 2);
	EXPECT(refused(sender_dismiss(&sender, 200), KANGIRLO_ILLEGAL));
}

/* The contacts of a panel in parts, and what they have to be; and an output, likewise. */
static struct apart parts, kept_parts;
static uint8_t output[KANGIRLO_MESSAGE_MOST], kept_output[KANGIRLO_MESSAGE_MOST];

/* Marks that are all different, to see each arrive and come back. */
static const struct kangirlo_panel_marks odd = {3, 5, 7, 9, {0x01020304, 0x05060708, 0x090A}};

/* Contact 7 hovers, and nothing is written. */
static void lay_out(void)
{
	memset(&kept_parts, 0, sizeof kept_parts);
	apart_put(&kept_parts, 7, 1, -9, 11);
	parts = kept_parts;
	memset(kept_output, UNTOUCHED, sizeof kept_output);
	memcpy(output, kept_output, sizeof output);
}

static int same_marks(struct kangirlo_panel_marks a, struct kangirlo_panel_marks b)
{
	return a.greeted == b.greeted && a.ready == b.ready && a.suspended == b.suspended && a.begun == b.begun
	       && a.settings.flags == b.settings.flags && a.settings.version == b.settings.version && a.settings.most == b.settings.most;
}

/* These marks and this answer, and the contacts and the output that are kept. */
static int said(struct kangirlo_panel_said s, struct kangirlo_panel_marks marks, int refusal, size_t bytes)
{
	return same_marks(s.marks, marks) && s.written.refusal == refusal && s.written.bytes == bytes
	       && memcmp(&parts, &kept_parts, sizeof parts) == 0 && memcmp(output, kept_output, sizeof output) == 0;
}

static int heard(struct kangirlo_panel_heard h, struct kangirlo_panel_marks marks, int refusal)
{
	return same_marks(h.marks, marks) && h.refusal == refusal;
}

static void test_marks(void)
{
	struct kangirlo_panel p = kangirlo_panel_fresh();

	kangirlo_panel_keep_marks(&p, odd);
	EXPECT(p.greeted == 3 && p.ready == 5 && p.suspended == 7 && p.begun == 9 && p.settings.flags == 0x01020304);
	EXPECT(p.settings.version == 0x05060708 && p.settings.most == 0x090A && same_marks(kangirlo_panel_marks_of(&p), odd));
}

static void test_parts_taken(void)
{
	const struct kangirlo_panel_marks fresh = {0}, greeted = {.greeted = 1};
	struct kangirlo_panel_marks resumed = odd, suspended = odd;

	resumed.suspended = 0;
	suspended.suspended = 1;
	EXPECT(heard(kangirlo_panel_take_parts(odd, server_ready, sizeof server_ready), odd, KANGIRLO_UNEXPECTED));
	EXPECT(heard(kangirlo_panel_take_parts(fresh, server_ready, 5), fresh, KANGIRLO_SHORT));
	EXPECT(heard(kangirlo_panel_take_parts(fresh, server_ready, sizeof server_ready), greeted, KANGIRLO_TAKEN));
	EXPECT(heard(kangirlo_panel_take_parts(odd, resume, sizeof resume), resumed, KANGIRLO_TAKEN));
	EXPECT(heard(kangirlo_panel_take_parts(resumed, suspend, sizeof suspend), suspended, KANGIRLO_TAKEN));
}

static void test_parts_ready(void)
{
	static const uint8_t client_ready[] = {2, 0, 16, 0, 0, 0, 3, 0, 0, 0, 0, 0, 1, 0, 0x34, 0x12};
	const struct kangirlo_panel_marks greeted = {.greeted = 1, .suspended = 1}, ready = {1, 1, 1, 0, {3, 0x00010000, 0x1234}};

	lay_out();
	EXPECT(said(kangirlo_panel_write_ready_parts(odd, output, sizeof output, 3, VERSION, 10), odd, KANGIRLO_NOT_READY, 0));
	EXPECT(said(kangirlo_panel_write_ready_parts(greeted, output, 15, 3, 0x00010000, 0x1234), greeted, KANGIRLO_NO_ROOM, 0));
	memcpy(kept_output, client_ready, sizeof client_ready);
	EXPECT(said(kangirlo_panel_write_ready_parts(greeted, output, 16, 3, 0x00010000, 0x1234), ready, KANGIRLO_TAKEN, 16));
}

static struct kangirlo_panel_said touch_parts(struct kangirlo_panel_marks marks, size_t room, const struct batch *batch)
{
	struct kangirlo_milliseconds time = {9};

	return kangirlo_panel_write_touch_parts(marks, output, room, time, batch->bytes, batch->length, parts.states, parts.xs, parts.ys);
}

/* A finger down, alone and before a frame that is illegal. */
static void test_parts_touch(void)
{
	static const uint8_t down[] = {3, 0, 17, 0, 0, 0, 9, 1, 1, 0, 1, 0, 0x40, 0x64, 0x40, 0x32, 0x19};
	const struct kangirlo_panel_marks ready = {1, 1, 0, 0, {1, 0x00010000, 0x1234}}, begun = {1, 1, 0, 1, ready.settings};
	struct batch batch = {0}, stray;

	batch_head(&batch, 1, 0);
	batch_contact(&batch, DOWN, 1, 100, 50);
	stray = batch;
	batch_head(&stray, 1, 0);
	batch_contact(&stray, LIFT, 1, 101, 50);
	lay_out();
	EXPECT(said(touch_parts(odd, sizeof output, &batch), odd, KANGIRLO_SUSPENDED, 0));
	EXPECT(said(touch_parts(ready, sizeof output, &stray), ready, KANGIRLO_ILLEGAL, 0));
	EXPECT(said(touch_parts(ready, 16, &batch), ready, KANGIRLO_NO_ROOM, 0));
	apart_put(&kept_parts, 1, 2, 100, 50);
	memcpy(kept_output, down, sizeof down);
	EXPECT(said(touch_parts(ready, 17, &batch), begun, KANGIRLO_TAKEN, 17));
}

static struct kangirlo_panel_said dismiss_parts(struct kangirlo_panel_marks marks, size_t room, uint8_t id)
{
	return kangirlo_panel_write_dismiss_parts(marks, output, room, id, parts.states, parts.xs, parts.ys);
}

static void test_parts_dismiss(void)
{
	static const uint8_t message[] = {6, 0, 7, 0, 0, 0, 7};

	lay_out();
	EXPECT(said(dismiss_parts(odd, sizeof output, 8), odd, KANGIRLO_ILLEGAL, 0));
	EXPECT(said(dismiss_parts(odd, 6, 7), odd, KANGIRLO_NO_ROOM, 0));
	apart_put(&kept_parts, 7, 0, 0, 0);
	memcpy(kept_output, message, sizeof message);
	EXPECT(said(dismiss_parts(odd, 7, 7), odd, KANGIRLO_TAKEN, 7));
}

int main(void)
{
	test_fresh();
	test_take_at_first();
	test_take_afterwards();
	test_ready();
	test_touch_refusals();
	test_touch_records();
	test_touch();
	test_wall();
	test_wall_refused();
	test_first_offset();
	test_dismiss();
	test_marks();
	test_parts_taken();
	test_parts_ready();
	test_parts_touch();
	test_parts_dismiss();
	return expect_end();
}
