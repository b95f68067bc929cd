#include "sender.h"

#include "expect.h"

#include <string.h>

static bool same_settings(const struct kangirlo_settings *one, const struct kangirlo_settings *other)
{
	return one->flags == other->flags && one->version == other->version && one->most == other->most;
}

static bool same_panel(const struct kangirlo_panel *one, const struct kangirlo_panel *other)
{
	return one->greeted == other->greeted && one->ready == other->ready && one->suspended == other->suspended
	       && one->begun == other->begun && same_settings(&one->settings, &other->settings)
	       && memcmp(one->states, other->states, sizeof one->states) == 0 && memcmp(one->xs, other->xs, sizeof one->xs) == 0
	       && memcmp(one->ys, other->ys, sizeof one->ys) == 0;
}

void sender_begin(struct sender *sender, uint8_t byte)
{
	sender->panel = sender->direct = kangirlo_panel_fresh();
	memset(sender->message, byte, sizeof sender->message);
	memset(sender->direct_message, byte, sizeof sender->direct_message);
}

bool sender_same(const struct sender *one, const struct sender *other)
{
	return same_panel(&one->panel, &other->panel) && memcmp(one->message, other->message, sizeof one->message) == 0;
}

static void expect_both_ways(const struct sender *sender)
{
	EXPECT(same_panel(&sender->direct, &sender->panel));
	EXPECT(memcmp(sender->direct_message, sender->message, sizeof sender->message) == 0);
}

static void expect_written(struct kangirlo_written direct, struct kangirlo_written written)
{
	EXPECT(direct.refusal == written.refusal && direct.bytes == written.bytes);
}

uint8_t sender_take(struct sender *sender, const uint8_t *message, size_t length)
{
	uint8_t refusal = kangirlo_panel_take(&sender->panel, message, length);

	EXPECT(kangirlo_panel_take_direct(&sender->direct, message, length) == refusal);
	expect_both_ways(sender);
	return refusal;
}

struct kangirlo_written sender_ready_in(struct sender *sender, size_t room, uint32_t flags, uint32_t version, uint16_t most)
{
	struct kangirlo_written written = kangirlo_panel_write_ready(&sender->panel, sender->message, room, flags, version, most);

	expect_written(kangirlo_panel_write_ready_direct(&sender->direct, sender->direct_message, room, flags, version, most), written);
	expect_both_ways(sender);
	return written;
}

struct kangirlo_written sender_touch_in(struct sender *sender, size_t room, uint32_t milliseconds, const struct batch *batch)
{
	struct kangirlo_milliseconds time = {milliseconds};
	struct kangirlo_written written =
		kangirlo_panel_write_touch(&sender->panel, sender->message, room, time, batch->bytes, batch->length);

	expect_written(kangirlo_panel_write_touch_direct(&sender->direct, sender->direct_message, room, time, batch->bytes, batch->length),
	               written);
	expect_both_ways(sender);
	return written;
}

struct kangirlo_written sender_dismiss_in(struct sender *sender, size_t room, uint8_t id)
{
	struct kangirlo_written written = kangirlo_panel_write_dismiss(&sender->panel, sender->message, room, id);

	expect_written(kangirlo_panel_write_dismiss_direct(&sender->direct, sender->direct_message, room, id), written);
	expect_both_ways(sender);
	return written;
}

struct kangirlo_written sender_ready(struct sender *sender, uint32_t flags, uint32_t version, uint16_t most)
{
	return sender_ready_in(sender, sizeof sender->message, flags, version, most);
}

struct kangirlo_written sender_touch(struct sender *sender, uint32_t milliseconds, const struct batch *batch)
{
	return sender_touch_in(sender, sizeof sender->message, milliseconds, batch);
}

struct kangirlo_written sender_dismiss(struct sender *sender, uint8_t id)
{
	return sender_dismiss_in(sender, sizeof sender->message, id);
}
