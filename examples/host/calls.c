/* Every call of the header once more from C: that arguments, answers and fields arrive where the header says they are. What the calls do is
 * proved; this is for the boundary. Ends with 'N passed, M failed'. */
#include "apart.h"
#include "expect.h"
#include "head.h"
#include "kangirlo.h"

#include <string.h>

/* The four messages of document 01's example, and the last once more, of contact 2. */
static const uint8_t ready[] = {2, 0, 16, 0, 0, 0, 0, 0, 0, 0, 1, 0, 1, 0, 10, 0};
static const uint8_t down[] = {3, 0, 17, 0, 0, 0, 0, 1, 1, 0, 1, 0, 0x40, 0x64, 0x40, 0x32, 0x19};
static const uint8_t up[] = {3, 0, 17, 0, 0, 0, 0, 1, 1, 0, 1, 0, 0x40, 0x64, 0x40, 0x32, 0x04};
static const uint8_t update[] = {3, 0, 17, 0, 0, 0, 0, 1, 1, 0, 1, 0, 0x40, 0x64, 0x40, 0x32, 0x1A};
static const uint8_t other[] = {3, 0, 17, 0, 0, 0, 0, 1, 1, 0, 2, 0, 0x40, 0x64, 0x40, 0x32, 0x1A};

/* At 70 ms, 40 us after the frame before: contact 3 hovers at -50, 900, with sides -5, 70, 5, -70, orientation 300, pressure 40000. */
static const uint8_t full[] = {3,    0,    30,   0,    0,    0,    0x40, 0x46, 0x01, 0x01, 0x20, 0x28, 0x03, 0x07, 0x60,
                               0x32, 0x43, 0x84, 0x0A, 0x45, 0x80, 0x46, 0x05, 0xC0, 0x46, 0x41, 0x2C, 0x80, 0x9C, 0x40};

/* The same as a client may send it that pads its integers: each in the most bytes that there are for it. */
static const uint8_t longest[] = {3,    0,    53,   0,    0,    0,    0xC0, 0,    0,    0x46, 0x80, 0x01, 0x80, 0x01, 0xE0, 0,    0,    0,
                                  0,    0,    0,    0x28, 0x03, 0x80, 0x07, 0xE0, 0,    0,    0x32, 0xC0, 0,    0x03, 0x84, 0xC0, 0,    0,
                                  0x0A, 0xC0, 0x05, 0x80, 0x46, 0x80, 0x05, 0xC0, 0x46, 0xC0, 0,    0x01, 0x2C, 0xC0, 0,    0x9C, 0x40};

/* Contact 1 goes down at 0, 0: x is minus zero in one byte, y in two, or both are zero. */
static const uint8_t minus[] = {3, 0, 16, 0, 0, 0, 0, 1, 1, 0, 1, 0, 0x20, 0x60, 0, 0x19};
static const uint8_t zero[] = {3, 0, 15, 0, 0, 0, 0, 1, 1, 0, 1, 0, 0, 0, 0x19};

enum { UNTOUCHED = 0xA5 };

static uint8_t output[KANGIRLO_OUTPUT_MOST];

/* The two calls that are lent a receiver, which the header has twice. */
struct way {
	struct kangirlo_answer (*receive)(struct kangirlo_receiver *, const uint8_t *, size_t, uint8_t *, size_t);
	struct kangirlo_batch (*receive_all)(struct kangirlo_receiver *, const uint8_t *, size_t, struct kangirlo_batch_answer *, size_t,
	                                     uint8_t *, size_t);
};

static int answers(struct kangirlo_answer a, int refusal, int injected, int ignored, int cancelled, uint32_t time, size_t records)
{
	return a.refusal == refusal && a.injected == injected && a.ignored == ignored && a.cancelled == cancelled && a.time.value == time
	       && a.records == records;
}

/* Whether just these ids are held, and each byte is 1 or 0. */
static int holds(const uint8_t held[256], const uint8_t *ids, size_t count)
{
	uint8_t wanted[256] = {0};

	for (size_t i = 0; i < count; i++)
		wanted[ids[i]] = 1;
	return memcmp(held, wanted, sizeof wanted) == 0;
}

#define HOLDS(held, ...) holds(held, (const uint8_t[]){__VA_ARGS__}, sizeof((const uint8_t[]){__VA_ARGS__}))

static int holds_none(const uint8_t held[256])
{
	return holds(held, NULL, 0);
}

static struct kangirlo_record record_at(size_t i)
{
	return kangirlo_read_record(output + i * KANGIRLO_RECORD_BYTES, KANGIRLO_RECORD_BYTES);
}

static void test_receiver(const struct way *way)
{
	static const struct kangirlo_receiver zeros;
	struct kangirlo_receiver r = kangirlo_fresh();

	EXPECT(memcmp(r.states, zeros.states, sizeof r.states) == 0 && memcmp(r.xs, zeros.xs, sizeof r.xs) == 0);
	EXPECT(memcmp(r.ys, zeros.ys, sizeof r.ys) == 0 && r.ready == 0 && r.begun == 0 && r.ignoring == 0 && holds_none(r.held));
	EXPECT(r.settings.flags == 0 && r.settings.version == 0 && r.settings.most == 0);
	EXPECT(answers(way->receive(&r, down, sizeof down, output, sizeof output), KANGIRLO_UNEXPECTED, 0, 0, 0, 0, 0));
	EXPECT(answers(way->receive(&r, ready, sizeof ready, output, sizeof output), KANGIRLO_TAKEN, 0, 0, 0, 0, 0));
	EXPECT(r.ready == 1 && r.settings.flags == 0 && r.settings.version == 0x00010001 && r.settings.most == 10);
	EXPECT(answers(way->receive(&r, down, sizeof down, output, 41), KANGIRLO_NO_ROOM, 0, 0, 0, 0, 0));
	EXPECT(r.begun == 0 && r.states[1] == 0);
	EXPECT(answers(way->receive(&r, down, sizeof down, output, 42), KANGIRLO_TAKEN, 1, 0, 0, 0, 2));
	EXPECT(r.begun == 1 && r.states[1] == 2 && r.xs[1] == 100 && r.ys[1] == 50);
	EXPECT(record_at(0).kind == KANGIRLO_HEAD && record_at(0).count == 1);
	EXPECT(record_at(1).kind == KANGIRLO_CONTACT && record_at(1).flags == 0x19 && record_at(1).id == 1 && record_at(1).x == 100);
	EXPECT(answers(way->receive(&r, up, sizeof up, output, sizeof output), KANGIRLO_TAKEN, 1, 0, 0, 0, 2));
	EXPECT(r.states[1] == 0 && r.xs[1] == 0 && r.ys[1] == 0 && r.ignoring == 0 && holds_none(r.held));
	EXPECT(answers(way->receive(&r, update, sizeof update, output, sizeof output), KANGIRLO_TAKEN, 0, 0, 1, 0, 0));
	EXPECT(r.ignoring == 1 && HOLDS(r.held, 1));
	EXPECT(answers(way->receive(&r, other, sizeof other, output, sizeof output), KANGIRLO_TAKEN, 0, 1, 0, 0, 0));
	EXPECT(r.ignoring == 1 && r.states[2] == 0 && HOLDS(r.held, 1, 2));
	EXPECT(answers(way->receive(&r, ready, 0, output, sizeof output), KANGIRLO_SHORT, 0, 0, 0, 0, 0));
	EXPECT(answers(way->receive(&r, full, sizeof full, output, sizeof output), KANGIRLO_TAKEN, 1, 0, 0, 70, 2));
	EXPECT(r.ignoring == 0 && r.states[3] == 1 && r.xs[3] == -50 && r.ys[3] == 900 && holds_none(r.held));
}

/* A frame of one contact at 100, 50 in a message of its own, lent so much room. */
static struct kangirlo_answer touch(const struct way *way, struct kangirlo_receiver *r, uint8_t id, uint8_t flags, size_t room)
{
	uint8_t message[sizeof down];

	memcpy(message, down, sizeof down);
	message[10] = id;
	message[16] = flags;
	return way->receive(r, message, sizeof message, output, room);
}

static struct kangirlo_answer dismiss(const struct way *way, struct kangirlo_receiver *r, uint8_t id, size_t room)
{
	const uint8_t message[] = {6, 0, 7, 0, 0, 0, id};

	return way->receive(r, message, sizeof message, output, room);
}

/* A receiver of which contact 1 hovered when an update of contact 2 was cancelled. */
static struct kangirlo_receiver cancelled_hover(const struct way *way)
{
	struct kangirlo_receiver r = kangirlo_fresh();

	EXPECT(answers(way->receive(&r, ready, sizeof ready, output, sizeof output), KANGIRLO_TAKEN, 0, 0, 0, 0, 0));
	EXPECT(answers(touch(way, &r, 1, 0x0A, sizeof output), KANGIRLO_TAKEN, 1, 0, 0, 0, 2));
	EXPECT(r.states[1] == 1 && holds_none(r.held));
	EXPECT(answers(touch(way, &r, 2, 0x1A, 20), KANGIRLO_NO_ROOM, 0, 0, 0, 0, 0));
	EXPECT(r.ignoring == 0 && r.states[1] == 1 && holds_none(r.held));
	EXPECT(answers(touch(way, &r, 2, 0x1A, 21), KANGIRLO_TAKEN, 0, 0, 1, 0, 1));
	EXPECT(r.ignoring == 1 && r.states[1] == 0 && HOLDS(r.held, 1, 2));
	return r;
}

/* After a cancel a hovering contact is ignored as long as its id is held, and opens when it is not. */
static void test_held(const struct way *way)
{
	struct kangirlo_receiver r = cancelled_hover(way);

	EXPECT(answers(touch(way, &r, 1, 0x0A, 0), KANGIRLO_TAKEN, 0, 1, 0, 0, 0));
	EXPECT(r.ignoring == 1 && r.states[1] == 0 && HOLDS(r.held, 1, 2));
	EXPECT(answers(touch(way, &r, 255, 0x0C, 0), KANGIRLO_TAKEN, 0, 1, 0, 0, 0) && HOLDS(r.held, 1, 2, 255));
	EXPECT(answers(touch(way, &r, 1, 0x0B, sizeof output), KANGIRLO_BAD_FLAGS, 0, 0, 0, 0, 0) && HOLDS(r.held, 1, 2, 255));
	EXPECT(answers(touch(way, &r, 1, 0x02, 0), KANGIRLO_TAKEN, 0, 1, 0, 0, 0) && HOLDS(r.held, 2, 255));
	EXPECT(answers(touch(way, &r, 1, 0x0A, 41), KANGIRLO_NO_ROOM, 0, 0, 0, 0, 0) && r.ignoring == 1 && HOLDS(r.held, 2, 255));
	EXPECT(answers(touch(way, &r, 1, 0x0A, 42), KANGIRLO_TAKEN, 1, 0, 0, 0, 2));
	EXPECT(r.ignoring == 0 && r.states[1] == 1 && r.xs[1] == 100 && r.ys[1] == 50 && holds_none(r.held));
}

/* A dismissal while frames are ignored, of an id that is held and of one that is not. */
static void test_held_dismissed(const struct way *way)
{
	static const uint8_t cut[] = {6, 0, 6, 0, 0, 0};
	struct kangirlo_receiver r = cancelled_hover(way);

	EXPECT(answers(way->receive(&r, cut, sizeof cut, output, sizeof output), KANGIRLO_TRUNCATED, 0, 0, 0, 0, 0));
	EXPECT(answers(dismiss(way, &r, 3, 0), KANGIRLO_TAKEN, 0, 0, 0, 0, 0) && HOLDS(r.held, 1, 2));
	EXPECT(answers(dismiss(way, &r, 1, 0), KANGIRLO_TAKEN, 0, 0, 0, 0, 0) && r.ignoring == 1 && HOLDS(r.held, 2));
	EXPECT(answers(touch(way, &r, 1, 0x0A, sizeof output), KANGIRLO_TAKEN, 1, 0, 0, 0, 2));
	EXPECT(r.ignoring == 0 && r.states[1] == 1 && holds_none(r.held));
}

/* A frame that is cancelled by itself: it opens, has an id twice, and leaves just its own ids held. */
static void test_held_anew(const struct way *way)
{
	static const uint8_t twice[] = {3, 0, 20, 0, 0, 0, 0, 1, 2, 0, 9, 0, 1, 1, 0x0A, 9, 0, 1, 1, 0x19};
	struct kangirlo_receiver r = cancelled_hover(way);

	EXPECT(answers(way->receive(&r, twice, sizeof twice, output, 0), KANGIRLO_TAKEN, 0, 0, 1, 0, 0));
	EXPECT(r.ignoring == 1 && HOLDS(r.held, 9));
	EXPECT(answers(touch(way, &r, 9, 0x19, sizeof output), KANGIRLO_TAKEN, 1, 0, 0, 0, 2));
	EXPECT(r.ignoring == 0 && r.states[9] == 2 && holds_none(r.held));
}

/* What no history leads to: a receiver that ignores nothing and has ids held. Nobody looks at them, until a cancel or a dismissal. */
static void test_held_astray(const struct way *way)
{
	struct kangirlo_receiver r = kangirlo_fresh(), wanted;

	EXPECT(answers(way->receive(&r, ready, sizeof ready, output, sizeof output), KANGIRLO_TAKEN, 0, 0, 0, 0, 0));
	r.held[1] = r.held[7] = 1;
	r.held[200] = 9;
	wanted = r;
	EXPECT(answers(touch(way, &r, 1, 0x0A, sizeof output), KANGIRLO_TAKEN, 1, 0, 0, 0, 2) && r.states[1] == 1);
	EXPECT(r.ignoring == 0 && memcmp(r.held, wanted.held, sizeof r.held) == 0);
	EXPECT(answers(dismiss(way, &r, 1, 20), KANGIRLO_NO_ROOM, 0, 0, 0, 0, 0) && r.states[1] == 1);
	EXPECT(memcmp(r.held, wanted.held, sizeof r.held) == 0);
	wanted.held[1] = 0;
	EXPECT(answers(dismiss(way, &r, 1, 21), KANGIRLO_TAKEN, 0, 0, 0, 0, 1) && r.states[1] == 0);
	EXPECT(memcmp(r.held, wanted.held, sizeof r.held) == 0);
	wanted.held[7] = 0;
	EXPECT(answers(dismiss(way, &r, 7, 0), KANGIRLO_TAKEN, 0, 0, 0, 0, 0));
	EXPECT(memcmp(r.held, wanted.held, sizeof r.held) == 0);
	EXPECT(answers(touch(way, &r, 2, 0x1A, 0), KANGIRLO_TAKEN, 0, 0, 1, 0, 0));
	EXPECT(r.ignoring == 1 && HOLDS(r.held, 2));
}

static void test_held_by(const struct way *way)
{
	test_held(way);
	test_held_dismissed(way);
	test_held_anew(way);
	test_held_astray(way);
}

/* Integers of any length are taken, and minus zero as zero. */
static void test_padded(const struct way *way)
{
	struct kangirlo_receiver r = kangirlo_fresh();

	EXPECT(answers(way->receive(&r, ready, sizeof ready, output, sizeof output), KANGIRLO_TAKEN, 0, 0, 0, 0, 0));
	EXPECT(answers(way->receive(&r, minus, sizeof minus, output, sizeof output), KANGIRLO_TAKEN, 1, 0, 0, 0, 2));
	EXPECT(r.states[1] == 2 && r.xs[1] == 0 && r.ys[1] == 0 && record_at(1).x == 0 && record_at(1).y == 0);
	EXPECT(answers(way->receive(&r, longest, sizeof longest, output, sizeof output), KANGIRLO_TAKEN, 1, 0, 0, 70, 2));
	EXPECT(r.states[3] == 1 && r.xs[3] == -50 && r.ys[3] == 900 && record_at(0).offset.value == 40 && record_at(1).pressure == 40000);
}

/* Counts at both sides of what the low bits of a head's count hold, and one byte of a message's, up to the greatest. */
static const unsigned wall_counts[] = {63, 64, 127, 128, 255, KANGIRLO_CONTACTS_MOST};

enum { WALL_COUNTS = sizeof wall_counts / sizeof *wall_counts, OVER = KANGIRLO_CONTACTS_MOST + 1 };

/* A message of one frame of so many contacts, in five bytes each: contact i at i modulo 32, i / 32. */
struct wall {
	size_t length;
	uint8_t bytes[12 + 5 * OVER];
};

static struct wall wall(unsigned count, uint8_t flags)
{
	struct wall m = {8, {3, 0, 0, 0, 0, 0, 0, 1}};

	if (count > 127)
		m.bytes[m.length++] = (uint8_t)(0x80 | count >> 8);
	m.bytes[m.length++] = (uint8_t)count;
	m.bytes[m.length++] = 0;
	for (unsigned i = 0; i < count; i++) {
		const uint8_t contact[] = {(uint8_t)i, 0, i % 32, (uint8_t)(i % 256 / 32), flags};

		memcpy(m.bytes + m.length, contact, sizeof contact);
		m.length += sizeof contact;
	}
	m.bytes[2] = (uint8_t)m.length;
	m.bytes[3] = (uint8_t)(m.length >> 8);
	return m;
}

static struct kangirlo_answer receive_wall(const struct way *way, struct kangirlo_receiver *r, unsigned count, uint8_t flags, size_t room)
{
	const struct wall m = wall(count, flags);

	return way->receive(r, m.bytes, m.length, output, room);
}

/* A receiver of which all 256 contacts may be active. */
static struct kangirlo_receiver ready_for_all(const struct way *way)
{
	static const uint8_t client[] = {2, 0, 16, 0, 0, 0, 0, 0, 0, 0, 1, 0, 1, 0, 0, 1};
	struct kangirlo_receiver r = kangirlo_fresh();

	EXPECT(answers(way->receive(&r, client, sizeof client, output, sizeof output), KANGIRLO_TAKEN, 0, 0, 0, 0, 0));
	EXPECT(r.settings.most == KANGIRLO_CONTACTS_MOST);
	return r;
}

/* Whether the first contacts are in this state where a wall has them, and the others out. */
static int has_contacts(const struct kangirlo_receiver *r, unsigned count, uint8_t state)
{
	for (unsigned i = 0; i < 256; i++) {
		const int in = i < count;

		if (r->states[i] != (in ? state : 0) || r->xs[i] != (in ? (int)i % 32 : 0) || r->ys[i] != (in ? (int)i / 32 : 0))
			return 0;
	}
	return 1;
}

/* Whether the output has so many records of this kind and these flags from one on, of contacts by rising id where a wall has them. */
static int wrote_contacts(size_t from, unsigned count, uint8_t kind, uint8_t flags)
{
	for (unsigned i = 0; i < count; i++) {
		const struct kangirlo_record c = record_at(from + i);

		if (c.refusal != KANGIRLO_TAKEN || c.kind != kind || c.flags != flags || c.id != i || c.x != (int)i % 32 || c.y != (int)i / 32)
			return 0;
	}
	return 1;
}

static int wrote_wall(unsigned count, uint8_t flags)
{
	return record_at(0).refusal == KANGIRLO_TAKEN && record_at(0).kind == KANGIRLO_HEAD && record_at(0).count == count
	       && wrote_contacts(1, count, KANGIRLO_CONTACT, flags);
}

/* Frames of a wall panel come down and are lifted; one contact more than the greatest has is refused. */
static void test_wall(const struct way *way)
{
	for (unsigned i = 0; i < WALL_COUNTS; i++) {
		const unsigned count = wall_counts[i], records = 1 + count;
		struct kangirlo_receiver r = ready_for_all(way);

		EXPECT(answers(receive_wall(way, &r, count, 0x19, records * KANGIRLO_RECORD_BYTES - 1), KANGIRLO_NO_ROOM, 0, 0, 0, 0, 0));
		EXPECT(r.begun == 0 && has_contacts(&r, 0, 0));
		EXPECT(answers(receive_wall(way, &r, count, 0x19, records * KANGIRLO_RECORD_BYTES), KANGIRLO_TAKEN, 1, 0, 0, 0, records));
		EXPECT(wrote_wall(count, 0x19) && has_contacts(&r, count, 2));
		EXPECT(answers(receive_wall(way, &r, OVER, 0x1A, sizeof output), KANGIRLO_BAD_COUNT, 0, 0, 0, 0, 0));
		EXPECT(has_contacts(&r, count, 2));
		EXPECT(answers(receive_wall(way, &r, count, 0x04, sizeof output), KANGIRLO_TAKEN, 1, 0, 0, 0, records));
		EXPECT(wrote_wall(count, 0x04) && has_contacts(&r, 0, 0));
	}
}

static int holds_all(const uint8_t held[256])
{
	uint8_t all[256];

	memset(all, 1, sizeof all);
	return memcmp(held, all, sizeof all) == 0;
}

/* All 256 contacts are cancelled and held: the same frame that hovers is ignored, one that comes down opens, and one that has an id twice in
 * its first and last contact is cancelled. */
static void test_wall_cancelled(const struct way *way)
{
	const unsigned all = KANGIRLO_CONTACTS_MOST;
	struct kangirlo_receiver r = ready_for_all(way);
	struct wall twice = wall(all, 0x19);

	EXPECT(answers(receive_wall(way, &r, all, 0x0A, sizeof output), KANGIRLO_TAKEN, 1, 0, 0, 0, 1 + all) && has_contacts(&r, all, 1));
	EXPECT(answers(receive_wall(way, &r, all, 0x1A, all * KANGIRLO_RECORD_BYTES - 1), KANGIRLO_NO_ROOM, 0, 0, 0, 0, 0));
	EXPECT(has_contacts(&r, all, 1) && holds_none(r.held));
	EXPECT(answers(receive_wall(way, &r, all, 0x1A, all * KANGIRLO_RECORD_BYTES), KANGIRLO_TAKEN, 0, 0, 1, 0, all));
	EXPECT(wrote_contacts(0, all, KANGIRLO_CANCEL, 0x22) && has_contacts(&r, 0, 0) && r.ignoring == 1 && holds_all(r.held));
	EXPECT(answers(receive_wall(way, &r, all, 0x0A, 0), KANGIRLO_TAKEN, 0, 1, 0, 0, 0) && holds_all(r.held));
	EXPECT(answers(receive_wall(way, &r, all, 0x19, sizeof output), KANGIRLO_TAKEN, 1, 0, 0, 0, 1 + all) && has_contacts(&r, all, 2));
	EXPECT(r.ignoring == 0 && holds_none(r.held));
	EXPECT(answers(receive_wall(way, &r, all, 0x04, sizeof output), KANGIRLO_TAKEN, 1, 0, 0, 0, 1 + all) && has_contacts(&r, 0, 0));
	twice.bytes[twice.length - 5] = 0;
	EXPECT(answers(way->receive(&r, twice.bytes, twice.length, output, sizeof output), KANGIRLO_TAKEN, 0, 0, 1, 0, 0));
	EXPECT(r.ignoring == 1 && r.held[0] == 1 && r.held[254] == 1 && r.held[255] == 0);
}

/* Puts an entry behind those before: a message's length, and its bytes. Answers where the next goes. */
static size_t put_entry(uint8_t *buffer, size_t at, const uint8_t *message, size_t length)
{
	buffer[at] = (uint8_t)(length >> 8);
	buffer[at + 1] = (uint8_t)length;
	memcpy(buffer + at + 2, message, length);
	return at + 2 + length;
}

static int has(struct kangirlo_batch_answer a, uint32_t refusal, uint32_t injected, uint32_t cancelled, uint32_t time,
               uint32_t records)
{
	return a.refusal == refusal && a.injected == injected && a.ignored == 0 && a.cancelled == cancelled && a.time == time
	       && a.records == records;
}

static int counts(struct kangirlo_batch b, int refusal, size_t entries, size_t records)
{
	return b.refusal == refusal && b.entries == entries && b.records == records;
}

/* Lends so many bytes of a buffer and so many numbers, and looks at the answer. */
static int batches(const struct way *way, struct kangirlo_receiver *r, const uint8_t *buffer, size_t length,
                   struct kangirlo_batch_answer *a, size_t numbers, int refusal, size_t entries, size_t records)
{
	return counts(way->receive_all(r, buffer, length, a, numbers, output, sizeof output), refusal, entries, records);
}

/* Ready, down, one that is short, the full one at 70 ms with an offset, and an update of another contact, which is cancelled. Answers how
 * many bytes they are. */
static size_t put_five(uint8_t *buffer)
{
	size_t n = put_entry(buffer, 0, ready, sizeof ready);

	n = put_entry(buffer, n, down, sizeof down);
	n = put_entry(buffer, n, down, 5);
	n = put_entry(buffer, n, full, sizeof full);
	return put_entry(buffer, n, other, sizeof other);
}

static void test_batch(const struct way *way)
{
	struct kangirlo_batch_answer a[6] = {[5] = {1, 2, 3, 4, 5, 6}};
	struct kangirlo_receiver r = kangirlo_fresh();
	uint8_t buffer[128];
	size_t n = put_five(buffer);

	EXPECT(batches(way, &r, buffer, n - 1, a, KANGIRLO_BATCH_NUMBERS(6), KANGIRLO_BAD_BATCH, 0, 0));
	EXPECT(batches(way, &r, buffer, n, a, KANGIRLO_BATCH_NUMBERS(5) - 1, KANGIRLO_BAD_BATCH, 0, 0));
	EXPECT(r.ready == 0 && has(a[0], 0, 0, 0, 0, 0));
	EXPECT(batches(way, &r, buffer, n, a, KANGIRLO_BATCH_NUMBERS(6), KANGIRLO_TAKEN, 5, 6));
	EXPECT(has(a[0], KANGIRLO_TAKEN, 0, 0, 0, 0) && has(a[1], KANGIRLO_TAKEN, 1, 0, 0, 2) && has(a[2], KANGIRLO_SHORT, 0, 0, 0, 0));
	EXPECT(has(a[3], KANGIRLO_TAKEN, 1, 0, 70, 2) && has(a[4], KANGIRLO_TAKEN, 0, 1, 0, 2));
	EXPECT(a[5].refusal == 1 && a[5].injected == 2 && a[5].ignored == 3 && a[5].cancelled == 4 && a[5].time == 5);
	EXPECT(record_at(1).id == 1 && record_at(3).id == 3 && record_at(4).kind == KANGIRLO_CANCEL && a[5].records == 6);
	EXPECT(r.ready == 1 && r.begun == 1 && r.ignoring == 1 && r.states[1] == 0 && r.settings.most == 10 && HOLDS(r.held, 1, 2, 3));
	EXPECT(batches(way, &r, buffer, 0, a, 0, KANGIRLO_TAKEN, 0, 0));
}

/* The arrays of a receiver in parts, and what they have to be. */
static struct apart parts, kept;

/* Marks that are all different, to see each arrive and come back. */
static const struct kangirlo_marks odd = {3, 5, 7, {0x01020304, 0x05060708, 0x090A}};

static int same_marks(struct kangirlo_marks a, struct kangirlo_marks b)
{
	return a.ready == b.ready && a.begun == b.begun && a.ignoring == b.ignoring && a.settings.flags == b.settings.flags
	       && a.settings.version == b.settings.version && a.settings.most == b.settings.most;
}

/* Contact 7 hovers, a byte is held that only a cancel looks at, and nothing is written. */
static void lay_out(void)
{
	memset(&kept, 0, sizeof kept);
	apart_put(&kept, 7, 1, -9, 11);
	kept.held[200] = 3;
	parts = kept;
	memset(output, UNTOUCHED, sizeof output);
}

/* The arrays are those that are kept, and the output is untouched but for so many records. */
static int left_with(size_t records)
{
	size_t at = records * KANGIRLO_RECORD_BYTES;

	while (at < sizeof output && output[at] == UNTOUCHED)
		at++;
	return at == sizeof output && memcmp(&parts, &kept, sizeof parts) == 0;
}

static struct kangirlo_turn receive_parts(struct kangirlo_marks marks, const uint8_t *message, size_t length, size_t room)
{
	return kangirlo_receive_parts(marks, message, length, output, room, parts.states, parts.xs, parts.ys, parts.held);
}

/* All contacts go out, and four ids are held: those of contacts 1, 3 and 7, and that of the frame. */
static void keep_cancelled(void)
{
	memset(&kept, 0, sizeof kept);
	kept.held[1] = kept.held[2] = kept.held[3] = kept.held[7] = 1;
}

static void test_marks(void)
{
	struct kangirlo_receiver r = kangirlo_fresh();

	kangirlo_keep_marks(&r, odd);
	EXPECT(r.ready == 3 && r.begun == 5 && r.ignoring == 7 && r.settings.flags == 0x01020304 && r.settings.version == 0x05060708);
	EXPECT(r.settings.most == 0x090A && same_marks(kangirlo_marks_of(&r), odd));
}

static void test_parts(void)
{
	static const uint8_t client[] = {2, 0, 16, 0, 0, 0, 1, 0, 0, 0, 0, 0, 1, 0, 0x34, 0x12};
	const struct kangirlo_marks fresh = {0}, begun = {1, 1, 0, {1, 0x00010000, 0x1234}}, ignoring = {1, 1, 1, begun.settings};
	struct kangirlo_marks greeted = begun;
	struct kangirlo_turn t;

	greeted.begun = 0;
	lay_out();
	t = receive_parts(odd, down, 5, sizeof output);
	EXPECT(same_marks(t.marks, odd) && answers(t.answer, KANGIRLO_SHORT, 0, 0, 0, 0, 0) && left_with(0));
	t = receive_parts(fresh, client, sizeof client, 0);
	EXPECT(same_marks(t.marks, greeted) && answers(t.answer, KANGIRLO_TAKEN, 0, 0, 0, 0, 0) && left_with(0));
	t = receive_parts(greeted, down, sizeof down, 41);
	EXPECT(same_marks(t.marks, greeted) && answers(t.answer, KANGIRLO_NO_ROOM, 0, 0, 0, 0, 0) && left_with(0));
	t = receive_parts(greeted, down, sizeof down, 42);
	apart_put(&kept, 1, 2, 100, 50);
	EXPECT(same_marks(t.marks, begun) && answers(t.answer, KANGIRLO_TAKEN, 1, 0, 0, 0, 2) && left_with(2));
	EXPECT(record_at(0).kind == KANGIRLO_HEAD && record_at(0).count == 1);
	EXPECT(record_at(1).kind == KANGIRLO_CONTACT && record_at(1).id == 1 && record_at(1).x == 100 && record_at(1).y == 50);
	t = receive_parts(begun, full, sizeof full, sizeof output);
	apart_put(&kept, 3, 1, -50, 900);
	EXPECT(same_marks(t.marks, begun) && answers(t.answer, KANGIRLO_TAKEN, 1, 0, 0, 70, 2) && left_with(2));
	t = receive_parts(begun, other, sizeof other, sizeof output);
	keep_cancelled();
	EXPECT(same_marks(t.marks, ignoring) && answers(t.answer, KANGIRLO_TAKEN, 0, 0, 1, 0, 3) && left_with(3));
	EXPECT(record_at(2).kind == KANGIRLO_CANCEL && record_at(2).id == 7 && record_at(2).x == -9 && record_at(2).y == 11);
	t = receive_parts(ignoring, other, sizeof other, 0);
	EXPECT(same_marks(t.marks, ignoring) && answers(t.answer, KANGIRLO_TAKEN, 0, 1, 0, 0, 0) && left_with(3));
	t = receive_parts(ignoring, up, sizeof up, 0);
	kept.held[1] = 0;
	EXPECT(same_marks(t.marks, ignoring) && answers(t.answer, KANGIRLO_TAKEN, 0, 1, 0, 0, 0) && left_with(3));
	t = receive_parts(ignoring, full, sizeof full, sizeof output);
	EXPECT(same_marks(t.marks, ignoring) && answers(t.answer, KANGIRLO_TAKEN, 0, 1, 0, 70, 0) && left_with(3));
	t = receive_parts(ignoring, down, sizeof down, 41);
	EXPECT(same_marks(t.marks, ignoring) && answers(t.answer, KANGIRLO_NO_ROOM, 0, 0, 0, 0, 0) && left_with(3));
	t = receive_parts(ignoring, down, sizeof down, 42);
	memset(kept.held, 0, sizeof kept.held);
	apart_put(&kept, 1, 2, 100, 50);
	EXPECT(same_marks(t.marks, begun) && answers(t.answer, KANGIRLO_TAKEN, 1, 0, 0, 0, 2) && left_with(3));
}

static struct kangirlo_batch_turn receive_all_parts(struct kangirlo_marks marks, const uint8_t *buffer, size_t length,
                                                    struct kangirlo_batch_answer *a, size_t numbers, size_t room)
{
	return kangirlo_receive_all_parts(marks, buffer, length, a, numbers, output, room, parts.states, parts.xs, parts.ys, parts.held);
}

/* The five of a batch: refused, with too little room for the last two, and with enough. */
static void test_batch_parts(void)
{
	const struct kangirlo_marks fresh = {0}, begun = {1, 1, 0, {0, 0x00010001, 10}}, ignoring = {1, 1, 1, begun.settings};
	struct kangirlo_batch_answer a[6] = {[5] = {1, 2, 3, 4, 5, 6}};
	struct kangirlo_batch_turn t;
	uint8_t buffer[128];
	size_t n = put_five(buffer);

	lay_out();
	t = receive_all_parts(odd, buffer, n, a, KANGIRLO_BATCH_NUMBERS(5) - 1, sizeof output);
	EXPECT(same_marks(t.marks, odd) && counts(t.batch, KANGIRLO_BAD_BATCH, 0, 0) && has(a[0], 0, 0, 0, 0, 0) && left_with(0));
	t = receive_all_parts(fresh, buffer, n, a, KANGIRLO_BATCH_NUMBERS(6), 83);
	apart_put(&kept, 1, 2, 100, 50);
	EXPECT(same_marks(t.marks, begun) && counts(t.batch, KANGIRLO_TAKEN, 5, 2) && left_with(2));
	EXPECT(has(a[0], KANGIRLO_TAKEN, 0, 0, 0, 0) && has(a[1], KANGIRLO_TAKEN, 1, 0, 0, 2) && has(a[2], KANGIRLO_SHORT, 0, 0, 0, 0));
	EXPECT(has(a[3], KANGIRLO_NO_ROOM, 0, 0, 0, 0) && has(a[4], KANGIRLO_NO_ROOM, 0, 0, 0, 0));
	lay_out();
	t = receive_all_parts(fresh, buffer, n, a, KANGIRLO_BATCH_NUMBERS(6), sizeof output);
	keep_cancelled();
	EXPECT(same_marks(t.marks, ignoring) && counts(t.batch, KANGIRLO_TAKEN, 5, 7) && left_with(7));
	EXPECT(has(a[3], KANGIRLO_TAKEN, 1, 0, 70, 2) && has(a[4], KANGIRLO_TAKEN, 0, 1, 0, 3) && record_at(6).id == 7);
	EXPECT(a[5].refusal == 1 && a[5].records == 6);
}

static void test_plain(void)
{
	struct kangirlo_plain_answer a = kangirlo_plain(full, sizeof full, output, sizeof output);
	struct kangirlo_record head = record_at(0), c = record_at(1);
	struct kangirlo_written w;
	uint8_t again[sizeof full];

	EXPECT(a.refusal == KANGIRLO_TAKEN && a.time.value == 70 && a.records == 2);
	EXPECT(head.refusal == KANGIRLO_TAKEN && head.kind == KANGIRLO_HEAD && head.count == 1 && head.offset.value == 40 && head.id == 0);
	EXPECT(c.refusal == KANGIRLO_TAKEN && c.kind == KANGIRLO_CONTACT && c.count == 0 && c.offset.value == 0);
	EXPECT(c.flags == 0x0A && c.present == 7 && c.id == 3 && c.x == -50 && c.y == 900);
	EXPECT(c.left == -5 && c.top == 70 && c.right == 5 && c.bottom == -70 && c.orientation == 300 && c.pressure == 40000);
	w = kangirlo_write_touch(again, sizeof again, a.time, output, a.records * KANGIRLO_RECORD_BYTES);
	EXPECT(w.refusal == KANGIRLO_TAKEN && w.bytes == sizeof full && memcmp(again, full, sizeof full) == 0);
	EXPECT(kangirlo_write_touch(again, sizeof again - 1, a.time, output, 42).refusal == KANGIRLO_NO_ROOM);
	EXPECT(kangirlo_plain(full, sizeof full - 1, output, sizeof output).refusal == KANGIRLO_BAD_LENGTH);
	output[20] = 1; /* an unused bit of the head */
	EXPECT(record_at(0).refusal == KANGIRLO_BAD_RECORD && record_at(0).count == 0);
	EXPECT(kangirlo_read_record(output, KANGIRLO_RECORD_BYTES - 1).refusal == KANGIRLO_BAD_RECORD);
}

static int reads(struct kangirlo_plain_answer a, int refusal, uint32_t time, size_t records)
{
	return a.refusal == refusal && a.time.value == time && a.records == records;
}

/* Whether the strict reading refuses a message, and leaves the output alone. */
static int refused_strictly(const uint8_t *message, size_t length, int refusal)
{
	lay_out();
	return reads(kangirlo_plain_strictly(message, length, output, sizeof output), refusal, 0, 0) && left_with(0);
}

/* Whether a message, read leniently, is written back as another one. */
static int becomes(const uint8_t *message, size_t length, const uint8_t *other_message, size_t other_length)
{
	struct kangirlo_plain_answer a = kangirlo_plain(message, length, output, sizeof output);
	uint8_t back[sizeof longest];
	struct kangirlo_written w;

	w = kangirlo_write_touch(back, sizeof back, a.time, output, a.records * KANGIRLO_RECORD_BYTES);
	return a.refusal == KANGIRLO_TAKEN && w.refusal == KANGIRLO_TAKEN && w.bytes == other_length
	       && memcmp(back, other_message, other_length) == 0;
}

/* The strict reading beside the lenient one: of the shortest, of padded ones, and of a padded value that is also out of range. */
static void test_plain_strictly(void)
{
	enum { ORIENTATION = 48 };
	uint8_t over[sizeof longest], records[2 * KANGIRLO_RECORD_BYTES];

	lay_out();
	EXPECT(reads(kangirlo_plain_strictly(full, sizeof full, output, sizeof output), KANGIRLO_TAKEN, 70, 2) && left_with(2));
	memcpy(records, output, sizeof records);
	lay_out();
	EXPECT(reads(kangirlo_plain(longest, sizeof longest, output, sizeof output), KANGIRLO_TAKEN, 70, 2) && left_with(2));
	EXPECT(memcmp(output, records, sizeof records) == 0);
	EXPECT(refused_strictly(longest, sizeof longest, KANGIRLO_NOT_SHORTEST));
	EXPECT(becomes(longest, sizeof longest, full, sizeof full) && becomes(full, sizeof full, full, sizeof full));
	EXPECT(refused_strictly(minus, sizeof minus, KANGIRLO_NOT_SHORTEST));
	EXPECT(becomes(minus, sizeof minus, zero, sizeof zero) && becomes(zero, sizeof zero, zero, sizeof zero));
	EXPECT(record_at(1).x == 0 && record_at(1).y == 0);
	EXPECT(reads(kangirlo_plain_strictly(full, sizeof full, output, 41), KANGIRLO_NO_ROOM, 0, 0));
	EXPECT(refused_strictly(full, sizeof full - 1, KANGIRLO_BAD_LENGTH));
	EXPECT(refused_strictly(ready, sizeof ready, KANGIRLO_UNEXPECTED));
	memcpy(over, longest, sizeof over);
	over[ORIENTATION] = 0x68; /* 360 */
	EXPECT(reads(kangirlo_plain(over, sizeof over, output, sizeof output), KANGIRLO_BAD_RANGE, 0, 0));
	EXPECT(refused_strictly(over, sizeof over, KANGIRLO_NOT_SHORTEST));
}

/* Frames of a wall panel, read and written back; one contact more is refused, by its count in a message, by its head in records. */
static void test_plain_wall(void)
{
	static uint8_t back[KANGIRLO_MESSAGE_MOST];
	const struct kangirlo_milliseconds time = {0};
	const struct wall over = wall(OVER, 0x19);
	struct kangirlo_written w;

	for (unsigned i = 0; i < WALL_COUNTS; i++) {
		const struct wall m = wall(wall_counts[i], 0x19);
		const size_t records = 1 + wall_counts[i];

		EXPECT(reads(kangirlo_plain_strictly(m.bytes, m.length, output, sizeof output), KANGIRLO_TAKEN, 0, records));
		EXPECT(reads(kangirlo_plain(m.bytes, m.length, output, sizeof output), KANGIRLO_TAKEN, 0, records));
		EXPECT(wrote_wall(wall_counts[i], 0x19));
		w = kangirlo_write_touch(back, sizeof back, time, output, records * KANGIRLO_RECORD_BYTES);
		EXPECT(w.refusal == KANGIRLO_TAKEN && w.bytes == m.length && memcmp(back, m.bytes, m.length) == 0);
	}
	memcpy(output + OVER * KANGIRLO_RECORD_BYTES, output + KANGIRLO_RECORD_BYTES, KANGIRLO_RECORD_BYTES);
	head_put(output, OVER, 0);
	w = kangirlo_write_touch(back, sizeof back, time, output, (1 + OVER) * KANGIRLO_RECORD_BYTES);
	EXPECT(w.refusal == KANGIRLO_BAD_RECORD && w.bytes == 0);
	EXPECT(reads(kangirlo_plain(over.bytes, over.length, output, sizeof output), KANGIRLO_BAD_COUNT, 0, 0));
	EXPECT(refused_strictly(over.bytes, over.length, KANGIRLO_BAD_COUNT));
}

/* The touch writer's 7 is of frames alone. */
static void test_many_frames(void)
{
	enum { FRAMES_MOST = 64 };
	const struct kangirlo_milliseconds time = {0};
	uint8_t heads[(FRAMES_MOST + 1) * KANGIRLO_RECORD_BYTES], back[8 + 2 * FRAMES_MOST];

	for (unsigned i = 0; i <= FRAMES_MOST; i++)
		head_put(heads + i * KANGIRLO_RECORD_BYTES, 0, 0);
	EXPECT(kangirlo_write_touch(back, sizeof back, time, heads, sizeof heads).refusal == KANGIRLO_BAD_COUNT);
	EXPECT(kangirlo_write_touch(back, sizeof back, time, heads, sizeof heads - KANGIRLO_RECORD_BYTES).bytes == sizeof back);
}

/* Whether a record is not well formed, and nothing of it is read. */
static int is_no_record(const uint8_t bytes[KANGIRLO_RECORD_BYTES])
{
	const struct kangirlo_record read = kangirlo_read_record(bytes, KANGIRLO_RECORD_BYTES);

	return read.refusal == KANGIRLO_BAD_RECORD && read.kind == 0 && read.count == 0 && read.offset.value == 0 && read.flags == 0
	       && read.id == 0;
}

static int is_head(const uint8_t bytes[KANGIRLO_RECORD_BYTES], unsigned count, uint64_t offset)
{
	const struct kangirlo_record read = kangirlo_read_record(bytes, KANGIRLO_RECORD_BYTES);

	return read.refusal == KANGIRLO_TAKEN && read.kind == KANGIRLO_HEAD && read.count == count && read.offset.value == offset
	       && read.flags == 0 && read.present == 0 && read.id == 0 && read.x == 0 && read.y == 0;
}

/* A head with each of its 96 unused bits set. */
static int needs_zeros(unsigned count, uint64_t offset)
{
	uint8_t head[KANGIRLO_RECORD_BYTES];

	for (unsigned bit = 72; bit < 8 * KANGIRLO_RECORD_BYTES; bit++) {
		head_put(head, count, offset);
		head[bit / 8] |= (uint8_t)(0x80 >> bit % 8);
		if (!is_no_record(head))
			return 0;
	}
	return 1;
}

/* Every count that a head's nine bits can say, and one of a file from when it had six. */
static void test_heads(void)
{
	static const uint64_t offsets[] = {0, 1, 8333, UINT64_C(0x1FFFFFFFFFFFFFFF)};
	static const uint8_t old[KANGIRLO_RECORD_BYTES] = {63, 0, 0, 0, 0, 0, 0x01, 0x04, 0x68};
	uint8_t head[KANGIRLO_RECORD_BYTES];

	for (size_t i = 0; i < sizeof offsets / sizeof *offsets; i++) {
		int good = 1;

		for (unsigned count = 0; count < 512; count++) {
			head_put(head, count, offsets[i]);
			good = good && (count <= KANGIRLO_CONTACTS_MOST ? is_head(head, count, offsets[i]) : is_no_record(head));
		}
		EXPECT(good);
		EXPECT(needs_zeros(0, offsets[i]) && needs_zeros(63, offsets[i]) && needs_zeros(64, offsets[i]));
		EXPECT(needs_zeros(KANGIRLO_CONTACTS_MOST, offsets[i]) && needs_zeros(OVER, offsets[i]) && needs_zeros(511, offsets[i]));
	}
	EXPECT(is_head(old, 63, 8333));
}

static int wrote(struct kangirlo_written w, const uint8_t *bytes, size_t count)
{
	return w.refusal == KANGIRLO_TAKEN && w.bytes == count && memcmp(output, bytes, count) == 0;
}

static void test_writers(void)
{
	static const uint8_t server[] = {1, 0, 10, 0, 0, 0, 0, 0, 1, 0}, client[] = {2, 0, 16, 0, 0, 0, 3, 0, 0, 0, 1, 0, 1, 0, 0x34, 0x12};
	static const uint8_t suspend[] = {4, 0, 6, 0, 0, 0}, resume[] = {5, 0, 6, 0, 0, 0}, dismiss[] = {6, 0, 7, 0, 0, 0, 200};

	EXPECT(wrote(kangirlo_write_server_ready(output, sizeof output, 0x00010000), server, sizeof server));
	EXPECT(kangirlo_write_server_ready(output, sizeof output, 0x00010002).refusal == KANGIRLO_BAD_FIELD);
	EXPECT(wrote(kangirlo_write_client_ready(output, sizeof output, 3, 0x00010001, 0x1234), client, sizeof client));
	EXPECT(kangirlo_write_client_ready(output, sizeof output, 4, 0x00010001, 0).refusal == KANGIRLO_BAD_FIELD);
	EXPECT(wrote(kangirlo_write_suspend(output, sizeof output), suspend, sizeof suspend));
	EXPECT(wrote(kangirlo_write_resume(output, sizeof output), resume, sizeof resume));
	EXPECT(wrote(kangirlo_write_dismiss(output, sizeof output, 200), dismiss, sizeof dismiss));
	EXPECT(kangirlo_write_dismiss(output, 6, 200).refusal == KANGIRLO_NO_ROOM);
}

int main(void)
{
	static const struct way whole = {kangirlo_receive, kangirlo_receive_all};
	static const struct way direct = {kangirlo_receive_direct, kangirlo_receive_all_direct};

	test_receiver(&whole);
	test_receiver(&direct);
	test_held_by(&whole);
	test_held_by(&direct);
	test_padded(&whole);
	test_padded(&direct);
	test_wall(&whole);
	test_wall(&direct);
	test_wall_cancelled(&whole);
	test_wall_cancelled(&direct);
	test_batch(&whole);
	test_batch(&direct);
	test_marks();
	test_parts();
	test_batch_parts();
	test_plain();
	test_plain_strictly();
	test_plain_wall();
	test_many_frames();
	test_heads();
	test_writers();
	return expect_end();
}
