/* The two ends of the touch channel of [MS-RDPEI], and the buttons that its touches mean, for C11, for C++11, and for what links like C.
 * The session host's end is in libkangirlo.a, the panel's in libkangirlo_panel.a, the buttons of the label screen in liblabel.a. None
 * needs the others: a program links those that it calls.
 *
 * Every call takes every input and ends. It reads and writes nothing but what it is lent, keeps nothing between calls, asks for no
 * memory, and is proved to do what its comment says. Bad input is refused by a number of the table below: a refusal has 0 in every
 * other field of the answer, but for marks that came by value and go back as they were, and changes no receiver, no panel, no label
 * and not one byte of the output.
 *
 * What is lent: a pointer and how much stands there. The pointer is never null, also where there is nothing, and what one call is
 * lent does not overlap. A receiver, a panel or a label is plain memory without pointers: copy it, move it, keep it where you like;
 * one call at a time may use it. docs/HOST.md, docs/PANEL.md and docs/LABEL.md have worked examples and the stack that the calls
 * take. */
#ifndef KANGIRLO_H
#define KANGIRLO_H

#include <stddef.h>
#include <stdint.h>
#ifndef __cplusplus
#include <stdbool.h>
#endif

#ifdef __cplusplus
extern "C" {
#endif

/* Why a message, a record or a value is refused. */
enum kangirlo_refusal {
	KANGIRLO_TAKEN = 0,
	KANGIRLO_SHORT = 1,         /* under 6 bytes */
	KANGIRLO_TOO_LONG = 2,      /* over 4,096 bytes, read or to be written */
	KANGIRLO_UNEXPECTED = 3,    /* an event that is not taken now */
	KANGIRLO_BAD_LENGTH = 4,    /* pduLength differs from how many bytes there are */
	KANGIRLO_TRUNCATED = 5,     /* the body ends inside a field, or before one that is due */
	KANGIRLO_NOT_SHORTEST = 6,  /* an integer that is longer than it need be, or minus zero; by kangirlo_plain_strictly alone */
	KANGIRLO_BAD_COUNT = 7,     /* frames over 64, contacts of a frame over 256 */
	KANGIRLO_BAD_FIELD = 8,     /* version, ready flags or fieldsPresent not listed */
	KANGIRLO_BAD_FLAGS = 9,     /* contactFlags not in the state table */
	KANGIRLO_BAD_RANGE = 10,    /* orientation, pressure; a value given to a writer */
	KANGIRLO_BAD_OFFSET = 11,   /* the first frame's offset is not 0 */
	KANGIRLO_TRAILING = 12,     /* bytes after the last field */
	KANGIRLO_NO_ROOM = 13,      /* output shorter than what the call writes; fewer places than choices */
	KANGIRLO_BAD_RECORD = 14,   /* a record that is not well formed, a head over 256 contacts too; for a label also one that breaks its
	                             * frame or the state table */
	KANGIRLO_NOT_READY = 15,    /* client ready before server ready was taken, or again; touch or dismiss before client ready */
	KANGIRLO_SUSPENDED = 16,    /* touch while suspended */
	KANGIRLO_ILLEGAL = 17,      /* a frame that would not conform; a dismissal of a contact that is not hovering */
	KANGIRLO_BAD_BATCH = 18     /* a batch whose last entry is incomplete, or that has more entries than places for answers */
};

/* The limits: a message, the contacts of a frame, a record, and the most that one message makes a receiver write. */
enum { KANGIRLO_MESSAGE_MOST = 4096, KANGIRLO_CONTACTS_MOST = 256, KANGIRLO_RECORD_BYTES = 21, KANGIRLO_OUTPUT_MOST = 49152 };

/* The kinds of a record: a frame's head, a frame's contact, a cancel, a dismissal. */
enum kangirlo_kind { KANGIRLO_HEAD = 0, KANGIRLO_CONTACT = 1, KANGIRLO_CANCEL = 2, KANGIRLO_DISMISSAL = 3 };

/* The two units of time are two types, so that neither stands for the other. */
struct kangirlo_milliseconds { uint32_t value; };
struct kangirlo_microseconds { uint64_t value; };

/* What a client ready says. */
struct kangirlo_settings {
	uint32_t flags;
	uint32_t version;
	uint16_t most;          /* contacts that may be active at once */
};

/* One connection's receiver. Keep it and lend it; the fields are for looking at. A fresh one is all zeros.
 *
 * After a cancel frames are ignored until one opens: one that has a contact and of which all are 0x19, or all are 0x19 or 0x0A and no id is
 * held. Held are the ids that were active at the cancel, those of the frame that was cancelled, and those of each frame ignored since; an
 * id is let go by such a frame that lists it last with 0x02, 0x22, 0x04 or 0x24, and by a dismissal. The frame that opens lets go of all,
 * and is then judged as any other: if it is cancelled, its own ids are held. */
struct kangirlo_receiver {
	uint8_t ready;          /* not 0: has accepted a client ready */
	uint8_t begun;          /* not 0: has accepted a touch message with a frame since */
	uint8_t ignoring;       /* not 0: ignores frames until one opens */
	struct kangirlo_settings settings;
	uint8_t states[256];    /* by contact id: 0 out of range, 1 hovering, 2 engaged */
	int32_t xs[256];
	int32_t ys[256];
	uint8_t held[256];      /* by contact id: not 0: held, while frames are ignored; all 0 otherwise */
};

/* One connection's panel. Keep it and lend it; the fields are for looking at. A fresh one is all zeros. Once its client ready has
 * arrived, all but its first and third field are those of the receiver that has taken every message it wrote. */
struct kangirlo_panel {
	uint8_t greeted;        /* not 0: has taken a server ready */
	uint8_t ready;          /* not 0: has written a client ready */
	uint8_t suspended;      /* not 0: writes no touch until a resume is taken */
	uint8_t begun;          /* not 0: has written a touch message with a frame */
	struct kangirlo_settings settings;
	uint8_t states[256];    /* by contact id: 0 out of range, 1 hovering, 2 engaged */
	int32_t xs[256];
	int32_t ys[256];
};

/* What became of a message. The three counts add up to the frames of the message. */
struct kangirlo_answer {
	uint8_t refusal;
	uint8_t injected;
	uint8_t ignored;
	uint8_t cancelled;
	struct kangirlo_milliseconds time;
	size_t records;         /* records written from the output's first byte, 21 bytes each */
};

/* What became of one message of a batch: what a kangirlo_answer says of it, as six numbers. */
struct kangirlo_batch_answer {
	uint32_t refusal;
	uint32_t injected;
	uint32_t ignored;
	uint32_t cancelled;
	uint32_t time;          /* milliseconds */
	uint32_t records;       /* records written behind those of the messages before */
};

/* What became of a batch. */
struct kangirlo_batch {
	uint8_t refusal;        /* 0, whatever became of its messages; or 18, with nothing fed */
	size_t entries;         /* answers written from the list's first place: one for each entry, refused ones too */
	size_t records;         /* records written from the output's first byte, of all messages together */
};

/* How many numbers so many places for answers are. */
#define KANGIRLO_BATCH_NUMBERS(places) (6 * (size_t)(places))

/* A receiver in parts: its marks, which go by value, beside its four arrays, which are lent. What becomes of a message or a batch then
 * is the marks after it and the answer. */
struct kangirlo_marks {
	uint8_t ready;
	uint8_t begun;
	uint8_t ignoring;
	struct kangirlo_settings settings;
};

struct kangirlo_turn {
	struct kangirlo_marks marks;
	struct kangirlo_answer answer;
};

struct kangirlo_batch_turn {
	struct kangirlo_marks marks;
	struct kangirlo_batch batch;
};

/* What a plain reading answers, the lenient one and the strict one. */
struct kangirlo_plain_answer {
	uint8_t refusal;
	struct kangirlo_milliseconds time;
	size_t records;
};

/* What a writer answers. */
struct kangirlo_written {
	uint8_t refusal;
	size_t bytes;
};

/* A panel in parts, likewise, of three arrays: what becomes of a message that arrived, and of a call that writes. */
struct kangirlo_panel_marks {
	uint8_t greeted;
	uint8_t ready;
	uint8_t suspended;
	uint8_t begun;
	struct kangirlo_settings settings;
};

struct kangirlo_panel_heard {
	struct kangirlo_panel_marks marks;
	uint8_t refusal;
};

struct kangirlo_panel_said {
	struct kangirlo_panel_marks marks;
	struct kangirlo_written written;
};

/* One record, read. Fields that its kind does not have are 0. */
struct kangirlo_record {
	uint8_t refusal;        /* 14: fewer than 21 bytes, or not well formed; every other field is 0 */
	uint8_t kind;
	uint16_t count;         /* of a head: how many contacts follow, 0 to 256 */
	uint8_t flags;
	uint8_t present;        /* which optional fields there are: 1 the sides, 2 orientation, 4 pressure */
	uint8_t id;
	uint16_t orientation;
	uint16_t pressure;
	int16_t left;
	int16_t top;
	int16_t right;
	int16_t bottom;
	int32_t x;
	int32_t y;
	struct kangirlo_microseconds offset;    /* of a head: the time since the frame before */
};

/* A button of a screen: its left and top edges are inside, right and bottom outside. One whose left is not less than its right, or top not
 * less than its bottom, holds no point. */
struct kangirlo_button {
	uint32_t item;          /* what the screen lists there, by a number of its own; several buttons may have the same */
	int32_t left;
	int32_t top;
	int32_t right;
	int32_t bottom;
	uint8_t shown;          /* 0: hidden, and holds no point */
};

/* What a screen keeps of the contacts of one receiver. Keep it and lend it. A fresh one is all zeros. */
struct kangirlo_label {
	uint8_t states[256];    /* by contact id: 0 out of range, 1 hovering, 2 engaged, as in the receiver */
	size_t pressed[256];    /* by contact id: the place of the button that it pressed plus 1, or 0; put 0 there to let go of a press */
};

/* One choice, as two numbers. */
struct kangirlo_choice {
	uint32_t id;            /* of the contact */
	uint32_t item;          /* of the button */
};

/* How many numbers so many places for choices are. */
#define KANGIRLO_CHOICE_NUMBERS(places) (2 * (size_t)(places))

/* Places that are enough for the records of any message, and more than there are records, so that choices are not counted first. */
enum { KANGIRLO_CHOICES_MOST = KANGIRLO_OUTPUT_MOST / KANGIRLO_RECORD_BYTES + 1 };

/* What became of some records. */
struct kangirlo_picked {
	uint8_t refusal;
	size_t count;           /* choices that stand from the list's first place on */
};

/* ---- The session host's end: libkangirlo.a. */

/* A receiver that has accepted nothing. */
struct kangirlo_receiver kangirlo_fresh(void);

/* Judges a message and carries it out: the receiver becomes what the message makes of it, its records stand from the output's first
 * byte, and nothing past them is touched. Refused with 13 where the output is too short for them; 48 KiB is enough for any message.
 * An integer may take more bytes than it needs, as many as [MS-RDPEI] allows for its kind, and minus zero is zero: 6 is not given. */
struct kangirlo_answer kangirlo_receive(struct kangirlo_receiver *receiver, const uint8_t *message, size_t length, uint8_t *output,
                                        size_t room);

/* Many messages in one call. The buffer holds entries, each a length of 2 bytes, most significant first, and so many bytes of a
 * message. Each message is fed as by kangirlo_receive, with the output that is left behind the records before: one that is refused,
 * by 13 too, takes none of it, and the next goes on. Its answer stands in the place of its number. Places past the last answer and
 * bytes past the last record are not touched. Refused with 18, before anything is fed, where the last entry is incomplete or there
 * are fewer places than entries. `numbers` is KANGIRLO_BATCH_NUMBERS of the places that are lent. */
struct kangirlo_batch kangirlo_receive_all(struct kangirlo_receiver *receiver, const uint8_t *buffer, size_t buffer_length,
                                           struct kangirlo_batch_answer *answers, size_t numbers, uint8_t *output,
                                           size_t output_length);

/* The same two calls for a receiver in parts, whose contacts are not copied: they take less stack and fewer instructions. The four arrays
 * are of 256 contacts, and are those of the receiver's fields of the same names. */
struct kangirlo_turn kangirlo_receive_parts(struct kangirlo_marks marks, const uint8_t *message, size_t length, uint8_t *output,
                                            size_t room, uint8_t *states, int32_t *xs, int32_t *ys, uint8_t *held);
struct kangirlo_batch_turn kangirlo_receive_all_parts(struct kangirlo_marks marks, const uint8_t *buffer, size_t buffer_length,
                                                      struct kangirlo_batch_answer *answers, size_t numbers, uint8_t *output,
                                                      size_t output_length, uint8_t *states, int32_t *xs, int32_t *ys,
                                                      uint8_t *held);

/* .. and for a host that keeps a receiver: its own fields are lent. What they do is what kangirlo_receive and kangirlo_receive_all do. */
static inline struct kangirlo_marks kangirlo_marks_of(const struct kangirlo_receiver *receiver)
{
	struct kangirlo_marks marks;

	marks.ready = receiver->ready;
	marks.begun = receiver->begun;
	marks.ignoring = receiver->ignoring;
	marks.settings = receiver->settings;
	return marks;
}

static inline void kangirlo_keep_marks(struct kangirlo_receiver *receiver, struct kangirlo_marks marks)
{
	receiver->ready = marks.ready;
	receiver->begun = marks.begun;
	receiver->ignoring = marks.ignoring;
	receiver->settings = marks.settings;
}

static inline struct kangirlo_answer kangirlo_receive_direct(struct kangirlo_receiver *receiver, const uint8_t *message, size_t length,
                                                             uint8_t *output, size_t room)
{
	const struct kangirlo_turn turn = kangirlo_receive_parts(kangirlo_marks_of(receiver), message, length, output, room,
	                                                         receiver->states, receiver->xs, receiver->ys, receiver->held);

	kangirlo_keep_marks(receiver, turn.marks);
	return turn.answer;
}

static inline struct kangirlo_batch kangirlo_receive_all_direct(struct kangirlo_receiver *receiver, const uint8_t *buffer,
                                                                size_t buffer_length, struct kangirlo_batch_answer *answers,
                                                                size_t numbers, uint8_t *output, size_t output_length)
{
	const struct kangirlo_batch_turn turn =
		kangirlo_receive_all_parts(kangirlo_marks_of(receiver), buffer, buffer_length, answers, numbers, output, output_length,
	                                   receiver->states, receiver->xs, receiver->ys, receiver->held);

	kangirlo_keep_marks(receiver, turn.marks);
	return turn.batch;
}

/* Reads a touch message by itself, with no receiver: its heads and contacts as records. Integers are read as by kangirlo_receive, so that
 * 6 is not given. What is read, given to kangirlo_write_touch with its time, is the shortest message of the same meaning: it is read the
 * same, and written back again it is itself. */
struct kangirlo_plain_answer kangirlo_plain(const uint8_t *message, size_t length, uint8_t *output, size_t room);

/* The same where every integer is to be in its shortest form, and zero positive: any other is refused by 6, which for one field comes after
 * 5 and before what the field means. Where it answers anything but 6, kangirlo_plain answers the same; where it accepts, what it reads is
 * written back to the same bytes. */
struct kangirlo_plain_answer kangirlo_plain_strictly(const uint8_t *message, size_t length, uint8_t *output, size_t room);

/* The six writers: each writes its whole message from the output's first byte and touches nothing past it. Integers are the shortest.
 * The ready writers refuse a version or a flag that is not listed by 8; write_touch takes heads and contacts (kinds 0 and 1), each
 * head followed by its count of contacts, and refuses by 10, 14, 7, 2, of which 7 is of frames over 64: a head over 256 contacts is no
 * well-formed record, and 14. All refuse too little room by 13. */
struct kangirlo_written kangirlo_write_server_ready(uint8_t *output, size_t room, uint32_t version);
struct kangirlo_written kangirlo_write_client_ready(uint8_t *output, size_t room, uint32_t flags, uint32_t version, uint16_t most);
struct kangirlo_written kangirlo_write_touch(uint8_t *output, size_t room, struct kangirlo_milliseconds time, const uint8_t *records,
                                             size_t length);
struct kangirlo_written kangirlo_write_suspend(uint8_t *output, size_t room);
struct kangirlo_written kangirlo_write_resume(uint8_t *output, size_t room);
struct kangirlo_written kangirlo_write_dismiss(uint8_t *output, size_t room, uint8_t id);

/* Reads the record at the front of some bytes. A head has bits, the most significant first, for its kind, 0 (2), the low bits of its count
 * (6), its offset (61), the high bits of its count (3), and 96 zeros. One of 63 contacts or fewer is what it was when 63 were the most that a
 * frame had: those high bits were zeros then. */
struct kangirlo_record kangirlo_read_record(const uint8_t *records, size_t length);

/* ---- The panel's end: libkangirlo_panel.a. What a panel writes, delivered in order to a fresh receiver with room, is never
 * refused, and no frame of it is cancelled or ignored: the records that the receiver writes are those that the panel was given (with
 * ready flag 2, their offsets as 0), and a dismissal's. */

/* A panel that has taken and written nothing. */
struct kangirlo_panel kangirlo_panel_fresh(void);

/* Takes a message that arrived, and answers the refusal, 0 for none: 1, 2, 3, 4, 5, 8, 12, in this order. Server ready is taken
 * first, and once; from then on suspend and resume, of which a second in a row changes nothing. */
uint8_t kangirlo_panel_take(struct kangirlo_panel *panel, const uint8_t *message, size_t length);

/* The panel's writers: each writes its whole message from the output's first byte, touches nothing past it, and keeps in the panel
 * what the message makes of the host's receiver. A refusal, judged in the order given, changes neither the panel nor the output.
 * - Client ready: 15, 8, 13. It may be written while suspended.
 * - Touch, of heads and contacts like kangirlo_write_touch's: 10, 14, 15, 16, 17, 11, 7, 2, 13. Each frame is judged from what the
 *   one before leaves, also past the 64th; 11 is of the first frame that the panel sends, unless its client ready had flag 2.
 * - Dismiss: 15, 17, 13. It may be written while suspended. */
struct kangirlo_written kangirlo_panel_write_ready(struct kangirlo_panel *panel, uint8_t *output, size_t room, uint32_t flags,
                                                   uint32_t version, uint16_t most);
struct kangirlo_written kangirlo_panel_write_touch(struct kangirlo_panel *panel, uint8_t *output, size_t room,
                                                   struct kangirlo_milliseconds time, const uint8_t *records, size_t length);
struct kangirlo_written kangirlo_panel_write_dismiss(struct kangirlo_panel *panel, uint8_t *output, size_t room, uint8_t id);

/* The same four calls for a panel in parts. What arrives and client ready leave the contacts as they are, and are lent none. */
struct kangirlo_panel_heard kangirlo_panel_take_parts(struct kangirlo_panel_marks marks, const uint8_t *message, size_t length);
struct kangirlo_panel_said kangirlo_panel_write_ready_parts(struct kangirlo_panel_marks marks, uint8_t *output, size_t room,
                                                            uint32_t flags, uint32_t version, uint16_t most);
struct kangirlo_panel_said kangirlo_panel_write_touch_parts(struct kangirlo_panel_marks marks, uint8_t *output, size_t room,
                                                            struct kangirlo_milliseconds time, const uint8_t *records, size_t length,
                                                            uint8_t *states, int32_t *xs, int32_t *ys);
struct kangirlo_panel_said kangirlo_panel_write_dismiss_parts(struct kangirlo_panel_marks marks, uint8_t *output, size_t room,
                                                              uint8_t id, uint8_t *states, int32_t *xs, int32_t *ys);

/* .. and for a program that keeps a panel: its own fields are lent. */
static inline struct kangirlo_panel_marks kangirlo_panel_marks_of(const struct kangirlo_panel *panel)
{
	struct kangirlo_panel_marks marks;

	marks.greeted = panel->greeted;
	marks.ready = panel->ready;
	marks.suspended = panel->suspended;
	marks.begun = panel->begun;
	marks.settings = panel->settings;
	return marks;
}

static inline void kangirlo_panel_keep_marks(struct kangirlo_panel *panel, struct kangirlo_panel_marks marks)
{
	panel->greeted = marks.greeted;
	panel->ready = marks.ready;
	panel->suspended = marks.suspended;
	panel->begun = marks.begun;
	panel->settings = marks.settings;
}

static inline uint8_t kangirlo_panel_take_direct(struct kangirlo_panel *panel, const uint8_t *message, size_t length)
{
	const struct kangirlo_panel_heard heard = kangirlo_panel_take_parts(kangirlo_panel_marks_of(panel), message, length);

	kangirlo_panel_keep_marks(panel, heard.marks);
	return heard.refusal;
}

static inline struct kangirlo_written kangirlo_panel_write_ready_direct(struct kangirlo_panel *panel, uint8_t *output, size_t room,
                                                                        uint32_t flags, uint32_t version, uint16_t most)
{
	const struct kangirlo_panel_said said =
		kangirlo_panel_write_ready_parts(kangirlo_panel_marks_of(panel), output, room, flags, version, most);

	kangirlo_panel_keep_marks(panel, said.marks);
	return said.written;
}

static inline struct kangirlo_written kangirlo_panel_write_touch_direct(struct kangirlo_panel *panel, uint8_t *output, size_t room,
                                                                        struct kangirlo_milliseconds time, const uint8_t *records,
                                                                        size_t length)
{
	const struct kangirlo_panel_said said = kangirlo_panel_write_touch_parts(
		kangirlo_panel_marks_of(panel), output, room, time, records, length, panel->states, panel->xs, panel->ys);

	kangirlo_panel_keep_marks(panel, said.marks);
	return said.written;
}

static inline struct kangirlo_written kangirlo_panel_write_dismiss_direct(struct kangirlo_panel *panel, uint8_t *output, size_t room,
                                                                          uint8_t id)
{
	const struct kangirlo_panel_said said = kangirlo_panel_write_dismiss_parts(kangirlo_panel_marks_of(panel), output, room, id,
	                                                                           panel->states, panel->xs, panel->ys);

	kangirlo_panel_keep_marks(panel, said.marks);
	return said.written;
}

/* ---- The label screen's buttons: liblabel.a. A point is in the first shown button of the list that holds it, else in none. The same
 * button is the same place in the list: a list that is to be another one goes with a label whose `pressed` is all zeros. */

/* Which choices some records are, in their order. A choice is a contact that is pressed (0x19) inside a button, then does nothing but move
 * (0x1A), and is lifted (0x04 or 0x0C) inside the same button; where it moved between does not matter, and a cancel ends the press. Where
 * the buttons are and which are shown is looked up at the press and at the lift, each time in the list that this call is lent. The item
 * is that of the lift. The label is lent in parts, and becomes what the records make of it where it stands. `numbers` is
 * KANGIRLO_CHOICE_NUMBERS of the places: each takes two, an id and an item. Numbers behind the last choice are not touched.
 *
 * Refused with 14, over all records and before 13, where they are not whole and well formed, a head is not followed by its count of
 * contacts, a cancel or a dismissal stands inside a frame, or a contact's flags are not legal from its state in the label. A label that is
 * fresh when its receiver is, and is given the records of each of its messages in order, those that it refused by 13 again with more room,
 * never gives 14, and has the receiver's states. Refused with 13 where there are more choices than places. As many places as records are
 * enough; with one more the choices are not counted before they are written, which is quicker. */
struct kangirlo_picked kangirlo_choose_parts(uint8_t states[256], size_t pressed[256], const struct kangirlo_button *buttons,
                                             size_t how_many, const uint8_t *records, size_t bytes, uint32_t *choices,
                                             size_t numbers);

/* .. and for a program that keeps a label, and lists choices by their places: its own fields are lent. */
static inline struct kangirlo_picked kangirlo_choose(struct kangirlo_label *label, const struct kangirlo_button *buttons, size_t how_many,
                                                     const uint8_t *records, size_t bytes, struct kangirlo_choice *choices,
                                                     size_t places)
{
	return kangirlo_choose_parts(label->states, label->pressed, buttons, how_many, records, bytes, (uint32_t *)choices,
	                             KANGIRLO_CHOICE_NUMBERS(places));
}

/* The place of the button that a point is in; how_many where it is in none. */
size_t kangirlo_button_at(const struct kangirlo_button *buttons, size_t how_many, int32_t x, int32_t y);

/* Shows the button of a place (any number but 0) or hides it (0), and answers whether there is one. Nothing but its mark is changed. */
bool kangirlo_set_shown(struct kangirlo_button *buttons, size_t how_many, size_t place, uint8_t shown);

#ifdef __cplusplus
}
#endif

/* The layout that the archives were compiled for: x86-64 Linux. */
#ifdef __cplusplus
#define KANGIRLO_ASSERT(test) static_assert(test, #test)
#define KANGIRLO_ALIGN(type) alignof(type)
#else
#define KANGIRLO_ASSERT(test) _Static_assert(test, #test)
#define KANGIRLO_ALIGN(type) _Alignof(type)
#endif
KANGIRLO_ASSERT(sizeof(struct kangirlo_settings) == 12 && KANGIRLO_ALIGN(struct kangirlo_settings) == 4);
KANGIRLO_ASSERT(sizeof(struct kangirlo_receiver) == 2576 && KANGIRLO_ALIGN(struct kangirlo_receiver) == 4);
KANGIRLO_ASSERT(offsetof(struct kangirlo_receiver, settings) == 4 && offsetof(struct kangirlo_receiver, states) == 16);
KANGIRLO_ASSERT(offsetof(struct kangirlo_receiver, xs) == 272 && offsetof(struct kangirlo_receiver, ys) == 1296);
KANGIRLO_ASSERT(offsetof(struct kangirlo_receiver, held) == 2320);
KANGIRLO_ASSERT(sizeof(struct kangirlo_panel) == 2320 && KANGIRLO_ALIGN(struct kangirlo_panel) == 4);
KANGIRLO_ASSERT(offsetof(struct kangirlo_panel, begun) == 3 && offsetof(struct kangirlo_panel, settings) == 4);
KANGIRLO_ASSERT(offsetof(struct kangirlo_panel, states) == 16);
KANGIRLO_ASSERT(offsetof(struct kangirlo_panel, xs) == 272 && offsetof(struct kangirlo_panel, ys) == 1296);
KANGIRLO_ASSERT(sizeof(struct kangirlo_answer) == 16 && KANGIRLO_ALIGN(struct kangirlo_answer) == 8);
KANGIRLO_ASSERT(sizeof(struct kangirlo_batch_answer) == 24 && KANGIRLO_ALIGN(struct kangirlo_batch_answer) == 4);
KANGIRLO_ASSERT(sizeof(struct kangirlo_batch_answer) == KANGIRLO_BATCH_NUMBERS(1) * sizeof(uint32_t));
KANGIRLO_ASSERT(offsetof(struct kangirlo_batch_answer, refusal) == 0 && offsetof(struct kangirlo_batch_answer, injected) == 4);
KANGIRLO_ASSERT(offsetof(struct kangirlo_batch_answer, ignored) == 8 && offsetof(struct kangirlo_batch_answer, cancelled) == 12);
KANGIRLO_ASSERT(offsetof(struct kangirlo_batch_answer, time) == 16 && offsetof(struct kangirlo_batch_answer, records) == 20);
KANGIRLO_ASSERT(sizeof(struct kangirlo_batch) == 24 && KANGIRLO_ALIGN(struct kangirlo_batch) == 8);
KANGIRLO_ASSERT(offsetof(struct kangirlo_batch, entries) == 8 && offsetof(struct kangirlo_batch, records) == 16);
KANGIRLO_ASSERT(sizeof(struct kangirlo_marks) == 16 && KANGIRLO_ALIGN(struct kangirlo_marks) == 4);
KANGIRLO_ASSERT(offsetof(struct kangirlo_marks, settings) == 4);
KANGIRLO_ASSERT(sizeof(struct kangirlo_turn) == 32 && offsetof(struct kangirlo_turn, answer) == 16);
KANGIRLO_ASSERT(sizeof(struct kangirlo_batch_turn) == 40 && offsetof(struct kangirlo_batch_turn, batch) == 16);
KANGIRLO_ASSERT(sizeof(struct kangirlo_panel_marks) == 16 && KANGIRLO_ALIGN(struct kangirlo_panel_marks) == 4);
KANGIRLO_ASSERT(offsetof(struct kangirlo_panel_marks, begun) == 3 && offsetof(struct kangirlo_panel_marks, settings) == 4);
KANGIRLO_ASSERT(sizeof(struct kangirlo_panel_heard) == 20 && offsetof(struct kangirlo_panel_heard, refusal) == 16);
KANGIRLO_ASSERT(sizeof(struct kangirlo_panel_said) == 32 && offsetof(struct kangirlo_panel_said, written) == 16);
KANGIRLO_ASSERT(sizeof(struct kangirlo_plain_answer) == 16 && KANGIRLO_ALIGN(struct kangirlo_plain_answer) == 8);
KANGIRLO_ASSERT(sizeof(struct kangirlo_written) == 16 && KANGIRLO_ALIGN(struct kangirlo_written) == 8);
KANGIRLO_ASSERT(sizeof(struct kangirlo_record) == 40 && KANGIRLO_ALIGN(struct kangirlo_record) == 8);
KANGIRLO_ASSERT(offsetof(struct kangirlo_record, count) == 2 && offsetof(struct kangirlo_record, flags) == 4);
KANGIRLO_ASSERT(offsetof(struct kangirlo_record, orientation) == 8 && offsetof(struct kangirlo_record, x) == 20);
KANGIRLO_ASSERT(sizeof(struct kangirlo_button) == 24 && KANGIRLO_ALIGN(struct kangirlo_button) == 4);
KANGIRLO_ASSERT(offsetof(struct kangirlo_button, left) == 4 && offsetof(struct kangirlo_button, top) == 8);
KANGIRLO_ASSERT(offsetof(struct kangirlo_button, bottom) == 16 && offsetof(struct kangirlo_button, shown) == 20);
KANGIRLO_ASSERT(sizeof(struct kangirlo_label) == 2304 && KANGIRLO_ALIGN(struct kangirlo_label) == 8);
KANGIRLO_ASSERT(offsetof(struct kangirlo_label, pressed) == 256);
KANGIRLO_ASSERT(sizeof(struct kangirlo_picked) == 16 && KANGIRLO_ALIGN(struct kangirlo_picked) == 8);
KANGIRLO_ASSERT(offsetof(struct kangirlo_picked, count) == 8);
KANGIRLO_ASSERT(sizeof(struct kangirlo_choice) == KANGIRLO_CHOICE_NUMBERS(1) * sizeof(uint32_t));
KANGIRLO_ASSERT(offsetof(struct kangirlo_choice, item) == sizeof(uint32_t));

#endif
