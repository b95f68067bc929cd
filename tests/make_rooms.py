"""Writes OUTDIR/stdin and OUTDIR/stdout for the program 'rooms'. The file ends whole.

One receiver with maxTouchContacts 10 and ready flags 0 gets it all. Every call is lent one byte too little first: that
must answer 13 with nothing else and leave the output as it was, whatever the call is ('check_rooms', said beforehand).
What the entries by hand must answer is said beforehand too.
"""

import itertools
import random
from collections import Counter

import corpus
import eras
import hover_play
import make_bench
import padded_play
import wide_play
from corpus import client_ready, contact, dismiss, frame, message, touch, touch_fields, touch_of
from histories import History, answered, injected, rest
from padded_play import padded, with_minus_zero
from panels import RESUME, SUSPEND, server_ready
from reference import entries, house, messages, receiver, rooms
from reference.integers import S2, S4, U4, U8
from reference.keeper import ENGAGED, POSITION_KEPT
from reference.refusals import NAMES, NONE, NO_ROOM

SEED = 20260308

TOUCH = messages.TOUCH
V100, V101 = messages.VERSIONS
MOST = 10
READY = client_ready(0, V101, MOST)
IDS = make_bench.IDS

# Out of range wherever it is listed.
OFFENDING_ID = 99
OFFENDING = contact(OFFENDING_ID, 0x1A)

MOST_STDOUT = 1000000
FEWEST_ENTRIES, MOST_ENTRIES = 250, 500


def refused(history, *sent):
    """Pairs of a number and a message."""
    for number, each in sent:
        answered(history, each, number)


def writes(history, sent, records, *counts):
    """An accepted message: how many records it writes; frames injected, ignored and cancelled."""
    answer = history.send(sent)
    assert (answer.refusal, answer[1:4], answer.records) == (NONE, counts or (0, 0, 0), records), (sent.hex(), answer)


# Messages that a receiver refuses and a writer writes


SETTINGS = ((0, V101, 10), (1, V100, 0), (2, V101, 65535), (3, V100, 256))
READIES = (server_ready(V100), server_ready(V101), *(client_ready(*settings) for settings in SETTINGS))


def damaged_others():
    """Not accepted by themselves; the number that a reader of that message gives."""
    body, none = V101.to_bytes(4, "little"), b""
    yield 5, message(1, none)
    yield 5, message(1, body[:3])
    yield 8, message(1, b"\2\0\1\0")
    yield 8, message(1, b"\0\0\2\0\0")
    yield 12, message(1, body + b"\0")
    yield 4, message(1, body, 11)
    yield 4, server_ready(V100)[:-1]
    for event in (4, 5):
        yield 12, message(event, b"\0")
        yield 4, message(event, b"", 7)
        yield 4, message(event, b"", 6 << 8)
    yield 3, message(7, none)
    yield 3, message(0x0104, none)
    yield 3, message(0, body)


def damaged_readies():
    body = READY[6:]
    yield from ((5, message(2, body[:length])) for length in (0, 3, 4, 7, 8, 9))
    yield 8, client_ready(4, V101, 10)
    yield 8, client_ready(0, 0x00010002, 10)
    yield 8, client_ready(0, 0x00020000, 10)
    # The first fault answers.
    yield 8, message(2, b"\4\0\0\0\1")
    yield 8, message(2, client_ready(0, 5, 10)[6:] + b"\0")
    yield 12, message(2, body + b"\0")
    yield 4, message(2, body, 17)
    yield 4, READY[:-1]
    yield 2, message(2, body + bytes(4097 - len(READY)))
    yield 12, message(2, body + bytes(4096 - len(READY)))


def short_entries(good):
    """0 to 7 bytes: under six is 1, then the event and the length are judged."""
    yield from ((1, good[:length]) for length in range(6))
    yield 3, bytes(6)
    yield 3, b"\xff" * 6
    yield 3, b"\xff" * 7


def before_ready(history):
    """Nothing is ready; what a writer may write it writes."""
    refused(history, *short_entries(READY), (4, READY[:6]), (4, READY[:7]), (5, message(2, b"\0")))
    down = frame(contact(1, 0x19, 100, 50))
    full = contact(2, 0x0A, -5, 7, left=-9, top=9, right=0, bottom=64, orientation=90, pressure=512)
    for sent in (touch(0, [down]), touch(0, []), padded(down, time=9), touch(70, [frame(), frame(full, offset=9)])):
        refused(history, (3, sent))
    refused(history, *((3, each) for each in (dismiss(1), dismiss(255), SUSPEND, RESUME, *READIES[:2])))
    refused(history, *((3, each) for _, each in damaged_others()))
    refused(history, *damaged_readies())
    refused(history, (2, message(TOUCH, bytes(4091))), (2, bytes(4097)), (3, message(TOUCH, bytes(4090))))


# The first frame (refusal 11)


def first_frames(history):
    """No frame yet; each of these is written as it is, or shorter."""
    writes(history, touch(9, []), 0)
    down = contact(1, 0x19, 100, 50)
    for offset in (1, 31, 32, U8.highest):
        refused(history, (11, touch(0, [frame(down, offset=offset), frame()])))
    refused(
        history,
        (11, touch(5, [frame(offset=1)])),
        (11, padded(frame(down, offset=1))),
        (11, padded(frame(offset=31), time=U4.highest, more=3)),
        (11, message(TOUCH, b"\0\1\1\1\1\x08")),  # before 8
        (11, message(TOUCH, b"\0\1\0\1\0")),  # before 12
        (12, message(TOUCH, b"\0\1\0\0\0")),
        (5, message(TOUCH, b"\0\1\1")),
    )
    writes(history, dismiss(1), 0)
    writes(history, padded(time=9), 0)
    # The mark goes with the call that had room, and not before.
    writes(history, touch(U4.highest, [frame(down)]), 2, 1, 0, 0)
    writes(history, touch(0, [frame(contact(1, 0x1A, 101, 51), offset=1)]), 2, 1, 0, 0)
    writes(history, touch(0, [frame(contact(1, 0x04, 101, 51), offset=U8.highest)]), 2, 1, 0, 0)


# What is accepted


def strokes(history):
    """Every combination of optional fields; one frame and several; no contact."""
    optional = dict(left=-64, top=63, right=0, bottom=16383, orientation=359, pressure=65000)
    sides = {side: optional[side] for side in house.SIDES}
    for present in range(8):
        fields = dict(sides) if present & 1 else {}
        fields.update({"orientation": 359} if present & 2 else {})
        fields.update({"pressure": 65000} if present & 4 else {})
        down = contact(present, 0x19, present, -present, **fields)
        assert down.fields_present == present
        writes(history, touch(present, [frame(down)]), 2, 1, 0, 0)
        moved = contact(present, 0x1A, 100 * present, 0)
        lift = moved._replace(flags=POSITION_KEPT[present % 3])
        writes(history, touch(3, [frame(moved, offset=8333), frame(), frame(lift, offset=16667)]), 5, 3, 0, 0)
        rest(history)
    far = contact(255, 0x0A, S4.highest, S4.lowest, left=S2.lowest, top=S2.highest, right=S2.lowest, bottom=S2.highest)
    writes(history, touch(0, [frame(far, offset=U8.highest)]), 2, 1, 0, 0)
    writes(history, touch(0, [frame(far._replace(flags=0x02, x=S4.lowest, y=S4.highest))]), 2, 1, 0, 0)


def contactless(history):
    """Frames without a contact, and no frame."""
    for count in (1, 2, 64):
        writes(history, touch(count, [frame(offset=count)] * count), count, count, 0, 0)
    writes(history, padded(frame(), frame(offset=5)), 2, 2, 0, 0)
    writes(history, touch(U4.highest, []), 0)
    writes(history, padded(time=1, more=3), 0)


def paddings(history):
    """Accepted, and refused by the strict reading alone: what is written is shorter, or has another minus zero."""
    for more in (1, 3, corpus.MOST_PADDING):
        down = contact(3, 0x19, -63, 127, left=-63, top=63, right=127, bottom=0, orientation=127, pressure=63)
        writes(history, padded(frame(down), time=127, more=more), 2, 1, 0, 0)
        moved = contact(3, 0x1A, 1, 2)
        writes(history, padded(frame(moved, offset=8), frame(moved._replace(flags=0x0C)), more=more), 4, 2, 0, 0)
        writes(history, padded(frame(contact(3, 0x02)), frame(), more=more), 3, 2, 0, 0)
    for length in range(1, S4.longest + 1):
        writes(history, touch(0, [frame(contact(7, 0x19))]), 2, 1, 0, 0)
        writes(history, with_minus_zero(contact(7, 0x04), ("x", "y"), length), 2, 1, 0, 0)


def dismissals(history):
    """A hovering contact's is a record; any other's is none."""
    for contact_id in (0, 128, 255):
        writes(history, dismiss(contact_id), 0)
        writes(history, touch(0, [frame(contact(contact_id, 0x0A, contact_id, -1))]), 2, 1, 0, 0)
        writes(history, dismiss(contact_id ^ 1), 0)
        writes(history, dismiss(contact_id), 1)
        writes(history, dismiss(contact_id), 0)
        writes(history, touch(0, [frame(contact(contact_id, 0x19, -9, contact_id))]), 2, 1, 0, 0)
        writes(history, dismiss(contact_id), 0)
        writes(history, touch(0, [frame(contact(contact_id, 0x0C, -9, contact_id))]), 2, 1, 0, 0)
        writes(history, dismiss(contact_id), 1)


def cancels(history):
    """Of one to ten contacts; by themselves, behind injected frames, before frames that are ignored or open again."""
    bad = frame(OFFENDING)
    order = [255, 3, 128, 0, 77, 254, 12, 127, 1, 200]
    for count in (1, 2, 3, 10):
        here = [contact(each, 0x19 if n % 2 else 0x0A, n, -n) for n, each in enumerate(order[:count])]
        opening = frame(contact(5, 0x19, 1, 2), contact(6, 0x19))
        # Cancelled by itself; one that cancels nothing more is ignored.
        rest(history)
        writes(history, touch(0, [frame(*here)]), 1 + count, 1, 0, 0)
        writes(history, touch(4, [bad]), count, 0, 0, 1)
        writes(history, touch(0, [bad, frame(), frame(here[0]._replace(flags=0x04))]), 0, 0, 3, 0)
        # A dismissal while ignoring.
        writes(history, dismiss(order[0]), 0)
        writes(history, touch(0, [opening]), 3, 1, 0, 0)
        # Behind an injected frame of the same message, and others behind it.
        rest(history)
        writes(history, touch(7, [frame(*here), bad]), 1 + count + count, 1, 0, 1)
        writes(history, touch(0, [opening, frame(contact(5, 0x1A, 3, 4), offset=1)]), 5, 2, 0, 0)
        rest(history)
        sent = [frame(), frame(*here, offset=3), bad, bad, frame(), opening, frame(contact(6, 0x0C))]
        writes(history, touch(1, sent), 1 + 1 + count + count + 3 + 2, 4, 2, 1)
        rest(history)
        # A cancel of nothing writes nothing; an opening frame that does not conform is one more.
        twice = frame(contact(5, 0x19), contact(5, 0x19))
        writes(history, touch(0, [bad, twice, twice]), 0, 0, 0, 3)
        writes(history, padded(twice, opening), 3, 1, 0, 1)
    # Too many, a position, an id twice.
    rest(history)
    crowd = [contact(each, 0x19, each, each) for each in range(MOST)]
    for bad in (frame(contact(MOST, 0x0A)), frame(contact(0, 0x04, 1, 0)), frame(*[contact(1, 0x1A)] * 2)):
        writes(history, touch(0, [frame(*crowd)]), 1 + MOST, 1, 0, 0)
        writes(history, touch(0, [bad]), MOST, 0, 0, 1)


def hovering_hands(history):
    """A hovering frame opens after a cancel (request #106) with ids that are not held, in the call that has room."""
    one, other, new = hover_play.ONE, hover_play.OTHER, hover_play.NEW
    rest(history)
    writes(history, touch(0, [hover_play.hover(one), hover_play.OFFENDING]), 3, 1, 0, 1)
    # Whoever comes with a held id is held too.
    writes(history, touch(0, [hover_play.hover(one, other), hover_play.hover(other)]), 0, 0, 2, 0)
    writes(history, touch(0, [hover_play.hover(new)]), 2, 1, 0, 0)
    writes(history, touch(0, [hover_play.OFFENDING]), 1, 0, 0, 1)
    writes(history, touch(0, [hover_play.hover(new), hover_play.lists(0x02, new), hover_play.hover(new)]), 2, 1, 2, 0)
    writes(history, touch(0, [hover_play.OFFENDING]), 1, 0, 0, 1)
    writes(history, dismiss(new), 0)
    writes(history, padded(hover_play.hover(new, other), hover_play.press(new)), 5, 2, 0, 0)
    writes(history, dismiss(other), 1)


# What is refused


def faults():
    """Each number that a receiver past its first frame gives."""
    full = contact(3, 0x0A, -50, 900, left=-5, top=70, right=5, bottom=-70, orientation=300, pressure=40000)
    fields = touch_fields(70, [frame(full, offset=40), frame(contact(1, 0x0A))])
    body = corpus.body_of(fields)
    names = [field.name for field in fields]
    for number, name, value in (
        (7, "frameCount", 65),
        (5, "frameCount", 3),
        (12, "frameCount", 1),
        (7, "contactCount", 257),
        (8, "fieldsPresent", 8),
        (8, "fieldsPresent", 0x7FFF),
        (9, "contactFlags", 0x00),
        (9, "contactFlags", 0x1B),
        (9, "contactFlags", U4.highest),
        (10, "orientation", 360),
        (10, "pressure", 65001),
    ):
        at = names.index(name)
        wrong = corpus.integer_field(name, fields[at].kind, value)
        yield number, message(TOUCH, corpus.with_field(fields, at, wrong.data))
        if len(wrong.data) < wrong.kind.longest:
            yield number, message(TOUCH, corpus.with_field(fields, at, corpus.longer(wrong).data))
    yield from ((5, message(TOUCH, body[:length])) for length in range(0, len(body), 4))
    yield 5, message(TOUCH, b"\0\1\x81\0\0")  # 256 contacts, none of them there
    yield from ((12, message(TOUCH, body + more)) for more in (b"\0", b"\xff" * 5))
    yield from ((4, message(TOUCH, body, length)) for length in (0, len(body), len(body) + 7, 1 << 24 | len(body) + 6))
    yield from ((3, message(event, body)) for event in (0, 7, 8, 0x0103, 0x0300))
    yield 5, message(6, b"")
    yield 12, message(6, b"\1\1")
    yield 4, message(6, b"\1", 8)
    yield 4, dismiss(1)[:6]
    yield from short_entries(touch(0, []))
    yield 4, touch(0, [])[:6]
    yield 4, touch(0, [])[:7]
    yield 5, message(TOUCH, b"\0")


def faults_between(history):
    """A contact is down; nothing that is refused takes it away."""
    rest(history)
    down = contact(1, 0x19, 5, 6)
    injected(history, touch(0, [frame(down)]))
    for place, (number, faulty) in enumerate(faults()):
        answered(history, faulty, number)
        if place % 12 == 0:
            injected(history, touch(0, [frame(down._replace(flags=0x1A), offset=place)]))
    injected(history, touch(0, [frame(down._replace(flags=0x04))]))


def others_between(history):
    """A receiver that is ready refuses them by 3, and they are accepted by themselves."""
    for place, ready in enumerate(READIES):
        refused(history, (3, ready), (3, SUSPEND), (3, RESUME))
        writes(history, touch(0, [frame(offset=place)]), 1, 1, 0, 0)
    refused(history, *((3, each) for _, each in damaged_others()))


# Long messages


class Crowd:
    """Frames one after the other for a receiver, with contacts of five bytes: even ids hover, odd ones are engaged."""

    def __init__(self, keeper):
        self.keeper = keeper
        self.frames = []
        self.ids = itertools.cycle(range(OFFENDING_ID))

    def add(self, *contacts):
        self.frames.append(frame(*contacts, offset=len(self.frames) % 32))
        self.keeper, _, _ = receiver.frame_step(self.keeper, self.frames[-1])

    def coming(self, count):
        """The next ids that are not active."""
        free = (each for each in self.ids if each not in self.keeper.active)
        return [contact(each, 0x19 if each % 2 else 0x0A, each % 32, -count) for each in itertools.islice(free, count)]

    def listed(self, contact_id, hovering_flags, engaged_flags):
        place = self.keeper.place(contact_id)
        flags = engaged_flags if place.state == ENGAGED else hovering_flags
        return contact(contact_id, flags, place.x, place.y)

    def exchanged(self, count):
        """As many come as go, and all others are listed too: so many contacts, with ten active before and after."""
        here, changing = sorted(self.keeper.active), count - MOST
        going = [self.listed(each, 0x02, 0x04) for each in here[:changing]]
        staying = [self.listed(each, 0x0A, 0x1A) for each in here[changing:]]
        self.add(*self.coming(changing), *staying, *going)

    def cancelled_and_opened(self):
        """The ids that open are not those that are held, so some of them may hover."""
        opening = self.coming(MOST)
        self.add(OFFENDING)
        self.add(*opening)


def fullest(keeper):
    """64 frames for a receiver with ten active, with the most records that we found a message to write there.

    A cancel writes ten records for a frame of seven bytes, and an opening frame has to follow it; in any other frame at
    most ten contacts go and ten come. With c cancels and c - 1 openings of ten there is room in 4,096 bytes for 65 - 2c
    other frames of 802 - 11c contacts in all: 8c + 856 records. More than 17 cancels leave too few frames for so many
    contacts; 17 leave 31 frames of 615 contacts, which is 26 times 20 and 5 times 19.
    """
    crowd = Crowd(keeper)
    for place in range(31):
        crowd.exchanged(20 if place < 26 else 19)
        if place % 2 or place == 30:
            crowd.cancelled_and_opened()
    crowd.add(OFFENDING)
    return crowd.frames


def long_frames():
    """Contacts of 24 bytes; 4,002 bytes in all, before the offsets are made longer."""
    sides = dict(left=S2.lowest, top=S2.highest, right=S2.highest, bottom=S2.lowest)
    far = [
        contact(each, 0x0A, S4.highest - each, S4.lowest + each, **sides, orientation=359, pressure=65000)
        for each in range(MOST)
    ]
    return [frame(*far)] * 16 + [frame(*far[:5])]


def long_messages(history):
    """4,096 bytes are read and written, 4,097 are not."""
    rest(history)
    ten = [contact(each, 0x19 if each % 2 else 0x0A) for each in range(MOST)]
    writes(history, touch(0, [frame(*ten)]), 1 + MOST, 1, 0, 0)
    frames = fullest(history.receiver)
    assert (len(frames), len(touch(63, frames)), len(touch(64, frames))) == (64, 4096, 4097)
    refused(history, (2, touch(64, frames)))
    writes(history, touch(63, frames), 992, 47, 0, 17)
    rest(history)
    writes(history, touch(0, corpus.stretched(long_frames(), 4096)), 17 + 165, 17, 0, 0)
    refused(history, (2, touch(0, corpus.stretched(long_frames(), 4097))))
    rest(history)
    writes(history, touch_of(corpus.padded_to(padded_play.many_fields(), 4096)), 320, 64, 0, 0)
    refused(history, (2, touch_of(corpus.padded_to(padded_play.many_fields(), 4097))))
    refused(history, (12, message(TOUCH, bytes(4090))), (2, message(TOUCH, bytes(5000))))
    refused(history, (2, b"\xff" * entries.LONGEST_ENTRY))
    refused(history, (2, message(1, bytes(4091))), (2, message(4, bytes(4091))), (3, message(5, bytes(4090))))


def wide_frames(history):
    """Up to 256 contacts (request #107) are read and written; no receiver injects them where ten may be active."""
    rest(history)
    writes(history, touch(0, [frame(contact(1, 0x19)), wide_play.wide(64, offset=1)]), 3, 1, 0, 1)
    writes(history, touch(0, [wide_play.wide(256), frame(contact(1, 0x19))]), 2, 1, 0, 1)
    for each in corpus.with_each_count(1, [wide_play.wide(63, 0x1A)]):
        history.send(each)
    refused(history, (7, touch(0, [wide_play.wide(257)])), (7, message(TOUCH, b"\0\1\x81\1\0")))


# Random use


def mixture(history, rng, steps):
    """Messages of both kinds, damaged ones, dismissals, and those of the other events."""
    for _ in range(steps):
        make_bench.walk(history, rng, IDS, rng.randint(1, 3), faults=0.2)
        padded_play.walk(history, rng, IDS, rng.randint(1, 2), faults=0.2)
        server, client = rng.choice(READIES[:2]), rng.choice(READIES[2:])
        for other in rng.choice(((SUSPEND, RESUME), (RESUME, server), (server, SUSPEND), (client,))):
            history.send(other if rng.random() < 0.7 else corpus.damaged(rng, other))


# Files


def history():
    sent, rng = History(), random.Random(SEED)
    sent.era = eras.TODAY
    before_ready(sent)
    answered(sent, READY)
    answered(sent, READY, 3)
    first_frames(sent)
    strokes(sent)
    contactless(sent)
    paddings(sent)
    others_between(sent)
    dismissals(sent)
    cancels(sent)
    hovering_hands(sent)
    faults_between(sent)
    long_messages(sent)
    wide_frames(sent)
    rest(sent)
    mixture(sent, rng, 24)
    return sent


# Said beforehand of every entry

# How many numbers each call answers.
NUMBERS = {"receive": 6, "plain": 3, "strict": 3}
WRITERS = ("header", "touch", "server_ready", "client_ready", "suspend", "resume", "dismiss")
NUMBERS.update((name, 2) for name in WRITERS)


def check_rooms(calls):
    """Two lines of a call: 13, with nothing else and the output kept; then all of it is filled. One line: no output."""
    assert [each.name for each in calls[:1]] == ["receive"]
    names = list(dict.fromkeys(each.name for each in calls))
    for name in names:
        first, *second = [each for each in calls if each.name == name]
        assert len(first.numbers) == NUMBERS[name]
        if not second:
            assert first.room == 0 and first.refusal != NO_ROOM, first
            continue
        (enough,) = second
        assert first.numbers == (NO_ROOM, *[0] * (NUMBERS[name] - 1)) and first.kept, first
        assert (enough.refusal, enough.room) == (NONE, first.room + 1), enough
        assert enough.numbers[-1] * (house.LENGTH if NUMBERS[name] > 2 else 1) == enough.room, enough


# What must be there, by call: every number that it gives.
ALL_REFUSALS = {
    "receive": {NONE, *range(1, 6), *range(7, 14)},
    "plain": {NONE, *range(1, 6), *range(7, 11), 12, 13},
    "strict": {NONE, *range(1, 11), 12, 13},
}


def check_coverage(counts):
    for name in NUMBERS:
        assert {number for each, number in counts if each == name} == ALL_REFUSALS.get(name, {NONE, NO_ROOM}), name
        assert counts[name, NO_ROOM] >= 8, name


def report(counts, stdin, stdout, entry_count):
    corpus.report(f"stdin {len(stdin)} bytes, stdout {len(stdout)} bytes")
    corpus.report(f"entries {entry_count}, lines {len(stdout.splitlines())}")
    for name in NUMBERS:
        numbers = sorted((number, count) for (each, number), count in counts.items() if each == name)
        corpus.report(f"  {name:13}" + ", ".join(f"{number} {NAMES[number]} {count}" for number, count in numbers))


def main():
    directory = corpus.output_directory()
    sent = history()
    stdin = corpus.joined(sent.entries)
    counts = Counter()
    for calls in rooms.lent_calls(stdin):
        check_rooms(calls)
        counts.update((each.name, each.refusal) for each in calls)
    stdout = rooms.rooms(stdin)
    report(counts, stdin, stdout, len(sent.entries))
    check_coverage(counts)
    assert len(stdout) < MOST_STDOUT and FEWEST_ENTRIES <= len(sent.entries) <= MOST_ENTRIES
    corpus.write_files(directory, {"stdin": stdin, "stdout": stdout})
    sent.coverage.report()


if __name__ == "__main__":
    main()
