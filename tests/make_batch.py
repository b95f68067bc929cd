"""Writes the corpora of 'batch'.

OUTDIR/stdin and stdout: one long use of a receiver with maxTouchContacts 10 and
ready flags 0; the file ends whole.
OUTDIR/more/NAME.batch and .stdout: other settings, since a receiver takes only
one client ready, and other ends of a file.
"""

import os
import random

import batches
import corpus
import eras
import hover_coverage
import hover_play
import make_bench
import padded_play
import wide_play
from batches import AMPLE, HIGHEST_PLACES, HIGHEST_ROOM, MOST_PLACES, MOST_ROOM, Host, mixture, one, room_for
from corpus import client_ready, contact, dismiss, frame, message, touch
from make_bench import EXAMPLE, IDS, TOUCH, V100, V101
from padded_play import padded, with_minus_zero
from reference import entries, integers, programs
from reference.integers import U8

SEED = 20260309

MOST = 10
READY = client_ready(0, V101, MOST)
LONGEST_BUFFER = entries.LONGEST_ENTRY - 6

DOWN, UPDATE, LIFT, HOVER = one(0x19), one(0x1A), one(0x04), one(0x0A)


# Before client ready


def short_entries(host):
    """Under six bytes there is no room and no list; with six the buffer is empty."""
    host.bad(*(bytes(length) for length in range(6)))
    host.bad(b"\0\0\xff\xff\0", b"\xff" * 5)
    for room in (0, 1, AMPLE, HIGHEST_ROOM):
        for places in (0, 1, 256, HIGHEST_PLACES):
            host.accepted(room=room, places=places)


def unready(host):
    """All that a receiver refuses that is not ready, in batches of 40."""
    faulty = list(make_bench.before_ready(READY))
    for at in range(0, len(faulty), 40):
        _, answers = host.send(faulty[at : at + 40])
        assert all(each.refusal for each in answers) and not host.receiver.ready


def becoming_ready(host, ready):
    """Client ready inside a batch: frames before it are refused by 3, those behind it are taken."""
    host.refused([ready], tail=b"\0")
    host.fed([3, 3], [DOWN, dismiss(1)])
    host.refused([ready], places=0)
    host.refused([ready, DOWN, LIFT], places=2)
    host.fed([3, 1, 3], [DOWN, b"", UPDATE], places=9)
    faulty = client_ready(4, V101, MOST)
    host.fed([3, 3, 8, 4, 0, 3, 0], [DOWN, dismiss(1), faulty, ready + b"\0", ready, ready, dismiss(1)], room=0)


def first_frame(host):
    """A frame that found no room is no first frame: 11 is judged until one is accepted."""
    late = one(0x19, offset=1)
    host.fed([0, 11, 0], [touch(9, []), late, dismiss(1)])
    host.fed([0, 13, 11, 0], [touch(9, []), DOWN, late, dismiss(1)], room=0)
    host.fed([13, 11], [DOWN, late], room=room_for(2) - 1)
    host.refused([DOWN], places=0)
    host.fed([11], [late])
    host.fed([11, 0, 0], [late, touch(70, [frame(contact(1, 0x19, 5, 6))]), one(0x1A, offset=16000)])


# 18


def incomplete_ends():
    """What may stand where the last entry is incomplete."""
    yield b"\0"
    yield b"\xff"
    yield b"\0\1"
    yield b"\xff\xff"
    yield corpus.cut_entry(LIFT[:-1])
    yield corpus.cut_entry(LIFT[:6], len(LIFT) - 6)
    yield corpus.cut_entry(LIFT, 0x100)
    yield corpus.cut_entry(bytes(4095))
    yield corpus.cut_entry(bytes(4096))
    yield corpus.cut_entry(bytes(4097), 0xFFFF - 4097)


def incomplete_batches(host):
    """Contact 1 is down before each and goes on in the batch behind it: no lift was fed."""
    host.rest()
    host.accepted(DOWN)
    for tail in incomplete_ends():
        host.refused([], tail=tail)
        host.refused([], places=1, tail=tail)
        host.refused([LIFT], tail=tail)
        host.accepted(UPDATE, room=room_for(2))
        host.refused([LIFT, b"", DOWN], room=0, places=HIGHEST_PLACES, tail=tail)
        host.accepted(UPDATE, UPDATE, room=room_for(4), places=3)
    # Two zeros are an entry of no bytes, three are that and the first half of a length.
    host.fed([1], [b""])
    host.refused([b""], places=2, tail=b"\0")
    host.accepted(LIFT)


def short_lists(host):
    """One place too few, none at all, just enough, more."""
    host.rest()
    host.accepted(DOWN)
    for count in (1, 2, 3, 16, 64):
        lifted = [LIFT, DOWN] * (count // 2) + [LIFT] * (count % 2)
        for places in sorted({0, 1, count // 2, count - 1} - {count}):
            host.refused(lifted, places=places)
            host.refused(lifted, places=places, tail=b"\0")
            host.accepted(UPDATE)
        for places in (count, count + 1, 0x100, MOST_PLACES, MOST_PLACES + 1, HIGHEST_PLACES):
            host.accepted(*[UPDATE] * count, places=places)
    host.refused([b""], places=0)
    host.refused([bytes(4097)], places=0)
    host.accepted(LIFT)


def many_entries(host):
    """4,096 entries are the most; no list holds more."""
    for places in (MOST_PLACES - 1, MOST_PLACES, MOST_PLACES + 1, HIGHEST_PLACES):
        host.refused([b""] * (MOST_PLACES + 1), places=places)
    host.refused([b""] * (LONGEST_BUFFER // 2), places=HIGHEST_PLACES)
    host.refused([b""] * MOST_PLACES, places=MOST_PLACES - 1)
    host.refused([b""] * MOST_PLACES, places=HIGHEST_PLACES, tail=b"\0")
    host.fed([1] * MOST_PLACES, [b""] * MOST_PLACES, room=0, places=HIGHEST_PLACES)
    host.rest()
    few = [one(0x0A, each, each, -each) for each in range(5)]
    host.accepted(*few, *(dismiss(each % 256) for each in range(MOST_PLACES - 5)), places=MOST_PLACES)


# Room


ROOM_RUN = (
    (3, touch(1, [frame(contact(1, 0x19, 5, 6), contact(2, 0x0A, 9, 9))])),
    (5, touch(2, [frame(contact(3, 0x0A)), frame(contact(1, 0x1A, 7, 8), contact(2, 0x0A, 1, 1), offset=9)])),
    (1, dismiss(2)),
    (1, touch(3, [frame(offset=4)])),
    (0, touch(4, [])),
    (2, touch(5, [frame(contact(9, 0x1A))])),
    (0, touch(6, [frame(contact(1, 0x1A, 7, 8))])),
    (2, touch(7, [frame(contact(4, 0x19))])),
)


def rooms(host):
    """One run of eight messages with every number of records that fits, and a byte less and more."""
    most = sum(records for records, _ in ROOM_RUN)
    sent = [each for _, each in ROOM_RUN]
    for records in range(most + 1):
        for room in sorted({room_for(records) - 1, room_for(records), room_for(records) + 1} - {-1}):
            host.rest()
            host.send(sent, room=room)
    host.rest()
    host.accepted(*sent, room=room_for(most))


def no_room_between(host):
    """13 in the midst; what is smaller and comes later is still written, and what was not written did not happen."""
    wide = touch(0, [frame(*(contact(each, 0x0A, each, each) for each in range(4)))])
    host.rest()
    host.accepted(one(0x0A, 7), one(0x19, 8))
    for sent, room, refusals in (
        ([wide, dismiss(7)], room_for(1), [13, 0]),
        ([one(0x0A, 7), wide, one(0x1A, 8)], room_for(4), [0, 13, 0]),
        ([wide, wide, dismiss(0), dismiss(7), wide], room_for(5), [0, 13, 13, 13, 13]),
        ([dismiss(0), wide, dismiss(1), dismiss(7), dismiss(2), dismiss(0)], room_for(3), [0, 13, 0, 0, 13, 0]),
        # A cancel of three finds no room, so the receiver goes on running.
        ([one(0x1A, 9), wide, one(0x1A, 8)], room_for(2), [13, 13, 0]),
        ([wide], 0, [13]),
        ([dismiss(8), touch(3, []), wide, dismiss(99)], 0, [0, 0, 13, 0]),
        ([wide, b"", one(0x04, 8), message(TOUCH, b"")], room_for(2), [13, 1, 0, 5]),
    ):
        host.fed(refusals, sent, room=room)
    host.rest()
    host.fed([13] * 5, [DOWN, HOVER, wide, touch(0, [frame()]), one(0x19, 8)], room=room_for(1) - 1)
    for room in (AMPLE, 0x01000000, 0x80000000, HIGHEST_ROOM):
        host.accepted(DOWN, LIFT, room=room)


def greatest_room(host):
    """131,072 bytes are 6,241 records and 11 bytes, however much more the entry says."""
    none = [touch(0, [frame()] * 64)] * 97 + [touch(0, [frame()] * 34), touch(0, [frame()] * 33)]
    behind = [touch(0, [frame()]), touch(8, []), dismiss(0), touch(0, [frame(offset=1)])]
    for room in (MOST_ROOM, MOST_ROOM + 1):
        host.rest()
        host.fed([0] * 97 + [13, 0, 13, 0, 0, 13], none + behind, room=room)
    host.rest()
    crowd = [frame(*(contact(each, flags, each, -each) for each in range(MOST))) for flags in (0x19, 0x1A)]
    few = [frame(*(contact(each, 0x1A, each, 9) for each in range(count))) for count in (4, 3)]
    sent = [touch(1, crowd[:1] + crowd[1:] * 62)] + [touch(2, crowd[1:] * 63)] * 8
    host.fed([0] * 9 + [13, 0, 13, 0, 0, 13], sent + [touch(3, few[:1]), touch(4, few[1:])] + behind, room=HIGHEST_ROOM)


# What is fed


def by_refusal():
    """Messages for a ready receiver past its first frame, each with its number; padded ones are accepted."""
    full = contact(1, 0x1A, 5, 6, left=0, top=0, right=0, bottom=0, orientation=0, pressure=0)
    fields = corpus.touch_fields(3, [frame(full)])
    names = [field.name for field in fields]

    def over(name, value):
        at = names.index(name)
        return message(TOUCH, corpus.with_field(fields, at, integers.encode(fields[at].kind, value)))

    yield from ((1, UPDATE[:length]) for length in range(6))
    yield from ((2, good + bytes(4097 - len(good))) for good in (UPDATE, message(7, b"")))
    yield from ((3, each) for each in (READY, message(1, bytes(4)), message(4, b""), message(5, b""), message(7, b"")))
    yield from ((4, each) for each in (UPDATE[:-1], UPDATE + b"\0", dismiss(1) + b"\0"))
    yield from ((5, message(TOUCH, body)) for body in corpus.cut_bodies(fields))
    yield from ((0, message(TOUCH, body)) for body in corpus.other_form_bodies(fields))
    yield from ((number, over(name, value)) for number, name, value in ((7, "frameCount", 65), (5, "contactCount", 64)))
    yield 8, over("fieldsPresent", 8)
    yield from ((9, over("contactFlags", flags)) for flags in (0, 0x1B, 0x18))
    yield from ((10, over(name, value)) for name, value in (("orientation", 360), ("pressure", 65001)))
    yield 12, message(TOUCH, corpus.body_of(fields) + b"\0")
    yield 12, message(6, b"\1\1")


def damaged_between(host):
    """Each between two good ones, and all of them in one batch. A padded one takes the room of the one behind it."""
    host.rest()
    host.accepted(DOWN)
    sent = [(0, UPDATE)]
    for number, faulty in by_refusal():
        host.fed([0, number, 0 if number else 13], [UPDATE, faulty, UPDATE], room=room_for(4))
        sent += [(number, faulty), (0, UPDATE)]
    host.fed([number for number, _ in sent], [each for _, each in sent])
    host.accepted(LIFT)


def sizes(host):
    """4,096 bytes are fed, more are refused by 2, whatever they hold; the longest entry fills the whole buffer."""
    few = [contact(each, 0x0A, 300 + each, -7, pressure=20000) for each in range(7)]
    frames = [frame(*few)] + [frame(*few, offset=2)] * 61
    host.rest()
    for length, number in ((4095, 0), (4096, 0), (4097, 2)):
        long = touch(0, corpus.stretched(frames, length))
        host.fed([0, number, 0], [HOVER, long, one(0x0A, 8)], room=room_for(4) + 62 * room_for(8))
        host.fed([number or 13, 0], [long, HOVER], room=room_for(2))
    sent = [HOVER, bytes(4097), HOVER, b"", bytes(5000), READY + bytes(5000), dismiss(1)]
    host.fed([0, 2, 0, 1, 2, 2, 0], sent)
    host.fed([2], [bytes(LONGEST_BUFFER - 2)], room=0)


def bursts(host):
    """64 messages of one contact."""
    burst = [one(0x1A, 5, each, -each, time=each, offset=100 * each) for each in range(64)]
    burst[0], burst[63] = one(0x19, 5, time=1), one(0x04, 5, 62, -62, time=64)
    needed = room_for(2) * 64
    host.rest()
    host.accepted(*burst, room=needed)
    host.refused(burst, places=63)
    host.accepted(*burst, places=MOST_PLACES)
    host.fed([0] * 63 + [13], burst, room=needed - 1)
    host.rest()
    host.fed([0] * 32 + [13] * 32, burst, room=needed // 2)
    host.rest()
    host.accepted(*(one(0x19, each, each, each) for each in range(64)))


def held_over(host):
    """Contacts, the mode and the ignoring last from one batch to the next."""
    host.rest()
    host.accepted(one(0x19, 1), one(0x0A, 2), one(0x19, 255, -1, -2))
    host.accepted(one(0x1A, 1, 8, 8), dismiss(1), dismiss(2), dismiss(2))
    host.accepted(one(0x0C, 255, -1, -2), one(0x04, 1, 8, 8))
    host.accepted(dismiss(255), one(0x19, 1), one(0x0A, 2))
    # A lift beside the stored position cancels; the frames behind it are ignored, in the next batch too.
    host.accepted(one(0x04, 1, 6, 6), one(0x1A, 1), dismiss(2))
    host.accepted(one(0x04, 1), touch(1, [frame(), frame()]), one(0x0A, 2))
    host.refused([one(0x19, 1)], places=0)
    host.fed([13, 0, 0], [one(0x19, 1), one(0x1A, 1), dismiss(1)], room=room_for(2) - 1)
    host.accepted(touch(2, [frame(contact(1, 0x19), contact(1, 0x19)), frame(contact(2, 0x1A))]))
    host.accepted(one(0x19, 1, 3, 4), one(0x1A, 1))
    host.accepted(LIFT, one(0x04, 1))


# Padding (request #104)


def padded_one(flags, contact_id=1, x=5, y=6, more=1):
    return padded(frame(contact(contact_id, flags, x, y)), more=more)


def padded_entries(host, rng):
    """Fed like the others: what they write is as long as if they were not padded, and so is the room that it needs."""
    host.era = eras.PRESSED
    host.rest()
    for more in padded_play.PADDINGS:
        down, update, lift = (padded_one(flags, more=more) for flags in (0x19, 0x1A, 0x04))
        host.accepted(down, update, lift, room=room_for(6))
        host.accepted(down, UPDATE, lift, DOWN, update, LIFT, room=room_for(12))
        host.fed([0, 0, 13], [down, update, lift], room=room_for(6) - 1)
        host.fed([0, 13, 0], [update, padded(frame(), frame(), frame(), more=more), lift], room=room_for(4))
        host.accepted(down)
        host.refused([lift], places=0)
        host.refused([lift], tail=b"\0")
        host.refused([lift], tail=corpus.cut_entry(lift[:-1]))
        # A lift beside the stored position cancels; what is padded is ignored, and opens.
        host.accepted(padded_one(0x04, x=6, more=more), update, lift, padded(time=7, more=more), down, lift)
    host.accepted(one(0x19, x=0, y=0), with_minus_zero(contact(1, 0x04), ("x", "y"), 1), room=room_for(4))
    host.accepted(with_minus_zero(contact(1, 0x19), ("x", "y"), 4), one(0x04, x=0, y=0), room=room_for(4))
    many = padded_play.many_fields()
    for length, number in ((4095, 0), (4096, 0), (4097, 2)):
        sent = [HOVER, corpus.touch_of(corpus.padded_to(many, length)), one(0x0A, 8)]
        host.fed([0, number, 0], sent, room=room_for(4) + 64 * room_for(5))
    host.rest()
    host.accepted(padded_one(0x19))
    faulty = list(padded_play.faults())
    for number, each in faulty:
        host.fed([0, number, 0], [padded_one(0x1A), each, UPDATE], room=room_for(4))
    host.fed([number for number, _ in faulty] + [0], [each for _, each in faulty] + [padded_one(0x04)])
    for _ in range(20):
        mixture(host, rng, IDS, play=padded_play.walk)


# Hovering after a cancel (request #106)

INJECTED, IGNORED, CANCELLED = (0, 1, 0, 0), (0, 0, 1, 0), (0, 0, 0, 1)
NOTHING, NO_ROOM = (0, 0, 0, 0), (13, 0, 0, 0)
HAND, NEW, ODD = hover_play.ONE, hover_play.NEW, hover_play.ODD
RETURNS, COMES, GOES = one(0x0A, HAND), one(0x0A, NEW), one(0x02, HAND)


def several(*frames):
    return touch(0, frames)


def held(host):
    """A hand hovers and is cancelled: its id and that of the odd update are held."""
    host.rest()
    host.answered((RETURNS, INJECTED), (one(0x1A, ODD), CANCELLED))
    assert host.receiver.held == {HAND, ODD}


def no_room_to_open(host):
    """A frame that finds no room has not opened, and what came before it in its message did not happen either."""
    gone_and_new = several(hover_play.lists(0x02, HAND), hover_play.hover(NEW))
    new_and_gone = several(hover_play.lists(0x1A, NEW), hover_play.lists(0x22, HAND), hover_play.hover(HAND))
    for room in (0, 1, room_for(2) - 1):
        held(host)
        host.answered((COMES, NO_ROOM), (RETURNS, IGNORED), (COMES, NO_ROOM), (dismiss(NEW), NOTHING), room=room)
        host.answered((gone_and_new, NO_ROOM), (RETURNS, IGNORED), room=room)
        host.answered((new_and_gone, NO_ROOM), (RETURNS, IGNORED), room=room)
        host.refused([GOES], places=0)
        host.refused([dismiss(HAND), GOES], tail=b"\0")
        host.answered((RETURNS, IGNORED), room=room)
        assert host.receiver.held == {HAND, ODD}
        host.answered((dismiss(HAND), NOTHING), (RETURNS, NO_ROOM), (RETURNS, NO_ROOM), room=room)
        host.answered((RETURNS, INJECTED), (COMES, NO_ROOM), room=room_for(2))
        held(host)
        host.answered((GOES, IGNORED), (RETURNS, NO_ROOM), room=room)
        host.answered((RETURNS, INJECTED), room=room_for(2))
        held(host)
        host.answered((COMES, INJECTED), room=room_for(2))
    held(host)
    host.answered((gone_and_new, (0, 1, 1, 0)), (new_and_gone, NO_ROOM), room=room_for(2))
    # The cancel of a hand needs room for one record, and what opens behind it for two.
    host.rest()
    host.answered((RETURNS, INJECTED))
    cancel_and_open = several(hover_play.OFFENDING, hover_play.lists(0x02, HAND), hover_play.hover(HAND))
    host.answered((cancel_and_open, NO_ROOM), (one(0x1A, ODD), CANCELLED), room=room_for(2))
    host.answered((RETURNS, IGNORED), (GOES, IGNORED), (RETURNS, INJECTED), (one(0x1A, ODD), NO_ROOM), room=room_for(2))
    host.answered((cancel_and_open, (0, 1, 1, 1)), (one(0x1A, ODD), NO_ROOM), room=room_for(3))


def opened_without_room(host):
    """A frame that opens and is cancelled writes nothing: it needs no room, and only its own ids are held then."""
    for flags in ((0x0A, 0x0A), (0x19, 0x19), (0x0A, 0x19), (0x19, 0x0A)):
        held(host)
        twice = several(hover_play.in_order(20, *flags))
        host.answered((twice, CANCELLED), (one(0x0A, 20), IGNORED), (RETURNS, NO_ROOM), room=0)
        assert host.receiver.held == {20}
        host.answered((one(0x19, 20), INJECTED) if flags == (0x0A, 0x0A) else (RETURNS, INJECTED), room=room_for(2))


def held_one_by_one(host):
    """The set lasts from one batch to the next."""
    held(host)
    for sent, want in (
        (COMES, INJECTED),
        (one(0x1A, ODD), CANCELLED),
        (COMES, IGNORED),
        (one(0x0C, NEW), IGNORED),
        (COMES, IGNORED),
        (several(hover_play.in_order(NEW, 0x04, 0x1A)), IGNORED),
        (COMES, IGNORED),
        (several(hover_play.in_order(NEW, 0x1A, 0x04)), IGNORED),
        (several(hover_play.hover(NEW, ODD)), IGNORED),
        (one(0x24, NEW), IGNORED),
        (several(hover_play.joined(hover_play.hover(NEW), hover_play.press(ODD))), IGNORED),
        (several(), NOTHING),
        (several(frame()), IGNORED),
        (dismiss(NEW), NOTHING),
        (COMES, INJECTED),
    ):
        host.answered((sent, want))


def all_dismissed(host):
    """Every id is held, and all but one are dismissed in one batch; then that one too."""
    for last in (0, 77, 255):
        held(host)
        host.answered(*((several(hover_play.lists(0x1A, *group)), IGNORED) for group in hover_play.GROUPS), room=0)
        others = [each for each in range(256) if each != last]
        host.answered(*((one(0x0A, each), IGNORED) for each in (*others[:3], last, *others[-3:])), room=0)
        host.answered(*((dismiss(each), NOTHING) for each in others), (one(0x0A, last), IGNORED), room=0)
        host.answered((several(hover_play.hover(*others[:3], last)), IGNORED))
        host.answered(*((dismiss(each), NOTHING) for each in others[:3]))
        host.answered((one(0x0A, last), IGNORED), (several(hover_play.hover(*others[-MOST:])), INJECTED))


def hovering_entries(host, rng):
    host.era = eras.NARROW
    no_room_to_open(host)
    opened_without_room(host)
    held_one_by_one(host)
    all_dismissed(host)
    for _ in range(70):
        mixture(host, rng, IDS, faults=0.5, play=hover_play.walk)


# Frames of up to 256 contacts (request #107)


def wide_entries(host, rng):
    """Ten may be active: a wide frame needs room for those that it cancels; ignored or cancelled again, for none."""
    host.era = eras.TODAY
    for count in wide_play.COUNTS:
        for sent in corpus.with_each_count(count, [wide_play.wide(count)]):
            host.rest()
            host.accepted(one(0x19, 1), one(0x0A, 2))
            host.answered((sent, NO_ROOM), (dismiss(9), NOTHING), room=room_for(2) - 1)
            host.answered((sent, CANCELLED), room=room_for(2))
            host.answered((several(wide_play.wide(count, 0x1A)), IGNORED), (sent, CANCELLED), room=0)
    host.rest()
    host.accepted(DOWN)
    for number, faulty in wide_play.short_faults():
        host.fed([0, number, 0], [UPDATE, faulty, UPDATE], room=room_for(4))
    faulty = list(wide_play.faults())
    host.fed([number for number, _ in faulty] + [0], [each for _, each in faulty] + [LIFT], room=room_for(2))
    for _ in range(12):
        mixture(host, rng, list(range(256)), faults=0.3, play=wide_play.walk)


def wide_rooms(host):
    """256 may be active: room for a frame of 256, for three, for their cancel, and a byte too little for each."""
    come, move, go = (several(each) for each in wide_play.down_moved_up(256))
    bad = several(wide_play.twice(0x0A, 0, 255))
    for sent, records in ((come, 257), (move, 257), (go, 257), (come, 257), (bad, 256)):
        host.fed([13, 0], [sent, dismiss(9)], room=room_for(records) - 1)
        host.fed([0, 13], [sent, several(wide_play.wide(1))], room=room_for(records))
    host.fed([13, 0], [several(*wide_play.down_moved_up(256)), come], room=room_for(3 * 257) - 1)
    host.rest()
    host.accepted(several(*wide_play.down_moved_up(256)), room=room_for(3 * 257))
    for count in wide_play.COUNTS:
        come, move, go = (several(each) for each in wide_play.down_moved_up(count, first=count))
        sent = [come, move, several(wide_play.wide(257)), go, dismiss(0)]
        host.fed([0, 0, 7, 13, 0], sent, room=room_for(2 * count + 2))
        host.accepted(go, room=room_for(count + 1))


# Files


def main_batches():
    host, rng = Host(), random.Random(SEED)
    short_entries(host)
    unready(host)
    becoming_ready(host, READY)
    first_frame(host)
    held_over(host)
    damaged_between(host)
    incomplete_batches(host)
    short_lists(host)
    rooms(host)
    no_room_between(host)
    sizes(host)
    bursts(host)
    many_entries(host)
    greatest_room(host)
    mixtures(host, rng, IDS, 130)
    padded_entries(host, random.Random(SEED + 4))
    hovering_entries(host, random.Random(SEED + 5))
    wide_entries(host, random.Random(SEED + 6))
    return host


def mixtures(host, rng, ids, count):
    for number in range(count):
        mixture(host, rng, ids)
        if number % 25 == 24:
            host.bad(rng.randbytes(rng.randrange(6)))


def untimed_batches():
    """Ready flag 2: 11 is not applied, times and offsets are 0."""
    host, rng = Host(), random.Random(SEED + 1)
    becoming_ready(host, client_ready(2, V101, MOST))
    host.fed([13, 0, 0], [one(0x19, offset=5), touch(8, []), dismiss(1)], room=room_for(2) - 1)
    host.accepted(one(0x19, offset=5, time=8), one(0x1A, offset=U8.highest, time=9), dismiss(1))
    rooms(host)
    mixtures(host, rng, IDS, 50)
    return host


def crowded_batches():
    """All 256 contacts: a cancel of them needs 5,376 bytes."""
    host, rng = Host(), random.Random(SEED + 2)
    ids = list(range(256))
    groups = [ids[at : at + 63] for at in range(0, 256, 63)]
    arrivals = [touch(3, [frame(*(contact(each, 0x0A, each, -each) for each in group))]) for group in groups]
    twice = touch(4, [frame(contact(9, 0x0A), contact(9, 0x0A))])
    becoming_ready(host, client_ready(1, V100, 256))
    host.accepted(*arrivals, room=room_for(256 + 5))
    host.fed([13, 0, 13], [twice, dismiss(0), twice], room=room_for(256) - 1)
    host.accepted(one(0x19, 0), room=room_for(2))
    host.fed([13, 13, 0], [twice, dismiss(1), touch(5, [])], room=room_for(1) - 1)
    host.accepted(twice, dismiss(9), touch(5, [frame()]), room=room_for(256))
    mixtures(host, rng, ids, 25)
    return host


def wide_batches():
    host, rng = Host(), random.Random(SEED + 7)
    host.era = eras.TODAY
    becoming_ready(host, client_ready(0, V101, 256))
    host.fed([11, 7], [several(wide_play.wide(256, offset=1)), several(wide_play.wide(257, offset=1))])
    wide_rooms(host)
    for _ in range(6):
        mixture(host, rng, list(range(256)), faults=0.3, play=wide_play.walk)
    return host


def single_batches():
    host, rng = Host(), random.Random(SEED + 3)
    becoming_ready(host, client_ready(0, V100, 1))
    first_frame(host)
    mixtures(host, rng, IDS[:3], 50)
    return host


def unready_batches():
    host = Host()
    unready(host)
    return host


def more_inputs():
    """Name and content: other settings, other ends."""
    example = Host()
    example.accepted(*map(bytes.fromhex, EXAMPLE))
    last = batches.entry(AMPLE, 1, entries.join([DOWN]))
    yield "untimed", untimed_batches().input()
    yield "crowded", crowded_batches().input(corpus.cut_entry(last[:6], len(last) - 6))
    yield "wide", wide_batches().input()
    yield "single", single_batches().input(b"\0")
    yield "never-ready", unready_batches().input(corpus.cut_entry(b"", 6))
    yield "example", example.input()
    yield "empty", b""
    yield "half-length-only", b"\xff"
    yield "long-cut", example.input(corpus.cut_entry(last + bytes(5000), 50000))


def main():
    directory = corpus.output_directory()
    host = main_batches()
    stdin = host.input()
    texts = [programs.batch(stdin)]
    corpus.write_files(directory, {"stdin": stdin, "stdout": texts[0]})
    corpus.report(f"stdin {len(stdin)} bytes, stdout {len(texts[0])} bytes")
    batches.report(texts[0])
    corpus.report_counts(hover_coverage.of_batches(host.entries))
    for name, data in more_inputs():
        texts.append(programs.batch(data))
        corpus.write_files(os.path.join(directory, "more"), {f"{name}.batch": data, f"{name}.stdout": texts[-1]})
        corpus.report(f"{name}.batch {len(data)} bytes, {name}.stdout {len(texts[-1])} bytes")
    corpus.report(f"all {len(texts)} files")
    batches.report("".join(texts))


if __name__ == "__main__":
    main()
