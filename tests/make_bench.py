"""Writes the bench corpora.

OUTDIR/stdin, stdout and records.stdout: one long history with maxTouchContacts
10 and ready flags 0, what 'bench' prints for it and what 'records' writes.
OUTDIR/more/NAME.stdin, .stdout and .records: histories with other settings,
since a receiver takes only one client ready.
"""

import itertools
import os
import random

import corpus
import eras
import hover_play
import padded_play
import wide_play
from corpus import client_ready, contact, dismiss, frame, message, touch
from histories import (
    IGNORING,
    STARTS,
    Coverage,
    History,
    all_lifted,
    approach,
    placed,
    rest,
    some_frames,
)
from reference import entries, house, integers, programs, receiver
from reference.integers import S4, U4, U8
from reference.keeper import ENGAGED, HOVERING, OUT, POSITION_KEPT

SEED = 20260105

IDS = [0, 1, 2, 3, 5, 17, 64, 127, 128, 200, 254, 255]
TOUCH = 3
V100, V101 = 0x00010000, 0x00010001

EXAMPLE = (
    "02 00 10 00 00 00 00 00 00 00 01 00 01 00 0A 00",
    "03 00 11 00 00 00 00 01 01 00 01 00 40 64 40 32 19",
    "03 00 11 00 00 00 00 01 01 00 01 00 40 64 40 32 04",
    "03 00 11 00 00 00 00 01 01 00 01 00 40 64 40 32 1A",
)


# Before client ready


def before_ready(good):
    """Everything here is refused; a change of the good message that would be accepted is left out."""
    yield from (b"", b"\x02", good[:5], bytes(4096), bytes(4097), message(TOUCH, bytes(4091)))
    yield touch(0, [frame(contact(1, 0x19, 100, 50))])
    yield touch(0, [])
    yield dismiss(1)
    body = good[6:]
    for event in (0, 1, 3, 4, 5, 6, 7, 0x0102, 0x0200, 0xFFFF):
        yield message(event, body)
        yield message(event, body, 3)
    for length in (0, 6, 15, 17, 16 << 8, 16 | 1 << 24):
        yield message(2, body, length)
    for length in range(len(body)):
        yield message(2, body[:length])
    for more in (b"\0", bytes(2), bytes(4096 - len(good)), bytes(4097 - len(good))):
        yield message(2, body + more)
    for flags in (4, 5, 7, 0x100, 1 << 31, 0xFFFFFFFF):
        yield client_ready(flags, V101, 10)
    for version in (0, 1, 0x0000FFFF, 0x00010002, 0x00020000, 0x01000100, 0x00010000 << 8, 0xFFFFFFFF):
        yield client_ready(0, version, 10)
        yield client_ready(4, version, 10)
    # 5 of a later field comes after 8 of an earlier one, and 12 after both.
    yield message(2, client_ready(4, V101, 10)[6:10])
    yield message(2, client_ready(0, 5, 10)[6:14])
    yield message(2, client_ready(4, V101, 10)[6:] + b"\0")
    for bit in range(8 * len(good)):
        changed = corpus.flipped(good, bit)
        if receiver.receive(receiver.Receiver(), changed, bytearray())[1].refusal:
            yield changed


# The first frame (refusal 11)


def first_frames(history):
    """No frame yet: the offset of a message's first frame is judged, and only that one."""
    down = contact(1, 0x19, 100, 50)
    history.send(touch(9, []))
    for offset in (1, 31, 32, U8.highest):
        history.send_frames(frame(down, offset=offset))
        history.send_frames(frame(offset=offset))
    history.send(touch(9, []))
    zero, one = integers.form(U8, False, 0, 2), integers.form(U8, False, 1, 2)
    for body in (
        b"\0\1\1",  # 5: no offset
        b"\0\1\1\x20",  # 5: cut offset
        b"\0\1\1" + zero,  # 5: a padded 0, no contact
        b"\0\1\1" + one,  # 11: a padded 1
        b"\0\1\x40\1",  # 11: 64 contacts
        b"\0\1\1\1",  # 11 before the missing contact
        b"\0\1\1\1\1\x08",  # 11 before 8
        b"\0\1\0\1\0",  # 11 before 12
        b"\0\1\0\0\0",  # 12: does not count as a first frame
        b"\0\2\0\0\0",  # 5: neither does this
    ):
        history.send(message(TOUCH, body))
    history.send(dismiss(1))
    history.send_frames(frame(down, offset=3))
    history.send_frames(frame(down), frame(contact(1, 0x1A, 101, 51), offset=16000))
    history.send_frames(frame(contact(1, 0x1A, 102, 52), offset=16000))
    history.send_frames(frame(contact(1, 0x04, 102, 52), offset=U8.highest))


def empty_frames(history):
    """With maxTouchContacts 0 only frames that leave nothing active conform; a cancel is for ever."""
    history.send_frames(frame(), frame(offset=5))
    history.send_frames(frame(offset=9))
    history.send_all([dismiss(0), touch(1, []), touch(1, [frame(offset=7)] * 64)])


def example(history):
    history.send_all(bytes.fromhex(text) for text in EXAMPLE[1:])
    history.send(client_ready(0, V101, 10))
    history.send_frames(frame(contact(1, 0x19, 100, 50)))
    # A lift at 101, 50 cancels and writes one record of kind 2.
    history.send_frames(frame(contact(1, 0x04, 101, 50)))


# Limits and damage


def limits(history):
    full = contact(9, 0x0A, 3, 4, left=-1, top=-1, right=1, bottom=1, orientation=0, pressure=0)
    history.send_frames(frame(contact(1, 0x19, 7, 7)))
    fields = corpus.touch_fields(1, [frame(full)])
    for name, values in (
        ("orientation", (359, 360)),
        ("pressure", (65000, 65001)),
        ("fieldsPresent", (7, 8)),
        ("contactFlags", (0x0A, 0x0B, 0x00, 0x19, 0x1A, 0x1B)),
        ("frameCount", (1, 2, 64, 65)),
        ("contactCount", (1, 2, 63, 64)),
    ):
        at = [field.name for field in fields].index(name)
        for value in values:
            history.send(message(TOUCH, corpus.with_field(fields, at, integers.encode(fields[at].kind, value))))
    for count in (63, 64):
        history.send_frames(frame(*(contact(each, 0x19) for each in range(count))))
    for count in (64, 65):
        history.send_frames(*[frame(contact(4, 0x19), contact(5, 0x19))] + [frame(offset=1)] * (count - 1))
    long_messages(history)


def long_messages(history):
    """4,096 bytes are read, 4,097 are not, whatever they hold."""
    few = [contact(each, 0x0A, 300 + each, -7, pressure=20000) for each in range(7)]
    frames = [frame(*(each._replace(flags=0x19) for each in few[:2]))]
    frames += [frame(contact(each, 0x0C, 300 + each, -7)) for each in range(2)] + [frame(*few, offset=2)] * 61
    for length in (4095, 4096, 4097):
        history.send(touch(0, corpus.stretched(frames, length)))
        history.send_frames(frame(contact(200, 0x04)))
    for length in (4096, 4097, 4098):
        history.send(message(TOUCH, bytes(length - 6)))
        history.send(message(7, bytes(length - 6)))
        history.send(message(TOUCH, bytes(length - 6), 1))
    history.send(bytes(entries.LONGEST_ENTRY))
    # Openings and cancels in turn, as many as one message holds.
    crowd = [contact(each, 0x19) for each in range(10)]
    history.send_frames(*[frame(*crowd), frame(*crowd, offset=1)] * 32)


def damage(history, rng):
    """Every cut and every other form of one message; bits flipped; bytes added. Good messages in between."""
    full = contact(3, 0x0A, -50, 900, left=-5, top=70, right=5, bottom=-70, orientation=300, pressure=40000)
    fields = corpus.touch_fields(70, [frame(full, offset=40), frame(contact(1, 0x0A))])
    bodies = list(corpus.cut_bodies(fields)) + list(corpus.other_form_bodies(fields))
    bodies += [corpus.body_of(fields) + more for more in (b"\0", b"\xff\xff", bytes(100))]
    for number, body in enumerate(bodies):
        history.send(message(TOUCH, body))
        if number % 8 == 0:
            history.send_frames(*some_frames(rng, history.keeper, IDS, 2))
    good = touch(0, [frame(contact(2, 0x0A, 20, 30))])
    for bit in range(8 * len(good)):
        history.send(corpus.flipped(good, bit))
    for event in (0, 1, 2, 4, 5, 7, 0x0103, 0x0600):
        history.send(message(event, good[6:]))
    for changed in (b"\6\0\6\0\0\0", b"\6\0\7\0\0\0", b"\6\0\x08\0\0\0\2\2", b"\6\0\7\0\0\1\2", b"\6\0\x08\0\0\0\2"):
        history.send(changed)
    for length in range(6):
        history.send(good[:length])


# The states


def make_room(history, most=6):
    if len(history.keeper.active) > most:
        history.send_frames(all_lifted(history.keeper))


def flag_runs(history, rng, runs, ids, apart):
    """Flags one after the other on one contact, from each start; in one message or each by itself."""
    for start, *flags in runs:
        make_room(history, min(6, history.keeper.max_touch_contacts - 1))
        contact_id = rng.choice(ids)
        frames, keeper = approach(rng, history.keeper, contact_id, start)
        for each in flags:
            one = frame(placed(rng, keeper, contact_id, each), offset=rng.choice((0, 8000)))
            frames.append(one)
            keeper, _, _ = receiver.frame_step(keeper, one)
        for sent in [[one] for one in frames] if apart else [frames]:
            history.send_frames(*sent, time=rng.randrange(100))


def all_runs(starts, length):
    return list(itertools.product(starts, *[house.FLAGS] * length))


def positions(history):
    """Lifts at the stored position and beside it, at the ends of the range too."""
    for flags in POSITION_KEPT:
        for x, y in ((100, 50), (0, 0), (0, -1), (S4.highest, S4.lowest), (S4.lowest, S4.highest)):
            for dx, dy in ((0, 0), (1, 0), (-1, 0), (0, 1), (0, -1)):
                if max(abs(x + dx), abs(y + dy)) <= S4.highest:
                    down, lift = contact(7, 0x19, x, y), contact(7, flags, x + dx, y + dy)
                    history.send_frames(frame(down))
                    history.send_frames(frame(lift))
                    history.send_frames(*leaving(history.keeper, 7))
        for old, new in (((5, 6), (6, 5)), ((5, 6), (-5, -6)), ((5, 6), (5, 6))):
            # The position of the last update counts, not that of the first touch.
            for last in (old, new):
                history.send_frames(frame(contact(7, 0x19, *old)), frame(contact(7, 0x1A, *new)))
                history.send_frames(frame(contact(7, flags, *last)))
                history.send_frames(*leaving(history.keeper, 7))
    # A hovering contact may move in any frame.
    history.send_frames(frame(contact(7, 0x0A, 1, 1)), frame(contact(7, 0x0A, 2, 2)), frame(contact(7, 0x02, 3, 3)))
    history.send_frames(frame(contact(7, 0x0A, 1, 1)), frame(contact(7, 0x19, 9, 9)), frame(contact(7, 0x0C, 9, 9)))
    history.send_frames(frame(contact(7, 0x22, 4, 4)))


def leaving(keeper, contact_id):
    place = keeper.place(contact_id)
    flags = {OUT: None, HOVERING: 0x02, ENGAGED: 0x04}[place.state]
    return [frame(contact(contact_id, flags, place.x, place.y))] if flags else []


def cancels(history):
    """Cancels of several contacts that came in no order of ids; what comes before and after in the message."""
    order = [255, 3, 128, 0, 77, 254, 12, 127, 1, 200]
    arrivals = [frame(contact(each, 0x19 if n % 2 else 0x0A, n, -n)) for n, each in enumerate(order)]
    open_up = [frame(contact(255, 0x19, 1, 2))]
    bad_ones = (
        frame(contact(9, 0x1A)),
        frame(contact(255, 0x0A, 5, 5), contact(9, 0x04)),
        frame(contact(9, 0x19)),
        frame(contact(9, 0x0A)),
        frame(contact(3, 0x1A, 1, 1), contact(3, 0x1A, 1, 1)),
        frame(contact(3, 0x1A, 1, 1), contact(0, 0x19), contact(3, 0x04, 1, -1)),
        frame(contact(3, 0x1A, 7, 7), contact(127, 0x04, 0, 0)),
    )
    after = [
        frame(contact(3, 0x1A, 1, 1)),
        frame(contact(3, 0x04, 1, -1)),
        frame(offset=4),
        frame(contact(6, 0x0A)),
        frame(contact(6, 0x19), contact(7, 0x0A)),
        frame(contact(6, 0x19), contact(6, 0x19)),
        frame(*(contact(each, 0x19) for each in range(11))),
        frame(contact(6, 0x19), contact(7, 0x19, 8, 8)),
        frame(contact(6, 0x1A, 9, 9)),
    ]
    for bad in bad_ones:
        history.send_frames(all_lifted(history.keeper))
        history.send_frames(*open_up, frame(contact(255, 0x04, 1, 2)))
        history.send_frames(*arrivals)
        # All frames before the bad one stay injected, all after it find the receiver ignoring.
        history.send_frames(frame(contact(3, 0x1A, 1, -1)), frame(), bad, *after)
        history.send_frames(bad)
        for one in after:
            history.send_frames(one)
    # Ten may be active; one may leave as another comes.
    history.send_frames(all_lifted(history.keeper))
    history.send_frames(*arrivals)
    place = history.keeper.place(3)
    if place.state == ENGAGED:
        history.send_frames(frame(contact(9, 0x19, 4, 4), contact(3, 0x04, place.x, place.y)))
    history.send_frames(frame(contact(10, 0x0A)))


def dismissals(history, rng):
    for contact_id in (0, 1, 255):
        for start in STARTS + (IGNORING,):
            make_room(history)
            frames, _ = approach(rng, history.keeper, contact_id, start)
            history.send_frames(*frames)
            history.send(dismiss(contact_id))
            history.send(dismiss(contact_id))
            history.send(dismiss(contact_id ^ 0x55))
            for flags in (0x1A, 0x0A, 0x02):
                history.send_frames(frame(placed(rng, history.keeper, contact_id, flags)))
    # Dismissals take nothing away from the others.
    make_room(history, 0)
    history.send_frames(frame(*(contact(each, 0x19, each, each) for each in (4, 5, 6))))
    history.send_frames(frame(*(contact(each, 0x0C, each, each) for each in (4, 6))))
    history.send_all(dismiss(each) for each in range(8))
    history.send_frames(frame(contact(4, 0x1A)))


def walk(history, rng, ids, steps, faults=0.15):
    """A long random use: good frames, faults, damage, dismissals, unexpected events."""
    for _ in range(steps):
        way = rng.random()
        count = rng.choice((1, 1, 1, 2, 3, 5)) if way > 0.03 else rng.randint(10, 64)
        frames = some_frames(rng, history.keeper, ids, count, faults)
        sent = touch(corpus.random_value(rng, U4) if rng.random() < 0.2 else 3, frames)
        if way < 0.10 or way > 0.35:
            history.send(sent)
        elif way < 0.20:
            history.send(dismiss(some_id(rng, history.keeper, ids)))
        elif way < 0.30:
            history.send(corpus.damaged(rng, sent))
        elif way < 0.32:
            history.send(corpus.damaged(rng, dismiss(some_id(rng, history.keeper, ids))))
        else:
            other = (touch(1, []), client_ready(0, V101, 5), message(4, b""), message(5, b""), sent[:5])
            history.send(rng.choice(other))


def some_id(rng, keeper, ids):
    """An active contact's id as often as any other."""
    return rng.choice(list(keeper.active) or ids) if rng.random() < 0.5 else rng.choice(ids)


def crowded(history, rng):
    """Many contacts: up to maxTouchContacts and one more, or all 256."""
    most = min(history.keeper.max_touch_contacts, 256)
    ids = list(range(256))
    for flags in (0x19, 0x0A):
        rng.shuffle(ids)
        chosen = ids[:most]
        groups = [chosen[at : at + 63] for at in range(0, most, 63)]
        history.send_frames(frame(contact(chosen[0], 0x19)), frame(contact(chosen[0], 0x04)))
        for group in groups:
            history.send_frames(frame(*(contact(each, flags, each, -each) for each in group), offset=1))
        history.send_frames(frame(*(contact(each, 0x1A if flags == 0x19 else 0x0A, 1, each) for each in groups[0])))
        history.send(dismiss(chosen[-1]))
        again = contact(chosen[-1], 0x0A, 2, 2)
        history.send_frames(frame(again))
        for outside in ids[most : most + 1]:
            gone = contact(chosen[-1], 0x02, 3, 3)
            history.send_frames(frame(contact(outside, 0x19), gone))
            history.send_frames(frame(contact(chosen[-1], 0x19)))
        history.send_frames(frame(contact(groups[0][0], 0x22), contact(groups[0][0], 0x22)))


# Files


def main_history():
    history, rng = History(), random.Random(SEED)
    good = client_ready(0, V101, 10)
    history.send_all(before_ready(good))
    history.send(good)
    history.send_all([good, client_ready(2, V100, 3), good[:-1]])
    first_frames(history)
    example(history)
    limits(history)
    damage(history, rng)
    positions(history)
    cancels(history)
    dismissals(history, rng)
    starts = STARTS + (IGNORING,)
    flag_runs(history, rng, all_runs(starts, 2), IDS, apart=True)
    walk(history, rng, IDS, 700)
    triples = all_runs(starts, 3)
    rng.shuffle(triples)
    flag_runs(history, rng, triples, IDS, apart=False)
    walk(history, rng, IDS, 500, faults=0.4)
    walk(history, rng, IDS, 300, faults=0.03)
    padded_play.all_play(history)
    padded_play.walk(history, random.Random(SEED + 1), IDS, 250)
    hovering(history, random.Random(SEED + 2))
    wide_frames(history, random.Random(SEED + 3))
    return history


def hovering(history, rng):
    """Frames chosen by the rule of opening of request #106."""
    history.era = eras.NARROW
    hover_play.hand_made(history)
    hover_play.walk(history, rng, IDS, 400)
    rest(history)
    hover_play.hovering_panel(history, rng, IDS, 150)
    # What was made up to be ignored may have opened since.
    missed = [run for run in all_runs((IGNORING,), 3) if run not in history.coverage.runs[3]]
    flag_runs(history, rng, missed, IDS, apart=False)


def wide_frames(history, rng):
    """Frames of up to 256 contacts (request #107), of which ten may be active."""
    history.era = eras.TODAY
    wide_play.few_allowed(history)
    wide_play.faults_between(history)
    wide_play.walk(history, rng, list(range(256)), 40)


OTHER_SETTINGS = (
    # maxTouchContacts, ready flags, version, what comes first
    (0, 0, V101, empty_frames),
    (0, 1, V101, first_frames),
    (0, 3, V100, empty_frames),
    (1, 0, V100, first_frames),
    (1, 1, V101, first_frames),
    (2, 2, V101, first_frames),
    (2, 3, V101, first_frames),
    (10, 1, V100, first_frames),
    (10, 2, V101, first_frames),
    (10, 3, V101, first_frames),
    (255, 0, V101, first_frames),
    (255, 2, V100, first_frames),
    (256, 1, V101, first_frames),
    (65535, 0, V101, first_frames),
)


def other_history(most, flags, version, begin):
    history, rng = History(), random.Random(f"{SEED} {most} {flags}")
    good = client_ready(flags, version, most)
    history.send_all(rng.sample(list(before_ready(good)), 12))
    history.send(good)
    history.send(client_ready(0, V101, 10))
    begin(history)
    if most > 0:
        runs = rng.sample(all_runs(STARTS, 3), 60)
        flag_runs(history, rng, runs, IDS[: max(2, most)], apart=False)
    ids = IDS[: most + 2] if most < 10 else IDS if most == 10 else list(range(256))
    walk(history, rng, ids, 250)
    if most >= 255:
        crowded(history, rng)
        walk(history, rng, ids, 60, faults=0.02)
        crowded(history, rng)
    return history


PADDED_SETTINGS = (
    # The length of the first frame's offset, ready flags
    (2, 0),
    (8, 1),
    (5, 2),
)


def padded_history(length, flags):
    """Padded from the first frame on."""
    history = History()
    history.era = eras.PRESSED
    history.send(client_ready(flags, V101, 10))
    padded_play.first_frames(history, length, judged=flags != 2)
    padded_play.walk(history, random.Random(f"{SEED} {length} {flags}"), IDS, 40)
    return history


HOVER_SETTINGS = (
    # maxTouchContacts, ready flags, what comes first, steps of random use
    (0, 0, hover_play.none_allowed, 60),
    (1, 1, None, 150),
    (2, 2, None, 150),
    (10, 3, hover_play.ids_twice, 150),
    (256, 0, hover_play.all_hover, 80),
)


def hover_history(most, flags, begin, steps):
    """Hovering frames open from the first cancel on."""
    history, rng = History(), random.Random(f"{SEED} hover {most} {flags}")
    history.era = eras.NARROW
    history.send(client_ready(flags, V101, most))
    if begin:
        begin(history)
    ids = list(range(256)) if most > 10 else IDS[: most + 3]
    hover_play.walk(history, rng, ids, steps)
    return history


def hover_only_history(most):
    """Nobody ever presses."""
    history, rng = History(), random.Random(f"{SEED} hover only {most}")
    history.era = eras.NARROW
    history.send(client_ready(0, V101, most))
    hover_play.hovering_panel(history, rng, IDS[: most + 2], 250)
    return history


WIDE_SETTINGS = (
    # maxTouchContacts, ready flags, what comes first
    (256, 0, wide_play.all_allowed),
    (255, 1, wide_play.one_too_many),
    (63, 3, wide_play.one_too_many),
    (65535, 2, wide_play.without_time),
)


def wide_history(most, flags, begin):
    """Wide frames from the first one on."""
    history, rng = History(), random.Random(f"{SEED} wide {most} {flags}")
    history.era = eras.TODAY
    history.send(client_ready(flags, V101, most))
    wide_play.first_frames(history, judged=flags & 2 == 0)
    begin(history)
    wide_play.walk(history, rng, list(range(256)), 20)
    return history


def small_inputs():
    """Inputs as a whole: none, the rules' example, the ways to be cut, a receiver that never gets ready."""
    whole = entries.join(bytes.fromhex(text) for text in EXAMPLE)
    yield "empty", b""
    yield "example", whole
    yield "example-cut", whole[:-1]
    yield "example-half-length", whole + b"\x00"
    yield "example-length-only", whole + b"\x00\x11"
    yield "example-long-cut", whole + corpus.cut_entry(bytes(5000), 1)
    yield "half-length-only", b"\xff"
    yield "no-bytes-entries", whole + bytes(6)
    yield "never-ready", entries.join(before_ready(client_ready(0, V101, 10)))
    ready, *touches = (bytes.fromhex(text) for text in EXAMPLE)
    yield "longest-entries", entries.join([ready, *[bytes(entries.LONGEST_ENTRY)] * 2, *touches])


def more_histories():
    """Name and history."""
    for settings in OTHER_SETTINGS:
        yield "most{}-flags{}".format(*settings), other_history(*settings)
    for settings in PADDED_SETTINGS:
        yield "padded-offset{}-flags{}".format(*settings), padded_history(*settings)
    for settings in HOVER_SETTINGS:
        yield "hover-most{}-flags{}".format(*settings), hover_history(*settings)
    for most in (3, 10):
        yield f"hover-only-most{most}", hover_only_history(most)
    for settings in WIDE_SETTINGS:
        yield "wide-most{}-flags{}".format(*settings), wide_history(*settings)


def write_more(directory, name, stdin):
    stdout, records = programs.bench_and_records(stdin)
    files = {"stdin": stdin, "stdout": stdout, "records": records}
    corpus.write_files(directory, {f"{name}.{end}": content for end, content in files.items()})
    return stdout


def main():
    directory = corpus.output_directory()
    history = main_history()
    stdin = corpus.joined(history.entries)
    stdout, records = programs.bench_and_records(stdin)
    corpus.write_files(directory, {"stdin": stdin, "stdout": stdout, "records.stdout": records})
    corpus.report("main history, maxTouchContacts 10, flags 0")
    corpus.report_refusals(stdout)
    history.coverage.report()
    report_records(records)

    total, texts = Coverage(), [stdout]
    total.merge(history.coverage)
    more = os.path.join(directory, "more")
    for name, other in more_histories():
        total.merge(other.coverage)
        texts.append(write_more(more, name, corpus.joined(other.entries)))
    for name, data in small_inputs():
        texts.append(write_more(more, name, data))
    corpus.report(f"all {len(texts)} files")
    corpus.report_refusals("".join(texts))
    total.report()


def report_records(records):
    kinds = [house.kind_of(records[at:]) for at in range(0, len(records), house.LENGTH)]
    corpus.report("  records of kinds 0 to 3              " + ", ".join(str(kinds.count(kind)) for kind in range(4)))


if __name__ == "__main__":
    main()
