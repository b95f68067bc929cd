"""Checks the reference against every example of [MS-RDPEI] 2.2.2 and of the rules paper."""

import random
import sys
from pathlib import Path

import corpus
import eras
import labels
import make_batch
import make_bench
import make_choices
import make_panel
import make_plain
import make_rooms
import padded_play
import panels
import wide_play
from corpus import contact, frame
from histories import History
from reference import entries, house, integers, label, messages, old_heads, panel, programs, receiver, rooms
from reference.batch import Batch, receive_all
from reference.integers import S2, S4, U2, U4, U8
from reference.label import Choice, Chosen, Label, choose
from reference.receiver import CANCELLED, IGNORED, INJECTED
from reference.refusals import Refused

SEED = 20260101

differences = []


def same(what, have, want):
    if have != want:
        differences.append(f"{what}: have {have!r}, want {want!r}")


def refusal_of(call):
    try:
        call()
    except Refused as refused:
        return refused.number
    return 0


# The integers ([MS-RDPEI] 2.2.2.1 to 2.2.2.5 and the proved set).

EXAMPLES = (
    (U2, 0x1A1B, "9A 1B"),
    (S2, -0x1A1B, "DA 1B"),
    (S2, -2, "42"),
    (U4, 0x1A1B1C, "9A 1B 1C"),
    (S4, -0x1A1B1C, "BA 1B 1C"),
    (S4, -2, "22"),
    (U8, 0x1A1B1C1D1E1F2A, "DA 1B 1C 1D 1E 1F 2A"),
    (U2, 0x7F, "7F"),
    (U2, 0x80, "80 80"),
    (S2, -64, "C0 40"),
    (S4, 32, "40 20"),
    (U8, 32, "20 20"),
)

# Longer forms, and minus zero: the strict reading refuses them by 6.
PADDED = (
    (U2, 0, "80 00"),
    (U2, 0x1A, "80 1A"),
    (U2, 0x7F, "80 7F"),
    (S2, -2, "C0 02"),
    (S2, 63, "80 3F"),
    (S2, -63, "C0 3F"),
    (S2, 0, "40"),
    (S2, 0, "80 00"),
    (S2, 0, "C0 00"),
    (U4, 0x1A1B, "80 1A 1B"),
    (U4, 0x1A1B1C, "C0 1A 1B 1C"),
    (U4, 127, "80 00 7F"),
    (U4, 0, "C0 00 00 00"),
    (S4, -2, "60 02"),
    (S4, -2, "A0 00 02"),
    (S4, -2, "E0 00 00 02"),
    (S4, -63, "A0 00 3F"),
    (S4, 127, "80 00 7F"),
    (S4, 0x1A1B1C, "C0 1A 1B 1C"),
    (S4, 0, "20"),
    (S4, 0, "60 00"),
    (S4, 0, "A0 00 00"),
    (S4, 0, "E0 00 00 00"),
    (U8, 0, "20 00"),
    (U8, 31, "40 00 1F"),
    (U8, 0x1A1B1C1D1E1F2A, "E0 1A 1B 1C 1D 1E 1F 2A"),
    (U8, 1, "E0 00 00 00 00 00 00 01"),
)

RANGES = (
    (U2, 0, 0x7FFF),
    (S2, -0x3FFF, 0x3FFF),
    (U4, 0, 0x3FFFFFFF),
    (S4, -0x1FFFFFFF, 0x1FFFFFFF),
    (U8, 0, 0x1FFFFFFFFFFFFFFF),
)


def check_integers():
    for kind, value, text in EXAMPLES:
        data = bytes.fromhex(text)
        same(f"{kind.name} {value} written", integers.encode(kind, value), data)
        for strict in (False, True):
            same(f"{kind.name} {text} read", integers.read(kind, data + b"\xff", strict), (value, len(data)))
            same(f"{kind.name} {text} cut", refusal_of(lambda: integers.read(kind, data[:-1], strict)), 5)
    for kind, value, text in PADDED:
        data = bytes.fromhex(text)
        same(f"{kind.name} {text} read", integers.read(kind, data + b"\xff"), (value, len(data)))
        same(f"{kind.name} {text} strictly", refusal_of(lambda: integers.read(kind, data + b"\xff", strict=True)), 6)
        for strict in (False, True):
            same(f"{kind.name} {text} cut", refusal_of(lambda: integers.read(kind, data[:-1], strict)), 5)
    for kind, lowest, highest in RANGES:
        same(f"{kind.name} range", (kind.lowest, kind.highest), (lowest, highest))
        for value in (lowest - 1, highest + 1):
            same(f"{kind.name} {value}", refusal_of(lambda: integers.encode(kind, value)), 10)
        for value in (lowest, highest):
            data = integers.encode(kind, value)
            for strict in (False, True):
                same(f"{kind.name} {value}", integers.read(kind, data, strict), (value, len(data)))


def check_integer_writers():
    out = bytearray(b"\xee" * 3)
    same("room", integers.write(U2, out, 0x1A1B), (0, 2))
    same("nothing past", bytes(out), bytes.fromhex("9A 1B EE"))
    same("no room", integers.write(U8, out, 1 << 40), (13, 0))
    same("range before room", integers.write(U2, bytearray(), 0x8000), (10, 0))
    same("untouched", bytes(out), bytes.fromhex("9A 1B EE"))


def check_every_short_reading():
    """Over all one- and two-byte integers: each is accepted, but strictly exactly if writing gives it back."""
    for kind in (U2, S2):
        for number in range(0x10000):
            data = number.to_bytes(2, "big")
            value, length = integers.read(kind, data)
            same(f"{kind.name} {data.hex()}", (value, length), short_meaning(kind, number))
            only = integers.encode(kind, value)
            accepted = data.startswith(only) and len(only) == length
            strictly = refusal_of(lambda: integers.read(kind, data, strict=True))
            same(f"{kind.name} {data.hex()} strictly", strictly, 0 if accepted else 6)


def short_meaning(kind, number):
    """The value and the length of the integer at the front of 16 bits."""
    length = 2 if number & 0x8000 else 1
    sign_bit = 0x4000 if kind.signed else 0
    magnitude = (number & 0x7FFF & ~sign_bit) >> (0 if length == 2 else 8)
    return (-magnitude if number & sign_bit else magnitude), length


def check_longer_readings(rng):
    """Whatever is read and written again is read the same, strictly too, and no form is shorter."""
    for kind in (U2, S2, U4, S4, U8):
        for _ in range(500):
            data = rng.randbytes(8)
            value, length = integers.read(kind, data)
            only = integers.encode(kind, value)
            same(f"{kind.name} {data.hex()} again", integers.read(kind, only, strict=True), (value, len(only)))
            same(f"{kind.name} {data.hex()} shorter", len(only) <= length, True)
            same(f"{kind.name} {data.hex()} cut", refusal_of(lambda: integers.read(kind, data[: length - 1])), 5)


def check_integer_lines():
    """The commands 'a' and 'r' of 'vectors'."""
    for rest, any_length, strict in (
        ("01 40", "0 1", "refused 6"),
        ("03 E0 00 00 02 FF", "-2 4", "refused 6"),
        ("03 E0 00 00", "refused 5", "refused 5"),
        ("04 DA 1B 1C 1D 1E 1F 2A", f"{0x1A1B1C1D1E1F2A} 7", f"{0x1A1B1C1D1E1F2A} 7"),
        ("00", "refused 5", "refused 5"),
        ("05 00", "unknown", "unknown"),
        ("", "unknown", "unknown"),
    ):
        for command, want in ((b"a", any_length), (b"r", strict)):
            same(f"{command} {rest}", programs.vector_line(command + bytes.fromhex(rest)), want)


# The bench example.

BENCH_ENTRIES = (
    "02 00 10 00 00 00 00 00 00 00 01 00 01 00 0A 00",
    "03 00 11 00 00 00 00 01 01 00 01 00 40 64 40 32 19",
    "03 00 11 00 00 00 00 01 01 00 01 00 40 64 40 32 04",
    "03 00 11 00 00 00 00 01 01 00 01 00 40 64 40 32 1A",
)
BENCH_OUTPUT = "1 0 0 0 0 0\n2 0 1 0 0 2\n3 0 1 0 0 2\n4 0 0 0 1 0\n"


def check_bench_example():
    data = entries.join(bytes.fromhex(text) for text in BENCH_ENTRIES)
    same("bench example", programs.bench(data), BENCH_OUTPUT)
    same("bench cut", programs.bench(data[:-1]), BENCH_OUTPUT[: -len("4 0 0 0 1 0\n")] + "4 cut\n")
    same("bench half length", programs.bench(data + b"\0"), BENCH_OUTPUT + "5 cut\n")
    same("bench empty", programs.bench(b""), "")
    kept = [house.unpack(record) for record in chunks(programs.records(data))]
    down, up = contact(1, 0x19, 100, 50), contact(1, 0x04, 100, 50)
    same("bench records", kept, [house.Head(1, 0), down, house.Head(1, 0), up])


def chunks(data):
    return [data[at : at + house.LENGTH] for at in range(0, len(data), house.LENGTH)]


# Both sides of the limits.


def plain_refusals(message):
    """The strict reading's, and the other's."""
    readings = (messages.plain_strictly, messages.plain)
    return tuple(reading(message, bytearray(programs.LENT_TO_READERS)).refusal for reading in readings)


def over(fields, name, value):
    """A touch message whose named integer has another value, inside the integer's range."""
    at = [field.name for field in fields].index(name)
    return corpus.message(3, corpus.with_field(fields, at, integers.encode(fields[at].kind, value)))


def check_limits():
    full = contact(1, 0x19, left=-1, top=-1, right=1, bottom=1, orientation=0, pressure=0)
    fields = corpus.touch_fields(0, [frame(full)])
    for name, good, bad, number in (
        ("orientation", 359, 360, 10),
        ("pressure", 65000, 65001, 10),
        ("fieldsPresent", 7, 8, 8),
        ("contactFlags", 0x1A, 0x1B, 9),
    ):
        same(f"{name} {good}", plain_refusals(over(fields, name, good)), (0, 0))
        same(f"{name} {bad}", plain_refusals(over(fields, name, bad)), (number, number))
    for count, number in ((63, 0), (64, 0), (127, 0), (128, 0), (255, 0), (256, 0), (257, 7)):
        many = frame(*(contact(each % 256, 0x19) for each in range(count)))
        same(f"{count} contacts", plain_refusals(corpus.touch(0, [many])), (number, number))
        padded = padded_play.padded(many)
        same(f"{count} contacts, padded", plain_refusals(padded), (6, number))
    for count, number in ((64, 0), (65, 7)):
        same(f"{count} frames", plain_refusals(corpus.touch(0, [frame()] * count)), (number, number))
        padded = padded_play.padded(*[frame()] * count)
        same(f"{count} frames, padded", plain_refusals(padded), (6, number))
    for length, number in ((4096, 0), (4097, 2)):
        long = corpus.touch(0, corpus.stretched(long_frames(), length))
        same(f"{length} bytes", (len(long), plain_refusals(long)), (length, (number, number)))
        padded = corpus.touch_of(corpus.padded_to(padded_play.many_fields(), length))
        same(f"{length} bytes, padded", (len(padded), plain_refusals(padded)), (length, (number or 6, number)))


def check_first_fault_answers():
    for text, strict, other, why in make_plain.TWO_FAULTS + make_plain.PADDED_FAULTS + wide_play.FAULTS:
        same(why, plain_refusals(corpus.message(3, bytes.fromhex(text))), (strict, other))
    for number, body in wide_play.faulty_bodies():
        same(f"{body[:6].hex()}, {len(body)} bytes", plain_refusals(corpus.message(3, body)), (number, number))


def long_frames():
    """64 frames just under 4,096 bytes in all."""
    return [frame(*(contact(each, 0x0A, 1, 1) for each in range(11)))] * 64


def check_lift_elsewhere():
    """A lift at 101, 50 cancels and writes one record of kind 2."""
    keeper, _ = receiver.receive(receiver.Receiver(), bytes.fromhex(BENCH_ENTRIES[0]), bytearray())
    output = bytearray(100)
    keeper, answer = receiver.receive(keeper, bytes.fromhex(BENCH_ENTRIES[1]), output)
    lift = corpus.touch(0, [frame(contact(1, 0x04, 101, 50))])
    same("no room", receiver.receive(keeper, lift, bytearray(20)), (keeper, receiver.Answer(13)))
    after, answer = receiver.receive(keeper, lift, output)
    same("lift answer", answer, receiver.Answer(cancelled=1, records=1))
    same("lift record", house.unpack(output[:21]), house.Contact(2, 0x24, 0, 1, 100, 50))
    same("lift leaves", (after.running, after.active), (False, {}))


# The receiver's rules, message by message: what is sent, and the answer
# (refusal, injected, ignored, cancelled, encodeTime, records).


def sent(*frames, time=0):
    return corpus.touch(time, frames)


DOWN, UPDATE, LIFT = contact(1, 0x19, 5, 6), contact(1, 0x1A, 7, 8), contact(1, 0x04, 5, 6)
HOVER = contact(2, 0x0A, 9, 9)
OPEN = corpus.client_ready(0, 0x00010001, 2)
UNTIMED = corpus.client_ready(2, 0x00010001, 2)
ACCEPTED = (0, 0, 0, 0, 0, 0)

RULES = (
    ("an unknown id's update is no other contact's, and the frame's early contacts are not written", (
        (OPEN, ACCEPTED),
        (sent(frame(DOWN)), (0, 1, 0, 0, 0, 2)),
        (sent(frame(UPDATE, contact(3, 0x1A, 7, 8))), (0, 0, 0, 1, 0, 1)),
    )),
    ("an ignored lift or update does not end the ignoring", (
        (OPEN, ACCEPTED),
        (sent(frame(UPDATE), frame(LIFT), frame(UPDATE), frame()), (0, 0, 3, 1, 0, 0)),
        (sent(frame(contact(1, 0x0A)), frame(DOWN, HOVER)), (0, 0, 2, 0, 0, 0)),
        (sent(frame(DOWN)), (0, 1, 0, 0, 0, 2)),
    )),
    ("frames before a bad one in the same message stay", (
        (OPEN, ACCEPTED),
        (sent(frame(DOWN), frame(HOVER), frame(HOVER, HOVER), frame(LIFT), time=4), (0, 2, 1, 1, 4, 6)),
    )),
    ("an opening frame that does not conform is cancelled and the mode stays", (
        (OPEN, ACCEPTED),
        (sent(frame(UPDATE)), (0, 0, 0, 1, 0, 0)),
        (sent(frame(DOWN, DOWN)), (0, 0, 0, 1, 0, 0)),
        (sent(frame(*(contact(each, 0x19) for each in range(3)))), (0, 0, 0, 1, 0, 0)),
        (sent(frame(HOVER)), (0, 0, 1, 0, 0, 0)),
        (sent(frame(*(contact(each, 0x19) for each in range(2)))), (0, 1, 0, 0, 0, 3)),
    )),
    ("legal from the state before the frame, active after it", (
        (OPEN, ACCEPTED),
        (sent(frame(DOWN, HOVER)), (0, 1, 0, 0, 0, 3)),
        (sent(frame(contact(3, 0x0A), LIFT)), (0, 1, 0, 0, 0, 3)),
        (sent(frame(contact(4, 0x0A))), (0, 0, 0, 1, 0, 2)),
    )),
    ("dismissals", (
        (OPEN, ACCEPTED),
        (sent(frame(DOWN, HOVER)), (0, 1, 0, 0, 0, 3)),
        (corpus.dismiss(1), ACCEPTED),
        (corpus.dismiss(2), (0, 0, 0, 0, 0, 1)),
        (corpus.dismiss(2), ACCEPTED),
        (sent(frame(LIFT)), (0, 1, 0, 0, 0, 2)),
    )),
    ("the first frame's offset", (
        (sent(frame(DOWN)), (3, 0, 0, 0, 0, 0)),
        (corpus.dismiss(1), (3, 0, 0, 0, 0, 0)),
        (OPEN, ACCEPTED),
        (OPEN, (3, 0, 0, 0, 0, 0)),
        (sent(time=8), (0, 0, 0, 0, 8, 0)),
        (sent(frame(offset=1)), (11, 0, 0, 0, 0, 0)),
        (sent(frame(UPDATE), frame(offset=1), time=8), (0, 0, 1, 1, 8, 0)),
        (sent(frame(offset=1)), (0, 0, 1, 0, 0, 0)),
    )),
    ("no timestamps", (
        (UNTIMED, ACCEPTED),
        (sent(frame(DOWN, offset=5), time=8), (0, 1, 0, 0, 0, 2)),
    )),
    ("padding and minus zero are no fault, and mean what the only form means", (
        (OPEN, ACCEPTED),
        # Offset 1 of two bytes, then 0 of two bytes.
        (bytes.fromhex("03 00 0B 00 00 00 00 01 00 20 01"), (11, 0, 0, 0, 0, 0)),
        (bytes.fromhex("03 00 10 00 00 00 00 01 01 20 00 01 00 20 00 19"), (0, 1, 0, 0, 0, 2)),
        # A lift at 0 and minus zero, one at 0 and minus zero of four bytes, one at 1 of two bytes.
        (bytes.fromhex("03 00 0F 00 00 00 00 01 01 00 01 00 00 20 04"), (0, 1, 0, 0, 0, 2)),
        (bytes.fromhex("03 00 0F 00 00 00 00 01 01 00 01 00 00 00 19"), (0, 1, 0, 0, 0, 2)),
        (bytes.fromhex("03 00 12 00 00 00 00 01 01 00 01 00 00 E0 00 00 00 04"), (0, 1, 0, 0, 0, 2)),
        (bytes.fromhex("03 00 0F 00 00 00 00 01 01 00 01 00 00 00 19"), (0, 1, 0, 0, 0, 2)),
        (bytes.fromhex("03 00 10 00 00 00 00 01 01 00 01 00 40 01 00 04"), (0, 0, 0, 1, 0, 1)),
        # encodeTime 7 of two bytes, of an update that is ignored; an opening frame with its flags in four bytes.
        (bytes.fromhex("03 00 10 00 00 00 40 07 01 01 00 01 00 00 00 1A"), (0, 0, 1, 0, 7, 0)),
        (bytes.fromhex("03 00 12 00 00 00 00 01 01 00 01 00 00 00 C0 00 00 19"), (0, 1, 0, 0, 0, 2)),
        (bytes.fromhex("03 00 11 00 00 00 00 01 01 00 01 00 00 00 C0 00 00"), (5, 0, 0, 0, 0, 0)),
    )),
)


def check_receiver_rules():
    for rule, steps in RULES:
        keeper = receiver.Receiver()
        for number, (message, want) in enumerate(steps, 1):
            keeper, answer = receiver.receive(keeper, message, bytearray(programs.LENT_TO_READERS))
            same(f"{rule}, message {number}", answer, want)


# Hovering after a cancel (request #106), frame by frame: what is sent, the verdict (or the refusal) and the ids held
# then. Two contacts may be active. A frame is written as id, flags, id, flags.


def of(*values):
    return sent(listing(*values))


def listing(*values):
    return frame(*(contact(*each) for each in zip(values[::2], values[1::2])))


HOVERS, ODD = of(7, 0x0A), of(9, 0x1A)
CANCELLED_HOVERING = ((HOVERS, INJECTED, ()), (ODD, CANCELLED, (7, 9)))

HELD_RULES = (
    ("a hand that hovers at the cancel", (
        *CANCELLED_HOVERING,
        (HOVERS, IGNORED, (7, 9)),
        (of(), IGNORED, (7, 9)),
        (of(9, 0x0A), IGNORED, (7, 9)),
        (of(8, 0x0A, 7, 0x0A), IGNORED, (7, 8, 9)),
        (of(7, 0x02), IGNORED, (8, 9)),
        (of(8, 0x0A), IGNORED, (8, 9)),
        (HOVERS, INJECTED, ()),
        (of(7, 0x02), INJECTED, ()),
    )),
    ("a hand that is down at the cancel: the lift beside the position takes it out, the lift into hovering does not", (
        (of(7, 0x19), INJECTED, ()),
        (sent(frame(contact(7, 0x04, 1))), CANCELLED, ()),
        (HOVERS, INJECTED, ()),
        (of(7, 0x19), INJECTED, ()),
        (sent(frame(contact(7, 0x0C, 1))), CANCELLED, (7,)),
        (HOVERS, IGNORED, (7,)),
        (of(7, 0x19), INJECTED, ()),
    )),
    ("the offending frame's own ids", (
        (of(9, 0x04), CANCELLED, ()),
        (of(9, 0x0A), INJECTED, ()),
        (of(9, 0x02, 8, 0x22), CANCELLED, ()),
        (of(9, 0x0A, 8, 0x0A), INJECTED, ()),
        (of(7, 0x19), CANCELLED, (7, 8, 9)),
        (of(7, 0x04, 8, 0x24, 9, 0x0C), IGNORED, (9,)),
        (of(7, 0x0A, 8, 0x19), INJECTED, ()),
    )),
    ("an id twice: its last flags decide", (
        (of(7, 0x02, 7, 0x1A), CANCELLED, (7,)),
        (of(7, 0x1A, 7, 0x02), IGNORED, ()),
        (HOVERS, INJECTED, ()),
        (of(7, 0x0A, 7, 0x22), CANCELLED, ()),
        (of(7, 0x04, 7, 0x0A), IGNORED, (7,)),
        (HOVERS, IGNORED, (7,)),
        (of(7, 0x19, 8, 0x04, 7, 0x24), IGNORED, ()),
        (of(8, 0x0A, 7, 0x0A), INJECTED, ()),
    )),
    ("dismissals", (
        *CANCELLED_HOVERING,
        (corpus.dismiss(5), None, (7, 9)),
        (corpus.dismiss(7), None, (9,)),
        (corpus.dismiss(7), None, (9,)),
        (of(7, 0x1A), IGNORED, (7, 9)),
        (corpus.dismiss(7) + b"\0", 4, (7, 9)),
        (corpus.message(6, b"\7\7"), 12, (7, 9)),
        (corpus.dismiss(7), None, (9,)),
        (HOVERS, INJECTED, ()),
        (corpus.dismiss(7), None, ()),
        (ODD, CANCELLED, (9,)),
        (corpus.dismiss(9), None, ()),
        (of(9, 0x0A), INJECTED, ()),
    )),
    ("a frame that opens and is cancelled leaves its own ids", (
        *CANCELLED_HOVERING,
        (of(1, 0x0A, 2, 0x0A, 3, 0x0A), CANCELLED, (1, 2, 3)),
        (of(1, 0x0A), IGNORED, (1, 2, 3)),
        (of(7, 0x0A, 7, 0x0A), CANCELLED, (7,)),
        (of(7, 0x0A, 7, 0x0A), IGNORED, (7,)),
        (of(9, 0x19, 9, 0x19), CANCELLED, (9,)),
        (of(9, 0x19, 9, 0x19), CANCELLED, (9,)),
        (of(7, 0x19, 8, 0x0A, 6, 0x19), CANCELLED, (6, 7, 8)),
        (of(9, 0x19, 9, 0x0A), CANCELLED, (9,)),
        (of(7, 0x0A), INJECTED, ()),
    )),
    ("presses and hovering in one frame, and presses alone", (
        *CANCELLED_HOVERING,
        (of(9, 0x19, 6, 0x0A), IGNORED, (6, 7, 9)),
        (of(5, 0x19, 6, 0x0A), IGNORED, (5, 6, 7, 9)),
        (of(1, 0x19, 2, 0x0A), INJECTED, ()),
        (ODD, CANCELLED, (1, 2, 9)),
        (of(1, 0x19, 9, 0x19), INJECTED, ()),
        (of(8, 0x1A), CANCELLED, (1, 8, 9)),
        (of(5, 0x19, 9, 0x19), INJECTED, ()),
    )),
    ("a refused message changes nothing", (
        *CANCELLED_HOVERING,
        (corpus.message(3, of(7, 0x02)[6:] + b"\0"), 12, (7, 9)),
        (corpus.message(3, sent(listing(7, 0x02), listing(5, 0x0A))[6:-1] + b"\x1b"), 9, (7, 9)),
        (corpus.message(3, of(5, 0x0A)[6:-1]), 5, (7, 9)),
        (HOVERS, IGNORED, (7, 9)),
        (of(5, 0x0A), INJECTED, ()),
    )),
)

# Whether an id that a frame lists with these flags leaves.
LETS_LEAVE = {0x02: True, 0x22: True, 0x04: True, 0x24: True, 0x0A: False, 0x0C: False, 0x19: False, 0x1A: False}


def check_held_rules():
    for rule, steps in HELD_RULES:
        check_held_steps(rule, steps)
    for flags, leaves in LETS_LEAVE.items():
        listed, held = of(7, flags, 9, 0x1A), (9,) if leaves else (7, 9)
        again = (HOVERS, INJECTED, ()) if leaves else (HOVERS, IGNORED, held)
        check_held_steps(f"0x{flags:02X}, ignored", (*CANCELLED_HOVERING, (listed, IGNORED, held), again))
        check_held_steps(f"0x{flags:02X}, offending", (CANCELLED_HOVERING[0], (listed, CANCELLED, held), again))


def check_held_steps(rule, steps):
    keeper, _ = receiver.receive(receiver.Receiver(), OPEN, bytearray())
    for number, (message, outcome, held) in enumerate(steps, 1):
        keeper, answer = receiver.receive(keeper, message, bytearray(programs.LENT_TO_READERS))
        counts = [answer.injected, answer.ignored, answer.cancelled]
        want = [int(outcome == verdict) for verdict in (INJECTED, IGNORED, CANCELLED)]
        same(f"{rule}, {number}", (answer.refusal, counts), (outcome if isinstance(outcome, int) else 0, want))
        same(f"{rule}, {number} holds", keeper.held, set(held))
        if outcome in (INJECTED, IGNORED, CANCELLED):
            same(f"{rule}, {number} runs", keeper.running, outcome == INJECTED)


def check_all_held():
    """All 256 ids: none opens by hovering but the one that left."""
    keeper = received_all(OPEN, ODD, *(of(*(value for each in group for value in (each, 0x1A))) for group in groups()))
    same("all held", keeper.held, set(range(256)))
    for contact_id in range(256):
        hovers = listing(contact_id, 0x0A)
        same(f"{contact_id} held", receiver.frame_step(keeper, hovers)[:2], (keeper, IGNORED))
        left, verdict, _ = receiver.frame_step(keeper, listing(contact_id, 0x02))
        same(f"{contact_id} leaves", (left.held, verdict), (set(range(256)) - {contact_id}, IGNORED))
        same(f"{contact_id} left", receiver.frame_step(left, hovers)[1], INJECTED)
        same(f"{contact_id} pressed", receiver.frame_step(keeper, listing(contact_id, 0x19))[1], INJECTED)


def groups():
    return [range(at, min(at + 63, 256)) for at in range(0, 256, 63)]


def received_all(*sent_messages):
    """The receiver after messages that it accepts."""
    keeper = receiver.Receiver()
    for message in sent_messages:
        keeper, answer = receiver.receive(keeper, message, bytearray(programs.LENT_TO_READERS))
        same(message.hex(), answer.refusal, 0)
    return keeper


def check_no_room_to_open():
    """13 leaves the set as it was, whatever frames came before the one that opens."""
    keeper = received_all(OPEN, HOVERS, ODD)
    for message in (of(5, 0x0A), sent(listing(7, 0x02), listing(7, 0x0A)), sent(listing(4, 0x1A), listing(5, 0x0A))):
        same(message.hex(), receiver.receive(keeper, message, bytearray(41)), (keeper, receiver.Answer(13)))
        same(f"{message.hex()} with room", receiver.receive(keeper, message, bytearray(42))[1].refusal, 0)
    emptied, _ = receiver.receive(keeper, of(5, 0x0A, 5, 0x0A), bytearray())
    same("a cancel without records needs no room", emptied.held, {5})


def check_untimed_records():
    """Ready flag 2: the head has offset 0."""
    data = entries.join([UNTIMED, sent(frame(DOWN, offset=5), time=8)])
    same("untimed", [house.unpack(record) for record in chunks(programs.records(data))], [house.Head(1, 0), DOWN])


def check_cancel_records():
    """By rising id, flags by the state, the stored position, no optional field."""
    ready = corpus.client_ready(0, 0x00010000, 9)
    arrivals = [contact(255, 0x19, -1, 2, pressure=3), contact(0, 0x0A, 4, 5, orientation=6), contact(9, 0x19)]
    data = entries.join([ready, sent(frame(*arrivals)), sent(frame(contact(9, 0x1A, 7, 7)), frame(contact(9, 0x02)))])
    want = [
        house.Contact(2, 0x22, 0, 0, 4, 5),
        house.Contact(2, 0x24, 0, 9, 7, 7),
        house.Contact(2, 0x24, 0, 255, -1, 2),
    ]
    same("cancel", [house.unpack(record) for record in chunks(programs.records(data))][-3:], want)


# House records.


def check_house(rng):
    same("head layout", sum(width for _, width in house.HEAD_LAYOUT), 168)
    same("contact layout", sum(width for _, width in house.CONTACT_LAYOUT), 168)
    for _ in range(300):
        one = corpus.random_contact(rng)
        record = house.pack_contact(one)
        same("contact", (house.unpack(record), house.well_formed(record)), (one, True))
        head = house.Head(rng.randint(0, 256), rng.randrange(1 << 61))
        record = house.pack_head(head)
        same("head", (house.unpack(record), house.well_formed(record)), (head, True))
    for wrong in (
        house.Contact(flags=0x19, x=-(1 << 29)),
        house.Contact(flags=0x19, fields_present=1, top=-(1 << 14)),
        house.Contact(flags=0x18),
        house.Contact(flags=0x19, left=1),
        house.Contact(kind=2, flags=0x02),
        house.Contact(kind=3, flags=0x22),
    ):
        same(f"{wrong}", house.well_formed(house.pack_contact(wrong)), False)


# Heads, with their bytes worked out by hand: byte 0 has the kind and the count's low six bits, bytes 1 to 7 the
# offset's first 56 bits, byte 8 its last five and the count's three high ones.

HIGHEST_OFFSET = (1 << 61) - 1
HEADS = (
    (0, 0, "00 00 00 00 00 00 00 00 00", True),
    (1, 0, "01 00 00 00 00 00 00 00 00", True),
    (63, 0, "3F 00 00 00 00 00 00 00 00", True),
    (64, 0, "00 00 00 00 00 00 00 00 01", True),
    (65, 1, "01 00 00 00 00 00 00 00 09", True),
    (127, 0, "3F 00 00 00 00 00 00 00 01", True),
    (128, 31, "00 00 00 00 00 00 00 00 FA", True),
    (255, 32, "3F 00 00 00 00 00 00 01 03", True),
    (256, 0, "00 00 00 00 00 00 00 00 04", True),
    (256, HIGHEST_OFFSET, "00 FF FF FF FF FF FF FF FC", True),
    (63, HIGHEST_OFFSET, "3F FF FF FF FF FF FF FF F8", True),
    (257, 0, "01 00 00 00 00 00 00 00 04", False),
    (320, 0, "00 00 00 00 00 00 00 00 05", False),
    (511, HIGHEST_OFFSET, "3F FF FF FF FF FF FF FF FF", False),
)


def check_heads():
    for count, offset, text, well in HEADS:
        record, head = bytes.fromhex(text) + bytes(12), house.Head(count, offset)
        same(f"{head} written", house.pack_head(head), record)
        same(f"{text} read", (house.unpack(record), house.well_formed(record)), (head, well))
        for bit in range(96):
            ill = corpus.flipped(record, bit)
            same(f"{text}, bit {bit}", (house.unpack(ill), house.well_formed(ill)), (head, False))
    for count in range(1 << 16):
        written = house.unpack(house.pack_head(house.Head(count, count << 45)))
        same(f"a count of {count}", written, (count % 512, (count << 45) % (1 << 61)))


def check_head_lines():
    """The commands 'h', 'H' and 'd' of 'vectors'."""
    widest = "00" * 8 + "04" + "00" * 12
    for rest, line in (
        ("48 01 00 00 00 00 00 00 00 00 00 15", f"0 21 {widest}"),
        ("48 03 00 00 00 00 00 00 00 00 00 16", f"0 21 {widest}ee"),
        ("48 01 00 00 00 00 00 00 00 00 00 14", f"13 0 {'ee' * 20}"),
        ("48 02 00 00 00 00 00 00 00 00 00 15", f"0 21 {'00' * 21}"),
        ("48 01 00 00 00 00 00 00 00 00 00 21", "unknown"),
        ("48 01 00 00 00 00 00 00 00 00 00", "unknown"),
        ("48 01 00 00 00 00 00 00 00 00 00 15 00", "unknown"),
        ("68 40 00 00 00 00 00 00 00 00 15", f"0 21 {'00' * 8}01{'00' * 12}"),
        ("68 01 00 00 00 00 00 00 00 00 00 15", "unknown"),
        (f"64 {widest}", "head 256 0 well"),
        (f"64 01 {widest[2:]}", "head 257 0 ill"),
        (f"64 {widest[:-2]} 01", "head 256 0 ill"),
    ):
        same(rest, programs.vector_line(bytes.fromhex(rest)), line)


# The head of before (request #107): "Every stored head therefore reads as it did. An older reader refuses a count
# above 63 by 14."


def check_old_heads(rng):
    same("old head layout", sum(width for _, width in old_heads.LAYOUT), 168)
    offsets = (0, 1, 31, 32, HIGHEST_OFFSET, *(rng.randrange(1 << 61) for _ in range(20)))
    for offset in offsets:
        for count in range(512):
            check_both_layouts(house.Head(count, offset))
    for _ in range(2000):
        # Any bits at all, many of them 0.
        record = bytes([rng.randrange(64)]) + rng.randbytes(8) + rng.choice((bytes(12), rng.randbytes(12)))
        if old_heads.well_formed(record):
            same(f"{record.hex()} as it was", house.unpack(record), old_heads.unpack(record))
            same(f"{record.hex()} well formed", house.well_formed(record), True)
        if house.unpack(record).count > 63:
            same(f"{record.hex()} by an older reader", old_heads.well_formed(record), False)


def check_both_layouts(head):
    record, old = house.pack_head(head), old_heads.pack(head._replace(count=head.count % 64))
    same(f"{head} to an older reader", old_heads.well_formed(record), head.count <= 63)
    same(f"{head} to a reader", house.well_formed(record), head.count <= 256)
    if head.count <= 63:
        same(f"{head} in both layouts", record, old)
        same(f"{head} as it was", (house.unpack(old), old_heads.unpack(old)), (head, head))
        same(f"{head} well formed as it was", (house.well_formed(old), old_heads.well_formed(old)), (True, True))


def check_record_files():
    """Every head that a receiver writes: up to 63 contacts as it was before, and wider ones 14 to a reader of then."""
    for history, wide in (
        (make_bench.padded_history(2, 0), False),
        (make_bench.wide_history(256, 0, wide_play.all_allowed), True),
    ):
        records = [each for each in chunks(programs.records(entries.join(history.entries))) if house.kind_of(each) == 0]
        same("heads wider than before", any(house.unpack(record).count > 63 for record in records), wide)
        for record in records:
            same(f"{record.hex()} well formed", house.well_formed(record), True)
            check_both_layouts(house.unpack(record))


def check_widest_frames():
    """One frame of 256 contacts through every reader: what it writes, its cancel, one contact more, one id twice."""
    ready, ids = corpus.client_ready(0, 0x00010001, 256), range(256)
    down, over = (frame(*(contact(each % 256, 0x19, each, -each) for each in range(count))) for count in (256, 257))
    twice = frame(*down.contacts[:255], down.contacts[0])
    for most, bad, want in (
        (256, frame(contact(9, 0x1A, 9, 9), contact(9, 0x1A, 9, 9)), ((0, 1, 0, 0, 0, 257), (0, 0, 0, 1, 0, 256))),
        (255, twice, ((0, 0, 0, 1, 0, 0), (0, 0, 0, 1, 0, 0))),
        (256, over, ((0, 1, 0, 0, 0, 257), (7, 0, 0, 0, 0, 0))),
    ):
        keeper, output = received_all(ready[:-2] + most.to_bytes(2, "little")), bytearray(257 * 21)
        keeper, first = receiver.receive(keeper, sent(down), output)
        if first.records:
            head = bytes.fromhex("00 00 00 00 00 00 00 00 04") + bytes(12)
            same("257 records", bytes(output), head + b"".join(map(house.pack_contact, down.contacts)))
        keeper, second = receiver.receive(keeper, sent(bad), output)
        same(f"{most} active", (first, second), want)
        if second.records:
            gone = [house.Contact(2, 0x24, 0, each, each, -each) for each in ids]
            same("256 cancelled", [house.unpack(record) for record in chunks(output[: 256 * 21])], gone)
    small_room, keeper = bytearray(257 * 21 - 1), received_all(ready)
    same("a byte too little", receiver.receive(keeper, sent(down), small_room), (keeper, receiver.Answer(13)))
    same("written", messages.write_touch(bytearray(4096), 0, corpus.records_of([down]))[0], 0)
    same("one more written", messages.write_touch(bytearray(4096), 0, corpus.records_of([over])), (14, 0))
    same("one more chosen", choose(Label(), [], corpus.records_of([over]), []), (Label(), (14, 0)))
    same("chosen", choose(Label(), [], corpus.records_of([down]), [])[1], (0, 0))


# The six messages.

WRITTEN = (
    (messages.write_server_ready, (0x00010001,), "01 00 0A 00 00 00 01 00 01 00"),
    (messages.write_client_ready, (0, 0x00010001, 10), BENCH_ENTRIES[0]),
    (messages.write_suspend, (), "04 00 06 00 00 00"),
    (messages.write_resume, (), "05 00 06 00 00 00"),
    (messages.write_dismiss, (7,), "06 00 07 00 00 00 07"),
    (messages.write_touch, (0, b""), "03 00 08 00 00 00 00 00"),
)

READERS = (
    (messages.read_server_ready, "01 00 0A 00 00 00 01 00 01 00", 0x00010001),
    (messages.read_client_ready, BENCH_ENTRIES[0], (0, 0x00010001, 10)),
    (messages.read_suspend, "04 00 06 00 00 00", None),
    (messages.read_resume, "05 00 06 00 00 00", None),
    (messages.read_dismiss, "06 00 07 00 00 00 07", 7),
    (messages.read_touch, "03 00 08 00 00 00 00 00", (0, ())),
)


def check_messages():
    for write, values, text in WRITTEN:
        data = bytes.fromhex(text)
        out = bytearray(b"\xee" * (len(data) + 1))
        same(write.__name__, write(out, *values), (0, len(data)))
        same(f"{write.__name__} bytes", bytes(out), data + b"\xee")
        same(f"{write.__name__} room", write(bytearray(len(data) - 1), *values), (13, 0))
    for read, text, value in READERS:
        data = bytes.fromhex(text)
        same(read.__name__, read(data), value)
        longer = corpus.message(data[0], data[6:] + b"\0")
        same(f"{read.__name__} longer", refusal_of(lambda: read(longer)), 12)
    same("version", messages.write_server_ready(bytearray(), 0x00010002), (8, 0))
    same("flags", messages.write_client_ready(bytearray(), 4, 0x00010000, 0), (8, 0))


def check_round_trip(rng):
    """Either reading, then writing: the same bytes, over messages made field by field."""
    for _ in range(200):
        message = corpus.touch(corpus.random_value(rng, U4), corpus.random_frames(rng))
        line = programs.plain_line(message)
        same(message.hex(), line.split(" ")[0] + line[-5:], "0 same")
        same(f"{message.hex()} strictly", programs.strict_line(message), line)


# The two readings: a file with its bytes written out, and what 'plain' and 'strict' print for it.

READING_FILE = (
    ("03 00 08 00 00 00 00 00", "0 0 0 same", "0 0 0 same"),
    ("03 00 09 00 00 00 40 20 00", "0 32 0 becomes 8", "6 0 0"),
    ("03 00 0C 00 00 00 C0 00 00 09 80 00", "0 9 0 becomes 8", "6 0 0"),
    ("03 00 11 00 00 00 00 01 01 00 01 00 40 64 40 32 19", "0 0 2 same", "0 0 2 same"),
    ("03 00 12 00 00 00 00 01 01 00 01 00 80 00 64 40 32 19", "0 0 2 becomes 17", "6 0 0"),
    ("03 00 0F 00 00 00 00 01 01 00 01 00 00 00 19", "0 0 2 same", "0 0 2 same"),
    ("03 00 0F 00 00 00 00 01 01 00 01 00 20 00 19", "0 0 2 becomes 15", "6 0 0"),
    ("03 00 16 00 00 00 00 01 01 E0 00 00 00 00 00 00 00 01 00 20 00 19", "0 0 2 becomes 15", "6 0 0"),
    ("03 00 0E 00 00 00 00 01 01 00 01 00 20 00", "5 0 0", "6 0 0"),
    ("03 00 0F 00 00 00 00 01 01 00 01 00 20 00 1B", "9 0 0", "6 0 0"),
    ("03 00 0D 00 00 00 00 01 01 00 01 00 60", "5 0 0", "5 0 0"),
    ("06 00 07 00 00 00 01", "3 0 0", "3 0 0"),
)


def check_reading_file():
    data = entries.join(bytes.fromhex(text) for text, _, _ in READING_FILE) + b"\0"
    for program, column in ((programs.plain, 1), (programs.strict, 2)):
        want = "".join(f"{number} {row[column]}\n" for number, row in enumerate(READING_FILE, 1))
        same(program.__name__, program(data), want + f"{len(READING_FILE) + 1} cut\n")


# The laws of the two readings, over the corpus and over random padding.


def check_readings(rng):
    for message in make_plain.all_messages():
        check_both_readings(message)
    for _ in range(200):
        fields = corpus.touch_fields(corpus.random_value(rng, U4), corpus.random_frames(rng, 3, 3))
        check_forms(rng, fields)


def reading_of(reading, message):
    """The answer and the whole output, filled beforehand."""
    output = lent_output(programs.LENT_TO_READERS)
    return reading(message, output), output


def check_both_readings(message):
    """Padding apart they agree; what is accepted, written back, is read the same, is no longer, and stays as it is."""
    strict, other = reading_of(messages.plain_strictly, message), reading_of(messages.plain, message)
    if strict[0].refusal == 6:
        same("6 has nothing else", strict, ((6, 0, 0), lent_output(programs.LENT_TO_READERS)))
        same("6 is never the other's", other[0].refusal != 6, True)
    else:
        same(f"{message.hex()} in both", other, strict)
    if other[0].refusal != 0:
        return
    back = shortest(message)
    same(f"{back.hex()} read strictly", reading_of(messages.plain_strictly, back), other)
    same(f"{back.hex()} read", reading_of(messages.plain, back), other)
    same(f"{message.hex()} has its only form", back == message, strict[0].refusal == 0)
    same(f"{message.hex()} is as long", len(back) <= len(message), True)
    same(f"{back.hex()} again", shortest(back), back)


def shortest(message):
    """An accepted message, read and written back."""
    answer, output = reading_of(messages.plain, message)
    return programs.written_back(answer.encode_time, bytes(output[: answer.records * house.LENGTH]))


def check_forms(rng, fields):
    """All forms of one meaning are read the same and become the one that the writer gives."""
    only = corpus.touch_of(fields)
    want = reading_of(messages.plain_strictly, only)
    for _ in range(5):
        form = corpus.touch_of(corpus.randomly_padded(rng, fields))
        same(form.hex(), reading_of(messages.plain, form), want)
        same(f"{form.hex()} becomes", shortest(form), only)


def check_padded_receiver(rng):
    """A receiver makes of a padded message what it makes of the shortest of the same meaning; 6 is never given."""
    history = History()
    history.send(corpus.client_ready(0, 0x00010001, 10))
    padded_play.all_play(history)
    padded_play.walk(history, rng, list(range(9)), 200)
    keeper = receiver.Receiver()
    for message in history.entries:
        output, other_output = lent_output(programs.LENT_TO_READERS), lent_output(programs.LENT_TO_READERS)
        accepted = messages.plain(message, bytearray(programs.LENT_TO_READERS)).refusal == 0
        have = receiver.receive(keeper, message, output)
        want = receiver.receive(keeper, shortest(message) if accepted else message, other_output)
        same(message.hex(), (have, output), (want, other_output))
        same(f"{message.hex()} by 6", have[1].refusal != 6, True)
        keeper = have[0]
    same("padded play leaves", keeper, history.receiver)


# The panel: a file with its bytes written out, what 'panel' prints for it and what 'sent' writes.

HEAD = "01" + " 00" * 20
DOWN_RECORD, LIFT_RECORD, UPDATE_RECORD = (
    f"{first} 00 20 00 00 32 00 00 00 64" + " 00" * 11 for first in ("59", "44", "5A")
)

PANEL_FILE = (
    ("02 00 10 00 00 00 00 00 01 00 01 00 0A", "15 0"),
    ("01 01 00 0A 00 00 00 01 00 01 00", "0 0"),
    ("02 00 10 00 00 00 00 00 01 00 01 00 0A", "0 16 02001000000000000000010001000a00"),
    (f"03 10 00 00 00 00 00 {HEAD} {DOWN_RECORD}", "0 17 0300110000000001010001004064403219"),
    ("01 04 00 06 00 00 00", "0 0"),
    (f"03 10 00 00 00 00 00 {HEAD} {LIFT_RECORD}", "16 0"),
    ("06 10 00 01", "17 0"),
    ("01 05 00 06 00 00 00", "0 0"),
    (f"03 00 10 00 00 00 00 {HEAD} {LIFT_RECORD}", "13 0"),
    (f"03 00 11 00 00 00 00 {HEAD} {LIFT_RECORD}", "0 17 0300110000000001010001004064403204"),
    (f"03 10 00 00 00 00 00 {HEAD} {UPDATE_RECORD}", "17 0"),
    ("", "bad"),
    ("01", "1 0"),
)


def check_panel_file():
    data = entries.join(bytes.fromhex(text) for text, _ in PANEL_FILE)
    want = "".join(f"{number} {line}\n" for number, (_, line) in enumerate(PANEL_FILE, 1))
    written = entries.join(bytes.fromhex(text) for text in BENCH_ENTRIES[:3])
    same("panel file", programs.panel(data), want)
    same("panel file sent", programs.sent(data), written)
    same("panel file cut", programs.panel(data + b"\0\4\6\x10\0"), want + "14 cut\n")
    same("panel file cut, sent", programs.sent(data + b"\0\7\3\x10\0\0\0\0"), written)
    same("no panel file", (programs.panel(b""), programs.sent(b"")), ("", b""))


# The panel's rules, call by call: the entry and its refusal.

TAKEN = (panels.take(panels.server_ready(0x00010000)), 0)
SUSPENDED, RESUMED = (panels.take(panels.SUSPEND), 0), (panels.take(panels.RESUME), 0)
TIMED, TIMELESS = (panels.ready(0, 0x00010001, 2), 0), (panels.ready(2, 0x00010001, 2), 0)
LEAVES = contact(2, 0x02, 9, 9)

PANEL_RULES = (
    ("before server ready only 1 is taken, afterwards only 4 and 5", (
        (panels.take(panels.SUSPEND), 3),
        (panels.take(panels.RESUME), 3),
        (TIMED[0], 15),
        TAKEN,
        (TAKEN[0], 3),
        (panels.take(corpus.client_ready(0, 0x00010001, 2)), 3),
        SUSPENDED,
        TIMED,
        (TIMED[0], 15),
    )),
    ("suspending", (
        TAKEN,
        SUSPENDED,
        (panels.touch(), 15),
        TIMED,
        (panels.touch(), 16),
        RESUMED,
        RESUMED,
        (panels.touch(frame(DOWN, HOVER)), 0),
        SUSPENDED,
        SUSPENDED,
        (panels.touch(frame(LIFT)), 16),
        (panels.dismiss(1), 17),
        (panels.dismiss(2), 0),
        (panels.dismiss(2), 17),
        RESUMED,
        (panels.touch(frame(LEAVES)), 17),
        (panels.touch(frame(LIFT)), 0),
    )),
    ("the first frame's offset", (
        TAKEN,
        TIMED,
        (panels.touch(time=8), 0),
        (panels.touch(frame(DOWN, offset=1)), 11),
        (panels.touch(frame(UPDATE, offset=1)), 17),
        (panels.touch(frame(), frame(DOWN, offset=1)), 0),
        (panels.touch(frame(UPDATE, offset=1)), 0),
    )),
    ("no timestamps", (
        TAKEN,
        TIMELESS,
        (panels.touch(frame(DOWN, offset=5), time=8), 0),
    )),
    ("a refusal leaves the contacts as they were", (
        TAKEN,
        TIMED,
        (panels.touch(frame(DOWN), frame(HOVER), frame(contact(3, 0x19))), 17),
        (panels.touch(frame(DOWN), frame(HOVER), room=21), 13),
        (panels.touch(*[frame(DOWN)] + [frame()] * 64), 7),
        (panels.touch(*[frame(DOWN)] + [frame()] * 63 + [frame(DOWN)]), 17),
        (panels.touch(frame(DOWN), frame(HOVER), room=22), 0),
        (panels.touch(frame(contact(1, 0x04, 6, 6))), 17),
        (panels.touch(frame(LIFT, LEAVES)), 0),
    )),
)


def check_panel_rules():
    for rule, steps in PANEL_RULES:
        client = panel.Panel()
        for number, (entry, want) in enumerate(steps, 1):
            client, answer, _ = programs.call(client, entry)
            same(f"{rule}, call {number}", answer.refusal, want)


def check_panel_output():
    """A refusal leaves the output as it was; a message touches nothing past it."""
    client, _ = panel.take(panel.Panel(), panels.server_ready(0x00010001))
    settings = messages.ClientReady(0, 0x00010001, 10)
    out = bytearray(b"\xee" * 15)
    same("no room", panel.write_ready(client, out, settings), (client, (13, 0)))
    same("untouched", bytes(out), b"\xee" * 15)
    out = bytearray(b"\xee" * 17)
    same("room", panel.write_ready(client, out, settings)[1], (0, 16))
    same("nothing past", bytes(out), bytes.fromhex(BENCH_ENTRIES[0]) + b"\xee")


def check_panel_corpora():
    """Both programs on all corpora, and what was sent into the receiver."""
    for calls in (make_panel.panel_calls(), make_panel.sent_calls(), *map(make_panel.wide_calls, make_panel.WIDE_MOST)):
        data = make_panel.input_of(calls)
        lines = [line.split(" ") for line in programs.panel(data).splitlines()]
        sent_messages = programs.sent(data)
        same("sent", entries.split(sent_messages), ([bytes.fromhex(words[3]) for words in lines if words[3:]], False))
        answers = [line.split(" ") for line in programs.bench(sent_messages).splitlines()]
        same("bench", {(words[1], words[3], words[4]) for words in answers}, {("0", "0", "0")})


# Many messages in one call: a file with its bytes written out, and what 'batch' prints for it.

READY_ENTRY, DOWN_ENTRY, LIFT_ENTRY, UPDATE_ENTRY = (
    f"{length} {text}" for length, text in zip(("00 10", "00 11", "00 11", "00 11"), BENCH_ENTRIES)
)
DISMISS_ENTRY = "00 07 06 00 07 00 00 00 01"
EXAMPLE_BUFFER = f"{READY_ENTRY} {DOWN_ENTRY} {LIFT_ENTRY} {UPDATE_ENTRY}"
WENT_DOWN, WENT_UP = (
    f"0 1 0 0 0 2 {bytes.fromhex(HEAD + record).hex()}" for record in (DOWN_RECORD, LIFT_RECORD)
)

BATCH_FILE = (
    ("", ("bad",)),
    ("00 00 00 00 00", ("bad",)),
    ("00 00 00 00 00 00", ("0 0 0",)),
    (f"00 00 00 2A 00 01 {DOWN_ENTRY}", ("0 1 0", "3 0 0 0 0 0")),
    (f"00 00 00 54 00 03 {EXAMPLE_BUFFER}", ("18 0 0",)),
    (f"00 00 00 54 00 04 {EXAMPLE_BUFFER}", ("0 4 4", "0 0 0 0 0 0", WENT_DOWN, WENT_UP, "0 0 0 1 0 0")),
    # Ignoring: the contact that would open finds no room.
    (f"00 00 00 29 00 03 {DOWN_ENTRY} {DISMISS_ENTRY} 00 00", ("0 3 0", "13 0 0 0 0 0", "0 0 0 0 0 0", "1 0 0 0 0 0")),
    (f"00 00 00 2A 01 00 {UPDATE_ENTRY} {DOWN_ENTRY}", ("0 2 2", "0 0 1 0 0 0", WENT_DOWN)),
    (f"00 00 00 2A 00 00 {LIFT_ENTRY}", ("18 0 0",)),
    (f"00 00 00 2A 00 02 {LIFT_ENTRY} 00", ("18 0 0",)),
    (f"00 00 00 2A 00 02 {LIFT_ENTRY} 00 01", ("18 0 0",)),
    ("00 00 00 2A 00 02 00 00 00", ("18 0 0",)),
    (f"00 00 00 53 00 02 {LIFT_ENTRY} {DOWN_ENTRY}", ("0 2 2", WENT_UP, "13 0 0 0 0 0")),
    (f"00 00 00 00 00 02 10 01 {'00' * 4097} {DISMISS_ENTRY}", ("0 2 0", "2 0 0 0 0 0", "0 0 0 0 0 0")),
    (f"FF FF FF FF FF FF {DOWN_ENTRY}", ("0 1 2", WENT_DOWN)),
    (f"FF FF FF FF FF FF {'00' * 2 * 4097}", ("18 0 0",)),
    (f"FF FF FF FF FF FF {'00' * 2 * 4096}", ("0 4096 0", *["1 0 0 0 0 0"] * 4096)),
    (f"00 02 00 00 00 01 {LIFT_ENTRY}", ("0 1 2", WENT_UP)),
)


def check_batch_file():
    data = entries.join(bytes.fromhex(text) for text, _ in BATCH_FILE)
    want = ""
    for number, (_, (first, *fed)) in enumerate(BATCH_FILE, 1):
        want += f"{number} {first}\n" + "".join(f"{number}.{place} {line}\n" for place, line in enumerate(fed, 1))
    same("batch file", programs.batch(data), want)
    same("batch file cut", programs.batch(data + b"\0\7\0\0\0\0\0\0"), want + "19 cut\n")
    same("batch file half length", programs.batch(data + b"\0"), want + "19 cut\n")
    same("no batch file", programs.batch(b""), "")


def check_receiver_rules_in_batches():
    for rule, steps in RULES:
        answers = [None] * len(steps)
        buffer = entries.join(message for message, _ in steps)
        _, answer = receive_all(receiver.Receiver(), buffer, answers, bytearray(programs.MOST_LENT_TO_BATCH))
        same(f"{rule}, in one batch", answers, [want for _, want in steps])
        same(f"{rule}, batch", answer, (0, len(steps), sum(want[-1] for _, want in steps)))


# The laws of a batch, over the corpora: what is lent is filled beforehand, so that whatever stays shows.


def lent_list(places):
    return ["as it was"] * places


def lent_output(room):
    return bytearray(b"\xee" * room)


BATCH_MAKERS = (
    make_batch.main_batches,
    make_batch.untimed_batches,
    make_batch.crowded_batches,
    make_batch.wide_batches,
    make_batch.single_batches,
)


def check_batch_laws(rng):
    for maker in BATCH_MAKERS:
        host, keeper = maker(), receiver.Receiver()
        for payload in host.entries:
            if len(payload) >= 6:
                room, places = int.from_bytes(payload[:4], "big"), int.from_bytes(payload[4:6], "big")
                keeper = check_batch(rng, keeper, payload[6:], min(room, 131072), min(places, 4096))
        same(f"{maker.__name__} leave", keeper, host.receiver)


def check_batch(rng, keeper, buffer, room, places):
    """The receiver after a batch: 18 changed nothing, or it is as if fed singly, and as two batches."""
    answers, output = lent_list(places), lent_output(room)
    after, answer = receive_all(keeper, buffer, answers, output)
    have = (after, answer, answers, output)
    payloads, cut = entries.split(buffer)
    if cut or places < len(payloads):
        same("BadBatch", have, (keeper, (18, 0, 0), lent_list(places), lent_output(room)))
    else:
        same("fed singly", have, fed_singly(keeper, payloads, room, places))
        same("two batches", have, in_two_batches(keeper, payloads, rng.randint(0, len(payloads)), room, places))
    return after


def fed_singly(keeper, payloads, room, places):
    answers, records = [], b""
    for payload in payloads:
        output = bytearray(room - len(records))
        keeper, answer = receiver.receive(keeper, payload, output)
        answers.append(answer)
        records += output[: answer.records * house.LENGTH]
    answer = Batch(0, len(payloads), len(records) // house.LENGTH)
    return keeper, answer, answers + lent_list(places - len(payloads)), records + lent_output(room - len(records))


def in_two_batches(keeper, payloads, at, room, places):
    first_answers, second_answers = lent_list(at), lent_list(places - at)
    output = lent_output(room)
    keeper, first = receive_all(keeper, entries.join(payloads[:at]), first_answers, output)
    left = memoryview(output)[first.records * house.LENGTH :]
    keeper, second = receive_all(keeper, entries.join(payloads[at:]), second_answers, left)
    answer = Batch(0, first.entries + second.entries, first.records + second.records)
    return keeper, answer, first_answers + second_answers, output


# Request #106's sentence over whole corpora, without keeping a set: a look back at what happened since the last
# cancel. An event has the ids that join and those that leave by it.


def looking_back(events):
    """An id is held that has joined and has not left since, by the same event or a later one."""
    joined_last = {contact_id: at for at, (joining, _) in enumerate(events) for contact_id in joining}
    return {
        contact_id
        for contact_id, at in joined_last.items()
        if not any(contact_id in leaving for _, leaving in events[at:])
    }


def ids_of(one):
    return {each.id for each in one.contacts}


def leaving_in(one):
    """The ids of the contacts with leaving flags that no other contact of the same id comes behind."""
    return {
        each.id
        for at, each in enumerate(one.contacts)
        if LETS_LEAVE[each.flags] and all(other.id != each.id for other in one.contacts[at + 1 :])
    }


def ends_ignoring(one, held):
    pressed = [each for each in one.contacts if each.flags == 0x19]
    hovering = [each for each in one.contacts if each.flags == 0x0A]
    if len(pressed) + len(hovering) < len(one.contacts) or not one.contacts:
        return False
    return not hovering or all(each.id not in held for each in pressed + hovering)


def check_frame_held(keeper, events, one):
    """The receiver after a frame, and the events since the last cancel; none while running."""
    after, verdict, _ = receiver.frame_step(keeper, one)
    ignored = not keeper.running and not ends_ignoring(one, looking_back(events))
    same(f"{one} ignored", verdict == IGNORED, ignored)
    if verdict == INJECTED:
        events = []
    elif verdict == CANCELLED:
        events = [(ids_of(one) | keeper.active.keys(), leaving_in(one))]
    else:
        events = [*events, (ids_of(one), leaving_in(one))]
    same(f"{one} leaves held", after.held, looking_back(events))
    return after, events


def check_message_held(keeper, events, message, room):
    """The receiver after a message, its answer and the events; a refused message changes nothing."""
    after, answer = receiver.receive(keeper, message, bytearray(room))
    if answer.refusal != 0:
        same(f"{message.hex()} refused", after, keeper)
        return after, answer, events
    check_two_rules(keeper, message)
    if message[0] == 6 and not keeper.running:
        events = [*events, (set(), {message[6]})]
    elif message[0] == 3:
        for one in messages.read_touch(message).frames:
            keeper, events = check_frame_held(keeper, events, one)
    same(f"{message.hex()} leaves held", (after.held, after.running), (looking_back(events), keeper.running))
    return after, answer, events


def check_two_rules(keeper, message):
    """The rule before the request answers otherwise only where a frame opens that hovers."""
    room = bytearray(programs.LENT_TO_READERS)
    pressed = eras.PressedReceiver(**vars(keeper))
    if receiver.receive(pressed, message, room)[1] == receiver.receive(keeper, message, room)[1]:
        return
    opened = False
    for one in messages.read_touch(message).frames:
        hovers = any(each.flags == 0x0A for each in one.contacts)
        opened |= hovers and not keeper.running and receiver.opening(one, keeper.held)
        keeper, _, _ = receiver.frame_step(keeper, one)
    same(f"{message.hex()} opens by hovering", opened, True)


def check_held_histories():
    histories = dict(make_bench.more_histories(), main=make_bench.main_history())
    for name, history in histories.items():
        keeper, events = receiver.Receiver(), []
        for message in history.entries:
            keeper, _, events = check_message_held(keeper, events, message, programs.LENT_TO_READERS)
        same(f"{name} leaves", keeper, history.receiver)


def check_held_batches():
    """With the room that the entries before leave, 13 and all."""
    for maker in BATCH_MAKERS:
        keeper, events = receiver.Receiver(), []
        for payload in maker().entries:
            after, _, fed = programs.batch_call(keeper, payload)
            left = min(int.from_bytes(payload[:4], "big"), 131072)
            for message in entries.split(payload[6:])[0][: len(fed)]:
                keeper, answer, events = check_message_held(keeper, events, message, left)
                left -= answer.records * house.LENGTH
            same(f"{maker.__name__} leave", keeper, after)


# Boat list buttons: a file with its bytes written out, and what 'choices' prints for it.

# Item 501 and just the point 100, 50; item 0 and all from -2^31 on, hidden.
POINT_BUTTON = "00 00 01 F5 00 00 00 64 00 00 00 32 00 00 00 65 00 00 00 33 01"
WIDE_BUTTON = "00 00 00 00 80 00 00 00 80 00 00 00 7F FF FF FF 7F FF FF FF 00"
PRESS, LIFT_OFF = f"{HEAD} {DOWN_RECORD}", f"{HEAD} {LIFT_RECORD}"
# Kind 2, 0x24, id 1; kind 3, 0x02, id 1.
CANCEL_RECORD, DISMISSAL_RECORD = (f"{first} 00 20" + " 00" * 18 for first in ("A4", "C2"))

CHOICES_FILE = (
    ("", "bad"),
    ("31", "bad"),
    ("02 00 00 01", "none"),
    (f"03 00 00 {PRESS}", "0 0"),
    ("01", "set"),
    (f"03 00 00 {LIFT_OFF}", "14 0"),
    (f"01 {POINT_BUTTON} {WIDE_BUTTON}", "set"),
    (f"03 00 00 {PRESS}", "0 0"),
    (f"01 {POINT_BUTTON} 00", "bad"),
    (f"01 {POINT_BUTTON * 65}", "bad"),
    (f"03 00 00 {LIFT_OFF}", "13 0"),
    (f"03 00 00 {LIFT_OFF} 00", "14 0"),
    (f"03 00 00 {LIFT_OFF} {DISMISSAL_RECORD}", "14 0"),
    (f"03 00 01 {LIFT_OFF}", "0 1 1:501"),
    (f"03 00 02 {PRESS} {LIFT_OFF} {PRESS} {LIFT_OFF} {PRESS}", "0 2 1:501 1:501"),
    ("02 00 00 00", "set"),
    ("02 00 01 FF", "set"),
    (f"03 00 02 {LIFT_OFF} {PRESS} {LIFT_OFF}", "0 1 1:0"),
    ("02 00 00", "bad"),
    ("02 00 02 00", "none"),
    (f"03 00 00 {PRESS} {CANCEL_RECORD}", "0 0"),
    (f"03 00 00 {CANCEL_RECORD}", "14 0"),
    ("03 00", "bad"),
    ("03 00 00", "0 0"),
)


def check_choices_file():
    data = entries.join(bytes.fromhex(text) for text, _ in CHOICES_FILE)
    want = "".join(f"{number} {line}\n" for number, (_, line) in enumerate(CHOICES_FILE, 1))
    same("choices file", programs.choices(data), want)
    same("choices file cut", programs.choices(data + b"\0\4\3\0\0"), want + f"{len(CHOICES_FILE) + 1} cut\n")
    same("no choices file", programs.choices(b""), "")


# Document 02's sentence over the records: no step from state to state, but for each record a look back at its
# contact's own. A contact's path has its records, each with the buttons of that time.

COMES, HOVERS_ON, STAYS_DOWN = (0x0A, 0x19), (0x0A, 0x19, 0x02, 0x22), (0x1A, 0x0C, 0x04, 0x24)
MAY_FOLLOW = {0x0A: HOVERS_ON, 0x0C: HOVERS_ON, 0x19: STAYS_DOWN, 0x1A: STAYS_DOWN}


def may_end(path):
    """Whether the last record may follow the one before it, or be the first."""
    flags = [one.flags for one, _ in path]
    return flags[-1] in (MAY_FOLLOW.get(flags[-2], COMES) if flags[1:] else COMES)


def in_order(records):
    """Kind 1 stands exactly in the places that the heads speak of."""
    ones = [house.unpack(record) for record in chunks(records)]
    heads = [(place, one.count) for place, one in enumerate(ones) if isinstance(one, house.Head)]
    spoken_of = {place + each for place, count in heads for each in range(1, count + 1)}
    return spoken_of == {place for place, one in enumerate(ones) if isinstance(one, house.Contact) and one.kind == 1}


def inside(one, buttons):
    holding = [
        place
        for place, (_, left, top, right, bottom, shown) in enumerate(buttons)
        if shown != 0 and one.x in range(left, right) and one.y in range(top, bottom)
    ]
    return min(holding, default=None)


def chosen_at_end(path):
    """The item that a path's last record chooses; None for none."""
    lift, buttons = path[-1]
    if lift.flags not in (0x04, 0x0C):
        return None
    went_down = max(place for place, (one, _) in enumerate(path) if one.flags == 0x19)
    place = inside(*path[went_down])
    cancelled = any(one.kind == 2 or one.flags == 0x24 for one, _ in path[went_down:])
    return buttons[place].item if place is not None and place == inside(lift, buttons) and not cancelled else None


def by_the_sentence(paths, buttons, records, room):
    """The paths after the records, the answer and the choices."""
    whole = len(records) % 21 == 0 and all(map(house.well_formed, chunks(records)))
    if not whole or not in_order(records):
        return paths, Chosen(14, 0), []
    after, chosen = dict(paths), []
    for one in map(house.unpack, chunks(records)):
        if isinstance(one, house.Head):
            continue
        after[one.id] = after.get(one.id, []) + [(one, buttons)]
        if not may_end(after[one.id]):
            return paths, Chosen(14, 0), []
        item = chosen_at_end(after[one.id])
        chosen += [] if item is None else [Choice(one.id, item)]
    return (paths, Chosen(13, 0), []) if len(chosen) > room else (after, Chosen(0, len(chosen)), chosen)


# The laws of choosing, over the corpus.


def check_choice_laws(rng):
    screen, paths = programs.BLANK, {}
    for payload in make_choices.all_calls().entries:
        after, text = programs.screen_call(screen, payload)
        if payload[:1] == b"\1" and text == "set":
            paths = {}
        if payload[:1] == b"\3" and text != "bad":
            room, records = int.from_bytes(payload[1:3], "big"), payload[3:]
            paths = check_choose(rng, screen, paths, records, room)
        screen = after


def check_choose(rng, screen, paths, records, room):
    """The paths after a call: it answers by the sentence; a refusal changes nothing; cut in two it is the same."""
    after, answer, lent = choose_with(screen.label, screen.buttons, records, room)
    paths, want, chosen = by_the_sentence(paths, screen.buttons, records, room)
    same(f"{records.hex()} chosen", (answer, lent), (want, chosen + lent_list(room - len(chosen))))
    if answer.refusal != 0:
        same(f"{records.hex()} refused", after, screen.label)
        return paths
    borders = [place for place, record in enumerate(chunks(records)) if house.kind_of(record) != 1]
    for place in rng.sample(borders, min(3, len(borders))):
        have = in_two_calls(screen, records, place * house.LENGTH, room)
        same(f"{records.hex()} cut before {place}", have, (after, answer, lent))
    ids = sorted({one.id for one in label.contacts_of(records)})
    for contact_id in rng.sample(ids, min(2, len(ids))):
        check_one_contact(screen, records, contact_id, after, lent[: answer.count])
    return paths


def choose_with(before, buttons, records, room):
    lent = lent_list(room)
    after, answer = choose(before, buttons, records, lent)
    return after, answer, lent


def in_two_calls(screen, records, at, room):
    """Cut between frames, the second call with the room that is left."""
    middle, first, some = choose_with(screen.label, screen.buttons, records[:at], room)
    after, second, others = choose_with(middle, screen.buttons, records[at:], room - first.count)
    answer = Chosen(first.refusal or second.refusal, first.count + second.count)
    return after, answer, some[: first.count] + others


def check_one_contact(screen, records, contact_id, after, chosen):
    """The other contacts' records change nothing of its choices, nor of what is kept of it."""
    alone = label_of_one(screen.label, contact_id)
    left, answer, lent = choose_with(alone, screen.buttons, records_of_one(records, contact_id), len(chosen))
    same(f"{contact_id} alone", lent[: answer.count], [each for each in chosen if each.id == contact_id])
    same(f"{contact_id} alone leaves", left, label_of_one(after, contact_id))


def label_of_one(whole, contact_id):
    return Label({each: kept for each, kept in whole.held.items() if each == contact_id})


def records_of_one(records, contact_id):
    """One contact's records; each frame keeps its head, which counts what is left of it."""
    result, count = [], 0
    for record in reversed(chunks(records)):
        one = house.unpack(record)
        if isinstance(one, house.Head):
            result.append(house.pack_head(one._replace(count=count)))
            count = 0
        elif one.id == contact_id:
            result.append(record)
            count += one.kind == 1
    return b"".join(reversed(result))


def check_marks(rng):
    """One button's mark is changed, and nothing else; a place past the end changes nothing."""
    for _ in range(200):
        buttons = labels.random_list(rng)
        lent, place, shown = list(buttons), rng.randrange(len(buttons) + 2), rng.randrange(256)
        same("marked", label.set_shown(lent, place, shown), place < len(buttons))
        want = [(*each[:5], shown if at == place else each.shown) for at, each in enumerate(buttons)]
        same("marks", lent, want)
        x, y = labels.spot(rng, lent)
        same("place", label.button_at(lent, x, y), inside(contact(1, 0x19, x, y), lent))


# Just enough room and a byte less: a file with its bytes written out, and what 'rooms' prints for it.

PADDED_LIFT = "03 00 12 00 00 00 00 01 01 00 01 00 80 00 64 40 32 04"
SMALL_HOVER = "03 00 0F 00 00 00 05 01 01 00 02 00 00 00 0A"
DOWN_HEX, LIFT_HEX = (bytes.fromhex(HEAD + record).hex() for record in (DOWN_RECORD, LIFT_RECORD))
HOVER_RECORD = "4A 00 40" + " 00" * 18
CANCEL_RECORD = f"A4{DOWN_RECORD[2:]}"


def two_rooms(name, zeros, numbers, output):
    """A byte too little: 13, with so many zeros and the output kept; then just enough."""
    enough = len(bytes.fromhex(output))
    return (
        f"{name} {enough - 1} 13{' 0' * zeros} kept",
        f"{name} {enough} {numbers} {bytes.fromhex(output).hex()}",
    )


def written_in(name, output):
    return two_rooms(name, 1, f"0 {len(bytes.fromhex(output))}", output)


def not_touch(number):
    return (f"plain 0 {number} 0 0 kept", f"strict 0 {number} 0 0 kept")


ROOMS_FILE = (
    ("", ("receive 0 1 0 0 0 0 0 kept", *not_touch(1))),
    ("04 00 06 00 00", ("receive 0 1 0 0 0 0 0 kept", *not_touch(1))),
    ("04 00 06 00 00 00", (
        "receive 0 3 0 0 0 0 0 kept", *not_touch(3),
        "header 5 13 0 kept", "header 6 0 6 040006000000",
        "suspend 5 13 0 kept", "suspend 6 0 6 040006000000",
    )),
    ("04 00 07 00 00 00 00", (
        "receive 0 3 0 0 0 0 0 kept", *not_touch(3), "header 5 13 0 kept", "header 6 0 6 040007000000",
    )),
    (BENCH_ENTRIES[0], (
        "receive 0 0 0 0 0 0 0", *not_touch(3),
        "header 5 13 0 kept", "header 6 0 6 020010000000",
        "client_ready 15 13 0 kept", "client_ready 16 0 16 02001000000000000000010001000a00",
    )),
    ("03 00 08 00 00 00 3F 00", (
        "receive 0 0 0 0 0 63 0", "plain 0 0 63 0", "strict 0 0 63 0",
        "header 5 13 0 kept", "header 6 0 6 030008000000",
        "touch 7 13 0 kept", "touch 8 0 8 0300080000003f00",
    )),
    # The first frame's offset is 1.
    ("03 00 0A 00 00 00 00 01 00 01", (
        "receive 0 11 0 0 0 0 0 kept",
        "plain 20 13 0 0 kept", f"plain 21 0 0 1 000000000000000008{'00' * 12}",
        "strict 20 13 0 0 kept", f"strict 21 0 0 1 000000000000000008{'00' * 12}",
        "header 5 13 0 kept", "header 6 0 6 03000a000000",
        "touch 9 13 0 kept", "touch 10 0 10 03000a00000000010001",
    )),
    (BENCH_ENTRIES[1], (
        "receive 41 13 0 0 0 0 0 kept", f"receive 42 0 1 0 0 0 2 {DOWN_HEX}",
        "plain 41 13 0 0 kept", f"plain 42 0 0 2 {DOWN_HEX}",
        "strict 41 13 0 0 kept", f"strict 42 0 0 2 {DOWN_HEX}",
        "header 5 13 0 kept", "header 6 0 6 030011000000",
        "touch 16 13 0 kept", "touch 17 0 17 0300110000000001010001004064403219",
    )),
    (PADDED_LIFT, (
        "receive 41 13 0 0 0 0 0 kept", f"receive 42 0 1 0 0 0 2 {LIFT_HEX}",
        "plain 41 13 0 0 kept", f"plain 42 0 0 2 {LIFT_HEX}",
        "strict 0 6 0 0 kept",
        "header 5 13 0 kept", "header 6 0 6 030012000000",
        "touch 16 13 0 kept", "touch 17 0 17 0300110000000001010001004064403204",
    )),
    (BENCH_ENTRIES[1], (
        *two_rooms("receive", 5, "0 1 0 0 0 2", HEAD + DOWN_RECORD),
        *two_rooms("plain", 2, "0 0 2", HEAD + DOWN_RECORD), *two_rooms("strict", 2, "0 0 2", HEAD + DOWN_RECORD),
        *written_in("header", BENCH_ENTRIES[1][:17]), *written_in("touch", BENCH_ENTRIES[1]),
    )),
    # The same once more is a cancel.
    (BENCH_ENTRIES[1], (
        *two_rooms("receive", 5, "0 0 0 1 0 1", CANCEL_RECORD),
        *two_rooms("plain", 2, "0 0 2", HEAD + DOWN_RECORD), *two_rooms("strict", 2, "0 0 2", HEAD + DOWN_RECORD),
        *written_in("header", BENCH_ENTRIES[1][:17]), *written_in("touch", BENCH_ENTRIES[1]),
    )),
    (SMALL_HOVER, (
        *two_rooms("receive", 5, "0 1 0 0 5 2", HEAD + HOVER_RECORD),
        *two_rooms("plain", 2, "0 5 2", HEAD + HOVER_RECORD), *two_rooms("strict", 2, "0 5 2", HEAD + HOVER_RECORD),
        *written_in("header", SMALL_HOVER[:17]), *written_in("touch", SMALL_HOVER),
    )),
    ("06 00 07 00 00 00 02", (
        *two_rooms("receive", 5, "0 0 0 0 0 1", "C2 00 40" + " 00" * 18), *not_touch(3),
        *written_in("header", "06 00 07 00 00 00"), *written_in("dismiss", "06 00 07 00 00 00 02"),
    )),
    ("06 00 07 00 00 00 02", (
        "receive 0 0 0 0 0 0 0", *not_touch(3),
        *written_in("header", "06 00 07 00 00 00"), *written_in("dismiss", "06 00 07 00 00 00 02"),
    )),
    ("01 00 0A 00 00 00 00 00 01 00", (
        "receive 0 3 0 0 0 0 0 kept", *not_touch(3),
        *written_in("header", "01 00 0A 00 00 00"), *written_in("server_ready", "01 00 0A 00 00 00 00 00 01 00"),
    )),
    ("05 00 06 00 00 00", (
        "receive 0 3 0 0 0 0 0 kept", *not_touch(3),
        *written_in("header", "05 00 06 00 00 00"), *written_in("resume", "05 00 06 00 00 00"),
    )),
    ("FF FE FD FC FB FA", ("receive 0 3 0 0 0 0 0 kept", *not_touch(3), *written_in("header", "FF FE FD FC FB FA"))),
    (f"03 00 01 10 00 00 {'00' * 4091}", (
        "receive 0 2 0 0 0 0 0 kept", *not_touch(2), *written_in("header", "03 00 01 10 00 00"),
    )),
)


def check_rooms_file():
    data = entries.join(bytes.fromhex(text) for text, _ in ROOMS_FILE)
    want = "".join(f"{number} {line}\n" for number, (_, texts) in enumerate(ROOMS_FILE, 1) for line in texts)
    for have, line in zip(rooms.rooms(data).splitlines(), want.splitlines()):
        same("rooms line", have, line)
    same("rooms file", rooms.rooms(data), want)
    same("rooms file cut", rooms.rooms(data + b"\0\6\4\0\6\0\0"), want + f"{len(ROOMS_FILE) + 1} cut\n")
    same("no rooms file", rooms.rooms(b""), "")
    same("changed", rooms.Lent("plain", (13, 0, 0), b"\xee\0").line(), "plain 2 13 0 0 changed")


def check_rooms_corpus(rng):
    """What was lent just enough is what the other programs print and write; any room below that is too little."""
    data = input_of("rooms")
    messages_there = make_rooms.history().entries
    same("rooms stdin", data, entries.join(messages_there))
    same("rooms stdout", (CRATES / "rooms" / "stdout").read_text(), rooms.rooms(data))
    calls = list(rooms.lent_calls(data))
    # The last line of each call is the one with enough room.
    answers = [{call.name: call for call in each} for each in calls]
    bench, records = programs.bench_and_records(data)
    received = [each["receive"] for each in answers]
    # 'bench' prints no encode time.
    have = [" ".join(map(str, (n, *call.numbers[:4], call.numbers[5]))) for n, call in enumerate(received, 1)]
    same("rooms and bench", have, bench.splitlines())
    same("rooms and records", b"".join(call.output for call in received if not call.refusal), records)
    for name, program in (("plain", programs.plain), ("strict", programs.strict)):
        have = [" ".join(map(str, (number, *each[name].numbers))) for number, each in enumerate(answers, 1)]
        same(f"rooms and {name}", have, [" ".join(line.split(" ")[:4]) for line in program(data).splitlines()])
    keeper = receiver.Receiver()
    for message, each in zip(messages_there, answers):
        check_room_writers(message, each)
        keeper = check_less_room(rng, keeper, message, each["receive"].room)


def check_room_writers(message, answers):
    """What stands at the front, and the message itself: in its shortest form where it is padded."""
    if len(message) >= 6:
        same(f"{message.hex()} header", answers["header"].output, message[:6])
    same(f"{message.hex()} touch", "touch" in answers, not answers["plain"].refusal)
    if "touch" in answers:
        same(f"{message.hex()} written", answers["touch"].output, shortest(message))
        same(f"{message.hex()} its own", answers["touch"].output == message, not answers["strict"].refusal)
    # The others have but one form.
    others = [each for each in answers if each not in ("receive", "plain", "strict", "header", "touch")]
    for name in others:
        same(f"{message.hex()} {name}", (answers[name].output, len(others)), (message, 1))


def check_less_room(rng, keeper, message, enough):
    """The receiver after a message; with any less room it is the one before, and so is the output."""
    for room in sorted({0, rng.randrange(enough), enough - 1}) if enough else ():
        output = lent_output(room)
        same(f"{message.hex()} in {room}", receiver.receive(keeper, message, output), (keeper, receiver.Answer(13)))
        same(f"{message.hex()} in {room} kept", output, lent_output(room))
    return receiver.receive(keeper, message, bytearray(enough))[0]


# How the kept corpora end: inside an entry, so that a program prints 'cut' last, or with a whole one.

CRATES = Path(__file__).resolve().parent.parent / "crates"

WHOLE = (
    "batch",
    "bench",
    "choices",
    "in_place",
    "panel",
    "plain",
    "records",
    "rooms",
    "sent",
    "vectors",
    "writer",
)
CUT = ("strict",)
CUT_HISTORIES = (
    "example-cut.bench",
    "example-half-length.bench",
    "example-length-only.bench",
    "example-long-cut.bench",
    "half-length-only.bench",
)


def check_ends():
    for name in WHOLE + CUT:
        stdin, stdout = ((CRATES / name / each).read_bytes() for each in ("stdin", "stdout"))
        payloads, cut = entries.split(stdin)
        same(f"{name} is cut", cut, name in CUT)
        same(f"{name} has a cut line", any(map(says_cut, stdout.splitlines())), name in CUT)
        if cut:
            same(f"{name} ends", stdout.splitlines()[-1], b"%d cut" % (len(payloads) + 1))
    same("the input of strict", input_of("strict"), input_of("plain") + b"\0")
    same("the input of records", input_of("records"), input_of("bench"))
    check_ends_of_histories()


def input_of(name):
    return (CRATES / name / "stdin").read_bytes()


def says_cut(line):
    return line.endswith(b" cut")


def check_ends_of_histories():
    names = (CRATES / "histories" / "args").read_text().split()
    data = {name: (CRATES / "histories" / "data" / name).read_bytes() for name in names}
    same("cut histories", [name for name in names if entries.split(data[name])[1]], list(CUT_HISTORIES))
    same("whole histories", len(names) > len(CUT_HISTORIES), True)
    want = "".join(f"{name}\n{programs.bench(data[name])}" for name in names)
    same("histories", (CRATES / "histories" / "stdout").read_text(), want)


def main():
    rng = random.Random(SEED)
    check_integers()
    check_integer_writers()
    check_every_short_reading()
    check_longer_readings(rng)
    check_integer_lines()
    check_bench_example()
    check_limits()
    check_first_fault_answers()
    check_lift_elsewhere()
    check_receiver_rules()
    check_held_rules()
    check_all_held()
    check_no_room_to_open()
    check_untimed_records()
    check_cancel_records()
    check_house(rng)
    check_heads()
    check_head_lines()
    check_old_heads(rng)
    check_record_files()
    check_widest_frames()
    check_messages()
    check_round_trip(rng)
    check_reading_file()
    check_readings(rng)
    check_padded_receiver(rng)
    check_panel_file()
    check_panel_rules()
    check_panel_output()
    check_panel_corpora()
    check_batch_file()
    check_receiver_rules_in_batches()
    check_batch_laws(rng)
    check_held_histories()
    check_held_batches()
    check_choices_file()
    check_choice_laws(rng)
    check_marks(rng)
    check_rooms_file()
    check_rooms_corpus(rng)
    check_ends()
    for difference in differences:
        print(difference)
    print("differences", len(differences))
    sys.exit(1 if differences else 0)


if __name__ == "__main__":
    main()
