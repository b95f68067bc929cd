"""Writes OUTDIR/stdin and OUTDIR/stdout for the program 'plain'. The program 'strict' has the same input."""

import random

import corpus
import wide_play
from corpus import all_longer, contact, frame, longer, message, minus_zero, touch, touch_fields, touch_of
from reference import entries, house, integers, programs
from reference.integers import S2, S4, U2, U4, U8

SEED = 20260103
TOUCH = 3

FULL = contact(9, 0x19, -40, 3000, left=-5, top=-70, right=5, bottom=70, orientation=300, pressure=40000)
SMALL = contact(1, 0x0A, 0, 1)
# Every integer of one byte.
LITTLE = contact(9, 0x19, 3, -4, left=-5, top=6, right=7, bottom=-8, orientation=30, pressure=40)


# Good messages


def good_shapes():
    yield touch(0, [])
    yield touch(0x3FFFFFFF, [])
    yield touch(0, [frame()])
    yield touch(5, [frame(), frame(offset=1), frame(offset=0x1FFFFFFFFFFFFFFF)])
    # 11 is not the plain reading's business.
    yield touch(5, [frame(SMALL, offset=77)])
    for flags in house.FLAGS:
        yield touch(1, [frame(contact(3, flags, 10, 20))])
    for present in range(8):
        yield touch(2, [frame(FULL_WITH[present], offset=31), frame(SMALL, offset=32)])
    for contact_id in (0, 127, 128, 255):
        yield touch(3, [frame(contact(contact_id, 0x19))])
    # The same id twice and illegal flags are faults of the states, and so no refusals.
    yield touch(4, [frame(contact(7, 0x1A), contact(7, 0x04), contact(7, 0x04))])
    # Rectangle sides may come in any order.
    yield touch(4, [frame(contact(7, 0x19, left=9, top=8, right=-9, bottom=-8))])


def reduced(present):
    """FULL with only the optional fields that fieldsPresent names."""
    values = FULL._asdict() | {"fields_present": present}
    for name, bit in [(side, 1) for side in house.SIDES] + [("orientation", 2), ("pressure", 4)]:
        if not present & bit:
            values[name] = 0
    return house.Contact(**values)


FULL_WITH = [reduced(present) for present in range(8)]


def extremes():
    """Every integer field at both ends and at each length's first and last value."""
    fields = corpus.touch_fields(1, [frame(FULL)])
    for at, field in enumerate(fields):
        if field.name in ("encodeTime", "frameOffset", "x", "y", *house.SIDES):
            for value in ends(field.kind):
                yield message(TOUCH, corpus.with_field(fields, at, integers.encode(field.kind, value)))


def ends(kind):
    values = {0, 1}
    for length in range(1, kind.longest + 1):
        values |= {kind.largest(length), min(kind.largest(length) + 1, kind.highest)}
    if kind.signed:
        values |= {-value for value in values}
    return sorted(values)


# Both sides of every limit


def changed(name, value, contacts=(FULL,)):
    """A message of one frame with one integer of its first contact, or its counts, changed."""
    fields = corpus.touch_fields(1, [frame(*contacts)])
    at = [field.name for field in fields].index(name)
    return message(TOUCH, corpus.with_field(fields, at, integers.encode(fields[at].kind, value)))


def limits():
    for name, values in (
        ("orientation", (0, 359, 360, 512, U4.highest)),
        ("pressure", (0, 65000, 65001, 65535, 65536, U4.highest)),
        ("fieldsPresent", (7, 8, 15, 16, U2.highest)),
        ("frameCount", (0, 1, 2, 64, 65, 127, 128, U2.highest)),
        ("contactCount", (0, 1, 2, 63, 64, 127, 128, U2.highest)),
    ):
        for value in values:
            yield changed(name, value)
    for flags in (*range(64), 0x59, 0x119, 0x4019, 0x400019, U4.highest):
        yield changed("contactFlags", flags)
    for count in (1, 63, 64):
        yield touch(0, [frame(*(contact(each, 0x19) for each in range(count)))])
    for count in (63, 64, 65):
        yield touch(0, [frame()] * count)
        yield touch(0, [frame(SMALL, offset=3)] * count)


# Long messages


def long_messages():
    for length in (4094, 4095, 4096, 4097, 4098):
        yield touch(0, corpus.stretched(most_records(), length))
    for length in (4096, 4097):
        yield touch(1 << 20, corpus.stretched(wide_frames(), length, 1 << 20))
        yield message(TOUCH, bytes(length - 6))
        # 2 comes before 3 and 4.
        yield message(9, bytes(length - 6))
        yield message(TOUCH, bytes(length - 6), length + 1)
    yield message(TOUCH, bytes(8000))
    yield bytes(entries.LONGEST_ENTRY)


def most_records():
    """64 frames and 790 contacts of five bytes each: nearly the most records that fit."""
    contacts = [contact(each, 0x0A, each % 32, 31 - each % 32) for each in range(63)]
    frames = [frame(*contacts[:40]) for _ in range(15)] + [frame(*contacts[:7]) for _ in range(15)]
    frames += [frame(*contacts[:63])] + [frame(contacts[0]) for _ in range(22)]
    return frames + [frame() for _ in range(64 - len(frames))]


def wide_frames():
    """Contacts of the most bytes."""
    wide = contact(
        255, 0x1A, -S4.highest, S4.highest,
        left=-S2.highest, top=S2.highest, right=-64, bottom=64, orientation=359, pressure=65000,
    )
    return [frame(*[wide] * 10, offset=U8.highest)] + [frame(*[wide] * 8) for _ in range(19)] + [frame()] * 10


# Damage


def headers():
    good = touch(1, [frame(SMALL)])
    body = good[6:]
    for length in range(6):
        yield good[:length]
        yield b"\xff" * length
    for event in (0, 1, 2, 4, 5, 6, 7, 0x0103, 0x0300, 0x8003, 0xFFFF):
        yield message(event, body)
        # 3 comes before 4.
        yield message(event, body, len(good) + 1)
    yield bytes.fromhex("04 00 06 00 00 00")
    yield bytes.fromhex("03 00 06 00 00 00")
    right = len(good)
    for length in (0, 5, 6, right - 1, right + 1, right << 8, right | 1 << 16, right | 1 << 31, 0xFFFFFFFF):
        yield message(TOUCH, body, length)
    # 4 comes before any fault of the body.
    yield message(TOUCH, body[:-1], right)
    yield message(TOUCH, body + b"\0", right)


def cuts():
    for frames in ([frame(FULL, offset=200000), frame(SMALL)], [frame(), frame(contact(2, 0x04, 1 << 14, -(1 << 22)))]):
        for body in corpus.cut_bodies(corpus.touch_fields(300, frames)):
            yield message(TOUCH, body)


def padded():
    """Refused by the strict reading alone, but for the cut ones."""
    fields = corpus.touch_fields(0, [frame(FULL), frame(SMALL, offset=9)])
    for body in corpus.other_form_bodies(fields):
        yield message(TOUCH, body)
    # An integer that is padded and cut is truncated.
    for body in (b"\x40", b"\xc0\x00\x00", b"\x00\x80", b"\x00\x01\x80", b"\x00\x01\x00\xe0" + bytes(6)):
        yield message(TOUCH, body)


def added():
    for frames in ([], [frame()], [frame(FULL)], [frame(SMALL), frame(SMALL)]):
        body = touch(7, frames)[6:]
        for more in (b"\0", b"\xff", bytes(5), bytes(300)):
            yield message(TOUCH, body + more)


def flips():
    good = touch(40, [frame(contact(1, 0x19, 100, -50, orientation=90), offset=5), frame()])
    for bit in range(8 * len(good)):
        yield corpus.flipped(good, bit)
    body = good[6:]
    for bit in range(8 * len(body)):
        longer = corpus.flipped(body, bit)
        yield message(TOUCH, longer + b"\x00\x00")


# Bodies with two faults, and the number of the one that answers, the first from the left: in the strict reading and
# in the other, to which padding is no fault.
TWO_FAULTS = (
    ("00 81 00", 7, 7, "256 frames in their only form, none of them there"),
    ("00 80 41", 6, 7, "65 frames, padded"),
    ("00 41", 7, 7, "65 frames, none of them there"),
    ("00 01 40", 5, 5, "64 contacts, and no offset"),
    ("00 01 80 40", 6, 5, "64 contacts, padded, and no offset"),
    ("00 01 01 00 05 08", 8, 8, "fieldsPresent 8, then cut"),
    ("00 01 01 00 05 80 08", 6, 8, "fieldsPresent 8, padded"),
    ("00 01 01 00 05 00 00 00 1B 00", 9, 9, "flags not in the table, then a byte added"),
    ("00 01 01 00 05 00 20 00 1B", 6, 9, "x minus zero, then flags not in the table"),
    ("00 01 01 00 05 00 00 20 1B", 6, 9, "y minus zero, then flags not in the table"),
    ("00 01 01 00 05 00 00 00 40 1B", 6, 9, "flags not in the table, padded"),
    ("00 01 01 00 05 00 00 00 80 1B", 5, 5, "flags not in the table, padded, cut"),
    ("00 01 01 00 05 02 00 00 1B 41 68", 9, 9, "flags not in the table, then orientation 360"),
    ("00 01 01 00 05 06 00 00 19 41 68", 10, 10, "orientation 360, then cut"),
    ("00 01 01 00 05 06 00 00 19 80 01 68 00", 6, 10, "orientation 360, padded"),
    ("00 01 01 00 05 06 00 00 19 41 67 80 FD E9 00", 10, 10, "pressure 65001, then a byte added"),
    ("00 01 01 00 05 06 00 00 19 41 67 C0 00 FD", 5, 5, "pressure padded, cut"),
    ("00 01 01 00 05 01 00 00 19 40 00 00 00", 6, 0, "left minus zero"),
    ("00 01 01 00 05 01 00 00 19 00 00 00 40", 6, 0, "bottom minus zero"),
    ("00 01 01 00 05 01 00 00 19 00 00 00", 5, 5, "bottom missing"),
    ("00 02 00 00", 5, 5, "second frame missing"),
    ("00 02 00 00 40 00", 5, 5, "second frame of 64 contacts, cut"),
    ("00 00 00", 12, 12, "a byte after no frames"),
    ("20 00", 0, 0, "no fault: encodeTime 32"),
    ("40 20 00", 6, 0, "encodeTime 32, padded"),
)

# The same with padding before, at and behind another fault.
PADDED_FAULTS = (
    ("40 00 41", 6, 7, "encodeTime padded, then 65 frames"),
    ("40 00 01", 6, 5, "encodeTime padded, then no frame"),
    ("40 00 00 00", 6, 12, "encodeTime padded, then a byte after no frames"),
    ("C0 00 00", 5, 5, "encodeTime padded, cut"),
    ("00 80 00", 6, 0, "no frames, padded"),
    ("00 80 00 00", 6, 12, "no frames, padded, then a byte"),
    ("00 01 40 20 00", 6, 5, "64 contacts, then the offset padded, and no contact"),
    ("00 01 80 40 20 00", 6, 5, "64 contacts, padded, then the offset padded, and no contact"),
    ("00 02 00 20 00 40", 6, 5, "the first offset padded, then 64 contacts, and no offset"),
    ("00 01 01 20 00 05 08", 6, 8, "offset padded, then fieldsPresent 8"),
    ("00 01 01 00 05 80 08 60 00", 6, 8, "fieldsPresent 8, padded, then x padded"),
    ("00 01 01 00 05 08 60 00 00 19", 8, 8, "fieldsPresent 8, then x padded"),
    ("00 01 01 00 05 00 60 00 00 1B", 6, 9, "x padded, then flags not in the table"),
    ("00 01 01 00 05 00 00 A0 00 00", 6, 5, "y minus zero of three bytes, then no flags"),
    ("00 01 01 00 05 00 00 A0 00", 5, 5, "y minus zero, cut"),
    ("00 01 01 00 05 02 00 00 1B 40 00", 9, 9, "flags not in the table, then orientation padded"),
    ("00 01 01 00 05 02 00 00 40 19 41 68", 6, 10, "flags padded, then orientation 360"),
    ("00 01 01 00 05 02 00 00 19 C0 00 01 68", 6, 10, "orientation 360, of four bytes"),
    ("00 01 01 00 05 02 00 00 19 C0 00 01 67", 6, 0, "orientation 359, of four bytes"),
    ("00 01 01 00 05 06 00 00 19 41 68 40 00", 10, 10, "orientation 360, then pressure padded"),
    ("00 01 01 00 05 06 00 00 19 80 01 67 80 FD E9", 6, 10, "orientation padded, then pressure 65001"),
    ("00 01 01 00 05 04 00 00 19 C0 00 FD E9", 6, 10, "pressure 65001, padded"),
    ("00 01 01 00 05 04 00 00 19 C0 00 FD E8", 6, 0, "pressure 65000, padded"),
    ("00 01 01 00 05 04 00 00 19 C0 00 FD E8 00", 6, 12, "pressure 65000, padded, then a byte"),
    ("00 01 01 00 05 01 00 00 19 40 00 00", 6, 5, "left minus zero, then no bottom"),
    ("00 01 01 00 05 01 00 00 19 00 00 00 C0", 5, 5, "bottom minus zero, cut"),
    ("00 01 01 00 05 01 00 00 19 00 00 00 C0 00", 6, 0, "bottom minus zero of two bytes"),
)


def two_faults():
    for text, _, _, _ in TWO_FAULTS:
        yield message(TOUCH, bytes.fromhex(text))


def random_ones(rng):
    for _ in range(120):
        yield touch(corpus.random_value(rng, U4), corpus.random_frames(rng))
    for _ in range(250):
        yield corpus.damaged(rng, touch(corpus.random_value(rng, U4), corpus.random_frames(rng, 3, 3)))
    for _ in range(20):
        yield rng.randbytes(rng.randint(0, 40))


# Padding (request #104)


# encodeTime and a frame: every integer 0 or as small as it can be, at the end of one byte, and beyond it.
LADDER = (
    (0, frame(contact(0, 0x19, 0, 0, left=0, top=0, right=0, bottom=0, orientation=0, pressure=0))),
    (1, frame(LITTLE, offset=1)),
    (63, frame(contact(7, 0x1A, 31, -31, left=63, top=-63, right=1, bottom=0, orientation=63, pressure=63), offset=31)),
    (64, frame(contact(7, 0x0A, -32, 32, left=0, top=9, right=0, bottom=9, orientation=64, pressure=64), offset=32)),
    (16383, frame(contact(7, 0x24, 8191, -8191, orientation=359, pressure=16383), offset=8191)),
    (16384, frame(contact(255, 0x22, -8192, 8192, orientation=359, pressure=65000), offset=1 << 45)),
)


def each_alone():
    """Every integer by itself in every longer form, and minus zero at every length."""
    for time, one in LADDER:
        for body in corpus.other_form_bodies(touch_fields(time, [one])):
            yield message(TOUCH, body)
    for length in range(1, U8.longest):
        for offset in (U8.largest(length), U8.largest(length) + 1):
            fields = touch_fields(0, [frame(), frame(offset=offset)])
            for form in corpus.other_forms(fields[-1]):
                yield message(TOUCH, corpus.with_field(fields, len(fields) - 1, form))


def minus_zeros():
    """The position, the sides, and both at once."""
    time, zeros = LADDER[0]
    fields = touch_fields(time, [zeros])
    for names in (house.POSITION, house.SIDES, house.POSITION + house.SIDES, ("x", "bottom"), ("y", "left")):
        for length in range(1, S4.longest + 1):
            yield touch_of(
                [minus_zero(each, min(length, each.kind.longest)) if each.name in names else each for each in fields]
            )


def all_at_once():
    frames = [one for _, one in LADDER]
    for more in (1, 2, 3, corpus.MOST_PADDING):
        for time, one in LADDER:
            yield touch_of(all_longer(touch_fields(time, [one]), more))
        yield touch_of(all_longer(touch_fields(0, frames), more))
        yield touch_of(all_longer(touch_fields(9, [frame(), *frames, frame(*[LITTLE] * 3)]), more))
        yield touch_of(all_longer(touch_fields(0, []), more))
        yield touch_of(all_longer(touch_fields(0, [frame()] * 64), more))


def padded_limits():
    """Counts, ranges, flags: padding changes neither side of a limit."""
    for name, values in (
        ("frameCount", (0, 1, 2, 64, 65, 127)),
        ("contactCount", (0, 1, 2, 63, 64, 127)),
        ("fieldsPresent", (0, 7, 8, 127)),
        ("contactFlags", (*range(64), 0x59, 0x119, 0x4019)),
        ("orientation", (0, 359, 360, 16384)),
        ("pressure", (0, 65000, 65001, 65536)),
    ):
        for value in values:
            fields = touch_fields(1, [frame(LITTLE)])
            at = [field.name for field in fields].index(name)
            fields[at] = corpus.integer_field(name, fields[at].kind, value)
            for form in corpus.all_forms(fields[at])[1:]:
                yield touch_of(fields[:at] + [form] + fields[at + 1 :])
    for count in (63, 64):
        yield from counts_padded([frame(*(contact(each, 0x19) for each in range(count)))])
    for count in (64, 65):
        yield from counts_padded([frame()] * count)
        yield from counts_padded([frame(SMALL, offset=3)] * count)


def counts_padded(frames):
    """The counts alone, then every integer."""
    fields = touch_fields(0, frames)
    yield touch_of([longer(each) if each.name in ("frameCount", "contactCount") else each for each in fields])
    yield touch_of(all_longer(fields))
    yield touch_of(all_longer(fields, corpus.MOST_PADDING))


def long_padded():
    """4,096 bytes are read, however little they say; 4,097 are not, padded or not."""
    crowd = touch_fields(0, [frame(*(contact(each, 0x0A) for each in range(60)))] * 6)
    wide = touch_fields(0, [frame(*[LITTLE] * 14, offset=n) for n in range(10)])
    for fields in (crowd, wide):
        for length in (4095, 4096, 4097):
            yield touch_of(corpus.padded_to(fields, length))
        # 5 and 12 at 4,096 bytes; 2 comes before 12.
        yield message(TOUCH, corpus.body_of(corpus.padded_to(fields, 4097))[:-1])
        yield message(TOUCH, corpus.body_of(corpus.padded_to(fields, 4095)) + b"\0")
        yield message(TOUCH, corpus.body_of(corpus.padded_to(fields, 4096)) + b"\0")
    for length in (4094, 4095, 4096):
        fields = touch_fields(0, corpus.stretched(most_records(), length))
        for padded_length in (4095, 4096, 4097):
            if padded_length > length:
                yield touch_of(corpus.padded_to(fields, padded_length))
    # One minus zero of one byte: as long as it was.
    for length in (4096, 4097):
        fields = touch_fields(0, corpus.stretched(most_records(), length))
        at = [(field.name, field.value) for field in fields].index(("x", 0))
        yield touch_of(fields[:at] + [minus_zero(fields[at], 1)] + fields[at + 1 :])


def padded_faults():
    for text, _, _, _ in PADDED_FAULTS:
        yield message(TOUCH, bytes.fromhex(text))


def faults_beside_padding():
    """Each fault with each integer padded: before it, itself, behind it."""
    good = touch_fields(1, [frame(LITTLE)])
    for name, value in (
        ("frameCount", 65),
        ("contactCount", 64),
        ("fieldsPresent", 8),
        ("contactFlags", 0x1B),
        ("orientation", 360),
        ("pressure", 65001),
    ):
        at = [field.name for field in good].index(name)
        yield from each_padded(good[:at] + [corpus.integer_field(name, good[at].kind, value)] + good[at + 1 :])
    for padded_one in each_padded(good):
        yield message(TOUCH, padded_one[6:] + b"\0")
        yield message(TOUCH, padded_one[6:-1])


def each_padded(fields):
    """One integer a byte longer, for all that can be."""
    for at, field in enumerate(fields):
        if longer(field) != field:
            yield touch_of(fields[:at] + [longer(field)] + fields[at + 1 :])


def padded_cuts():
    for more in (1, corpus.MOST_PADDING):
        for body in corpus.cut_bodies(all_longer(touch_fields(1, [frame(LITTLE)]), more)):
            yield message(TOUCH, body)


def another_maker():
    """-63, 63 and 127 in every field, one byte longer than needed: each field by itself, and all."""
    for value in (-63, 63, 127, -127):
        size = abs(value)
        rectangle = {"left": value, "top": -value, "right": value, "bottom": -value}
        one = frame(contact(size, 0x1A, value, -value, **rectangle, orientation=size, pressure=size), offset=size)
        fields = touch_fields(size, [one])
        yield touch_of(all_longer(fields))
        yield from each_padded(fields)


def random_padded(rng):
    for _ in range(120):
        fields = touch_fields(corpus.random_value(rng, U4), corpus.random_frames(rng, 3, 3))
        yield touch_of(corpus.randomly_padded(rng, fields))
    for _ in range(160):
        fields = touch_fields(corpus.random_value(rng, U4), corpus.random_frames(rng, 3, 3))
        yield corpus.damaged(rng, touch_of(corpus.randomly_padded(rng, fields)))


# Frames of up to 256 contacts (request #107)


def wide_messages():
    """Each number of contacts, with its count in every form; nobody asks whether an id is there twice."""
    for count in (*wide_play.COUNTS, wide_play.TOO_MANY):
        yield from corpus.with_each_count(count, [wide_play.wide(count, 0x1A, first=count, y=-9, offset=count)])
    for count in (64, 256):
        yield touch_of(all_longer(touch_fields(0, [wide_play.wide(count)])))
    yield touch(0, [wide_play.twice(0x19, 0, 255)])
    yield touch(0, [frame(*[SMALL] * 256), frame(), frame(*[SMALL] * 64)])
    yield touch(0, [wide_play.wide(256), *[frame(offset=3)] * 62, wide_play.wide(255)])
    yield touch(0, [wide_play.wide(256), *[frame(offset=3)] * 64])


def long_wide_messages():
    """Three frames of 256 contacts in 4,096 bytes, shortest and padded; one, which is not read in 4,097."""
    full = [frame(*(LITTLE._replace(id=each) for each in range(256)))]
    yield touch(0, corpus.widened(wide_play.moving(), 4096))
    yield touch_of(corpus.padded_to(touch_fields(0, wide_play.moving()), 4096))
    for length in (4096, 4097):
        yield touch(0, corpus.widened(full, length))


def wide_faults():
    yield from (message(TOUCH, bytes.fromhex(text)) for text, _, _, _ in wide_play.FAULTS)
    yield from (message(TOUCH, body) for _, body in wide_play.faulty_bodies())
    # Each bit of a count of two bytes.
    fields = touch_fields(0, [wide_play.wide(128)])
    at = [field.name for field in fields].index("contactCount")
    for bit in range(16):
        yield message(TOUCH, corpus.with_field(fields, at, corpus.flipped(fields[at].data, bit)))
    # The counts of two frames exchanged.
    swapped = touch_fields(0, [wide_play.wide(64), wide_play.wide(65)])
    first, second = (place for place, field in enumerate(swapped) if field.name == "contactCount")
    swapped[first], swapped[second] = swapped[second], swapped[first]
    yield touch_of(swapped)


def random_wide(rng):
    for _ in range(4):
        contacts = [corpus.random_contact(rng, present=rng.choice((0, 0, 0, 2))) for _ in range(rng.randint(60, 256))]
        sent = touch_fields(corpus.random_value(rng, U4), [frame(*contacts, offset=corpus.random_value(rng, U8))])
        yield touch_of(corpus.randomly_padded(rng, sent) if rng.random() < 0.3 else sent)
        yield corpus.damaged(rng, touch(1, [wide_play.wide(rng.randint(60, 256))]))


# Files


def all_messages():
    rng = random.Random(SEED)
    for group in (good_shapes, extremes, limits, long_messages, headers, cuts, padded, added, flips, two_faults):
        yield from group()
    yield from random_ones(rng)
    for group in (each_alone, minus_zeros, all_at_once, padded_limits, long_padded, padded_faults):
        yield from group()
    for group in (faults_beside_padding, padded_cuts, another_maker):
        yield from group()
    yield from random_padded(random.Random(SEED + 1))
    for group in (wide_messages, long_wide_messages, wide_faults):
        yield from group()
    yield from random_wide(random.Random(SEED + 2))


def main():
    directory = corpus.output_directory()
    payloads = list(all_messages())
    stdin = corpus.joined(payloads)
    stdout = programs.plain(stdin)
    corpus.write_files(directory, {"stdin": stdin, "stdout": stdout})
    corpus.report_refusals(stdout)
    accepted = [line.split(" ") for line in stdout.splitlines() if line.split(" ")[1] == "0"]
    lengths = [len(each) for each in payloads]
    corpus.report(f"  written back the same {stdout.count(' same')}, becoming another {stdout.count(' becomes')}")
    corpus.report(f"  most records of one message {max(int(words[3]) for words in accepted)}")
    corpus.report(f"  messages of 4096 bytes {lengths.count(4096)}, of 4097 {lengths.count(4097)}")


if __name__ == "__main__":
    main()
