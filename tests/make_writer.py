"""Writes OUTDIR/stdin and OUTDIR/stdout for the program 'writer'."""

import random

import corpus
import wide_play
from corpus import contact, frame, head_record, records_of
from reference import house, programs
from reference.integers import S2, S4, U4, U8

SEED = 20260104

FULL = contact(9, 0x19, -40, 3000, left=-5, top=-70, right=5, bottom=70, orientation=300, pressure=40000)
SMALL = contact(1, 0x0A, 0, 1)
BAD = house.pack_contact(SMALL._replace(flags=0x18))


def payload(encode_time, records):
    return encode_time.to_bytes(4, "big") + records


def of_frames(encode_time, *frames):
    return payload(encode_time, records_of(frames))


# Good ones


def good_shapes():
    for time in (0, 1, 63, 64, (1 << 14) - 1, 1 << 14, (1 << 22) - 1, 1 << 22, U4.highest):
        yield payload(time, b"")
        yield of_frames(time, frame(FULL, offset=time))
    yield of_frames(0, frame())
    yield of_frames(0, frame(), frame(offset=1), frame(offset=U8.highest))
    for flags in house.FLAGS:
        yield of_frames(1, frame(contact(3, flags, 10, -20)))
    for length in range(1, 9):
        yield of_frames(1, frame(offset=U8.largest(length)))
        yield of_frames(1, frame(offset=min(U8.largest(length) + 1, U8.highest)))
    for value in ends(S4):
        yield of_frames(2, frame(contact(4, 0x1A, value, -value)))
    for value in ends(S2):
        yield of_frames(2, frame(contact(4, 0x1A, 1, 1, left=value, top=-value, right=0, bottom=value)))
    for value in (0, 63, 64, 359):
        yield of_frames(2, frame(contact(4, 0x1A, 1, 1, orientation=value)))
    for value in (0, 63, 64, 16383, 16384, 65000):
        yield of_frames(2, frame(contact(4, 0x1A, 1, 1, pressure=value)))
    for present in range(8):
        yield of_frames(3, frame(contact_with(present), offset=31), frame(SMALL, offset=32))


def ends(kind):
    values = {0, 1}
    for length in range(1, kind.longest + 1):
        values |= {kind.largest(length), min(kind.largest(length) + 1, kind.highest)}
    return sorted(values | {-value for value in values})


def contact_with(present):
    """The fields named by fieldsPresent, at 0 or away from it."""
    optional = {"fields_present": present}
    optional |= {"left": 0, "top": -1, "right": 64, "bottom": -64} if present & 1 else {}
    optional |= {"orientation": 0} if present & 2 else {}
    optional |= {"pressure": 1} if present & 4 else {}
    return house.Contact(flags=0x22, id=77, **optional)


# The checks in their order: 10, 14, 7, 2


def times():
    good, too_many = records_of([frame(SMALL)]), records_of([frame()] * 65)
    for time in (U4.highest, U4.highest + 1, 1 << 31, 0xFFFFFFFF):
        for records in (b"", good, BAD, too_many, b"\0"):
            yield payload(time, records)


def frame_counts():
    for count in (63, 64, 65, 66, 200, 3000):
        yield of_frames(0, *[frame()] * count)
    for count in (64, 65):
        yield of_frames(0, *[frame(SMALL)] * count)
        # 14 over all records comes before 7.
        yield payload(0, records_of([frame()] * count) + BAD)
        yield payload(0, records_of([frame()] * count) + b"\0")
        yield payload(0, records_of([frame()] * count) + head_record(1))
    # 7 comes before 2.
    yield of_frames(0, *[frame(*[FULL] * 12)] * 65)
    yield of_frames(0, *[frame(*[FULL] * 12)] * 64)


def contact_counts():
    for count in (0, 1, 62, 63):
        yield of_frames(0, frame(*(contact(each, 0x19) for each in range(count))))
    for count, following in ((1, 0), (2, 1), (63, 62), (0, 1), (1, 2), (62, 63)):
        one = house.pack_contact(SMALL)
        yield payload(0, head_record(count) + one * following)
        yield payload(0, head_record(count) + one * following + head_record(0))
        yield payload(0, head_record(0, 5) + head_record(count, 6) + one * following)


def lengths():
    few = [contact(each, 0x0A, 1, 1) for each in range(12)]
    many = [frame(*few)] * 10 + [frame(*few[:11])] * 54
    for length in (4094, 4095, 4096, 4097, 4098, 4100):
        yield of_frames(0, *corpus.stretched(many, length))
        yield payload(0, records_of(corpus.stretched(many, length)) + BAD)
    wide = contact(
        255, 0x1A, -S4.highest, S4.highest,
        left=-S2.highest, top=S2.highest, right=-64, bottom=64, orientation=359, pressure=65000,
    )
    some = [frame(*[wide] * 14) for _ in range(12)] + [frame()] * 6
    for length in (4096, 4097):
        yield of_frames(7, *corpus.stretched(some, length, 7))
    yield of_frames(0, *[frame(*[wide] * 63)] * 40)
    # The longest entry that holds whole records.
    yield payload(0, records_of([frame(*[SMALL] * 63)] * 48 + [frame(*[SMALL] * 47)]))


# Records damaged one rule at a time


def bad_contacts():
    record = house.pack_contact(FULL)
    for bit in range(4):
        yield corpus.flipped(record, bit)
    for flags in range(64):
        yield house.pack_contact(FULL._replace(flags=flags))
    for change in (
        {"x": -(1 << 29)},
        {"y": -(1 << 29)},
        *({side: -(1 << 14)} for side in house.SIDES),
        *({"orientation": value} for value in (359, 360, 511)),
        *({"pressure": value} for value in (65000, 65001, 65535)),
        *({"fields_present": present} for present in range(8)),
    ):
        yield house.pack_contact(FULL._replace(**change))
    for name in house.SIDES + ("orientation", "pressure"):
        yield house.pack_contact(SMALL._replace(**{name: 1}))
    for kind in (0, 2, 3):
        yield house.pack_contact(FULL._replace(kind=kind))
    yield house.pack_contact(house.Contact(2, 0x24, 0, 1, 5, 5))
    yield house.pack_contact(house.Contact(2, 0x22, 0, 1, 5, 5))
    yield house.pack_contact(house.Contact(3, 0x02, 0, 1, 5, 5))


def damaged_records():
    good = house.pack_contact(SMALL)
    for record in bad_contacts():
        yield payload(0, head_record(1) + record)
    for record in list(bad_contacts())[:12:3]:
        yield payload(0, head_record(3) + good + record + good)
        yield payload(0, head_record(1) + good + head_record(2) + good + record)
    head = head_record(1, 12345)
    for bit in (0, 1, 7, 8, 50, 97, 98, 99, 100, 150, 159, 160, 161, 165, 166, 167):
        yield payload(0, corpus.flipped(head, bit) + good)


def wrong_orders():
    good = house.pack_contact(SMALL)
    yield payload(0, good)
    yield payload(0, good + head_record(0))
    yield payload(0, head_record(0) + good)
    yield payload(0, head_record(1) + head_record(1) + good)
    yield payload(0, head_record(2) + good + head_record(0))
    for kind, flags in ((2, 0x24), (3, 0x02)):
        record = house.pack_contact(house.Contact(kind, flags, 0, 1, 5, 5))
        yield payload(0, record)
        yield payload(0, head_record(1) + good + record)
        yield payload(0, head_record(0) + record)


def not_whole():
    records = records_of([frame(SMALL, FULL), frame()])
    for length in range(0, len(records) + 1):
        yield payload(0, records[:length])
    yield payload(0, records + b"\0")
    for length in range(4):
        yield bytes(length)


def random_ones(rng):
    for _ in range(120):
        yield of_frames(corpus.random_value(rng, U4), *corpus.random_frames(rng))
    for _ in range(120):
        records = records_of(corpus.random_frames(rng) or [frame(FULL)])
        yield payload(rng.getrandbits(30), corpus.flipped(records, rng.randrange(8 * len(records))))
    for _ in range(20):
        yield payload(rng.getrandbits(32), rng.randbytes(21 * rng.randint(1, 3)))


# Heads of up to 256 contacts (request #107)


def wide_frames():
    """Each with as many contacts behind it as it says; 257 are 14 all the same."""
    for count in (*wide_play.COUNTS, wide_play.TOO_MANY):
        yield of_frames(count, wide_play.wide(count, first=count, y=-9, offset=count))
    # Whether an id is there twice is not asked.
    yield of_frames(0, frame(*[SMALL] * 256))
    yield of_frames(0, *[wide_play.wide(count, offset=count) for count in (64, 0, 65, 63, 1, 128)])
    for head in (head_record(64, 7), head_record(64, U8.highest), head_record(65, U8.highest)):
        # 64 is not 0 and 65 not 1: the high bits count.
        yield payload(0, head)
        yield payload(0, head + house.pack_contact(SMALL))


def wide_heads_alone():
    """Counts over 256, with few contacts behind them or none; 10 comes before 14, and 14 before 7 and 2."""
    good = house.pack_contact(SMALL)
    for count in (257, 258, 319, 320, 383, 384, 448, 511):
        yield payload(0, head_record(count))
        yield payload(0, head_record(count) + good * (count % 64))
    for time in (U4.highest, U4.highest + 1):
        yield payload(time, head_record(257))
        yield of_frames(time, wide_play.wide(64))
    yield payload(0, records_of([frame()] * 65) + head_record(257))
    yield of_frames(0, wide_play.wide(64), *[frame()] * 63)
    yield of_frames(0, wide_play.wide(64), *[frame()] * 64)


def wrong_wide_frames():
    """One contact too few or too many; a head, an unused bit or a bad contact in a wide frame."""
    good = house.pack_contact(SMALL)
    for count, following in ((64, 63), (64, 65), (128, 127), (256, 255), (256, 257), (257, 256)):
        yield payload(0, head_record(count) + good * following)
    yield payload(0, head_record(256) + good * 255 + head_record(0))
    yield payload(0, head_record(64) + good * 63 + BAD)
    yield payload(0, head_record(256) + good * 128 + BAD + good * 127)
    for bit in (0, 47, 95):
        yield payload(0, corpus.flipped(head_record(64), bit) + good * 64)
    # What a flipped high bit makes of a head with its contacts.
    for bit in (96, 97, 98):
        yield payload(0, corpus.flipped(head_record(64), bit) + good * 64)
        yield payload(0, corpus.flipped(head_record(0), bit) + good * 64)


def wide_lengths():
    """Three frames of 256 contacts in 4,096 bytes, and one, which is not written in 4,097."""
    full = [frame(*(contact_with(7)._replace(id=each) for each in range(256)))]
    yield of_frames(0, *corpus.widened(wide_play.moving(), 4096))
    for length in (4096, 4097):
        yield of_frames(0, *corpus.widened(full, length))


def all_payloads():
    rng = random.Random(SEED)
    for group in (good_shapes, times, frame_counts, contact_counts, lengths, damaged_records, wrong_orders, not_whole):
        yield from group()
    yield from random_ones(rng)
    for group in (wide_frames, wide_heads_alone, wrong_wide_frames, wide_lengths):
        yield from group()


def main():
    directory = corpus.output_directory()
    payloads = list(all_payloads())
    stdin = corpus.joined(payloads)
    stdout = programs.writer(stdin)
    corpus.write_files(directory, {"stdin": stdin, "stdout": stdout})
    corpus.report_refusals(stdout)
    written = [int(line.split()[2]) for line in stdout.splitlines() if line.split()[1] == "0"]
    corpus.report(f"  longest message written {max(written)}, longest entry {max(map(len, payloads))}")


if __name__ == "__main__":
    main()
