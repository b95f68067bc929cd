"""Writes OUTDIR/stdin and OUTDIR/stdout for the program 'vectors'."""

import random

import corpus
from reference import house, integers, old_heads, programs
from reference.integers import KINDS, S2, S4, U2, U4, U8

SEED = 20260102

# The width of the type that a program gives to each kind's writer, in bits.
TYPE_BITS = {U2: 16, S2: 16, U4: 32, S4: 32, U8: 64}

# [MS-RDPEI] 2.2.2.1 to 2.2.2.5, and the proved set.
EXAMPLES = (
    (U2, 0x1A1B),
    (S2, -0x1A1B),
    (S2, -2),
    (U4, 0x1A1B1C),
    (S4, -0x1A1B1C),
    (S4, -2),
    (U8, 0x1A1B1C1D1E1F2A),
    (U2, 0x7F),
    (U2, 0x80),
    (S2, -64),
    (S4, 32),
    (U8, 32),
)

FOLLOWERS = (b"", b"\x00", b"\xff\x7f\x80", b"\x19\x04")


# Payloads


def read_payload(kind, rest):
    """The strict reading."""
    return b"r" + bytes([KINDS.index(kind)]) + rest


def any_length_payload(kind, rest):
    return b"a" + read_payload(kind, rest)[1:]


def sign_and_magnitude(value, length):
    return bytes([1 if value < 0 else 0]) + abs(value).to_bytes(length, "big")


def write_payload(kind, value, lent):
    return b"w" + bytes([KINDS.index(kind)]) + sign_and_magnitude(value, 8) + bytes([lent])


def head_payload(count, offset, lent):
    return b"h" + bytes([count]) + offset.to_bytes(8, "big") + bytes([lent])


def wide_head_payload(count, offset, lent):
    return b"H" + count.to_bytes(2, "big") + offset.to_bytes(8, "big") + bytes([lent])


def contact_payload(contact, lent):
    data = b"c" + bytes([contact.kind, contact.flags, contact.fields_present, contact.id])
    data += sign_and_magnitude(contact.x, 4) + sign_and_magnitude(contact.y, 4)
    for side in house.SIDES:
        data += sign_and_magnitude(getattr(contact, side), 2)
    data += contact.orientation.to_bytes(2, "big") + contact.pressure.to_bytes(2, "big")
    return data + bytes([lent])


def record_payload(records):
    return b"d" + records


# The integers


def type_ends(kind):
    bits = TYPE_BITS[kind]
    return (-(1 << bits - 1), (1 << bits - 1) - 1) if kind.signed else (0, (1 << bits) - 1)


def in_type(kind, value):
    low, high = type_ends(kind)
    return low <= value <= high


def length_ends(kind):
    """Each length's first and last value, with both signs where the kind has them."""
    values = [0]
    for length in range(1, kind.longest + 1):
        first = kind.largest(length - 1) + 1 if length > 1 else 1
        values += [first, kind.largest(length)]
    if kind.signed:
        values += [-value for value in values if value]
    return values


def examples():
    for kind, value in EXAMPLES:
        data = integers.encode(kind, value)
        yield read_payload(kind, data)
        yield read_payload(kind, data + b"\xa5\x5a")
        yield read_payload(kind, data[:-1])
        yield from rooms(kind, value)
    yield read_payload(S2, b"\x40")


def rooms(kind, value):
    """A write with just enough room, one byte too few, and more than needed."""
    need = integers.shortest_length(kind, abs(value))
    for lent in (need, need - 1, need + 3):
        yield write_payload(kind, value, lent)


def readings(kind):
    for value in length_ends(kind):
        data = integers.encode(kind, value)
        for follower in FOLLOWERS:
            yield read_payload(kind, data + follower)
        for length in range(len(data)):
            yield read_payload(kind, data[:length])


def paddings(kind):
    """Longer forms of small values and minus zero at every length; cut ones are 5 and not 6."""
    for value in (0, 1, kind.largest(1), kind.largest(1) + 1):
        for negative in (False, True) if kind.signed else (False,):
            shortest = integers.shortest_length(kind, value)
            first = shortest if negative and value == 0 else shortest + 1
            for length in range(first, kind.longest + 1):
                data = integers.form(kind, negative, value, length)
                yield read_payload(kind, data)
                yield read_payload(kind, data + b"\x80\x01")
                yield read_payload(kind, data[:-1])


def writings(kind):
    for value in length_ends(kind):
        yield from rooms(kind, value)
    for value in (kind.lowest, kind.highest, kind.lowest - 1, kind.highest + 1, *type_ends(kind)):
        if in_type(kind, value):
            # A value out of range is 10 whatever the room.
            for lent in (0, 1, kind.longest, 32):
                yield write_payload(kind, value, lent)


def random_integers(rng):
    for kind in KINDS:
        for _ in range(40):
            yield read_payload(kind, rng.randbytes(rng.randint(1, 9)))
        for _ in range(25):
            yield write_payload(kind, corpus.random_value(rng, kind), rng.randint(0, kind.longest + 1))
        for _ in range(10):
            yield write_payload(kind, rng.randint(*type_ends(kind)), rng.choice((0, 2, 4, 8, 32)))


# House records

CONTACT_RANGES = {"x": (30, 32), "y": (30, 32)} | {side: (15, 16) for side in house.SIDES}
UNSIGNED_ENDS = {
    # Field: its ends, one past its high end, and the ends of the type that it is given in.
    "flags": (0, 63, 64, 255),
    "fields_present": (0, 1, 2, 4, 7, 8, 255),
    "id": (0, 255),
    "orientation": (0, 359, 360, 511, 512, 65535),
    "pressure": (0, 65000, 65001, 65535),
}

BUSY = house.Contact(1, 0x19, 7, 0xA5, 0x0ABCDEF1, -0x01234567, -0x1234, 0x0FED, -1, 0x2AAA, 301, 0x9C3A)


def heads(rng):
    for lent in (0, 1, 20, 21, 22, 32):
        yield head_payload(2, 0x0123456789ABCDEF, lent)
    for count in (0, 1, 31, 32, 63, 64, 127, 255):
        yield head_payload(count, 0, 21)
    for bit in range(0, 64, 3):
        yield head_payload(0, 1 << bit, 21)
    for offset in (0, 1, (1 << 61) - 1, 1 << 61, (1 << 61) + 5, (1 << 64) - 1):
        yield head_payload(63, offset, 21)
    for _ in range(25):
        yield head_payload(rng.randrange(256), rng.getrandbits(rng.randint(1, 64)), rng.choice((20, 21, 30)))


def signed_ends(name):
    """Both ends of a signed field, one past both, the ends of its type, and small values."""
    width, type_width = CONTACT_RANGES[name]
    end, type_end = 1 << width - 1, 1 << type_width - 1
    return (0, 1, -1, end - 1, end, -end + 1, -end, -end - 1, type_end - 1, -type_end)


def contacts(rng):
    for kind in range(5):
        for lent in (0, 20, 21, 22):
            yield contact_payload(BUSY._replace(kind=kind), lent)
    for blank in (house.Contact(), BUSY):
        for name, values in UNSIGNED_ENDS.items():
            for value in values:
                yield contact_payload(blank._replace(**{name: value}), 21)
        for name in CONTACT_RANGES:
            for value in signed_ends(name):
                yield contact_payload(blank._replace(**{name: value}), 21)
    for _ in range(60):
        yield contact_payload(random_wide_contact(rng), rng.choice((0, 20, 21, 21, 21, 25, 32)))


def random_wide_contact(rng):
    """Every field anywhere in the type that it is given in."""
    place = [rng.randint(-(1 << 31), (1 << 31) - 1) for _ in range(2)]
    sides = [rng.randint(-(1 << 15), (1 << 15) - 1) for _ in range(4)]
    small = [rng.randrange(5), rng.randrange(256), rng.randrange(256), rng.randrange(256)]
    return house.Contact(*small, *place, *sides, rng.randrange(1 << 16), rng.randrange(1 << 16))


# The reading of records


def broken_heads():
    """Heads with one bit behind the offset set: each of the 96 unused ones, and the three high ones of the count."""
    record = house.pack_head(house.Head(5, 12345678901234567))
    for bit in range(99):
        yield corpus.flipped(record, bit)


def broken_contacts():
    """Each rule of being well formed broken by itself, on a contact that is well formed otherwise."""
    good = BUSY._replace(pressure=65000, orientation=359)
    record = house.pack_contact(good)
    for bit in range(4):
        yield corpus.flipped(record, bit)
    changed = [{"flags": flags} for flags in range(64)]
    changed += [{"x": -(1 << 29)}, {"y": -(1 << 29)}]
    changed += [{side: -(1 << 14)} for side in house.SIDES]
    changed += [{"orientation": value} for value in (360, 361, 511)]
    changed += [{"pressure": value} for value in (65001, 65535)]
    # An absent field that is not 0.
    changed += [{"fields_present": present} for present in range(8)]
    for change in changed:
        yield house.pack_contact(good._replace(**change))
    for name, value in [(side, 1) for side in house.SIDES] + [("orientation", 1), ("pressure", 1)]:
        yield house.pack_contact(house.Contact(flags=0x0A, **{name: value}))
        yield house.pack_contact(house.Contact(flags=0x0A, **{name: 1 << 8}))


def good_contacts():
    for present in range(8):
        full = {"left": -0x3FFF, "top": 0x3FFF, "right": -1, "bottom": 1} if present & 1 else {}
        full |= {"orientation": 359} if present & 2 else {}
        full |= {"pressure": 65000} if present & 4 else {}
        yield house.Contact(flags=0x1A, fields_present=present, id=200, x=-0x1FFFFFFF, y=0x1FFFFFFF, **full)


def receiver_records():
    """Kinds 2 and 3, which only the receiver writes: every flags value, well formed and with each rule broken by itself."""
    for kind, flags in ((2, 0x24), (2, 0x22), (3, 0x02)):
        good = house.Contact(kind, flags, 0, 255, -5, 1000000)
        yield house.pack_contact(good)
        for bit in range(4):
            yield corpus.flipped(house.pack_contact(good), bit)
        for other in house.FLAGS + (0, 63):
            yield house.pack_contact(good._replace(flags=other))
        for present in (1, 2, 4, 7):
            yield house.pack_contact(good._replace(fields_present=present))
        for name in CONTACT_RANGES:
            low = -(1 << CONTACT_RANGES[name][0] - 1)
            yield house.pack_contact(good._replace(**{name: low}))
        for name in house.SIDES + ("orientation", "pressure"):
            yield house.pack_contact(good._replace(**{name: 3}))


def records_read(rng):
    for length in (0, 1, 20):
        yield record_payload(house.pack_contact(BUSY)[:length])
    for count, offset in ((0, 0), (63, (1 << 61) - 1), (1, 1)):
        yield record_payload(corpus.head_record(count, offset))
        yield record_payload(corpus.head_record(count, offset) + b"\xff" * 22)
    for contact in good_contacts():
        yield record_payload(house.pack_contact(contact))
    for record in (*broken_heads(), *broken_contacts(), *receiver_records()):
        yield record_payload(record)
    for _ in range(60):
        yield record_payload(house.pack_contact(corpus.random_contact(rng)) + rng.randbytes(rng.randrange(25)))
    for _ in range(40):
        yield record_payload(rng.randbytes(21))
    yield record_payload(house.pack_contact(BUSY) * 195)


# Payloads of no known shape


def unknown(rng):
    yield b""
    for first in b"\x00RWHCDstq\xff":
        yield bytes([first])
        yield bytes([first]) + rng.randbytes(11)
    for whole in (
        write_payload(U4, 77, 4),
        head_payload(3, 4, 21),
        contact_payload(BUSY, 21),
    ):
        for length in (1, 2, len(whole) - 1):
            yield whole[:length]
        yield whole + b"\x00"
        yield whole[:-1] + b"\x20"
        yield whole[:-1] + b"\x21"
        yield whole[:-1] + b"\xff"
    yield b"r"
    yield b"d"
    for kind in (5, 6, 255):
        yield b"r" + bytes([kind]) + b"\x00"
        yield b"w" + bytes([kind]) + write_payload(U2, 1, 4)[2:]
    for kind in range(5):
        yield b"r" + bytes([kind])


# The reading of any length (request #104)


def forms(kind):
    """At every length the ends of that and of each shorter one, with both signs; so minus zero too, and padding."""
    for length in range(1, kind.longest + 1):
        for shortest in range(1, length + 1):
            least = kind.largest(shortest - 1) + 1 if shortest > 1 else 0
            for magnitude in (least, least + 1, kind.largest(shortest)):
                for negative in (False, True) if kind.signed else (False,):
                    yield integers.form(kind, negative, magnitude, length)


def rests(kind):
    """Each form by itself, with bytes behind it, and cut everywhere."""
    for data in forms(kind):
        yield data
        yield data + b"\x80\x01"
        yield from (data[:length] for length in range(len(data)))


def any_lengths(rng):
    for kind in KINDS:
        for data in rests(kind):
            yield any_length_payload(kind, data)
            yield read_payload(kind, data)
        for _ in range(40):
            data = rng.randbytes(rng.randint(1, 9))
            yield any_length_payload(kind, data)
            yield read_payload(kind, data)
    yield b"a"
    for kind in (5, 6, 255):
        yield b"a" + bytes([kind])
        yield b"a" + bytes([kind]) + b"\x00"


# Heads of up to 256 contacts (request #107)

# All, none, every other, and the ends of the offset's 61 bits, beside which the two parts of the count stand.
OFFSETS = (0, (1 << 61) - 1, 1, 1 << 60, 0x0AAAAAAAAAAAAAAA, 0x1555555555555555, 0x0123456789ABCDEF)
COUNT_ENDS = (0, 1, 63, 64, 65, 127, 128, 191, 192, 255, 256, 257, 319, 320, 448, 510, 511)


def offset_beside(count):
    return OFFSETS[count % len(OFFSETS)]


def heads_written(rng):
    """Every count that nine bits hold, and greater ones, of which the rest is lost."""
    for count in range(256):
        yield head_payload(count, offset_beside(count), 21)
    for count in range(512):
        yield wide_head_payload(count, offset_beside(count), 21)
    for count in COUNT_ENDS:
        for offset in (0, (1 << 61) - 1, 1 << 61, (1 << 64) - 1):
            yield wide_head_payload(count, offset, 21)
    for count in (512, 513, 575, 576, 768, 769, 1023, 1024, 0x7FFF, 0x8000, 0x8100, 0xFFFF):
        for offset in OFFSETS[:2]:
            yield wide_head_payload(count, offset, 21)
    for count in (0, 256, 511):
        for lent in (0, 1, 8, 9, 20, 21, 22, 32):
            yield wide_head_payload(count, OFFSETS[-1], lent)
    for _ in range(40):
        yield wide_head_payload(rng.randrange(1 << 16), rng.getrandbits(rng.randint(1, 64)), rng.choice((20, 21, 30)))


def heads_not_written():
    """A body of any other length, or too much room."""
    whole = wide_head_payload(256, 5, 21)
    yield from (whole[:length] for length in range(1, len(whole)))
    yield from (whole + more for more in (b"\0", b"\x15", bytes(9)))
    yield from (whole[:-1] + bytes([lent]) for lent in (33, 64, 255))
    # Each of the two commands with the other's body.
    yield b"H" + head_payload(64, 5, 21)[1:]
    yield b"h" + whole[1:]


def heads_read(rng):
    """Well formed up to 256 contacts; read whether or not they are."""
    for count in range(512):
        yield record_payload(corpus.head_record(count, offset_beside(count)))
    # A single bit: each of the 96 unused ones, and the three high ones of the count.
    for bit in range(99):
        yield record_payload(corpus.flipped(corpus.head_record(0), bit))
    for bit in range(96):
        yield record_payload(corpus.flipped(corpus.head_record(256, offset_beside(bit)), bit))
    for count in (257, 300, 511):
        yield from (record_payload(corpus.flipped(corpus.head_record(count), bit)) for bit in (0, 95))
    for bits in range(50):
        head = corpus.head_record(rng.randrange(512), rng.getrandbits(61))
        yield record_payload(head[:-1] + bytes([bits % 2]) + rng.randbytes(bits % 5))


def old_heads_read():
    """Heads of the layout that was before: of every count that there was."""
    for count in range(old_heads.MOST_CONTACTS + 1):
        for offset in (offset_beside(count), offset_beside(count + 1)):
            yield record_payload(old_heads.pack(house.Head(count, offset)))


def all_payloads():
    """What is read strictly is read in any length as well, and nothing of that twice."""
    payloads = list(payloads_but_any_length())
    known = set(payloads)
    more = [b"a" + payload[1:] for payload in payloads if payload[:1] == b"r"]
    more += any_lengths(random.Random(SEED + 1))
    return payloads + [payload for payload in dict.fromkeys(more) if payload not in known] + list(wide_payloads())


def wide_payloads():
    rng = random.Random(SEED + 2)
    yield from heads_written(rng)
    yield from heads_not_written()
    yield from heads_read(rng)
    yield from old_heads_read()


def payloads_but_any_length():
    rng = random.Random(SEED)
    yield from examples()
    for kind in KINDS:
        yield from readings(kind)
        yield from paddings(kind)
        yield from writings(kind)
    yield from random_integers(rng)
    yield from heads(rng)
    yield from contacts(rng)
    yield from records_read(rng)
    yield from unknown(rng)


def figures(payloads, text):
    """How often each shape of payload has each outcome."""
    counts = {}
    for payload, line in zip(payloads, text.splitlines()):
        shape = payload[:1].decode("latin1") if payload[:1] in programs.VECTOR_LINES else "other"
        key = (shape, outcome(shape, line.split(" ")[1:]))
        counts[key] = counts.get(key, 0) + 1
    corpus.report(f"lines {len(text.splitlines())}")
    for (shape, result), count in sorted(counts.items()):
        corpus.report(f"  {shape:6} {result:12} {count}")


def outcome(shape, words):
    if words[0] in ("unknown", "refused"):
        return " ".join(words)
    if shape == "d":
        return f"{words[0]} {words[-1]}"
    return f"refused {words[0]}" if shape in "whHc" and words[0] != "0" else "good"


def main():
    directory = corpus.output_directory()
    payloads = all_payloads()
    stdin = corpus.joined(payloads)
    stdout = programs.vectors(stdin)
    corpus.write_files(directory, {"stdin": stdin, "stdout": stdout})
    figures(payloads, stdout)


if __name__ == "__main__":
    main()
