"""House records: 21 bytes, bit-packed, most significant bit first (rules: "House records")."""

from typing import NamedTuple

LENGTH = 21

HEAD_KIND = 0
CONTACT_KIND = 1
CANCEL_KIND = 2
DISMISSAL_KIND = 3

# In one frame (request #107).
MOST_CONTACTS = 256

# The count is in two parts: the low one is where the whole count was before request #107 (old_heads.py).
HEAD_LAYOUT = (("kind", 2), ("count_low", 6), ("offset", 61), ("count_high", 3), ("unused", 96))
COUNT_LOW_BITS = dict(HEAD_LAYOUT)["count_low"]

CONTACT_LAYOUT = (
    ("kind", 2),
    ("flags", 6),
    ("fields_present", 3),
    ("id", 8),
    ("x", 30),
    ("y", 30),
    ("left", 15),
    ("top", 15),
    ("right", 15),
    ("bottom", 15),
    ("orientation", 9),
    ("pressure", 16),
    ("unused", 4),
)

POSITION = ("x", "y")
SIDES = ("left", "top", "right", "bottom")
SIGNED = frozenset(POSITION + SIDES)

# fieldsPresent ([MS-RDPEI] 2.2.3.3.1.1)
CONTACTRECT_PRESENT = 1
ORIENTATION_PRESENT = 2
PRESSURE_PRESENT = 4

# The eight combinations of contactFlags ([MS-RDPEI] 2.2.3.3.1.1).
FLAGS = (0x02, 0x04, 0x0A, 0x0C, 0x19, 0x1A, 0x22, 0x24)
CANCEL_ENGAGED_FLAGS = 0x24
CANCEL_HOVERING_FLAGS = 0x22
DISMISSAL_FLAGS = 0x02

HIGHEST_ORIENTATION = 359
HIGHEST_PRESSURE = 65000


class Head(NamedTuple):
    count: int
    offset: int


class Contact(NamedTuple):
    kind: int = CONTACT_KIND
    flags: int = 0
    fields_present: int = 0
    id: int = 0
    x: int = 0
    y: int = 0
    left: int = 0
    top: int = 0
    right: int = 0
    bottom: int = 0
    orientation: int = 0
    pressure: int = 0


def pack(layout, values):
    """A value wider than its field is taken modulo 2^width; Python's & does both signs."""
    number = 0
    for name, width in layout:
        number = number << width | values.get(name, 0) & ((1 << width) - 1)
    return number.to_bytes(LENGTH, "big")


def pack_head(head):
    values = {"count_low": head.count, "offset": head.offset, "count_high": head.count >> COUNT_LOW_BITS}
    return pack(HEAD_LAYOUT, {"kind": HEAD_KIND, **values})


def pack_contact(contact):
    return pack(CONTACT_LAYOUT, contact._asdict())


def split(layout, record):
    """The fields of a record, signed ones as two's complement."""
    number = int.from_bytes(record[:LENGTH], "big")
    values = {}
    for name, width in reversed(layout):
        field = number & ((1 << width) - 1)
        number >>= width
        if name in SIGNED and field >> (width - 1):
            field -= 1 << width
        values[name] = field
    return values


def kind_of(record):
    return record[0] >> 6


def unpack(record):
    """A Head or a Contact. Total over any 21 bytes; whether they are well formed is another question."""
    if kind_of(record) == HEAD_KIND:
        values = split(HEAD_LAYOUT, record)
        return Head(values["count_low"] + (values["count_high"] << COUNT_LOW_BITS), values["offset"])
    values = split(CONTACT_LAYOUT, record)
    del values["unused"]
    return Contact(**values)


def well_formed(record):
    kind = kind_of(record)
    if kind == HEAD_KIND:
        return split(HEAD_LAYOUT, record)["unused"] == 0 and unpack(record).count <= MOST_CONTACTS
    contact = unpack(record)
    if split(CONTACT_LAYOUT, record)["unused"] != 0 or not contact_well_formed(contact):
        return False
    if kind == CANCEL_KIND:
        return contact.fields_present == 0 and contact.flags in (CANCEL_ENGAGED_FLAGS, CANCEL_HOVERING_FLAGS)
    if kind == DISMISSAL_KIND:
        return contact.fields_present == 0 and contact.flags == DISMISSAL_FLAGS
    return True


def contact_well_formed(contact):
    return (
        contact.flags in FLAGS
        # The message's integers are sign and magnitude and lack these two ends.
        and -(1 << 29) not in (contact.x, contact.y)
        and all(getattr(contact, side) != -(1 << 14) for side in SIDES)
        and contact.orientation <= HIGHEST_ORIENTATION
        and contact.pressure <= HIGHEST_PRESSURE
        and absent_fields_zero(contact)
    )


def absent_fields_zero(contact):
    present = contact.fields_present
    return (
        (present & CONTACTRECT_PRESENT or all(getattr(contact, side) == 0 for side in SIDES))
        and (present & ORIENTATION_PRESENT or contact.orientation == 0)
        and (present & PRESSURE_PRESENT or contact.pressure == 0)
    )
