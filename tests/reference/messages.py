"""The six messages ([MS-RDPEI] 2.2.2.6 to 2.2.3.6): readers, the plain reading, writers."""

from typing import NamedTuple

from . import house, integers
from .integers import S2, S4, U2, U4, U8
from .output import put, written
from .refusals import (
    BAD_COUNT,
    BAD_FIELD,
    BAD_FLAGS,
    BAD_LENGTH,
    BAD_OFFSET,
    BAD_RANGE,
    BAD_RECORD,
    NONE,
    SHORT,
    TOO_LONG,
    TRAILING,
    TRUNCATED,
    UNEXPECTED,
    Refused,
    refuse_unless,
)

SERVER_READY = 1
CLIENT_READY = 2
TOUCH = 3
SUSPEND = 4
RESUME = 5
DISMISS = 6

HEADER_LENGTH = 6
LONGEST_MESSAGE = 4096
MOST_FRAMES = 64

VERSIONS = (0x00010000, 0x00010001)
SHOW_TOUCH_VISUALS = 1
DISABLE_TIMESTAMP_INJECTION = 2
ALL_READY_FLAGS = SHOW_TOUCH_VISUALS | DISABLE_TIMESTAMP_INJECTION
HIGHEST_FIELDS_PRESENT = 7


class ClientReady(NamedTuple):
    flags: int
    version: int
    max_touch_contacts: int


class Frame(NamedTuple):
    offset: int  # microseconds
    contacts: tuple


class Touch(NamedTuple):
    encode_time: int  # milliseconds
    frames: tuple


class Plain(NamedTuple):
    """The plain reading's answer. A refusal has every other field 0."""

    refusal: int
    encode_time: int
    records: int


# Reading


class Body:
    """What is left of a message. Every field is read from its front; 'strict' is how its integers are read."""

    def __init__(self, rest, strict):
        self.rest = rest
        self.strict = strict

    def advance(self, length):
        self.rest = self.rest[length:]

    def integer(self, kind):
        value, length = integers.read(kind, self.rest, self.strict)
        self.advance(length)
        return value

    def little_endian(self, length):
        refuse_unless(len(self.rest) >= length, TRUNCATED)
        value = int.from_bytes(self.rest[:length], "little")
        self.advance(length)
        return value

    def byte(self):
        return self.little_endian(1)

    def end(self):
        refuse_unless(len(self.rest) == 0, TRAILING)


def open_message(message, taken, strict=False):
    """Checks 1 to 4, in that order; the event and the body. 'taken' are the events taken now."""
    refuse_unless(len(message) >= HEADER_LENGTH, SHORT)
    refuse_unless(len(message) <= LONGEST_MESSAGE, TOO_LONG)
    event = int.from_bytes(message[0:2], "little")
    refuse_unless(event in taken, UNEXPECTED)
    pdu_length = int.from_bytes(message[2:6], "little")
    refuse_unless(pdu_length == len(message), BAD_LENGTH)
    return event, Body(memoryview(message)[HEADER_LENGTH:], strict)


def read_message(event, read_body, strict=False):
    """A reader of one event's whole message."""

    def read(message):
        _, body = open_message(message, (event,), strict)
        return read_body(body)

    return read


def version(body):
    value = body.little_endian(4)
    refuse_unless(value in VERSIONS, BAD_FIELD)
    return value


def ready_flags(body):
    value = body.little_endian(4)
    refuse_unless(value & ~ALL_READY_FLAGS == 0, BAD_FIELD)
    return value


def server_ready_body(body):
    value = version(body)
    body.end()
    return value


def client_ready_body(body):
    ready = ClientReady(ready_flags(body), version(body), body.little_endian(2))
    body.end()
    return ready


def header_only_body(body):
    body.end()


def dismiss_body(body):
    contact_id = body.byte()
    body.end()
    return contact_id


def touch_body(body, first_offset_zero=False):
    """first_offset_zero: whether 11 is judged, on the message's first frame alone."""
    encode_time = body.integer(U4)
    frame_count = body.integer(U2)
    refuse_unless(frame_count <= MOST_FRAMES, BAD_COUNT)
    frames = tuple(frame(body, first_offset_zero and n == 0) for n in range(frame_count))
    body.end()
    return Touch(encode_time, frames)


def frame(body, offset_zero):
    contact_count = body.integer(U2)
    refuse_unless(contact_count <= house.MOST_CONTACTS, BAD_COUNT)
    offset = body.integer(U8)
    refuse_unless(offset == 0 or not offset_zero, BAD_OFFSET)
    return Frame(offset, tuple(contact(body) for _ in range(contact_count)))


def contact(body):
    contact_id = body.byte()
    present = body.integer(U2)
    refuse_unless(present <= HIGHEST_FIELDS_PRESENT, BAD_FIELD)
    x = body.integer(S4)
    y = body.integer(S4)
    flags = body.integer(U4)
    refuse_unless(flags in house.FLAGS, BAD_FLAGS)
    sides = [0, 0, 0, 0]
    if present & house.CONTACTRECT_PRESENT:
        sides = [body.integer(S2) for _ in house.SIDES]
    orientation = 0
    if present & house.ORIENTATION_PRESENT:
        orientation = ranged(body, house.HIGHEST_ORIENTATION)
    pressure = 0
    if present & house.PRESSURE_PRESENT:
        pressure = ranged(body, house.HIGHEST_PRESSURE)
    return house.Contact(house.CONTACT_KIND, flags, present, contact_id, x, y, *sides, orientation, pressure)


def ranged(body, highest):
    value = body.integer(U4)
    refuse_unless(value <= highest, BAD_RANGE)
    return value


read_server_ready = read_message(SERVER_READY, server_ready_body)
read_client_ready = read_message(CLIENT_READY, client_ready_body)
read_touch = read_message(TOUCH, touch_body)
read_touch_strictly = read_message(TOUCH, touch_body, strict=True)
read_suspend = read_message(SUSPEND, header_only_body)
read_resume = read_message(RESUME, header_only_body)
read_dismiss = read_message(DISMISS, dismiss_body)


def frame_records(one):
    """One head record, then the frame's contacts in message order."""
    head = house.Head(len(one.contacts), one.offset)
    return [house.pack_head(head)] + [house.pack_contact(each) for each in one.contacts]


def plain(message, output):
    """The plain reading: takes only event 3 and doesn't apply 11."""
    return plain_by(read_touch, message, output)


def plain_strictly(message, output):
    """The plain reading with 6 (request #104): nothing else gives that number."""
    return plain_by(read_touch_strictly, message, output)


def plain_by(read, message, output):
    try:
        touch = read(message)
        records = [record for one in touch.frames for record in frame_records(one)]
        put(output, b"".join(records))
    except Refused as refused:
        return Plain(refused.number, 0, 0)
    return Plain(NONE, touch.encode_time, len(records))


# Writing


def header_bytes(event, pdu_length):
    return event.to_bytes(2, "little") + pdu_length.to_bytes(4, "little")


def write_header(out, event, pdu_length):
    """A header by itself, of any event and any length: checks 13 alone."""
    return written(out, lambda: header_bytes(event, pdu_length))


def message_of(event, body):
    return header_bytes(event, HEADER_LENGTH + len(body)) + body


def write_server_ready(out, protocol_version):
    """Checks 8, then 13."""

    def make():
        refuse_unless(protocol_version in VERSIONS, BAD_FIELD)
        return message_of(SERVER_READY, protocol_version.to_bytes(4, "little"))

    return written(out, make)


def write_client_ready(out, flags, protocol_version, max_touch_contacts):
    """Checks 8, then 13."""
    ready = ClientReady(flags, protocol_version, max_touch_contacts)
    return written(out, lambda: client_ready_message(ready))


def client_ready_message(ready):
    """Checks 8: the flags, then the version."""
    refuse_unless(ready.flags & ~ALL_READY_FLAGS == 0, BAD_FIELD)
    refuse_unless(ready.version in VERSIONS, BAD_FIELD)
    body = ready.flags.to_bytes(4, "little") + ready.version.to_bytes(4, "little")
    return message_of(CLIENT_READY, body + ready.max_touch_contacts.to_bytes(2, "little"))


def write_suspend(out):
    return written(out, lambda: message_of(SUSPEND, b""))


def write_resume(out):
    return written(out, lambda: message_of(RESUME, b""))


def write_dismiss(out, contact_id):
    return written(out, lambda: dismiss_message(contact_id))


def dismiss_message(contact_id):
    return message_of(DISMISS, bytes([contact_id]))


def write_touch(out, encode_time, records):
    """Checks 10 (encodeTime), 14 over all records, 7, 2, 13."""
    return written(out, lambda: touch_message(touch_of(encode_time, records)))


def touch_of(encode_time, records):
    """What a writer is given: checks 10 (encodeTime), then 14 over all records."""
    refuse_unless(U4.lowest <= encode_time <= U4.highest, BAD_RANGE)
    return Touch(encode_time, frames_of(records))


def touch_message(touch):
    """Checks 7, then 2."""
    refuse_unless(len(touch.frames) <= MOST_FRAMES, BAD_COUNT)
    body = integers.encode(U4, touch.encode_time) + integers.encode(U2, len(touch.frames))
    message = message_of(TOUCH, body + b"".join(map(frame_bytes, touch.frames)))
    refuse_unless(len(message) <= LONGEST_MESSAGE, TOO_LONG)
    return message


def frames_of(records):
    """The frames that a slice of records describes: each head followed by its count of contacts."""
    refuse_unless(len(records) % house.LENGTH == 0, BAD_RECORD)
    frames = []
    at = 0
    while at < len(records):
        head = take_record(records, at, house.HEAD_KIND)
        at += house.LENGTH
        contacts = []
        for _ in range(head.count):
            contacts.append(take_record(records, at, house.CONTACT_KIND))
            at += house.LENGTH
        frames.append(Frame(head.offset, tuple(contacts)))
    return tuple(frames)


def take_record(records, at, kind):
    record = records[at : at + house.LENGTH]
    due = len(record) == house.LENGTH and house.kind_of(record) == kind and house.well_formed(record)
    refuse_unless(due, BAD_RECORD)
    return house.unpack(record)


def frame_bytes(one):
    head = integers.encode(U2, len(one.contacts)) + integers.encode(U8, one.offset)
    return head + b"".join(map(contact_bytes, one.contacts))


def contact_bytes(one):
    data = bytes([one.id]) + integers.encode(U2, one.fields_present)
    data += integers.encode(S4, one.x) + integers.encode(S4, one.y) + integers.encode(U4, one.flags)
    if one.fields_present & house.CONTACTRECT_PRESENT:
        data += b"".join(integers.encode(S2, getattr(one, side)) for side in house.SIDES)
    if one.fields_present & house.ORIENTATION_PRESENT:
        data += integers.encode(U4, one.orientation)
    if one.fields_present & house.PRESSURE_PRESENT:
        data += integers.encode(U4, one.pressure)
    return data
