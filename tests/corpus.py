"""What the corpus makers share: messages as lists of fields, damage, random shapes, files."""

import os
import sys
from typing import NamedTuple, Optional

from reference import entries, house, integers, messages
from reference.integers import S2, S4, U2, U4, U8
from reference.refusals import NAMES


# Messages field by field, so that any one field can be damaged by itself.


class Field(NamedTuple):
    name: str
    kind: Optional[integers.Kind]  # None for bytes that are not one of the five integers
    value: int
    data: bytes


def byte_field(name, value):
    return Field(name, None, value, bytes([value]))


def integer_field(name, kind, value):
    return Field(name, kind, value, integers.encode(kind, value))


def touch_fields(encode_time, frames):
    fields = [integer_field("encodeTime", U4, encode_time), integer_field("frameCount", U2, len(frames))]
    for frame in frames:
        fields.append(integer_field("contactCount", U2, len(frame.contacts)))
        fields.append(integer_field("frameOffset", U8, frame.offset))
        for contact in frame.contacts:
            fields += contact_fields(contact)
    return fields


def contact_fields(contact):
    fields = [
        byte_field("contactId", contact.id),
        integer_field("fieldsPresent", U2, contact.fields_present),
        integer_field("x", S4, contact.x),
        integer_field("y", S4, contact.y),
        integer_field("contactFlags", U4, contact.flags),
    ]
    if contact.fields_present & 1:
        fields += [integer_field(side, S2, getattr(contact, side)) for side in house.SIDES]
    if contact.fields_present & 2:
        fields.append(integer_field("orientation", U4, contact.orientation))
    if contact.fields_present & 4:
        fields.append(integer_field("pressure", U4, contact.pressure))
    return fields


def body_of(fields):
    return b"".join(field.data for field in fields)


def message(event, body, length=None):
    """A message of any event and body; its pduLength is right unless another is given."""
    if length is None:
        length = 6 + len(body)
    return event.to_bytes(2, "little") + length.to_bytes(4, "little") + body


def touch(encode_time, frames):
    return message(messages.TOUCH, body_of(touch_fields(encode_time, frames)))


def client_ready(flags, version, most):
    body = flags.to_bytes(4, "little") + version.to_bytes(4, "little") + most.to_bytes(2, "little")
    return message(messages.CLIENT_READY, body)


def dismiss(contact_id):
    return message(messages.DISMISS, bytes([contact_id]))


def frame(*contacts, offset=0):
    return messages.Frame(offset, tuple(contacts))


def contact(contact_id, flags, x=0, y=0, **optional):
    """A contact whose fieldsPresent follows from the optional fields named."""
    present = 0
    if any(side in optional for side in house.SIDES):
        present |= 1
    if "orientation" in optional:
        present |= 2
    if "pressure" in optional:
        present |= 4
    return house.Contact(1, flags, present, contact_id, x, y, **optional)


def head_record(count, offset=0):
    return house.pack_head(house.Head(count, offset))


def records_of(frames):
    return b"".join(record for one in frames for record in messages.frame_records(one))


# Padding: forms longer than a value needs, as other makers send them


def in_length(field, length):
    """The field's value in the form of this length."""
    return field._replace(data=integers.form(field.kind, field.value < 0, abs(field.value), length))


def minus_zero(field, length):
    return field._replace(value=0, data=integers.form(field.kind, True, 0, length))


def all_forms(field):
    """Every form of a field's value, the shortest first; minus zero is one of 0."""
    if field.kind is None:
        return [field]
    shortest = integers.shortest_length(field.kind, abs(field.value))
    forms = [in_length(field, length) for length in range(shortest, field.kind.longest + 1)]
    if field.kind.signed and field.value == 0:
        forms += [minus_zero(field, length) for length in range(1, field.kind.longest + 1)]
    return forms


def longer(field, more=1):
    """The field by so many bytes longer, as far as its kind goes."""
    if field.kind is None:
        return field
    return in_length(field, min(len(field.data) + more, field.kind.longest))


def all_longer(fields, more=1):
    return [longer(field, more) for field in fields]


MOST_PADDING = U8.longest - 1


def randomly_padded(rng, fields):
    """Each field in any of its forms."""
    return [rng.choice(all_forms(field)) for field in fields]


def padded_to(fields, length):
    """The fields padded from the front on, so that their message has just this length."""
    missing = length - len(touch_of(fields))
    result = []
    for field in fields:
        result.append(longer(field, missing))
        missing -= len(result[-1].data) - len(field.data)
    assert missing == 0
    return result


def touch_of(fields):
    return message(messages.TOUCH, body_of(fields))


def with_each_count(encode_time, frames):
    """A message in every form of its first frame's contactCount."""
    fields = touch_fields(encode_time, frames)
    at = [field.name for field in fields].index("contactCount")
    return [touch_of(fields[:at] + [form] + fields[at + 1 :]) for form in all_forms(fields[at])]


# Damage


def with_field(fields, at, data):
    """The body with one field's bytes exchanged."""
    return body_of(fields[:at]) + data + body_of(fields[at + 1 :])


def other_forms(field):
    """Every padded form of a field's value, and minus zero at every length."""
    if field.kind is None:
        return
    magnitude = abs(field.value)
    shortest = integers.shortest_length(field.kind, magnitude)
    for length in range(shortest + 1, field.kind.longest + 1):
        yield integers.form(field.kind, field.value < 0, magnitude, length)
    if field.kind.signed:
        for length in range(1, field.kind.longest + 1):
            yield integers.form(field.kind, True, 0, length)


def other_form_bodies(fields):
    for at, field in enumerate(fields):
        for data in other_forms(field):
            yield with_field(fields, at, data)


def cut_bodies(fields):
    """The body cut at every field border and inside every field."""
    body = body_of(fields)
    for length in range(len(body)):
        yield body[:length]


def flipped(data, bit):
    number = int.from_bytes(data, "big") ^ (1 << bit)
    return number.to_bytes(len(data), "big")


def damaged(rng, good):
    """A message damaged in one random way; sometimes its pduLength is put right again."""
    event, body = int.from_bytes(good[:2], "little"), good[6:]
    way = rng.randrange(7)
    if way == 0 and good:
        return flipped(good, rng.randrange(8 * len(good)))
    if way == 1:
        return good[: rng.randrange(len(good) + 1)]
    if way == 2:
        return message(event, body[: rng.randrange(len(body) + 1)])
    if way == 3:
        return message(event, body + rng.randbytes(rng.randint(1, 5)))
    if way == 4 and body:
        at = rng.randrange(len(body))
        return message(event, body[:at] + bytes([rng.randrange(256)]) + body[at + 1 :])
    if way == 5 and body:
        at = rng.randrange(len(body))
        return message(event, body[:at] + body[at + 1 :])
    at = rng.randrange(len(body) + 1)
    return message(event, body[:at] + rng.randbytes(1) + body[at:])


# Random and extreme values


def random_value(rng, kind):
    """Any length is as likely as any other, and the ends of each come often."""
    length = rng.randint(1, kind.longest)
    low = kind.largest(length - 1) + 1 if length > 1 else 0
    high = kind.largest(length)
    magnitude = rng.choice((low, high, rng.randint(low, high)))
    return -magnitude if kind.signed and rng.random() < 0.5 else magnitude


def random_optional(rng, present=None):
    """The optional fields of a contact, for a given or a random fieldsPresent."""
    if present is None:
        present = rng.randrange(8)
    fields = {"fields_present": present}
    if present & 1:
        fields.update((side, random_value(rng, S2)) for side in house.SIDES)
    if present & 2:
        fields["orientation"] = rng.choice((0, 359, rng.randint(0, 359)))
    if present & 4:
        fields["pressure"] = rng.choice((0, 65000, rng.randint(0, 65000)))
    return fields


def random_contact(rng, flags=None, present=None, contact_id=None):
    return house.Contact(
        kind=1,
        flags=rng.choice(house.FLAGS) if flags is None else flags,
        id=rng.randrange(256) if contact_id is None else contact_id,
        x=random_value(rng, S4),
        y=random_value(rng, S4),
        **random_optional(rng, present),
    )


def random_frame(rng, most=5):
    return frame(*(random_contact(rng) for _ in range(rng.randint(0, most))), offset=random_value(rng, U8))


def random_frames(rng, most_frames=4, most_contacts=5):
    return [random_frame(rng, most_contacts) for _ in range(rng.randint(0, most_frames))]


def stretched(frames, length, encode_time=0):
    """The frames with longer offsets (but for the first), so that their message has just this length.

    An offset takes one to eight bytes; that is room enough to hit any length near by.
    """
    missing = length - len(touch(encode_time, frames))
    assert missing >= 0
    result = list(frames)
    for at in range(1, len(result)):
        have = integers.shortest_length(U8, result[at].offset)
        more = min(missing, U8.longest - have)
        if more:
            result[at] = result[at]._replace(offset=U8.largest(have + more - 1) + 1)
            missing -= more
    assert missing == 0
    return result


def widened(frames, length, encode_time=0):
    """The frames with greater positions, from the last contact backwards, so that their message has just this length."""
    missing = length - len(touch(encode_time, frames))
    assert missing >= 0
    result = []
    for one in reversed(frames):
        contacts = []
        for each in reversed(one.contacts):
            for name in house.POSITION:
                have = integers.shortest_length(S4, abs(getattr(each, name)))
                more = min(missing, S4.longest - have)
                missing -= more
                each = each._replace(**{name: S4.largest(have + more - 1) + 1}) if more else each
            contacts.insert(0, each)
        result.insert(0, one._replace(contacts=tuple(contacts)))
    assert missing == 0
    return result


# Files and figures


def write_files(directory, contents):
    """Files by name, of text or of bytes."""
    os.makedirs(directory, exist_ok=True)
    for name, content in contents.items():
        data = content.encode("ascii") if isinstance(content, str) else content
        with open(os.path.join(directory, name), "wb") as file:
            file.write(data)


def output_directory():
    if len(sys.argv) != 2:
        sys.exit(f"usage: {os.path.basename(sys.argv[0])} OUTDIR")
    return sys.argv[1]


def report(text):
    print(text, file=sys.stderr)


def report_refusals(text, column=1):
    """How often each refusal number stands in a program's output."""
    counts = {}
    for line in text.splitlines():
        word = line.split(" ")[column]
        counts[word] = counts.get(word, 0) + 1
    report(f"lines {len(text.splitlines())}")
    for number, name in NAMES.items():
        if str(number) in counts:
            report(f"  {number:2} {name:12} {counts.pop(str(number))}")
    for word, count in sorted(counts.items()):
        report(f"     {word:12} {count}")


def report_counts(counts):
    for name, count in sorted(counts.items()):
        report(f"  {name:56} {count}")


def cut_entry(payload, missing=1):
    """An entry whose last bytes are missing."""
    return (len(payload) + missing).to_bytes(2, "big") + payload


def joined(payloads, tail=b""):
    return entries.join(payloads) + tail
