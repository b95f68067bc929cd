"""What each test program prints for a given standard input."""

import struct
from typing import NamedTuple

from . import entries, house, integers, messages, receiver
from .batch import receive_all
from .label import Button, Label, choose, set_shown
from .output import Written, written
from .panel import Panel, take, write_dismiss, write_ready, write_touch
from .refusals import BAD_RECORD, NONE, Refused

LENT_TO_READERS = 48 * 1024
LENT_TO_TOUCH_WRITER = messages.LONGEST_MESSAGE
MOST_LENT_TO_PANEL = messages.LONGEST_MESSAGE
MOST_LENT_TO_BATCH = 131072
MOST_PLACES_OF_BATCH = 4096
LONGEST_LENT_TO_VECTORS = 32
MOST_BUTTONS = 64
FILLING = 0xEE


def lines(data, line):
    """One line per entry, numbered from 1; 'cut' for an incomplete last one."""
    payloads, cut = entries.split(data)
    texts = [f"{number} {line(payload)}\n" for number, payload in enumerate(payloads, 1)]
    if cut:
        texts.append(f"{len(payloads) + 1} cut\n")
    return "".join(texts)


def big_endian(data):
    """Numbers inside an entry are most significant first."""
    return int.from_bytes(data, "big")


# bench, records and in_place: one fresh receiver takes all entries


def received(data, keeper=receiver.Receiver()):
    """Each complete entry's answer, the bytes of its records and the receiver after it."""
    payloads, _ = entries.split(data)
    for payload in payloads:
        output = bytearray(LENT_TO_READERS)
        keeper, answer = receiver.receive(keeper, payload, output)
        yield answer, bytes(output[: answer.records * house.LENGTH]), keeper


def bench(data):
    return bench_and_records(data)[0]


def records(data):
    return bench_and_records(data)[1]


def bench_and_records(data):
    """What 'bench' prints and what 'records' writes."""
    results = list(received(data))
    answers = iter(results)

    def line(_payload):
        answer, _, _ = next(answers)
        return f"{answer.refusal} {answer.injected} {answer.ignored} {answer.cancelled} {answer.records}"

    return lines(data, line), b"".join(written_records for _, written_records, _ in results)


def in_place(data):
    results = received(data)

    def line(_payload):
        answer, _, keeper = next(results)
        marks = (keeper.ready, not keeper.before_first_frame, not keeper.running)
        return " ".join(str(int(each)) for each in (answer.refusal, answer.records, *marks, len(keeper.active)))

    return lines(data, line)


# batch: one fresh receiver takes all batches


def batch(data):
    results = enumerate(batches(data), 1)

    def line(_payload):
        number, (answer, fed) = next(results)
        return "bad" if answer is None else batch_lines(number, answer, fed)

    return lines(data, line)


def batches(data):
    """Each complete entry's answer, None for a bad one, and what it fed."""
    payloads, _ = entries.split(data)
    keeper = receiver.Receiver()
    for payload in payloads:
        keeper, answer, fed = batch_call(keeper, payload)
        yield answer, fed


def batch_call(keeper, payload):
    """Room, places, a buffer: the receiver after it, the answer, and of each entry fed its answer and its records."""
    if len(payload) < 6:
        return keeper, None, []
    output = bytearray(min(big_endian(payload[:4]), MOST_LENT_TO_BATCH))
    answers = [None] * min(big_endian(payload[4:6]), MOST_PLACES_OF_BATCH)
    after, answer = receive_all(keeper, payload[6:], answers, output)
    return after, answer, list(with_records(answers[: answer.entries], output))


def with_records(answers, output):
    """Each answer with the bytes of its records, which follow those of the answers before it."""
    at = 0
    for answer in answers:
        end = at + answer.records * house.LENGTH
        yield answer, bytes(output[at:end])
        at = end


def batch_lines(number, answer, fed):
    """The batch's own line but for its number, and below it one for each entry fed."""
    texts = [" ".join(map(str, answer))]
    for place, (each, written_records) in enumerate(fed, 1):
        texts.append(" ".join([f"{number}.{place}", *map(str, each), *filter(None, [written_records.hex()])]))
    return "\n".join(texts)


# plain and strict: the two readings of a touch message, and what the touch writer makes of what was read


def plain(data):
    return lines(data, plain_line)


def plain_line(message):
    return reading_line(messages.plain, message, lambda back: f"becomes {len(back)}")


def strict(data):
    return lines(data, strict_line)


def strict_line(message):
    return reading_line(messages.plain_strictly, message, lambda _back: "differs")


def reading_line(reading, message, otherwise):
    """Behind an accepted message 'same' where it is written back to the same bytes."""
    output = bytearray(LENT_TO_READERS)
    answer = reading(message, output)
    text = f"{answer.refusal} {answer.encode_time} {answer.records}"
    if answer.refusal != NONE:
        return text
    back = written_back(answer.encode_time, bytes(output[: answer.records * house.LENGTH]))
    return f"{text} {'same' if back == message else otherwise(back)}"


def written_back(encode_time, touch_records):
    """No byte where the writer refuses."""
    output = bytearray(LENT_TO_TOUCH_WRITER)
    answer = messages.write_touch(output, encode_time, touch_records)
    return bytes(output[: answer.bytes])


# writer


def writer(data):
    return lines(data, writer_line)


def writer_line(payload):
    if len(payload) < 4:
        return "short"
    output = bytearray(LENT_TO_TOUCH_WRITER)
    answer = messages.write_touch(output, big_endian(payload[:4]), payload[4:])
    return written_line(answer, output[: answer.bytes])


def written_line(answer, message):
    text = f"{answer.refusal} {answer.bytes}"
    return f"{text} {message.hex()}" if message else text


# panel and sent: one fresh panel, to which each entry is a call


def panel(data):
    calls = called(data)

    def line(_payload):
        answer, message = next(calls)
        return "bad" if answer is None else written_line(answer, message)

    return lines(data, line)


def sent(data):
    """A bench file of the messages that were written."""
    return entries.join(message for _, message in called(data) if message)


def called(data):
    """Each complete entry's answer, None for a bad one, and the message that it wrote."""
    payloads, _ = entries.split(data)
    client = Panel()
    for payload in payloads:
        client, answer, message = call(client, payload)
        yield answer, message


def call(client, payload):
    """The panel after an entry, the answer and the message written."""
    run = CALLS.get(payload[:1])
    return (run and run(client, payload[1:])) or (client, None, b"")


def take_call(client, message):
    after, refusal = take(client, message)
    return after, Written(refusal, 0), b""


def ready_call(client, rest):
    """Room, flags, version, maxTouchContacts."""
    if len(rest) != 12:
        return None
    ready = messages.ClientReady(big_endian(rest[2:6]), big_endian(rest[6:10]), big_endian(rest[10:12]))
    return lent_call(rest, lambda out: write_ready(client, out, ready))


def touch_call(client, rest):
    """Room, encode time, records."""
    if len(rest) < 6:
        return None
    return lent_call(rest, lambda out: write_touch(client, out, big_endian(rest[2:6]), rest[6:]))


def dismiss_call(client, rest):
    """Room, contact id."""
    if len(rest) != 3:
        return None
    return lent_call(rest, lambda out: write_dismiss(client, out, rest[2]))


def lent_call(rest, write):
    """A call that is lent as many bytes of output as the entry's first two say."""
    out = bytearray(min(big_endian(rest[:2]), MOST_LENT_TO_PANEL))
    after, answer = write(out)
    return after, answer, bytes(out[: answer.bytes])


CALLS = {
    b"\1": take_call,
    b"\2": ready_call,
    b"\3": touch_call,
    b"\6": dismiss_call,
}


# choices: one list of buttons and one label, to which each entry is a call

# Item, left, top, right, bottom, shown.
BUTTON = struct.Struct(">I4iB")


class Screen(NamedTuple):
    buttons: list
    label: Label


BLANK = Screen([], Label())


def choices(data):
    texts = screen_lines(data)
    return lines(data, lambda _payload: next(texts))


def screen_lines(data):
    payloads, _ = entries.split(data)
    screen = BLANK
    for payload in payloads:
        screen, text = screen_call(screen, payload)
        yield text


def screen_call(screen, payload):
    """The screen after an entry, and its line but for the number."""
    run = SCREEN_CALLS.get(payload[:1])
    return (run and run(screen, payload[1:])) or (screen, "bad")


def list_call(_screen, rest):
    """A new list; all contacts are out."""
    if len(rest) % BUTTON.size != 0 or len(rest) > MOST_BUTTONS * BUTTON.size:
        return None
    return Screen([Button(*values) for values in BUTTON.iter_unpack(rest)], Label()), "set"


def mark_call(screen, rest):
    """Place, shown."""
    if len(rest) != 3:
        return None
    buttons = list(screen.buttons)
    found = set_shown(buttons, big_endian(rest[:2]), rest[2])
    return screen._replace(buttons=buttons), "set" if found else "none"


def choose_call(screen, rest):
    """Room, records."""
    if len(rest) < 2:
        return None
    chosen = [None] * big_endian(rest[:2])
    after, answer = choose(screen.label, screen.buttons, rest[2:], chosen)
    words = [f"{each.id}:{each.item}" for each in chosen[: answer.count]]
    return screen._replace(label=after), " ".join([*map(str, answer), *words])


SCREEN_CALLS = {
    b"\1": list_call,
    b"\2": mark_call,
    b"\3": choose_call,
}


# vectors


def vectors(data):
    return lines(data, vector_line)


def vector_line(payload):
    run = VECTOR_LINES.get(payload[:1])
    return (run and run(payload[1:])) or "unknown"


def strict_read_line(rest):
    return read_line(rest, strict=True)


def read_line(rest, strict=False):
    """Kind, then the rest of a message from the integer's first byte."""
    if len(rest) < 1 or rest[0] >= len(integers.KINDS):
        return None
    try:
        value, length = integers.read(integers.KINDS[rest[0]], rest[1:], strict)
    except Refused as refused:
        return f"refused {refused.number}"
    return f"{value} {length}"


def write_line(rest):
    """Kind, sign, eight bytes of magnitude, the length of the output lent."""
    if len(rest) != 11 or rest[0] >= len(integers.KINDS):
        return None
    kind = integers.KINDS[rest[0]]
    return lent_line(rest[10], lambda out: integers.write(kind, out, signed(rest[1:10])))


def wide_head_line(rest):
    return head_line(rest, count_bytes=2)


def head_line(rest, count_bytes=1):
    """Count, eight bytes of offset, the length of the output lent."""
    if len(rest) != count_bytes + 9:
        return None
    head = house.Head(big_endian(rest[:count_bytes]), big_endian(rest[count_bytes:-1]))
    return lent_line(rest[-1], lambda out: written(out, lambda: house.pack_head(head)))


def contact_line(rest):
    """A contact's fields in the record's order, the length of the output lent."""
    if len(rest) != 31:
        return None
    x, y = signed(rest[4:9]), signed(rest[9:14])
    sides = [signed(rest[at : at + 3]) for at in range(14, 26, 3)]
    orientation = big_endian(rest[26:28])
    pressure = big_endian(rest[28:30])
    contact = house.Contact(*rest[:4], x, y, *sides, orientation, pressure)
    return lent_line(rest[30], lambda out: written(out, lambda: house.pack_contact(contact)))


def record_line(rest):
    """A slice of records, of which the first is read."""
    if len(rest) < house.LENGTH:
        return f"refused {BAD_RECORD}"
    record = rest[: house.LENGTH]
    word = "head" if house.kind_of(record) == house.HEAD_KIND else "contact"
    fields = " ".join(str(value) for value in house.unpack(record))
    return f"{word} {fields} {'well' if house.well_formed(record) else 'ill'}"


def signed(data):
    """One byte of sign (1 for minus), then the magnitude."""
    magnitude = big_endian(data[1:])
    return -magnitude if data[0] == 1 else magnitude


def lent_line(length, write):
    """The answer and the whole lent output, to show that nothing else was touched."""
    if length > LONGEST_LENT_TO_VECTORS:
        return None
    out = bytearray([FILLING]) * length
    answer = write(out)
    return f"{answer.refusal} {answer.bytes} {out.hex() or '-'}"


VECTOR_LINES = {
    b"a": read_line,
    b"r": strict_read_line,
    b"w": write_line,
    b"h": head_line,
    b"H": wide_head_line,
    b"c": contact_line,
    b"d": record_line,
}
