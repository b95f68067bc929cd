"""What the program 'rooms' prints: each call with one byte of output too little, then with just enough."""

from typing import NamedTuple

from . import house, messages
from .entries import split
from .programs import FILLING, LENT_TO_READERS, LENT_TO_TOUCH_WRITER, lines
from .receiver import Receiver, receive
from .refusals import NONE, Refused

LENT_TO_WRITERS = LENT_TO_TOUCH_WRITER


class Lent(NamedTuple):
    """One call: its name, its answer's numbers (the refusal first) and the lent bytes as the call left them."""

    name: str
    numbers: tuple
    output: bytes

    @property
    def refusal(self):
        return self.numbers[0]

    @property
    def room(self):
        return len(self.output)

    @property
    def kept(self):
        return self.output == filled(self.room)

    def line(self):
        """But for the entry's number."""
        if self.refusal != NONE:
            tail = "kept" if self.kept else "changed"
        else:
            tail = self.output.hex()
        return " ".join([self.name, str(self.room), *map(str, self.numbers), *filter(None, [tail])])


def filled(room):
    return bytes([FILLING]) * room


def rooms(data):
    results = enumerate(lent_calls(data), 1)

    def line(_payload):
        number, calls = next(results)
        return f"\n{number} ".join(call.line() for call in calls)

    return lines(data, line)


def lent_calls(data):
    """The calls of each complete entry; one fresh receiver takes them all."""
    keeper = Receiver()
    for payload in split(data)[0]:
        keeper, calls = received(keeper, payload)
        yield calls + read(payload) + written(payload)


# Two rooms for each call


def both_rooms(enough):
    """Lent so many bytes one after the other; a call that writes nothing is lent none."""
    return (enough - 1, enough) if enough else (0,)


def received(keeper, message):
    """The receiver after both calls: the second is given to the one that the first left."""
    _, plenty = receive(keeper, message, bytearray(LENT_TO_READERS))
    calls = []
    for room in both_rooms(plenty.records * house.LENGTH):
        output = bytearray(filled(room))
        keeper, answer = receive(keeper, message, output)
        calls.append(Lent("receive", tuple(answer), bytes(output)))
    return keeper, calls


def tried(name, call, enough):
    """A call that keeps nothing: it is given the output alone."""
    calls = []
    for room in both_rooms(enough):
        output = bytearray(filled(room))
        calls.append(Lent(name, tuple(call(output)), bytes(output)))
    return calls


def read(message):
    calls = []
    for name, reading in (("plain", messages.plain), ("strict", messages.plain_strictly)):
        plenty = reading(message, bytearray(LENT_TO_READERS))
        calls += tried(name, lambda out: reading(message, out), plenty.records * house.LENGTH)
    return calls


def written(message):
    """The header that stands at the front, and the message where it is accepted by itself."""
    calls = []
    for name, write, values in writers(message):
        plenty = write(bytearray(LENT_TO_WRITERS), *values)
        calls += tried(name, lambda out: write(out, *values), plenty.bytes)
    return calls


def writers(message):
    """Each writer that has something of this entry to write: its name, itself and what it is given besides output."""
    if len(message) >= messages.HEADER_LENGTH:
        event, length = (int.from_bytes(part, "little") for part in (message[0:2], message[2:6]))
        yield "header", messages.write_header, (event, length)
    output = bytearray(LENT_TO_READERS)
    reading = messages.plain(message, output)
    if reading.refusal == NONE:
        records = bytes(output[: reading.records * house.LENGTH])
        yield "touch", messages.write_touch, (reading.encode_time, records)
    for name, take, write in OTHER_MESSAGES:
        try:
            values = take(message)
        except Refused:
            continue
        yield name, write, values


# The name, what reads the message by itself and gives the values of its writer, and that writer.
OTHER_MESSAGES = (
    ("server_ready", lambda message: (messages.read_server_ready(message),), messages.write_server_ready),
    ("client_ready", messages.read_client_ready, messages.write_client_ready),
    ("suspend", lambda message: messages.read_suspend(message) or (), messages.write_suspend),
    ("resume", lambda message: messages.read_resume(message) or (), messages.write_resume),
    ("dismiss", lambda message: (messages.read_dismiss(message),), messages.write_dismiss),
)
