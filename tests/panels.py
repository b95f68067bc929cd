"""Calls of one panel: entries of the programs 'panel' and 'sent', what becomes of them, random use."""

from collections import Counter
from dataclasses import fields

import corpus
import eras
from corpus import records_of
from histories import some_frames
from reference import messages, programs, receiver
from reference.integers import U4
from reference.keeper import HOVERING, Keeper
from reference.panel import Panel
from reference.refusals import NAMES, NONE

TAKE, READY, TOUCH, DISMISS = 1, 2, 3, 6
CALL_NAMES = {TAKE: "take", READY: "client ready", TOUCH: "touch", DISMISS: "dismiss"}

AMPLE = messages.LONGEST_MESSAGE
V100, V101 = messages.VERSIONS


# Entries


def entry(command, *numbers, tail=b""):
    """A command, then numbers, each with its width in bytes."""
    return bytes([command]) + b"".join(value.to_bytes(width, "big") for value, width in numbers) + tail


def take(message):
    return entry(TAKE, tail=message)


def ready(flags, version, most, room=AMPLE):
    return entry(READY, (room, 2), (flags, 4), (version, 4), (most, 2))


def touch_records(records, time=0, room=AMPLE):
    return entry(TOUCH, (room, 2), (time, 4), tail=records)


def touch(*frames, time=0, room=AMPLE):
    return touch_records(records_of(frames), time, room)


def dismiss(contact_id, room=AMPLE):
    return entry(DISMISS, (room, 2), (contact_id, 1))


def server_ready(version):
    return corpus.message(messages.SERVER_READY, version.to_bytes(4, "little"))


SUSPEND = corpus.message(messages.SUSPEND, b"")
RESUME = corpus.message(messages.RESUME, b"")


def bad_entries():
    """None of the four commands, or not as many bytes as the command needs."""
    yield b""
    for command in (0, 4, 5, 7, 9, ord("1"), 255):
        yield bytes([command])
        yield bytes([command]) + ready(0, V101, 10)[1:]
    for good in (ready(0, V101, 10), dismiss(1)):
        yield from (good[:length] for length in range(1, len(good)))
        yield good + b"\0"
    yield from (touch()[:length] for length in range(1, 7))


# Calling


class Calls:
    """Entries for one fresh panel, with a fresh receiver that gets what it writes.

    Until 'go_on_today' frames are chosen as before request #107.
    """

    def __init__(self):
        self.entries = []
        self.panel = Panel()
        self.keeper = eras.NarrowReceiver()
        self.counts = Counter()  # by call and refusal

    def go_on_today(self):
        self.keeper = receiver.Receiver(**vars(self.keeper))

    def call(self, payload):
        """The refusal; None for a bad entry."""
        self.entries.append(payload)
        self.panel, answer, message = programs.call(self.panel, payload)
        if answer is None:
            self.counts["bad"] += 1
            return None
        self.counts[payload[0], answer.refusal] += 1
        if message:
            self.deliver(message)
        return answer.refusal

    def deliver(self, message):
        """No message is refused, no frame is ignored or cancelled, and both ends keep the same."""
        self.keeper, answer = receiver.receive(self.keeper, message, bytearray(programs.LENT_TO_READERS))
        assert (answer.refusal, answer.ignored, answer.cancelled) == (NONE, 0, 0), message.hex()
        for each in fields(Keeper):
            assert getattr(self.keeper, each.name) == getattr(self.panel, each.name), message.hex()

    def accepted(self, *payloads):
        self.refused(NONE, *payloads)

    def bad(self, *payloads):
        self.refused(None, *payloads)

    def refused(self, refusal, *payloads):
        """Calls whose refusal is known beforehand; refused ones leave the panel as it was."""
        for payload in payloads:
            before = self.panel
            have = self.call(payload)
            assert have == refusal, f"entry {len(self.entries)}: {have}, not {refusal}: {payload.hex()}"
            assert refusal == NONE or self.panel == before

    def written(self):
        """How many messages were written."""
        return sum(self.counts[command, NONE] for command in (READY, TOUCH, DISMISS))

    def report(self, name):
        corpus.report(f"{name}: entries {len(self.entries)}, bad {self.counts['bad']}, messages {self.written()}")
        for command, word in CALL_NAMES.items():
            counts = [(number, self.counts[command, number]) for number in NAMES]
            corpus.report(f"  {word:12} " + ", ".join(f"{number}: {count}" for number, count in counts if count))


# Random use


def walk(calls, rng, ids, steps):
    """Legal play with refused calls, bad entries, suspended times and damage between."""
    for _ in range(steps):
        way = rng.choices(list(WAYS), WAYS.values())[0]
        # Suspended times are short.
        resumes = calls.panel.suspended and rng.random() < 0.25
        calls.call(take(RESUME) if resumes else way(calls, rng, ids))


def legal_touch(calls, rng, ids):
    return touch(*chosen_frames(calls, rng, ids), time=chosen_time(rng))


def many_frames(calls, rng, ids):
    return touch(*some_frames(rng, calls.keeper, ids, rng.randint(10, 64), 0), time=chosen_time(rng))


def illegal_touch(calls, rng, ids):
    return touch(*chosen_frames(calls, rng, ids, 0.5))


def damaged_touch(calls, rng, ids):
    """Bytes added to the records, or a bit of them flipped."""
    records, time = records_of(chosen_frames(calls, rng, ids)), chosen_time(rng)
    if not records or rng.random() < 0.2:
        return touch_records(records + rng.randbytes(rng.randint(1, 21)), time)
    return touch_records(corpus.flipped(records, rng.randrange(8 * len(records))), time)


def late_touch(calls, rng, ids):
    """An encode time over the greatest."""
    last = (1 << 32) - 1
    return touch(*chosen_frames(calls, rng, ids), time=rng.choice((1 << 30, last, rng.randint(1 << 30, last))))


def tight_touch(calls, rng, ids):
    """Just enough room, or one byte less."""
    frames, time = chosen_frames(calls, rng, ids), chosen_time(rng)
    return touch(*frames, time=time, room=len(corpus.touch(time, frames)) - rng.randrange(2))


def some_dismissal(calls, rng, ids):
    hovering = [each for each, place in calls.panel.active.items() if place.state == HOVERING]
    if hovering and rng.random() < 0.7:
        return dismiss(rng.choice(hovering), rng.choice((AMPLE, AMPLE, 7, 6)))
    return dismiss(rng.choice(ids))


def some_arrival(_calls, rng, _ids):
    good = rng.choice((SUSPEND, SUSPEND, RESUME, server_ready(V101)))
    return take(good if rng.random() < 0.6 else corpus.damaged(rng, good))


def other_entry(_calls, rng, _ids):
    return rng.choice((ready(0, V101, 5), ready(9, V100, 5, 0), *bad_entries()))


def chosen_frames(calls, rng, ids, faults=0):
    return some_frames(rng, calls.keeper, ids, rng.choice((0, 1, 1, 1, 1, 1, 1, 2, 2, 3)), faults)


def chosen_time(rng):
    return corpus.random_value(rng, U4) if rng.random() < 0.2 else 3


WAYS = {
    legal_touch: 140,
    many_frames: 1,
    illegal_touch: 16,
    damaged_touch: 8,
    late_touch: 3,
    tight_touch: 12,
    some_dismissal: 20,
    some_arrival: 20,
    other_entry: 5,
}
