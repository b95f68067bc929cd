"""Padded integers for one receiver, as other makers' panels send them (request #104).

What each message must answer is said beforehand, but for the random ones.
"""

import corpus
import eras
from corpus import all_longer, contact, dismiss, frame, integer_field, longer, minus_zero, touch, touch_fields, touch_of
from histories import answered, injected, rest, some_frames
from reference.integers import S4, U4, U8
from reference.keeper import POSITION_KEPT
from reference.refusals import NONE

PADDINGS = (1, 2, 3, corpus.MOST_PADDING)


def padded(*frames, time=0, more=1):
    """A touch message whose integers are all by so many bytes longer than they need to be."""
    return touch_of(all_longer(touch_fields(time, frames), more))


def with_minus_zero(one, names, length):
    """A message of one contact that gives some of its zeros as minus zero."""
    fields = touch_fields(0, [frame(one)])
    assert all(field.value == 0 for field in fields if field.name in names)
    return touch_of([minus_zero(field, length) if field.name in names else field for field in fields])


# A contact comes, moves and goes


def strokes(history):
    """The lift has the position of the last update, in whatever form it was or is given."""
    at, there = (100, 50), (-63, 127)
    for more in PADDINGS:
        injected(history, padded(frame(contact(1, 0x19, *at)), more=more))
        injected(history, padded(frame(contact(1, 0x1A, *there), offset=8), time=9, more=more))
        injected(history, padded(frame(contact(1, 0x04, *there)), more=more))
        # Padded and not, in turn.
        injected(history, touch(0, [frame(contact(1, 0x19, *at))]), padded(frame(contact(1, 0x04, *at)), more=more))
        injected(history, padded(frame(contact(1, 0x19, *at)), more=more), touch(0, [frame(contact(1, 0x24, *at))]))
        injected(history, padded(frame(contact(2, 0x0A, *at)), more=more), padded(frame(contact(2, 0x19)), more=more))
        injected(history, padded(frame(contact(2, 0x0C)), more=more))
        history.send(dismiss(2))
        whole = contact(3, 0x19, *there, left=-63, top=63, right=127, bottom=0, orientation=127, pressure=63)
        lift = whole._replace(flags=0x04)
        answered(history, padded(frame(whole), frame(), frame(lift, offset=127), more=more), injected=3)
        answered(history, padded(time=127, more=more))


def lifts_at_zero(history):
    """Minus zero is the stored 0, whichever of the two was sent first."""
    for flags in POSITION_KEPT:
        for length in range(1, S4.longest + 1):
            for names in (("x",), ("y",), ("x", "y")):
                down, lift = contact(7, 0x19), contact(7, flags)
                injected(history, touch(0, [frame(down)]), with_minus_zero(lift, names, length))
                rest(history)
                injected(history, with_minus_zero(down, names, length), touch(0, [frame(lift)]))
                rest(history)
            injected(history, with_minus_zero(down, ("x", "y"), length), padded(frame(lift), more=length))
            rest(history)
    # With one of the two other than 0.
    injected(history, touch(0, [frame(contact(7, 0x19, 0, -9))]), with_minus_zero(contact(7, 0x04, 0, -9), ("x",), 2))
    injected(history, touch(0, [frame(contact(7, 0x19, 9, 0))]), with_minus_zero(contact(7, 0x04, 9, 0), ("y",), 1))


# Cancels, and damage between


def cancels(history):
    """Each cancels three contacts; padded lifts and updates are ignored then, and a padded opening frame opens."""
    here = [contact(1, 0x19, 1, 1), contact(2, 0x0A, 2, 2), contact(200, 0x19)]
    for more in PADDINGS:
        for bad in (
            padded(frame(contact(1, 0x04, 1, 2)), more=more),
            padded(frame(contact(2, 0x1A, 2, 2)), more=more),
            padded(frame(contact(9, 0x1A)), more=more),
            padded(frame(here[1], here[1]), more=more),
            padded(frame(*(contact(each, 0x0A) for each in range(10, 18))), more=more),
            with_minus_zero(contact(1, 0x04, 0, 1), ("x",), min(more, S4.longest)),
        ):
            injected(history, padded(frame(*here), more=more))
            answered(history, bad, cancelled=1)
            answered(history, padded(frame(contact(1, 0x1A, 1, 1)), frame(), more=more), ignored=2)
            answered(history, with_minus_zero(contact(200, 0x04), ("x", "y"), 1), ignored=1)
            opening, again = frame(contact(1, 0x19), contact(3, 0x19, -63, 63)), frame(contact(1, 0x19))
            answered(history, padded(frame(contact(2, 0x0A)), opening, again, opening, more=more), NONE, 2, 1, 1)
            rest(history)
    # What comes before the bad frame in its message stays.
    answered(history, padded(frame(*here), frame(contact(1, 0x1A, 5, 5)), frame(here[0]), frame()), NONE, 2, 1, 1)
    rest(history)


def faults():
    """Padded messages that are refused, each with its number."""
    whole = contact(3, 0x0A, -63, 63, left=-63, top=63, right=0, bottom=0, orientation=127, pressure=63)
    fields = touch_fields(127, [frame(whole, offset=1)])
    names = [field.name for field in fields]
    for more in (1, corpus.MOST_PADDING):
        body = corpus.body_of(all_longer(fields, more))
        yield from ((5, corpus.message(3, body[:length])) for length in range(0, len(body), 3))
        yield 12, corpus.message(3, body + b"\0")
        yield 4, touch_of(all_longer(fields, more)) + b"\0"
        for number, name, value in (
            (7, "frameCount", 65),
            (5, "contactCount", 64),
            (8, "fieldsPresent", 8),
            (9, "contactFlags", 0x1B),
            (10, "orientation", 360),
            (10, "pressure", 65001),
        ):
            at = names.index(name)
            wrong = longer(integer_field(name, fields[at].kind, value), more)
            yield number, corpus.message(3, corpus.with_field(all_longer(fields, more), at, wrong.data))
    yield 2, touch_of(corpus.padded_to(many_fields(), 4097))


def many_fields():
    """Four contacts hover in 64 frames: 1,416 bytes that can be padded to over 4,096."""
    return touch_fields(0, [frame(*(contact(each, 0x0A) for each in range(3, 7)), offset=1)] * 64)


def faults_between(history):
    """A contact is down; nothing that is refused takes it away."""
    injected(history, padded(frame(contact(1, 0x19, 5, 6))))
    for number, faulty in faults():
        answered(history, faulty, number)
        injected(history, padded(frame(contact(1, 0x1A, 5, 6))))
    injected(history, padded(frame(contact(1, 0x04, 5, 6))))


def all_play(history):
    """From here on the history follows its receiver, padded messages and all."""
    history.era = eras.PRESSED
    rest(history)
    strokes(history)
    lifts_at_zero(history)
    cancels(history)
    faults_between(history)


# The first frame (refusal 11)


def first_frames(history, length, judged):
    """A padded 0 is an offset of 0 and a padded 1 is not; nothing that is refused is a first frame, nor is no frame."""
    down = frame(contact(1, 0x19, 100, 50))
    answered(history, padded(time=9))
    for each in range(2, U8.longest + 1):
        for one in (0, 1, 31):
            head = b"\0\1\1" + corpus.in_length(integer_field("frameOffset", U8, one), each).data
            number = 11 if one and judged else NONE
            answered(history, corpus.message(3, head[:-1]), 5)
            answered(history, corpus.message(3, head), number or 5)
            answered(history, corpus.message(3, head + b"\1\x80\x08"), number or 8)
            answered(history, corpus.message(3, head + b"\1\0\0\0\x40\x1b"), number or 9)
            answered(history, corpus.message(3, head + b"\1\0\0\0\x40\x19\0"), number or 12)
    # 64 contacts, none of them there.
    answered(history, corpus.message(3, b"\0\1\x80\x40\x20\1"), 11 if judged else 5)
    if judged:
        for more in PADDINGS:
            answered(history, padded(down._replace(offset=1), more=more), 11)
            answered(history, padded(frame(offset=1), down, more=more), 11)
    answered(history, padded(time=9, more=3))
    fields = touch_fields(5, [down, frame(contact(1, 0x1A, 101, 51), offset=1)])
    at = [field.name for field in fields].index("frameOffset")
    if not judged:
        fields[at] = integer_field("frameOffset", U8, 1)
    fields[at] = corpus.in_length(fields[at], length)
    answered(history, touch_of(fields), injected=2)
    injected(history, padded(frame(contact(1, 0x1A, 0, 0), offset=1)), with_minus_zero(contact(1, 0x04), ("x", "y"), 1))


# Random use


def walk(history, rng, ids, steps, faults=0.15):
    """Each integer in any of its forms; damage, dismissals and messages without padding between."""
    for _ in range(steps):
        frames = some_frames(rng, history.keeper, ids, rng.choice((1, 1, 1, 2, 3, 5)), faults)
        time = corpus.random_value(rng, U4) if rng.random() < 0.2 else 3
        sent = touch_of(corpus.randomly_padded(rng, touch_fields(time, frames)))
        way = rng.random()
        if way < 0.7:
            history.send(sent)
        elif way < 0.85:
            history.send(corpus.damaged(rng, sent))
        elif way < 0.92:
            history.send(dismiss(rng.choice(list(history.keeper.active) or ids)))
        else:
            history.send(touch(time, frames))
