"""Hovering hands after a cancel, for one receiver (request #106).

What each message must answer and which ids are held after it is said beforehand, but for the random ones.
"""

import itertools
from collections import Counter

import corpus
import eras
from corpus import contact, dismiss, frame, message, touch, touch_fields
from histories import answered, conforming, offset, placed, rest, spoiled
from reference import house, integers, receiver
from reference.receiver import CANCELLED, IGNORED, INJECTED, LEAVING_FLAGS
from reference.refusals import NONE

ALL_IDS = range(256)

# Two hands, one that comes later, and one whose update cancels, since it is out of range.
ONE, OTHER, NEW, ODD = 7, 8, 5, 99


# Frames


def lists(flags, *ids):
    return frame(*(contact(each, flags, each, 9) for each in ids))


def hover(*ids):
    return lists(0x0A, *ids)


def press(*ids):
    return lists(0x19, *ids)


def joined(*frames):
    """One frame with the contacts of several."""
    return frame(*(each for one in frames for each in one.contacts))


def in_order(contact_id, *flags):
    """One id several times."""
    return joined(*(lists(each, contact_id) for each in flags))


OFFENDING = lists(0x1A, ODD)

# As many as a frame held before request #107.
GROUPS = [ALL_IDS[at : at + 63] for at in range(0, 256, 63)]


# Sending


def becomes(history, *steps):
    """Frames of one message, each with what becomes of it."""
    counts = Counter(verdict for verdict, _ in steps)
    sent = touch(0, [one for _, one in steps])
    answered(history, sent, NONE, counts[INJECTED], counts[IGNORED], counts[CANCELLED])


def each_becomes(history, *steps):
    """Each frame is a message of its own."""
    for step in steps:
        becomes(history, step)


def ignored(history, *frames):
    each_becomes(history, *((IGNORED, one) for one in frames))


def holds(history, *ids):
    assert history.receiver.held == set(ids), history.receiver.held


def cancelled(history, hovering=(ONE,), pressing=()):
    """Hands that are active when an odd update cancels them; all of these ids are held."""
    rest(history)
    becomes(history, (INJECTED, joined(hover(*hovering), press(*pressing))), (CANCELLED, OFFENDING))
    holds(history, *hovering, *pressing, ODD)


def opens_if(condition):
    return INJECTED if condition else IGNORED


# Ids that leave


def hovering_hands(history):
    """A hand hovers at the cancel: it opens again only after it has left."""
    for flags in house.FLAGS:
        cancelled(history)
        ignored(history, hover(ONE), hover(ODD), hover(ODD, ONE), frame())
        holds(history, ONE, ODD)
        # The update keeps the frame of a press from opening.
        left = flags in LEAVING_FLAGS
        each_becomes(history, (IGNORED, joined(lists(flags, ONE), OFFENDING)), (opens_if(left), hover(ONE)))
        if not left:
            holds(history, ONE, ODD)
            each_becomes(history, (INJECTED, hover(NEW)))
        holds(history)


def pressing_hands(history):
    """A hand is down at the cancel; a lift into hovering does not let it leave."""
    for flags in house.FLAGS:
        cancelled(history, (OTHER,), (ONE,))
        left = flags in LEAVING_FLAGS
        again = (opens_if(left), hover(ONE)), (INJECTED, hover(NEW))
        becomes(history, (IGNORED, joined(OFFENDING, lists(flags, ONE))), *again)
    for flags in LEAVING_FLAGS:
        cancelled(history, (ONE, OTHER), (3,))
        ignored(history, lists(flags, OTHER), hover(ONE, OTHER), lists(flags, OTHER, 3))
        holds(history, ONE, ODD)
        each_becomes(history, (IGNORED, joined(hover(OTHER), press(ONE))), (INJECTED, joined(hover(NEW), press(3))))


def offending_frames(history):
    """The frame that is cancelled: its ids join, and those leave that it lists last as leaving."""
    for flags in (0x1A, 0x0C, 0x04, 0x24, 0x02, 0x22):
        left = flags in LEAVING_FLAGS
        rest(history)
        each_becomes(history, (CANCELLED, lists(flags, ODD)))
        holds(history, *[] if left else [ODD])
        each_becomes(history, (opens_if(left), hover(ODD)), (INJECTED, hover(NEW)))
    for hovering, pressing, bad, held in (
        ([ONE], [], joined(lists(0x02, ONE), OFFENDING), [ODD]),
        ([ONE], [], joined(OFFENDING, lists(0x22, ONE)), [ODD]),
        ([ONE], [], joined(hover(ONE), lists(0x04, ODD)), [ONE]),
        ([ONE], [OTHER], joined(lists(0x02, ONE), lists(0x24, ODD)), [OTHER]),
        ([ONE], [OTHER], joined(lists(0x02, ONE), lists(0x04, OTHER), lists(0x22, ODD)), []),
        # Lifts beside the stored position.
        ([ONE], [OTHER], frame(contact(OTHER, 0x04)), [ONE]),
        ([ONE], [OTHER], frame(contact(OTHER, 0x24)), [ONE]),
        ([ONE], [OTHER], frame(contact(OTHER, 0x0C)), [ONE, OTHER]),
        ([ONE], [OTHER], hover(*range(20, 29)), [ONE, OTHER, *range(20, 29)]),
        ([ONE], [OTHER], joined(press(*range(20, 31)), lists(0x02, ONE)), [OTHER, *range(20, 31)]),
    ):
        rest(history)
        each_becomes(history, (INJECTED, joined(hover(*hovering), press(*pressing))), (CANCELLED, bad))
        holds(history, *held)
        ignored(history, *(hover(each) for each in held[:2]))
        free = [each for each in (ONE, OTHER, ODD, NEW) if each not in held]
        each_becomes(history, (INJECTED, hover(*free)))


def ids_twice(history):
    """Of an id that is in a frame twice the last flags decide, in the frame that is cancelled and in those ignored."""
    rest(history)
    for first, last in itertools.product(house.FLAGS, repeat=2):
        left = last in LEAVING_FLAGS
        again = (opens_if(left), hover(ONE)), (INJECTED, hover(NEW))
        leave = INJECTED, lists(0x02, *[ONE, NEW] if left else [NEW])
        becomes(history, (CANCELLED, in_order(ONE, first, last)), *again, leave)
        # Two presses open, whoever is held.
        verdict = CANCELLED if first == last == 0x19 else IGNORED
        becomes(history, (CANCELLED, lists(0x1A, ONE)), (verdict, in_order(ONE, first, last)), *again, leave)
    for flags, left in (
        ((0x02, 0x1A, 0x22), True),
        ((0x1A, 0x04, 0x1A), False),
        ((0x04, 0x24, 0x0C), False),
        ((0x0A, 0x0A, 0x02), True),
        ((0x02, 0x02, 0x0A), False),
    ):
        cancelled(history)
        between = joined(in_order(ONE, *flags[:2]), lists(0x04, ODD), lists(flags[2], ONE))
        becomes(history, (IGNORED, between), (opens_if(left), hover(ONE, ODD)), (INJECTED, hover(NEW)))


def dismissals(history):
    """A dismissal lets an id leave and writes nothing; one of another id, or a refused one, does nothing."""
    for first, second in ((ONE, OTHER), (0, 255), (255, 0)):
        cancelled(history, (first, second))
        answered(history, dismiss(NEW))
        holds(history, first, second, ODD)
        assert history.send(dismiss(first)).records == 0
        holds(history, second, ODD)
        ignored(history, hover(second), hover(first, second))
        holds(history, first, second, ODD)
        for contact_id in (first, second, first, ODD):
            answered(history, dismiss(contact_id))
        holds(history)
        each_becomes(history, (INJECTED, hover(first, second)))
    # Joining again behind a dismissal.
    cancelled(history)
    answered(history, dismiss(ONE))
    ignored(history, lists(0x1A, ONE), hover(ONE))
    answered(history, dismiss(ONE))
    each_becomes(history, (INJECTED, hover(ONE)))
    # Dismissed before the cancel.
    rest(history)
    each_becomes(history, (INJECTED, hover(ONE, OTHER)))
    assert history.send(dismiss(ONE)).records == 1
    each_becomes(history, (CANCELLED, OFFENDING), (IGNORED, hover(OTHER)), (INJECTED, hover(ONE)))
    cancelled(history)
    one = bytes([ONE])
    for number, wrong in (
        (3, message(7, one)),
        (4, dismiss(ONE) + b"\0"),
        (5, message(6, b"")),
        (12, message(6, one * 2)),
    ):
        answered(history, wrong, number)
        becomes(history, (IGNORED, hover(ONE)))
    holds(history, ONE, ODD)


# Frames that open


def opened_and_cancelled(history):
    """Exactly the ids of the frame that opened are held then."""
    crowd = range(20, 21 + history.receiver.max_touch_contacts)
    for bad in (
        hover(*crowd),
        press(*crowd),
        joined(hover(*crowd[:-1]), press(crowd[-1])),
        hover(20, 20),
        press(20, 20),
        in_order(20, 0x0A, 0x19),
        in_order(20, 0x19, 0x0A),
        joined(hover(20), press(21), hover(20)),
        hover(*crowd, 20),
    ):
        cancelled(history, (ONE, OTHER))
        each_becomes(history, (CANCELLED, bad))
        holds(history, *(each.id for each in bad.contacts))
        ignored(history, hover(20), joined(press(20), hover(ONE)))
        each_becomes(history, (INJECTED, hover(OTHER, ODD)))
    cancelled(history, (ONE, OTHER))
    each_becomes(history, (CANCELLED, press(ONE, ONE)), (IGNORED, hover(ONE)), (INJECTED, hover(OTHER, ODD)))
    # Each frees the other, until the same one comes twice.
    cancelled(history)
    becomes(history, *[(CANCELLED, hover(20, 20)), (CANCELLED, hover(21, 21))] * 32)
    again = (CANCELLED, hover(20, 20)), (IGNORED, hover(20, 20)), (INJECTED, hover(21))
    becomes(history, (IGNORED, hover(21, 21)), *again)


def presses_and_hovering(history):
    """In a mixed frame no id may be held, the pressing ones' included; presses alone open, whoever is held."""
    for mixed, opens in (
        (joined(press(NEW), hover(4)), True),
        (joined(hover(4), press(NEW, 3)), True),
        (joined(press(ONE), hover(4)), False),
        (joined(press(NEW), hover(ONE)), False),
        (joined(press(ONE), hover(OTHER)), False),
        (joined(press(NEW, ODD), hover(4)), False),
        (hover(NEW, ONE), False),
        (press(ONE), True),
        (press(ONE, OTHER, ODD), True),
        (press(NEW, ONE), True),
    ):
        cancelled(history, (ONE, OTHER))
        each_becomes(history, (opens_if(opens), mixed))
        if not opens:
            ids = [each.id for each in mixed.contacts]
            holds(history, ONE, OTHER, ODD, *ids)
            ignored(history, *(hover(each) for each in ids))
            each_becomes(history, (INJECTED, press(*ids)))
    # An opening frame forgets whoever was held.
    cancelled(history, (ONE, OTHER))
    each_becomes(history, (INJECTED, hover(NEW)), (CANCELLED, lists(0x1A, 98)))
    holds(history, NEW, 98)
    each_becomes(history, (IGNORED, hover(NEW)), (INJECTED, hover(ONE, OTHER, ODD)))


def refused_between(history):
    """A refused message changes nothing, whatever its first frames would do: the hand that leaves in it is held."""
    cancelled(history)
    for frames in (
        (lists(0x02, ONE), hover(NEW)),
        (hover(NEW), lists(0x04, NEW)),
        (lists(0x1A, NEW), lists(0x22, ODD)),
    ):
        fields = touch_fields(3, frames)
        body, last = corpus.body_of(fields), len(fields) - 1
        for number, wrong in (
            (5, body[:-1]),
            (9, corpus.with_field(fields, last, integers.encode(integers.U4, 0x1B))),
            (8, corpus.with_field(fields, last - 3, integers.encode(integers.U2, 8))),
            (12, body + b"\0"),
        ):
            answered(history, message(3, wrong), number)
            holds(history, ONE, ODD)
        answered(history, message(3, body, len(body)), 4)
        ignored(history, hover(ONE))
    each_becomes(history, (INJECTED, hover(NEW)))


# All ids


def all_held(history):
    """Ignored frames that list every id."""
    cancelled(history)
    becomes(history, *((IGNORED, lists(0x1A, *group)) for group in GROUPS[:2]))
    ignored(history, *(joined(hover(ONE), lists(0x0C, *group[:62])) for group in GROUPS[2:]))
    becomes(history, *((IGNORED, hover(ONE, group[-1])) for group in GROUPS))
    holds(history, *ALL_IDS)


def all_ids(history):
    """None of them opens by hovering; one that leaves does, and presses do."""
    all_held(history)
    for at in range(0, 256, 64):
        becomes(history, *((IGNORED, hover(each)) for each in ALL_IDS[at : at + 64]))
    ignored(history, *(joined(hover(*group[:-1]), press(group[-1])) for group in GROUPS))
    each_becomes(history, (INJECTED, press(*ALL_IDS[250:])))
    for contact_id in (0, 128, 255):
        all_held(history)
        ignored(history, lists(0x02, contact_id))
        holds(history, *(each for each in ALL_IDS if each != contact_id))
        steps = [(IGNORED, hover(each)) for each in ALL_IDS if each != contact_id]
        becomes(history, *steps[:60])
        becomes(history, *steps[-60:], (INJECTED, hover(contact_id)))
    all_held(history)
    ignored(history, *(lists(0x04, *group) for group in GROUPS))
    holds(history)
    each_becomes(history, (INJECTED, hover(0, ONE, 255)))


def all_hover(history):
    """All 256 hover at the cancel, where so many may."""
    for flags in LEAVING_FLAGS:
        rest(history)
        each_becomes(history, *((INJECTED, hover(*group)) for group in GROUPS), (CANCELLED, hover(ONE, ONE)))
        holds(history, *ALL_IDS)
        ignored(history, *(hover(*group) for group in GROUPS))
        ignored(history, lists(flags, *GROUPS[1]), hover(*GROUPS[1][1:], 0), lists(flags, *GROUPS[1]))
        each_becomes(history, (INJECTED, hover(*GROUPS[1])))


def hand_made(history):
    """For a receiver that takes ten contacts."""
    hovering_hands(history)
    pressing_hands(history)
    offending_frames(history)
    ids_twice(history)
    dismissals(history)
    opened_and_cancelled(history)
    presses_and_hovering(history)
    refused_between(history)
    all_ids(history)


def none_allowed(history):
    """With maxTouchContacts 0 every frame that opens is cancelled, and frees the ids that were held."""
    each_becomes(history, (CANCELLED, OFFENDING))
    ignored(history, hover(ODD), frame())
    each_becomes(history, (CANCELLED, hover(ONE)), (CANCELLED, hover(ODD)))
    ignored(history, hover(ODD, ONE), hover(ONE))
    each_becomes(history, (CANCELLED, press(ONE)), (CANCELLED, hover(ODD)))
    in_turn = (CANCELLED, hover(ONE)), (IGNORED, frame()), (IGNORED, hover(ONE)), (CANCELLED, hover(ODD))
    becomes(history, *in_turn * 16)
    answered(history, dismiss(ODD))
    holds(history)
    each_becomes(history, (CANCELLED, hover(ODD)), (IGNORED, lists(0x22, ODD)), (CANCELLED, hover(ODD)))


# Random use


def split_ids(keeper, ids):
    """Those that are held, and those that are not."""
    return [each for each in ids if each in keeper.held], [each for each in ids if each not in keeper.held]


def some(rng, ids, most=3):
    return rng.sample(ids, min(len(ids), rng.randint(1, most)))


def at_the_edge(rng, keeper, ids):
    """A frame while ignoring that opens or just does not, or lets ids join and leave."""
    held, free = split_ids(keeper, ids)
    way = rng.random()
    chosen, flags = some(rng, free or ids), (0x0A, 0x0A, 0x19)
    if way < 0.20:
        chosen.insert(rng.randrange(len(chosen) + 1), rng.choice(held or ids))
    elif way < 0.28:
        chosen.append(rng.choice(chosen))
    elif way < 0.32:
        chosen = (free or ids)[: min(eras.most_contacts(keeper) - 1, keeper.max_touch_contacts + 1)]
    elif way < 0.55:
        chosen, flags = some(rng, held or ids), LEAVING_FLAGS
    elif way < 0.75:
        chosen, flags = [rng.choice(ids) for _ in range(rng.randint(0, 4))] + some(rng, ids), house.FLAGS
    elif way < 0.80:
        chosen, flags = some(rng, ids), (0x19,)
    return frame(*(placed(rng, keeper, each, rng.choice(flags)) for each in chosen), offset=offset(rng))


def some_frames(rng, keeper, ids, count, faults):
    """Frames of one message, each chosen by what the ones before it leave."""
    frames = []
    for _ in range(count):
        running = spoiled if rng.random() < faults else conforming
        frames.append((running if keeper.running else at_the_edge)(rng, keeper, ids))
        keeper, _, _ = receiver.frame_step(keeper, frames[-1])
    return frames


def walk(history, rng, ids, steps, faults=0.5):
    """Cancels all the time; dismissals of held ids and of others, and damage between."""
    for _ in range(steps):
        frames = some_frames(rng, history.keeper, ids, rng.choice((1, 1, 1, 2, 3, 5)), faults)
        way = rng.random()
        if way < 0.80:
            history.send(touch(3, frames))
        elif way < 0.88:
            history.send(corpus.damaged(rng, touch(3, frames)))
        else:
            held, free = split_ids(history.keeper, ids)
            history.send(dismiss(rng.choice((rng.random() < 0.7 and held) or free or ids)))


def moved_hands(rng, keeper, hands, ids):
    """Contacts of some hands that come, move or go; there are never more hands than may be active."""
    contacts = []
    for contact_id in some(rng, ids):
        here, full = contact_id in hands, len(hands) >= keeper.max_touch_contacts
        if here and (full or rng.random() < 0.4):
            hands.discard(contact_id)
            contacts.append(placed(rng, keeper, contact_id, rng.choice((0x02, 0x22))))
        elif here or not full:
            hands.add(contact_id)
            contacts.append(placed(rng, keeper, contact_id, 0x0A))
    return contacts


def hovering_panel(history, rng, ids, steps):
    """A panel that never presses and knows of no cancel; now and then a frame has a fault."""
    hands = set()
    for _ in range(steps):
        contacts = moved_hands(rng, history.keeper, hands, ids)
        if contacts and rng.random() < 0.12:
            contacts.append(rng.choice((contacts[0], placed(rng, history.keeper, rng.choice(ids), 0x02))))
        history.send(touch(3, [frame(*contacts, offset=offset(rng))]))
        if hands and rng.random() < 0.08:
            gone = rng.choice(sorted(hands))
            hands.discard(gone)
            history.send(dismiss(gone))
