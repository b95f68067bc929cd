"""Calls of a panel with several faults at once, which show the order of the checks.

The number that each must be refused with is worked out from the orders below and not taken from the reference.
"""

from itertools import combinations, product

import corpus
from corpus import contact, frame, records_of
from panels import AMPLE, V100, V101, dismiss, ready, take, touch_records
from reference import house, messages
from reference.integers import S2, S4
from reference.keeper import hovers, judges_first_offset
from reference.refusals import NONE

TAKE_ORDER = (1, 2, 3, 4, 5, 8, 12)
READY_ORDER = (15, 8, 13)
TOUCH_ORDER = (10, 14, 15, 16, 17, 11, 7, 2, 13)
DISMISS_ORDER = (15, 17, 13)


def fault_sets(numbers):
    """Each fault by itself, with each other, and all at once."""
    return [*combinations(numbers, 1), *combinations(numbers, 2), tuple(numbers)]


def first_of(order, faults):
    return next((number for number in order if number in faults), NONE)


# Messages that arrive

# What one message cannot have together: under 6 bytes there is no length and no body, and over 4,096 bytes nothing is
# missing; a version that is cut short has no value, and nothing after it.
NEVER_TOGETHER = ({1, 2}, {1, 4}, {1, 5}, {1, 8}, {1, 12}, {2, 5}, {5, 8}, {5, 12})


def faulty_arrivals(calls, good, numbers=TAKE_ORDER):
    """The good message is one that the panel takes now. 5 and 8 need a body, and suspend and resume have none."""
    for faults in fault_sets(numbers):
        if not any(pair <= set(faults) for pair in NEVER_TOGETHER):
            calls.refused(first_of(TAKE_ORDER, faults), take(faulty_arrival(good, faults)))


def faulty_arrival(good, faults):
    event, body = good[0], good[messages.HEADER_LENGTH :]
    if 3 in faults:
        event += 8
    if 8 in faults:
        body = body[:-2] + b"\2\0"
    if 5 in faults:
        body = body[:-1]
    if 12 in faults:
        body += b"\0"
    if 2 in faults:
        body += bytes(messages.LONGEST_MESSAGE + 1 - messages.HEADER_LENGTH - len(body))
    length = messages.HEADER_LENGTH + len(body)
    message = corpus.message(event, body, length + 1 if 4 in faults else length)
    return message[: messages.HEADER_LENGTH - 1] if 1 in faults else message


# Client ready


SETTINGS = ((0, V101), (3, V100), (4, V101), (1 << 31, V100), (0, 0x00010002), (7, 0))


def faulty_readies(calls, most):
    """Bad flags, a bad version, too little room: each alone and with the others."""
    due = calls.panel.server_ready and not calls.panel.ready
    for (flags, version), room in product(SETTINGS, (AMPLE, 16, 15, 0)):
        faults = set() if due else {15}
        faults |= {8} if flags > 3 or version not in (V100, V101) else set()
        faults |= {13} if room < 16 else set()
        if faults:
            calls.refused(first_of(READY_ORDER, faults), ready(flags, version, most, room))


# Touch


# Three contacts that are out of range whenever these are tried.
TOUCH_IDS = (9, 10, 11)


def faulty_touches(calls, numbers=(10, 14, 17, 11, 7, 2, 13)):
    """15 and 16 come by the panel's state. What has no fault but 11 is accepted where 11 is not judged.

    Any two faults can come together, over the panel's states. 2 never comes without 13: no room is over 4,096 bytes.
    """
    for faults in fault_sets(numbers):
        have = set(faults)
        have |= set() if calls.panel.ready else {15}
        have |= {16} if calls.panel.suspended else set()
        have -= set() if judges_first_offset(calls.panel) else {11}
        calls.refused(first_of(TOUCH_ORDER, have), faulty_touch(faults))


def faulty_touch(faults):
    """Contacts come into range and leave it, in frames that conform but for the faults."""
    frames = there_and_back(TOUCH_IDS[:1])
    if 2 in faults:
        frames = there_and_back(TOUCH_IDS, 63 if 7 in faults else 56)
    elif 7 in faults:
        frames += [frame()] * 63
    if 11 in faults:
        frames[0] = frames[0]._replace(offset=1)
    if 17 in faults:
        frames.append(frame(contact(TOUCH_IDS[0], 0x1A, 5, 6)))
    records = records_of(frames)
    if 14 in faults:
        records += house.pack_contact(contact(TOUCH_IDS[0], 0x0B, 5, 6))
    # The shortest of these messages has 22 bytes.
    return touch_records(records, 1 << 30 if 10 in faults else 0, 21 if 13 in faults else AMPLE)


def there_and_back(ids, updates=0):
    """Between coming and going, updates of the most bytes."""
    wide = {"left": -S2.highest, "top": S2.highest, "right": -64, "bottom": 64, "orientation": 359, "pressure": 65000}
    come = frame(*(contact(each, 0x0A, 5, 6) for each in ids))
    update = frame(*(contact(each, 0x0A, -S4.highest, S4.highest, **wide) for each in ids))
    go = frame(*(contact(each, 0x02, 5, 6) for each in ids))
    return [come] + [update] * updates + [go]


# Dismiss


def faulty_dismissals(calls, ids):
    """Too little room, for each of the contacts; what has no fault is left out. Where it is 15, no contact hovers."""
    for contact_id, room in product(ids, (AMPLE, 7, 6, 0)):
        faults = set() if calls.panel.ready else {15}
        faults |= set() if hovers(calls.panel, contact_id) else {17}
        faults |= {13} if room < 7 else set()
        if faults:
            calls.refused(first_of(DISMISS_ORDER, faults), dismiss(contact_id, room))
