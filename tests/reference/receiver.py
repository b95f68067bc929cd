"""The session host's receiver (rules: "Contact states"; [MS-RDPEI] 3.1.1.1, 3.2.5.2, 3.2.5.3, 3.2.5.6)."""

from dataclasses import dataclass, replace
from typing import NamedTuple

from . import house, messages
from .keeper import (
    ENGAGED,
    Keeper,
    active_after,
    active_without,
    conforms,
    hovers,
    ignores_time,
    judges_first_offset,
    with_settings,
)
from .output import put
from .refusals import NONE, Refused

DOWN_FLAGS = 0x19
HOVER_FLAGS = 0x0A
# An id that a frame lists last with one of these leaves the set of held ids.
LEAVING_FLAGS = (0x02, 0x22, 0x04, 0x24)

INJECTED = "injected"
IGNORED = "ignored"
CANCELLED = "cancelled"


@dataclass(frozen=True)
class Receiver(Keeper):
    """A fresh one runs. 'held' has the ids that a hovering frame must not have to open; none while running."""

    running: bool = True
    held: frozenset = frozenset()


class Answer(NamedTuple):
    """A refusal has every other field 0."""

    refusal: int = NONE
    injected: int = 0
    ignored: int = 0
    cancelled: int = 0
    encode_time: int = 0
    records: int = 0


def receive(receiver, message, output):
    """One message. A refusal leaves the receiver and the output as they were."""
    try:
        after, answer, records = judge(receiver, message)
        put(output, b"".join(records))
    except Refused as refused:
        return receiver, Answer(refused.number)
    return after, answer._replace(records=len(records))


def judge(receiver, message):
    """Checks 1 to 12, and what the message leaves and writes where there is room."""
    taken = (messages.TOUCH, messages.DISMISS) if receiver.ready else (messages.CLIENT_READY,)
    event, body = messages.open_message(message, taken)
    if event == messages.CLIENT_READY:
        return accept_ready(receiver, messages.client_ready_body(body))
    if event == messages.DISMISS:
        return dismiss(receiver, messages.dismiss_body(body))
    return accept_touch(receiver, messages.touch_body(body, judges_first_offset(receiver)))


def accept_ready(receiver, ready):
    return with_settings(receiver, ready), Answer(), []


def accept_touch(receiver, touch):
    if ignores_time(receiver):
        touch = without_time(touch)
    # The mark goes with the message, whatever becomes of its frames.
    if touch.frames:
        receiver = replace(receiver, before_first_frame=False)
    counts = {INJECTED: 0, IGNORED: 0, CANCELLED: 0}
    records = []
    for frame in touch.frames:
        receiver, verdict, written = frame_step(receiver, frame)
        counts[verdict] += 1
        records += written
    return receiver, Answer(encode_time=touch.encode_time, **counts), records


def without_time(touch):
    return messages.Touch(0, tuple(frame._replace(offset=0) for frame in touch.frames))


def frame_step(receiver, frame):
    """A whole frame is judged before any of it is written."""
    if not receiver.running and not opening(frame, receiver.held):
        return replace(receiver, held=held_after(receiver.held, frame)), IGNORED, []
    # What was held before is forgotten, whatever becomes of the frame.
    if conforms(receiver, frame):
        after = replace(receiver, running=True, held=frozenset(), active=active_after(receiver, frame))
        return after, INJECTED, messages.frame_records(frame)
    held = held_after(frozenset(receiver.active), frame)
    return replace(receiver, running=False, held=held, active={}), CANCELLED, cancel_records(receiver)


# Ignoring (request #106)


def opening(frame, held):
    """All contacts press, or press or hover with no held id among them; the pressing ones' ids count too."""
    flags = {each.flags for each in frame.contacts}
    ids = {each.id for each in frame.contacts}
    return flags == {DOWN_FLAGS} or (flags in ({HOVER_FLAGS}, {HOVER_FLAGS, DOWN_FLAGS}) and ids.isdisjoint(held))


def held_after(held, frame):
    """The frame's ids join first; of an id that is in it twice the last flags say whether it leaves."""
    last_flags = {each.id: each.flags for each in frame.contacts}
    leaving = {contact_id for contact_id, flags in last_flags.items() if flags in LEAVING_FLAGS}
    return held.union(last_flags).difference(leaving)


# Records of kinds 2 and 3


def cancel_records(receiver):
    """For each active contact by rising id a record of kind 2, at its stored position."""
    return [cancel_record(contact_id, place) for contact_id, place in sorted(receiver.active.items())]


def cancel_record(contact_id, place):
    engaged = place.state == ENGAGED
    flags = house.CANCEL_ENGAGED_FLAGS if engaged else house.CANCEL_HOVERING_FLAGS
    return house.pack_contact(house.Contact(house.CANCEL_KIND, flags, 0, contact_id, place.x, place.y))


def dismiss(receiver, contact_id):
    """Only a hovering contact goes out of range ([MS-RDPEI] 3.2.5.6); any id is held no more."""
    after = replace(receiver, held=receiver.held - {contact_id})
    if not hovers(receiver, contact_id):
        return after, Answer(), []
    place = receiver.place(contact_id)
    record = house.Contact(house.DISMISSAL_KIND, house.DISMISSAL_FLAGS, 0, contact_id, place.x, place.y)
    after = replace(after, active=active_without(receiver, contact_id))
    return after, Answer(), [house.pack_contact(record)]
