"""What both ends keep, and the one place where frames are judged (rules: "Contact states"; [MS-RDPEI] 3.1.1.1)."""

from dataclasses import dataclass, field, replace
from typing import NamedTuple

from . import messages

OUT = "out"
HOVERING = "hovering"
ENGAGED = "engaged"

# contactFlags by the state before the frame; a state that is not listed is illegal.
NEXT_STATE = {
    0x0A: {OUT: HOVERING, HOVERING: HOVERING},
    0x19: {OUT: ENGAGED, HOVERING: ENGAGED},
    0x1A: {ENGAGED: ENGAGED},
    0x0C: {ENGAGED: HOVERING},
    0x04: {ENGAGED: OUT},
    0x24: {ENGAGED: OUT},
    0x02: {HOVERING: OUT},
    0x22: {HOVERING: OUT},
}

# A contact that leaves the surface cannot move while it does ([MS-RDPEI] 3.1.1.1).
POSITION_KEPT = (0x0C, 0x04, 0x24)


class Place(NamedTuple):
    """A contact's state and stored position."""

    state: str
    x: int
    y: int


OUT_OF_RANGE = Place(OUT, 0, 0)


@dataclass(frozen=True)
class Keeper:
    """A fresh one: unready, before its first frame, settings 0, all contacts out.

    'active' has the active contacts only; every other id is out of range at 0, 0.
    """

    ready: bool = False
    flags: int = 0
    version: int = 0
    max_touch_contacts: int = 0
    before_first_frame: bool = True
    active: dict = field(default_factory=dict)

    def place(self, contact_id):
        return self.active.get(contact_id, OUT_OF_RANGE)


# Settings


def with_settings(keeper, ready):
    return replace(
        keeper,
        ready=True,
        flags=ready.flags,
        version=ready.version,
        max_touch_contacts=ready.max_touch_contacts,
    )


def ignores_time(keeper):
    """READY_FLAGS_DISABLE_TIMESTAMP_INJECTION ([MS-RDPEI] 2.2.3.2)."""
    return keeper.flags & messages.DISABLE_TIMESTAMP_INJECTION != 0


def judges_first_offset(keeper):
    return keeper.before_first_frame and not ignores_time(keeper)


# Frames


def conforms(keeper, frame):
    return (
        no_id_twice(frame)
        and each_legal(keeper, frame)
        and positions_obey(keeper, frame)
        and len(active_after(keeper, frame)) <= keeper.max_touch_contacts
    )


def no_id_twice(frame):
    return len({each.id for each in frame.contacts}) == len(frame.contacts)


def each_legal(keeper, frame):
    return all(keeper.place(each.id).state in NEXT_STATE[each.flags] for each in frame.contacts)


def positions_obey(keeper, frame):
    return all(position_obeys(keeper.place(each.id), each) for each in frame.contacts)


def position_obeys(place, contact):
    return contact.flags not in POSITION_KEPT or (contact.x, contact.y) == (place.x, place.y)


def active_after(keeper, frame):
    """The active contacts that a frame leaves whose contacts are all legal."""
    active = dict(keeper.active)
    for each in frame.contacts:
        state = NEXT_STATE[each.flags][keeper.place(each.id).state]
        if state == OUT:
            active.pop(each.id, None)
        else:
            active[each.id] = Place(state, each.x, each.y)
    return active


# Dismissals


def hovers(keeper, contact_id):
    return keeper.place(contact_id).state == HOVERING


def active_without(keeper, contact_id):
    return {other: place for other, place in keeper.active.items() if other != contact_id}
