"""Boat list buttons (request #105): which button a touch meant, from the records."""

from dataclasses import dataclass, field
from typing import NamedTuple, Optional

from . import house
from .keeper import ENGAGED, NEXT_STATE, OUT
from .output import put
from .refusals import BAD_RECORD, NONE, Refused, refuse_unless

PRESS = 0x19
# "With no cancel between": 0x24 and kind 2 end a press too, but with no choice.
LIFTS = (0x04, 0x0C)


class Button(NamedTuple):
    """A rectangle with an item number and a mark: 0 is hidden, anything else shown."""

    item: int
    left: int
    top: int
    right: int
    bottom: int
    shown: int


class Held(NamedTuple):
    """A contact's state and the place of the button that it pressed; None is no button."""

    state: str
    pressed: Optional[int]


OUT_OF_RANGE = Held(OUT, None)


@dataclass(frozen=True)
class Label:
    """What is "kept from call to call; at first all are out". 'held' has only the contacts that are not out."""

    held: dict = field(default_factory=dict)


class Choice(NamedTuple):
    id: int
    item: int


class Chosen(NamedTuple):
    """The answer. A refusal has count 0."""

    refusal: int
    count: int


# The list of buttons


def set_shown(buttons, place, shown):
    """Whether there is such a button: "changing that one button in the lent list and no other"."""
    if place >= len(buttons):
        return False
    buttons[place] = buttons[place]._replace(shown=shown)
    return True


def button_at(buttons, x, y):
    """The place: "a point is in the first shown button that holds it, else in none"."""
    return next((place for place, each in enumerate(buttons) if each.shown and holds(each, x, y)), None)


def holds(button, x, y):
    """So a button whose left is not below its right, or top not below its bottom, holds no point."""
    # "Left and top edges are inside, right and bottom outside."
    return button.left <= x < button.right and button.top <= y < button.bottom


# The records


def choose(label, buttons, records, choices):
    """The label after the records, and the answer; the choices go into the lent list.

    14 over all records, then 13: "either changes nothing".
    """
    try:
        after, chosen = judge(label, buttons, records)
        put(choices, chosen)
    except Refused as refused:
        return label, Chosen(refused.number, 0)
    return after, Chosen(NONE, len(chosen))


def judge(label, buttons, records):
    """What the records leave, and the choices "in record order".

    One record is taken after the other, so an id that is in a frame twice goes on from where its first record left it.
    """
    held, chosen = dict(label.held), []
    for one in contacts_of(records):
        before = held.pop(one.id, OUT_OF_RANGE)
        after = step(buttons, before, one)
        if chooses(buttons, before, one):
            chosen.append(Choice(one.id, buttons[before.pressed].item))
        if after.state != OUT:
            held[one.id] = after
    return Label(held), chosen


def contacts_of(records):
    """The records but for the heads, each well formed, and kind 1 just where a head's count makes one due.

    So every head is followed by its count of contacts, and kinds 2 and 3 stand between frames.
    """
    refuse_unless(len(records) % house.LENGTH == 0, BAD_RECORD)
    due = 0
    for at in range(0, len(records), house.LENGTH):
        record = records[at : at + house.LENGTH]
        refuse_unless(house.well_formed(record), BAD_RECORD)
        kind = house.kind_of(record)
        refuse_unless((kind == house.CONTACT_KIND) == (due > 0), BAD_RECORD)
        if kind == house.HEAD_KIND:
            due = house.unpack(record).count
            continue
        due = max(due - 1, 0)
        yield house.unpack(record)
    refuse_unless(due == 0, BAD_RECORD)


def step(buttons, before, one):
    """The state table alone is asked: positions are not compared with stored ones."""
    refuse_unless(before.state in NEXT_STATE[one.flags], BAD_RECORD)
    state = NEXT_STATE[one.flags][before.state]
    if one.flags == PRESS:
        return Held(state, button_at(buttons, one.x, one.y))
    # Where a finger goes while it is down does not matter.
    return Held(state, before.pressed if state == ENGAGED else None)


def chooses(buttons, before, one):
    """It "ends that by 0x04 or 0x0C inside the same one, then shown too"; the same one is the same place."""
    return (
        one.flags in LIFTS
        and before.pressed is not None
        and button_at(buttons, one.x, one.y) == before.pressed
    )
