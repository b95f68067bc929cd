"""What happened over the calls of a label screen."""

from collections import Counter
from dataclasses import dataclass

import corpus
from reference import house, label
from reference.integers import S4
from reference.keeper import HOVERING, NEXT_STATE, OUT
from reference.refusals import BAD_RECORD, NO_ROOM, NONE, Refused

SINGLE_KINDS = {house.CANCEL_KIND: "a cancel", house.DISMISSAL_KIND: "a dismissal"}


@dataclass
class Press:
    """A press while it lasts."""

    place: int  # None: in no button
    point: tuple
    entry: int
    again: bool  # the second one of a contact that did not go out between
    wandered: bool = False  # over a point that is not in the pressed button
    hidden: bool = False  # the pressed button, at some time
    remarked: bool = False  # some mark has changed


class Coverage:
    def __init__(self):
        self.counts = Counter()
        self.table = set()  # kind, flags and state of records that were judged by the table
        self.entry = 0
        self.presses = {}  # by id
        self.lifted = set()  # ids that hover after a lift

    def watch(self, before, after, payload, text):
        """One entry: the screens before and after it, and its line."""
        self.entry += 1
        refusal, *rest = text.split(" ")
        self.counts[f"entries: {f'records, {refusal}' if rest else text}"] += 1
        if rest:
            self.watch_records(before, int.from_bytes(payload[1:3], "big"), payload[3:], int(refusal), int(rest[0]))
        elif text == "set" and payload[0] == 1:
            self.watch_list(after.buttons)
        elif text == "set":
            self.watch_marks(before.buttons, after.buttons)

    def watch_list(self, buttons):
        self.counts["lists of no button"] += len(buttons) == 0
        self.counts["lists of 64 buttons"] += len(buttons) == 64
        self.counts["lists while contacts are pressed"] += len(self.presses) > 0
        for each in buttons:
            self.counts["buttons"] += 1
            self.counts["buttons hidden from the start"] += each.shown == 0
            self.counts["buttons without a point"] += each.left >= each.right or each.top >= each.bottom
            self.counts["buttons with a side below 0"] += min(each[1:5]) < 0
            self.counts["buttons that reach farther than contacts"] += max(map(abs, each[1:5])) > S4.highest
        self.presses, self.lifted = {}, set()

    def watch_marks(self, before, after):
        for press in self.presses.values():
            press.remarked |= before != after
            press.hidden |= press.place is not None and not after[press.place].shown

    # Records

    def watch_records(self, screen, room, records, refusal, count):
        found = fault(screen.label, records)
        assert (found is not None) == (refusal == BAD_RECORD), (found, refusal)
        if refusal != NONE:
            self.watch_refusal(screen, room, records, refusal, found)
            return
        self.counts["choices"] += count
        self.counts["most choices of an entry"] = max(self.counts["most choices of an entry"], count)
        self.watch_room(room, count)
        states = dict(screen.label.held)
        for one in label.contacts_of(records):
            each = states.get(one.id, label.OUT_OF_RANGE)
            self.table.add((one.kind, one.flags, each.state))
            self.watch_contact(screen.buttons, one, each.state)
            states[one.id] = label.step(screen.buttons, each, one)
        self.watch_twice(records)

    def watch_room(self, room, count):
        if room == count:
            self.counts["room: none, and no choice" if room == 0 else "room: just enough"] += 1

    def watch_refusal(self, screen, room, records, refusal, found):
        needed = choices_before_fault(screen, records)
        if refusal == NO_ROOM:
            self.counts["13: one choice too many" if needed == room + 1 else "13: several choices too many"] += 1
            self.counts["13: no room at all"] += room == 0
            return
        self.counts[f"14: {found if isinstance(found, str) else 'state table'}"] += 1
        if not isinstance(found, str):
            self.table.add(found)
        self.counts["14 behind choices of the same entry"] += needed > 0
        self.counts["14 where there is no room either"] += needed > room

    def watch_twice(self, records):
        """Contacts whose id stands earlier in their frame."""
        earlier = set()
        for at in range(0, len(records), house.LENGTH):
            one = house.unpack(records[at : at + house.LENGTH])
            if isinstance(one, house.Head):
                earlier = set()
            elif one.kind == house.CONTACT_KIND:
                self.counts["contacts whose id is in the frame already"] += one.id in earlier
                earlier.add(one.id)

    # Contacts

    def watch_contact(self, buttons, one, state):
        place = label.button_at(buttons, one.x, one.y)
        if one.flags == label.PRESS:
            self.watch_press(buttons, one, place, state == HOVERING)
            self.watch_edges(buttons, one)
            return
        press = self.presses.get(one.id)
        if one.flags == 0x1A:
            press.wandered |= place != press.place
            return
        if one.flags == 0x0A:
            return
        self.presses.pop(one.id, None)
        self.lifted.discard(one.id)
        if one.flags in label.LIFTS:
            self.watch_lift(buttons, one, place, press)
            self.watch_edges(buttons, one)
        else:
            pressed = ", a button is pressed" if press and press.place is not None else ""
            self.counts[f"end by kind {one.kind}, 0x{one.flags:02X}{pressed}"] += 1

    def watch_press(self, buttons, one, place, hovering):
        holding = [each for each in buttons if label.holds(each, one.x, one.y)]
        shown = sum(each.shown != 0 for each in holding)
        word = "one of several" if shown > 1 else "one" if shown else "hidden ones alone" if holding else "none"
        self.counts[f"press in {word}"] += 1
        self.counts["press of a hovering contact"] += hovering
        self.presses[one.id] = Press(place, (one.x, one.y), self.entry, one.id in self.lifted)
        self.counts["most pressed at once"] = max(self.counts["most pressed at once"], len(self.presses))

    def watch_edges(self, buttons, one):
        """Presses and lifts on the edges of shown buttons, left and top, and right and bottom just outside."""
        for each in filter(lambda each: each.shown, buttons):
            on_first = label.holds(each, one.x, one.y) and (one.x == each.left or one.y == each.top)
            on_last = (one.x == each.right or one.y == each.bottom) and label.holds(
                each, one.x - (one.x == each.right), one.y - (one.y == each.bottom)
            )
            self.counts["points on a left or top edge"] += on_first
            self.counts["points on a right or bottom edge"] += on_last

    def watch_lift(self, buttons, one, place, press):
        if one.flags == 0x0C:
            self.lifted.add(one.id)
        if press.place is None or place != press.place:
            self.counts[f"no choice: {why_not(buttons, one, place, press)}"] += 1
            return
        point = (one.x, one.y)
        holding = [other for other, each in enumerate(buttons) if label.holds(each, *point)]
        for name, happened in (
            (f"by 0x{one.flags:02X}", True),
            ("pressed in an earlier entry", press.entry < self.entry),
            ("lifted at another point", press.point != point),
            ("after wandering out of the button", press.wandered),
            ("hidden between and shown again", press.hidden),
            ("other marks changed between", press.remarked and not press.hidden),
            ("of a second press", press.again),
            ("a hidden one lies above", holding[0] < place),
            ("a shown one lies below", any(other > place and buttons[other].shown for other in holding)),
            ("last of 64 buttons", place == 63),
        ):
            self.counts[f"choice: {name}"] += happened

    def report(self):
        for name, count in sorted(self.counts.items()):
            corpus.report(f"  {name:58} {count}")
        for kind, most in ((1, 24), (2, 6), (3, 3)):
            have = sum(each[0] == kind for each in self.table)
            corpus.report(f"  kind {kind}: flags by states, legal or not {have} of {most}")


def why_not(buttons, one, place, press):
    if press.place is None:
        return "pressed in none" + (", lifted in one" if place is not None else "")
    pressed = buttons[press.place]
    if not pressed.shown:
        return "hidden at lift" + (", another is there" if place is not None else "")
    if not label.holds(pressed, one.x, one.y):
        same_item = place is not None and buttons[place].item == pressed.item
        return "lifted in " + ("none" if place is None else "another of the same item" if same_item else "another")
    return "covered at lift" + (" by one shown since" if label.holds(buttons[place], *press.point) else "")


# Faults


def choices_before_fault(screen, records):
    """How many choices the records make that come before the first fault."""
    states, count = dict(screen.label.held), 0
    try:
        for one in label.contacts_of(records[: len(records) // house.LENGTH * house.LENGTH]):
            each = states.get(one.id, label.OUT_OF_RANGE)
            states[one.id] = label.step(screen.buttons, each, one)
            count += label.chooses(screen.buttons, each, one)
    except Refused:
        pass
    return count


def fault(before, records):
    """The first fault: its name, or kind, flags and state where the table is broken; None for good records."""
    if len(records) % house.LENGTH != 0:
        return "not whole records"
    states = {contact_id: each.state for contact_id, each in before.held.items()}
    due, last = 0, None
    for at in range(0, len(records), house.LENGTH):
        record = records[at : at + house.LENGTH]
        one, kind = house.unpack(record), house.kind_of(record)
        if not house.well_formed(record):
            return rule_broken(record)
        if due > 0 and kind != house.CONTACT_KIND:
            return f"{SINGLE_KINDS.get(kind, 'a head')} inside a frame"
        if due == 0 and kind == house.CONTACT_KIND:
            return "a contact without a head" if last in (None, *SINGLE_KINDS) else "more contacts than the head says"
        due = one.count if kind == house.HEAD_KIND else max(due - 1, 0)
        last = kind
        if kind == house.HEAD_KIND:
            continue
        state = states.get(one.id, OUT)
        if state not in NEXT_STATE[one.flags]:
            return kind, one.flags, state
        states[one.id] = NEXT_STATE[one.flags][state]
    return "fewer contacts than the head says" if due > 0 else None


def rule_broken(record):
    """Which rule a record breaks that is not well formed."""
    kind = house.kind_of(record)
    if kind == house.HEAD_KIND:
        return "a head's unused bits" if house.unpack(record).count <= house.MOST_CONTACTS else "a head's count"
    one = house.unpack(record)
    for name, broken in (
        ("unused bits", house.split(house.CONTACT_LAYOUT, record)["unused"] != 0),
        ("flags not in the table", one.flags not in house.FLAGS),
        ("x or y of -2^29", -(1 << 29) in (one.x, one.y)),
        ("a side of -2^14", any(getattr(one, side) == -(1 << 14) for side in house.SIDES)),
        ("orientation", one.orientation > house.HIGHEST_ORIENTATION),
        ("pressure", one.pressure > house.HIGHEST_PRESSURE),
        ("an absent field not 0", not house.absent_fields_zero(one)),
        ("a field of kinds 2 and 3", one.fields_present != 0),
    ):
        if broken:
            return f"kind {kind}, {name}"
    return f"kind {kind}, flags of another kind"
