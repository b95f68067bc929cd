"""Calls of one label screen: entries of the program 'choices', what becomes of them, random use."""

import corpus
from corpus import contact, frame
from label_coverage import Coverage
from panels import entry
from reference import house, label, messages, programs
from reference.integers import S4
from reference.keeper import ENGAGED, HOVERING, NEXT_STATE, OUT
from reference.label import Button
from reference.refusals import BAD_RECORD, NO_ROOM, NONE

LIST, MARK, CHOOSE = 1, 2, 3

# Needs both bytes of the room.
AMPLE = 0x0140
HIGHEST_ROOM = 0xFFFF


# Entries


def button_entry(button):
    item, *sides, shown = button
    data = item.to_bytes(4, "big") + b"".join(side.to_bytes(4, "big", signed=True) for side in sides)
    return data + bytes([shown])


def new_list(*buttons):
    return entry(LIST, tail=b"".join(map(button_entry, buttons)))


def mark(place, shown):
    return entry(MARK, (place, 2), (shown, 1))


def choose(*parts, room=AMPLE):
    return entry(CHOOSE, (room, 2), tail=records_of(parts))


def records_of(parts):
    """Parts are frames, contacts that stand by themselves (kinds 2 and 3) and bytes."""
    return b"".join(map(part_records, parts))


def part_records(part):
    if isinstance(part, messages.Frame):
        return corpus.records_of([part])
    return house.pack_contact(part) if isinstance(part, house.Contact) else part


def at(flags, point, contact_id=1):
    """A frame of one contact."""
    return frame(contact(contact_id, flags, *point))


def tap(point, contact_id=1, lift=0x04):
    return at(0x19, point, contact_id), at(lift, point, contact_id)


def cancel(flags, contact_id=1, point=(0, 0)):
    return house.Contact(house.CANCEL_KIND, flags, 0, contact_id, *point)


def dismissal(contact_id=1, point=(0, 0)):
    return house.Contact(house.DISMISSAL_KIND, house.DISMISSAL_FLAGS, 0, contact_id, *point)


# Calling


class Desk:
    """Entries for one screen, and what the reference makes of them."""

    def __init__(self):
        self.entries = []
        self.screen = programs.BLANK
        self.coverage = Coverage()

    def call(self, payload):
        before = self.screen
        self.entries.append(payload)
        self.screen, text = programs.screen_call(before, payload)
        self.coverage.watch(before, self.screen, payload, text)
        return text

    def answers(self, want, *payloads):
        """Entries whose line is known beforehand; whatever is bad or refused leaves the screen as it was."""
        for payload in payloads:
            before = self.screen
            have = self.call(payload)
            assert have == want, f"entry {len(self.entries)}: {have}, not {want}: {payload.hex()}"
            changes = want == "set" or want.startswith(f"{NONE} ")
            assert changes or self.screen == before

    def bad(self, *payloads):
        self.answers("bad", *payloads)

    def new(self, *buttons):
        self.answers("set", new_list(*buttons))

    def show(self, place, shown=1):
        self.answers("set", mark(place, shown))

    def hide(self, place):
        self.show(place, 0)

    def chosen(self, want, *parts, room=AMPLE):
        """The choices, each an id and an item."""
        words = [f"{contact_id}:{item}" for contact_id, item in want]
        self.answers(" ".join([str(NONE), str(len(want)), *words]), choose(*parts, room=room))

    def none(self, *parts, room=AMPLE):
        self.chosen([], *parts, room=room)

    def ill(self, *parts, room=AMPLE):
        self.answers(f"{BAD_RECORD} 0", choose(*parts, room=room))

    def no_room(self, *parts, room):
        self.answers(f"{NO_ROOM} 0", choose(*parts, room=room))

    def input(self, tail=b""):
        return corpus.joined(self.entries, tail)


# Random use


def play(desk, rng, ids, steps):
    """Fingers over the buttons of the list, with marks, faults, tight room and bad entries between."""
    for _ in range(steps):
        way = rng.choices(list(WAYS), WAYS.values())[0]
        desk.call(way(desk, rng, ids))


def legal_records(desk, rng, ids):
    return choose(*some_parts(desk, rng, ids))


def tight_room(desk, rng, ids):
    """Room for just the choices, one less, none, or one more; of a few parts those with the most choices."""

    def choices(parts):
        return len(label.judge(desk.screen.label, desk.screen.buttons, records_of(parts))[1])

    parts = max((some_parts(desk, rng, ids) for _ in range(4)), key=choices)
    needed = choices(parts)
    return choose(*parts, room=rng.choice((needed, needed, max(needed - 1, 0), 0, needed + 1)))


def damaged_records(desk, rng, ids):
    """A bit flipped, a record left out, doubled or exchanged with another, bytes added or missing."""
    records = records_of(some_parts(desk, rng, ids))
    whole = [records[start : start + house.LENGTH] for start in range(0, len(records), house.LENGTH)]
    way, place = rng.randrange(5), rng.randrange(len(whole))
    if way == 0:
        whole = [corpus.flipped(records, rng.randrange(8 * len(records)))]
    elif way == 1:
        del whole[place]
    elif way == 2:
        whole.insert(place, whole[place])
    elif way == 3:
        whole.insert(0, whole.pop(place))
    else:
        whole = [records[: -rng.randint(1, 20)]] if rng.random() < 0.5 else [records, rng.randbytes(rng.randint(1, 21))]
    return choose(*whole, room=rng.choice((AMPLE, AMPLE, 0)))


def illegal_flags(desk, rng, ids):
    """Good parts, then a contact that is illegal from its state."""
    parts = some_parts(desk, rng, ids)
    after, _ = label.judge(desk.screen.label, desk.screen.buttons, records_of(parts))
    contact_id = rng.choice(ids)
    state = held(after, contact_id).state
    wrong = [flags for flags in house.FLAGS if state not in NEXT_STATE[flags]]
    faulty = at(rng.choice(wrong), spot(rng, desk.screen.buttons), contact_id)
    if rng.random() < 0.3:
        faulty = rng.choice((cancel(0x24, contact_id), cancel(0x22, contact_id), dismissal(contact_id)))
    return choose(*parts, faulty, room=rng.choice((AMPLE, 0, 1)))


def some_mark(desk, rng, _ids):
    """Mostly of a button that somebody has pressed."""
    count = len(desk.screen.buttons)
    pressed = [each.pressed for each in desk.screen.label.held.values() if each.pressed is not None]
    place = rng.choice(pressed) if pressed and rng.random() < 0.5 else rng.randrange(count + 1)
    return mark(place, rng.choice((0, 0, 1, 1, 1, 255)))


def some_list(_desk, rng, _ids):
    return new_list(*random_list(rng))


def other_entry(_desk, rng, _ids):
    return rng.choice((b"", b"\4", b"\3", b"\3\0", b"\2\0\0", b"\1" + rng.randbytes(rng.randint(1, 20)), choose()))


WAYS = {
    legal_records: 120,
    tight_room: 30,
    damaged_records: 16,
    illegal_flags: 12,
    some_mark: 45,
    some_list: 4,
    other_entry: 4,
}


STACK = [Button(40 + place, 10 * place, 0, 10 * place + 30, 20, 1) for place in range(5)]
SHOWINGS = ((0,), (1,), (0, 1), (0, 1), (1, 0), (0, 1, 0), (1, 0, 1))


def restless(desk, rng, rounds):
    """Buttons that lie over each other are hidden and shown while fingers are down."""
    desk.new(*STACK)
    for _ in range(rounds):
        points = {contact_id: point_in(rng, rng.choice(STACK)) for contact_id in rng.sample(range(9), 4)}
        desk.call(choose(*(at(0x19, point, each) for each, point in points.items())))
        place = rng.randrange(len(STACK))
        for shown in rng.choice(SHOWINGS):
            desk.show(place, shown)
            if rng.random() < 0.3:
                desk.none(*(at(0x1A, spot(rng, STACK), each) for each in points))
        lifted = [at(0x04, point if rng.random() < 0.7 else spot(rng, STACK), each) for each, point in points.items()]
        desk.call(choose(*rng.sample(lifted, len(lifted))))


def held(screen_label, contact_id):
    return screen_label.held.get(contact_id, label.OUT_OF_RANGE)


def some_parts(desk, rng, ids):
    """Frames, and now and then a record of kind 2 or 3 between them, each legal by what the ones before it leave."""
    now, parts = desk.screen.label, []
    for _ in range(rng.choice((1, 1, 2, 2, 3, 4))):
        single = single_record(rng, now) if rng.random() < 0.1 else None
        parts.append(single or some_frame(rng, now, desk.screen.buttons, ids))
        now, _ = label.judge(now, desk.screen.buttons, part_records(parts[-1]))
    return parts


def single_record(rng, now):
    """A cancel of a contact, or the dismissal of one that hovers; None where all are out."""
    if not now.held:
        return None
    contact_id, each = rng.choice(list(now.held.items()))
    if each.state == ENGAGED:
        return cancel(0x24, contact_id)
    return rng.choice((cancel(0x22, contact_id), dismissal(contact_id)))


def some_frame(rng, now, buttons, ids):
    """Some of the ids, now and then one twice."""
    contacts = []
    for _ in range(rng.choice((0, 1, 1, 1, 2, 2, 3, 5))):
        each = held(now, rng.choice(ids))
        contact_id = rng.choice([one for one in ids if held(now, one) == each])
        contacts.append(some_contact(rng, buttons, contact_id, each))
        now, _ = label.judge(now, buttons, part_records(frame(contacts[-1])))
    return frame(*contacts, offset=rng.choice((0, 0, 8333, 1 << 60)))


# What a finger does next, by its state.
HABITS = {
    OUT: {0x19: 5, 0x0A: 1},
    HOVERING: {0x19: 5, 0x0A: 2, 0x02: 1, 0x22: 1},
    ENGAGED: {0x1A: 4, 0x04: 5, 0x0C: 3, 0x24: 1},
}


def some_contact(rng, buttons, contact_id, each):
    habits = HABITS[each.state]
    flags = rng.choices(list(habits), habits.values())[0]
    stays = flags in label.LIFTS and each.pressed is not None and rng.random() < 0.75
    x, y = point_in(rng, buttons[each.pressed]) if stays else spot(rng, buttons)
    optional = corpus.random_optional(rng, None if rng.random() < 0.2 else 0)
    return house.Contact(flags=flags, id=contact_id, x=x, y=y, **optional)


def spot(rng, buttons):
    """A point in a button or just beside it, or anywhere."""
    if not buttons or rng.random() < 0.1:
        return rng.randint(-30, 30), rng.randint(-30, 30)
    button = rng.choice(buttons)
    if rng.random() < 0.7:
        return point_in(rng, button)
    x = rng.choice((button.left - 1, button.left, button.right - 1, button.right))
    y = rng.choice((button.top - 1, button.top, button.bottom - 1, button.bottom))
    return bounded(x), bounded(y)


def point_in(rng, button):
    """A point of a button; of one that holds none, a point between its sides."""
    return between(rng, button.left, button.right - 1), between(rng, button.top, button.bottom - 1)


def between(rng, first, last):
    low, high = sorted((bounded(first), bounded(last)))
    return rng.choice((low, high, rng.randint(low, high)))


def bounded(value):
    """Buttons reach farther than contacts."""
    return max(S4.lowest, min(S4.highest, value))


def random_list(rng):
    """Small ones over each other, or a grid; some hidden, few without a point, few very large."""
    items = rng.choice((range(3), range(500, 600), range((1 << 32) - 9, 1 << 32)))
    if rng.random() < 0.3:
        columns = rng.randint(1, 8)
        places = [divmod(place, columns) for place in range(rng.randint(1, 64))]
        return [Button(rng.choice(items), 5 * x, 4 * y, 5 * x + 5, 4 * y + 4, some_shown(rng)) for y, x in places]
    return [random_button(rng, rng.choice(items)) for _ in range(rng.choice((0, 1, 2, 3, 3, 5, 5, 8, 8, 12)))]


def some_shown(rng):
    return rng.choice((0, 1, 1, 1, 1, 2, 255))


def random_button(rng, item):
    low, high = (-20, 20) if rng.random() < 0.9 else (-(1 << 31), (1 << 31) - 1)
    sides = [rng.randint(low, high) for _ in range(4)]
    if rng.random() < 0.85:
        left, right = sorted(sides[::2])
        top, bottom = sorted(sides[1::2])
        sides = [left, top, right, bottom]
    return Button(item, *sides, some_shown(rng))
