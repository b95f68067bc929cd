"""Writes OUTDIR/stdin and OUTDIR/stdout for the program 'choices'. The file ends whole."""

import itertools
import random

import corpus
import eras
import labels
import make_bench
import wide_play
from corpus import contact, frame, head_record
from histories import History
from labels import AMPLE, HIGHEST_ROOM, Desk, at, cancel, choose, dismissal, mark, new_list, tap
from reference import entries, house, old_heads, programs
from reference.integers import S2, S4, U8
from reference.keeper import ENGAGED, HOVERING, OUT
from reference.label import Button
from reference.programs import MOST_BUTTONS

SEED = 20260410

LOWEST_SIDE, HIGHEST_SIDE = -(1 << 31), (1 << 31) - 1

# Three boats side by side, and a point in each; the last point is in none.
ROW = (Button(501, 0, 0, 100, 50, 1), Button(502, 100, 0, 200, 50, 1), Button(503, 200, 0, 300, 50, 1))
A, B, C, NOWHERE = (50, 25), (150, 25), (250, 25), (50, 75)


# Entries


def before_a_list(desk):
    """The list is empty at first; a new list, an empty one too, puts all contacts out."""
    desk.none()
    desk.none(room=0)
    desk.answers("none", mark(0, 0), mark(0, 1), mark(1, 1), mark(HIGHEST_ROOM, 0))
    desk.none(at(0x19, A), at(0x1A, A), room=0)
    desk.ill(at(0x19, A))
    desk.none(at(0x04, A), *tap(A, 2), at(0x0A, A, 3), at(0x19, A))
    desk.new(*ROW)
    desk.ill(at(0x04, A))
    desk.ill(at(0x02, A, 3))
    desk.none(at(0x19, A))
    desk.new()
    desk.ill(at(0x1A, A))
    desk.none(*tap(A), *tap((0, 0), 255))
    desk.answers("none", mark(0, 1))
    desk.new(*ROW)
    desk.chosen([(1, 501)], *tap(A))


def bad_entries():
    """No command, none of the three, or not as many bytes as the command needs."""
    yield b""
    for command in (0, 4, 5, 33, ord("1"), ord("2"), ord("3"), 129, 255):
        yield bytes([command])
        yield from (bytes([command]) + good[1:] for good in (new_list(*ROW), mark(0, 0), choose(at(0x04, A))))
    other = new_list(*(each._replace(item=9) for each in ROW))
    yield from (other[:length] for length in (2, 5, 21, 23, 42, 44, len(other) - 1))
    yield other + b"\1"
    many = new_list(*[ROW[0]._replace(item=9)] * (MOST_BUTTONS + 2))
    yield from (many[: 1 + 21 * count] for count in (MOST_BUTTONS + 1, MOST_BUTTONS + 2))
    yield from (many[: 1 + 21 * MOST_BUTTONS + more] for more in (1, 20, 22))
    yield bytes([labels.LIST]) + bytes(21 * 3120)
    yield from (mark(0, 0)[:length] for length in (1, 2, 3))
    yield from (mark(0, 0) + more for more in (b"\0", b"\1", bytes(21)))
    yield from (choose()[:length] for length in (1, 2))


def bad_between(desk):
    """Before each contact 1 is pressed, and it lifts behind it: nothing was changed."""
    desk.new(*ROW)
    for payload in bad_entries():
        desk.none(at(0x19, A))
        desk.bad(payload)
        desk.chosen([(1, 501)], at(0x04, A))


def sizes_of_lists(desk):
    """64 buttons are a list, 65 are none: the 64 stay. Only a place in the list can be marked."""
    grid = [Button(1000 + place, *cell(place), 1) for place in range(MOST_BUTTONS)]
    desk.new(*grid)
    desk.bad(new_list(*grid, ROW[0]))
    for place in range(MOST_BUTTONS):
        desk.chosen([(place, 1000 + place)], *tap(centre(place), place))
    desk.answers("none", *(mark(place, 0) for place in (64, 65, 127, 128, 255, 256, 0x3F00, 0x4000, 0xFF00, 0xFFFF)))
    for place in (0, 1, 62, 63):
        desk.hide(place)
        desk.none(*tap(centre(place)))
        desk.chosen([(9, 1000 + (place ^ 2))], *tap(centre(place ^ 2), 9))
        desk.show(place)
        desk.chosen([(1, 1000 + place)], *tap(centre(place)))
    desk.answers("set", *(mark(place, 0) for place in range(MOST_BUTTONS)))
    desk.none(*(each for place in range(MOST_BUTTONS) for each in tap(centre(place))))
    for count in (1, 2, 63):
        desk.new(*grid[:count])
        desk.answers("none", mark(count, 1), mark(256 * count, 0))
        desk.answers("set", mark(count - 1, 1))
        desk.chosen([(7, 999 + count)], *tap(centre(count - 1), 7))
        desk.none(*tap(centre(count)))


def cell(place):
    """The sides of a place in a grid of 8 by 8 without gaps."""
    x, y = place % 8 * 20, place // 8 * 10
    return x, y, x + 20, y + 10


def centre(place):
    return place % 8 * 20 + 10, place // 8 * 10 + 5


def items(desk):
    """Numbers of all sizes, one twice: the same button is the same place, whatever its item."""
    numbers = (0, 1, 255, 256, 0x01020304, HIGHEST_SIDE, 1 << 31, (1 << 32) - 1, 0)
    desk.new(*(Button(item, *cell(place), 1) for place, item in enumerate(numbers)))
    for place, item in enumerate(numbers):
        desk.chosen([(255 - place, item)], *tap(centre(place), 255 - place))
    desk.none(at(0x19, centre(0)), at(0x04, centre(8)))
    desk.none(at(0x19, centre(8)), at(0x0C, centre(0)), at(0x02, centre(0)))


# Where a point is


def edges(desk):
    """Left and top inside, right and bottom outside, at press and at lift."""
    for dx, dy in ((0, 0), (-40, -70), (-20, -35), (70000, -70000)):
        desk.new(Button(7, 10 + dx, 20 + dy, 30 + dx, 50 + dy, 1))
        inside = (20 + dx, 30 + dy)
        for x, y in itertools.product((9, 10, 29, 30), (19, 20, 49, 50)):
            point = (x + dx, y + dy)
            want = [(1, 7)] if x in (10, 29) and y in (20, 49) else []
            desk.chosen(want, *tap(point))
            desk.chosen(want, at(0x19, inside), at(0x04, point))
            desk.chosen(want, at(0x19, point), at(0x0C, inside), at(0x02, point))
        desk.chosen([(1, 7)], at(0x19, (10 + dx, 20 + dy)), at(0x04, (29 + dx, 49 + dy)))


WITHOUT_POINTS = (
    (30, 20, 30, 50),
    (31, 20, 30, 50),
    (30, 20, 10, 50),
    (10, 20, 30, 20),
    (10, 21, 30, 20),
    (10, 50, 30, 20),
    (30, 50, 10, 20),
    (20, 30, 20, 30),
    (0, 0, 0, 0),
    (HIGHEST_SIDE, LOWEST_SIDE, LOWEST_SIDE, HIGHEST_SIDE),
    (LOWEST_SIDE, HIGHEST_SIDE, HIGHEST_SIDE, LOWEST_SIDE),
    (HIGHEST_SIDE, HIGHEST_SIDE, LOWEST_SIDE, LOWEST_SIDE),
)


def without_points(desk):
    """Left not below right, or top not below bottom: by itself, and before one that holds the points."""
    points = ((0, 0), (10, 20), (20, 30), (29, 49), (30, 50), (30, 20), (10, 50))
    behind = Button(2, -5, -5, 60, 60, 1)
    for sides in WITHOUT_POINTS:
        desk.new(Button(1, *sides, 1))
        desk.none(*(each for point in points for each in tap(point)))
        desk.new(Button(1, *sides, 1), behind)
        desk.chosen([(1, 2)] * len(points), *(each for point in points for each in tap(point)))
    desk.new(Button(1, 10, 20, 11, 21, 1))
    desk.chosen([(1, 1)], *tap((10, 20)), *tap((11, 20)), *tap((10, 21)), *tap((9, 20)), *tap((10, 19)))


def far_buttons(desk):
    """Buttons reach over all of 32 bits, contacts not as far."""
    low, high = S4.lowest, S4.highest
    corners = list(itertools.product((low, high), (low, high)))
    for sides, held in (
        ((LOWEST_SIDE, LOWEST_SIDE, HIGHEST_SIDE, HIGHEST_SIDE), corners),
        ((low, low, high + 1, high + 1), corners),
        ((low + 1, low, high + 1, high + 1), [(high, low), (high, high)]),
        ((low, low, high, high), [(low, low)]),
        ((high, high, high + 1, high + 1), [(high, high)]),
        ((high, LOWEST_SIDE, HIGHEST_SIDE, HIGHEST_SIDE), [(high, low), (high, high)]),
        ((LOWEST_SIDE, low, low + 1, HIGHEST_SIDE), [(low, low), (low, high)]),
        ((LOWEST_SIDE, low, low, HIGHEST_SIDE), []),
        ((high + 1, LOWEST_SIDE, HIGHEST_SIDE, HIGHEST_SIDE), []),
        ((LOWEST_SIDE, HIGHEST_SIDE - 1, HIGHEST_SIDE, HIGHEST_SIDE), []),
        # What the points would be with 30 bits and no sign, or with a wrong one.
        ((1 << 30, 1 << 30, HIGHEST_SIDE, HIGHEST_SIDE), []),
        ((-low - 1, -low - 1, -low + 5, -low + 5), [(high, high)]),
        (((1 << 30) + low, (1 << 30) + low, (1 << 30) + low + 1, (1 << 30) + low + 1), []),
    ):
        desk.new(Button(3, *sides, 1))
        for number, point in enumerate(corners):
            desk.chosen([(number, 3)] if point in held else [], *tap(point, number))
    bytewise = (0x01020304, -0x01020304, 0x01020306, -0x01020302)
    desk.new(Button(4, *bytewise, 1))
    desk.chosen([(1, 4)], *tap((0x01020305, -0x01020303)), *tap((0x01020306, -0x01020303)), *tap((0x05030201, -3)))
    desk.new(Button(5, -5, -5, 0, 0, 1))
    points = ((-5, -5), (-1, -1), (0, -1), (-1, 0), (5, 5), (-6, -5))
    desk.chosen([(1, 5)] * 2, *(each for point in points for each in tap(point)))


def overlapping(desk):
    """The first in the list counts, as long as it is shown."""
    inner, outer = Button(11, 40, 20, 60, 30, 1), Button(12, 0, 0, 100, 50, 1)
    desk.new(inner, outer)
    desk.chosen([(1, 11), (1, 12)], *tap(A), *tap((39, 25)))
    desk.none(at(0x19, A), at(0x04, (39, 25)))
    desk.none(at(0x19, (39, 25)), at(0x04, A))
    desk.new(outer, inner)
    desk.chosen([(1, 12)] * 3, *tap(A), *tap((39, 25)), at(0x19, A), at(0x04, (39, 25)))
    desk.new(*(outer._replace(item=item) for item in (20, 21, 22)))
    for hidden in itertools.product((0, 1), repeat=3):
        for place, one in enumerate(hidden):
            desk.show(place, 1 - one)
        desk.chosen([(4, 20 + hidden.index(0))] if 0 in hidden else [], *tap(A, 4))


# Marks


def mark_values(desk):
    """0 is hidden, anything else shown, in a list and afterwards."""
    for shown in (0, 1, 2, 127, 128, 254, 255):
        want = [(1, 501)] if shown else []
        desk.new(ROW[0]._replace(shown=shown), *ROW[1:])
        desk.chosen(want, *tap(A))
        for before in (0, 1):
            desk.show(0, before)
            desk.show(0, shown)
            desk.chosen(want, *tap(A))
        desk.chosen([(1, 502)], *tap(B))


def hidden_ones(desk):
    """Hidden at press, at lift, at both, only between."""
    desk.new(*ROW)
    for lift, leave in ((0x04, ()), (0x0C, (at(0x22, A),))):
        desk.hide(0)
        desk.none(at(0x19, A))
        desk.show(0)
        desk.none(at(lift, A), *leave)
        desk.none(at(0x19, A))
        desk.hide(0)
        desk.none(at(lift, A), *leave)
        desk.none(at(0x19, A))
        desk.none(at(lift, A), *leave)
        desk.show(0)
        desk.none(at(0x19, A))
        desk.hide(0)
        desk.none(at(0x1A, A), at(0x1A, B))
        desk.show(0, 7)
        desk.chosen([(1, 501)], at(lift, A), *leave)
    # The others' marks do not matter, and what one contact missed another does not.
    desk.none(at(0x19, A, 1), at(0x19, A, 2), at(0x19, B, 3))
    desk.hide(0)
    desk.chosen([(3, 502)], at(0x04, A, 1), at(0x04, B, 3))
    desk.hide(1)
    desk.show(0)
    desk.chosen([(2, 501)], at(0x04, A, 2))
    desk.none(*tap(B))
    desk.show(1)
    desk.chosen([(1, 502)], *tap(B))


def covered_ones(desk):
    """One above it that is shown or hidden between press and lift: these are in two buttons then."""
    desk.new(Button(31, 0, 0, 100, 50, 0), Button(32, 0, 0, 100, 50, 1), Button(33, 0, 0, 100, 50, 1))
    desk.none(at(0x19, A))
    desk.show(0)
    desk.none(at(0x04, A))
    desk.none(at(0x19, A))
    desk.hide(0)
    desk.none(at(0x04, A))
    desk.none(at(0x19, A))
    desk.show(0)
    desk.none(at(0x1A, A), at(0x19, A, 2))
    desk.hide(0)
    desk.chosen([(1, 32)], at(0x04, A), at(0x04, A, 2))
    # One below it does not matter, nor one above where it is not.
    desk.none(at(0x19, A))
    desk.hide(2)
    desk.chosen([(1, 32)], at(0x0C, A), at(0x02, A))
    desk.none(at(0x19, A))
    desk.show(2)
    desk.chosen([(1, 32)], at(0x04, A))
    desk.new(Button(34, 0, 0, 50, 50, 0), Button(35, 0, 0, 100, 50, 1))
    desk.none(at(0x19, (50, 10)), at(0x19, (50, 10), 2))
    desk.show(0)
    desk.chosen([(1, 35)], at(0x04, (50, 49)), at(0x04, (49, 49), 2))


# Between press and lift


def wandering(desk):
    """Where a finger goes while it is down does not matter, nor where it hovered before."""
    desk.new(*ROW)
    tour = [at(0x1A, point) for point in (B, NOWHERE, C, (S4.lowest, S4.highest), A, B)]
    desk.chosen([(1, 501)], at(0x19, A), *tour, at(0x04, A))
    desk.chosen([(1, 501)], at(0x19, A), *tour, at(0x04, (99, 49)))
    desk.none(at(0x19, A), *tour, at(0x04, B))
    desk.none(at(0x19, NOWHERE), *tour, at(0x04, A))
    desk.none(at(0x19, A), *tour, at(0x04, NOWHERE))
    desk.none(at(0x19, A))
    for step in tour:
        desk.none(step)
    desk.chosen([(1, 501)], at(0x0C, A))
    desk.chosen([(1, 502)], at(0x0A, A), at(0x0A, C), at(0x19, B), at(0x04, B))
    desk.chosen([(1, 503)], at(0x0A, A), at(0x0A, NOWHERE), at(0x19, C), at(0x0C, C), at(0x0A, A), at(0x02, B))


def slides(desk):
    """From each of the points to each other: only where it ends in the button where it began."""
    desk.new(*ROW)
    boats = {A: 501, B: 502, C: 503, NOWHERE: None}
    for lift, (start, end) in itertools.product((0x04, 0x0C), itertools.product(boats, repeat=2)):
        want = [(6, boats[start])] if start == end != NOWHERE else []
        leave = [at(0x02, end, 6)] if lift == 0x0C else []
        desk.chosen(want, at(0x19, start, 6), at(lift, end, 6), *leave)
        desk.none(at(0x19, start, 6), at(0x1A, end, 6))
        desk.chosen(want, at(lift, end, 6), *leave)


def second_presses(desk):
    """0x0C leaves the contact hovering: what it pressed is forgotten, and it may press again."""
    desk.new(*ROW)
    desk.chosen([(1, 501)], *tap(A, lift=0x0C))
    desk.ill(at(0x04, A))
    desk.ill(at(0x1A, A))
    desk.chosen([(1, 502)], *tap(B, lift=0x0C))
    desk.none(at(0x0A, A), at(0x0A, C))
    desk.chosen([(1, 503)], *tap(C))
    desk.none(at(0x19, A), at(0x0C, B))
    desk.chosen([(1, 501)], at(0x19, A), at(0x0C, A))
    desk.none(at(0x19, NOWHERE), at(0x0C, A))
    desk.none(at(0x19, B), at(0x0C, A))
    desk.none(at(0x19, A), at(0x24, A))
    desk.none(at(0x19, NOWHERE), at(0x04, A))
    desk.chosen([(1, 501), (1, 502), (1, 503)], *(each for point in (A, B, C) for each in tap(point, lift=0x0C)))
    desk.chosen([(1, 501)], cancel(0x22), *tap(A))


def cancels(desk):
    """0x24 and kind 2 end the press; nothing of it is left for the next one."""
    desk.new(*ROW)
    for ending in (at(0x24, A), cancel(0x24), cancel(0x24, 1, A)):
        desk.none(at(0x19, A), ending)
        desk.ill(at(0x04, A))
        desk.none(at(0x19, A))
        desk.none(at(0x1A, A), ending)
        desk.ill(at(0x0C, A))
        desk.none(at(0x19, NOWHERE), at(0x04, A))
        desk.none(at(0x19, A), ending, at(0x19, B), at(0x04, A))
        desk.chosen([(1, 502)], at(0x19, A), ending, at(0x19, B), at(0x04, B))
    for ending in (cancel(0x22), dismissal(), at(0x22, A), at(0x02, A)):
        desk.none(at(0x0A, A), ending)
        desk.ill(ending)
        desk.chosen([(1, 501)], *tap(A, lift=0x0C), ending)
        desk.ill(at(0x04, A))
        desk.none(at(0x19, A))
        desk.ill(ending)
        desk.chosen([(1, 501)], at(0x04, A))
    # A cancel of others, by rising id, leaves this one.
    desk.none(at(0x19, A, 0), at(0x19, A, 1), at(0x0A, A, 2), at(0x19, B, 3), at(0x0A, B, 255))
    desk.none(cancel(0x24, 0), cancel(0x22, 2), dismissal(255))
    desk.chosen([(1, 501)], at(0x04, A), cancel(0x24, 3))
    desk.ill(at(0x04, B, 3))


# Several contacts


def crowd(contact_ids, flags, point_of):
    """Frames of as many contacts as they held before request #107."""
    contacts = [contact(each, flags, *point_of(each)) for each in contact_ids]
    return [frame(*contacts[first : first + 63]) for first in range(0, len(contacts), 63)]


def crowds(desk, rng):
    """All 256 pressed at once and lifted at once: place by place, and in any order."""
    desk.new(*(Button(1000 + place, *cell(place), 1) for place in range(MOST_BUTTONS)))
    for shuffled in (False, True):
        ids = rng.sample(range(256), 256) if shuffled else list(range(256))
        desk.none(*crowd(ids, 0x19, centre_of), room=0)
        desk.no_room(*crowd(ids, 0x04, centre_of), room=255)
        desk.ill(*crowd(ids, 0x04, centre_of), at(0x04, A, ids[0]), room=255)
        desk.chosen([(each, 1000 + each % 64) for each in ids], *crowd(ids, 0x04, centre_of), room=256)
    ids = list(range(255, -1, -1))
    desk.none(*crowd(ids, 0x0A, centre_of))
    desk.none(*crowd(ids, 0x19, centre_of))
    desk.hide(5)
    # The odd ones slide one place on.
    want = [(each, 1000 + each % 64) for each in ids if each % 2 == 0 and each % 64 != 5]
    desk.chosen(want, *crowd(ids, 0x0C, lambda each: centre((each + each % 2) % 64)), room=HIGHEST_ROOM)
    desk.none(*crowd(ids, 0x19, centre_of))
    desk.none(*(cancel(0x24, each) for each in range(256)))
    desk.ill(at(0x04, centre(0), 0))
    desk.none(*crowd(ids, 0x0A, centre_of))
    desk.none(*(dismissal(each) for each in ids))
    desk.ill(at(0x02, centre(9), 9))


def centre_of(contact_id):
    return centre(contact_id % 64)


def interleaved(desk):
    """Choices stand in the order of the lifts' records, not of ids nor of presses."""
    desk.new(*ROW)
    desk.none(frame(contact(9, 0x19, *A), contact(200, 0x19, *B), contact(0, 0x19, *C)))
    desk.chosen(
        [(200, 502), (0, 503), (9, 501)],
        frame(contact(200, 0x04, *B), contact(0, 0x04, *C), contact(9, 0x0C, *A)),
    )
    desk.chosen(
        [(9, 501), (3, 501), (200, 502), (3, 503)],
        frame(contact(200, 0x19, *B), contact(9, 0x19, *A), contact(3, 0x19, *A)),
        frame(contact(9, 0x04, *A), contact(200, 0x1A, *A)),
        frame(),
        frame(contact(3, 0x0C, *A), contact(200, 0x04, *B)),
        at(0x19, C, 3),
        at(0x0A, C, 9),
        dismissal(9),
        at(0x04, C, 3),
    )
    # The same button by two at once, and one that lifts where another pressed.
    desk.chosen([(1, 501), (2, 501)], frame(contact(1, 0x19, *A), contact(2, 0x19, *A)), at(0x04, A), at(0x04, A, 2))
    desk.none(at(0x19, A, 1), at(0x19, B, 2), at(0x04, B, 1), at(0x04, A, 2))


def twice_in_a_frame(desk):
    """Records are taken one after the other."""
    down, lift, stay = contact(1, 0x19, *A), contact(1, 0x04, *A), contact(1, 0x1A, *B)
    desk.new(*ROW)
    desk.chosen([(1, 501)], frame(down, lift))
    desk.chosen([(1, 501)] * 2, frame(down, lift, down, stay, lift))
    desk.chosen([(1, 501)], frame(down, contact(7, 0x19, *A), lift, contact(7, 0x04, *B)))
    desk.ill(frame(lift, down))
    desk.ill(frame(down, down))
    desk.ill(frame(down, lift, lift))
    desk.none(at(0x19, A))
    desk.ill(frame(down, lift))
    desk.chosen([(1, 501)], frame(lift, down))
    desk.chosen([(1, 501), (1, 502)], frame(lift, contact(1, 0x19, *B), contact(1, 0x04, *B)))
    desk.chosen([(1, 501)] * 31, frame(*[down, lift] * 31))
    desk.ill(frame(*[down, lift] * 31, lift))


# From call to call


def kept(desk):
    """What was pressed in one entry may be lifted in any later one; a new list ends all of it."""
    desk.new(*ROW)
    desk.none(at(0x19, A), at(0x19, B, 2), at(0x0A, C, 3))
    desk.none()
    desk.bad(b"")
    desk.ill(b"\0")
    desk.answers("none", mark(3, 0))
    desk.none(frame(), frame(offset=U8.highest))
    desk.none(at(0x1A, B), at(0x19, C, 3))
    desk.chosen([(2, 502)], at(0x04, B, 2))
    desk.chosen([(3, 503)], at(0x04, C, 3))
    desk.chosen([(1, 501)], at(0x04, A))
    for buttons in (ROW, ROW[:1], ()):
        desk.new(*ROW)
        desk.none(at(0x19, A), at(0x0A, C, 3), at(0x19, C, 255))
        desk.new(*buttons)
        for lost in (at(0x04, A), at(0x1A, A), at(0x24, A), at(0x02, C, 3), at(0x0C, C, 255)):
            desk.ill(lost)
        desk.ill(cancel(0x24))
        desk.ill(dismissal(3))
        desk.none(at(0x19, NOWHERE, 1), at(0x19, NOWHERE, 3), at(0x19, NOWHERE, 255))
        desk.none(at(0x04, A, 1), at(0x04, C, 3), at(0x04, C, 255))


# Records that are not good (14)

WHOLE = contact(9, 0x0A, -40, 30, left=-5, top=-70, right=5, bottom=70, orientation=300, pressure=40000)
BARE = contact(9, 0x0A, -40, 30)


def good_limits():
    """Contacts at the ends of their ranges; each is good."""
    yield WHOLE
    for x, y in itertools.product((S4.lowest, S4.highest), (S4.lowest, S4.highest)):
        yield WHOLE._replace(x=x, y=y)
    for side in house.SIDES:
        yield from (WHOLE._replace(**{side: value}) for value in (S2.lowest, S2.highest))
    yield from (WHOLE._replace(orientation=value) for value in (0, 359))
    yield from (WHOLE._replace(pressure=value) for value in (0, 65000))
    yield from (BARE._replace(fields_present=present) for present in range(8))


def ill_contacts():
    """Contacts that one rule alone forbids."""
    yield from (WHOLE._replace(flags=flags) for flags in range(64) if flags not in house.FLAGS)
    yield from (WHOLE._replace(**{name: -(1 << 29)}) for name in house.POSITION)
    yield from (WHOLE._replace(**{side: -(1 << 14)}) for side in house.SIDES)
    yield from (WHOLE._replace(orientation=value) for value in (360, 511))
    yield from (WHOLE._replace(pressure=value) for value in (65001, 65535))
    for present, names in ((6, house.SIDES), (5, ["orientation"]), (3, ["pressure"])):
        yield from (BARE._replace(fields_present=part, **{name: 1}) for name in names for part in (0, present))


def ill_heads():
    """Some of the 96 bits that have to be 0, and two of the count: 129 contacts, not so many there, and 257."""
    yield from (corpus.flipped(head_record(1, 77), bit) for bit in (0, 1, 7, 8, 21, 50, 77, 90, 97, 98))


def ill_singles():
    """Kinds 2 and 3 with other flags, with optional fields, out of range. Contact 4 is engaged, 5 hovers."""
    for good in (cancel(0x24, 4), cancel(0x22, 5), dismissal(5)):
        allowed = (0x22, 0x24) if good.kind == house.CANCEL_KIND else (0x02,)
        yield from (good._replace(flags=flags) for flags in (*house.FLAGS, 0, 0x20, 0x3F) if flags not in allowed)
        yield from (good._replace(fields_present=present) for present in (1, 2, 4, 7))
        yield from (good._replace(**{name: 1}) for name in (*house.SIDES, "orientation", "pressure"))
        yield from (good._replace(**{name: -(1 << 29)}) for name in house.POSITION)


def ill_parts():
    """What is not well formed, wherever it stands between frames."""
    yield from (frame(each) for each in ill_contacts())
    yield from (head_record(1) + corpus.flipped(house.pack_contact(WHOLE), bit) for bit in range(4))
    yield from (head + house.pack_contact(WHOLE) for head in ill_heads())
    yield from ill_singles()
    yield from (corpus.flipped(house.pack_contact(cancel(0x24, 4)), bit) for bit in range(4))
    yield from (corpus.flipped(house.pack_contact(dismissal(5)), bit) for bit in range(4))


def disordered_parts():
    """Good records in an order that is none. Contact 4 is engaged, 5 hovers, 9 is out."""
    one, other = house.pack_contact(BARE), house.pack_contact(BARE._replace(id=10))
    single, gone = house.pack_contact(cancel(0x24, 4)), house.pack_contact(dismissal(5))
    yield from (one, one + head_record(0), head_record(0) + one, head_record(1) + one + other)
    yield from (head_record(0, 5) + head_record(0) + one, single + one, gone + one)
    yield from (head_record(1), head_record(63), head_record(2) + one, head_record(63) + one * 62)
    yield from (head_record(1) + head_record(1) + one, head_record(2) + one + head_record(1) + other)
    yield from (head_record(1) + head_record(0) + one, head_record(2) + one + head_record(0))
    for each in (single, gone):
        yield head_record(1) + each
        yield head_record(1) + each + one
        yield head_record(2) + one + each
        yield head_record(2) + one + each + other


def broken_ends():
    """What may stand where the slice is not of whole records."""
    records = head_record(1) + house.pack_contact(BARE)
    yield from (records[:length] for length in (1, 2, 10, 20, 22, 41))
    yield from (records + bytes(length) for length in (1, 3, 20))
    yield from (head_record(0) + b"\xff", bytes(20), b"\xff" * 20)


def not_good(desk):
    """Each by itself, before good ones and behind choices; nothing is kept of the entry."""
    desk.new(*ROW)
    desk.none(at(0x19, B, 4), at(0x0A, A, 5))
    for good in good_limits():
        desk.none(frame(good), at(0x02, A, 9))
    for part in itertools.chain(ill_parts(), disordered_parts(), broken_ends()):
        desk.ill(part)
        desk.none(at(0x19, A))
        desk.ill(at(0x04, A), *tap(C, 2), part)
        desk.ill(part, at(0x04, A), room=0)
        desk.chosen([(1, 501), (2, 503)], at(0x04, A), *tap(C, 2), room=2)
    desk.chosen([(4, 502)], at(0x04, B, 4), dismissal(5))


# The state table, from what a contact did last
APPROACHES = {OUT: (), HOVERING: (0x0A,), ENGAGED: (0x19,)}
LEGAL = {
    OUT: {0x0A: HOVERING, 0x19: ENGAGED},
    HOVERING: {0x0A: HOVERING, 0x19: ENGAGED, 0x02: OUT, 0x22: OUT},
    ENGAGED: {0x1A: ENGAGED, 0x0C: HOVERING, 0x04: OUT, 0x24: OUT},
}


def state_table(desk):
    """All eight flags from each of the three states, and kinds 2 and 3; what it allows shows the state afterwards."""
    desk.new(*ROW)
    for state, contact_id in itertools.product(LEGAL, (0, 77, 255)):
        for flags in house.FLAGS:
            table_entry(desk, state, at(flags, B, contact_id), LEGAL[state].get(flags), contact_id, flags)
        for single in (cancel(0x24, contact_id), cancel(0x22, contact_id), dismissal(contact_id)):
            wanted = ENGAGED if single.flags == 0x24 else HOVERING
            table_entry(desk, state, single, OUT if state == wanted else None, contact_id, single.flags)


def table_entry(desk, state, part, after, contact_id, flags):
    """The contact is at B all the time; 'after' is the state that the part leaves, None where it is illegal."""
    desk.none(*(at(each, B, contact_id) for each in APPROACHES[state]))
    if after is None:
        desk.ill(part)
        desk.ill(*tap(A, contact_id ^ 1), part, room=0)
    else:
        desk.chosen([(contact_id, 502)] if flags in (0x04, 0x0C) else [], part)
    settle(desk, after or state, contact_id)


def settle(desk, state, contact_id):
    """Takes a contact out of this state, and shows that it was in it."""
    engaged, hovering = at(0x04, B, contact_id), at(0x02, B, contact_id)
    if state != ENGAGED:
        desk.ill(engaged)
    else:
        desk.chosen([(contact_id, 502)], engaged)
    if state != HOVERING:
        desk.ill(hovering)
    else:
        desk.none(hovering)


# Room (13)


def rooms(desk):
    """One choice too many, several, just enough, more; 14 comes before 13; what found no room did not happen."""
    desk.new(*ROW)
    for count in (1, 2, 3, 8, 31, 63):
        ids = list(range(count))
        down, lift = (frame(*(contact(each, flags, *A) for each in ids)) for flags in (0x19, 0x04))
        want = [(each, 501) for each in ids]
        for room in sorted({0, 1, count // 2, count - 1}):
            if room < count:
                desk.no_room(down, lift, room=room)
                desk.ill(down, lift, at(0x1A, A), room=room)
        for room in (count, count + 1, 256 * count, HIGHEST_ROOM):
            desk.chosen(want, down, lift, room=room)
        desk.none(down, room=0)
        desk.no_room(lift, room=count - 1)
        desk.chosen(want, lift, room=count)
    # A choice that finds no room takes the other contacts' records of its entry with it.
    desk.none(at(0x19, A), at(0x19, B, 2), room=0)
    desk.no_room(at(0x24, B, 2), at(0x04, A), at(0x19, C, 3), room=0)
    desk.ill(at(0x04, C, 3))
    desk.chosen([(2, 502)], at(0x04, B, 2), room=1)
    desk.none(at(0x04, B), *tap(NOWHERE, 3), room=0)


def long_entries(desk):
    """As many records as an entry holds, 3,120, and as many choices as they can make; the longest entries."""
    most = (entries.LONGEST_ENTRY - len(choose())) // house.LENGTH
    pressed, taps = range(256), itertools.cycle((0x19, 0x04))
    flags = [0x04] * 256 + list(itertools.islice(taps, most - 49 - 256))
    ids = [*pressed, *(place // 2 % 256 for place in range(len(flags) - 256))]
    contacts = [contact(each, flag, *A) for each, flag in zip(ids, flags)]
    many = [frame(*contacts[first : first + 63]) for first in range(0, len(contacts), 63)]
    want = [(one.id, 501) for one in contacts if one.flags == 0x04]
    assert (len(labels.records_of(many)), len(want)) == (3120 * house.LENGTH, 1663)
    desk.new(*ROW)
    desk.none(*crowd(pressed, 0x19, lambda _: A))
    desk.no_room(*many, room=1662)
    desk.chosen(want, *many, room=1663)
    desk.none(*[frame()] * most)
    desk.ill(*[frame()] * (most - 1), head_record(1))
    desk.ill(bytes(entries.LONGEST_ENTRY - len(choose())))
    desk.bad(bytes([labels.LIST]) * entries.LONGEST_ENTRY, bytes([labels.MARK]) * entries.LONGEST_ENTRY)
    # The last of them was a press.
    desk.chosen([(1407 % 256, 501)], at(0x04, A, 1407 % 256))


# What a receiver writes

QUARTERS = (
    Button(1, 900, 500, 1100, 700, 0),
    Button(2, -40, -40, 980, 580, 1),
    Button(3, 980, -40, 2001, 580, 1),
    Button(4, LOWEST_SIDE, 580, 980, HIGHEST_SIDE, 1),
    Button(5, 0, 0, HIGHEST_SIDE, HIGHEST_SIDE, 1),
    Button(6, LOWEST_SIDE, LOWEST_SIDE, HIGHEST_SIDE, HIGHEST_SIDE, 0),
)


def received(desk, rng, most, steps, faults):
    """The records of a history, message by message or several together: none of them is refused."""
    history = History()
    history.send(corpus.client_ready(0, make_bench.V101, most))
    history.send_frames(frame())
    make_bench.walk(history, rng, make_bench.IDS, steps, faults)
    desk.new(*QUARTERS)
    waiting = b""
    for _, records, _ in programs.received(corpus.joined(history.entries), eras.PressedReceiver()):
        waiting += records
        if waiting and rng.random() < 0.6:
            assert desk.call(choose(waiting)).startswith("0 ")
            waiting = b""
        if rng.random() < 0.1:
            desk.show(rng.randrange(len(QUARTERS)), rng.choice((0, 1, 1)))


# Frames of up to 256 contacts (request #107)


def at_centres(ids, flags):
    """One frame, each contact in the button of its id."""
    return frame(*(contact(each, flags, *centre_of(each)) for each in ids))


def wide_frames(desk):
    """As many as a head says press and lift in one frame each; 257 are 14, though each record is good in its place."""
    desk.new(*(Button(1000 + place, *cell(place), 1) for place in range(MOST_BUTTONS)))
    for count in wide_play.COUNTS:
        ids = [(5 * each) % 256 for each in range(count)]
        lift, want = at_centres(ids, 0x04), [(each, 1000 + each % 64) for each in ids]
        desk.none(at_centres(ids, 0x19), room=0)
        desk.chosen(want, lift, room=count)
    press, lift = at_centres(range(256), 0x19), contact(0, 0x04, *centre_of(0))
    desk.ill(wide_play.joined(press, frame(lift)))
    desk.ill(head_record(257) + records_behind_head(press), frame(lift))
    desk.chosen([(0, 1000)], press, frame(lift))
    desk.ill(head_record(511))
    # All others are pressed.
    desk.no_room(at_centres(range(1, 256), 0x0C), room=254)
    desk.chosen([(each, 1000 + each % 64) for each in range(1, 256)], at_centres(range(1, 256), 0x0C), room=255)
    desk.none(*(cancel(0x22, each) for each in range(1, 256)))


def records_behind_head(one):
    return corpus.records_of([one])[house.LENGTH :]


def wide_orders(desk):
    """One contact too few or too many behind a wide head, or another record among them; heads over 256."""
    desk.new(*ROW)
    press = house.pack_contact(contact(9, 0x19, *A))
    taps = records_behind_head(frame(*[contact(9, flags, *A) for flags in (0x19, 0x04)] * 128))
    desk.chosen([(9, 501)] * 128, head_record(256, U8.highest) + taps)
    for part in (
        head_record(256) + taps[: -house.LENGTH],
        head_record(256) + taps + press,
        head_record(64) + taps[: 63 * house.LENGTH],
        head_record(64) + taps[: 65 * house.LENGTH],
        # 64 is not 0, and 65 not 1.
        head_record(64),
        head_record(65) + press,
        head_record(64) + taps[: 62 * house.LENGTH] + house.pack_contact(cancel(0x24, 9)) + press,
        head_record(64) + taps[: 62 * house.LENGTH] + head_record(0) + press,
        *(head_record(count) for count in (257, 258, 319, 320, 448)),
        *(head_record(count) + press for count in (257, 321)),
        *(corpus.flipped(head_record(64), bit) + taps[: 64 * house.LENGTH] for bit in (0, 95, 96, 97, 98)),
    ):
        desk.ill(*tap(B), part, room=0)
        desk.chosen([(1, 502)], *tap(B))
    # Heads as they were written before.
    old = b"".join(old_heads.pack(house.Head(count, 77)) + taps[: count * house.LENGTH] for count in (0, 2, 62))
    desk.chosen([(9, 501)] * 32, old, room=32)


# Files


def all_calls():
    desk, rng = Desk(), random.Random(SEED)
    before_a_list(desk)
    bad_between(desk)
    sizes_of_lists(desk)
    items(desk)
    edges(desk)
    without_points(desk)
    far_buttons(desk)
    overlapping(desk)
    mark_values(desk)
    hidden_ones(desk)
    covered_ones(desk)
    wandering(desk)
    slides(desk)
    second_presses(desk)
    cancels(desk)
    crowds(desk, rng)
    interleaved(desk)
    twice_in_a_frame(desk)
    kept(desk)
    not_good(desk)
    state_table(desk)
    rooms(desk)
    long_entries(desk)
    for most, faults in ((10, 0.1), (3, 0.3), (256, 0.02)):
        received(desk, rng, most, 300, faults)
    labels.restless(desk, rng, 80)
    labels.play(desk, rng, list(range(4)), 800)
    labels.play(desk, rng, make_bench.IDS, 600)
    labels.play(desk, rng, list(range(256)), 200)
    wide_frames(desk)
    wide_orders(desk)
    return desk


def main():
    directory = corpus.output_directory()
    desk = all_calls()
    stdin = desk.input()
    stdout = programs.choices(stdin)
    corpus.write_files(directory, {"stdin": stdin, "stdout": stdout})
    corpus.report(f"stdin {len(stdin)} bytes, stdout {len(stdout)} bytes, entries {len(desk.entries)}")
    desk.coverage.report()


if __name__ == "__main__":
    main()
