"""Frames of up to 256 contacts, for one receiver (request #107).

What each message must answer is said beforehand, but for the random ones.
"""

import corpus
from corpus import contact, dismiss, frame, message, touch, touch_fields, with_each_count
from histories import all_lifted, answered, conforming, offset, rest, spoiled
from hover_play import holds, joined, lists
from reference import integers
from reference.integers import U2, U4
from reference.receiver import DOWN_FLAGS, HOVER_FLAGS
from reference.refusals import NONE

TOUCH = 3

# Both sides of what six, seven and eight bits count, the most contacts of a frame, and one more.
COUNTS = (63, 64, 127, 128, 255, 256)
MOST, TOO_MANY = 256, 257
ALL_IDS = range(256)

ODD = 99  # an id whose update or lift cancels, since it is out of range
UPDATE_FLAGS, LIFT_FLAGS = 0x1A, 0x04


# Frames of small contacts: five bytes each, 1,280 for 256 of them


def small(contact_id, flags, y=0):
    return contact(contact_id, flags, contact_id % 32, y)


def wide(count, flags=DOWN_FLAGS, first=0, y=0, offset=0):
    """So many contacts, the ids rising from the first on; of 257 the last has the first one's id."""
    return frame(*(small((first + each) % 256, flags, y) for each in range(count)), offset=offset)


def down_moved_up(count, first=0):
    """Three frames: all come, all move, all go."""
    return [
        wide(count, DOWN_FLAGS, first),
        wide(count, UPDATE_FLAGS, first, y=7, offset=8),
        wide(count, LIFT_FLAGS, first, y=7, offset=9),
    ]


def moving():
    """Three frames after which 256 are down: as many as a message holds."""
    come, move, _ = down_moved_up(MOST)
    return [come, move, wide(MOST, UPDATE_FLAGS)]


def twice(flags, first, last):
    """A frame of 256 contacts with the id of the first place in the last one too, whose own is missing."""
    contacts = list(wide(MOST, flags).contacts)
    contacts[last] = contacts[first]
    return frame(*contacts)


# Sending


def writes(history, sent, records, **counts):
    """A message that is accepted, and how many records it writes."""
    answer = history.send(sent)
    want = (NONE, counts.get("injected", 0), counts.get("ignored", 0), counts.get("cancelled", 0), records)
    assert (*answer[:4], answer.records) == want, (sent.hex(), answer)


def put_in(history, *frames):
    """A message whose frames are all injected."""
    writes(history, touch(0, frames), sum(1 + len(one.contacts) for one in frames), injected=len(frames))


def ignored(history, *frames):
    writes(history, touch(0, frames), 0, ignored=len(frames))


def cancelled(history, one):
    """Writes a record for each active contact."""
    writes(history, touch(0, [one]), len(history.receiver.active), cancelled=1)


# Refusals (5, 7 and what comes behind), each with its number; 11 is not judged

# The body, what the strict reading and the other give for it, and why.
FAULTS = (
    ("00 01 81 01", 7, 7, "257 contacts, and no offset"),
    ("00 01 81", 5, 5, "257 contacts, or 256, cut"),
    ("00 01 81 00", 5, 5, "256 contacts, and no offset"),
    ("00 01 81 00 00", 5, 5, "256 contacts, none of them there"),
    ("00 01 80 FF 00", 5, 5, "255 contacts, none of them there"),
    ("00 01 81 02 00", 7, 7, "258 contacts"),
    ("00 01 81 3F 00", 7, 7, "319 contacts: 63 and 256"),
    ("00 01 82 00 00", 7, 7, "512 contacts: 0 to nine bits"),
    ("00 01 83 01 00", 7, 7, "769 contacts: 257 to nine bits"),
    ("00 01 C0 00 00", 7, 7, "16,384 contacts"),
    ("00 01 FF FF 00", 7, 7, "32,767 contacts"),
    ("00 02 00 00 81 01", 7, 7, "257 contacts in the second frame"),
    ("00 02 00 00 81", 5, 5, "the second frame's count cut"),
    ("00 41 81 01", 7, 7, "65 frames, then 257 contacts"),
    ("00 80 41 81 00", 6, 7, "65 frames, padded, then 256 contacts"),
    ("40 00 01 81 01", 6, 7, "encodeTime padded, then 257 contacts"),
    ("40 00 01 81 00", 6, 5, "encodeTime padded, then 256 contacts, and no offset"),
    ("00 02 00 20 00 81 01", 6, 7, "the first offset padded, then 257 contacts"),
    ("00 01 81 01 20", 7, 7, "257 contacts, then the offset cut"),
    ("00 01 81 01 20 00", 7, 7, "257 contacts, then the offset padded"),
    ("00 01 81 00 20 00", 6, 5, "256 contacts, then the offset padded"),
    ("00 01 81 01 00 05 08", 7, 7, "257 contacts, then fieldsPresent 8"),
    ("00 01 81 00 00 05 08", 8, 8, "256 contacts, then fieldsPresent 8"),
    ("00 01 81 00 00 05 80 08", 6, 8, "256 contacts, then fieldsPresent 8, padded"),
    ("00 01 81 01 00 05 00 00 00 1B", 7, 7, "257 contacts, then flags not in the table"),
    ("00 01 81 00 00 05 00 00 00 1B", 9, 9, "256 contacts, then flags not in the table"),
    ("00 01 81 00 00 05 02 00 00 19 41 68", 10, 10, "256 contacts, then orientation 360"),
    ("00 01 7F 00", 5, 5, "127 contacts, none of them there"),
    ("00 01 80 7F 00", 6, 5, "127 contacts, padded, none of them there"),
    ("00 01 80 80 00", 5, 5, "128 contacts, none of them there"),
)


def short_faults():
    """As a receiver past its first frame refuses them."""
    yield from ((number, message(TOUCH, bytes.fromhex(text))) for text, _, number, _ in FAULTS)


def faulty_bodies():
    """Bodies whose contacts are there, but for a fault; both readings give the same number."""
    # A count that is not that of the contacts there.
    wrong = (5, 256, 255), (5, 128, 127), (12, 255, 256), (12, 64, 65), (7, 257, 256), (7, 512, 256)
    for number, said, there in wrong:
        fields = touch_fields(0, [wide(there)])
        at = [field.name for field in fields].index("contactCount")
        yield number, corpus.with_field(fields, at, integers.encode(U2, said))
    fields = touch_fields(0, [wide(MOST)])
    body = corpus.body_of(fields)
    yield 12, body + b"\0"
    yield from ((5, body[:length]) for length in (len(body) - 1, len(body) - 5, len(body) // 2, 200))
    flags_at = [at for at, field in enumerate(fields) if field.name == "contactFlags"]
    for place in (0, 63, 64, 255):
        yield 9, corpus.with_field(fields, flags_at[place], integers.encode(U4, 0x1B))
    whole = corpus.body_of(touch_fields(0, [wide(TOO_MANY)]))
    yield from ((7, each) for each in (whole, whole + b"\0", whole[:-1]))
    yield 7, corpus.body_of(touch_fields(0, [wide(MOST), wide(TOO_MANY, UPDATE_FLAGS)]))


def faults():
    """Messages that are refused, each with its number."""
    yield from short_faults()
    yield from ((number, message(TOUCH, body)) for number, body in faulty_bodies())
    good = touch(0, [wide(MOST)])
    yield 4, good + b"\0"
    yield 4, good[:-1]
    yield 2, touch(0, corpus.widened(moving(), 4097))


def faults_between(history):
    """A contact is down; nothing that is refused takes it away."""
    rest(history)
    put_in(history, frame(small(1, DOWN_FLAGS)))
    for number, faulty in faults():
        answered(history, faulty, number)
        put_in(history, frame(small(1, UPDATE_FLAGS)))
    put_in(history, frame(small(1, LIFT_FLAGS)))


# Where few may be active


def few_allowed(history, counts=COUNTS):
    """A wide frame is read, and cancels, is ignored, or opens and is cancelled; so is one whose count is padded."""
    for count in counts:
        for sent in with_each_count(0, [wide(count)]):
            rest(history)
            put_in(history, frame(small(1, DOWN_FLAGS), small(255, HOVER_FLAGS)))
            writes(history, sent, 2, cancelled=1)
            holds(history, 1, 255, *range(count))
            ignored(history, wide(count, UPDATE_FLAGS))
            writes(history, sent, 0, cancelled=1)
            holds(history, *range(count))
            # All of them leave, and one hovers.
            ignored(history, wide(count, 0x22), frame())
            holds(history)
            put_in(history, frame(small(count - 1, HOVER_FLAGS)))
    # What comes before and behind the wide frame in its message.
    rest(history)
    before = [frame(small(200, DOWN_FLAGS)), frame(small(200, UPDATE_FLAGS, 3), small(7, HOVER_FLAGS))]
    behind = [wide(MOST, UPDATE_FLAGS), wide(MOST, HOVER_FLAGS), frame(small(3, DOWN_FLAGS))]
    writes(history, touch(0, [*before, wide(MOST), *behind]), 2 + 3 + 2 + 2, injected=3, ignored=2, cancelled=1)
    answered(history, touch(0, [wide(TOO_MANY)]), 7)
    put_in(history, frame(small(3, LIFT_FLAGS)))


# Where 256 may be active


def strokes(history, counts=COUNTS):
    """Frames of each width: those that come by themselves, then all that come, move and go in one message."""
    for count in counts:
        come, move, go = down_moved_up(count, first=256 - count)
        for sent in with_each_count(0, [come]):
            rest(history)
            writes(history, sent, count + 1, injected=1)
        rest(history)
        put_in(history, come, move, go)
    answered(history, touch(0, [wide(TOO_MANY)]), 7)


def cancels(history):
    """All 256 are active: the frame that cancels writes a record for each."""
    for flags, bad in (
        (DOWN_FLAGS, frame(small(ODD, 0x0C, 5))),
        (DOWN_FLAGS, wide(MOST, 0x24, y=1)),
        (HOVER_FLAGS, frame(small(ODD, UPDATE_FLAGS))),
        (HOVER_FLAGS, twice(HOVER_FLAGS, 0, 255)),
    ):
        rest(history)
        put_in(history, wide(MOST, flags))
        writes(history, touch(0, [bad]), MOST, cancelled=1)
        # A frame of 256 presses opens, whoever is held.
        put_in(history, wide(MOST, first=77))
    rest(history)
    # Half of them come, the rest with them in the next frame, and one of these twice.
    put_in(history, wide(128))
    mixed = joined(wide(128, UPDATE_FLAGS), wide(127, HOVER_FLAGS, first=128))
    cancelled(history, joined(mixed, wide(1, HOVER_FLAGS, first=128)))
    put_in(history, wide(128))
    put_in(history, joined(mixed, wide(1, HOVER_FLAGS, first=255)))
    cancelled(history, joined(wide(128, LIFT_FLAGS), wide(128, LIFT_FLAGS, first=128)))


def ids_twice(history):
    """An id at both ends of a frame of 256, at the ends of its parts, side by side."""
    places = (0, 255), (254, 255), (0, 1), (63, 64), (0, 64), (127, 128)
    for flags, (first, last) in [(DOWN_FLAGS, each) for each in places] + [(HOVER_FLAGS, each) for each in places[:2]]:
        rest(history)
        put_in(history, frame(small(5, HOVER_FLAGS)))
        cancelled(history, twice(flags, first, last))
        # The id that is missing is not held: it opens by hovering.
        put_in(history, frame(small(last, HOVER_FLAGS)))


def openings(history):
    """After a cancel 256 contacts open: by presses, by hovering where no id is held, by both."""
    half = joined(wide(128), wide(128, HOVER_FLAGS, first=128))
    for opening in (wide(MOST), wide(MOST, HOVER_FLAGS), half):
        rest(history)
        put_in(history, frame(small(7, DOWN_FLAGS)))
        # The lift beside the stored position takes its own id out of the set.
        cancelled(history, frame(small(7, LIFT_FLAGS, 1)))
        holds(history)
        put_in(history, opening)
        holds(history)
    for hovering, contact_id in ((wide(MOST, HOVER_FLAGS), 0), (wide(MOST, HOVER_FLAGS), 255), (half, 99)):
        rest(history)
        cancelled(history, frame(small(contact_id, UPDATE_FLAGS)))
        holds(history, contact_id)
        # One of the 256 is held: all of them are, then.
        ignored(history, hovering)
        holds(history, *ALL_IDS)
        ignored(history, joined(wide(255, 0x02, first=contact_id + 1), lists(UPDATE_FLAGS, contact_id)))
        holds(history, contact_id)
        answered(history, dismiss(contact_id))
        put_in(history, hovering)
    rest(history)
    cancelled(history, wide(MOST, UPDATE_FLAGS))
    holds(history, *ALL_IDS)
    cancelled(history, twice(DOWN_FLAGS, 0, 255))
    holds(history, *ALL_IDS[:-1])
    ignored(history, wide(MOST, LIFT_FLAGS))
    put_in(history, wide(MOST, HOVER_FLAGS, first=100))
    for contact_id in (0, 99, 100, 255):
        writes(history, dismiss(contact_id), 1)
        writes(history, dismiss(contact_id), 0)
    # Four of them are out of range.
    cancelled(history, wide(MOST, 0x22))


def long_messages(history):
    """Three frames of 256 contacts in 4,096 bytes, shortest and padded; 4,097 are too many."""
    for length in (4096, 4097):
        for sent in (
            touch(0, corpus.widened(moving(), length)),
            corpus.touch_of(corpus.padded_to(touch_fields(0, moving()), length)),
        ):
            rest(history)
            assert len(sent) == length
            answered(history, sent, *((NONE, 3) if length == 4096 else (2,)))
    rest(history)
    # 64 frames, three of them wide.
    come, move, go = down_moved_up(MOST)
    put_in(history, come, *[frame(offset=1)] * 61, move, go)


def most_records(history):
    """As many records as a message can write: 256 are down and cancelled, then as many as fit press and are cancelled.

    A contact has at least five bytes and writes at most two records, so 48 KiB have room for all of them.
    """
    bad = frame(small(1, HOVER_FLAGS))
    rest(history)
    put_in(history, wide(MOST))
    frames = [frame(), bad, *[wide(MOST), bad] * 3, wide(40), bad]
    sent = touch(0, frames)
    assert len(sent) == 4096
    writes(history, sent, 1 + 256 + 3 * (257 + 256) + 41 + 40, injected=5, cancelled=5)


def refused_between(history):
    """All 256 are down; nothing that is refused takes one away."""
    rest(history)
    put_in(history, wide(MOST))
    for number, faulty in short_faults():
        answered(history, faulty, number)
    put_in(history, wide(MOST, UPDATE_FLAGS, y=1))


def all_allowed(history):
    strokes(history)
    cancels(history)
    ids_twice(history)
    openings(history)
    long_messages(history)
    most_records(history)
    refused_between(history)


def without_time(history):
    """Few of the widths: offsets are not written."""
    strokes(history, (64, 256))


# Where fewer than 256 may be active


def one_too_many(history):
    """One more than may be active comes in one frame, or in a frame with all of them; one comes as another leaves."""
    most = history.receiver.max_touch_contacts
    over = most + 1
    for flags in (DOWN_FLAGS, HOVER_FLAGS):
        rest(history)
        put_in(history, frame(small(9, DOWN_FLAGS)), frame(small(9, LIFT_FLAGS)))
        cancelled(history, wide(over, flags))
        holds(history, *range(over))
        cancelled(history, wide(over))
        ignored(history, wide(over, HOVER_FLAGS), wide(most, HOVER_FLAGS))
        put_in(history, wide(most))
        comes = wide(1, flags, first=most)
        cancelled(history, joined(wide(most, UPDATE_FLAGS), comes))
        put_in(history, wide(most))
        put_in(history, joined(comes, wide(most - 1, UPDATE_FLAGS, first=1), wide(1, LIFT_FLAGS)))
        assert len(history.receiver.active) == most
        cancelled(history, frame(small(0, flags)))
        ignored(history, wide(over, 0x22))
        # No id is held: all open by hovering and are cancelled, one less is not.
        cancelled(history, wide(over, HOVER_FLAGS))
        ignored(history, wide(over, 0x02))
        put_in(history, wide(most, HOVER_FLAGS))
    rest(history)
    put_in(history, *down_moved_up(most, first=1))


# The first frame (refusal 11)


def first_frames(history, judged):
    """257 contacts are 7 before the offset is looked at; 256 with another offset than 0 are 11, and no first frame."""
    late = wide(MOST, offset=1)
    for text, number in (("00 01 81 01 01", 7), ("00 01 81 00 01", 11 if judged else 5), ("00 01 81 01 20 01", 7)):
        answered(history, message(TOUCH, bytes.fromhex(text)), number)
    answered(history, touch(0, [late._replace(contacts=wide(TOO_MANY).contacts)]), 7)
    answered(history, touch(0, [wide(TOO_MANY)]), 7)
    if judged:
        answered(history, touch(0, [late]), 11)
        answered(history, touch(0, [late, wide(TOO_MANY)]), 11)
        answered(history, touch(0, [frame(offset=1)]), 11)


# Random use


def some_frame(rng, keeper, ids, faults):
    """Of any width; an update or a lift of all is as likely as anything else."""
    way = rng.random()
    if way < 0.1 and keeper.active:
        return all_lifted(keeper)
    if way < faults:
        return spoiled(rng, keeper, ids)
    if not keeper.running:
        some = rng.sample(ids, rng.choice((1, 64, min(len(ids), keeper.max_touch_contacts, MOST))))
        return frame(*(small(each, rng.choice((DOWN_FLAGS, HOVER_FLAGS))) for each in some), offset=offset(rng))
    return conforming(rng, keeper, ids, rng.choice((3, 63, 100, MOST)))


def walk(history, rng, ids, steps, faults=0.3):
    """One frame in each message; damage and dismissals between. Some are too long."""
    for _ in range(steps):
        sent = touch(3, [some_frame(rng, history.keeper, ids, faults)])
        way = rng.random()
        if way < 0.85:
            history.send(sent)
        elif way < 0.93:
            history.send(corpus.damaged(rng, sent))
        else:
            history.send(dismiss(rng.choice(list(history.keeper.active) or ids)))
