"""Histories for one receiver: sending, choosing frames by the receiver's state, coverage."""

from collections import Counter

import corpus
import eras
import hover_coverage
from corpus import contact, frame, touch
from hover_coverage import MOST_HELD
from reference import house, messages, programs, receiver
from reference.keeper import (
    ENGAGED,
    HOVERING,
    NEXT_STATE,
    OUT,
    POSITION_KEPT,
    each_legal,
    no_id_twice,
    positions_obey,
)
from reference.refusals import NONE

IGNORING = "ignoring"
STARTS = (OUT, HOVERING, ENGAGED)


class Coverage:
    """What happened over one or several histories."""

    def __init__(self):
        self.counts = Counter()
        self.runs = {2: set(), 3: set()}  # (start, flags, ..) of pairs and triples
        self.most_cancelled = 0
        self.highest_cancelled = -1

    def merge(self, other):
        most_held = max(self.counts[MOST_HELD], other.counts[MOST_HELD])
        self.counts += other.counts
        self.counts[MOST_HELD] = most_held
        for length, runs in other.runs.items():
            self.runs[length] |= runs
        self.most_cancelled = max(self.most_cancelled, other.most_cancelled)
        self.highest_cancelled = max(self.highest_cancelled, other.highest_cancelled)

    def report(self):
        corpus.report_counts(self.counts)
        corpus.report(f"  most contacts in one cancel {self.most_cancelled}, highest id {self.highest_cancelled}")
        for length, runs in self.runs.items():
            judged = sum(run[0] in STARTS for run in runs)
            word = {2: "pairs", 3: "triples"}[length]
            corpus.report(f"  {word} of flags from the three states {judged} of {3 * 8 ** length}")
            corpus.report(f"  {word} of flags while ignoring        {len(runs) - judged} of {8 ** length}")


class History(eras.Sender):
    """Entries for one fresh receiver, and what the reference makes of them."""

    def __init__(self):
        super().__init__()
        self.coverage = Coverage()
        self.tracks = {}  # id: its flags in consecutive frames, the first with what it started from

    def send(self, message):
        self.entries.append(message)
        before = self.receiver
        answer = self.feed(message)
        if answer.refusal == 0:
            hover_coverage.watch(self.coverage.counts, before, message)
        if answer.refusal == 0 and message[0] == messages.TOUCH:
            self.watch_frames(before, messages.read_touch(message).frames)
        elif answer.refusal == 0 and message[0] == messages.DISMISS:
            self.coverage.counts[f"dismissed while {before.place(message[6]).state}"] += 1
            self.tracks = {}
        return answer

    def feed(self, message):
        """Today's answer; the receivers of all times get the message."""
        answers = {}
        for era, keeper in self.keepers.items():
            output = bytearray(programs.LENT_TO_READERS)
            self.keepers[era], answers[era] = receiver.receive(keeper, eras.seen(era, message), output)
        return answers[eras.TODAY]

    def send_all(self, sent):
        for message in sent:
            self.send(message)

    def send_frames(self, *frames, time=0):
        return self.send(touch(time, frames))

    def watch_frames(self, keeper, frames):
        for one in frames:
            after, verdict, _ = receiver.frame_step(keeper, one)
            self.watch_verdict(keeper, one, verdict)
            self.watch_tracks(keeper, one)
            keeper = after

    def watch_verdict(self, keeper, one, verdict):
        counts = self.coverage.counts
        mode = "running" if keeper.running else IGNORING
        word = "empty" if not one.contacts else "opening" if receiver.opening(one, keeper.held) else "other"
        counts[f"{mode}: {word} frame {verdict}"] += 1
        if verdict == receiver.CANCELLED and keeper.active:
            self.coverage.most_cancelled = max(self.coverage.most_cancelled, len(keeper.active))
            self.coverage.highest_cancelled = max(self.coverage.highest_cancelled, *keeper.active, -1)
        if verdict == receiver.CANCELLED:
            counts[f"cancelled because of {fault(keeper, one)}"] += 1

    def watch_tracks(self, keeper, one):
        """A track goes on only through consecutive frames that have the id just once."""
        ids = Counter(each.id for each in one.contacts)
        tracks = {}
        for each in one.contacts:
            if ids[each.id] == 1:
                start = keeper.place(each.id).state if keeper.running else IGNORING
                tracks[each.id] = (self.tracks.get(each.id, []) + [(start, each.flags)])[-3:]
                self.note_runs(tracks[each.id])
        self.tracks = tracks

    def note_runs(self, track):
        for length, runs in self.coverage.runs.items():
            if len(track) >= length:
                part = track[-length:]
                runs.add((part[0][0], *(flags for _, flags in part)))


def fault(keeper, one):
    """The first of the four rules that a frame breaks."""
    if not no_id_twice(one):
        return "an id twice"
    if not each_legal(keeper, one):
        return "an illegal contact"
    if not positions_obey(keeper, one):
        return "a position"
    return "too many active"


# Sending what is answered as said beforehand


def answered(history, message, refusal=NONE, injected=0, ignored=0, cancelled=0):
    answer = history.send(message)
    assert answer[:4] == (refusal, injected, ignored, cancelled), (message.hex(), answer)


def injected(history, *sent):
    """Messages of one frame each."""
    for message in sent:
        answered(history, message, injected=1)


def rest(history):
    """A running receiver without an active contact."""
    if not history.keeper.running:
        injected(history, touch(0, [frame(contact(0, 0x19))]))
    injected(history, touch(0, [all_lifted(history.keeper)]))


# Choosing contacts and frames


def placed(rng, keeper, contact_id, flags):
    """A contact with these flags: lifts at the stored position, everything else anywhere."""
    optional = corpus.random_optional(rng, None if rng.random() < 0.3 else 0)
    if flags in POSITION_KEPT:
        place = keeper.place(contact_id)
        x, y = place.x, place.y
    else:
        x, y = position(rng)
    return house.Contact(kind=1, flags=flags, id=contact_id, x=x, y=y, **optional)


def position(rng):
    if rng.random() < 0.1:
        return corpus.random_value(rng, corpus.S4), corpus.random_value(rng, corpus.S4)
    return rng.randint(-40, 2000), rng.randint(-40, 1200)


def offset(rng):
    return corpus.random_value(rng, corpus.U8) if rng.random() < 0.1 else rng.choice((0, 1, 8333, 16667))


def legal_flags(state):
    return [flags for flags in NEXT_STATE if state in NEXT_STATE[flags]]


def conforming(rng, keeper, ids, most_contacts=4):
    """A frame that conforms: legal flags for some of the ids, never too many active after it."""
    chosen = rng.sample(ids, rng.randint(1, min(most_contacts, len(ids))))
    active = len(keeper.active)
    contacts = []
    for contact_id in chosen:
        state = keeper.place(contact_id).state
        flags = rng.choice(legal_flags(state))
        change = (NEXT_STATE[flags][state] != OUT) - (state != OUT)
        if active + change <= keeper.max_touch_contacts:
            active += change
            contacts.append(placed(rng, keeper, contact_id, flags))
    rng.shuffle(contacts)
    return frame(*contacts, offset=offset(rng))


def spoiled(rng, keeper, ids):
    """A frame with one fault, mostly in its last contact, after good ones."""
    contacts = list(conforming(rng, keeper, ids).contacts)
    way = rng.randrange(5)
    fresh = [each for each in ids if each not in [one.id for one in contacts]] or ids
    if way == 0:
        contact_id = rng.choice(fresh)
        illegal = [flags for flags in house.FLAGS if flags not in legal_flags(keeper.place(contact_id).state)]
        contacts.append(placed(rng, keeper, contact_id, rng.choice(illegal)))
    elif way == 1 and contacts:
        twice = rng.choice(contacts)
        contacts.append(rng.choice((twice, placed(rng, keeper, twice.id, rng.choice(house.FLAGS)))))
    elif way == 2:
        contacts.append(moved_lift(rng, keeper, rng.choice(fresh)))
    elif way == 3:
        contacts += crowd(rng, keeper, fresh)
    else:
        contacts.append(placed(rng, keeper, rng.choice(fresh), 0x1A))
    if rng.random() < 0.2:
        rng.shuffle(contacts)
    return frame(*contacts[: eras.most_contacts(keeper)], offset=offset(rng))


def moved_lift(rng, keeper, contact_id):
    place = keeper.place(contact_id)
    dx, dy = rng.choice(((1, 0), (-1, 0), (0, 1), (0, -1)))
    x, y = bounded(place.x + dx), bounded(place.y + dy)
    return contact(contact_id, rng.choice(POSITION_KEPT), x, y)


def bounded(value):
    return max(corpus.S4.lowest, min(corpus.S4.highest, value))


def crowd(rng, keeper, ids):
    """Arrivals of every id that is out of range."""
    out = [each for each in ids if keeper.place(each).state == OUT]
    return [placed(rng, keeper, each, rng.choice((0x0A, 0x19))) for each in out]


def opening(rng, keeper, ids, conforms=True):
    """A frame that opens by presses; one that does not conform has an id twice or too many."""
    limit = eras.most_contacts(keeper)
    most = min(keeper.max_touch_contacts, len(ids), limit - 1)
    count = rng.randint(1, max(1, min(most, 5)))
    chosen = rng.sample(ids, min(count, len(ids)))
    if not conforms and rng.random() < 0.5:
        chosen.append(rng.choice(chosen))
    elif not conforms:
        chosen = list(ids)[: min(most + 1, limit)]
    return frame(*(placed(rng, keeper, each, 0x19) for each in chosen), offset=offset(rng))


def unopening(rng, keeper, ids):
    """Lifts, updates, arrivals by hovering, mixtures: nothing of it opens where presses alone do."""
    chosen = rng.sample(ids, rng.randint(0, min(3, len(ids))))
    contacts = [placed(rng, keeper, each, rng.choice(house.FLAGS)) for each in chosen]
    if contacts and rng.random() < 0.5:
        other = rng.choice([flags for flags in house.FLAGS if flags != 0x19])
        contacts[-1] = placed(rng, keeper, contacts[-1].id, other)
    return frame(*contacts, offset=offset(rng))


def next_frame(rng, keeper, ids, faults=0.15):
    if rng.random() < 0.04:
        return frame(offset=offset(rng))
    if keeper.running:
        return spoiled(rng, keeper, ids) if rng.random() < faults else conforming(rng, keeper, ids)
    way = rng.random()
    if way < 0.5:
        return unopening(rng, keeper, ids)
    return opening(rng, keeper, ids, conforms=way < 0.85)


def some_frames(rng, keeper, ids, count, faults=0.15):
    """Frames of one message, each chosen by what the ones before it leave."""
    frames = []
    for _ in range(count):
        one = next_frame(rng, keeper, ids, faults)
        frames.append(one)
        keeper, _, _ = receiver.frame_step(keeper, one)
    return frames


# Bringing one contact into a state

ROUTES = {
    (OUT, HOVERING): (0x0A,),
    (OUT, ENGAGED): (0x19,),
    (HOVERING, OUT): (0x02,),
    (HOVERING, ENGAGED): (0x19,),
    (ENGAGED, OUT): (0x04,),
    (ENGAGED, HOVERING): (0x0C,),
}


def approach(rng, keeper, contact_id, start):
    """Frames after which the receiver is running and the contact in the wanted state, or is ignoring."""
    frames = []

    def add(one):
        nonlocal keeper
        frames.append(one)
        keeper, _, _ = receiver.frame_step(keeper, one)

    if start == IGNORING:
        if keeper.running:
            add(frame(*[placed(rng, keeper, contact_id, 0x0A)] * 2))
        return frames, keeper
    if not keeper.running:
        add(frame(placed(rng, keeper, contact_id, 0x19)))
    for flags in ROUTES.get((keeper.place(contact_id).state, start), ()):
        add(frame(placed(rng, keeper, contact_id, flags)))
    return frames, keeper


def all_lifted(keeper):
    """One frame after which no contact is active."""
    leaving = {HOVERING: 0x02, ENGAGED: 0x04}
    return frame(*(contact(each, leaving[place.state], place.x, place.y) for each, place in keeper.active.items()))
