"""Batches for one receiver: entries of the program 'batch', what becomes of them, what an output shows."""

from collections import Counter

import corpus
import eras
from corpus import contact, dismiss, frame, touch
from histories import History, all_lifted
from make_bench import walk
from reference import house, programs, receiver
from reference.batch import Batch, receive_all
from reference.refusals import BAD_BATCH, NO_ROOM, NONE

MOST_ROOM = programs.MOST_LENT_TO_BATCH
MOST_PLACES = programs.MOST_PLACES_OF_BATCH
# Needs the second of the four bytes of room, and no other.
AMPLE = 0x00010000
HIGHEST_ROOM, HIGHEST_PLACES = 0xFFFFFFFF, 0xFFFF


def entry(room, places, buffer):
    return room.to_bytes(4, "big") + places.to_bytes(2, "big") + buffer


def room_for(records):
    return records * house.LENGTH


def one(flags, contact_id=1, x=5, y=6, time=0, offset=0):
    """A message of one contact."""
    return touch(time, [frame(contact(contact_id, flags, x, y), offset=offset)])


# Sending


class Host(eras.Sender):
    """Entries for one fresh receiver, and what the reference makes of them."""

    def seen(self, sent):
        """What the keeper gets of a batch: as many entries."""
        return [eras.seen(self.era, message) for message in sent]

    def bad(self, *payloads):
        """Entries too short for room and places."""
        assert all(len(payload) < 6 for payload in payloads)
        self.entries += payloads

    def send(self, sent, room=AMPLE, places=None, tail=b""):
        """A batch of messages, with just as many places unless another number is given: its answer and the entries'."""
        places = len(sent) if places is None else places
        self.entries.append(entry(room, places, corpus.joined(sent, tail)))
        answers = {}
        for era, keeper in self.keepers.items():
            payload = entry(room, places, corpus.joined([eras.seen(era, message) for message in sent], tail))
            self.keepers[era], *answers[era] = programs.batch_call(keeper, payload)
        answer, fed = answers[eras.TODAY]
        return answer, [each for each, _ in fed]

    def fed(self, refusals, sent, **lent):
        """A batch whose entries' refusals are known beforehand."""
        answer, have = self.send(sent, **lent)
        assert (answer.refusal, [each.refusal for each in have]) == (NONE, refusals), have

    def answered(self, *steps, **lent):
        """A batch of entries with the refusal and the frames injected, ignored and cancelled that each answers."""
        answer, have = self.send([message for message, _ in steps], **lent)
        assert (answer.refusal, [each[:4] for each in have]) == (NONE, [want for _, want in steps]), have

    def accepted(self, *sent, **lent):
        self.fed([NONE] * len(sent), sent, **lent)

    def refused(self, sent, **lent):
        """18: the receiver stays as it was."""
        before = self.receiver
        assert self.send(sent, **lent) == (Batch(BAD_BATCH), []) and self.receiver == before

    def rest(self):
        """Batches after which the receiver runs and no contact is active."""
        if not self.keeper.running:
            self.accepted(one(0x19, 0), one(0x04, 0))
        elif self.keeper.active:
            self.accepted(touch(0, [all_lifted(self.keeper)]))

    def input(self, tail=b""):
        return corpus.joined(self.entries, tail)


# Random use


def mixture(host, rng, ids, faults=0.15, play=walk):
    """A batch that is chosen by the receiver's state; room, list and end are mostly good."""
    history = History()
    history.take_up(host)
    play(history, rng, ids, rng.choice((0, 1, 1, 2, 3, 5, 8, 12)), faults)
    sent = history.entries
    tail = corpus.cut_entry(dismiss(1)[: rng.randrange(8)]) if rng.random() < 0.05 else b""
    needed = needed_room(host.keeper, host.seen(sent))
    host.send(sent, random_room(rng, needed), random_places(rng, len(sent)), tail)


def needed_room(keeper, sent):
    """What a batch writes where the room is ample."""
    _, answer = receive_all(keeper, corpus.joined(sent), [None] * len(sent), bytearray(MOST_ROOM))
    return room_for(answer.records)


def random_room(rng, needed):
    ample = (needed, needed + rng.randrange(100), AMPLE, MOST_ROOM, rng.randrange(MOST_ROOM, HIGHEST_ROOM + 1))
    scarce = (max(needed - 1, 0), rng.randrange(needed + 1), needed // 2, needed // house.LENGTH // 3 * house.LENGTH)
    return rng.choice(ample if rng.random() < 0.5 else scarce)


def random_places(rng, count):
    if rng.random() < 0.06:
        return rng.randrange(max(count, 1))
    return rng.choice((count, count, count + 1, count + rng.randrange(50), HIGHEST_PLACES))


# What an output shows


def report(text):
    """Figures of the batches, of their entries, and of the records that were written."""
    rows = [line.split(" ") for line in text.splitlines()]
    corpus.report("batches")
    corpus.report_refusals("".join(" ".join(row) + "\n" for row in rows if "." not in row[0]))
    fed = [row for row in rows if "." in row[0]]
    corpus.report("entries fed")
    corpus.report_refusals("".join(" ".join(row) + "\n" for row in fed))
    for column, verdict in enumerate((receiver.INJECTED, receiver.IGNORED, receiver.CANCELLED), 2):
        corpus.report(f"  frames {verdict:12} {sum(int(row[column]) for row in fed)}")
    records = bytes.fromhex("".join(row[7] for row in fed if row[7:]))
    kinds = Counter(house.kind_of(records[at:]) for at in range(0, len(records), house.LENGTH))
    corpus.report("  records of kinds 0 to 3 " + ", ".join(str(kinds[kind]) for kind in range(4)))
    corpus.report(f"  batches that write records behind a 13: {len(written_behind_no_room(fed))}")


def written_behind_no_room(fed):
    """The batches in which an entry found no room and a later one did."""
    short, found = set(), set()
    for place, refusal, *_, records in (row[:7] for row in fed):
        batch = place.split(".")[0]
        if refusal == str(NO_ROOM):
            short.add(batch)
        elif records != "0" and batch in short:
            found.add(batch)
    return found
