"""Many messages in one call (request #102): a buffer of bench-file entries for one receiver."""

from typing import NamedTuple

from . import entries, house
from .receiver import receive
from .refusals import BAD_BATCH, NONE


class Batch(NamedTuple):
    """The answer to a batch. A refusal has every other field 0."""

    refusal: int = NONE
    entries: int = 0
    records: int = 0


def receive_all(receiver, buffer, answers, output):
    """The receiver after a whole buffer, and the answer to it; each entry's own answer goes into the lent list.

    An entry is fed as if singly, with the output that the ones before it left.
    18 comes before anything is fed: receiver, list and output stay as they were.
    """
    payloads, cut = entries.split(buffer)
    if cut or len(answers) < len(payloads):
        return receiver, Batch(BAD_BATCH)
    left = memoryview(output)
    for place, payload in enumerate(payloads):
        receiver, answers[place] = receive(receiver, payload, left)
        left = left[answers[place].records * house.LENGTH :]
    written = sum(answer.records for answer in answers[: len(payloads)])
    return receiver, Batch(NONE, len(payloads), written)
