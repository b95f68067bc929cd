"""The rules by which entries were made up.

The receiver's rules changed, and a part of a corpus that was there before stays as it is: its frames are chosen by a
receiver of that time, and only the answers are those of today.
"""

from dataclasses import dataclass

from reference import house, messages, old_heads, programs
from reference.receiver import Receiver
from reference.refusals import NOT_SHORTEST, Refused

UNPADDED = "before request #104"  # padded integers were refused
PRESSED = "before request #106"  # presses alone opened
NARROW = "before request #107"  # a frame had at most 63 contacts
TODAY = "today"

ALL_IDS = frozenset(range(256))


@dataclass(frozen=True)
class NarrowReceiver(Receiver):
    """The limit is kept by 'seen', and by whoever chooses frames."""


@dataclass(frozen=True)
class PressedReceiver(NarrowReceiver):
    """Holds every id while it ignores, so that no hovering frame opens."""

    def __post_init__(self):
        object.__setattr__(self, "held", frozenset() if self.running else ALL_IDS)


def fresh_keepers():
    """A receiver of each time."""
    return {UNPADDED: PressedReceiver(), PRESSED: PressedReceiver(), NARROW: NarrowReceiver(), TODAY: Receiver()}


def most_contacts(keeper):
    """In a frame that such a receiver reads."""
    return old_heads.MOST_CONTACTS if isinstance(keeper, NarrowReceiver) else house.MOST_CONTACTS


def seen(era, message):
    """What a receiver of that time gets: for a message that was refused then, an empty one, which is always refused."""
    refused = (era == UNPADDED and is_padded(message)) or (era != TODAY and is_wide(message))
    return b"" if refused else message


def is_padded(message):
    """Whether a strict reading refuses it by 6."""
    refusal = messages.plain_strictly(message, bytearray(programs.LENT_TO_READERS)).refusal
    return refusal == NOT_SHORTEST


def is_wide(message):
    """Whether it is read today and has a frame of more contacts than were allowed; any other answers what it did."""
    try:
        frames = messages.read_touch(message).frames
    except Refused:
        return False
    return any(len(frame.contacts) > old_heads.MOST_CONTACTS for frame in frames)


class Sender:
    """What is sent to one fresh receiver.

    'receiver' goes by today's rules; 'keeper' is what entries are chosen by, and goes by those of the era.
    """

    def __init__(self):
        self.entries = []
        self.keepers = fresh_keepers()
        self.era = UNPADDED

    @property
    def receiver(self):
        return self.keepers[TODAY]

    @property
    def keeper(self):
        return self.keepers[self.era]

    def take_up(self, other):
        """Goes on from where another one is."""
        self.keepers, self.era = dict(other.keepers), other.era
