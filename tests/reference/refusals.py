"""The refusal numbers.

Fourteen of the rules ("Refusal numbers and their order"), 15 to 17 of request #101, 18 of request #102.
Since request #104 6 is given by strict readings alone.
"""

NONE = 0
SHORT = 1
TOO_LONG = 2
UNEXPECTED = 3
BAD_LENGTH = 4
TRUNCATED = 5
NOT_SHORTEST = 6
BAD_COUNT = 7
BAD_FIELD = 8
BAD_FLAGS = 9
BAD_RANGE = 10
BAD_OFFSET = 11
TRAILING = 12
NO_ROOM = 13
BAD_RECORD = 14
NOT_READY = 15
SUSPENDED = 16
ILLEGAL = 17
BAD_BATCH = 18

NAMES = {
    NONE: "accepted",
    SHORT: "Short",
    TOO_LONG: "TooLong",
    UNEXPECTED: "Unexpected",
    BAD_LENGTH: "BadLength",
    TRUNCATED: "Truncated",
    NOT_SHORTEST: "NotShortest",
    BAD_COUNT: "BadCount",
    BAD_FIELD: "BadField",
    BAD_FLAGS: "BadFlags",
    BAD_RANGE: "BadRange",
    BAD_OFFSET: "BadOffset",
    TRAILING: "Trailing",
    NO_ROOM: "NoRoom",
    BAD_RECORD: "BadRecord",
    NOT_READY: "NotReady",
    SUSPENDED: "Suspended",
    ILLEGAL: "Illegal",
    BAD_BATCH: "BadBatch",
}


class Refused(Exception):
    """Raised at the first fault, so that the order of reading is the order of refusals."""

    def __init__(self, number):
        super().__init__(f"{number} {NAMES[number]}")
        self.number = number


def refuse_unless(holds, number):
    if not holds:
        raise Refused(number)
