"""The five integers ([MS-RDPEI] 2.2.2.1 to 2.2.2.5), read in any length or strictly, and written.

Byte one holds from the top: the further byte count c, a sign bit where the kind
is signed, and the most significant value bits. The other bytes follow, most
significant first. Signed values are sign and magnitude. No length is demanded
of a value, so other makers pad; writers use the fewest bytes.
"""

from functools import lru_cache
from typing import NamedTuple

from .output import written
from .refusals import BAD_RANGE, NOT_SHORTEST, TRUNCATED, refuse_unless


class Kind(NamedTuple):
    name: str
    c_bits: int
    signed: bool

    @property
    def bits_in_byte_one(self):
        return 8 - self.c_bits - (1 if self.signed else 0)

    @property
    def longest(self):
        """The most bytes that c can announce."""
        return 1 << self.c_bits

    def largest(self, length):
        """The largest magnitude that fits in this many bytes."""
        return (1 << (self.bits_in_byte_one + 8 * (length - 1))) - 1

    @property
    def highest(self):
        return self.largest(self.longest)

    @property
    def lowest(self):
        return -self.highest if self.signed else 0


U2 = Kind("U2", 1, False)
S2 = Kind("S2", 1, True)
U4 = Kind("U4", 2, False)
S4 = Kind("S4", 2, True)
U8 = Kind("U8", 3, False)

KINDS = (U2, S2, U4, S4, U8)


def form(kind, negative, magnitude, length):
    """The bytes of one form, shortest or not; minus zero has forms too."""
    assert 1 <= length <= kind.longest and magnitude <= kind.largest(length)
    value_bits = kind.bits_in_byte_one + 8 * (length - 1)
    number = length - 1
    if kind.signed:
        number = number << 1 | (1 if negative else 0)
    return (number << value_bits | magnitude).to_bytes(length, "big")


def shortest_length(kind, magnitude):
    return next(n for n in range(1, kind.longest + 1) if magnitude <= kind.largest(n))


@lru_cache(maxsize=1 << 16)
def encode(kind, value):
    """The only form of a value: the fewest bytes, zero as positive."""
    refuse_unless(kind.lowest <= value <= kind.highest, BAD_RANGE)
    return form(kind, value < 0, abs(value), shortest_length(kind, abs(value)))


def write(kind, out, value):
    """Checks 10, then 13."""
    return written(out, lambda: encode(kind, value))


def read(kind, rest, strict=False):
    """The value at the front of the rest of a message, and its length.

    Any length that c can say is taken, and minus zero as 0 (request #104); a
    strict reading takes the only form that a writer gives. 5 comes before 6: an
    integer cut short is truncated even where the bytes that are left already
    show that it was padded.
    """
    refuse_unless(len(rest) > 0, TRUNCATED)
    length = (rest[0] >> (8 - kind.c_bits)) + 1
    refuse_unless(len(rest) >= length, TRUNCATED)
    data = bytes(rest[:length])
    value = meaning(kind, data)
    refuse_unless(not strict or data == encode(kind, value), NOT_SHORTEST)
    return value, length


def meaning(kind, data):
    """The value of a form of any length; minus zero means 0."""
    value_bits = kind.bits_in_byte_one + 8 * (len(data) - 1)
    number = int.from_bytes(data, "big")
    magnitude = number & ((1 << value_bits) - 1)
    negative = kind.signed and (number >> value_bits) & 1 == 1
    return -magnitude if negative else magnitude
