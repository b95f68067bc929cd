"""Lent output: filled from its first byte, or left as it was."""

from typing import NamedTuple

from .refusals import NO_ROOM, NONE, Refused, refuse_unless


class Written(NamedTuple):
    """A writer's answer. A refusal has every other field 0."""

    refusal: int
    bytes: int


def put(out, data):
    """Put data at the front of the lent output and touch nothing past it."""
    refuse_unless(len(data) <= len(out), NO_ROOM)
    out[: len(data)] = data


def written(out, make):
    """Run a writer: all that it checks comes in make(), before the room (13)."""
    try:
        data = make()
        put(out, data)
    except Refused as refused:
        return Written(refused.number, 0)
    return Written(NONE, len(data))
