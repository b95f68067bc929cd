"""The head as it was before request #107, when a frame had at most 63 contacts.

Record files of that time are read today, and readers of that time get today's records: both by these definitions.
"""

from . import house

MOST_CONTACTS = 63

LAYOUT = (("kind", 2), ("count", 6), ("offset", 61), ("unused", 99))


def pack(head):
    return house.pack(LAYOUT, {"kind": house.HEAD_KIND, **head._asdict()})


def unpack(record):
    values = house.split(LAYOUT, record)
    return house.Head(values["count"], values["offset"])


def well_formed(record):
    """Of a head; a count that is too great was never to be had from six bits."""
    return house.split(LAYOUT, record)["unused"] == 0
