"""Bench-file entries: a 16-bit length, most significant byte first, then that many bytes."""

LONGEST_ENTRY = 0xFFFF


def join(payloads):
    return b"".join(len(payload).to_bytes(2, "big") + payload for payload in payloads)


def split(data):
    """The complete entries, and whether an incomplete last one follows them."""
    payloads = []
    at = 0
    while at < len(data):
        length = int.from_bytes(data[at : at + 2], "big")
        payload = data[at + 2 : at + 2 + length]
        if at + 2 > len(data) or len(payload) < length:
            return payloads, True
        payloads.append(payload)
        at += 2 + length
    return payloads, False
