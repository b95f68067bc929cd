"""What happened to the set of held ids (request #106) over the messages that a receiver accepted."""

from collections import Counter

from reference import entries, messages, programs, receiver
from reference.receiver import CANCELLED, DOWN_FLAGS, HOVER_FLAGS, IGNORED, LEAVING_FLAGS
from reference.refusals import NONE

MOST_HELD = "held: most ids at once"


def watch(counts, keeper, message):
    """The receiver after a message that it accepts."""
    if message[0] == messages.TOUCH:
        watch_frames(counts, keeper, messages.read_touch(message).frames)
    elif message[0] == messages.DISMISS and not keeper.running:
        counts[f"held: {'an' if message[6] in keeper.held else 'no'} id of the set dismissed"] += 1
    return receiver.receive(keeper, message, bytearray(programs.LENT_TO_READERS))[0]


def watch_frames(counts, keeper, frames):
    for frame in frames:
        after, verdict, _ = receiver.frame_step(keeper, frame)
        watch_frame(counts, keeper, frame, verdict)
        counts[MOST_HELD] = max(counts[MOST_HELD], len(after.held))
        keeper = after


def of_batches(payloads):
    """Over the entries of 'batch'."""
    counts, keeper = Counter(), receiver.Receiver()
    for payload in payloads:
        fed = programs.batch_call(keeper, payload)[2]
        for message, (answer, _) in zip(entries.split(payload[6:])[0], fed):
            if answer.refusal == NONE:
                keeper = watch(counts, keeper, message)
    return counts


# Frames


def watch_frame(counts, keeper, frame, verdict):
    if not keeper.running and frame.contacts:
        counts[f"ignoring: {what_opens(keeper.held, frame)} {verdict}"] += 1
    if verdict in (IGNORED, CANCELLED):
        watch_ids(counts, keeper, frame, "ignored" if verdict == IGNORED else "offending")


def what_opens(held, frame):
    """The frame's flags, and whose ids are held, where the two decide."""
    flags = {each.flags for each in frame.contacts}
    if not flags <= {DOWN_FLAGS, HOVER_FLAGS}:
        return "other flags too,"
    words = " and ".join(f"0x{each:02X}" for each in sorted(flags, reverse=True))
    by_held = {each.flags for each in frame.contacts if each.id in held}
    whose = {0: "none", 1: "".join(f"0x{each:02X}'s" for each in by_held), 2: "both's"}[len(by_held)]
    return f"all {words}, held {whose},"


def watch_ids(counts, keeper, frame, kind):
    """The ids that the frame lists, by its last flags for each."""
    listed = {}
    for each in frame.contacts:
        listed.setdefault(each.id, []).append(each.flags)
    counts["held: active at the cancel, not in the offending frame"] += len(keeper.active.keys() - listed.keys())
    for flags in listed.values():
        leaves = flags[-1] in LEAVING_FLAGS
        counts[f"held: {'out' if leaves else 'in'} by 0x{flags[-1]:02X} of a frame {kind}"] += 1
        if len(flags) > 1 and leaves != (flags[0] in LEAVING_FLAGS):
            counts[f"held: {'out' if leaves else 'in'} by the last of several flags"] += 1
