"""Writes the corpora of the panel's programs below OUTDIR.

panel/stdin and stdout: a panel with time stamps (ready flags 1) that may have 70 contacts active.
sent/stdin and stdout: a panel without (ready flags 3) that may have 10, in long use.
more/sent-by-a-panel.stdin and .stdout: what 'sent' wrote, and what 'bench' prints for it; one of the further histories.
by-hand/wide-mostN.stdin, .panel.stdout and .sent.stdout: panels that may have 255 or 256 contacts active, and what both
programs give for them; what they sent is a further history each, more/wide-sent-by-a-panel-mostN.
"""

import itertools
import os
import random

import corpus
import make_writer
import wide_play
from corpus import contact, frame, head_record, message
from histories import STARTS, all_lifted, approach, placed
from panel_faults import faulty_arrivals, faulty_dismissals, faulty_readies, faulty_touches, there_and_back
from panels import (
    AMPLE,
    RESUME,
    SUSPEND,
    V100,
    V101,
    Calls,
    bad_entries,
    dismiss,
    ready,
    server_ready,
    take,
    touch,
    touch_records,
    walk,
)
from reference import entries, house, programs
from reference.integers import S4, U8
from reference.keeper import ENGAGED, HOVERING, POSITION_KEPT

SEED = 20260301

IDS = [0, 1, 2, 3, 5, 17, 64, 127, 128, 200, 254, 255]
PANEL_MOST = 70
SENT_MOST = 10

# The faults of a touch but that of a long message, for states in which it adds little.
SHORT_FAULTS = (10, 14, 17, 11, 7, 13)


# Before server ready


def before_server_ready(calls):
    """Nothing can be written, and of all that arrives only event 1 is looked into."""
    calls.bad(*bad_entries())
    faulty_readies(calls, PANEL_MOST)
    faulty_touches(calls)
    faulty_dismissals(calls, (0, 9, 255))
    calls.refused(15, touch(), touch(frame()))
    calls.refused(3, take(SUSPEND), take(RESUME))
    damaged_server_readies(calls)
    calls.refused(15, ready(0, V101, PANEL_MOST))


def damaged_server_readies(calls):
    good = server_ready(V101)
    body = good[6:]
    faulty_arrivals(calls, good)
    calls.refused(1, *(take(good[:length]) for length in range(6)), take(b"\xff" * 5))
    calls.refused(2, take(bytes(4097)), take(bytes(entries.LONGEST_ENTRY - 1)))
    for event in (0, 2, 3, 4, 5, 6, 7, 0x0101, 0x0100, 0x8001, 0xFFFF):
        calls.refused(3, take(message(event, body)), take(message(event, b"", 0)))
    for length in (0, 6, 9, 11, 10 << 8, 10 | 1 << 16, 10 | 1 << 31, 0xFFFFFFFF):
        calls.refused(4, take(message(1, body, length)))
    calls.refused(5, *(take(message(1, body[:length])) for length in range(4)))
    for version in (0, 1, 0xFFFF, 0x00010002, 0x00020000, 0x00010000 << 8, 0x01000100, 0xFFFFFFFF):
        calls.refused(8, take(server_ready(version)), take(message(1, server_ready(version)[6:] + b"\0")))
    calls.refused(12, *(take(message(1, body + bytes(more))) for more in (1, 2, 4, 4086)))
    calls.refused(2, take(message(1, body + bytes(4087))))


# Between server ready and client ready


def before_client_ready(calls):
    """Suspend and resume are taken already, a second server ready is not; client ready is written while suspended."""
    calls.refused(3, take(server_ready(V101)), take(server_ready(V100)), take(message(1, b"\1\0", 3)))
    calls.refused(3, *(take(message(event, bytes(10))) for event in (0, 2, 3, 6, 7, 0x0104)))
    calls.bad(b"", *itertools.islice(bad_entries(), 8, 20))
    faulty_touches(calls, SHORT_FAULTS)
    faulty_dismissals(calls, (0, 9))
    damaged_suspends(calls)
    long_suspends(calls)
    calls.accepted(take(SUSPEND), take(RESUME), take(RESUME), take(SUSPEND), take(SUSPEND))
    # 15 comes before 16.
    calls.refused(15, touch(), touch(frame()), dismiss(0))
    faulty_touches(calls, SHORT_FAULTS)
    faulty_readies(calls, PANEL_MOST)
    calls.accepted(ready(1, V101, PANEL_MOST, 16))
    faulty_readies(calls, PANEL_MOST)


def damaged_suspends(calls):
    """A header has no field that could be missing or wrong: 5 and 8 are never given."""
    faulty_arrivals(calls, SUSPEND, (1, 3, 4, 12))
    faulty_arrivals(calls, RESUME, (1, 3, 4, 12))


def long_suspends(calls):
    faulty_arrivals(calls, SUSPEND, (2, 3, 4, 12))
    calls.refused(12, take(message(SUSPEND[0], bytes(4090))))
    calls.refused(2, take(message(RESUME[0], bytes(4091))))


def suspended_from_the_start(calls):
    calls.refused(16, touch(), touch(frame()), touch(time=(1 << 30) - 1))
    calls.refused(10, touch(time=1 << 30))
    calls.refused(14, touch_records(b"\0"))
    faulty_touches(calls)
    faulty_dismissals(calls, (0, 9, 255))
    damaged_suspends(calls)
    calls.refused(16, touch(frame()))
    calls.accepted(take(RESUME), take(RESUME))


# The first frame (refusal 11)


def first_frames(calls):
    """As long as no message with a frame is written: a refused one does not count, nor does one without frames."""
    down, there = contact(1, 0x19, 100, 50), contact(1, 0x1A, 101, 51)
    calls.accepted(touch(time=9), touch())
    faulty_touches(calls)
    for offset in (1, 31, 32, U8.highest):
        calls.refused(11, touch(frame(down, offset=offset)), touch(frame(offset=offset)))
        # 17 in a later frame comes before 11 in the first.
        calls.refused(17, touch(frame(down, offset=offset), frame(down)))
    calls.refused(17, touch(frame(there)), touch(frame(down), frame(down)))
    calls.refused(13, touch(frame(down), room=16), touch(frame(), room=9))
    calls.refused(17, dismiss(1))
    calls.accepted(touch())
    calls.refused(11, touch(frame(down, offset=1), frame(there)))
    calls.accepted(touch(frame(), frame(down, offset=16000), time=9, room=21))
    calls.accepted(touch(frame(there, offset=16000)), touch(frame(offset=U8.highest)))
    calls.accepted(touch(frame(contact(1, 0x04, 101, 51), offset=1)))
    faulty_touches(calls)


def first_frame_without_time(calls):
    """With ready flag 2 any offset is written."""
    down = contact(1, 0x19, 100, 50)
    calls.accepted(touch(time=(1 << 30) - 1))
    calls.refused(17, touch(frame(down, offset=77), frame(down)))
    calls.accepted(touch(frame(down, offset=77)), touch(frame(contact(1, 0x24, 100, 50), offset=U8.highest)))
    faulty_touches(calls)


# Limits


def limits(calls):
    frame_counts(calls)
    lengths(calls)
    calls.accepted(touch(time=(1 << 30) - 1), touch(*there_and_back([9]), time=(1 << 30) - 1))
    calls.refused(10, *(touch(time=time) for time in (1 << 30, (1 << 30) + 1, 1 << 31, (1 << 32) - 1)))
    for name, good, wrong in (("orientation", 359, 360), ("pressure", 65000, 65001)):
        calls.accepted(touch(frame(contact(9, 0x0A, **{name: good})), frame(contact(9, 0x02))))
        calls.refused(14, touch(frame(contact(9, 0x0A, **{name: wrong})), frame(contact(9, 0x02))))
    for room in (22, 23, AMPLE, AMPLE + 1, 0xFFFF):
        calls.accepted(touch(*there_and_back([9]), room=room))
    calls.refused(13, *(touch(*there_and_back([9]), room=room) for room in (0, 1, 6, 21)))
    calls.refused(13, touch(room=7))
    calls.accepted(touch(room=8))


def frame_counts(calls):
    """17 is judged over all frames, past the 64th too, each from what the one before leaves."""
    come, go, never = frame(contact(9, 0x0A, 1, 1)), frame(contact(9, 0x02)), frame(contact(9, 0x1A))
    calls.accepted(touch(frame(), *empty(63)), touch(*empty(62), come, go))
    calls.refused(7, touch(*empty(65)), touch(*empty(66)), touch(*empty(200)))
    # Legal only from what the 64th leaves, and illegal only from that.
    calls.refused(7, touch(*empty(63), come, go), touch(*empty(64), come, come))
    calls.refused(17, touch(*empty(62), come, go, go))
    calls.refused(17, touch(*empty(64), never), touch(*empty(63), never, come), touch(*empty(63), come, never))
    calls.refused(17, touch(never, *empty(64)), touch(*empty(100), come, go, go))
    calls.refused(14, touch_records(corpus.records_of([*empty(64), never]) + head_record(1)))
    # The most records that an entry holds.
    most = (entries.LONGEST_ENTRY - len(touch())) // house.LENGTH
    calls.refused(17, touch(*empty(most - 6), come, go, never))


def empty(count):
    return [frame(offset=3)] * count


def lengths(calls):
    """4,096 bytes are written, 4,097 are not, whatever the room."""
    frames = there_and_back([9, 10, 11], 54)
    longest, longer = corpus.stretched(frames, 4096), corpus.stretched(frames, 4097)
    calls.accepted(touch(*corpus.stretched(frames, 4095)), touch(*longest), touch(*longest, room=0xFFFF))
    calls.refused(13, touch(*longest, room=4095), touch(*longest, room=0))
    calls.refused(2, touch(*longer), touch(*longer, room=0xFFFF), touch(*longer, room=0))
    never = frame(contact(9, 0x04, 5, 6))
    calls.refused(17, touch(*longer, never))
    calls.refused(7, touch(*longer, *[frame()] * 9))


def crowds(calls):
    """maxTouchContacts active, and one more; as many in one frame as it held before request #107."""
    most = calls.panel.max_touch_contacts
    if calls.panel.active:
        calls.accepted(touch(all_lifted(calls.panel)))
    arrivals = [contact(255 - each, 0x19 if each % 3 else 0x0A, each, -each) for each in range(most + 2)]
    groups = [frame(*arrivals[at : min(at + 63, most)]) for at in range(0, most, 63)]
    # All frames conform but the last: nothing of the message is kept.
    calls.refused(17, touch(*groups, frame(arrivals[most])))
    calls.accepted(*(touch(group) for group in groups))
    calls.refused(17, touch(frame(arrivals[most])), touch(frame(arrivals[most]._replace(flags=0x0A))))
    updates = [each._replace(flags=0x1A if each.flags == 0x19 else 0x0A, x=7) for each in arrivals]
    calls.accepted(touch(frame(*updates[: min(63, most)])))
    # One comes as another leaves, in either order; two do not.
    gone, back = updates[1]._replace(flags=0x04), updates[1]._replace(flags=0x19)
    calls.refused(17, touch(frame(arrivals[most], gone, arrivals[most + 1])))
    calls.accepted(touch(frame(arrivals[most], gone)))
    calls.refused(17, touch(frame(back)))
    calls.accepted(dismiss(updates[0].id), touch(frame(back)))
    lifts = [contact(each, LEAVING[place.state], place.x, place.y) for each, place in calls.panel.active.items()]
    calls.accepted(*(touch(frame(*lifts[at : at + 63])) for at in range(0, most, 63)))


LEAVING = {HOVERING: 0x22, ENGAGED: 0x24}


# The states


def positions(calls):
    """Lifts at the stored position and beside it, at the ends of the range too. A refused one may be tried again."""
    for flags in POSITION_KEPT:
        for x, y in ((100, 50), (0, 0), (S4.highest, S4.lowest), (S4.lowest, S4.highest)):
            calls.accepted(touch(frame(contact(7, 0x19, x, y))))
            for dx, dy in ((1, 0), (-1, 0), (0, 1), (0, -1)):
                if max(abs(x + dx), abs(y + dy)) <= S4.highest:
                    calls.refused(17, touch(frame(contact(7, flags, x + dx, y + dy))))
            calls.accepted(touch(frame(contact(7, flags, x, y))))
            if flags == 0x0C:
                calls.accepted(touch(frame(contact(7, 0x02))))
    # The position of the last update counts, in this message or an earlier one, not that of the first touch.
    down, moved = contact(7, 0x19, 5, 6), contact(7, 0x1A, 6, 5)
    calls.refused(17, touch(frame(down), frame(moved), frame(contact(7, 0x04, 5, 6))))
    calls.accepted(touch(frame(down), frame(moved), frame(contact(7, 0x04, 6, 5))))
    calls.accepted(touch(frame(down)), touch(frame(moved)))
    calls.refused(17, touch(frame(contact(7, 0x24, 5, 6))))
    calls.accepted(touch(frame(contact(7, 0x24, 6, 5))))


def whole_messages(calls):
    """One fault, in whatever contact of whatever frame, and nothing of the message is kept."""
    down, hover, other = contact(1, 0x19, 5, 6), contact(2, 0x0A, 9, 9), contact(3, 0x19, 1, 1)
    calls.refused(17, touch(frame(down, hover, down)), touch(frame(hover, hover)), touch(frame(down, down)))
    calls.refused(17, touch(frame(down, hover), frame(other), frame(contact(4, 0x1A))))
    calls.refused(17, touch(frame(down, contact(4, 0x02), hover)), touch(frame(down), frame(hover), frame(down)))
    calls.accepted(touch(frame(down, hover)), touch(frame(other), frame()))
    # Legal from the state before the frame, not from what the frame's earlier contacts leave.
    calls.refused(17, touch(frame(contact(4, 0x19), contact(4, 0x04))), touch(frame(hover, hover)))
    calls.refused(17, touch(frame(contact(1, 0x1A, 7, 7), contact(3, 0x04, 1, 2))))
    calls.accepted(touch(frame(contact(1, 0x04, 5, 6), contact(3, 0x0C, 1, 1), contact(2, 0x19, 8, 8))))
    calls.accepted(touch(all_lifted(calls.panel)), touch(frame()))


def flag_pairs(calls, rng):
    """Two flags one after the other on one contact, from each state; what is refused changes nothing for the next."""
    for start, *flags in itertools.product(STARTS, house.FLAGS, house.FLAGS):
        contact_id = rng.choice(IDS[:6])
        frames, _ = approach(rng, calls.keeper, contact_id, start)
        calls.accepted(touch(*frames))
        for each in flags:
            calls.call(touch(frame(placed(rng, calls.keeper, contact_id, each))))
    calls.accepted(touch(all_lifted(calls.panel)))


def dismissals(calls):
    """Only a hovering contact may be dismissed, and it is out of range then."""
    for contact_id in (0, 1, 255):
        hover, down = contact(contact_id, 0x0A, 3, 4), contact(contact_id, 0x19, 5, 6)
        faulty_dismissals(calls, [contact_id])
        calls.accepted(touch(frame(hover)))
        faulty_dismissals(calls, [contact_id, contact_id ^ 0x55])
        calls.accepted(dismiss(contact_id, 7))
        calls.refused(17, dismiss(contact_id), touch(frame(contact(contact_id, 0x02, 3, 4))))
        calls.accepted(touch(frame(down)))
        faulty_dismissals(calls, [contact_id])
        calls.accepted(touch(frame(contact(contact_id, 0x0C, 5, 6))), dismiss(contact_id, 0xFFFF))
    # Dismissals take nothing away from the others.
    calls.accepted(touch(frame(*(contact(each, 0x19, each, each) for each in (4, 5, 6)))))
    calls.accepted(touch(frame(*(contact(each, 0x0C, each, each) for each in (4, 6)))))
    calls.refused(17, dismiss(3), dismiss(5), dismiss(7))
    calls.accepted(dismiss(6), dismiss(4), touch(frame(contact(5, 0x04, 5, 5))))


def suspensions(calls):
    """Touch is 16, dismissals are written, contacts are kept. One resume ends what several suspends began."""
    hover, down, lift = contact(20, 0x0A, 3, 4), contact(21, 0x19, 5, 6), contact(21, 0x04, 5, 6)
    calls.accepted(touch(frame(hover, down, contact(22, 0x0A))))
    damaged_suspends(calls)
    calls.accepted(touch(frame(contact(22, 0x0A, 1, 1))))
    calls.accepted(take(SUSPEND))
    calls.refused(16, touch(frame(lift)), touch(), touch(frame(hover), room=0), touch(frame(down)))
    calls.refused(15, ready(0, V101, 5), ready(8, V101, 5))
    faulty_dismissals(calls, (20, 21, 23))
    calls.accepted(dismiss(20))
    calls.refused(17, dismiss(20), dismiss(21))
    calls.accepted(take(SUSPEND))
    damaged_suspends(calls)
    calls.refused(16, touch(frame(lift)))
    calls.refused(3, take(server_ready(V101)))
    calls.accepted(take(RESUME))
    calls.refused(17, touch(frame(contact(20, 0x02, 3, 4))), touch(frame(contact(21, 0x04, 0, 0))))
    calls.accepted(touch(frame(contact(22, 0x0A, 2, 2))), touch(frame(lift)), take(RESUME), take(RESUME))
    calls.accepted(touch(frame(contact(22, 0x19))), take(SUSPEND))
    calls.refused(16, touch(frame(contact(22, 0x04))))
    calls.accepted(take(RESUME), touch(frame(contact(22, 0x04))))


# Records


def damaged_records(calls):
    """The touch writer's damaged records (14); some are good in themselves, and then the contacts decide."""
    for group in (make_writer.damaged_records, make_writer.wrong_orders, make_writer.not_whole):
        for payload in group():
            if len(payload) >= 4:
                calls.call(touch_records(payload[4:], int.from_bytes(payload[:4], "big")))
    if calls.panel.active:
        calls.accepted(touch(all_lifted(calls.panel)))


# Frames of up to 256 contacts (request #107)

WIDE_MOST = (255, 256)


def at_rest(calls):
    if calls.panel.active:
        calls.accepted(touch(all_lifted(calls.panel)))


def ill_heads():
    """A head of more than 256 contacts, which are there or not: 14."""
    yield corpus.records_of([wide_play.wide(wide_play.TOO_MANY)])
    yield from (head_record(count) for count in (257, 320, 511))


def wide_frames(calls, counts):
    """Wider frames than contacts may be active: 17, as long as they are heads at all."""
    most = calls.panel.max_touch_contacts
    at_rest(calls)
    calls.go_on_today()
    calls.refused(17, *(touch(wide_play.wide(count)) for count in (most + 1, *counts) if most < count <= 256))
    calls.refused(14, *map(touch_records, ill_heads()))
    calls.accepted(touch(wide_play.wide(most)), touch(wide_play.wide(most, 0x1A, offset=5)))
    calls.refused(14, *map(touch_records, ill_heads()))
    # 14 comes behind 10, and before 16 and 17.
    calls.refused(10, touch_records(head_record(257), time=1 << 30))
    calls.accepted(take(SUSPEND))
    calls.refused(14, touch_records(head_record(257)))
    calls.refused(16, touch(wide_play.wide(most, 0x04)), touch(wide_play.wide(most)))
    calls.accepted(take(RESUME))


def all_exchanged(calls):
    """A frame of twice as many contacts as may be active: all go, and as many others come; one more is 17."""
    most = calls.panel.max_touch_contacts
    gone, come = wide_play.wide(most, 0x04), wide_play.wide(most, first=most)
    calls.refused(17, touch(wide_play.joined(come, gone, wide_play.wide(1, first=2 * most))))
    calls.refused(17, touch(wide_play.joined(come, gone, wide_play.wide(1, first=most))))
    exchanged = wide_play.joined(come, gone)
    length = len(corpus.touch(0, [exchanged]))
    calls.refused(13, touch(exchanged, room=length - 1))
    calls.accepted(touch(exchanged, room=length))
    at_rest(calls)


def widest(calls):
    """256 contacts at once, where 255 or 256 may be active."""
    verdict = 0 if calls.panel.max_touch_contacts == 256 else 17
    for count in wide_play.COUNTS:
        come, move, go = wide_play.down_moved_up(count, first=256 - count)
        refusal = verdict if count == 256 else 0
        calls.refused(refusal, touch(come, move, go), touch(wide_play.wide(count, 0x0A)))
        calls.refused(refusal, touch(wide_play.wide(count, 0x02, y=3)))
    calls.refused(17, touch(wide_play.twice(0x0A, 0, 255)), touch(wide_play.twice(0x19, 254, 255)))
    calls.accepted(touch(wide_play.wide(255, 0x0A)))
    calls.refused(verdict, touch(wide_play.joined(wide_play.wide(255, 0x0A), wide_play.wide(1, first=255))))
    at_rest(calls)
    for length, refusal in ((4096, verdict), (4097, verdict or 2)):
        at_rest(calls)
        calls.refused(refusal, touch(*corpus.widened(wide_play.moving(), length)))
    at_rest(calls)


def wide_calls(most):
    """A panel whose first frame is a wide one."""
    calls, rng = Calls(), random.Random(f"{SEED} wide {most}")
    calls.go_on_today()
    calls.refused(14, touch_records(head_record(257)))
    calls.refused(15, touch(wide_play.wide(256)))
    calls.accepted(take(server_ready(V101)), ready(1, V101, most))
    calls.refused(11, touch(wide_play.wide(255, offset=1)))
    calls.refused(14, touch(wide_play.wide(257, offset=1)))
    widest(calls)
    wide_frames(calls, ())
    walk(calls, rng, list(range(256)), 60)
    return calls


# Files


def panel_calls():
    calls, rng = Calls(), random.Random(SEED)
    before_server_ready(calls)
    calls.accepted(take(server_ready(V101)))
    before_client_ready(calls)
    suspended_from_the_start(calls)
    first_frames(calls)
    limits(calls)
    positions(calls)
    whole_messages(calls)
    dismissals(calls)
    suspensions(calls)
    damaged_records(calls)
    flag_pairs(calls, rng)
    crowds(calls)
    walk(calls, rng, IDS, 300)
    walk(calls, rng, list(range(256)), 300)
    ready_again(calls)
    wide_frames(calls, wide_play.COUNTS)
    all_exchanged(calls)
    walk(calls, random.Random(SEED + 2), list(range(256)), 40)
    return calls


def sent_calls():
    """Ready flag 2 is not for a server of 1.0.0 alone ([MS-RDPEI] 2.2.3.2), but no refusal is given for it."""
    calls, rng = Calls(), random.Random(SEED + 1)
    calls.bad(*itertools.islice(bad_entries(), 5))
    calls.refused(15, ready(3, V101, SENT_MOST), touch(frame()), dismiss(0))
    faulty_arrivals(calls, server_ready(V100))
    calls.accepted(take(server_ready(V100)))
    faulty_readies(calls, SENT_MOST)
    calls.accepted(ready(3, V101, SENT_MOST, 16))
    faulty_readies(calls, SENT_MOST)
    first_frame_without_time(calls)
    limits(calls)
    positions(calls)
    whole_messages(calls)
    dismissals(calls)
    suspensions(calls)
    flag_pairs(calls, rng)
    crowds(calls)
    walk(calls, rng, IDS, 5500)
    ready_again(calls)
    wide_frames(calls, (64, 256))
    all_exchanged(calls)
    walk(calls, random.Random(SEED + 3), IDS, 100)
    return calls


def ready_again(calls):
    """A walk may end while it is suspended."""
    calls.accepted(take(RESUME))


def input_of(calls):
    """The kept files end whole."""
    return corpus.joined(calls.entries)


def cut_input_of(calls):
    """The last entry would be a good one if its length were; the files to be run by hand end so."""
    return corpus.joined(calls.entries, corpus.cut_entry(touch(frame())))


def check_bench(text):
    """No message is refused, no frame is ignored or cancelled."""
    for line in text.splitlines():
        _, refusal, _, ignored, cancelled, _ = line.split(" ")
        assert (refusal, ignored, cancelled) == ("0", "0", "0"), line


def write_corpus(directory, prefix, stdin, stdout):
    corpus.write_files(directory, {f"{prefix}stdin": stdin, f"{prefix}stdout": stdout})
    corpus.report(f"{directory}: {prefix}stdin {len(stdin)} bytes, {prefix}stdout {len(stdout)} bytes")


def write_sent(directory, name, sent):
    """What a panel sent is a history, of which a receiver takes everything."""
    bench = programs.bench(sent)
    check_bench(bench)
    write_corpus(os.path.join(directory, "more"), f"{name}.", sent, bench)


def write_wide(directory, most, stdin):
    name, sent = f"wide-most{most}", programs.sent(stdin)
    outputs = {f"{name}.panel.stdout": programs.panel(stdin), f"{name}.sent.stdout": sent}
    corpus.write_files(os.path.join(directory, "by-hand"), {f"{name}.stdin": stdin, **outputs})
    write_sent(directory, f"wide-sent-by-a-panel-most{most}", sent)


def main():
    directory = corpus.output_directory()
    calls = panel_calls()
    calls.report("panel")
    stdin = input_of(calls)
    write_corpus(os.path.join(directory, "panel"), "", stdin, programs.panel(stdin))
    calls = sent_calls()
    calls.report("sent")
    stdin = input_of(calls)
    sent = programs.sent(stdin)
    write_corpus(os.path.join(directory, "sent"), "", stdin, sent)
    write_sent(directory, "sent-by-a-panel", sent)
    for most in WIDE_MOST:
        calls = wide_calls(most)
        calls.report(f"wide, most {most}")
        write_wide(directory, most, cut_input_of(calls))


if __name__ == "__main__":
    main()
