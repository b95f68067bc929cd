"""The panel's end of the channel (request #101; [MS-RDPEI] 3.3.1.1, 3.3.5.1 to 3.3.5.6)."""

from dataclasses import dataclass, replace

from . import messages
from .keeper import Keeper, active_after, active_without, conforms, hovers, judges_first_offset, with_settings
from .output import Written, put
from .refusals import BAD_OFFSET, ILLEGAL, NONE, NOT_READY, SUSPENDED, Refused, refuse_unless


@dataclass(frozen=True)
class Panel(Keeper):
    """'ready' and the settings come with the client ready that it writes."""

    server_ready: bool = False
    suspended: bool = False


# What arrives


def take(panel, message):
    """The panel after a message that arrived, and the refusal."""
    try:
        return judge(panel, message), NONE
    except Refused as refused:
        return panel, refused.number


def judge(panel, message):
    """Checks 1 to 4, then 5, 8, 12."""
    taken = (messages.SUSPEND, messages.RESUME) if panel.server_ready else (messages.SERVER_READY,)
    event, body = messages.open_message(message, taken)
    if event == messages.SERVER_READY:
        messages.server_ready_body(body)
        return replace(panel, server_ready=True)
    messages.header_only_body(body)
    return replace(panel, suspended=event == messages.SUSPEND)


# What is written


def write_ready(panel, out, ready):
    """Checks 15, 8, 13."""

    def make():
        refuse_unless(panel.server_ready and not panel.ready, NOT_READY)
        return with_settings(panel, ready), messages.client_ready_message(ready)

    return written_by(panel, out, make)


def write_touch(panel, out, encode_time, records):
    """Checks 10, 14, 15, 16, 17, 11, 7, 2, 13."""

    def make():
        touch = messages.touch_of(encode_time, records)
        refuse_unless(panel.ready, NOT_READY)
        refuse_unless(not panel.suspended, SUSPENDED)
        after = after_frames(panel, touch.frames)
        refuse_unless(first_offset_allowed(panel, touch.frames), BAD_OFFSET)
        return after, messages.touch_message(touch)

    return written_by(panel, out, make)


def after_frames(panel, frames):
    """17 is judged over all frames, past the 64th too, each from what the one before leaves."""
    for frame in frames:
        refuse_unless(conforms(panel, frame), ILLEGAL)
        panel = replace(panel, before_first_frame=False, active=active_after(panel, frame))
    return panel


def first_offset_allowed(panel, frames):
    return len(frames) == 0 or frames[0].offset == 0 or not judges_first_offset(panel)


def write_dismiss(panel, out, contact_id):
    """Checks 15, 17, 13. A panel may dismiss while suspended."""

    def make():
        refuse_unless(panel.ready, NOT_READY)
        refuse_unless(hovers(panel, contact_id), ILLEGAL)
        after = replace(panel, active=active_without(panel, contact_id))
        return after, messages.dismiss_message(contact_id)

    return written_by(panel, out, make)


def written_by(panel, out, make):
    """The panel after a call that writes, and the answer. A refusal leaves the panel and the output as they were."""
    try:
        after, message = make()
        put(out, message)
    except Refused as refused:
        return panel, Written(refused.number, 0)
    return after, Written(NONE, len(message))
