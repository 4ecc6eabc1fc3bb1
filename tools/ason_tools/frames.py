"""The frames that the nodes of a trace took, as the program `trace_frames` tells them."""

import os
import subprocess
from collections.abc import Iterator
from pathlib import Path

from . import rsvp
from .errors import ToolError
from .program import REPOSITORY
from .rsvp import Message
from .traces import Delivery, Trace

NO_TRACE = 1
"""The status of `trace_frames` where what it reads is no trace of a run."""


NAME = "trace_frames"


def program_path() -> Path:
    """The path of the program: what TRACE_FRAMES names, or what stands beside `ason`, or what `rt` has built here."""
    named = os.environ.get("TRACE_FRAMES")
    if named:
        places = [Path(named)]
    else:
        ason = os.environ.get("ASON")
        beside = Path(ason).parent if ason else REPOSITORY / "out"
        places = [beside / NAME, REPOSITORY / "crates" / NAME / "out" / NAME]
    path = next((place for place in places if place.is_file()), None)
    if path is None:
        where = " nor ".join(str(place) for place in places)
        raise ToolError(f"trace_frames isn't built: neither {where} is there (`rt run trace_frames` builds it, or TRACE_FRAMES names it)")
    return path


def deliveries(data: bytes, trace: Trace) -> list[tuple[Delivery, bytes]]:
    """Each delivery of the trace that these bytes spell, in order, with the bytes of its frame."""
    path = program_path()
    try:
        ended = subprocess.run([str(path)], input=data, stdout=subprocess.PIPE, check=False)
    except OSError as error:
        raise ToolError(f"{path} can't be run: {error.strerror}") from error
    if ended.returncode == NO_TRACE:
        raise ToolError("it is no trace of a run: `ason check` tells where it is wrong")
    if ended.returncode:
        raise ToolError(f"{path} came to no end: its status is {ended.returncode}")
    taken = [entry for entry in trace.entries if isinstance(entry, Delivery)]
    lines = ended.stdout.decode("ascii").splitlines()
    heads = [f"{entry.node} {entry.sender} {entry.number} " for entry in taken]
    if len(lines) != len(heads) or not all(map(str.startswith, lines, heads)):
        raise ToolError(f"{path} tells other deliveries than the trace")
    return [(entry, bytes.fromhex(line.rpartition(" ")[2])) for entry, line in zip(taken, lines)]


def handed_up(taken: list[tuple[Delivery, bytes]]) -> Iterator[tuple[Delivery, Message]]:
    """The messages that the hops handed up to their nodes: each number of a channel once, in order."""
    last: dict[tuple[str | None, str], int] = {}
    for entry, frame in taken:
        message, channel = rsvp.message_of(frame), (entry.node, entry.sender)
        if message is not None and message.number == last.get(channel, 0) + 1:
            last[channel] = message.number
            yield entry, message
