"""RSVP-TE messages in frames of the control channels, as far as the tools tell of them (RFC 2205, 3209, 3473, 4872)."""

import struct
from collections.abc import Iterator
from dataclasses import dataclass

from .errors import ToolError

RSVP, FLOOD = 46, 89
"""The first byte of a frame: an RSVP message, or a flooded row."""

TYPES = {1: "Path", 2: "Resv", 3: "PathErr", 5: "PathTear", 13: "Ack", 21: "Notify"}
SESSION, HOP, ERROR, FILTER, SENDER, LABEL = (1, 7), (3, 3), (6, 3), (10, 7), (11, 7), (16, 2)
MESSAGE_ID, PROTECTION, ASSOCIATION = (23, 1), (37, 2), (199, 1)
INTERFACE = 3
"""The type of the TLV that names a link."""

CODES = {
    (1, 0x8001): "busy",
    (1, 0x8002): "full",
    (1, 0x8003): "down",
    (1, 0x8004): "torn",
    (24, 6): "label",
    (24, 11): "set",
    (24, 0x8001): "route",
    (24, 0x8002): "primary",
    (25, 0x8001): "fibre down",
    (25, 0x8002): "fibre up",
}
"""The names of error codes and values."""


@dataclass(frozen=True)
class Message:
    """A message: its type and number, and what it says of one LSP. Nodes are numbers."""

    type: str
    number: int | None
    ingress: int = 0
    tunnel: int = 0
    lsp: int = 0
    egress: int = 0
    link: int | None = None
    label: int | None = None
    code: str | None = None
    at: int | None = None
    removed: bool = False
    is_backup: bool = False
    is_active: bool = False
    work: int | None = None
    """Of a backup's Path, the LSP number of its working LSP."""


def message_of(frame: bytes) -> Message | None:
    """The message in the frame; None where it bears none."""
    if len(frame) < 9 or frame[0] != RSVP:
        return None
    kind = TYPES.get(frame[2])
    if kind is None or struct.unpack_from("!H", frame, 7)[0] != len(frame) - 1:
        raise ToolError("a frame bears no message")
    fields: dict[str, object] = {}
    for key, body in _objects(frame[9:]):
        if key in _READERS:
            fields |= _READERS[key](body)
    return Message(kind, fields.pop("number", None), **fields)


def _objects(data: bytes) -> Iterator[tuple[tuple[int, int], bytes]]:
    """Each object's class and C-Type, and its body."""
    while data:
        length, number, ctype = struct.unpack_from("!HBB", data)
        if not 4 <= length <= len(data):
            raise ToolError("an object of a message runs past its end")
        yield (number, ctype), data[4:length]
        data = data[length:]


def _interface(data: bytes) -> dict[str, object]:
    """The link that the TLVs name."""
    while len(data) >= 4:
        kind, length = struct.unpack_from("!HH", data)
        if kind == INTERFACE:
            return {"link": struct.unpack_from("!I", data, 8)[0]}
        data = data[max(4, (length + 3) // 4 * 4) :]
    return {}


def _session(body: bytes) -> dict[str, object]:
    egress, _, tunnel, _ = struct.unpack("!IHHI", body)
    return {"egress": egress, "tunnel": tunnel}


def _sender(body: bytes) -> dict[str, object]:
    ingress, _, lsp = struct.unpack("!IHH", body)
    return {"ingress": ingress, "lsp": lsp}


def _error(body: bytes) -> dict[str, object]:
    at, flags, code, value = struct.unpack_from("!IBBH", body)
    name = CODES.get((code, value), f"{code}/{value}")
    return {"at": at, "removed": bool(flags & 4), "code": name} | _interface(body[8:])


def _protection(body: bytes) -> dict[str, object]:
    (word,) = struct.unpack_from("!I", body)
    secondary, protecting = bool(word >> 31 & 1), bool(word >> 30 & 1)
    return {"is_backup": protecting, "is_active": protecting and not secondary}


_READERS = {
    SESSION: _session,
    SENDER: _sender,
    FILTER: _sender,
    ERROR: _error,
    PROTECTION: _protection,
    HOP: lambda body: _interface(body[8:]),
    LABEL: lambda body: {"label": struct.unpack("!I", body)[0]},
    MESSAGE_ID: lambda body: {"number": struct.unpack_from("!I", body, 4)[0]},
    ASSOCIATION: lambda body: {"work": struct.unpack_from("!HH", body)[1]},
}
