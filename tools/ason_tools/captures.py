"""Packets out of captures: files of the forms pcap and pcapng (draft-ietf-opsawg-pcap, draft-ietf-opsawg-pcapng)."""

import struct
from collections.abc import Iterator
from dataclasses import dataclass, field
from enum import IntEnum

from .errors import ToolError

MICRO, NANO = 0xA1B2C3D4, 0xA1B23C4D
"""The first numbers of a pcap file whose times are in microseconds, and in nanoseconds."""

SECTION_MAGIC = 0x1A2B3C4D
TIME_UNIT = 9
"""The option of an interface that says in which unit its times are."""


class Block(IntEnum):
    """The blocks of a pcapng file that are read; all others are passed over."""

    INTERFACE = 1
    PACKET = 2
    SIMPLE = 3
    ENHANCED = 6
    SECTION = 0x0A0D0D0A


@dataclass(frozen=True)
class Captured:
    """A packet of a capture: its number from 1, its time in seconds where one is told, its link type, and its bytes."""

    number: int
    time: float | None
    link_type: int
    data: bytes
    length: int
    """How long the packet was on the line; the capture may have fewer bytes of it."""


@dataclass
class Capture:
    """The packets of a file, and a sentence on what couldn't be read of it."""

    packets: list[Captured] = field(default_factory=list)
    notes: list[str] = field(default_factory=list)

    def add(self, time: float | None, link_type: int, data: bytes, length: int) -> None:
        """The next packet."""
        self.packets.append(Captured(len(self.packets) + 1, time, link_type, data, length))


@dataclass(frozen=True)
class _Interface:
    """An interface of a pcapng section: its link type, the most bytes of a packet, and its units of time a second."""

    link_type: int
    most: int
    units: int


def read(data: bytes) -> Capture:
    """The capture that these bytes are."""
    if data[:4] == Block.SECTION.to_bytes(4, "big"):
        return _read_pcapng(data)
    for order in ("<", ">"):
        if len(data) >= 24 and struct.unpack_from(f"{order}I", data)[0] in (MICRO, NANO):
            return _read_pcap(data, order)
    raise ToolError("it is neither pcap nor pcapng")


def _read_pcap(data: bytes, order: str) -> Capture:
    """A header of 24 bytes, and then a header of 16 and the bytes of each packet."""
    magic, _, _, _, _, _, network = struct.unpack_from(f"{order}IHHiIII", data)
    unit = 1e-9 if magic == NANO else 1e-6
    # The upper bits may tell how long the frame check sequence is.
    link_type = network & 0xFFFF
    found, place = Capture(), 24
    while place < len(data):
        if place + 16 > len(data):
            break
        seconds, part, there, length = struct.unpack_from(f"{order}IIII", data, place)
        if place + 16 + there > len(data):
            break
        found.add(seconds + part * unit, link_type, data[place + 16 : place + 16 + there], length)
        place += 16 + there
    if place < len(data):
        found.notes.append(f"the file is cut off in packet {len(found.packets) + 1}")
    return found


def _blocks(data: bytes, notes: list[str]) -> Iterator[tuple[str, int, bytes]]:
    """The byte order, the type and the body of each block of a pcapng file."""
    order, place = "<", 0
    while place < len(data):
        if place + 12 > len(data):
            break
        if data[place : place + 4] == Block.SECTION.to_bytes(4, "big"):
            order = _order_of(data[place + 8 : place + 12])
        kind, length = struct.unpack_from(f"{order}II", data, place)
        if length < 12 or length % 4:
            raise ToolError(f"a block of it has the length {length}")
        if place + length > len(data):
            break
        yield order, kind, data[place + 8 : place + length - 4]
        place += length
    if place < len(data):
        notes.append("the file is cut off in its last block")


def _order_of(magic: bytes) -> str:
    """The byte order of a section."""
    for order in ("<", ">"):
        if struct.pack(f"{order}I", SECTION_MAGIC) == magic:
            return order
    raise ToolError("a section of it has no byte order")


def _read_pcapng(data: bytes) -> Capture:
    found = Capture()
    interfaces: list[_Interface] = []
    for order, kind, body in _blocks(data, found.notes):
        try:
            if kind == Block.SECTION:
                interfaces = []
            elif kind == Block.INTERFACE:
                interfaces.append(_interface(order, body))
            elif kind in (Block.PACKET, Block.SIMPLE, Block.ENHANCED):
                _add_packet(found, interfaces, order, kind, body)
        except (struct.error, IndexError):
            raise ToolError(f"its packet {len(found.packets) + 1} has a block that is too short, or no interface") from None
    return found


def _interface(order: str, body: bytes) -> _Interface:
    link_type, _, most = struct.unpack_from(f"{order}HHI", body)
    units, place = 10**6, 8
    while place + 4 <= len(body):
        code, length = struct.unpack_from(f"{order}HH", body, place)
        if code == 0:
            break
        if code == TIME_UNIT and length == 1:
            unit = body[place + 4]
            units = 2 ** (unit & 0x7F) if unit & 0x80 else 10**unit
        place += 4 + (length + 3) // 4 * 4
    return _Interface(link_type, most, units)


def _add_packet(found: Capture, interfaces: list[_Interface], order: str, kind: int, body: bytes) -> None:
    """Adds the packet of a block of one of the three kinds that have one."""
    if kind == Block.SIMPLE:
        (length,) = struct.unpack_from(f"{order}I", body)
        interface = interfaces[0]
        there = min(length, interface.most or length)
        found.add(None, interface.link_type, body[4 : 4 + there], length)
        return
    form = f"{order}IIIII" if kind == Block.ENHANCED else f"{order}HHIIII"
    number, *rest = struct.unpack_from(form, body)
    high, low, there, length = rest[-4:]
    if there > len(body) - 20:
        raise IndexError
    interface = interfaces[number]
    found.add((high << 32 | low) / interface.units, interface.link_type, body[20 : 20 + there], length)
