"""Captures of messages in the format pcap, as raw IPv4 packets of the protocol RSVP."""

import struct
from collections.abc import Iterable
from dataclasses import dataclass

MAGIC, VERSION, SNAPLEN, RAW_IP = 0xA1B2C3D4, (2, 4), 65_535, 101
HEADER = struct.Struct("!IHHiIII")
RECORD = struct.Struct("!IIII")
IPV4 = struct.Struct("!BBHHHBBHII")
RSVP_PROTOCOL = 46
HOPS = 1
"""The time to live of a packet that goes to a neighbour alone."""


@dataclass(frozen=True)
class Packet:
    """A message, with the numbers of the nodes that sent and took it, and its time in milliseconds."""

    time: int
    sender: int
    receiver: int
    message: bytes


def capture(packets: Iterable[Packet]) -> bytes:
    """The capture of the packets, in their order."""
    head = HEADER.pack(MAGIC, *VERSION, 0, 0, SNAPLEN, RAW_IP)
    return head + b"".join(map(_record, packets))


def _record(packet: Packet) -> bytes:
    data = _header(packet) + packet.message
    seconds, milliseconds = divmod(packet.time, 1000)
    return RECORD.pack(seconds % 2**32, milliseconds * 1000, len(data), len(data)) + data


def _header(packet: Packet) -> bytes:
    """The IPv4 header (RFC 791): nodes' numbers are their addresses."""
    fields = [0x45, 0, 20 + len(packet.message), 0, 0, HOPS, RSVP_PROTOCOL, 0, packet.sender, packet.receiver]
    fields[7] = _checksum(IPV4.pack(*fields))
    return IPV4.pack(*fields)


def _checksum(data: bytes) -> int:
    """The one's complement of the one's complement sum of the words."""
    total = sum(struct.unpack(f"!{len(data) // 2}H", data))
    while total >> 16:
        total = (total & 0xFFFF) + (total >> 16)
    return total ^ 0xFFFF
