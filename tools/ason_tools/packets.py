"""RSVP messages out of packets: through Ethernet, Linux cooked captures and VLAN tags to IPv4 and IPv6."""

import struct
from dataclasses import dataclass
from enum import IntEnum
from ipaddress import ip_address

from .captures import Captured
from .errors import ToolError
from .pcap import RSVP_PROTOCOL

IPV4, IPV6 = 0x0800, 0x86DD
VLANS = (0x8100, 0x88A8, 0x9100)
"""The EtherTypes of tags, which may stand one behind the other (IEEE 802.1Q)."""

FRAGMENT = 44
EXTENSIONS = (0, 43, 60)
"""The extension headers of IPv6 that are passed over: hop-by-hop, routing and destination options (RFC 8200)."""


class LinkType(IntEnum):
    """The link types that are read (draft-ietf-opsawg-pcaplinktype)."""

    ETHERNET = 1
    RAW_BSD = 12
    RAW_OPENBSD = 14
    RAW = 101
    LINUX_COOKED = 113
    IPV4 = 228
    IPV6 = 229
    LINUX_COOKED_2 = 276


ETHER_PLACES = {LinkType.ETHERNET: (12, 14), LinkType.LINUX_COOKED: (14, 16), LinkType.LINUX_COOKED_2: (0, 20)}
"""Where the EtherType stands, and what it is of."""


class NotWhole(Exception):
    """A packet that has RSVP, of which not all is there."""


@dataclass(frozen=True)
class Found:
    """An RSVP message: its packet, the addresses of who sent and who takes it, and its bytes."""

    packet: Captured
    sender: str
    receiver: str
    message: bytes


def message_of(packet: Captured) -> Found | None:
    """The message that the packet bears, or None where it bears none. NotWhole says why it isn't whole."""
    data = _network_layer(packet)
    if not data:
        return None
    version = data[0] >> 4
    if version == 4 and len(data) >= 20:
        return _from_ipv4(packet, data)
    return _from_ipv6(packet, data) if version == 6 and len(data) >= 40 else None


def _network_layer(packet: Captured) -> bytes:
    """The packet from its IP header on; nothing where it is of another protocol."""
    try:
        kind = LinkType(packet.link_type)
    except ValueError:
        raise ToolError(f"packet {packet.number} has the link type {packet.link_type}, which isn't read") from None
    if kind not in ETHER_PLACES:
        return packet.data
    at, behind = ETHER_PLACES[kind]
    data = packet.data
    ether = _ether_type(data, at)
    while ether in VLANS:
        ether = _ether_type(data, behind + 2)
        behind += 4
    return data[behind:] if ether in (IPV4, IPV6) else b""


def _ether_type(data: bytes, at: int) -> int:
    return int.from_bytes(data[at : at + 2], "big") if at + 2 <= len(data) else 0


def _from_ipv4(packet: Captured, data: bytes) -> Found | None:
    """Of an IPv4 packet (RFC 791). Options, as the router alert, are passed over."""
    head = (data[0] & 0x0F) * 4
    total, _, fragment = struct.unpack_from("!HHH", data, 2)
    if data[9] != RSVP_PROTOCOL or not 20 <= head <= total:
        return None
    if fragment & 0x3FFF:
        raise NotWhole("is a fragment of a message")
    return _found(packet, data, head, total, (12, 16, 20))


def _from_ipv6(packet: Captured, data: bytes) -> Found | None:
    """Of an IPv6 packet (RFC 8200)."""
    head, total, following = 40, 40 + struct.unpack_from("!H", data, 4)[0], data[6]
    while following in EXTENSIONS and head + 8 <= min(total, len(data)):
        following, head = data[head], head + 8 + 8 * data[head + 1]
    if following == FRAGMENT and head < len(data) and data[head] == RSVP_PROTOCOL:
        raise NotWhole("is a fragment of a message")
    return _found(packet, data, head, total, (8, 24, 40)) if following == RSVP_PROTOCOL and head <= total else None


def _found(packet: Captured, data: bytes, head: int, total: int, places: tuple[int, int, int]) -> Found:
    """The message behind the IP header, without what fills up the frame behind the packet."""
    if len(data) < total:
        raise NotWhole(f"is snapped: {len(data)} of {total} bytes of it are there")
    source, target, behind = places
    addresses = [str(ip_address(data[start:end])) for start, end in ((source, target), (target, behind))]
    return Found(packet, *addresses, data[head:total])
