"""`tools/decode-pcap`: captures of each form, through each link layer, and what isn't whole."""

import re
import struct
import subprocess
import unittest

from ason_tools import captures
from ason_tools.errors import ToolError

from .support import EXAMPLES, TOP, ason_told, tool
from .test_decode import ACK, TEAR, TOLD

ETHERNET = bytes.fromhex("0180c2000001 020000000001")
COOKED = bytes.fromhex("0000 0001 0006 020000000001 0000")
COUNT = "decode-pcap: {} packets, of which {} have a whole message of RSVP\n"


def ipv4(message: bytes, fragment: int = 0, protocol: int = 46, options: bytes = b"") -> bytes:
    """An IPv4 packet (RFC 791) from 10.0.0.1 to 10.0.0.2."""
    words = 5 + len(options) // 4
    head = struct.pack("!BBHHHBBH", 0x40 | words, 0, 4 * words + len(message), 0, fragment, 1, protocol, 0)
    return head + bytes([10, 0, 0, 1, 10, 0, 0, 2]) + options + message


def ipv6(message: bytes, following: int = 46, extension: bytes = b"") -> bytes:
    """An IPv6 packet (RFC 8200) from ::1 to ::2."""
    head = struct.pack("!IHBB", 0x60000000, len(extension) + len(message), following, 1)
    return head + bytes(15) + b"\1" + bytes(15) + b"\2" + extension + message


def pcap(packets: list[bytes], network: int, order: str = "<", magic: int = 0xA1B2C3D4, snap: int = 65535) -> bytes:
    """A capture in the form pcap."""
    data = struct.pack(f"{order}IHHiIII", magic, 2, 4, 0, 0, snap, network)
    for number, packet in enumerate(packets):
        data += struct.pack(f"{order}IIII", number, 500, min(snap, len(packet)), len(packet)) + packet[:snap]
    return data


def block(kind: int, body: bytes, order: str) -> bytes:
    """A block of a pcapng file."""
    body += bytes(-len(body) % 4)
    length = struct.pack(f"{order}I", len(body) + 12)
    return struct.pack(f"{order}I", kind) + length + body + length


def pcapng(packets: list[bytes], network: int, order: str = "<") -> bytes:
    """A section with an interface in nanoseconds, then a packet in each kind of block by turns, and a comment block."""
    data = block(0x0A0D0D0A, struct.pack(f"{order}IHHq", 0x1A2B3C4D, 1, 0, -1), order)
    unit = struct.pack(f"{order}HHBxxxHH", 9, 1, 9, 0, 0)
    data += block(1, struct.pack(f"{order}HHI", network, 0, 0) + unit, order)
    for number, packet in enumerate(packets):
        size = len(packet)
        bodies = (
            (6, struct.pack(f"{order}IIIII", 0, 0, 1_500_000_000, size, size)),
            (3, struct.pack(f"{order}I", size)),
            (2, struct.pack(f"{order}HHIIII", 0, 0, 0, 1_500_000_000, size, size)),
        )
        kind, head = bodies[number % 3]
        data += block(kind, head + packet, order) + block(0x40000BAD, b"passed over", order)
    return data


def told(data: bytes, *words: str) -> tuple[str, str]:
    ended = tool("decode-pcap", *words, given=data)
    assert ended.status == 0, ended.err
    return ended.out, ended.err


class LinkLayerTest(unittest.TestCase):
    """The message of a PathTear through each link layer."""

    def test_each_link_layer(self) -> None:
        packet = ipv4(TEAR)
        padded = packet + bytes(9)
        cases = {
            "ethernet": (1, ETHERNET + b"\x08\x00" + padded),
            "vlan": (1, ETHERNET + bytes.fromhex("81000064 0800") + padded),
            "two vlans": (1, ETHERNET + bytes.fromhex("88a80007 81000064 0800") + padded),
            "linux cooked": (113, COOKED + b"\x08\x00" + packet),
            "linux cooked with a vlan": (113, COOKED + bytes.fromhex("81000064 0800") + packet),
            "linux cooked 2": (276, bytes.fromhex("0800 0000 00000002 0001 00 06 0200000000010000") + packet),
            "raw": (101, packet),
            "raw of bsd": (12, packet),
            "ipv4": (228, packet),
            "router alert": (101, ipv4(TEAR, options=bytes.fromhex("94040000"))),
            "ipv6": (229, ipv6(TEAR)),
            "ipv6 with hop-by-hop options": (1, ETHERNET + b"\x86\xdd" + ipv6(TEAR, 0, bytes.fromhex("2e00050200000000"))),
        }
        for name, (network, data) in cases.items():
            with self.subTest(name=name):
                self.assertEqual(told(pcap([data], network)), (TOLD[TEAR], COUNT.format(1, 1)))

    def test_what_has_no_message(self) -> None:
        others = [
            ETHERNET + b"\x08\x06" + bytes(28),
            ETHERNET + b"\x08\x00" + ipv4(TEAR, protocol=17),
            ETHERNET + b"\x86\xdd" + ipv6(TEAR, 6),
            ETHERNET,
            b"",
        ]
        self.assertEqual(told(pcap(others, 1)), ("", COUNT.format(5, 0)))

    def test_bytes_that_are_no_message_are_told_by_decode(self) -> None:
        self.assertEqual(told(pcap([ipv4(TEAR[:-4])], 101))[0], "not a message\n")


class FormTest(unittest.TestCase):
    """Captures of each form, in both byte orders."""

    def test_each_form(self) -> None:
        packets = [ipv4(TEAR), ipv4(ACK), ipv4(TEAR)]
        wanted = TOLD[TEAR] + TOLD[ACK] + TOLD[TEAR]
        for order in "<>":
            for name, data in {
                "pcap": pcap(packets, 101, order),
                "nanoseconds": pcap(packets, 101, order, 0xA1B23C4D),
                "pcapng": pcapng(packets, 101, order),
                "two sections": pcapng(packets[:1], 101, order) + pcapng(packets[1:], 228, "<" if order == ">" else ">"),
            }.items():
                with self.subTest(name=name, order=order):
                    self.assertEqual(told(data), (wanted, COUNT.format(3, 3)))

    def test_times(self) -> None:
        times = [packet.time for packet in captures.read(pcapng([b"a"] * 3, 101)).packets]
        self.assertEqual(times, [1.5, None, 1.5])
        for magic, part in ((0xA1B2C3D4, 500e-6), (0xA1B23C4D, 500e-9)):
            found = captures.read(pcap([b"a", b"b"], 101, magic=magic)).packets
            self.assertAlmostEqual(found[1].time, 1 + part, 12)

    def test_packets_and_hexadecimal(self) -> None:
        data = pcap([b"", ipv4(ACK)], 101)
        self.assertEqual(told(data, "--packets")[0], "packet 2 time 1.000500 from 10.0.0.1 to 10.0.0.2\n" + TOLD[ACK])
        self.assertEqual(told(data, "--hex")[0], ACK.hex() + "\n")

    def test_what_is_no_capture(self) -> None:
        section = pcapng([], 101)
        cases = [
            (b"", "it is neither pcap nor pcapng"),
            (b"\xd4\xc3\xb2\xa1", "it is neither pcap nor pcapng"),
            (section[:8] + bytes(4) + section[12:], "a section of it has no byte order"),
            (section + struct.pack("<III", 6, 8, 0), "a block of it has the length 8"),
            (section[:28] + block(6, bytes(20), "<"), "its packet 1 has a block that is too short, or no interface"),
            (section + block(6, struct.pack("<IIIII", 0, 0, 0, 9, 9), "<"), "its packet 1 has a block that is too short, or no interface"),
            (pcap([b"x"], 147), "packet 1 has the link type 147, which isn't read"),
        ]
        for data, sentence in cases:
            with self.subTest(sentence=sentence):
                ended = tool("decode-pcap", given=data)
                self.assertEqual((ended.status, ended.out, ended.err), (2, "", f"decode-pcap: the standard input: {sentence}\n"))
        self.assertRaises(ToolError, captures.read, b"hello")


class NotWholeTest(unittest.TestCase):
    """What isn't whole is told."""

    def test_fragments(self) -> None:
        first, last = ipv4(TEAR[:48], 0x2000), ipv4(TEAR[48:], 6)
        of_six = ipv6(TEAR[:48], 44, bytes.fromhex("2e00000100000001"))
        out, err = told(pcap([first, last, ipv4(ACK), of_six], 101))
        self.assertEqual(out, TOLD[ACK])
        notes = [f"decode-pcap: packet {number} is a fragment of a message, and isn't decoded\n" for number in (1, 2, 4)]
        self.assertEqual(err, "".join(notes) + COUNT.format(4, 1))

    def test_snapped_packets(self) -> None:
        out, err = told(pcap([ipv4(TEAR), ipv4(ACK)], 101, snap=60))
        self.assertEqual(out, TOLD[ACK])
        note = "decode-pcap: packet 1 is snapped: 60 of 92 bytes of it are there, and isn't decoded\n"
        self.assertEqual(err, note + COUNT.format(2, 1))

    def test_a_file_that_is_cut_off(self) -> None:
        for data, note in (
            (pcap([ipv4(ACK)] * 2, 101)[:-3], "the file is cut off in packet 2"),
            (pcap([ipv4(ACK)], 101) + bytes(7), "the file is cut off in packet 2"),
            (pcapng([ipv4(ACK)], 101) + block(6, bytes(64), "<")[:-4], "the file is cut off in its last block"),
        ):
            with self.subTest(note=note):
                self.assertEqual(told(data), (TOLD[ACK], f"decode-pcap: {note}\n" + COUNT.format(1, 1)))


class RoundTripTest(unittest.TestCase):
    """A trace's messages, written as a capture and read again."""

    def test_a_trace_to_a_capture_and_back(self) -> None:
        trace = ason_told("run", "--trace", given=(EXAMPLES / "turned.toml").read_bytes()).out
        made = subprocess.run(["tools/trace-pcap", "-"], input=trace.encode(), capture_output=True, cwd=TOP, check=True).stdout
        # A packet's record is 16 bytes and its IPv4 header 20; the length stands at place 8 of the record.
        wanted, place = [], 24
        while place < len(made):
            (length,) = struct.unpack_from(">I", made, place + 8)
            wanted.append(made[place + 36 : place + 16 + length].hex())
            place += 16 + length
        out, err = told(made, "--hex")
        self.assertGreater(len(wanted), 10)
        self.assertEqual(out.split(), wanted)
        self.assertEqual(err, COUNT.format(len(wanted), len(wanted)))
        self.assertEqual(told(made)[0], ason_told("decode", given=out).out)
        senders = set(re.findall(r"from (\S+) to", told(made, "--packets")[0]))
        self.assertEqual(senders, {"0.0.0.1", "0.0.0.2", "0.0.0.3"})


if __name__ == "__main__":
    unittest.main()
