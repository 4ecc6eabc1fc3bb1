"""What the tools tell of traces: values, captures, and what led to a call's state."""

import re
import shutil
import struct
import subprocess
import tempfile
import unittest
from pathlib import Path

from ason_tools import rsvp, traces
from ason_tools.errors import ToolError
from ason_tools.pcap import Packet, capture
from ason_tools.traces import Delivery, Desk, Noise, Post, Tick

from .support import EXAMPLES, TOP, ason_told, plan_text, tool

PLAN = 'script = ["wait 2"]\n[[node]]\nname = "a"\nid = 1\n'

TRACE = f"""\
ason-trace 2
plan 47
{PLAN}
events 2
1 a tick
2 a tick
table
calls 0 legs 0
end
"""

# The PathTear of RFC 2205 with number 5 of LSP 1.1.2 to node 3, sent by node 1 over link 2.
TEAR = bytes.fromhex(
    "1105C63F01000048 000C17010100000100000005 00100107000000030000000100000001"
    "0018030300000001000000000003000C0000000100000002 000C0B070000000100000002"
)

NO_TRACE = [
    ("", "it doesn't begin as a trace, with a line `ason-trace 2` and its plan"),
    (TRACE.replace("ason-trace 2", "ason-trace 3"), "it doesn't begin as a trace, with a line `ason-trace 2` and its plan"),
    (TRACE.replace("plan 47", "plan 45"), "it doesn't begin as a trace, with a line `ason-trace 2` and its plan"),
    (TRACE.replace("events 2", "events 9"), "it has no line with the number of its events, or fewer lines than that"),
    (TRACE.replace("events 2", "events 1"), "no table follows its events"),
    (TRACE.replace("2 a tick", "2 a tock"), "its event 2 isn't one"),
    (TRACE.replace("2 a tick", "2 - post wait 2"), "its event 2 isn't the next line that the script posts"),
    (TRACE.replace("end\n", "end"), "it has no line with the number of its events, or fewer lines than that"),
]


class ReadTest(unittest.TestCase):
    """Text to values."""

    def test_a_trace(self) -> None:
        trace = traces.read(TRACE.encode())
        self.assertEqual((trace.source.decode(), trace.plan.script), (PLAN, ["wait 2"]))
        self.assertEqual(trace.entries, (Tick(1, "a"), Tick(2, "a")))
        self.assertEqual(trace.table.text(), "calls 0 legs 0\n")

    def test_a_trace_of_version_1(self) -> None:
        self.assertEqual(traces.read(TRACE.replace("ason-trace 2", "ason-trace 1").encode()), traces.read(TRACE.encode()))

    def test_each_kind_of_entry(self) -> None:
        plan = plan_text(["setup  c1 a b", "settle 5", "fail link 1"])
        lines = ["1 - post setup c1 a b", "2 a desk", "2 - post fail link 1", "3 b deliver a 7", "4 a noise b 2E00", "5 a noise b -"]
        text = f"ason-trace 2\nplan {len(plan)}\n{plan}\nevents {len(lines)}\n" + "".join(line + "\n" for line in lines)
        self.assertEqual(
            traces.read(f"{text}table\ncalls 0 legs 0\nend\n".encode()).entries,
            (
                Post(1, None, "setup c1 a b", 1),
                Desk(2, "a"),
                Post(2, None, "fail link 1", 3),
                Delivery(3, "b", "a", 7),
                Noise(4, "a", "b", b"\x2e\x00"),
                Noise(5, "a", "b", b""),
            ),
        )

    def test_what_is_no_trace(self) -> None:
        for text, sentence in NO_TRACE:
            with self.subTest(text=text), self.assertRaisesRegex(ToolError, re.escape(sentence)):
                traces.read(text.encode())

    def test_a_message_of_a_frame(self) -> None:
        message = rsvp.message_of(b"\x2e" + TEAR)
        told = (message.type, message.number, message.ingress, message.tunnel, message.lsp, message.egress, message.link)
        self.assertEqual(told, ("PathTear", 5, 1, 1, 2, 3, 2))
        self.assertIsNone(rsvp.message_of(bytes.fromhex("5902000000000001")))


def trace_of(example: str, folder: str) -> str:
    """The path of a file with the trace of this example."""
    ended = ason_told("run", "--trace", given=(EXAMPLES / example).read_bytes())
    path = Path(folder) / "trace"
    path.write_text(ended.out)
    return str(path)


def packets_of(data: bytes) -> list[tuple[bytes, bytes]]:
    """The IPv4 header and the payload of each packet of a capture."""
    found, place = [], 24
    while place < len(data):
        (length,) = struct.unpack_from("!I", data, place + 8)
        packet = data[place + 16 : place + 16 + length]
        found.append((packet[:20], packet[20:]))
        place += 16 + length
    return found


def captured(path: str) -> bytes:
    """The capture that the tool writes to a file."""
    out = Path(path).with_suffix(".pcap")
    subprocess.run(["sh", "-c", f'tools/trace-pcap "{path}" > "{out}"'], cwd=TOP, check=True)
    return out.read_bytes()


class CaptureTest(unittest.TestCase):
    """`tools/trace-pcap`."""

    def test_a_packet(self) -> None:
        head, packet = capture([])[:24], capture([Packet(2_007, 1, 3, TEAR)])[24:]
        self.assertEqual(head.hex(), "a1b2c3d400020004" + "00000000" * 2 + "0000ffff" + "00000065")
        self.assertEqual(packet[:16].hex(), "00000002" + f"{7000:08x}" + f"{92:08x}" * 2)
        self.assertEqual(packet[16:36].hex(), "4500005c00000000012e" + "b971" + "0000000100000003")
        self.assertEqual(packet[36:], TEAR)

    def test_each_packet_has_a_message_that_ason_decodes(self) -> None:
        with tempfile.TemporaryDirectory() as folder:
            path = trace_of("turned.toml", folder)
            data = captured(path)
            taken = [entry for entry in traces.read(Path(path).read_bytes()).entries if isinstance(entry, Delivery)]
        found = packets_of(data)
        self.assertLess(0, len(found))
        self.assertLess(len(found), len(taken))
        told = ason_told("decode", given="".join(message.hex() + "\n" for _, message in found)).out
        self.assertEqual(len(re.findall("^[A-Z]", told, re.MULTILINE)), len(found))
        self.assertNotIn("not a message", told)

if shutil.which("tshark"):

    class DissectTest(unittest.TestCase):
        """A capture as tshark reads it."""

        def test_each_packet_is_a_message_of_rsvp(self) -> None:
            with tempfile.TemporaryDirectory() as folder:
                path = Path(folder) / "turned.pcap"
                path.write_bytes(captured(trace_of("turned.toml", folder)))
                command = ["tshark", "-r", str(path), "-T", "fields", "-e", "_ws.col.Protocol", "-e", "_ws.malformed"]
                ended = subprocess.run(command, capture_output=True, check=True)
                lines = ended.stdout.decode().splitlines()
                self.assertEqual(len(lines), len(packets_of(path.read_bytes())))
                self.assertEqual({line.strip() for line in lines}, {"RSVP"})


class WhyTest(unittest.TestCase):
    """`tools/trace-why`."""

    def told(self, example: str, call: str) -> list[str]:
        with tempfile.TemporaryDirectory() as folder:
            ended = tool("trace-why", trace_of(example, folder), call)
        self.assertEqual((ended.status, ended.err), (0, ""))
        stamps = [int(line.split()[1][:-1]) for line in ended.out.splitlines()[:-1]]
        self.assertEqual(stamps, sorted(stamps))
        return [re.sub("^stamp [0-9]+: ", "", line) for line in ended.out.splitlines()]

    def test_a_call_over_one_link(self) -> None:
        self.assertEqual(
            self.told("first.toml", "c1"),
            [
                "script line 1 posts 'setup c1 a b unprotected via 1'",
                "b takes from a a Path of the working LSP a.1.1, over link 1",
                "a takes from b a Resv of the working LSP a.1.1 with label 1 of link 1",
                "call c1 a b bare a.1.1 - -",
            ],
        )

    def test_a_call_that_is_not_there(self) -> None:
        with tempfile.TemporaryDirectory() as folder:
            path = trace_of("first.toml", folder)
            ended = tool("trace-why", path, "c2")
        self.assertEqual((ended.status, ended.err), (2, f"trace-why: {path}: it posts no setup of a call c2\n"))
