"""Damaged messages, frames that are lost, come twice or late on each channel, and a burst that overflows the rings."""

import re
import unittest
from collections.abc import Iterator
from dataclasses import replace
from itertools import permutations, product

from ason_tools import plan
from ason_tools.plan import Link, Node, Plan
from ason_tools.program import DONE

from .support import EXAMPLES, ason_told
from .test_decode import ACK, NO_MESSAGE, TEAR
from .test_restoring import GUARDED, triangle

DISTURBANCES = ("lose", "repeat", "hold")


def cut_short(message: bytes) -> Iterator[bytes]:
    """Each part of the message from its first byte on, but the whole."""
    return (message[:length] for length in range(1, len(message)))


def with_one_bit_changed(message: bytes) -> Iterator[bytes]:
    """The message with one bit changed, for each bit outside its checksum."""
    for place, bit in product(range(len(message)), range(8)):
        if place not in (2, 3):
            yield message[:place] + bytes([message[place] ^ 1 << bit]) + message[place + 1 :]


class DamageTest(unittest.TestCase):
    """Messages with a checksum, as `decode` reads them after damage."""

    def test_damaged_messages_are_none(self) -> None:
        for message, damage in product((TEAR, ACK), (cut_short, with_one_bit_changed)):
            damaged = list(damage(message))
            with self.subTest(message=message.hex(), damage=damage.__name__):
                lines = "".join(data.hex() + "\n" for data in [message, *damaged])
                told = ason_told("decode", given=lines).out
                self.assertRegex(told, r"^(Ack|PathTear) id ")
                self.assertEqual(told.count(NO_MESSAGE), len(damaged))
                self.assertEqual(len(re.findall("^[A-Za-z]", told, re.MULTILINE)), 1 + len(damaged))


class ChannelsTest(unittest.TestCase):
    """One frame is lost, comes twice or late: the first, the second, and so on, of each channel."""

    def test_a_call_gets_its_backup(self) -> None:
        for kind, (one, two), number in product(DISTURBANCES, permutations("abc", 2), range(1, 21)):
            line = f"{kind} {one} {two} {number}"
            with self.subTest(line=line):
                ended = ason_told("run", given=triangle([line, "setup c1 a c"]))
                self.assertEqual((ended.status, ended.out), (DONE, GUARDED))

    def test_a_call_turns_to_its_backup(self) -> None:
        read = plan.read((EXAMPLES / "failed.toml").read_text())
        told = (EXAMPLES / "failed.out").read_text()
        for kind, (one, two), number in product(DISTURBANCES, ("ac", "cd", "dc"), range(1, 11)):
            line = f"{kind} {one} {two} {number}"
            with self.subTest(line=line):
                ended = ason_told("run", given=replace(read, script=[line, *read.script]).text())
                self.assertEqual((ended.status, ended.out), (DONE, told))


CALLS, LABELS = 300, 80


def burst() -> str:
    """Two nodes with one link, and more setups at once than a ring has room for."""
    nodes = [Node(name, number, convert=False) for number, name in enumerate("ab", 1)]
    script = [f"setup q{call} a b unprotected" for call in range(1, CALLS + 1)]
    return Plan(nodes, [Link(1, ("a", "b"), LABELS)], script).text()


def burst_table() -> str:
    """The first calls have the labels in order, and the others are refused, since none was left."""
    lines = [f"calls {CALLS} legs {2 * LABELS}"]
    for call in range(1, CALLS + 1):
        end = f"bare a.{call}.{call} - -" if call <= LABELS else "blocked - - set"
        lines.append(f"call q{call} a b {end}")
    for call in range(1, LABELS + 1):
        lines += [f"leg a.{call}.{call} a work live - 1/{call}", f"leg a.{call}.{call} b work live 1/{call} -"]
    return "".join(line + "\n" for line in lines)


class BurstTest(unittest.TestCase):
    """Three hundred setups at once."""

    def test_rings_that_overflow_lose_nothing_in_the_end(self) -> None:
        ended = ason_told("run", given=burst())
        self.assertEqual((ended.status, ended.out), (DONE, burst_table()))
