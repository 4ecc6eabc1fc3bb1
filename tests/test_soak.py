"""Random plans over hostile channels come to the tables that they come to over quiet ones, and their traces are runs."""

import random
import re
import unittest
from collections.abc import Iterator
from dataclasses import replace

from ason_tools.plan import Plan
from ason_tools.program import DONE

from .support import ason_told
from .test_survey import random_plan

PLANS, SEED = 25, 43
FRAMES = 60
"""The frames of a channel among which some are disturbed."""

WHOLE = bytes.fromhex("2e110dd5cb01000014000c18010000000100000005")
"""A frame that bears an acknowledgement; no part of it spells anything."""


def lawful_plan(chance: random.Random) -> Plan:
    """Calls that are set up one after the other, of which a cut hits some; then all is repaired, and they go back."""
    plan = random_plan(chance)
    setups = [line for line in plan.script if line.startswith("setup")]
    cut = f"link {chance.choice(plan.links).id}"
    lines = [*setups, f"fail {cut}", "show", f"repair {cut}", *(f"revert {line.split()[1]}" for line in setups)]
    # So each line has done all that it does when the next one comes, and no two of them race.
    return replace(plan, script=[line for one in lines for line in ((one,) if one == "show" else (one, "settle 1000"))])


def noise(chance: random.Random) -> bytes:
    """Bytes that spell nothing: none, a part of a frame, a run of one byte, or any bytes behind one that begins no frame."""
    kind = chance.randrange(4)
    if kind == 0:
        return WHOLE[: chance.randrange(len(WHOLE))]
    if kind == 1:
        return bytes([chance.choice((0x00, 0xFF))]) * chance.choice((1, 2, 1_500))
    return bytes([chance.choice((0, 45, 47, 88, 90, 255))]) + chance.randbytes(chance.randrange(400))


def hostile_lines(plan: Plan, chance: random.Random) -> Iterator[str]:
    """Lines for each channel: frames are lost, come twice or late, and bursts of noise come."""
    for one, two in {pair for link in plan.links for pair in (link.ends, link.ends[::-1])}:
        for number in chance.sample(range(1, FRAMES + 1), chance.randint(1, 12)):
            yield f"{chance.choice(('lose', 'repeat', 'hold'))} {one} {two} {number}"
        for _ in range(chance.choice((0, 1, 30))):
            yield f"noise {one} {two} {noise(chance).hex().upper() or '-'}"


def hostile_plan(plan: Plan, chance: random.Random) -> Plan:
    """The plan with such lines among its own, and with the widest noise that a line has."""
    script = list(plan.script)
    widest = f"noise {' '.join(chance.choice(plan.links).ends)} {'00' * 65_535}"
    for line in [*hostile_lines(plan, chance), widest]:
        script.insert(chance.randint(0, len(script)), line)
    return replace(plan, script=script)


def faults_of(chance: random.Random) -> Iterator[str]:
    """What one random plan shows that mustn't be."""
    plan = lawful_plan(chance)
    quiet, hostile = plan.text(), hostile_plan(plan, chance).text()
    wanted = ason_told("run", given=quiet)
    if wanted.status != DONE or "unsettled" in wanted.out:
        yield f"a quiet run ends with {wanted}"
    for words in (["run"], ["run", "--workers", "3", "--stride", "2"]):
        if ason_told(*words, given=hostile) != wanted:
            yield f"{' '.join(words)} prints another text"
        trace = ason_told(*words, "--trace", given=hostile)
        checked = ason_told("check", given=trace.out)
        table = wanted.out[wanted.out.rindex("calls ") :]
        if checked.status != DONE or re.sub("^run of [0-9]+ events\n", "", checked.out) != table:
            yield f"the trace of {' '.join(words)} is no run with the last table"


def soak(count: int, seed: int) -> Iterator[str]:
    """What so many random plans show that mustn't be, each with the plan's number, from which it is made again."""
    for number in range(count):
        yield from (f"plan {number} of seed {seed}: {fault}" for fault in faults_of(random.Random(f"{seed} {number}")))


class SoakTest(unittest.TestCase):
    """A few plans; `tests/soak` takes more."""

    def test_hostile_channels_change_no_table(self) -> None:
        self.assertEqual(list(soak(PLANS, SEED)), [])
