"""Risk groups: what a script's `fail` and `repair` cut and make whole."""

import re
from collections.abc import Iterable
from dataclasses import dataclass

from .errors import ToolError
from .plan import Plan

KINDS = ("srlg", "link")

_NUMBER = re.compile("[0-9]{1,10}")


@dataclass(frozen=True)
class Group:
    """A link by itself, or a shared risk link group with all links that are of it."""

    kind: str
    number: int

    def text(self) -> str:
        """The group as a script line names it."""
        return f"{self.kind} {self.number}"

    def links(self, plan: Plan) -> frozenset[int]:
        """The ids of the links that the group's failure cuts."""
        if self.kind == "link":
            return frozenset(link.id for link in plan.links if link.id == self.number)
        return frozenset(link.id for link in plan.links if self.number in link.srlgs)


def groups_of(plan: Plan) -> list[Group]:
    """All groups of the plan: its SRLGs in order of number, then its links."""
    srlgs = sorted({srlg for link in plan.links for srlg in link.srlgs})
    return [Group("srlg", number) for number in srlgs] + [Group("link", link.id) for link in plan.links]


def read_group(words: Iterable[str], plan: Plan) -> Group:
    """The group of the plan that the two words name."""
    kind, text = words
    number = number_of(text)
    if kind not in KINDS or number is None:
        raise ToolError("a group is srlg and a number, or link and a number")
    group = Group(kind, number)
    if not group.links(plan):
        raise ToolError(f"no link has the {'SRLG' if kind == 'srlg' else 'id'} {number}")
    return group


def changes(line: str) -> tuple[str, Group] | None:
    """What a `fail` or a `repair` line does: its first word and its group. None of any other line."""
    words = line.split()
    if len(words) != 3 or words[0] not in ("fail", "repair") or words[1] not in KINDS:
        return None
    number = number_of(words[2])
    return None if number is None else (words[0], Group(words[1], number))


def number_of(text: str) -> int | None:
    """The number of a link or an SRLG that the text spells, or None."""
    return int(text) if _NUMBER.fullmatch(text) else None


def failed_links(plan: Plan, shows: int | None = None) -> frozenset[int]:
    """The links that the script has cut and not made whole: at its end, or where this many tables were shown before."""
    script = plan.script
    if shows is not None:
        script = script[: [place for place, line in enumerate(script) if line.split() == ["show"]][shows]]
    failed: set[Group] = set()
    for verb, group in filter(None, map(changes, script)):
        (failed.add if verb == "fail" else failed.discard)(group)
    return frozenset(link for group in failed for link in group.links(plan))
