"""What `ason survey` prints: what each risk group would hit, and which calls would contend."""

import re
from dataclasses import dataclass

from .errors import ToolError
from .groups import Group

_GROUP = r"(srlg|link) (\d+)"
_CALM = re.compile("survey calm (yes|no)")
_HIT = re.compile(rf"group {_GROUP} guarded (\S+) bare (\S+)")
_CONTEND = re.compile(rf"contend {_GROUP} {_GROUP} (\d+)/(\d+) (\S+) (\S+) (\S+)")


@dataclass(frozen=True)
class Hit:
    """The calls that the group's failure would hit: those with a reserved backup, and the others."""

    group: Group
    guarded: tuple[str, ...]
    bare: tuple[str, ...]


@dataclass(frozen=True)
class Contend:
    """Two calls that would contend for a label of the fibre that leads into this node, if both groups failed."""

    first: Group
    second: Group
    link: int
    label: int
    node: str
    one: str
    two: str

    @property
    def groups(self) -> frozenset[Group]:
        """The two groups, whichever fails first."""
        return frozenset((self.first, self.second))

    def text(self) -> str:
        """The label, its node and the calls."""
        return f"{self.link}/{self.label} at {self.node}: {self.one}, {self.two}"


@dataclass(frozen=True)
class Survey:
    """Whether the network is calm, and both lists, in order of groups."""

    calm: bool
    hits: tuple[Hit, ...] = ()
    contends: tuple[Contend, ...] = ()

    def between(self, *groups: Group) -> tuple[Contend, ...]:
        """The calls that would contend if these two groups failed."""
        return tuple(it for it in self.contends if it.groups == frozenset(groups))


def read(text: str) -> Survey:
    """The survey that the text tells. A ToolError says that it tells none."""
    first, *lines = text.splitlines() or [""]
    calm = _CALM.fullmatch(first)
    if calm is None:
        raise ToolError(f"ason tells no survey: {first!r}")
    hits = tuple(map(_hit, filter(None, map(_HIT.fullmatch, lines))))
    contends = tuple(map(_contend, filter(None, map(_CONTEND.fullmatch, lines))))
    if len(hits) + len(contends) < len(lines):
        raise ToolError("a line of the survey has another form")
    return Survey(calm[1] == "yes", hits, contends)


def _hit(match: re.Match[str]) -> Hit:
    return Hit(Group(match[1], int(match[2])), _names(match[3]), _names(match[4]))


def _contend(match: re.Match[str]) -> Contend:
    groups = Group(match[1], int(match[2])), Group(match[3], int(match[4]))
    return Contend(*groups, int(match[5]), int(match[6]), match[7], match[8], match[9])


def _names(text: str) -> tuple[str, ...]:
    return () if text == "-" else tuple(text.split(","))
