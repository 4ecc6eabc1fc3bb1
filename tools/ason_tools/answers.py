"""What `ason survey`, `route`, `best` and `load` print, and `tools/why`, as values."""

import re
from dataclasses import dataclass
from itertools import groupby

from . import routes_told, surveys
from .errors import ToolError
from .routes_told import Route, Routes
from .surveys import Survey
from .tables import STATES, Refused

PHASES = ("built", "failed", "repaired", "reverted")


@dataclass(frozen=True)
class Best:
    """The best pair of routes, or that there is none, or that the network is too large to tell."""

    total: int | None = None
    primary: Route | None = None
    backup: Route | None = None
    certificate: bool = False
    too_large: bool = False


@dataclass(frozen=True)
class NoRoutes:
    """Two names between which no routes are told: the one that is no node's, or None where both are one node's."""

    no_node: str | None


@dataclass(frozen=True)
class Load:
    """How many calls are in each state, behind each phase of a load."""

    phases: dict[str, dict[str, int]]


@dataclass(frozen=True)
class Cause:
    """A call that `tools/why` tells of: what it is, and the sentences."""

    name: str
    source: str
    target: str
    state: str
    cause: str | None
    sentences: tuple[str, ...]


@dataclass(frozen=True)
class Why:
    """What `tools/why` tells of a plan without a fault."""

    plan: str
    calls: tuple[Cause, ...]


@dataclass(frozen=True)
class Refusal:
    """A fibre that refuses blocked calls, and how many."""

    link: int
    source: str
    target: str
    calls: int


@dataclass(frozen=True)
class Sums:
    """What `tools/why --sum` tells: of how many calls, how many are how, and which fibres refuse them."""

    plan: str
    calls: int
    counts: dict[str, int]
    refusals: tuple[Refusal, ...]


@dataclass(frozen=True)
class Fault:
    """What `tools/why` tells of a plan that is refused: where the fault is, if it shows, the line's text, and what is wrong."""

    plan: str
    refused: Refused
    line: int | None
    column: int | None
    text: str | None
    sentences: tuple[str, ...]


Answer = Survey | Routes | Best | NoRoutes | Load | Why | Sums | Fault

_TOTAL = re.compile(r"total (\d+)")
_ROUTE = re.compile(r"(?:primary|backup) (\d+) (\d+(?:,\d+)*)")
_COUNTS = re.compile(rf"({'|'.join(PHASES)}) " + " ".join(rf"{state} (\d+)" for state in STATES))
_CALL = re.compile(r"call (\S+) from (\S+) to (\S+) is (\w+)(?:, cause (\S+))?")
_COUNT = re.compile(r"(\d+) of (\d+) calls: (.+)")
_REFUSES = re.compile(r"link (\d+) from (\S+) to (\S+) refuses (\d+) blocked calls?")
_SOUND = re.compile(r"(.*): the plan has no fault")
_FAULT = re.compile(r"(.*?)(?::(\d+):(\d+))?: refused (?:plan (\w+(?: \d+)?) (\w+)|input too long)")


def read(text: str) -> Answer | None:
    """The answer that the text is, or None where it begins like none. A ToolError says that a line isn't of it."""
    first = text.partition("\n")[0]
    for begins, reader in _READERS:
        if begins.match(first):
            return reader(text)
    return None


def _no_routes(text: str) -> NoRoutes:
    found = re.fullmatch(r"(?:no node (\S+)|same node)\n", text)
    if found is None:
        raise ToolError("line 1 isn't what ason route prints")
    return NoRoutes(found[1])


def _best(text: str) -> Best:
    lines = text.splitlines()
    if lines == ["too large"]:
        return Best(too_large=True)
    if lines == ["no pair", "certificate yes"]:
        return Best(certificate=True)
    forms = (_TOTAL, _ROUTE, _ROUTE, re.compile("certificate yes"))
    found = [form.fullmatch(line) for form, line in zip(forms, lines)]
    if len(lines) != len(forms) or not all(found):
        raise ToolError("it isn't what ason best prints")
    primary, backup = (Route(int(it[1]), tuple(map(int, it[2].split(",")))) for it in found[1:3])
    return Best(int(found[0][1]), primary, backup, True)


def _load(text: str) -> Load:
    found = [_COUNTS.fullmatch(line) for line in text.splitlines()]
    if not all(found) or [it[1] for it in found] != list(PHASES):
        raise ToolError("it isn't what ason load prints")
    return Load({it[1]: dict(zip(STATES, map(int, it.groups()[1:]))) for it in found})


def _why(text: str) -> Why | Sums:
    first, *lines = text.splitlines()
    if lines and _COUNT.fullmatch(lines[0]):
        return _sums(_SOUND.fullmatch(first)[1], lines)
    calls: list[Cause] = []
    for is_sentence, group in groupby(lines, lambda line: line.startswith("    ")):
        rows = [line.strip() for line in group]
        if not is_sentence:
            calls += map(_cause, rows)
        elif calls:
            last = calls.pop()
            calls.append(Cause(last.name, last.source, last.target, last.state, last.cause, tuple(rows)))
        else:
            raise ToolError("line 2 isn't what tools/why prints")
    return Why(_SOUND.fullmatch(first)[1], tuple(calls))


def _sums(path: str, lines: list[str]) -> Sums:
    counts = list(filter(None, map(_COUNT.fullmatch, lines)))
    refusals = list(filter(None, map(_REFUSES.fullmatch, lines)))
    if len(counts) + len(refusals) < len(lines):
        raise ToolError("a line isn't what tools/why --sum prints")
    fibres = tuple(Refusal(int(it[1]), it[2], it[3], int(it[4])) for it in refusals)
    return Sums(path, int(counts[0][2]), {it[3]: int(it[1]) for it in counts}, fibres)


def _cause(line: str) -> Cause:
    found = _CALL.fullmatch(line)
    if found is None:
        raise ToolError(f"the line {line[:40]!r} isn't what tools/why prints")
    return Cause(*found.groups(), ())


def _fault(text: str) -> Fault:
    first, *lines = text.splitlines()
    path, line, column, entry, kind = _FAULT.fullmatch(first).groups()
    if line is None:
        return Fault(path, Refused(entry, kind), None, None, None, tuple(it.strip() for it in lines))
    shown, *sentences = [it.strip() for it in lines] or [""]
    return Fault(path, Refused(entry, kind), int(line), int(column), shown, tuple(sentences))


_READERS = (
    (re.compile("survey calm"), surveys.read),
    (re.compile(r"primary |no primary$"), routes_told.read),
    (re.compile(r"no node |same node$"), _no_routes),
    (re.compile(r"total |no pair$|too large$"), _best),
    (re.compile("built "), _load),
    (re.compile(r".+: the plan has no fault$"), _why),
    (re.compile(r".+: refused (plan|input too long$)"), _fault),
)
