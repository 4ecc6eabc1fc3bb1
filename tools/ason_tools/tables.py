"""What `ason` prints, as values, and their text again."""

import re
from collections.abc import Callable, Iterator
from dataclasses import dataclass, field

from .errors import ToolError

STATES = ("asking", "bare", "pairing", "guarded", "turning", "turned", "stuck", "blocked")
ROLES = ("work", "back")
PHASES = ("asked", "held", "armed", "live", "closing", "falling")
FATES = ("read", "carried", "ignored")
MESSAGES = ("Path", "Resv", "PathErr", "PathTear", "Ack", "Notify")


@dataclass(frozen=True)
class Lsp:
    """An LSP: its ingress, tunnel and number."""

    ingress: str
    tunnel: int
    number: int

    def text(self) -> str:
        return f"{self.ingress}.{self.tunnel}.{self.number}"


@dataclass(frozen=True)
class Hold:
    """A link, and the label that a leg has on it, where it has one."""

    link: int
    label: int | None

    def text(self) -> str:
        return f"{self.link}/{'-' if self.label is None else self.label}"


@dataclass(frozen=True)
class Call:
    """A call: its ends, its state, its working and backup LSP where the ingress has a leg of them, and the cause."""

    name: str
    source: str
    target: str
    state: str
    work: Lsp | None
    backup: Lsp | None
    cause: str | None

    def text(self) -> str:
        fields = [self.name, self.source, self.target, self.state, _dash(self.work), _dash(self.backup), self.cause or "-"]
        return "call " + " ".join(fields)


@dataclass(frozen=True)
class Leg:
    """An LSP's part at one node: where it comes in and goes out, and the same of a two-way LSP's backward direction."""

    lsp: Lsp
    node: str
    role: str
    phase: str
    incoming: Hold | None
    outgoing: Hold | None
    two_way: bool = False
    back_incoming: Hold | None = None
    back_outgoing: Hold | None = None

    def text(self) -> str:
        back = f" back {_dash(self.back_incoming)} {_dash(self.back_outgoing)}" if self.two_way else ""
        return f"leg {self.lsp.text()} {self.node} {self.role} {self.phase} {_dash(self.incoming)} {_dash(self.outgoing)}{back}"


@dataclass(frozen=True)
class Table:
    """All calls and legs at one moment."""

    calls: tuple[Call, ...] = ()
    legs: tuple[Leg, ...] = ()

    def text(self) -> str:
        rows = [f"calls {len(self.calls)} legs {len(self.legs)}", *(call.text() for call in self.calls)]
        return _lines(rows + [leg.text() for leg in self.legs])

    def call(self, name: str) -> Call | None:
        """The call of this name."""
        return next((call for call in self.calls if call.name == name), None)

    def legs_of(self, lsp: Lsp | None) -> list[Leg]:
        """The legs of the LSP."""
        return [leg for leg in self.legs if leg.lsp == lsp]


@dataclass(frozen=True)
class Unsettled:
    """A settle ended before all was quiet: desk items, messages and floods that were left."""

    desk: int
    hop: int
    flood: int

    def text(self) -> str:
        return f"unsettled desk {self.desk} hop {self.hop} flood {self.flood}\n"


@dataclass(frozen=True)
class Stopped:
    """The run ended since this node had made all events that a node may make."""

    node: str

    @property
    def status(self) -> int:
        """The status of `ason` with it."""
        return 6

    def text(self) -> str:
        return f"stopped at limit {self.node}\n"


@dataclass(frozen=True)
class Refused:
    """The plan's first fault, or, where the entry is None, an input that is too long."""

    entry: str | None
    kind: str | None

    @property
    def status(self) -> int:
        """The status of `ason` with it."""
        return 8 if self.entry is None else 3

    def text(self) -> str:
        return "refused input too long\n" if self.entry is None else f"refused plan {self.entry} {self.kind}\n"


@dataclass(frozen=True)
class ObjectLine:
    """An object of a message: class and C-Type, its length with the header, and what becomes of it."""

    number: int
    ctype: int
    length: int
    fate: str

    def text(self) -> str:
        return f" {self.number}/{self.ctype} {self.length} {self.fate}"


@dataclass(frozen=True)
class Message:
    """A decoded message. Its LSP's ingress and its egress are node numbers."""

    type: str
    id: int | None
    acks: tuple[int, ...]
    lsp: Lsp | None
    egress: int | None
    objects: tuple[ObjectLine, ...] = ()

    def text(self) -> str:
        acks = ",".join(map(str, self.acks)) or "-"
        head = f"{self.type} id {_dash(self.id)} acks {acks} lsp {_dash(self.lsp)} egress {_dash(self.egress)}"
        return _lines([head, *(line.text() for line in self.objects)])


@dataclass(frozen=True)
class NoMessage:
    """A line that is no message: `not hex` or `not a message`."""

    reason: str

    def text(self) -> str:
        return self.reason + "\n"


Part = Table | Unsettled | Stopped | Refused | Message | NoMessage


@dataclass
class Output:
    """All that one run of `ason` printed, in order."""

    parts: list[Part] = field(default_factory=list)

    @property
    def tables(self) -> list[Table]:
        return [part for part in self.parts if isinstance(part, Table)]

    def table(self, place: int | None = None) -> Table:
        """The table at this place, from 1, or the last one. The error tells what the program printed in place of one."""
        found = self.tables
        if not found:
            for part in self.parts:
                if isinstance(part, (Refused, Stopped)):
                    raise ToolError(f"ason printed no table: {part.text().strip()}", part.status)
            raise ToolError("the output has no table")
        if place is not None and not 1 <= place <= len(found):
            raise ToolError(f"there is no table {place}: the output has {len(found)}")
        return found[-1 if place is None else place - 1]

    def text(self) -> str:
        return "".join(part.text() for part in self.parts)


def read(text: str) -> Output:
    """The output that the text spells."""
    if text and not text.endswith("\n"):
        raise ToolError("its last line has no end, so it was cut off")
    lines = text.split("\n")[:-1]
    output, place = Output(), 0
    while place < len(lines):
        try:
            part, place = _part(lines, place)
        except _NoLine as error:
            raise ToolError(f"line {error.line + 1} isn't what ason prints") from None
        output.parts.append(part)
    return output


class _NoLine(Exception):
    """A line that has no form."""

    def __init__(self, line: int) -> None:
        super().__init__()
        self.line = line


_NAME = r"[A-Za-z][A-Za-z0-9_-]{0,15}"
_NUMBER = r"0|[1-9][0-9]{0,18}"
_LSP = rf"(?:{_NAME})\.(?:{_NUMBER})\.(?:{_NUMBER})"
_HOLD = rf"(?:{_NUMBER})/(?:{_NUMBER}|-)"
_CAUSE = rf"-|[a-z]+|(?:{_NUMBER})/(?:{_NUMBER})"


def _form(pattern: str) -> re.Pattern[str]:
    """A line's form, in which each word in capitals is a field."""
    fields = {"NAME": _NAME, "NUM": _NUMBER, "LSP": f"{_LSP}|-", "HOLD": f"{_HOLD}|-", "CAUSE": _CAUSE, "SPAN": r"[A-Z]?[a-zA-Z]+"}
    fields |= {"ACKS": rf"-|(?:{_NUMBER})(?:,(?:{_NUMBER}))*", "OPT": f"{_NUMBER}|-", "SENDER": r"-|[0-9]+\.[0-9]+\.[0-9]+"}
    return re.compile(re.sub(r"\b[A-Z]{3,}\b", lambda word: f"({fields[word[0]]})", pattern))


_HEAD = _form("calls NUM legs NUM")
_CALL = _form("call NAME NAME NAME SPAN LSP LSP CAUSE")
_LEG = _form("leg LSP NAME SPAN SPAN HOLD HOLD(?: back HOLD HOLD)?")
_UNSETTLED = _form("unsettled desk NUM hop NUM flood NUM")
_STOPPED = _form("stopped at limit NAME")
_REFUSED = _form(r"refused plan ((?:node|link|script) [1-9][0-9]*|top|toml) ([a-z]+)")
_MESSAGE = _form("SPAN id OPT acks ACKS lsp SENDER egress OPT")
_OBJECT = _form(" NUM/NUM NUM SPAN")


def _part(lines: list[str], place: int) -> tuple[Part, int]:
    """The part that begins at this line, and the place behind it."""
    line = lines[place]
    if line.startswith("calls "):
        return _table(lines, place)
    if line.split(" ", 1)[0] in MESSAGES:
        return _message(lines, place)
    for form, make in _SINGLE:
        found = form.fullmatch(line)
        if found:
            return make(*found.groups()), place + 1
    raise _NoLine(place)


_SINGLE: list[tuple[re.Pattern[str], Callable[..., Part]]] = [
    (_UNSETTLED, lambda desk, hop, flood: Unsettled(int(desk), int(hop), int(flood))),
    (_STOPPED, Stopped),
    (_REFUSED, Refused),
    (re.compile("refused input too long"), lambda: Refused(None, None)),
    (re.compile("(not hex|not a message)"), NoMessage),
]


def _table(lines: list[str], place: int) -> tuple[Table, int]:
    calls, legs = map(int, _fields(_HEAD, lines, place))
    first, behind = place + 1, place + 1 + calls + legs
    if behind > len(lines):
        raise ToolError(f"the table of line {place + 1} has fewer lines than it says")
    rows = [_call(lines, row) for row in range(first, first + calls)]
    return Table(tuple(rows), tuple(_leg(lines, row) for row in range(first + calls, behind))), behind


def _call(lines: list[str], place: int) -> Call:
    name, source, target, state, work, backup, cause = _fields(_CALL, lines, place)
    _one_of(state, STATES, place)
    return Call(name, source, target, state, _lsp(work), _lsp(backup), None if cause == "-" else cause)


def _leg(lines: list[str], place: int) -> Leg:
    lsp, node, role, phase, incoming, outgoing, back_incoming, back_outgoing = _fields(_LEG, lines, place)
    _one_of(role, ROLES, place)
    _one_of(phase, PHASES, place)
    of = _lsp(lsp)
    if of is None:
        raise _NoLine(place)
    return Leg(of, node, role, phase, _hold(incoming), _hold(outgoing), back_incoming is not None, _hold(back_incoming), _hold(back_outgoing))


def _message(lines: list[str], place: int) -> tuple[Message, int]:
    kind, number, acks, lsp, egress = _fields(_MESSAGE, lines, place)
    _one_of(kind, MESSAGES, place)
    objects, behind = [], place + 1
    while behind < len(lines) and lines[behind].startswith(" "):
        *numbers, fate = _fields(_OBJECT, lines, behind)
        _one_of(fate, FATES, behind)
        objects.append(ObjectLine(*map(int, numbers), fate))
        behind += 1
    numbers = tuple(int(ack) for ack in acks.split(",")) if acks != "-" else ()
    return Message(kind, _number(number), numbers, _lsp(lsp), _number(egress), tuple(objects)), behind


def _fields(form: re.Pattern[str], lines: list[str], place: int) -> Iterator[str]:
    found = form.fullmatch(lines[place])
    if found is None:
        raise _NoLine(place)
    return iter(found.groups())


def _one_of(word: str, words: tuple[str, ...], place: int) -> None:
    if word not in words:
        raise _NoLine(place)


def _lsp(text: str) -> Lsp | None:
    if text == "-":
        return None
    ingress, tunnel, number = text.split(".")
    return Lsp(ingress, int(tunnel), int(number))


def _hold(text: str | None) -> Hold | None:
    if text is None or text == "-":
        return None
    link, label = text.split("/")
    return Hold(int(link), _number(label))


def _number(text: str) -> int | None:
    return None if text == "-" else int(text)


def _dash(value: Lsp | Hold | int | None) -> str:
    if value is None:
        return "-"
    return str(value) if isinstance(value, int) else value.text()


def _lines(lines: list[str]) -> str:
    return "".join(line + "\n" for line in lines)
