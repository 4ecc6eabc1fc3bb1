"""The course of a call in a trace: the script lines and the messages that led to its state."""

from collections.abc import Iterable, Iterator
from dataclasses import dataclass

from .errors import ToolError
from .groups import changes
from .rsvp import Message
from .tables import Call, Lsp
from .traces import Delivery, Entry, Post, Trace

WITHOUT_PATH = ("noroute", "spent")
"""The causes of a blocked call that never sent a Path."""


@dataclass(frozen=True)
class Lsps:
    """The LSPs of a call: its working LSP, where it had one, and its backups, in the order in which they were asked for."""

    work: Lsp | None
    backups: tuple[Lsp, ...] = ()

    def text(self, lsp: Lsp) -> str | None:
        """The LSP as a sentence names it, where it is the call's."""
        if lsp == self.work:
            return f"the working LSP {lsp.text()}"
        return f"the backup {lsp.text()}" if lsp in self.backups else None


@dataclass(frozen=True)
class Heard:
    """A message that a node was handed up."""

    entry: Delivery
    message: Message
    lsp: Lsp


def heard(trace: Trace, handed: Iterable[tuple[Delivery, Message]]) -> list[Heard]:
    """The messages of LSPs, with the LSP that each names."""
    names = {node.id: node.name for node in trace.plan.nodes}
    return [
        Heard(entry, message, Lsp(names[message.ingress], message.tunnel, message.lsp))
        for entry, message in handed
        if message.ingress in names
    ]


def lsps_of(trace: Trace, messages: list[Heard], name: str) -> Lsps:
    """The LSPs of the call of this name. An ingress numbers them as it handles its setups, so they are told by that order."""
    work = _working(trace, messages).get(name)
    if work is None:
        return Lsps(None)
    backups = {
        one.lsp: None
        for one in messages
        if one.message.is_backup and one.lsp.ingress == work.ingress and one.message.work == work.number
    }
    return Lsps(work, tuple(backups))


def _working(trace: Trace, messages: list[Heard]) -> dict[str, Lsp]:
    """The working LSP of each call that sent a Path."""
    names = {node.id: node.name for node in trace.plan.nodes}
    first = {
        one.lsp: names.get(one.message.egress, "")
        for one in messages
        if one.message.type == "Path" and not one.message.is_backup and one.entry.sender == one.lsp.ingress
    }
    found: dict[str, Lsp] = {}
    for ingress in {lsp.ingress for lsp in first}:
        left = sorted((lsp for lsp in first if lsp.ingress == ingress), key=lambda lsp: lsp.number)
        for name, source, target in _setups(trace):
            if source == ingress and left and _sent(trace.table.call(name), left[0], first[left[0]] == target, messages):
                found[name] = left.pop(0)
    return found


def _setups(trace: Trace) -> Iterator[tuple[str, str, str]]:
    """The name and the ends of each call, in the order of their setups."""
    for entry in trace.entries:
        if isinstance(entry, Post) and entry.line.startswith("setup "):
            _, name, source, target, *_ = entry.line.split()
            yield name, source, target


def _sent(call: Call | None, lsp: Lsp, fits: bool, messages: list[Heard]) -> bool:
    """Whether the next LSP of its ingress is this call's. A call that isn't in the table was released."""
    if not fits or (call is not None and call.work is not None and call.work != lsp):
        return False
    if call is None or call.state != "blocked":
        return True
    if call.cause in WITHOUT_PATH:
        return False
    return any(one.lsp == lsp and one.message.type == "PathErr" and one.message.code == call.cause for one in messages)


def course(trace: Trace, messages: list[Heard], name: str) -> Iterator[tuple[Entry, str]]:
    """What led to the state of this call: its entries in order, with a sentence for each."""
    if name not in {setup for setup, _, _ in _setups(trace)}:
        raise ToolError(f"it posts no setup of a call {name}")
    lsps = lsps_of(trace, messages, name)
    by_entry = {id(one.entry): one for one in messages}
    active: set[Lsp] = set()
    for entry in trace.entries:
        if isinstance(entry, Post) and (entry.line.split()[1] == name or changes(entry.line)):
            yield entry, f"script line {entry.place} posts {entry.line!r}"
        one = by_entry.get(id(entry))
        told = lsps.text(one.lsp) if one else None
        if one is not None and told is not None:
            yield entry, f"{entry.node} takes from {one.entry.sender} {_sentence(trace, one, told, one.lsp in active)}"
            if one.message.type == "Path" and one.message.is_active:
                active.add(one.lsp)


def _sentence(trace: Trace, one: Heard, told: str, was_active: bool) -> str:
    """What the message says."""
    message = one.message
    names = {node.id: node.name for node in trace.plan.nodes}
    at = names.get(message.at or 0, "")
    match message.type:
        case "Path" if message.is_active:
            return f"a Path that activates {told}, over link {message.link}"
        case "Path" if was_active:
            return f"a Path that takes the activation of {told} back, over link {message.link}"
        case "Path":
            return f"a Path of {told}, over link {message.link}"
        case "Resv":
            return f"a Resv of {told} with label {message.label} of link {message.link}"
        case "PathTear":
            return f"a PathTear of {told}"
        case "Notify":
            return f"a Notify of {told}: {message.code} at {at}, link {message.link}"
        case _:
            return f"a PathErr of {told}: {message.code} at {at}" + ("" if message.removed else ", which stays reserved")
