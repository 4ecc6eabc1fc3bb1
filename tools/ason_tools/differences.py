"""In what two tables differ."""

from collections.abc import Callable
from dataclasses import dataclass, fields
from typing import Any

from .tables import Call, Hold, Leg, Lsp, Table

NAMES = {"source": "from", "target": "to", "incoming": "in", "outgoing": "out", "back_incoming": "back in", "back_outgoing": "back out"}
"""The fields that a line calls otherwise than the code does."""


@dataclass(frozen=True)
class Difference:
    """A call or a leg that one table alone has, where no field is named, or a field of one that both have."""

    kind: str
    name: str
    field: str | None
    first: str | None
    second: str | None

    def text(self) -> str:
        """The line that is printed."""
        if self.field is None:
            return f"- {self.first}" if self.second is None else f"+ {self.second}"
        return f"{self.kind} {self.name}: {self.field} {self.first} -> {self.second}"


def between(first: Table, second: Table) -> list[Difference]:
    """The differences: of calls and then of legs, in the order of the first table, and then what the second alone has."""
    found = _of("call", _keyed(first.calls, _call_name), _keyed(second.calls, _call_name))
    return found + _of("leg", _keyed(first.legs, _leg_name), _keyed(second.legs, _leg_name))


def verdict(found: list[Difference]) -> str:
    """How many calls and legs differ."""
    counts = {kind: len({it.name for it in found if it.kind == kind}) for kind in ("call", "leg")}
    shown = [f"{count} {kind}{'' if count == 1 else 's'}" for kind, count in counts.items()]
    return f"{' and '.join(shown)} {'differ' if found else 'differ: the tables are the same'}"


def _of(kind: str, first: dict[str, Any], second: dict[str, Any]) -> list[Difference]:
    found = []
    for name, row in first.items():
        other = second.get(name)
        found += [Difference(kind, name, None, row.text(), None)] if other is None else _fields(kind, name, row, other)
    return found + [Difference(kind, name, None, None, row.text()) for name, row in second.items() if name not in first]


def _fields(kind: str, name: str, row: Call | Leg, other: Call | Leg) -> list[Difference]:
    """The fields that differ."""
    pairs = ((it.name, getattr(row, it.name), getattr(other, it.name)) for it in fields(row))
    return [Difference(kind, name, NAMES.get(it, it), _shown(one), _shown(two)) for it, one, two in pairs if one != two]


def _keyed(rows: tuple[Any, ...], name: Callable[[Any], str]) -> dict[str, Any]:
    return {name(row): row for row in rows}


def _call_name(call: Call) -> str:
    return call.name


def _leg_name(leg: Leg) -> str:
    return f"{leg.lsp.text()} at {leg.node}"


def _shown(value: Lsp | Hold | str | bool | None) -> str:
    """The value as a table has it."""
    if isinstance(value, Lsp | Hold):
        return value.text()
    return {None: "-", True: "yes", False: "no"}.get(value, value)
