"""A plan that is built one node, link and call after the other, within the limits of a plan."""

from collections.abc import Hashable, Iterable

from .errors import ToolError, quoted
from .names import Namer
from .plan import (
    MOST_LABELS,
    MOST_LINKS,
    MOST_METRIC,
    MOST_NODES,
    MOST_SETUPS,
    MOST_SRLG,
    MOST_SRLGS,
    Link,
    Node,
    Plan,
)
from .topology import Position


class Builder:
    """The plan so far, which titles became which names, and a sentence on each thing that was left out or merged."""

    def __init__(self) -> None:
        self.plan = Plan()
        self.renamed: list[tuple[str, str]] = []
        self.notes: list[str] = []
        self._namer = Namer("n")
        self._names: dict[Hashable, str] = {}
        self._by_title: dict[str, str] = {}
        self._setups = 0

    def add_node(self, key: Hashable, title: str, convert: bool, position: Position | None = None) -> None:
        """A node with a name like its title. Links and calls name it by its key."""
        if key in self._names:
            raise ToolError(f"two nodes have the id {quoted(key)}")
        if len(self.plan.nodes) == MOST_NODES:
            raise ToolError(f"it has more than {MOST_NODES} nodes, and a plan has at most so many")
        name = self._namer.name(title)
        if name != title:
            self.renamed.append((title, name))
        self._names[key] = name
        self._by_title.setdefault(title, name)
        self.plan.nodes.append(Node(name, len(self.plan.nodes) + 1, convert, position))

    def add_link(
        self, key: object, ends: tuple[Hashable, Hashable], labels: int, metric: int, srlgs: Iterable[int]
    ) -> None:
        """A link between these nodes; the key says in sentences which it is."""
        shown = f"link {quoted(key)}"
        missing = next((end for end in ends if end not in self._names), None)
        if missing is not None:
            raise ToolError(f"{shown} ends at {quoted(missing)}, which is no node")
        if len(self.plan.links) == MOST_LINKS:
            raise ToolError(f"it has more than {MOST_LINKS} links, and a plan has at most so many")
        numbers = tuple(sorted(set(srlgs)))
        _check(f"the labels of {shown}", labels, 1, MOST_LABELS)
        _check(f"the metric of {shown}", metric, 1, MOST_METRIC)
        for number in numbers:
            _check(f"an SRLG of {shown}", number, 0, MOST_SRLG)
        if len(numbers) > MOST_SRLGS:
            raise ToolError(f"{shown} has {len(numbers)} SRLGs, and a plan has at most {MOST_SRLGS} of a link")
        names = (self._names[ends[0]], self._names[ends[1]])
        self.plan.links.append(Link(len(self.plan.links) + 1, names, labels, metric, numbers))

    def add_setup(self, source: Hashable, target: Hashable, protected: bool, settle: bool) -> None:
        """A setup between two nodes, which are told by their keys, titles or names. Its route is left to the program."""
        names = [self._name_of(end) for end in (source, target)]
        if names[0] == names[1]:
            raise ToolError(f"a call from {quoted(source)} to itself has no route")
        if self._setups == MOST_SETUPS:
            raise ToolError(f"there are more than {MOST_SETUPS:,} calls, and a plan has at most so many")
        self._setups += 1
        line = f"setup c{self._setups} {names[0]} {names[1]}"
        self.plan.script += [line if protected else f"{line} unprotected", *(["settle 1000"] if settle else [])]

    def _name_of(self, end: Hashable) -> str:
        name = self._names.get(end)
        if name is None and isinstance(end, str):
            name = self._by_title.get(end, end if end in self._names.values() else None)
        if name is None:
            raise ToolError(f"{quoted(end)} is no node")
        return name


def _check(what: str, number: object, least: int, most: int) -> None:
    if not isinstance(number, int) or isinstance(number, bool) or not least <= number <= most:
        raise ToolError(f"{what} is {quoted(number)}, and not {least} to {most:,}")
