"""What a picture shows of a network at one moment, and the colours in which it does."""

from dataclasses import dataclass

from .circuits import Circuit, Fibre, Holder, Span, Usage
from .plan import Plan

COLOURS = (
    "#1f77b4", "#e67700", "#2ca02c", "#9467bd", "#8c564b", "#d84a9b", "#0e9aa7", "#7a7d00", "#3b3b98", "#a61e4d",
    "#006266", "#74b816", "#5f3dc4", "#b08900", "#4b6584", "#087f5b", "#833471", "#a0522d", "#0652dd", "#495057",
)  # fmt: skip
"""The circuits' colours, in turn. None is the red of what is full or down."""

FAULT = "#c92a2a"
INK = "#212529"
SOFT = "#868e96"
FAINT = "#ced4da"
PAPER = "#ffffff"
DASHES = "9 5"
"""The line of what doesn't carry its call."""

MOST_LANES = len(COLOURS)
"""So many circuits are told apart by their colours; of more the map shows the load of the links."""

LOADS = ("#2f9e8f", "#7fb241", "#e0a800", "#e8711a", FAULT)
"""The colours of a load: up to a quarter, a half and three quarters, less than all labels, and all."""


def load_colour(share: float) -> str:
    """The colour of a fibre of whose labels this share is taken."""
    return LOADS[4] if share >= 1 else LOADS[min(3, int(share * 4 - 1e-9))]


def _lighter(paint: str) -> str:
    """The colour as it reads on a dark ground: half way to white."""
    parts = (int(paint[place : place + 2], 16) for place in (1, 3, 5))
    return "#" + "".join(f"{(part + 255) // 2:02x}" for part in parts)


DARK = {PAPER: "#16191d", INK: "#e9ecef", SOFT: "#9aa3ab", FAINT: "#495057", FAULT: "#ff6b6b"}
DARK |= {paint: _lighter(paint) for paint in COLOURS}
"""What each colour becomes where the reader's screen is dark."""


@dataclass(frozen=True)
class Scene:
    """All that the picture shows: of the circuits those of the chosen calls, or all where none is chosen by name."""

    plan: Plan
    usage: Usage
    failed: frozenset[int]
    title: str
    chosen: frozenset[str] | None = None
    contended: frozenset[tuple[Fibre, int]] = frozenset()
    """The labels for which calls would contend if two groups failed, where that was asked for."""

    is_load: bool | None = None
    """Whether the map shows the load of the links; where it isn't said, above so many circuits."""

    nothing: str = ""
    """A sentence that says why there is no circuit to show."""

    @property
    def circuits(self) -> list[Circuit]:
        """The circuits that are drawn."""
        return [circuit for circuit in self.usage.circuits if self.has(circuit)]

    def has(self, circuit: Circuit) -> bool:
        """Whether the circuit is drawn."""
        return self.chosen is None or circuit.call.name in self.chosen

    @property
    def shows_load(self) -> bool:
        """Whether the map shows loads in place of circuits."""
        return len(self.circuits) > MOST_LANES if self.is_load is None else self.is_load

    def spans_by_link(self) -> dict[int, list[Span]]:
        """The drawn circuits on each link."""
        by_link: dict[int, list[Span]] = {}
        for circuit in self.circuits:
            for span in circuit.spans:
                by_link.setdefault(span.link, []).append(span)
        return by_link

    def full_links(self) -> set[int]:
        """The links with a fibre that has no free label."""
        return {link for link, _ in self.usage.full(self.plan)}

    def colour_of(self, holder: Holder) -> str:
        """The holder's colour: grey where it isn't drawn, or no call has it any more."""
        return colour(holder.circuit) if holder.circuit and self.has(holder.circuit) else SOFT


def colour(circuit: Circuit) -> str:
    """The circuit's colour."""
    return COLOURS[(circuit.number - 1) % len(COLOURS)]
