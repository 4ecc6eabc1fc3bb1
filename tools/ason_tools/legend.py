"""The list of a picture's circuits, and what those of its lines and marks mean that are there."""

import math
from collections.abc import Callable
from dataclasses import dataclass

from .circuits import Circuit
from .geometry import text_width
from .network_map import FIBRE, PALE, cross
from .scene import DASHES, FAINT, FAULT, INK, LOADS, PAPER, SOFT, Scene, colour
from .svg import Drawing

ROW = 19.0
TEXT = 12.0
LEFT, BETWEEN = 24.0, 22.0
"""The room of a circuit's number, and between its ends and its state."""


@dataclass(frozen=True)
class Columns:
    """The list in columns of so many rows, each so wide."""

    rows: int
    count: int
    width: float

    @property
    def height(self) -> float:
        return ROW * self.rows


def one_column(scene: Scene) -> Columns:
    """The list in one column."""
    return Columns(len(scene.circuits), 1, _width(scene))


def columns(scene: Scene, room: float) -> Columns:
    """The list in as many columns as have room side by side."""
    width = _width(scene)
    count = max(1, min(int(room // width), len(scene.circuits)))
    return Columns(math.ceil(len(scene.circuits) / count), count, width)


def _width(scene: Scene) -> float:
    """The width of a column, which the longest row gives."""
    longest = max((text_width(_ends(it), TEXT) + text_width(state_of(it), TEXT) for it in scene.circuits), default=0)
    return LEFT + BETWEEN + longest + 26


def draw_list(drawing: Drawing, scene: Scene, corner: tuple[float, float], into: Columns, has_numbers: bool) -> None:
    """A row for each circuit: its number and colour where a part of the picture has these, its ends, and its state."""
    left, top = corner
    if scene.nothing:
        sentence = scene.nothing[:1].upper() + scene.nothing[1:]
        drawing.text(left, top + 4, sentence, TEXT, fill=FAULT, class_="nothing")
    for place, circuit in enumerate(scene.circuits):
        column, row = divmod(place, max(1, into.rows))
        at = (left + column * into.width, top + ROW * row)
        if has_numbers:
            drawing.circle(at[0] + 8, at[1], 7.5, fill=colour(circuit))
            text = {"text_anchor": "middle", "font_weight": "bold", "fill": PAPER}
            drawing.text(at[0] + 8, at[1] + 3, str(circuit.number), 8.5, **text)
        _row(drawing, circuit, (at[0] + LEFT * has_numbers, at[1]), at[0] + into.width - 26)


def _row(drawing: Drawing, circuit: Circuit, at: tuple[float, float], right: float) -> None:
    """The circuit's ends and its state, red where nothing carries it."""
    left, y = at
    is_lost = circuit.is_cut_off or circuit.call.state == "blocked"
    ink = FAULT if is_lost else INK
    drawing.text(left, y + 4, _ends(circuit), TEXT, fill=ink)
    weight = "bold" if is_lost else "normal"
    drawing.text(right, y + 4, state_of(circuit), TEXT, fill=ink, text_anchor="end", font_weight=weight)


def _ends(circuit: Circuit) -> str:
    """The call's name and its ends."""
    call = circuit.call
    return f"{call.name}: {call.source} to {call.target}" + (" and back" if circuit.is_two_way else "")


def state_of(circuit: Circuit) -> str:
    """The call's state with its cause, and that it is cut off where the state alone doesn't say it."""
    call = circuit.call
    cause = f" ({call.cause})" if call.cause else ""
    cut = ", cut off" if circuit.is_cut_off and call.state in ("bare", "pairing", "guarded", "turned") else ""
    return call.state + cause + cut


Sign = Callable[[Drawing, float, float], None]
"""Draws a sign of the key with its left end there."""


def signs(scenes: list[Scene]) -> list[tuple[Sign, str]]:
    """The signs that these pictures have, and what each means."""
    found: list[tuple[Sign, str]] = []
    spans = [span for scene in scenes if not scene.shows_load for it in scene.spans_by_link().values() for span in it]
    if any(span.carries for span in spans):
        found.append((_solid, "carries its call, towards the arrow"))
    if any(not span.carries for span in spans):
        found.append((_dashed, "doesn't: a backup in reserve, or a route that is cut"))
    if any(scene.shows_load for scene in scenes):
        found += [(_band, "a fibre, on the right of its direction: labels in use, reserved (pale) and free (grey)")]
        if any(scene.shows_load and scene.chosen is not None for scene in scenes):
            found.append((_others, "labels that other calls hold"))
        found.append((_scale, "up to a quarter, a half, three quarters of its labels are taken, more, and all"))
    if any(scene.full_links() for scene in scenes):
        found.append((_full, "link with a fibre that has no free label"))
    if any(scene.failed for scene in scenes):
        found.append((_down, "link that is down"))
    return found


def draw_key(drawing: Drawing, left: float, top: float, scenes: list[Scene]) -> None:
    """What the lines and the marks mean that are there."""
    for place, (sign, meaning) in enumerate(signs(scenes)):
        y = top + ROW * place
        sign(drawing, left, y)
        drawing.text(left + 74, y + 4, meaning, TEXT, fill=INK)


def key_width(scenes: list[Scene]) -> float:
    """How wide the key is."""
    return 74 + max((text_width(meaning, TEXT) for _, meaning in signs(scenes)), default=0.0)


def key_height(scenes: list[Scene]) -> float:
    """How high the key is."""
    return ROW * len(signs(scenes))


def _solid(drawing: Drawing, left: float, y: float) -> None:
    drawing.line(left, y, left + 56, y, stroke=INK, stroke_width=3)
    drawing.polygon([(left + 62, y), (left + 53, y + 4.5), (left + 53, y - 4.5)], fill=INK)


def _dashed(drawing: Drawing, left: float, y: float) -> None:
    drawing.line(left, y, left + 62, y, stroke=INK, stroke_width=3, stroke_dasharray=DASHES)


def _full(drawing: Drawing, left: float, y: float) -> None:
    drawing.rect(left + 20, y - 8, 22, 16, rx=3, fill=FAULT)


def _down(drawing: Drawing, left: float, y: float) -> None:
    cross(drawing, left + 31, y, 7)


def _band(drawing: Drawing, left: float, y: float) -> None:
    high = 2 * FIBRE
    drawing.rect(left, y - high / 2, 62, high, fill=FAINT, fill_opacity=0.6)
    drawing.rect(left, y - high / 2, 62, high * 0.4, fill=LOADS[2])
    drawing.rect(left, y - high * 0.1, 62, high * 0.25, fill=LOADS[2], fill_opacity=PALE)


def _others(drawing: Drawing, left: float, y: float) -> None:
    drawing.rect(left, y - FIBRE / 2, 62, FIBRE, fill=SOFT)


def _scale(drawing: Drawing, left: float, y: float) -> None:
    for place, paint in enumerate(LOADS):
        drawing.rect(left + 12.6 * place, y - 5, 11.6, 10, fill=paint)
