"""The grid of labels by fibre: who holds which, and who of them is connected."""

import math
from itertools import accumulate, pairwise

from .circuits import Fibre, Holder
from .plan import Link
from .scene import FAINT, FAULT, INK, PAPER, SOFT, Scene
from .svg import Drawing

ROW = 21.0
CHIP = 19.0
"""The room of one holder's number."""

FEW = 30
"""So many rows aren't cut into blocks."""

RIGHT = 100.0
TOP = 56.0
LETTER = 6.8
"""About the width of a letter of a fibre's name."""


def rows(scene: Scene) -> list[Fibre]:
    """The fibres of which a drawn circuit has a label, or an LSP without a call, by link and then by sending end."""
    order = {link.id: link.ends for link in scene.plan.links}
    shown = [fibre for fibre, held in scene.usage.holders.items() if any(_is_shown(scene, it) for it in held.values())]
    return sorted(shown, key=lambda fibre: (fibre[0], order[fibre[0]].index(fibre[1])))


def size(scene: Scene, room: float) -> tuple[float, float]:
    """The width and the height of the grid, where this much width is there."""
    blocks, longest = _blocks(scene, room)
    width = _columns(scene, rows(scene))[-1] + RIGHT
    return width * len(blocks), TOP + ROW * (longest + 2)


def draw(drawing: Drawing, scene: Scene, corner: tuple[float, float], room: float) -> None:
    """Draws the grid with its upper left corner there."""
    left, top = corner
    shown = rows(scene)
    drawing.text(left, top + 14, "Labels by fibre", 15, fill=INK, font_weight="bold")
    hidden = 2 * len(scene.plan.links) - len(shown)
    why = "hold no label and" if scene.chosen is None else "hold no label of these calls and"
    note = "; for a label with a red edge calls contend where two groups fail" if scene.contended else ""
    drawing.text(left, top + 32, f"{hidden} fibres {why} aren't shown{note}", 11, fill=SOFT)
    columns = _columns(scene, shown)
    for place, block in enumerate(_blocks(scene, room)[0]):
        _block(drawing, scene, block, columns, (left + place * (columns[-1] + RIGHT), top + TOP))


def _blocks(scene: Scene, room: float) -> tuple[list[list[Fibre]], int]:
    """The rows in blocks side by side, as many as have room where there are many rows; and how long the longest is."""
    shown = rows(scene)
    fitting = max(1, int(room // (_columns(scene, shown)[-1] + RIGHT)))
    longest = max(FEW, math.ceil(len(shown) / fitting))
    return [shown[start : start + longest] for start in range(0, max(1, len(shown)), longest)], min(longest, len(shown))


def _block(
    drawing: Drawing, scene: Scene, block: list[Fibre], columns: list[float], corner: tuple[float, float]
) -> None:
    """The numbers of the labels, and a row for each fibre."""
    left, top = corner
    for label, (start, end) in enumerate(pairwise(columns), 1):
        drawing.text(left + (start + end) / 2, top - 6, str(label), 10, fill=SOFT, text_anchor="middle")
    for place, fibre in enumerate(block):
        _row(drawing, scene, fibre, columns, (left, top + ROW * place))


def _is_shown(scene: Scene, held: list[Holder]) -> bool:
    return any(scene.has(holder.circuit) if holder.circuit else scene.chosen is None for holder in held)


def _columns(scene: Scene, shown: list[Fibre]) -> list[float]:
    """Where each label's column begins, and where the last one ends. A label that more share has a wider column."""
    links = {link.id: link for link in scene.plan.links}
    widest = [0] * max((links[link].labels for link, _ in shown), default=0)
    for fibre in shown:
        for label, held in scene.usage.holders[fibre].items():
            widest[label - 1] = max(widest[label - 1], len(held))
    names = max((len(_name(links[link], sender)) for link, sender in shown), default=0)
    return list(accumulate((CHIP * max(1, count) + 2 for count in widest), initial=LETTER * names + 16))


def _name(link: Link, sender: str) -> str:
    return f"{link.id}: {sender} to {link.other(sender)}"


def _row(drawing: Drawing, scene: Scene, fibre: Fibre, columns: list[float], at: tuple[float, float]) -> None:
    """A fibre: its name, its labels, and how many are free."""
    link = next(link for link in scene.plan.links if link.id == fibre[0])
    left, y = at
    held = scene.usage.holders[fibre]
    is_down = link.id in scene.failed
    drawing.text(left, y + 15, _name(link, fibre[1]), 12, fill=FAULT if is_down else INK)
    for label in range(1, link.labels + 1):
        x, end = left + columns[label - 1], left + columns[label]
        _cell(drawing, scene, held.get(label, []), (x, y, end - x))
        if (fibre, label) in scene.contended:
            drawing.rect(x, y, end - x, ROW, rx=2, fill="none", stroke=FAULT, stroke_width=1.8)
    free = link.labels - len(held)
    word = ("full" if free <= 0 else f"{free} free") + (", down" if is_down else "")
    style = {"fill": FAULT, "font_weight": "bold"} if free <= 0 or is_down else {"fill": SOFT}
    drawing.text(left + columns[link.labels] + 8, y + 15, word, 12, **style)


def _cell(drawing: Drawing, scene: Scene, held: list[Holder], box: tuple[float, float, float]) -> None:
    """A label with all its holders: who is connected on it is filled, for whom it is reserved has a dashed edge."""
    x, y, width = box
    if not held:
        drawing.rect(x + 1.5, y + 1.5, width - 3, ROW - 3, rx=2, fill=PAPER, stroke=FAINT)
        return
    room = (width - 2) / len(held)
    for place, holder in enumerate(held):
        _chip(drawing, scene, holder, (x + 1 + room * place, y, room))


def _chip(drawing: Drawing, scene: Scene, holder: Holder, box: tuple[float, float, float]) -> None:
    x, y, width = box
    paint = scene.colour_of(holder)
    style = {"fill": paint} if holder.is_connected else {"fill": PAPER, "stroke_dasharray": "3 2"}
    drawing.rect(x + 1, y + 1.5, width - 2, ROW - 3, rx=2, stroke=paint, stroke_width=1.6, **style)
    text = str(holder.circuit.number) if holder.circuit else "-"
    size = 10 if len(text) < 3 else 7.5
    ink = PAPER if holder.is_connected else paint
    drawing.text(x + width / 2, y + 14.5, text, size, fill=ink, text_anchor="middle", font_weight="bold")
