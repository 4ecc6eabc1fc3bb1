"""Bars side by side with their names, as SVG: of each name several counts, one behind the other."""

from dataclasses import dataclass

from .scene import FAINT, INK, SOFT
from .svg import Drawing

ROW = 22.0
LEFT, RIGHT, TOP = 30.0, 60.0, 84.0
LONGEST = 520.0
"""The length of the longest bar."""

LETTER = 7.2
"""About the width of a letter of a name."""


@dataclass(frozen=True)
class Part:
    """A kind of count: its name and its colour."""

    name: str
    paint: str


def draw(rows: dict[str, list[int]], parts: list[Part], title: str, note: str) -> str:
    """A bar for each name, with the counts of the parts in their order; below them a note."""
    names = LEFT + LETTER * max(map(len, rows), default=0) + 10
    most = max((sum(counts) for counts in rows.values()), default=0) or 1
    drawing = Drawing(names + LONGEST + RIGHT, TOP + ROW * (len(rows) + 2), title)
    drawing.text(LEFT, 30, title, 16, fill=INK, font_weight="bold")
    for place, part in enumerate(parts):
        drawing.rect(LEFT + 130 * place, 48, 14, 14, rx=2, fill=part.paint)
        drawing.text(LEFT + 130 * place + 20, 60, part.name, 12, fill=INK)
    for place, (name, counts) in enumerate(rows.items()):
        y = TOP + ROW * place
        drawing.text(names - 10, y + 14, name, 12, fill=INK, text_anchor="end")
        _bar(drawing, counts, parts, (names, y, LONGEST / most))
    drawing.line(names, TOP - 4, names, TOP + ROW * len(rows), stroke=FAINT)
    drawing.text(LEFT, TOP + ROW * (len(rows) + 1), note, 12, fill=SOFT)
    return drawing.document()


def _bar(drawing: Drawing, counts: list[int], parts: list[Part], place: tuple[float, float, float]) -> None:
    """The counts one behind the other, each in its colour, with its number where it has room."""
    x, y, unit = place
    for count, part in zip(counts, parts):
        width = count * unit
        if count:
            drawing.rect(x, y + 2, width, ROW - 5, fill=part.paint)
            if width > 9 * len(str(count)):
                drawing.text(x + width / 2, y + 14, str(count), 11, fill="#ffffff", text_anchor="middle")
        x += width
    drawing.text(x + 6, y + 14, str(sum(counts)), 12, fill=SOFT)
