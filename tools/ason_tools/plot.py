"""A plot of counts or shares against a load, as SVG."""

import math
from collections.abc import Callable
from dataclasses import dataclass

from .svg import Drawing

WIDTH, HEIGHT = 760.0, 460.0
LEFT, RIGHT, TOP, BOTTOM = 70.0, 30.0, 56.0, 60.0
INK = "#212529"
SOFT = "#868e96"
FAINT = "#dee2e6"
PAINTS = ("#1f77b4", "#e67700", "#2ca02c")


@dataclass(frozen=True)
class Row:
    """A load, and the mean, the least and the greatest count there."""

    x: float
    mean: float
    least: float
    most: float


@dataclass(frozen=True)
class Series:
    """A name and its rows."""

    name: str
    rows: list[Row]


def draw(series: list[Series], title: str, x_name: str, y_name: str, shown: str = "mean, and least to greatest") -> str:
    """The means of each series as a line, in a band from the least to the greatest; `shown` says what these are. Several have their names."""
    every = [row for it in series for row in it.rows]
    widest, highest = max(row.x for row in every), max(1, *(row.most for row in every))
    drawing = Drawing(WIDTH, HEIGHT, title)

    def at(x: float, y: float) -> tuple[float, float]:
        return LEFT + x / widest * (WIDTH - LEFT - RIGHT), HEIGHT - BOTTOM - y / highest * (HEIGHT - TOP - BOTTOM)

    drawing.text(LEFT, 30, title, 16, fill=INK, font_weight="bold")
    for y in _ticks(highest):
        drawing.line(*at(0, y), *at(widest, y), stroke=FAINT)
        drawing.text(LEFT - 8, at(0, y)[1] + 4, str(y), 12, fill=SOFT, text_anchor="end")
    for x in _ticks(widest):
        drawing.line(*at(x, 0), at(x, 0)[0], at(x, 0)[1] + 5, stroke=SOFT)
        drawing.text(at(x, 0)[0], HEIGHT - BOTTOM + 20, str(x), 12, fill=SOFT, text_anchor="middle")
    drawing.line(*at(0, 0), *at(widest, 0), stroke=SOFT)
    for place, it in enumerate(series):
        _line(drawing, it.rows, at, PAINTS[place])
        if len(series) > 1:
            drawing.text(LEFT + 16, TOP + 18 + 18 * place, it.name, 13, fill=PAINTS[place], font_weight="bold")
    drawing.text((LEFT + WIDTH - RIGHT) / 2, HEIGHT - 16, x_name, 13, fill=INK, text_anchor="middle")
    drawing.text(LEFT, TOP - 8, f"{y_name}: {shown}", 13, fill=INK)
    return drawing.document()


def _line(drawing: Drawing, rows: list[Row], at: Callable[[float, float], tuple[float, float]], paint: str) -> None:
    """The means, each with a point, in their band."""
    band = [at(row.x, row.most) for row in rows] + [at(row.x, row.least) for row in reversed(rows)]
    drawing.polygon(band, fill=paint, fill_opacity=0.18)
    drawing.polyline([at(row.x, row.mean) for row in rows], stroke=paint, stroke_width=2.5)
    for row in rows:
        drawing.circle(*at(row.x, row.mean), 4, fill=paint)


def _ticks(greatest: float) -> list[int]:
    """Round numbers from 0 on, at most about six."""
    step = 10 ** math.floor(math.log10(greatest)) if greatest > 0 else 1
    step = next(step * share // 10 for share in (1, 2, 5, 10, 20, 50, 100) if step * share >= 10 and 6 * step * share // 10 >= math.floor(greatest))
    return list(range(0, math.floor(greatest) + 1, step))
