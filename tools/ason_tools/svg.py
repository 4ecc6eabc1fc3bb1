"""SVG, element by element."""

from collections.abc import Iterable, Iterator
from contextlib import contextmanager
from html import escape

Value = str | int | float

FONT = "Helvetica, Arial, sans-serif"


class Drawing:
    """An SVG document of a size, to which elements are added in the order in which they cover each other."""

    def __init__(self, width: float, height: float, title: str, dark: dict[str, str] | None = None) -> None:
        """`dark` says which colour becomes which one where the reader's screen is dark."""
        self._size = (width, height)
        self._title = title
        self._dark = dark or {}
        self._elements: list[str] = []
        self.rect(0, 0, width, height, fill="#ffffff")

    def rect(self, x: float, y: float, width: float, height: float, **style: Value) -> None:
        self._add("rect", {"x": x, "y": y, "width": width, "height": height}, style)

    def line(self, x1: float, y1: float, x2: float, y2: float, **style: Value) -> None:
        self._add("line", {"x1": x1, "y1": y1, "x2": x2, "y2": y2}, style)

    def polygon(self, points: Iterable[tuple[float, float]], **style: Value) -> None:
        self._add("polygon", {"points": _points(points)}, style)

    def polyline(self, points: Iterable[tuple[float, float]], **style: Value) -> None:
        self._add("polyline", {"points": _points(points), "fill": "none"}, style)

    def circle(self, x: float, y: float, radius: float, **style: Value) -> None:
        self._add("circle", {"cx": x, "cy": y, "r": radius}, style)

    def text(self, x: float, y: float, text: str, size: float, **style: Value) -> None:
        self._add("text", {"x": x, "y": y, "font-size": size}, style, escape(text, quote=False))

    @contextmanager
    def moved(self, aside: float) -> Iterator[None]:
        """Has what is drawn within stand so far to the right."""
        self._elements.append(f'<g transform="translate({_text(aside)} 0)">')
        yield
        self._elements.append("</g>")

    def document(self) -> str:
        """The whole document."""
        width, height = map(_text, self._size)
        head = f'<svg xmlns="http://www.w3.org/2000/svg" width="{width}" height="{height}" viewBox="0 0 {width} {height}"'
        lines = [f'{head} font-family="{FONT}">', f"<title>{escape(self._title, quote=False)}</title>", *self._rules()]
        return "\n".join([*lines, *self._elements, "</svg>"]) + "\n"

    def _rules(self) -> list[str]:
        """The rules for a dark screen, of the colours that are there."""
        there = "\n".join(self._elements)
        pairs = [(name, old, new) for old, new in self._dark.items() for name in ("fill", "stroke") if f'{name}="{old}"' in there]
        rules = [f'[{name}="{old}"]{{{name}:{new}}}' for name, old, new in pairs]
        return ["<style>@media (prefers-color-scheme: dark) {", *rules, "}</style>"] if rules else []

    def _add(self, name: str, places: dict[str, Value], style: dict[str, Value], content: str | None = None) -> None:
        # A name that is a word of Python's has a stroke behind it, as `class_`.
        attributes = places | {key.rstrip("_").replace("_", "-"): value for key, value in style.items()}
        written = " ".join(f'{key}="{escape(_text(value))}"' for key, value in attributes.items())
        self._elements.append(f"<{name} {written}/>" if content is None else f"<{name} {written}>{content}</{name}>")


def _points(points: Iterable[tuple[float, float]]) -> str:
    return " ".join(f"{_text(x)},{_text(y)}" for x, y in points)


def _text(value: Value) -> str:
    if isinstance(value, str):
        return value
    return f"{value:.2f}".rstrip("0").rstrip(".") or "0"
