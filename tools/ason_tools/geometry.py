"""Boxes, lines and the width of texts, as pictures need them."""

import math
from dataclasses import dataclass
from functools import cached_property

Point = tuple[float, float]

Box = tuple[float, float, float, float]
"""The left, upper, right and lower edge."""

_WIDTHS = {"ijlI.,:;'|!()[]-/ ": 0.34, "ftr": 0.39, "mwMW": 0.92, "@%": 0.98}
"""The widths of letters in shares of their height, in a bold Helvetica; those of other letters are below."""

_CAPITAL, _LETTER = 0.75, 0.61


def text_width(text: str, size: float) -> float:
    """About how wide the text is in letters of this size; rather too wide than too narrow."""
    return size * sum(map(_letter_width, text))


def _letter_width(letter: str) -> float:
    usual = _CAPITAL if letter.isupper() else _LETTER
    return next((width for letters, width in _WIDTHS.items() if letter in letters), usual)


def box_around(center: Point, wide: float, high: float) -> Box:
    """The box of this size around the point."""
    x, y = center
    return x - wide / 2, y - high / 2, x + wide / 2, y + high / 2


def hull(boxes: list[Box]) -> Box:
    """The least box around all of these."""
    return tuple(pick(box[side] for box in boxes) for side, pick in enumerate((min, min, max, max)))


def is_overlap(one: Box, other: Box, gap: float = 0.0) -> bool:
    """Whether the two boxes have less than this gap between them."""
    return (
        one[0] < other[2] + gap and other[0] < one[2] + gap and one[1] < other[3] + gap and other[1] < one[3] + gap
    )


def nearest(box: Box, point: Point) -> Point:
    """The point of the box that is nearest to this point."""
    return min(max(point[0], box[0]), box[2]), min(max(point[1], box[1]), box[3])


def distance(box: Box, point: Point) -> float:
    """How far the point is from the box; 0 within it."""
    return math.dist(nearest(box, point), point)


@dataclass(frozen=True)
class Line:
    """A straight piece of a link, with half its width."""

    link: int
    start: Point
    end: Point
    half: float

    @cached_property
    def around(self) -> Box:
        """The least box around the line."""
        (x1, y1), (x2, y2), half = self.start, self.end, self.half
        return min(x1, x2) - half, min(y1, y2) - half, max(x1, x2) + half, max(y1, y2) + half

    def is_near(self, box: Box) -> bool:
        """Whether the line may touch the box: whether the least box around it does."""
        left, top, right, bottom = self.around
        return left < box[2] and box[0] < right and top < box[3] and box[1] < bottom

    def touches(self, box: Box) -> bool:
        """Whether a part of the line is in the box, by the algorithm of Liang and Barsky."""
        if not self.is_near(box):
            return False
        first, last = 0.0, 1.0
        for axis in (0, 1):
            low, high = box[axis] - self.half, box[axis + 2] + self.half
            start, way = self.start[axis], self.end[axis] - self.start[axis]
            if way == 0:
                if not low < start < high:
                    return False
                continue
            enter, leave = sorted(((low - start) / way, (high - start) / way))
            first, last = max(first, enter), min(last, leave)
        return first < last
