"""The SRLGs that an attribute of a topology file's edges tells."""

import re

from .errors import ToolError, listed, quoted
from .plan import MOST_SRLG, MOST_SRLGS
from .topology import Edge

Renamed = list[tuple[str, str, str]]
"""Kind, text of the file, and what it became in the plan."""


def srlgs_of(edges: list[Edge], attribute: str | None) -> tuple[list[tuple[int, ...]], Renamed]:
    """The SRLGs of each edge, and which word became which number. Without an attribute there are none.

    The attribute's text is a list with commas or semicolons, or of numbers with blanks. A number is kept; words get the
    numbers above those that there are, in the order in which they come.
    """
    if attribute is None:
        return [() for _ in edges], []
    if edges and not any(attribute in edge.attributes for edge in edges):
        raise ToolError(f"no edge has {quoted(attribute)}; the first has {listed(edges[0].attributes)}")
    words = [_words(edge.attributes.get(attribute, "")) for edge in edges]
    numbers = [int(word) for row in words for word in row if _is_number(word)]
    named = dict.fromkeys(word for row in words for word in row if not _is_number(word))
    known = {word: number for number, word in enumerate(named, max(numbers, default=0) + 1)}
    rows = [[known[word] if word in known else int(word) for word in row] for row in words]
    return [_distinct(edge, row) for edge, row in zip(edges, rows)], [("srlg", word, str(number)) for word, number in known.items()]


def _words(text: str) -> list[str]:
    parts = [part.strip() for part in re.split("[,;]", text)]
    if len(parts) == 1 and all(map(_is_number, text.split())):
        return text.split()
    return [part for part in parts if part]


def _is_number(word: str) -> bool:
    return word.isascii() and word.isdigit() and len(word) <= len(str(MOST_SRLG))


def _distinct(edge: Edge, srlgs: list[int]) -> tuple[int, ...]:
    """The numbers without repetitions, where a link may have them."""
    numbers = tuple(dict.fromkeys(srlgs))
    if len(numbers) > MOST_SRLGS:
        raise ToolError(f"edge {quoted(edge.key)} has {len(numbers)} SRLGs, and a link has at most {MOST_SRLGS}")
    beyond = next((number for number in numbers if number > MOST_SRLG), None)
    if beyond is not None:
        raise ToolError(f"edge {quoted(edge.key)} would have the SRLG {beyond}, above {MOST_SRLG:,}")
    return numbers
