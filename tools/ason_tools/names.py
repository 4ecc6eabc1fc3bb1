"""Names as a plan has them: an ASCII letter, then letters, digits, `_` or `-`, at most 16 characters."""

import re
import unicodedata

LONGEST = 16

_NAME = re.compile(r"[A-Za-z][A-Za-z0-9_-]{0,15}")


_LATIN = re.compile(r"LATIN (SMALL|CAPITAL) (?:LETTER|LIGATURE) ([A-Z]{1,2})(?: WITH .*)?")
_OTHERS = {
    "LATIN SMALL LETTER SHARP S": "ss", "LATIN CAPITAL LETTER SHARP S": "SS", "LATIN SMALL LETTER DOTLESS I": "i",
    "LATIN SMALL LETTER ETH": "d", "LATIN CAPITAL LETTER ETH": "D",
    "LATIN SMALL LETTER THORN": "th", "LATIN CAPITAL LETTER THORN": "Th",
}  # fmt: skip
"""Letters whose names in Unicode don't say the letters that they are like."""


def is_name(text: str) -> bool:
    """Whether a plan may have this name."""
    return _NAME.fullmatch(text) is not None


class Namer:
    """Makes names of texts, each another."""

    def __init__(self, first: str) -> None:
        """`first` is the letter that is put before a text which doesn't begin with one."""
        self._first = first
        self._used: set[str] = set()

    def name(self, text: str) -> str:
        """A name like the text that wasn't given before: the text itself where it is one."""
        stem = _plain(text, self._first)
        name, number = stem, 1
        while name in self._used:
            number += 1
            tail = f"-{number}"
            name = stem[: LONGEST - len(tail)].rstrip("-") + tail
        self._used.add(name)
        return name


def _plain(text: str, first: str) -> str:
    """The text in the characters of a name, cut to its length."""
    if is_name(text):
        return text
    folded = unicodedata.normalize("NFKD", "".join(map(_base, text))).encode("ascii", "ignore").decode()
    plain = re.sub(r"[^A-Za-z0-9_]+", "-", folded).strip("-")
    if not plain[:1].isalpha():
        plain = first + plain
    return plain[:LONGEST].rstrip("-")


def _base(letter: str) -> str:
    """The letter without a stroke, or the letters of a ligature; any other character as it is."""
    name = unicodedata.name(letter, "")
    found = _LATIN.fullmatch(name)
    if found is None:
        return _OTHERS.get(name, letter)
    return found[2] if found[1] == "CAPITAL" else found[2].lower()
