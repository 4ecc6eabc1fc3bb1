"""Where the values of a TOML document stand. The document is one that `ason` has read, so nothing is judged here."""

import re
import tomllib
from dataclasses import dataclass
from typing import Any

_BLANK = re.compile(r"(?:[ \t\r\n]|#[^\n]*)*")
_BARE_KEY = re.compile(r"[A-Za-z0-9_-]+")
_STRINGS = (
    re.compile(r'"""(?:[^\\]|\\.)*?"{3,5}(?!")', re.DOTALL),
    re.compile(r"'''.*?'{3,5}(?!')", re.DOTALL),
    re.compile(r'"(?:[^"\\\n]|\\.)*"'),
    re.compile(r"'[^'\n]*'"),
)
_SCALAR = re.compile(r"\d{4}-\d\d-\d\d \d\d:[^,\]}\s#]*|[^,\]}\s#]+")


@dataclass
class Placed:
    """A value and where it begins: a table as a dict of placed values, an array as a list of them, or a plain value.

    The place of a key's value is that of the key; that of a table under a header is the header's.
    """

    value: Any
    at: int

    def get(self, key: str) -> "Placed | None":
        """The value of this key, where this is a table that has it."""
        return self.value.get(key) if isinstance(self.value, dict) else None

    def items(self) -> "list[Placed]":
        """The elements, where this is an array."""
        return self.value if isinstance(self.value, list) else []

    def plain(self) -> Any:
        """The value without its places."""
        if isinstance(self.value, dict):
            return {key: item.plain() for key, item in self.value.items()}
        if isinstance(self.value, list):
            return [item.plain() for item in self.value]
        return self.value


class Unreadable(Exception):
    """The text has a form that this scanner doesn't know."""


def read(text: str) -> Placed:
    """The document's top table with the places of all values."""
    try:
        return _Scanner(text).document()
    except (AttributeError, IndexError, KeyError, StopIteration, TypeError) as error:
        raise Unreadable from error


class _Scanner:
    """A walk over the text."""

    def __init__(self, text: str) -> None:
        self._text = text
        self._at = 0

    def document(self) -> Placed:
        top = Placed({}, 0)
        table = top
        self._skip()
        while self._at < len(self._text):
            if self._text[self._at] == "[":
                table = self._header(top)
            else:
                self._pair(table)
            self._skip()
        return top

    def _header(self, top: Placed) -> Placed:
        """The table that a header begins."""
        at = self._at
        is_array = self._text.startswith("[[", at)
        self._at += 2 if is_array else 1
        *above, last = self._keys()
        self._at += 2 if is_array else 1
        parent = _descend(top, above, at)
        if not is_array:
            return _inner(parent.value.setdefault(last, Placed({}, at)))
        tables = parent.value.setdefault(last, Placed([], at))
        tables.value.append(Placed({}, at))
        return tables.value[-1]

    def _pair(self, table: Placed) -> None:
        at = self._at
        *above, last = self._keys()
        self._at += 1
        self._skip()
        _descend(table, above, at).value[last] = Placed(self._value(), at)

    def _keys(self) -> list[str]:
        """The parts of a dotted key, up to what follows it."""
        keys = []
        while True:
            self._skip()
            bare = _BARE_KEY.match(self._text, self._at)
            if bare:
                keys.append(bare[0])
                self._at = bare.end()
            else:
                keys.append(self._string())
            self._skip()
            if not self._text.startswith(".", self._at):
                return keys
            self._at += 1

    def _value(self) -> Any:
        first = self._text[self._at]
        if first == "[":
            return self._array()
        if first == "{":
            return self._inline()
        if first in "\"'":
            return self._string()
        return self._scalar(_SCALAR.match(self._text, self._at))

    def _array(self) -> list[Placed]:
        items = []
        self._next()
        while self._text[self._at] != "]":
            at = self._at
            items.append(Placed(self._value(), at))
            self._skip()
            if self._text[self._at] == ",":
                self._next()
        self._at += 1
        return items

    def _inline(self) -> dict[str, Placed]:
        table = Placed({}, self._at)
        self._next()
        while self._text[self._at] != "}":
            self._pair(table)
            self._skip()
            if self._text[self._at] == ",":
                self._next()
        self._at += 1
        return table.value

    def _string(self) -> str:
        return self._scalar(next(filter(None, (form.match(self._text, self._at) for form in _STRINGS))))

    def _scalar(self, found: "re.Match[str]") -> Any:
        self._at = found.end()
        try:
            return tomllib.loads("v = " + found[0])["v"]
        except ValueError:
            # A later version of TOML than the library's has more forms of a value: its text stands for it.
            return found[0]

    def _next(self) -> None:
        self._at += 1
        self._skip()

    def _skip(self) -> None:
        self._at = _BLANK.match(self._text, self._at).end()


def _descend(table: Placed, keys: list[str], at: int) -> Placed:
    for key in keys:
        table = _inner(table.value.setdefault(key, Placed({}, at)))
    return table


def _inner(table: Placed) -> Placed:
    """The table itself, or the last one of an array of tables."""
    return table.value[-1] if isinstance(table.value, list) else table
