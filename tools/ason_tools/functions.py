"""The functions of a repository's crates, and those that the programs need."""

import re
from collections import defaultdict
from collections.abc import Iterable
from dataclasses import dataclass
from pathlib import Path

from .crates import uses_of

_HEAD = re.compile(r"^( *)((?:pub(?:\([a-z]+\))? )?)fn (\w+)")
_IMPL = re.compile(r"^impl(?:<[^{]*?>)? (?:(\w+)(?:<[^{]*?>)? for )?(\w+)[^{]*\{$|^(?:pub )?trait (\w+)")
_MENTION = re.compile(r"(\.\s*|\b(\w+)(?:::<[^()]*?>)?::)?\b([a-z_]\w*)\b")
_MACRO = re.compile(r"macro_rules! \w+ \{\n.*?\n\}\n", re.DOTALL)
_IMPORT = re.compile(r"^(?:pub )?use ([^;]*);", re.MULTILINE)


@dataclass(frozen=True)
class Function:
    """A function, with the type that it is of and the trait that wants it."""

    path: Path
    name: str
    owner: str
    trait: str
    public: bool
    is_test: bool
    text: str

    @property
    def crate(self) -> str:
        return self.path.parts[self.path.parts.index("crates") + 1]

    @property
    def module(self) -> str:
        """The module's name, or that of the crate in its root file."""
        return self.crate if self.path.stem in ("lib", "main") else self.path.stem

    @property
    def title(self) -> str:
        return "::".join([self.crate, *([self.owner] if self.owner else []), self.name])

    @property
    def is_law(self) -> bool:
        """Whether it says something and does nothing."""
        return self.text.endswith("{}")

    @property
    def is_begun_elsewhere(self) -> bool:
        """Whether something but a function of the repository calls it."""
        return not self.is_test and (self.name == "main" or bool(self.trait) or self.is_law)


def functions_of(path: Path) -> list[Function]:
    """The functions of the file, which is formatted."""
    lines = path.read_text().splitlines()
    found, owner, trait, declares = [], "", "", False
    for place, line in enumerate(lines):
        if impl := _IMPL.match(line):
            declares = not impl[2]
            trait, owner = (impl[3], impl[3]) if declares else (impl[1] or "", impl[2])
        if head := _HEAD.match(line):
            if not head[1]:
                owner = trait = ""
            end = _end(lines, place, head[1], declares and bool(head[1]))
            is_test = place > 0 and lines[place - 1].strip() == "#[test]"
            text = "\n".join(lines[place : end + 1])
            found.append(Function(path, head[3], owner, trait, bool(head[2]), is_test, text))
    return found


def _end(lines: list[str], place: int, indent: str, declares: bool) -> int:
    """The last line of the function that begins at this one; a trait may only declare it."""
    for end in range(place, len(lines)):
        line = lines[end]
        if line in (indent + "}", indent + "{}") or (end == place and line.endswith("}")) or (declares and line.endswith(";")):
            return end
    return len(lines) - 1


class Calls:
    """Which function may call which, by their names: a method that is called by a dot may be that of any type."""

    def __init__(self, top: Path, tests: Iterable[str]) -> None:
        paths = sorted((top / "crates").glob("*/src/**/*.rt"))
        self.files = {path: path.read_text() for path in paths if path.relative_to(top).parts[1] not in tests}
        self.functions = [function for path in self.files for function in functions_of(path)]
        self._below = self._all_below(uses_of(top))
        self._named: dict[str, list[Function]] = defaultdict(list)
        for function in self.functions:
            self._named[function.name].append(function)
        self._imports = {path: set(re.findall(r"\w+", " ".join(_IMPORT.findall(text)))) for path, text in self.files.items()}

    @staticmethod
    def _all_below(uses: dict[str, list[str]]) -> dict[str, set[str]]:
        below: dict[str, set[str]] = {}

        def add(crate: str) -> set[str]:
            if crate not in below:
                own = [word for word in uses[crate] if word in uses]
                below[crate] = {crate}.union(*map(add, own))
            return below[crate]

        for crate in uses:
            add(crate)
        return below

    def _may_be(self, path: Path, owner: str, text: str) -> set[Function]:
        """The functions that this text of the file may name."""
        found = set()
        crate = path.parts[path.parts.index("crates") + 1]
        for dot, before, name in set(_MENTION.findall(re.sub(r"//.*", "", text))):
            behind = owner if before == "Self" else before
            for other in self._named.get(name, ()):
                if other.crate not in self._below[crate]:
                    continue
                if dot.startswith("."):
                    fits = bool(other.owner)
                elif behind:
                    of = (other.owner, other.trait) if other.owner else ("crate", "super", "self", other.crate, other.module)
                    fits = behind in of
                else:
                    fits = not other.owner and (other.path == path or name in self._imports[path])
                if fits:
                    found.add(other)
        return found

    def reached(self, kept: Iterable[Function] = ()) -> set[Function]:
        """What the programs, traits, laws, macros and these need."""
        roots = {function for function in self.functions if function.is_begun_elsewhere} | set(kept)
        for path, text in self.files.items():
            for macro in _MACRO.findall(text):
                roots |= self._may_be(path, "", macro)
        found, left = set(roots), list(roots)
        while left:
            function = left.pop()
            for other in self._may_be(function.path, function.owner, function.text) - found:
                found.add(other)
                left.append(other)
        return found
