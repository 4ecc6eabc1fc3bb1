"""The definitions and lemmas of a repository's crates, and where the sources name them."""

import re
from collections import Counter
from dataclasses import dataclass
from functools import cached_property
from pathlib import Path

_WORDS = r"(?:(?:pub|abbrev|unfoldable) )*"
_HEAD = re.compile(rf"( *)({_WORDS})(?!(?:use|open|module|record|data|unfolding|mod) )([^\s(){{}}]+) :(?=\s|$)")
_BLOCK = re.compile(rf"( *)({_WORDS})(?:(?:record|data) ([^\s(){{}}]+)|mutual$|module |use |mod |open )")
_TOKEN = re.compile(r"[^\s(){}\[\],;.¬←:=|]+")
_USING = re.compile(r"\busing\(([^)]*)\)")
_USE = re.compile(r"^ *(?:ghost )?(pub )?use ([^\s{;]+?)(?:\.\{(.*)\})?(?: as \S+?)?;?$", re.MULTILINE)


@dataclass(frozen=True)
class Declared:
    """A definition or lemma, and its lines in the file."""

    module: "Module"
    name: str
    public: bool
    first: int
    end: int

    @property
    def title(self) -> str:
        return f"{self.module.path}: {self.name}"

    def is_named_beside(self) -> bool:
        """Whether its own file names it outside its own lines."""
        return all(self.module.words[part] > self.own_words[part] for part in parts_of(self.name))

    @cached_property
    def own_words(self) -> Counter[str]:
        return words_in("\n".join(self.module.lines[self.first : self.end]))


class Module:
    """A file of specs or proofs."""

    def __init__(self, top: Path, path: Path) -> None:
        self.path = path.relative_to(top / "crates")
        self.name = ".".join(("Rattle", *self.path.with_suffix("").parts))
        self.text = path.read_text()
        self.lines = self.text.splitlines()
        self.words = words_in(self.text)
        self.imports = imports_in(self.text)
        self.declared = list(self._read())
        self.public = any(it.public for it in self.declared)

    def _read(self) -> list[Declared]:
        """What is declared at the top, in a `module _` or beside another: each up to the next that isn't within it."""
        heads = []
        for place, line in enumerate(self.lines):
            if head := _HEAD.match(line) or _BLOCK.match(line):
                heads.append((place, len(head[1]), head[3], "pub" in head[2].split()))
        found, inside = [], -1
        for at, (place, indent, name, public) in enumerate(heads):
            if place < inside:
                continue
            end = next((later[0] for later in heads[at + 1 :] if later[1] <= indent), len(self.lines))
            if name:
                found.append(Declared(self, name, public, place, end))
                inside = end
        return found


def words_in(text: str) -> Counter[str]:
    """How often each word stands in the text, comments and imports aside."""
    code = re.sub(r"(?:^|\s)--(?=\s|$).*|//.*", "", text, flags=re.MULTILINE)
    return Counter(_TOKEN.findall(re.sub(r"^ *(?:ghost )?(?:pub )?use .*$", "", code, flags=re.MULTILINE)))


def parts_of(name: str) -> list[str]:
    """The words by which a name stands in a text: those of an operator are its parts."""
    return [part for part in name.split("◌") if part]


def listed(path: str, inner: str) -> set[str]:
    """The full names of `path.{a, B.c, B.{d, e}}`."""
    found, depth, start = set(), 0, 0
    for place, letter in enumerate(inner + ","):
        depth += (letter == "{") - (letter == "}")
        if letter == "," and depth == 0:
            word = inner[start:place].strip().partition(" as ")[0]
            start = place + 1
            within, opened, rest = word.partition(".{")
            if opened:
                found |= listed(f"{path}.{within}", rest[:-1])
            elif word:
                found.add(f"{path}.{word}")
    return found


def imports_in(text: str, passed_on: bool = False) -> set[str]:
    """The full names that the text imports, or those that it passes on: of names, and of modules that have a name here."""
    uses = [(path, inner) for passed, path, inner in _USE.findall(text) if passed or not passed_on]
    return {full for path, inner in uses for full in (listed(path, inner) if inner else {path})}


def tactics_in(path: Path, top: Path) -> set[str]:
    """The full names of the lemmas that functions of the file are proved with, by their attributes."""
    crate = path.relative_to(top / "crates").parts[0]
    words = [word.strip() for inner in _USING.findall(path.read_text()) for word in inner.split(",")]
    return {"Rattle." + re.sub(r"^crate::", f"{crate}::", word).replace("::", ".") for word in words}


class Sources:
    """All files that may name a definition or lemma."""

    def __init__(self, top: Path) -> None:
        crates = top / "crates"
        paths = [path for part in ("specs", "proofs") for path in sorted(crates.glob(f"*/{part}/**/*.antt"))]
        self.modules = [Module(top, path) for path in paths]
        self._named: dict[str, list[Counter[str]]] = {}
        code = sorted(crates.glob("*/src/**/*.rt"))
        texts = [path.read_text() for path in code]
        self._tactics = {full for path in code for full in tactics_in(path, top)}
        named = [(module.imports, module.words) for module in self.modules]
        for imports, words in [*named, *((imports_in(text), words_in(text)) for text in texts)]:
            for full in imports:
                self._named.setdefault(full, []).append(words)
        passed = [(module.name, full) for module in self.modules for full in imports_in(module.text, passed_on=True)]
        self._passed_on = {full: f"{name}.{full.rpartition('.')[2]}" for name, full in passed}

    def is_named(self, it: Declared) -> bool:
        """Whether a file names it that imports it or its module, or its own file does."""
        full = f"{it.module.name}.{it.name}"
        if full in self._tactics:
            return True
        places = [full, it.module.name, *([self._passed_on[full]] if full in self._passed_on else [])]
        files = [words for place in places for words in self._named.get(place, [])]
        return it.is_named_beside() or any(all(words[part] for part in parts_of(it.name)) for words in files)
