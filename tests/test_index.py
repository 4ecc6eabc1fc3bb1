"""What the pages about the sources and the heads of the crates name is there: files, definitions, lemmas, tests and crates."""

import re
import unittest
from functools import cache
from itertools import takewhile
from pathlib import Path

from .support import TOP

PAGES = ["README.md", *sorted(str(path.relative_to(TOP)) for path in (TOP / "docs").rglob("*.md"))]
FOR_USERS = ("README.md", "docs/first-plan.md", "docs/restoration.md", "docs/studies.md", "docs/tools.md")
ABOUT_SOURCES = [page for page in PAGES if page not in FOR_USERS]
BY_HAND = TOP / "tests/wrong-bodies"
MACHINES = TOP / "tests/wrong-machines"
INDEX = "**In the sources"
PARTS = ["definition", "code", "at a node", "along the route", "wrong body", "test"]
ANTT = r"^\s*(?:(?:abbrev|unfoldable|pub|record|data)\s+)*{}\s*(?:[:({{]|$)"
RATTLE = r"\b(?:fn|struct|enum|const|type|trait)\s+{}\b"
FORMS = {".antt": ANTT, ".rt": RATTLE, ".py": r"^ *def {}\b"}
NAME = r"[A-Za-z_][\w-]*"
HEAD_MARK = "//!"
LINE_OF_CRATE = r"^\| \[`(\w+)`\]\((\S+)\) \| ([^|]+) \| ([^|]+) \| ([^|]+) \|$"
# Words in small letters that are joined, or two and more that begin with a capital: such names are of the sources alone.
JOINED = r"[a-z][a-z0-9]*(?:[_-][a-z0-9_-]+)+|(?:[A-Z][a-z0-9]+){2,}"


def links(text: str) -> list[tuple[str, str]]:
    """The text and the target of each link to a file of the repository."""
    return [link for link in re.findall(r"\[([^\]]+)\]\(([^)#\s]+)[^)]*\)", text) if "://" not in link[1]]


def declares(path: Path, name: str) -> bool:
    """Whether the file declares the name; a wrong body is named by its file."""
    if path.suffix == ".edit":
        return path.stem == name
    form = FORMS[path.suffix]
    return re.search(form.format(re.escape(name)), path.read_text(), re.MULTILINE) is not None


def crates() -> dict[str, list[str]]:
    """Each crate of crates.txt, and the crates of the repository that it stands on; words behind a name say what its tests may do."""
    lines = [line.split("#")[0].split(":") for line in (TOP / "crates.txt").read_text().splitlines()]
    below = {line[0].split()[0]: line[1].split() for line in lines if len(line) == 2}
    return {name: [other for other in others if other in below] for name, others in below.items()}


def rooms() -> dict[str, list[str]]:
    """The crates below each comment line of crates.txt, by the word with which the line begins."""
    found = re.findall(r"^# (\w+): .*\n((?:[^#\n].*\n)+)", (TOP / "crates.txt").read_text(), re.MULTILINE)
    return {room: re.findall(r"^\w+", lines, re.MULTILINE) for room, lines in found}


def root_of(crate: str) -> Path:
    """The file at which the crate begins: lib.rt, or main.rt of a program."""
    folder = TOP / "crates" / crate / "src"
    return folder / ("lib.rt" if (folder / "lib.rt").exists() else "main.rt")


def head(crate: str) -> str:
    """The lines in which the crate's root says what the crate is, without their marks."""
    lines = takewhile(lambda line: line.startswith(HEAD_MARK), root_of(crate).read_text().splitlines())
    return "".join(line.removeprefix(HEAD_MARK).removeprefix(" ") + "\n" for line in lines)


def without_heads(text: str) -> str:
    """A source without the lines in which crates and modules say what they are."""
    return re.sub(rf"^{HEAD_MARK}.*$", "", text, flags=re.MULTILINE)


def sections(text: str, marks: str) -> dict[str, str]:
    """The text below each heading of this level, up to the next heading of this level or a higher one."""
    found = re.findall(rf"^{marks} (.*)\n((?:(?!#{{1,{len(marks)}}} ).*\n?)*)", text, re.MULTILINE)
    return dict(found)


@cache
def names_in_crate(crate: str) -> frozenset[str]:
    """Each name in the crate's sources but for the heads, and the names of its files and folders."""
    found = {crate}
    for part in ("src", "specs", "proofs", "must-fail"):
        for path in (TOP / "crates" / crate / part).rglob("*"):
            found |= {part, path.name, path.stem}
            if path.suffix in (".rt", ".antt"):
                found |= set(re.findall(NAME, without_heads(path.read_text())))
    return frozenset(found)


@cache
def names_of_tests() -> frozenset[str]:
    """The tests in Python and what they define, and the wrong bodies and machines that are tried by hand."""
    found = {BY_HAND.name, MACHINES.name}
    for path in (TOP / "tests").glob("test_*.py"):
        found |= {path.stem, *re.findall(r"def (\w+)", path.read_text())}
    return frozenset(found | {path.stem for folder in (BY_HAND, MACHINES) for path in folder.rglob("*.edit")})


def joined_names(text: str) -> set[str]:
    """The names in code that are joined, or that have two capitals and more."""
    told = {name for code in re.findall(r"`([^`\n]+)`", text) for name in re.findall(NAME, code)}
    return {name for name in told if re.fullmatch(JOINED, name)}


def wrong_bodies(crate: str) -> str:
    """How many wrong bodies of the crate the gate tries, and how many are tried by hand, as the crate's line tells it."""
    in_gate = len(list((TOP / "crates" / crate / "must-fail").glob("*.edit")))
    by_hand = len(list((BY_HAND / crate).glob("*.edit")))
    return f"{in_gate} + {by_hand}"


class IndexTest(unittest.TestCase):
    """The pages and the heads name nothing that isn't there."""

    def test_each_link_leads_to_a_file(self) -> None:
        for page in PAGES:
            for _, target in links((TOP / page).read_text()):
                with self.subTest(page=page, target=target):
                    self.assertTrue((TOP / page).parent.joinpath(target).exists())

    def test_each_name_is_declared_where_its_link_leads(self) -> None:
        seen = 0
        for page in PAGES:
            for text, target in links((TOP / page).read_text()):
                path = (TOP / page).parent / target
                if re.fullmatch(r"`[^`]+`", text) and path.suffix in (*FORMS, ".edit"):
                    seen += 1
                    name = text.strip("`")
                    with self.subTest(page=page, name=text, target=target):
                        # The name of a crate leads to its head.
                        is_crate = name in crates() and path.resolve() == root_of(name)
                        self.assertTrue(is_crate or declares(path, name))
        self.assertGreater(seen, 50)

    def test_each_name_of_the_sources_is_in_them(self) -> None:
        known = names_of_tests().union(*map(names_in_crate, crates()))
        for page in ABOUT_SOURCES:
            text = re.sub(r"^```.*?^```$", "", (TOP / page).read_text(), flags=re.MULTILINE | re.DOTALL)
            with self.subTest(page=page):
                self.assertEqual(joined_names(text) - known, set())

    def test_each_name_of_a_head_is_in_its_crate(self) -> None:
        seen = 0
        for crate in crates():
            # Words in code that are a path or a command aren't names of the sources.
            codes = re.findall(r"`([\w:-]+)`", head(crate))
            told = {name for code in codes for name in re.findall(NAME, code)}
            seen += len(told)
            with self.subTest(crate=crate):
                self.assertEqual(told - names_in_crate(crate), set())
                self.assertEqual(joined_names(head(crate)) - names_in_crate(crate) - names_of_tests(), set())
        self.assertGreater(seen, 1_000)

    def test_each_rule_has_its_line(self) -> None:
        text = (TOP / "docs/machine.md").read_text()
        rules = {**sections(sections(text, "##")["Messages"], "###"), "Commands": sections(text, "##")["Commands"]}
        rules |= dict(re.findall(r"^\*\*(Setup|Release|Alarm and Clear)\*\*((?:(?!^\*\*(?!In the)|^## ).*\n)*)", text, re.MULTILINE))
        self.assertEqual(len(rules), 11)
        for rule, says in rules.items():
            with self.subTest(rule=rule):
                self.assertIn(INDEX + ":**", says)

    def test_each_line_has_its_parts(self) -> None:
        lines = [line for line in (TOP / "docs/machine.md").read_text().splitlines() if line.startswith(INDEX)]
        for line in lines:
            for part in PARTS:
                with self.subTest(line=line[:60], part=part):
                    self.assertRegex(line, rf"{part} \[`")

    def test_the_rooms_are_those_of_crates_txt(self) -> None:
        told = sections((TOP / "docs/layout.md").read_text(), "##")["Rooms"]
        texts = re.findall(r"^\*\*(\w+)\.\*\* (.*)$", told, re.MULTILINE)
        self.assertEqual({room: re.findall(r"`(\w+)`(?=:| \()", text) for room, text in texts}, rooms())
        self.assertEqual(sum(rooms().values(), []), list(crates()))

    def test_the_rooms_of_the_table_are_those_of_crates_txt(self) -> None:
        told = sections((TOP / "docs/crates.md").read_text(), "##")
        self.assertEqual({room: [row[0] for row in re.findall(LINE_OF_CRATE, text, re.MULTILINE)] for room, text in told.items()}, rooms())
        comments = re.findall(r"^# \w+: (.*)$", (TOP / "crates.txt").read_text(), re.MULTILINE)
        self.assertEqual([text.strip().splitlines()[0].rstrip(".").lower() for text in told.values()], [it.lower() for it in comments])

    def test_each_crate_has_its_line(self) -> None:
        page = TOP / "docs/crates.md"
        rows = re.findall(LINE_OF_CRATE, page.read_text(), re.MULTILINE)
        self.assertEqual([row[0] for row in rows], list(crates()))
        for crate, target, _, neither, counts in rows:
            with self.subTest(crate=crate):
                self.assertEqual(page.parent.joinpath(target).resolve(), root_of(crate))
                self.assertEqual(counts, wrong_bodies(crate))
                # What a line says is neither proved nor tested, its crate's head says too.
                told = re.search(r"\bNeither proved nor tested: ", " ".join(head(crate).split()))
                self.assertEqual(neither != "-", told is not None)


if __name__ == "__main__":
    unittest.main()
