"""The commands in the consoles of the README and of docs/ print what is shown, and the pictures are those that the tools make."""

import os
import re
import subprocess
import tempfile
import unittest
from collections import Counter
from pathlib import Path

from ason_tools.crates import crates_of

from .support import TOP
from .test_index import PAGES, crates, head, sections, without_heads

PICTURES = {
    "docs/tools.md": {"before.svg": "docs/nsfnet.svg", "blocking.svg": "docs/blocking.svg", "twenty.svg": "docs/twenty.svg"},
    "docs/first-plan.md": {
        "my.svg": "docs/first-plan.svg", "load.svg": "docs/load.svg", "grown.svg": "docs/grown.svg", "cuts.svg": "docs/cuts.svg",
    },
    "docs/restoration.md": {"strip.svg": "docs/restored.svg"},
}


# The other pages of the repository.
BESIDE = ["CHANGELOG.md", "bench/README.md", "tests/wrong-bodies/README.md", "tests/wrong-machines/README.md"]
# Words that only this house uses, and what to say instead.
HOUSE = {
    r"want of memory|memory (?:is|was) wanting": "out of memory",
    r"\bwhoever\b": "anyone who, or those who",
    r"\bspells? (?:nothing|none|no message)\b": "is malformed",
    r"\bjust where\b": "if and only if, or exactly when",
    r" \u2014 |(?<!\d) \u2013 | \u2013 (?!\d)": "a full stop",
}


def prose(text: str) -> str:
    """A page without its consoles."""
    return re.sub(r"^```.*?^```$", "", text, flags=re.MULTILINE | re.DOTALL)


def sentences(text: str) -> list[str]:
    """The sentences of a page, without its consoles, tables, headings and pictures."""
    lines = [line for line in prose(text).splitlines() if line.strip() and not re.match(r"\||#|!\[", line)]
    texts = [re.sub(r"^(?:- |\d+\. )", "", line) for line in lines]
    return [it for one in texts for it in re.split(r"(?<=[.?:;!])\**\s+", one) if it.strip()]


def paragraphs(text: str) -> str:
    """The head of a crate with each paragraph and each item of a list on one line."""
    return re.sub(r"\n(?!- |\n|$)", " ", text)


def commands(page: str) -> list[tuple[str, str]]:
    """Each command of the page's consoles, and what it shows below."""
    text = (TOP / page).read_text()
    found = []
    for block in re.findall(r"^```console\n(.*?)^```$", text, re.MULTILINE | re.DOTALL):
        for part in re.split(r"^\$ ", block, flags=re.MULTILINE)[1:]:
            first, *rest = part.splitlines()
            more = [line[2:] for line in rest if line.startswith("> ")]
            shown = rest[len(more) :]
            found.append(("\n".join([first, *more]), "".join(line + "\n" for line in shown)))
    return found


class DocsTest(unittest.TestCase):
    """Each page in a folder of its own that has all of the repository but what the commands write."""

    def test_commands_print_what_the_pages_show(self) -> None:
        for page in PAGES:
            with tempfile.TemporaryDirectory() as room:
                for name in ("ason", "tools", "examples", "docs"):
                    (Path(room) / name).symlink_to(TOP / name)
                for command, shown in commands(page):
                    with self.subTest(page=page, command=command):
                        self.assertEqual(self.printed(command, room), shown)
                for made, kept in PICTURES.get(page, {}).items():
                    with self.subTest(page=page, picture=kept):
                        self.assertEqual((Path(room) / made).read_text(), (TOP / kept).read_text())

    def printed(self, command: str, room: str) -> str:
        """What the command prints, in the way that a terminal shows it."""
        if "ASON" in os.environ:
            command = command.replace("./ason ", '"$ASON" ')
        # A page must not start a build.
        how = {"stdout": subprocess.PIPE, "stderr": subprocess.STDOUT, "env": os.environ | {"ASON_BUILD": "no"}}
        ended = subprocess.run(["sh", "-c", command], cwd=room, check=False, **how)
        return ended.stdout.decode()

    def test_the_pages_about_tools_have_consoles(self) -> None:
        for page in PICTURES:
            self.assertGreater(len(commands(page)), 5)


class PagesTest(unittest.TestCase):
    """What several pages say, or a page and the code, is the same."""

    def page(self, name: str) -> str:
        return (TOP / name).read_text()

    def first_column(self, text: str) -> list[str]:
        """The words in code of the first column of the tables."""
        return re.findall(r"^\| `(\w+)` \|", text, re.MULTILINE)

    def test_the_states_of_a_call_are_those_of_the_code(self) -> None:
        body = re.search(r"pub enum CallState \{(.*?)\}", self.page("crates/ason_base/src/calls.rt"), re.DOTALL)
        states = re.findall(r"^    (\w+),", body[1], re.MULTILINE)
        states = [state.lower() for state in states]
        self.assertEqual(self.first_column(self.page("docs/calls.md").split("\n## ")[0]), states)
        told = re.search(r"^\| STATE \| ([^:]*):", self.page("docs/formats.md"), re.MULTILINE)
        self.assertCountEqual(re.findall(r"`(\w+)`", told[1]), states)

    def test_the_causes_are_those_of_the_table(self) -> None:
        formats = self.page("docs/formats.md")
        own = re.findall(r"`(\w+)`", re.search(r"^\| CAUSE \| `-`, (.*), the name of a code", formats, re.MULTILINE)[1])
        codes = re.findall(r"`(\w+)`", re.search(r"^The names of codes are (.*?);", formats, re.MULTILINE)[1])
        # A torn LSP is of no call any more.
        told = sections(self.page("docs/calls.md"), "##")["Causes"]
        self.assertCountEqual(self.first_column(told), {*own, *codes} - {"torn"})

    def test_the_glossary_has_the_words_of_protection(self) -> None:
        told = re.findall(r"^\| ([^|]+) \|", self.page("docs/glossary.md"), re.MULTILINE)
        words = {word for row in told for word in row.split(", ")}
        self.assertLessEqual({"bare", "guarded", "turned", "stuck", "blocked", "backup", "SRLG", "wait", "quiet"}, words)

    def test_what_settles_is_told_alike(self) -> None:
        whole = r"every (?:desk|work queue \(desk\)) is empty,? and every message and every row of a link is acknowledged"
        for page in ("docs/DECISIONS.md", "docs/formats.md", "docs/glossary.md"):
            self.assertRegex(self.page(page), whole)

    def test_the_crates_of_the_rules_are_one_list(self) -> None:
        layout = self.page("docs/layout.md")
        marked = re.findall(r"`(\w+)` \(", re.search(r"\*\*The code of the rules\*\*(.*)", layout)[1])
        row = re.search(r"^\| code \| a crate of the rules: ([^;]*);", layout, re.MULTILINE)
        self.assertEqual(re.findall(r"\[(\w+)\]", row[1]), marked)
        self.assertIn("[layout.md](layout.md#where-a-rule-is)", self.page("docs/DECISIONS.md"))

    def test_each_library_of_the_kit_is_named_among_what_is_trusted(self) -> None:
        trusted = set(re.findall(r"\w+", sections(self.page("README.md"), "##")["What is trusted"]))
        libraries = {name for crate in crates_of(TOP) for name in crate.of_kit}
        self.assertGreater(len(libraries), 5)
        self.assertEqual(libraries - trusted, set())

    def test_the_crates_are_a_page_of_tables(self) -> None:
        self.assertLessEqual(len(self.page("docs/crates.md").split()), 2_200)

    def test_each_clause_of_a_law_is_told(self) -> None:
        """The crate's head names each clause as often as laws of the crate have one of that name."""
        law = re.compile(r"^pub fn \w+\(\)((?:\n    (?:ensures|requires) .*)+)\n\{", re.MULTILINE)
        clauses: Counter[tuple[str, str]] = Counter()
        for path in [*(TOP / "crates").glob("*/src/*laws.rt"), TOP / "crates/mesh_laws/src/service.rt"]:
            names = re.findall(r"ensures (\w+) \{", "\n".join(law.findall(path.read_text())))
            clauses.update((path.parents[1].name, name) for name in names)
        for (crate, name), times in clauses.items():
            with self.subTest(crate=crate, clause=name):
                self.assertGreaterEqual(head(crate).count(f"`{name}`"), times)
        self.assertGreater(clauses.total(), 200)

    def sources(self, crate: str) -> str:
        files = (path for path in (TOP / "crates" / crate).rglob("*") if path.suffix in (".rt", ".antt"))
        return "\n".join(without_heads(path.read_text()) for path in files)

    def test_each_clause_that_is_told_is_there(self) -> None:
        words = re.findall(r"`(\w+)`", sections(self.page("docs/calls.md"), "##")["Causes"])
        everywhere = set(words)
        named: dict[str, set[str]] = {}
        texts = {crate: self.sources(crate) for crate in crates()}
        records = dict(re.findall(r"^pub record (\w+)(.*\n(?:  .*\n|\n(?=  ))*)", "\n".join(texts.values()), re.MULTILINE))
        for crate, text in texts.items():
            # A contract has the clauses of the words that it says, and of those within them.
            words = set(re.findall(r"\w+", "\n".join(re.findall(r"^ *(?:ensures|requires) [^{]*\{[^}]*\}", text, re.MULTILINE))))
            said = "\n".join(records[word] for word in words & records.keys())
            within = "\n".join(records[word] for word in set(re.findall(r"\w+", said)) & records.keys())
            named[crate] = set(re.findall(r"\b(?:ensures|requires|ghost|fn) (\w+)", text))
            named[crate] |= set(re.findall(r"^ *pub (\w+) :", "\n".join((text, said, within)), re.MULTILINE))
            everywhere |= set(re.findall(r"^(?:(?:abbrev|unfoldable|pub) )*([a-z]\w*) *:", text, re.MULTILINE))
        seen = 0
        for crate in crates():
            told = {name for inner in re.findall(r"\(([^()]*)\)", head(crate)) for name in re.findall(r"`([a-z]\w*)`", inner)}
            seen += len(told)
            with self.subTest(crate=crate):
                self.assertEqual(told - named[crate] - everywhere, set())
        self.assertGreater(seen, 300)

    def declared(self, crate: str) -> set[str]:
        """The crate's files and what they declare, clauses and fields among it."""
        text = self.sources(crate)
        found = {path.stem for path in (TOP / "crates" / crate).rglob("*")}
        found |= set(re.findall(r"\b(?:fn|struct|enum|trait|type|const|macro_rules!|ensures|requires|record|data) (\w+)", text))
        return found | set(re.findall(r"^ *(?:(?:pub|abbrev|unfoldable) )*([\w-]+) *:", text, re.MULTILINE))

    def test_what_is_of_a_crate_stands_in_it(self) -> None:
        names = "|".join(crates())
        told = re.compile(rf"((?:`[\w-]+`(?:, | and ))*`[\w-]+`) of \[?`?({names})\b")
        declared = {crate: self.declared(crate) for crate in crates()}
        texts = {page: self.page(page) for page in PAGES} | {f"head of {crate}": paragraphs(head(crate)) for crate in crates()}
        rows = [(name, *row) for name, text in texts.items() for row in told.findall(text)]
        said = [(name, crate, it) for name, row, crate in rows for it in re.findall(r"`([\w-]+)`", row)]
        # A word in capitals stands for others.
        self.assertEqual([it for it in said if it[2] not in declared[it[1]] and "NAME" not in it[2]], [])
        self.assertGreater(len(said), 40)

    def test_the_proof_reads_in_ten_minutes_and_in_short_paragraphs(self) -> None:
        self.assertLess(len(self.page("docs/proof.md").split()), 2_000)
        for page in PAGES:
            if page.startswith("docs/proof"):
                # A row of a table is as many texts as it has cells, an item of a list is one.
                texts = [text for line in self.page(page).splitlines() for text in (line.split("|") if line.startswith("|") else [line])]
                with self.subTest(page=page):
                    self.assertLessEqual(max(map(len, texts)), 600)

    def test_the_readme_is_a_screen_and_a_half(self) -> None:
        text = self.page("README.md")
        self.assertLessEqual(len(text.splitlines()), 80)
        self.assertLessEqual(len(text.split()), 900)

    def test_sentences_are_short(self) -> None:
        texts = {page: self.page(page) for page in PAGES} | {crate: paragraphs(head(crate)) for crate in crates()}
        for name, text in texts.items():
            with self.subTest(name=name):
                self.assertGreater(len(sentences(text)), 1)
                self.assertEqual([it for it in sentences(text) if len(it.split()) > 35], [])

    def test_pages_speak_the_words_of_the_field(self) -> None:
        for page in [*PAGES, *BESIDE]:
            text = " ".join(prose(self.page(page)).split())
            for words, better in HOUSE.items():
                with self.subTest(page=page, instead=better):
                    self.assertEqual(re.findall(words, text, re.IGNORECASE), [])

    def test_house_words_are_found(self) -> None:
        found = ["For want of memory it ends.", "Whoever asks", "Such bytes spell nothing.", "just where it is", "A thought \u2014 and more", "one \u2013 two"]
        for words, text in zip(HOUSE, found):
            self.assertRegex(text, re.compile(words, re.IGNORECASE))
        self.assertRegex(found[-1], list(HOUSE)[-1])
        self.assertNotRegex("labels 1 \u2013 80, `SpellsNothing`, links 1\u20133", "|".join(HOUSE))

    def test_each_page_leads_to_the_glossary(self) -> None:
        for page in [*PAGES, *BESIDE]:
            if page != "docs/glossary.md":
                with self.subTest(page=page):
                    self.assertIn("glossary.md", self.page(page))

    def test_each_word_of_the_glossary_stands_once_and_in_order(self) -> None:
        words = [word.lower() for word in re.findall(r"^\| ([^|]+) \|", self.page("docs/glossary.md"), re.MULTILINE)[1:]]
        self.assertEqual(words, sorted(set(words)))

    def test_each_promise_has_its_clause_and_what_it_refuses(self) -> None:
        """Of each row: the clauses are some crate's, the examples are there, and so are the wrong machines and bodies."""
        text, seen = self.page("docs/promises.md"), 0
        clauses = set(re.findall(r"ensures (\w+) \{", "\n".join(self.sources(crate) for crate in crates())))
        functions = {name for crate in crates() for name in re.findall(r"\bfn (\w+)", self.sources(crate))}
        wrong = {path.stem for path in TOP.glob("tests/wrong-*/**/*.edit")} | {path.stem for path in TOP.glob("crates/*/must-fail/*.edit")}
        for row in re.findall(r"^\| ([^|]+) \| ([^|]+) \| ([^|]+) \| ([^|]+) \|$", text, re.MULTILINE):
            if row[0] in ("Clause", "---"):
                continue
            seen += 1
            with self.subTest(row=row):
                self.assertEqual(set(re.findall(r"`(\w+)`", row[0])) - clauses - functions, set())
                for name in re.findall(r"`([\w.]+\.toml)`", row[2]):
                    self.assertTrue((TOP / "examples" / name).exists())
                self.assertEqual(set(re.findall(r"`(\w+)`", row[3])) - wrong - set(crates()), set())
        self.assertGreater(seen, 15)


if __name__ == "__main__":
    unittest.main()
