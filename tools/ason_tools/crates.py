"""The installed Rattle kit, and the crates of a repository by its crates.txt."""

import hashlib
import shutil
import subprocess
from dataclasses import dataclass, field
from functools import cache, cached_property
from pathlib import Path

PROGRAMS = ("ason", "trace_frames")
"""The programs that users and tools run. Those that a repository has are built."""

SECONDS = Path(__file__).resolve().parents[1] / "crate-seconds.txt"
"""What the check of each crate took of a processor, in seconds: `bench/gate --seconds` writes it."""

LINES_A_SECOND = 12
"""How many lines of a crate that was never measured are taken to be checked in a second."""


class BuildError(Exception):
    """Why nothing is built."""


@dataclass(frozen=True)
class Kit:
    """The installed toolchain, and the words that tell it from others."""

    folder: Path
    version: str

    @staticmethod
    def found() -> "Kit":
        rt = shutil.which("rt")
        if not rt:
            raise BuildError("there is no rt on the PATH")
        version = subprocess.run([rt, "version"], stdin=subprocess.DEVNULL, capture_output=True, text=True, check=True)
        return Kit(Path(rt).resolve().parents[1], version.stdout)

    def library(self, name: str) -> Path:
        return self.folder / "rlibs" / f"{name}.rlib"


@dataclass
class Crate:
    """A crate by its line of crates.txt, with the repository's crates and the kit's libraries that it uses."""

    name: str
    folder: Path
    uses: list["Crate"]
    of_kit: list[str]
    # The seconds that its check takes, and those of the longest chain of crates from it up.
    weight: int = 0
    behind: int = 0
    below: list["Crate"] = field(default_factory=list)

    def __post_init__(self) -> None:
        for crate in self.uses:
            self.below += [it for it in [*crate.below, crate] if it not in self.below]
        lines = sum(file.read_bytes().count(b"\n") for file in self.files)
        self.weight = measured().get(self.name, lines // LINES_A_SECOND)

    @cached_property
    def files(self) -> list[Path]:
        parts = [self.folder / part for part in ("src", "specs", "proofs")]
        return sorted(file for part in parts for file in part.rglob("*") if file.is_file())

    @cached_property
    def is_program(self) -> bool:
        return (self.folder / "src/main.rt").is_file()

    def __eq__(self, other: object) -> bool:
        return isinstance(other, Crate) and self.name == other.name

    def sum_over(self, sums: dict[str, str], kit: Kit) -> str:
        """A checksum of all that the crate's check reads."""
        found = hashlib.sha256(repr((kit.version, self.name, self.of_kit, [sums[it.name] for it in self.below])).encode())
        for file in self.files:
            found.update(repr((str(file.relative_to(self.folder)), file.stat().st_size)).encode())
            found.update(file.read_bytes())
        return found.hexdigest()


@cache
def measured() -> dict[str, int]:
    """The seconds of the crates that were measured, by name."""
    lines = SECONDS.read_text().splitlines() if SECONDS.is_file() else []
    return {name: int(seconds) for name, seconds in map(str.split, lines)}


def uses_of(folder: Path) -> dict[str, list[str]]:
    """What each crate uses, the kit's libraries among it, by the repository's crates.txt."""
    lines = [line.split("#")[0].partition(":") for line in (folder / "crates.txt").read_text().splitlines()]
    return {head.split()[0]: words.split() for head, _, words in lines if head.strip()}


def crates_of(folder: Path) -> list[Crate]:
    """The crates that the programs are made of, each after those that it uses."""
    uses = uses_of(folder)
    found: dict[str, Crate] = {}

    def add(name: str) -> Crate:
        if name not in found:
            own = [add(word) for word in uses[name] if word in uses]
            of_kit = ["std", *(word for word in uses[name] if word not in uses)]
            found[name] = Crate(name, folder / "crates" / name, own, of_kit)
        return found[name]

    for name in PROGRAMS:
        if name in uses:
            add(name)
    crates = list(found.values())
    for crate in reversed(crates):
        crate.behind = crate.weight + max((it.behind for it in crates if crate in it.uses), default=0)
    return crates
