"""The programs that the benchmarks time, built first where they aren't. The times are then those of the programs alone."""

import ctypes
import os
import shutil
import signal
import subprocess
import sys
import tempfile
import time
from dataclasses import dataclass
from functools import cached_property
from pathlib import Path

HERE = os.path.dirname(os.path.realpath(__file__))
TOP = os.path.dirname(HERE)

# What the program that is timed uses, and what of a crate is proved and built.
TIMES_USES = ["ason_base", "te_tlv", "hop_reliable", "wire_buf", "byteorder", "flood", "route_least", "route_pair", "pair_search"]
PARTS = ("src", "specs", "proofs")

# From <linux/prctl.h>.
PR_SET_CHILD_SUBREAPER = 36

# Tells a process that becomes the program, with these files as its input and output, once a line comes; then the shell is gone.
LAUNCH = 'given=$1 out=$2; shift 2; exec 3<&0; { read -r _ <&3 && exec "$@" <"$given" >"$out" 3<&-; } & echo $!'


def ason():
    """The path of `ason`: the one that the environment variable ASON names, or this repository's, which its script builds."""
    if os.environ.get("ASON"):
        return os.environ["ASON"]
    script = os.path.join(TOP, "ason")
    # The script says on the standard error when it builds, and why it can't.
    if subprocess.run([script, "decode"], stdin=subprocess.DEVNULL, stdout=subprocess.DEVNULL, check=False).returncode:
        sys.exit(f"{script} can't be built")
    return os.path.join(TOP, "out", "ason")


def crates_below(names: list[str]) -> dict[str, str]:
    """The lines of crates.txt for these crates and those that they use."""
    lines = [line for line in (Path(TOP) / "crates.txt").read_text().splitlines() if line.strip() and not line.startswith("#")]
    uses = {line.split(":")[0].split()[0]: line for line in lines}
    wanted, left = {}, list(names)
    while left:
        name = left.pop()
        if name in uses and name not in wanted:
            wanted[name] = uses[name]
            left += uses[name].split(":")[1].split()
    return wanted


def lay_out(folder: Path, name: str, source: Path, uses: list[str], parts: tuple[str, ...]) -> Path:
    """Makes a repository of a program beside the crates and of those that it uses, and gives the program's folder in it.

    Of the crates come these parts alone. The program's sources end in `.txt` here, so that no check takes them for a crate's.
    """
    below = crates_below(uses)
    for crate in below:
        for part in parts:
            if (there := Path(TOP) / "crates" / crate / part).is_dir():
                shutil.copytree(there, folder / "crates" / crate / part)
    (folder / "crates.txt").write_text("".join(f"{line}\n" for line in [*below.values(), f"{name}: {' '.join(uses)}"]))
    (folder / ".git").mkdir()
    room = folder / "crates" / name
    for file in source.rglob("*"):
        if file.is_file():
            to = room / file.relative_to(source)
            to.parent.mkdir(parents=True, exist_ok=True)
            shutil.copy(file, to.with_suffix("") if to.suffix == ".txt" else to)
    return room


def newest(folders: list[Path]) -> float:
    """When the last of the files below these folders was changed."""
    return max(file.stat().st_mtime for folder in folders for file in folder.rglob("*") if file.is_file())


def bench_times() -> str:
    """The path of the program that floods and that searches routes, proved and built first where its sources are newer."""
    program, source = Path(TOP) / "out" / "bench_times", Path(HERE) / "times_program"
    sources = [source, *(Path(TOP) / "crates" / crate / part for crate in crates_below(TIMES_USES) for part in PARTS)]
    if program.is_file() and program.stat().st_mtime > newest(sources):
        return str(program)
    print("bench_times: building, which takes some minutes", file=sys.stderr)
    program.parent.mkdir(exist_ok=True)
    with tempfile.TemporaryDirectory() as folder:
        room = lay_out(Path(folder), program.name, source, TIMES_USES, PARTS)
        log = program.with_suffix(".log")
        with log.open("w") as said:
            built = subprocess.run(["rt", "ci"], cwd=folder, stdin=subprocess.DEVNULL, stdout=said, stderr=said, check=False)
        if built.returncode:
            sys.exit(f"bench_times can't be built: {log} tells why")
        shutil.copy(room / "out" / program.name, program)
    return str(program)


def compiled(source: str, folder: str) -> tuple[str | None, str]:
    """The program of a C++ file beside this one, made in the folder; or None, and why there is none."""
    program = os.path.join(folder, os.path.splitext(source)[0])
    words = ["g++", "-std=c++17", "-O2", "-o", program, os.path.join(HERE, source)]
    try:
        made = subprocess.run(words, capture_output=True, check=False)
    except FileNotFoundError:
        return None, "g++ isn't installed"
    return (None, "it can't be compiled") if made.returncode else (program, "")


@dataclass(frozen=True)
class Run:
    """The seconds on the clock and of the processor, the peak memory in MB, the status, and the output."""

    clock: float
    processor: float
    memory: float
    status: int
    output: bytes

    @cached_property
    def lines(self) -> list[str]:
        return self.output.decode().splitlines()


def launched(words: list[str], given: str, out: str, quiet: bool) -> tuple[int, subprocess.Popen]:
    """A process that becomes a program once a line is written to the shell that made it.

    Linux counts the memory of whoever starts a program to that program's peak. A shell has little, and this one ends before
    the program begins, so that its process comes to this one, which alone is told what it took.
    """
    ctypes.CDLL(None).prctl(PR_SET_CHILD_SUBREAPER, 1, 0, 0, 0)
    errors = subprocess.DEVNULL if quiet else None
    line = ["sh", "-c", LAUNCH, "sh", given, out, *words]
    shell = subprocess.Popen(line, stdin=subprocess.PIPE, stdout=subprocess.PIPE, stderr=errors)
    process = int(shell.stdout.readline())
    shell.wait()
    return process, shell


def run(program: str, words: list[str], text: bytes = b"", quiet: bool = False) -> Run:
    """One run of the program over this input, with no errors shown where it is to be quiet."""
    with tempfile.TemporaryDirectory() as folder:
        given, out = os.path.join(folder, "given"), os.path.join(folder, "out")
        with open(given, "wb") as file:
            file.write(text)
        process, shell = launched([program, *words], given, out, quiet)
        with shell.stdin, shell.stdout:
            begun = time.monotonic()
            shell.stdin.write(b"\n")
            shell.stdin.flush()
            try:
                _, status, usage = os.wait4(process, 0)
            except KeyboardInterrupt:
                # A shell has its processes ignore what a terminal's interrupt sends.
                os.kill(process, signal.SIGKILL)
                raise
            clock = time.monotonic() - begun
        with open(out, "rb") as file:
            return Run(clock, usage.ru_utime + usage.ru_stime, usage.ru_maxrss / 1024, status, file.read())
