"""What the tests share."""

import signal
import subprocess
import sys
from dataclasses import dataclass
from pathlib import Path

from ason_tools.program import program_path

TOP = Path(__file__).resolve().parents[1]
TOOLS = TOP / "tools"
EXAMPLES = TOP / "examples"


@dataclass(frozen=True)
class Ended:
    """How a process ended."""

    status: int
    out: str
    err: str


def tool(name: str, *words: str, given: bytes | str = b"", folder: Path | str = TOP) -> Ended:
    """Runs the tool with this standard input."""
    data = given.encode() if isinstance(given, str) else given
    command = [sys.executable, str(TOOLS / name), *words]
    ended = subprocess.run(command, input=data, capture_output=True, cwd=folder, check=False)
    return Ended(ended.returncode, ended.stdout.decode(), ended.stderr.decode())


def take_interrupts() -> None:
    """Run in a process that is started: it takes Ctrl-C, also where the tests were begun in the background, which ignores it."""
    signal.signal(signal.SIGINT, signal.SIG_DFL)


def ason_told(*words: str, given: bytes | str = b"") -> Ended:
    """Runs the program with these words and this standard input."""
    data = given.encode() if isinstance(given, str) else given
    ended = subprocess.run([program_path(), *words], input=data, capture_output=True, check=False)
    return Ended(ended.returncode, ended.stdout.decode(), ended.stderr.decode())


def plan_text(script: list[str] | None = None, nodes: str = "", links: str = "") -> str:
    """A plan with the nodes a to d, the links 1 (a to b), 2 (b to c), 3 (c to d) and 4 (a to c), and this script."""
    lines = ["script = [", *(f'    "{line}",' for line in script or []), "]"]
    if not nodes:
        for number, name in enumerate("abcd", 1):
            lines += ["[[node]]", f'name = "{name}"', f"id = {number}", "convert = true"]
    if not links:
        for number, ends in enumerate(("ab", "bc", "cd", "ac"), 1):
            lines += ["[[link]]", f"id = {number}", f'ends = ["{ends[0]}", "{ends[1]}"]', "labels = 2"]
    return "\n".join(lines) + "\n" + nodes + links
