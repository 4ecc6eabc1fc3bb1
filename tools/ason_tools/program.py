"""Runs `ason`: the program that the environment variable ASON names, or the one that the script `ason` has built."""

import os
import subprocess
from dataclasses import dataclass
from functools import cache
from pathlib import Path

from . import routes_told, surveys, tables
from .errors import ToolError
from .routes_told import Routes
from .surveys import Survey
from .tables import Output, Refused, Stopped, Table, Unsettled

REPOSITORY = Path(__file__).resolve().parents[2]
"""The folder that has the script `ason`."""

DONE, NOT_RUN, USAGE, PLAN_REFUSED, READ_FAULT, WRITE_FAULT, EVENT_LIMIT, OUT_OF_MEMORY, TOO_LONG, NOT_BUILT = range(10)
"""The statuses of `ason`."""


NO_BUILD = {"ASON_BUILD": "no"}
"""Has the script `ason` build nothing."""


@cache
def program_path() -> str:
    """The path of the program. A ToolError says that there is none of these sources: no tool starts a build, which is long."""
    named = os.environ.get("ASON")
    if named:
        return named
    script = str(REPOSITORY / "ason")
    try:
        # The script judges whether what is built is of these sources; no bytes to decode give nothing.
        asked = subprocess.run(
            [script, "decode"],
            env=os.environ | NO_BUILD,
            stdin=subprocess.DEVNULL,
            capture_output=True,
            check=False,
        )
    except OSError as error:
        raise ToolError(f"{script} can't be run: {error.strerror}") from error
    if asked.returncode != DONE:
        raise ToolError(f"ason isn't built of these sources: {script} run builds it, or ASON names a program that is built")
    return str(REPOSITORY / "out" / "ason")


@dataclass(frozen=True)
class Run:
    """How a run of `ason` ended: the process's status, what it printed, and that as values."""

    status: int
    text: str
    output: Output

    @property
    def tables(self) -> list[Table]:
        """The tables in the order in which they were printed; the last is that of the end."""
        return self.output.tables

    @property
    def table(self) -> Table:
        """The last table."""
        if not self.tables:
            raise ToolError(f"ason printed no table (its status is {self.status})")
        return self.tables[-1]

    @property
    def refused(self) -> Refused | None:
        """The plan's first fault, where it has one."""
        return next((part for part in self.output.parts if isinstance(part, Refused)), None)

    @property
    def unsettled(self) -> list[Unsettled]:
        """What was left at each settle that ended before all was quiet."""
        return [part for part in self.output.parts if isinstance(part, Unsettled)]

    @property
    def stopped(self) -> Stopped | None:
        """The node at whose limit of events the run ended, where it did."""
        return next((part for part in self.output.parts if isinstance(part, Stopped)), None)


def run(plan: str | bytes) -> Run:
    """Runs `ason run` on this plan. A ToolError says that the program couldn't be run or built."""
    return _run("run", plan)


def route(plan: str | bytes, source: str, target: str) -> Routes:
    """Runs `ason route` on this plan, between the nodes of these names. A ToolError says that it tells no routes, and why."""
    return routes_told.read(printed(("route", source, target), plan)[1])


def survey(plan: str | bytes) -> Survey:
    """Runs `ason survey` on this plan. A ToolError says that it tells no survey, and why."""
    return surveys.read(printed(("survey",), plan)[1])


def decode(lines: str | bytes) -> Run:
    """Runs `ason decode` on these lines of hexadecimal digits."""
    return _run("decode", lines)


def check(trace: bytes) -> tuple[int, str]:
    """Runs `ason check` on this trace: its status and what it printed."""
    return printed(("check",), trace)


def _run(word: str, given: str | bytes) -> Run:
    status, text = printed((word,), given)
    return Run(status, text, tables.read(text))


def printed(words: tuple[str, ...], given: str | bytes) -> tuple[int, str]:
    """The status and the output of the program with these words."""
    path = program_path()
    data = given.encode("utf-8", "surrogateescape") if isinstance(given, str) else given
    try:
        ended = subprocess.run([path, *words], input=data, stdout=subprocess.PIPE, env=os.environ | NO_BUILD, check=False)
    except OSError as error:
        raise ToolError(f"{path} can't be run: {error.strerror}") from error
    if ended.returncode < 0 or ended.returncode in (USAGE, NOT_BUILT, 126, 127):
        raise ToolError(f"{path} couldn't be run: its status is {ended.returncode}")
    if ended.returncode in (READ_FAULT, WRITE_FAULT, OUT_OF_MEMORY):
        raise ToolError(f"{path} came to no end: its status is {ended.returncode}")
    return ended.returncode, ended.stdout.decode("utf-8", "replace")
