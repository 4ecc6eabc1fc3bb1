"""The runs of a study: side by side on this machine or on a cluster, all at once or in parts, with a word on how far they are."""

import argparse
import csv
import hashlib
import io
import json
import os
import re
import signal
import sys
import threading
import time
from collections.abc import Callable, Iterable, Iterator
from concurrent.futures import BrokenExecutor, Executor, Future, ProcessPoolExecutor, as_completed
from contextlib import contextmanager
from dataclasses import dataclass, field
from typing import Any

from . import command
from .errors import ToolError, quoted
from .files import OUTPUT_LIMIT, about, read_text

STOPPED = 130
"""The status of a study that was stopped by Ctrl-C."""

QUIET = 60.0
"""So many seconds are between two words on how far a study is, where nobody looks on at a terminal."""


@dataclass(frozen=True)
class Study:
    """Runs that are alike. `work` makes a value of JSON of what is given to all of them and of a run's own order.

    `work` is a function of a module, so that other processes find it by its name. `given` and the orders have one `repr`.
    """

    name: str
    work: Callable[[Any, Any], Any]
    given: Any
    orders: list[Any]

    @property
    def mark(self) -> str:
        """A checksum of all that the study asks."""
        return hashlib.sha256(repr((self.name, self.given, self.orders)).encode()).hexdigest()


@dataclass(frozen=True)
class Part:
    """Every so-many-th run, from this one on."""

    number: int
    count: int

    def has(self, place: int) -> bool:
        """Whether the run at this place, from 0, is of the part."""
        return place % self.count == self.number - 1


WHOLE = Part(1, 1)


@dataclass(frozen=True)
class Way:
    """How the runs are made: so many side by side, or by the workers of a dask scheduler; which of them, and which are there."""

    jobs: int
    dask: str | None = None
    part: Part | None = None
    gather: tuple[str, ...] = ()


@dataclass
class Found:
    """What the runs came to, by their places; of a study that was stopped, those that were done."""

    values: dict[int, Any] = field(default_factory=dict)
    is_stopped: bool = False


def csv_text(rows: Iterable[Iterable[object]]) -> str:
    """The rows as CSV; the first has the names of the columns."""
    text = io.StringIO()
    csv.writer(text, lineterminator="\n").writerows(rows)
    return text.getvalue()


def cores() -> int:
    """How many runs go side by side without a wish: one for each processor that this process may use, where that is known."""
    return len(os.sched_getaffinity(0)) if hasattr(os, "sched_getaffinity") else os.cpu_count() or 1


def add_words(parser: command.Parser) -> None:
    """The words of each study that say how its runs are made."""
    group = parser.add_argument_group("how the runs are made")
    group.add_argument("--jobs", type=int, default=cores(), metavar="N", help="runs side by side (one for each processor)")
    group.add_argument("--dask", metavar="ADDRESS", help="runs by the workers of this dask scheduler, as tcp://127.0.0.1:8786")
    parts = group.add_mutually_exclusive_group()
    parts.add_argument("--part", metavar="K/N", help="every N-th run from the K-th on; the output is a part for --gather")
    parts.add_argument("--gather", nargs="+", default=[], metavar="FILE", help="take the runs of these parts; others are made")


def way_of(arguments: argparse.Namespace) -> Way:
    """How the words want the runs to be made."""
    if arguments.jobs < 1:
        raise ToolError("--jobs is at least 1")
    return Way(arguments.jobs, arguments.dask, _part_of(arguments.part), tuple(arguments.gather))


def _part_of(text: str | None) -> Part | None:
    if text is None:
        return None
    found = re.fullmatch(r"(\d{1,6})/(\d{1,6})", text)
    if found is None or not 1 <= int(found[1]) <= int(found[2]):
        raise ToolError("--part is K/N, two whole numbers, with K from 1 to N")
    return Part(int(found[1]), int(found[2]))


def told(study: Study, way: Way, report: Callable[[dict[int, Any]], str]) -> int:
    """Makes the runs, and writes the report of what they came to, or the part that is asked for. Answers the status."""
    found = made(study, way)
    if found.is_stopped:
        command.note(f"{study.name}: stopped: {len(found.values)} of {_count(study, way)} runs were done, and are told")
    command.write(_part_text(study, found.values) if way.part else report(found.values))
    return STOPPED if found.is_stopped else 0


def made(study: Study, way: Way) -> Found:
    """What the runs came to: those of the parts that are there, and the others, which are made now."""
    known = _gathered(study, way.gather)
    places = [place for place in range(len(study.orders)) if place not in known and (way.part or WHOLE).has(place)]
    if way.gather and places:
        command.note(f"{study.name}: the parts lack {len(places)} of {len(study.orders)} runs, which are made now")
    found = _run(study, places, way) if places else Found()
    if found.is_stopped and not found.values and not known:
        raise KeyboardInterrupt
    return Found(known | found.values, found.is_stopped)


def _count(study: Study, way: Way) -> int:
    return sum((way.part or WHOLE).has(place) for place in range(len(study.orders)))


def _part_text(study: Study, values: dict[int, Any]) -> str:
    """A part: the mark of its study, and the values of its runs."""
    rows = {str(place): values[place] for place in sorted(values)}
    return json.dumps({"study": study.name, "mark": study.mark, "runs": len(study.orders), "values": rows}) + "\n"


def _gathered(study: Study, paths: Iterable[str]) -> dict[int, Any]:
    """The values of the runs in these parts of the study."""
    values: dict[int, Any] = {}
    for path in paths:
        text = read_text(path, OUTPUT_LIMIT)
        with about(path):
            values |= _values_in(study, text)
    return values


def _values_in(study: Study, text: str) -> dict[int, Any]:
    try:
        part = json.loads(text)
        name, mark, rows = part["study"], part["mark"], {int(place): value for place, value in part["values"].items()}
    except (ValueError, KeyError, TypeError, AttributeError, RecursionError) as error:
        raise ToolError("it isn't what --part wrote") from error
    if name != study.name:
        raise ToolError(f"it is a part of {quoted(name)}, and not of {study.name}")
    if mark != study.mark:
        raise ToolError("it is a part of another study: the plan or the words were others")
    return rows


def _run(study: Study, places: list[int], way: Way) -> Found:
    """Makes these runs. Ctrl-C leaves those that are done, and lets those end that are under way."""
    found, progress = Found(), Progress(study.name, len(places))
    with _pool(way, len(places)) as pool:
        runs = {pool.submit(study.work, study.given, study.orders[place]): place for place in places}
        try:
            for run in as_completed(runs):
                found.values[runs[run]] = _value(run)
                progress.tell(len(found.values))
        except KeyboardInterrupt:
            found.is_stopped = True
        finally:
            for run in runs:
                run.cancel()
            progress.end()
    if found.is_stopped:
        found.values |= {place: _value(run) for run, place in runs.items() if run.done() and not run.cancelled()}
    return found


def _value(run: Future[Any]) -> Any:
    """What the run came to, as JSON has it."""
    try:
        return json.loads(json.dumps(run.result()))
    except BrokenExecutor as error:
        raise ToolError("a process that made runs was killed: memory may be wanting, and fewer --jobs take less") from error
    except ModuleNotFoundError as error:
        raise ToolError(f"a worker has no module {error.name}: its PYTHONPATH must name tools/ of this repository") from error


@contextmanager
def _pool(way: Way, runs: int) -> Iterator[Executor]:
    """What makes the runs; behind it none is under way."""
    if way.dask is None:
        with ProcessPoolExecutor(min(way.jobs, runs), initializer=_begin_worker, initargs=(os.getpid(),)) as pool:
            yield pool
        return
    try:
        from distributed import Client
    except ImportError as error:
        raise ToolError("--dask needs Python's package distributed (Debian: python3-distributed, for /usr/bin/python3)") from error
    try:
        client = Client(way.dask, timeout=10)
    except (OSError, ValueError) as error:
        raise ToolError(f"no dask scheduler answers at {quoted(way.dask)}") from error
    with client:
        yield client.get_executor(retries=2)


def _begin_worker(parent: int) -> None:
    """Has a worker, and the programs that it starts, go on at Ctrl-C: the study itself ends them in order, or ends with them."""
    signal.signal(signal.SIGINT, signal.SIG_IGN)
    threading.Thread(target=_end_with, args=(parent,), daemon=True).start()


def _end_with(parent: int) -> None:
    """Ends this process once its parent is gone, which a worker that waits for its next run wouldn't see."""
    while os.getppid() == parent:
        time.sleep(0.5)
    os._exit(1)


class Progress:
    """How far the runs are, and how long the others will take, on the standard error: always on a terminal, else each minute."""

    def __init__(self, name: str, count: int) -> None:
        self._name, self._count = name, count
        self._start = self._last = time.monotonic()
        self._width = 0
        self._is_terminal = sys.stderr is not None and sys.stderr.isatty()

    def tell(self, done: int, what: str = "runs") -> None:
        """Says that so many are done."""
        now = time.monotonic()
        left = round((now - self._start) / done * (self._count - done))
        text = f"{self._name}: {done} of {self._count} {what}, {left // 60}:{left % 60:02} to go"
        if self._is_terminal:
            self._width = max(self._width, len(text))
            print(f"\r{text:{self._width}}", end="", file=sys.stderr, flush=True)
        elif now - self._last >= QUIET:
            self._last = now
            command.note(text)

    def end(self) -> None:
        """Takes the line off the terminal."""
        if self._width:
            print(f"\r{' ' * self._width}\r", end="", file=sys.stderr, flush=True)
