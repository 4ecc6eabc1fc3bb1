"""The moments of a plan's script that a picture shows side by side: before a cut, after it, and after its repair."""

from collections.abc import Iterable
from dataclasses import dataclass, replace

from .errors import ToolError
from .groups import Group, changes
from .plan import Plan

LONGEST_TITLE = 60


@dataclass(frozen=True)
class Moments:
    """A plan that shows its table at each moment but the last, which is its end; and the title of each moment."""

    plan: Plan
    titles: tuple[str, ...]


def of_script(plan: Plan) -> Moments:
    """Before the script's first `fail`, before the first `repair` behind that, and at the end.

    Lines `show` change nothing, so those of the script are left out, and the course of the run stays what it is.
    """
    script = [line for line in plan.script if line.split() != ["show"]]
    cut = _first(script, "fail", 0)
    if cut is None:
        raise ToolError("its script cuts nothing, so there is no cut to show (--hit GROUP cuts one)")
    repaired = _first(script, "repair", cut)
    ends = [cut, len(script)] if repaired is None else [cut, repaired, len(script)]
    parts = [script[start:end] for start, end in zip([0, *ends], ends)]
    lines = [line for part in parts for line in [*part, "show"]]
    return Moments(replace(plan, script=lines[:-1]), ("before", *(_title(part) for part in parts[1:])))


def of_cut(plan: Plan, group: Group, hit: Iterable[str]) -> Moments:
    """At the script's end, after the group's failure, and after its repair, when the calls that it hit are back."""
    back = [f"revert {name}" for name in hit]
    fail, repair = f"fail {group.text()}", f"repair {group.text()}"
    script = [line for line in plan.script if line.split() != ["show"]]
    lines = [*script, "settle 1000", "show", fail, "settle 1000", "show", repair, "settle 1000", *back]
    return Moments(replace(plan, script=lines), ("before", fail, _title([repair, *back])))


def _first(script: list[str], verb: str, start: int) -> int | None:
    """The place of the first line from there on that has this verb and a group."""
    places = (place for place in range(start, len(script)) if (changes(script[place]) or ("",))[0] == verb)
    return next(places, None)


def _title(lines: Iterable[str]) -> str:
    """The lines that change something, as a heading."""
    told = ", ".join(" ".join(line.split()) for line in lines if line.split()[:1] not in (["settle"], ["wait"]))
    return told if len(told) <= LONGEST_TITLE else told[:LONGEST_TITLE].rpartition(", ")[0] + ", .."
