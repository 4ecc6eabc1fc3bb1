"""What a refusal means: the place of the fault in the plan's text, and a sentence."""

import re
import tomllib
from collections.abc import Callable, Iterator
from dataclasses import dataclass
from itertools import pairwise

from . import script_forms, toml_places
from .errors import meant, quoted
from .files import MARK, place_of
from .plan import MOST_LABELS, MOST_LINES, MOST_LINKS, MOST_METRIC, MOST_NODES, MOST_SRLGS
from .tables import Refused
from .toml_places import Placed

TOP = {"node": list, "link": list, "script": list, "wait": int}
NODE = {"name": str, "id": int, "convert": bool}
LINK = {"id": int, "ends": list, "labels": int, "metric": int, "srlg": list}
MOST_ID = 4_294_967_295
MOST_WAIT = 10_000


@dataclass(frozen=True)
class Fault:
    """A fault: a sentence, where it is, as line and column from 1, and lines that tell more.

    The place is None where the text shows none.
    """

    sentence: str
    place: tuple[int, int] | None
    more: tuple[str, ...] = ()


Finding = tuple[int | None, str]
"""An offset in the text, or None, and a sentence."""


def explain(data: bytes, refused: Refused) -> Fault:
    """The fault of this plan that the program refused so."""
    if refused.entry is None:
        return Fault("the input has more than 4,194,304 bytes", None)
    if refused.entry == "toml":
        return _syntax(data)
    text = data.decode("utf-8").removeprefix(MARK)
    try:
        top = toml_places.read(text)
    except (toml_places.Unreadable, RecursionError):
        return Fault(f"{_meaning(refused)} (this tool can't read the file's TOML, so it shows no line)", None)
    at, sentence = _find(top, refused)
    more = script_forms.FORMS if refused.kind == "words" else ()
    return Fault(sentence, None if at is None else place_of(text[:at]), more)


def _syntax(data: bytes) -> Fault:
    """Where the bytes are no UTF-8 or no TOML."""
    try:
        text = data.decode("utf-8")
    except UnicodeDecodeError as error:
        return Fault("a byte here isn't UTF-8, in which a plan is written", place_of(data[: error.start].decode()))
    text = text.removeprefix(MARK)
    try:
        tomllib.loads(text)
    except RecursionError:
        return Fault("arrays or tables stand too deep", None)
    except ValueError as error:
        return _toml_fault(text, str(error))
    return Fault("the program's reader of TOML refuses it, and this tool's doesn't", None)


def _toml_fault(text: str, message: str) -> Fault:
    found = re.fullmatch(r"(.*) \(at (?:line (\d+), column (\d+)|end of document)\)", message, re.DOTALL)
    if found is None:
        return Fault(f"this is no TOML: {message}", None)
    place = (int(found[2]), int(found[3])) if found[2] else place_of(text.rstrip("\n"))
    return Fault(f"this is no TOML: {found[1][:1].lower()}{found[1][1:]}", place)


def _find(top: Placed, refused: Refused) -> Finding:
    """Where the program's entry and kind show in the text."""
    word, _, number = (refused.entry or "").partition(" ")
    if word == "top":
        return _in_top(top, refused)
    members = top.get(word)
    row = members.items()[int(number) - 1] if members and int(number) <= len(members.items()) else None
    if row is None:
        return None, _meaning(refused)
    if word == "script":
        return row.at, _in_line(top, row, int(number), refused)
    return _in_row(top, row, word, int(number), refused)


def _in_top(top: Placed, refused: Refused) -> Finding:
    if refused.kind == "key":
        return _unknown_key(top, TOP, "the plan")
    if refused.kind == "missing":
        return None, "the plan has no node: it needs 1 to 64 tables [[node]]"
    if refused.kind == "kind":
        return _wrong_type(top, TOP, "the plan") or _wrong_member(top) or (None, _meaning(refused))
    if refused.kind == "count":
        return _top_count(top) or (None, _meaning(refused))
    wait = top.get("wait")
    return (wait.at if wait else None), _meaning(refused)


def _top_count(top: Placed) -> Finding | None:
    """The first member that is one too many, or the array of nodes that has none."""
    for key, most in (("node", MOST_NODES), ("link", MOST_LINKS), ("script", MOST_LINES)):
        rows = top.get(key)
        members = rows.items() if rows else []
        if len(members) > most:
            return members[most].at, f"the plan has {len(members):,} members of {key}, and at most {most:,} are allowed"
        if rows and key == "node" and not members:
            return rows.at, f"the plan has no node, and it needs 1 to {most}"
    return None


def _in_row(top: Placed, row: Placed, word: str, number: int, refused: Refused) -> Finding:
    """The place in a node or a link."""
    keys = NODE if word == "node" else LINK
    entry = f"{word} {number}"
    if refused.kind == "key":
        return _unknown_key(row, keys, entry)
    if refused.kind == "missing":
        needed = ("name", "id") if word == "node" else ("id", "ends", "labels")
        missing = [key for key in needed if row.get(key) is None]
        return row.at, f"{entry} has no {' and no '.join(missing)}"
    if refused.kind == "kind":
        return _wrong_type(row, keys, entry) or _wrong_element(row, entry) or (row.at, _meaning(refused))
    key, sentence = _value_fault(top, row, word, number, refused)
    value = row.get(key)
    return (value.at if value else row.at), sentence


def _value_fault(top: Placed, row: Placed, word: str, number: int, refused: Refused) -> tuple[str, str]:
    """The key whose value is the fault, and the sentence."""
    entry = f"{word} {number}"
    if refused.kind == "range":
        return _out_of_range(row, word, entry)
    if refused.kind == "order":
        return "id", f"the ids of {word}s rise, and that of {entry} isn't above that of the {word} before"
    if refused.kind == "name":
        return "name", f"the name of {entry} isn't an ASCII letter and up to 15 more letters, digits, _ or -"
    if word == "node" and refused.kind == "twice":
        return "name", f"a node before {entry} has this name"
    if refused.kind == "twice":
        return "srlg", f"{entry} names an SRLG twice"
    if refused.kind == "count":
        return _wrong_count(row, entry)
    return "ends", _ends(top, row, entry)


def _out_of_range(row: Placed, word: str, entry: str) -> tuple[str, str]:
    limits = {"id": (1, MOST_ID)} if word == "node" else {"id": (1, MOST_ID), "labels": (1, MOST_LABELS), "metric": (1, MOST_METRIC)}
    for key, (least, most) in limits.items():
        value = row.get(key)
        if value and not least <= value.value <= most:
            return key, f"{key} of {entry} must be {least} to {most:,}, and here it is {value.value}"
    return "srlg", f"an SRLG of {entry} isn't 0 to {MOST_ID:,}"


def _wrong_count(row: Placed, entry: str) -> tuple[str, str]:
    ends = row.get("ends")
    if ends and len(ends.items()) != 2:
        return "ends", f"{entry} has {len(ends.items())} ends, and a link has two"
    return "srlg", f"{entry} has more than {MOST_SRLGS} SRLGs"


def _ends(top: Placed, row: Placed, entry: str) -> str:
    names = _node_names(top)
    ends = [end.value for end in row.value["ends"].items()]
    unknown = next((end for end in ends if end not in names), None)
    if unknown is not None:
        return f"{entry} ends at {quoted(unknown)}, and no node of the plan has this name{meant(unknown, names)}"
    return f"both ends of {entry} are {quoted(ends[0])}"


def _unknown_key(table: Placed, keys: dict[str, type], entry: str) -> Finding:
    for key, value in table.value.items():
        if key not in keys:
            return value.at, f"{entry} has the key {quoted(key)}, and the keys are {', '.join(keys)}{meant(key, keys)}"
    return None, f"{entry} has a key that isn't one of {', '.join(keys)}"


_WORDS = {list: "an array", int: "an integer", str: "a string", bool: "true or false"}


def _wrong_type(table: Placed, keys: dict[str, type], entry: str) -> Finding | None:
    """The first value of another type than its key's."""
    for key, kind in keys.items():
        value = table.get(key)
        if value is not None and type(value.value) is not kind:
            return value.at, f"the {key} of {entry} isn't {_WORDS[kind]}"
    return None


def _wrong_member(top: Placed) -> Finding | None:
    """The first node or link that is no table, or script line that is no string."""
    for key, kind, needed in (("script", str, "a string"), ("node", dict, "a table"), ("link", dict, "a table")):
        rows = top.get(key)
        for number, row in enumerate(rows.items() if rows else [], 1):
            if type(row.value) is not kind:
                return row.at, f"{key} {number} isn't {needed}"
    return None


def _wrong_element(row: Placed, entry: str) -> Finding | None:
    """The first end that is no string, or SRLG that is no integer."""
    for key, kind in (("ends", str), ("srlg", int)):
        value = row.get(key)
        for element in value.items() if value else []:
            if type(element.value) is not kind:
                return element.at, f"an element of {key} of {entry} isn't {_WORDS[kind]}"
    return None


def _in_line(top: Placed, row: Placed, number: int, refused: Refused) -> str:
    """The sentence on a script line."""
    words = [word for word in str(row.value).split(" ") if word]
    details: dict[str, Callable[[], str | None]] = {
        "words": lambda: script_forms.nearest(words),
        "name": lambda: f"{quoted(words[1])} is no name: a letter and up to 15 more letters, digits, _ or -",
        "node": lambda: _unknown_node(top, words),
        "same": lambda: f"the call begins and ends at {quoted(words[2])}",
        "call": lambda: _call_fault(top, words, number),
        "route": lambda: _route_fault(top, words),
        "backup": lambda: _backup_fault(top, words),
        "range": lambda: _RANGES[words[0]],
        "channel": lambda: f"no link joins {quoted(words[1])} and {quoted(words[2])}",
        "group": lambda: f"no link has the {'SRLG' if words[1] == 'srlg' else 'id'} {words[2]}",
    }
    try:
        detail = details.get(refused.kind or "", lambda: None)()
    except (IndexError, KeyError, ValueError):
        detail = None
    return f"script line {number}: {detail or _meaning(refused)}"


_RANGES = {
    "settle": "the R of settle is 1 to 1,000",
    "wait": "the N of wait is 1 to 10,000",
    "setup": f"a link id is at most {MOST_ID:,}",
    "fail": f"a link id or an SRLG is at most {MOST_ID:,}",
    "repair": f"a link id or an SRLG is at most {MOST_ID:,}",
    "lose": "the K of lose is 1 to 65,535",
    "repeat": "the K of repeat is 1 to 65,535",
    "hold": "the K of hold is 1 to 65,535",
}


def _unknown_node(top: Placed, words: list[str]) -> str | None:
    names = _node_names(top)
    ends = words[2:4] if words[0] == "setup" else words[1:3]
    unknown = next((word for word in ends if word not in names), None)
    return None if unknown is None else f"no node of the plan has the name {quoted(unknown)}{meant(unknown, names)}"


def _call_fault(top: Placed, words: list[str], number: int) -> str:
    if words[0] == "setup":
        return f"a setup before has the name {quoted(words[1])}"
    before = (str(row.value).split() for row in list(_rows(top, "script"))[: number - 1])
    names = [line[1] for line in before if line[:1] == ["setup"] and len(line) > 1]
    return f"no setup before has the name {quoted(words[1])}{meant(words[1], names)}"


def _routes(words: list[str]) -> dict[str, list[int]]:
    """The link ids of a setup's routes, by the words before them."""
    return {word: [int(link) for link in ids.split(",")] for word, ids in pairwise(words[4:]) if word in ("via", "backup")}


def _route_fault(top: Placed, words: list[str]) -> str | None:
    """The first link of a route that doesn't lead on."""
    faults = (_leading_fault(top, words[2], words[3], route) for route in _routes(words).values())
    return next((fault for fault in faults if fault), None)


def _leading_fault(top: Placed, source: str, target: str, route: list[int]) -> str | None:
    ends_of = {link.value["id"].value: [end.value for end in link.value["ends"].items()] for link in _rows(top, "link")}
    node, visited = source, {source}
    for link in route:
        ends = ends_of.get(link)
        if ends is None:
            return f"the plan has no link {link}"
        if node not in ends:
            return f"link {link} joins {ends[0]} and {ends[1]}, and the route has come to {node}"
        node = ends[1] if node == ends[0] else ends[0]
        if node in visited:
            return f"the route comes to {node} twice"
        visited.add(node)
    return f"the route ends at {node}, and the call at {target}" if node != target else None


def _backup_fault(top: Placed, words: list[str]) -> str | None:
    """What the backup route shares with the working route: a link, else an SRLG."""
    work, backup = _routes(words)["via"], _routes(words)["backup"]
    links = {link.value["id"].value: link for link in _rows(top, "link")}
    srlgs = {number: {srlg.value for srlg in link.get("srlg").items()} if link.get("srlg") else set() for number, link in links.items()}
    both = next((link for link in backup if link in work), None)
    if both is not None:
        return f"both routes go over link {both}"
    shared = ((a, b, srlg) for a in work for b in backup for srlg in sorted(srlgs[a] & srlgs[b]))
    return next((f"link {a} of the working route and link {b} of the backup route have SRLG {srlg}" for a, b, srlg in shared), None)


def _node_names(top: Placed) -> set[str]:
    return {row.value["name"].value for row in _rows(top, "node")}


def _rows(top: Placed, key: str) -> Iterator[Placed]:
    rows = top.get(key)
    yield from rows.items() if rows else []


_MEANINGS = {
    "top kind": "a value of the plan has another type than its key wants",
    "top count": f"the plan has not 1 to {MOST_NODES} nodes, at most {MOST_LINKS} links and at most {MOST_LINES:,} script lines",
    "top range": f"wait isn't 0 to {MOST_WAIT:,}",
    "script words": "the line has none of the forms of a script line",
    "script range": "a number of the line is outside its range",
    "script name": "the name of the call is no name",
    "script node": "the line names a node that the plan doesn't have",
    "script same": "the call begins and ends at the same node",
    "script call": "the name of the call is used before, or no setup before has it",
    "script count": "4,096 setups stand before this one, and no more are allowed",
    "script route": "the links are unknown or don't lead from the one node to the other, with no node twice",
    "script backup": "the backup route shares a risk or an inner node with the working route",
    "script group": "the plan has no such link, or no link with this SRLG",
    "script channel": "the two nodes aren't neighbours",
    "script hex": "the bytes aren't - or an even number of hexadecimal digits, at most 131,070",
    "script spells": "the bytes spell a frame, which noise must not",
}


def _meaning(refused: Refused) -> str:
    """What a kind means at any place."""
    word = (refused.entry or "").partition(" ")[0]
    return _MEANINGS.get(f"{word} {refused.kind}", f"{refused.entry} has a fault of the kind {refused.kind}")
