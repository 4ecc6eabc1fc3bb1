"""Which fibres refused calls of a table: where each blocked call found no label on its way; and how many calls have which cause."""

from collections import Counter

from .circuits import Circuit, Fibre, usage
from .disjoint import least
from .plan import Plan
from .room import Room
from .setups import Setup, setups_of
from .tables import Call, Table


def refusals(plan: Plan, table: Table, failed: frozenset[int] = frozenset()) -> Counter[Fibre]:
    """How many blocked calls each fibre refused: the first of their way that is down, or on which they find no label now."""
    room, setups = Room(plan, usage(plan, table, failed)), setups_of(plan)
    blocked = [call for call in table.calls if call.state == "blocked"]
    fibres = (_fibre(plan, room, call, setups.get(call.name), failed) for call in blocked)
    return Counter(fibre for fibre in fibres if fibre is not None)


def _fibre(plan: Plan, room: Room, call: Call, setup: Setup | None, failed: frozenset[int]) -> Fibre | None:
    route = (setup.via if setup else None) or least(plan, call.source, call.target)
    if route is None:
        return None
    links, node = {link.id: link for link in plan.links}, call.source
    for number in route:
        if call.cause == "down" and number in failed:
            return number, node
        node = links[number].other(node)
    narrow = room.narrow(call.source, route)
    return narrow.fibre if narrow else None


def summary(plan: Plan, table: Table, failed: frozenset[int]) -> str:
    """How many calls are blocked, stuck, without the backup that they asked for or cut off, by cause, and what each fibre refused."""
    kinds = Counter(kind for it in usage(plan, table, failed).circuits for kind in _kinds(it))
    lines = [f"{count} of {len(table.calls)} calls: {what}" for what, count in sorted(kinds.items(), key=_by_count)]
    links = {link.id: link for link in plan.links}
    for (number, sender), count in sorted(refusals(plan, table, failed).items(), key=_by_count):
        calls = "call" if count == 1 else "calls"
        lines.append(f"link {number} from {sender} to {links[number].other(sender)} refuses {count} blocked {calls}")
    return "".join(line + "\n" for line in lines)


def _kinds(circuit: Circuit) -> list[str]:
    """What is amiss with the call; a call that is stuck or bare can be cut off too."""
    call = circuit.call
    cause = f", cause {call.cause}" if call.cause else ""
    names = {"blocked": "blocked", "stuck": "stuck"} | ({"bare": "without the backup that was asked for"} if call.cause else {})
    found = [f"{names[call.state]}{cause}"] if call.state in names else []
    return found + (["cut off, whatever their state"] if circuit.is_cut_off else [])


def _by_count(row: tuple[object, int]) -> tuple[int, str]:
    """The most first."""
    return -row[1], str(row[0])
