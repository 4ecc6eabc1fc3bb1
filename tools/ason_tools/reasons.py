"""Why calls of a table have no circuit or no backup, or nothing that carries them: by the plan and the table alone."""

from dataclasses import dataclass

from .circuits import Circuit, Fibre, Usage, usage
from .disjoint import Shared, joins, least, least_backup, other_pair, reached, shared_by_all, ways_beside, without
from .groups import Group, changes
from .plan import Plan
from .room import Narrow, Room
from .setups import Route, Setup, setups_of
from .tables import Call, Table

MOST_NAMES = 6
"""The most calls that a sentence names."""

PLAIN = {
    "spent": "its first node has given out all its numbers of tunnels and LSPs",
    "full": "a node of its way has 4,096 LSPs, and no node has more",
    "primary": "a node of the backup's way didn't know a link of the working route yet",
    "route": "a node of its way found no step of its route that leads on",
}
"""What a cause says of a call by itself."""


@dataclass(frozen=True)
class Reason:
    """A call, and the sentences that tell why it is as it is and what is free beside it."""

    call: Call
    sentences: tuple[str, ...]

    def text(self) -> str:
        """The lines that are printed."""
        call = self.call
        cause = f", cause {call.cause}" if call.cause else ""
        head = f"call {call.name} from {call.source} to {call.target} is {call.state}{cause}"
        return "".join(line + "\n" for line in (head, *(f"    {sentence}" for sentence in self.sentences)))


def reasons(plan: Plan, table: Table, failed: frozenset[int]) -> list[Reason]:
    """A reason for each call that is blocked, stuck, bare with a cause, or cut off."""
    used, setups = usage(plan, table, failed), setups_of(plan)
    teller = _Teller(plan, used, failed, Room(plan, used))
    return [
        Reason(circuit.call, tuple(teller.sentences(circuit, setups.get(circuit.call.name))))
        for circuit in used.circuits
        if circuit.is_cut_off or circuit.call.cause or circuit.call.state in ("blocked", "stuck")
    ]


@dataclass(frozen=True)
class _Teller:
    """What the sentences are made of."""

    plan: Plan
    used: Usage
    failed: frozenset[int]
    room: Room

    def sentences(self, circuit: Circuit, setup: Setup | None) -> list[str]:
        """Why the call is as it is."""
        call = circuit.call
        if call.cause in PLAIN:
            again = [] if call.work is None else [f"protect {call.name} asks for a backup again"]
            return [PLAIN[call.cause], *again]
        if call.state == "blocked":
            return self._blocked(call, setup)
        if call.cause == "nobackup":
            return self._without_backup(circuit)
        if call.state == "bare" and call.cause:
            return self._refused_backup(circuit, setup)
        return self._cut(circuit)

    def _blocked(self, call: Call, setup: Setup | None) -> list[str]:
        if call.cause == "noroute":
            return [self._no_way(call)]
        given = setup.via if setup else None
        route = given or least(self.plan, call.source, call.target)
        if route is None:
            return [self._no_way(call)]
        found = self._met(self.room, call, route, self.plan)
        if call.cause == "down":
            found += self._unsettled(setup)
        again = "a setup isn't tried again, nor by another way: release it and set it up anew"
        return [*found, again]

    def _no_way(self, call: Call) -> str:
        others = reached(self.plan, call.source)
        if call.target in others:
            return "its first node didn't know the links of a way when the setup came: settle before it"
        return f"no links lead from {call.source} to {call.target}: they lead to {_listed(others) or 'no node'} alone"

    def _met(self, room: Room, call: Call, route: Route, ways: Plan) -> list[str]:
        """Where an LSP over the route is refused, and which of these ways is free."""
        down = next((link for link in self.plan.links if link.id in route and link.id in self.failed), None)
        narrow = room.narrow(call.source, route)
        if call.cause == "down":
            where = f"{joins(down)} of its way is down" if down else "a link of its way was down then, and none is now"
        elif narrow:
            where = self._full(room, narrow)
        else:
            where = f"each link of its way {_via(route)} has a label now: others had them when it was tried"
        whole = without(ways, [Group("link", link) for link in self.failed])
        free = room.least(call.source, call.target, whole)
        beside = f"free is the way {_via(free)}" if free else f"no way to {call.target} is free on each of its links"
        return [where, beside]

    def _full(self, room: Room, narrow: Narrow) -> str:
        """The fibre on which no label is usable, and who holds its labels."""
        link, sender = narrow.link, narrow.sender
        fibre = f"the fibre of link {link.id} from {sender}"
        at = f"at {link.other(sender)}: "
        if narrow.has_free:
            return f"{at}{sender} keeps an LSP's wavelength, and {fibre} has none free that is free on the links before"
        what = "no label that it may share" if room.primary else "no free label"
        return f"{at}{fibre} has {what} among its {link.labels}: held by {self._holders(narrow.fibre)}"

    def _holders(self, fibre: Fibre) -> str:
        held = self.used.holders.get(fibre, {})
        names = [it.circuit.call.name if it.circuit else it.lsp.text() for label in sorted(held) for it in held[label]]
        return _listed(list(dict.fromkeys(names)))

    def _unsettled(self, setup: Setup | None) -> list[str]:
        """That a fibre is cut behind the setup while it is on its way."""
        behind = self.plan.script[setup.place + 1 :] if setup else []
        for line in behind:
            if line.split()[:1] in (["settle"], ["wait"]):
                break
            if (changes(line) or ("",))[0] == "fail":
                return [f"the line {' '.join(line.split())!r} comes behind its setup without a settle between them"]
        return []

    def _without_backup(self, circuit: Circuit) -> list[str]:
        """Why no backup was found beside the working route."""
        call, work = circuit.call, circuit.work
        backup = least_backup(self.plan, call.source, call.target, work)
        if backup is not None:
            why = f"beside its working route {_via(work)} there is a backup {_via(backup)}"
            return [f"{why}: its first node didn't know the links yet; protect {call.name} asks again"]
        shared = shared_by_all(self.plan, call.source, call.target, work)
        if shared:
            return [self._shared(call, it) for it in shared]
        pair = other_pair(self.plan, call.source, call.target, work)
        alone = f"beside its working route {_via(work)} there is no way without its links, SRLGs and inner nodes"
        return [alone] if pair is None else [alone, f"the way {_via(pair[0])} has a backup {_via(pair[1])}"]

    def _shared(self, call: Call, it: Shared) -> str:
        way = f"each way from {call.source} to {call.target}"
        if it.node:
            return f"{way} goes through {it.node}, and a backup shares no inner node with its working route"
        if it.group and it.group.kind == "srlg":
            return f"{way} has a link of SRLG {it.group.number}, and a backup shares no risk with its working route"
        link = next(link for link in self.plan.links if it.group and link.id == it.group.number)
        return f"{way} goes over {joins(link)}, and a backup shares no link with its working route"

    def _refused_backup(self, circuit: Circuit, setup: Setup | None) -> list[str]:
        """Where the backup that was found or given was refused."""
        call = circuit.call
        given = setup.backup if setup else None
        route = given or least_backup(self.plan, call.source, call.target, circuit.work)
        if route is None:
            return self._without_backup(circuit)
        room, ways = Room(self.plan, self.used, circuit.work), ways_beside(self.plan, call.source, circuit.work)
        return [*self._met(room, call, route, ways), f"protect {call.name} asks for its backup again"]

    def _cut(self, circuit: Circuit) -> list[str]:
        """What of a call that stands is cut, and what keeps its backup from carrying it."""
        call = circuit.call
        found = [f"its working route: {self._down(circuit.work)}"] if self._down(circuit.work) else []
        if call.backup is None:
            return [*found, "it has no backup"]
        if self._down(circuit.backup):
            return [*found, f"its backup: {self._down(circuit.backup)}"]
        if call.state != "stuck":
            return [*found, "its backup wasn't connected from end to end yet when the table was made"]
        busy = self._busy(circuit)
        if busy:
            return found + busy
        return [*found, f"its backup {_via(circuit.backup)} is free now: retry {call.name} turns it"]

    def _down(self, route: Route) -> str:
        links = {link.id: link for link in self.plan.links}
        down = [joins(links[link]) for link in route if link in self.failed]
        return f"{' and '.join(down)} {'is' if len(down) == 1 else 'are'} down" if down else ""

    def _busy(self, circuit: Circuit) -> list[str]:
        """The first label of the backup on which another call is connected, and what is free on that fibre."""
        call = circuit.call
        shared = [
            (fibre, label, other)
            for fibre, held in self.used.holders.items()
            for label, holders in held.items()
            for other in holders
            if other.is_connected and other.lsp != call.backup and any(it.lsp == call.backup for it in holders)
        ]
        if not shared:
            return []
        (number, sender), label, other = shared[0]
        link = next(it for it in self.plan.links if it.id == number)
        name = other.circuit.call.name if other.circuit else other.lsp.text()
        free = sorted(self.room.usable[number, sender])
        labels = f"label {_listed(list(map(str, free)))}" if free else "no label"
        return [
            f"at {link.other(sender)}: the fibre of link {number} from {sender}, label {label}, is in use by {name}",
            f"free on that fibre: {labels}; the backup keeps the label that it shares",
            f"once {name} has gone back, retry {call.name} turns it",
        ]


def _via(route: Route) -> str:
    return "via " + ",".join(map(str, route))


def _listed(names: list[str]) -> str:
    """The names as a sentence has them."""
    if len(names) > MOST_NAMES:
        return f"{', '.join(names[:MOST_NAMES])} and {len(names) - MOST_NAMES} more"
    return " and ".join(filter(None, [", ".join(names[:-1]), *names[-1:]]))
