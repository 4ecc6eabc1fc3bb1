"""A table as the state of tunnels and LSPs in JSON of the YANG module ietf-te (draft-ietf-teas-yang-te)."""

from base64 import b64encode
from typing import Any

from .errors import ToolError
from .plan import Plan
from .tables import Call, Hold, Leg, Lsp, Table

TYPES = "ietf-te-types:"
"""The module of RFC 8776, which has the identities."""

CARRIED = ("bare", "pairing", "guarded", "turned")
"""The states in which a call has an LSP that is connected and, as far as its ingress knows, whole."""

LSP_STATES = {
    "asked": "lsp-state-setting-up",
    "held": "lsp-state-setup-ok",
    "armed": "lsp-state-setting-up",
    "live": "lsp-state-up",
    "closing": "lsp-state-tearing-down",
    "falling": "lsp-state-tearing-down",
}
"""The state of an LSP at a node, by the phase of its leg there."""


def te_state(plan: Plan, table: Table) -> dict[str, Any]:
    """The state of this table over the plan's network: a tunnel for each call, and an LSP for each leg."""
    ids = {node.name: node.id for node in plan.nodes}
    for name in {end for call in table.calls for end in (call.source, call.target)} | {leg.node for leg in table.legs}:
        if name not in ids:
            raise ToolError(f"the table names {name}, which is no node of the plan")
    nodes = {name: dotted(number) for name, number in ids.items()}
    calls = {lsp: call for call in table.calls for lsp in (call.work, call.backup) if lsp is not None}
    tunnels = [_tunnel(call, nodes) for call in table.calls]
    lsps = [_lsp(leg, calls.get(leg.lsp), nodes, table) for leg in table.legs]
    return {"ietf-te:te": {"tunnels": {"tunnel": tunnels}, "lsps": {"lsp": lsps}}}


def dotted(number: int) -> str:
    """A node's number as a te-node-id."""
    return ".".join(str(number >> shift & 255) for shift in (24, 16, 8, 0))


def _tunnel(call: Call, nodes: dict[str, str]) -> dict[str, Any]:
    tunnel: dict[str, Any] = {"name": call.name}
    if call.work is not None:
        tunnel["identifier"] = call.work.tunnel
    tunnel["description"] = call.state if call.cause is None else f"{call.state}: {call.cause}"
    tunnel["operational-state"] = TYPES + ("tunnel-state-up" if call.state in CARRIED else "tunnel-state-down")
    for word, end in (("source", call.source), ("destination", call.target)):
        tunnel[word] = {"te-node-id": nodes[end], "node-id": end}
    if call.backup is not None:
        # A backup that is reserved by signalling before any failure.
        tunnel["restoration"] = {"restoration-scheme": f"{TYPES}restoration-scheme-presignaled"}
    return tunnel


def _lsp(leg: Leg, call: Call | None, nodes: dict[str, str], table: Table) -> dict[str, Any]:
    """The LSP of this leg at its node; a torn LSP is of no call, and its tunnel has the name of ingress and number."""
    name = f"{leg.lsp.ingress}.{leg.lsp.tunnel}" if call is None else call.name
    lsp: dict[str, Any] = {"tunnel-name": name, "lsp-id": leg.lsp.number, "node": nodes[leg.node]}
    lsp["source"] = nodes[leg.lsp.ingress]
    if call is not None:
        lsp["destination"] = nodes[call.target]
    lsp["tunnel-id"] = leg.lsp.tunnel
    lsp["operational-state"] = TYPES + LSP_STATES[leg.phase]
    lsp["signaling-type"] = f"{TYPES}path-signaling-rsvpte"
    lsp["origin-type"] = "ingress" if leg.incoming is None else "egress" if leg.outgoing is None else "transit"
    lsp["lsp-resource-status"] = "secondary" if leg.phase == "held" else "primary"
    lsp["lsp-protection-role"] = "working" if leg.role == "work" else "protection"
    if leg.incoming is None:
        hops = _hops(leg.lsp, nodes, table)
        lsp["lsp-actual-route-information"] = {"lsp-actual-route-information": hops}
    return lsp


def _hops(lsp: Lsp, nodes: dict[str, str], table: Table) -> list[dict[str, Any]]:
    """The route from the ingress on: each node with the link on which the LSP leaves it, and the label there."""
    by_incoming = {leg.incoming.link if leg.incoming else None: leg for leg in table.legs_of(lsp)}
    hops: list[dict[str, Any]] = []
    leg = by_incoming.pop(None, None)
    while leg is not None and leg.outgoing is not None:
        out = leg.outgoing
        hops.append({"unnumbered-link-hop": {"link-tp-id": out.link, "node-id": nodes[leg.node]}})
        hops += [] if out.label is None else [{"label-hop": {"te-label": {"generic": _generic(out)}}}]
        leg = by_incoming.pop(out.link, None)
    return [{"index": number} | hop for number, hop in enumerate(hops, 1)]


def _generic(hold: Hold) -> str:
    """The label as a generalized label: 32 bits, in base64 (RFC 7951, section 6.6)."""
    return b64encode((hold.label or 0).to_bytes(4, "big")).decode()
