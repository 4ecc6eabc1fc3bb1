"""A network of 64 nodes in a ring, each joined to the next four, and calls over it."""

import plans

NODES = 64
STEPS = (1, 2, 3, 4)
LINKS = NODES * len(STEPS)

# For each node: calls to the next one, calls to the one after that, and calls without a backup in each of eight ways.
NEAR = 28
FAR = 4
BARE = 4
LINKS_PER_ROUTE = 4

# The links of each route where calls go evenly over all fibres.
LONG_ROUTE = 8


def link(node, step):
    """The link from a node to another one so many steps on around the ring."""
    return 1 + node % NODES * len(STEPS) + STEPS.index(step)


def bare_route(node, way, links=LINKS_PER_ROUTE):
    """A route of so many links of one length around the ring, forward or back, in one of eight ways, and its end."""
    step, forward = STEPS[way // 2], way % 2 == 0
    route = []
    for _ in range(links):
        after = (node + (step if forward else -step)) % NODES
        route.append(link(node if forward else after, step))
        node = after
    return route, node


def setups():
    """4,096 calls, half of them with a backup. Both kinds of backups leave a node over its third link, on labels that they share,
    and go different ways from there."""
    calls = []
    for node in range(NODES):
        near, far, turn = (node + 1) % NODES, (node + 2) % NODES, link(node, 3)
        calls += [f"n{node} n{near} via {link(node, 1)} backup {turn},{link(near, 2)}"] * NEAR
        calls += [f"n{node} n{far} via {link(node, 2)} backup {turn},{link(far, 1)}"] * FAR
    for node in range(NODES):
        for way in range(2 * len(STEPS)):
            route, end = bare_route(node, way)
            calls += [f"n{node} n{end} unprotected via {','.join(map(str, route))}"] * BARE
    return [f"setup c{number} {call}" for number, call in enumerate(calls)]


def even_setups(calls: int) -> list[str]:
    """Calls that begin at each node in turn, and go around the ring in each of the eight ways, so that all fibres have as many."""
    lines = []
    for call in range(calls):
        start, way = call % NODES, call // NODES % (2 * len(STEPS))
        route, end = bare_route(start, way, LONG_ROUTE)
        lines.append(f"setup c{call} n{start} n{end} unprotected via {','.join(map(str, route))}")
    return lines


def settled_setups(calls: int) -> list[str]:
    """Protected calls that begin at each node in turn, and end from 2 nodes further on around the ring. Each is set up before the
    next one, so that none finds the wavelength that it was offered taken meanwhile."""
    return [
        line
        for call in range(calls)
        for line in (f"setup c{call} n{call % NODES} n{(call + 2 + call // NODES) % NODES}", "settle 1000")
    ]


def plan(lines, srlgs_per_link=0, convert=True, wait=0):
    """The plan with this script, whose nodes all convert wavelengths or don't. Each link has so many risk groups of its own."""
    names = [f"n{node}" for node in range(NODES)]
    links = [(names[node], names[(node + step) % NODES]) for node in range(NODES) for step in STEPS]
    return plans.text(lines, names, links, convert, wait, srlgs_per_link)
