"""The network and its circuits in DOT, for Graphviz."""

from .layout import layout
from .network_map import size
from .scene import FAINT, FAULT, Scene, colour


def draw(scene: Scene) -> str:
    """An undirected graph: the links in grey, down ones in red, and an edge for each circuit on a link.

    Each node has its place in points, from below, so that `neato -n` leaves it there.
    """
    lines = ["graph network {", "    node [shape=box, fontname=Helvetica];"]
    lines += ["    edge [fontname=Helvetica, fontsize=10];"]
    wide, high = size(scene)
    for name, (x, y) in layout(scene.plan, wide, high).items():
        lines.append(f'    "{name}" [pos="{x:.0f},{high - y:.0f}"];')
    spans = scene.spans_by_link()
    for link in scene.plan.links:
        ends = f'"{link.ends[0]}" -- "{link.ends[1]}"'
        paint = FAULT if link.id in scene.failed else FAINT
        word = f"{link.id} down" if link.id in scene.failed else str(link.id)
        lines.append(f'    {ends} [label="{word}", color="{paint}", penwidth=2];')
        for span in spans.get(link.id, []):
            style = "solid" if span.carries else "dashed"
            name = span.circuit.call.name
            way = "both" if span.is_two_way else "forward" if span.sender == link.ends[0] else "back"
            look = f'color="{colour(span.circuit)}", style={style}, penwidth=2, dir={way}'
            lines.append(f'    {ends} [label="{name}", {look}];')
    return "\n".join([*lines, "}"]) + "\n"
