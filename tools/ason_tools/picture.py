"""The picture of a network and its circuits, as SVG: of one moment, or of several side by side."""

from . import grid, legend, network_map
from .layout import layout
from .network_map import MARGIN, Arranged
from .scene import DARK, INK, Scene
from .svg import Drawing

HEADING = 34.0
"""The room of a moment's heading."""

BELOW = 24.0
"""The room between two parts that stand below each other."""

GROWTHS = (1.0, 1.2, 1.45, 1.75)
"""By how much the map grows until no name and no badge has to cover anything."""

CROWDED = 24
"""Where so many have to cover something, no growth helps."""


def draw(scene: Scene, with_labels: bool) -> str:
    """The SVG document of one moment: the map, the legend beside or below it, and where it is asked for the grid."""
    (made,), (wide, high) = arranged([scene], 0.0)
    room, tall = wide + 2 * MARGIN, high + 2 * MARGIN
    beside = legend.one_column(scene)
    key = legend.key_height([scene])
    is_beside = bool(scene.circuits) and beside.height + key + 2 * MARGIN <= tall
    told = beside if is_beside else legend.columns(scene, room - MARGIN)
    width = room + (max(told.width, legend.key_width([scene]) + MARGIN / 2) if is_beside else 0)
    width = max(width, MARGIN / 2 + told.width * told.count, MARGIN / 2 + legend.key_width([scene]))
    list_at = (room, MARGIN) if is_beside else (MARGIN / 2, tall)
    rows = max(told.height, legend.ROW if scene.nothing else 0)
    key_at = (list_at[0], list_at[1] + rows + (legend.ROW if rows else 0))
    height = tall if is_beside else key_at[1] + key + BELOW
    below = grid.size(scene, width - MARGIN) if with_labels else (0.0, 0.0)
    drawing = Drawing(max(width, below[0] + MARGIN), height + below[1], scene.title, DARK)
    network_map.draw(drawing, made)
    legend.draw_list(drawing, scene, list_at, told, with_labels or not scene.shows_load)
    legend.draw_key(drawing, *key_at, [scene])
    if with_labels:
        grid.draw(drawing, scene, (MARGIN / 2, height), width - MARGIN)
    return drawing.document()


def draw_strip(scenes: list[Scene], with_labels: bool, title: str) -> str:
    """The SVG document of several moments of one network, side by side, each under its title."""
    found, (wide, high) = arranged(scenes, HEADING)
    room = max(wide + MARGIN, *(legend.one_column(scene).width for scene in scenes))
    grids = [grid.size(scene, room) if with_labels else (0.0, 0.0) for scene in scenes]
    width = MARGIN + max(room, *(it[0] for it in grids))
    lists = HEADING + high + 2 * MARGIN
    told = [legend.columns(scene, room) for scene in scenes]
    below = lists + max(it.height for it in told) + legend.ROW
    bottom = below + max(it[1] for it in grids)
    drawing = Drawing(width * len(scenes), bottom + legend.key_height(scenes) + 2 * BELOW, title, DARK)
    for place, (scene, made) in enumerate(zip(scenes, found)):
        left = width * place
        drawing.text(left + MARGIN / 2, HEADING, scene.title, 18, fill=INK, font_weight="bold")
        with drawing.moved(left + (width - wide) / 2 - MARGIN):
            network_map.draw(drawing, made)
        legend.draw_list(drawing, scene, (left + MARGIN / 2, lists), told[place], with_labels or not scene.shows_load)
        if with_labels:
            grid.draw(drawing, scene, (left + MARGIN / 2, below), room)
    legend.draw_key(drawing, MARGIN / 2, bottom + legend.ROW, scenes)
    return drawing.document()


def arranged(scenes: list[Scene], top: float) -> tuple[list[Arranged], tuple[float, float]]:
    """The maps of these moments, with the nodes of all at the same points, and the size of the room for these."""
    wide, high = (max(sizes) for sizes in zip(*map(network_map.size, scenes)))
    best: tuple[int, list[Arranged], tuple[float, float]] | None = None
    for growth in GROWTHS:
        room = (wide * growth, high * growth)
        points = {
            name: (MARGIN + x, top + MARGIN + y) for name, (x, y) in layout(scenes[0].plan, *room).items()
        }
        edges = (2.0, top + 2, room[0] + 2 * MARGIN - 4, top + room[1] + 2 * MARGIN - 4)
        found = [network_map.arrange(scene, points, edges) for scene in scenes]
        covered = sum(made.covered for made in found)
        if best is None or covered < best[0]:
            best = (covered, found, room)
        if covered == 0 or covered > CROWDED:
            break
    return best[1], best[2]

