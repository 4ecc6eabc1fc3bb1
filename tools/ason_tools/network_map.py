"""The map of a picture: the nodes, the links, and the circuits side by side on them, or the links' loads."""

import math
from dataclasses import dataclass, field

from .circuits import Span
from .geometry import Box, Point, box_around, distance, nearest, text_width
from .fibre_loads import Load, loads
from .placing import NODE_RADIUS, Ground
from .scene import DASHES, FAINT, FAULT, INK, PAPER, SOFT, Scene, colour, load_colour
from .svg import Drawing
from .tracks import Track, asides, bed, lane, tracks_of

MARGIN = 70.0
"""The room around the nodes, for their names."""

USUAL = (880.0, 560.0)
"""The size of a map of 14 nodes and 21 links, of which none has more than a few circuits."""

USUAL_COUNT = 35
LEAST_SCALE, MOST_SCALE = 0.6, 3.0

NAME_SIZE, NAME_HIGH = 14.0, 15.0
TAG_RADIUS = 7.0
NUMBER_HIGH = 16.0
CROSS = 12.0

FIBRE = 8.0
"""How wide a fibre is drawn that shows its load."""

LEADER = 9.0
"""A name that is farther from its node gets a line to it."""

ARROW_GAP, ARROW_LONG = NODE_RADIUS + 6.0, 9.0

SHARES = tuple(0.5 + way * step / 40 for step in range(17) for way in ((1, -1) if step else (1,)))
"""The shares of a link's way at which a badge may stand: from the middle outwards."""

LEAST_BAND = 1.2
"""How wide the least load is drawn."""

PALE = 0.45
"""The opacity of what is reserved, in the colour of the load."""


@dataclass(frozen=True)
class _Tag:
    """A circuit's number on a lane of a link."""

    span: Span
    at: Point


@dataclass
class Arranged:
    """A map as it is to be drawn: its ways, what stands where, and how often something had to be covered."""

    scene: Scene
    points: dict[str, Point]
    tracks: list[Track]
    numbers: dict[int, Box] = field(default_factory=dict)
    names: dict[str, Box] = field(default_factory=dict)
    tags: list[_Tag] = field(default_factory=list)
    covered: int = 0


def size(scene: Scene) -> tuple[float, float]:
    """The size of the room for the nodes: the greater, the more they, the links and a link's circuits are."""
    count = len(scene.plan.nodes) + len(scene.plan.links)
    spans = {} if scene.shows_load else scene.spans_by_link()
    busiest = max(map(len, spans.values()), default=0)
    scale = max(LEAST_SCALE, math.sqrt(count / USUAL_COUNT)) * min(1.8, 1 + 0.1 * max(0, busiest - 4))
    scale = min(MOST_SCALE, scale)
    return USUAL[0] * scale, USUAL[1] * scale


def arrange(scene: Scene, points: dict[str, Point], edges: Box) -> Arranged:
    """Finds a place for each name and each badge of a map with the nodes at these points, within these edges."""
    tracks = tracks_of(scene.plan, points)
    spans = {} if scene.shows_load else scene.spans_by_link()
    half = {track.link.id: _bed(scene, spans.get(track.link.id, [])) / 2 for track in tracks}
    lines = [line for track in tracks for line in track.lines(half[track.link.id])]
    ground = Ground(points, lines, edges)
    made = Arranged(scene, points, tracks)
    # The shortest links have the fewest places for their numbers.
    for track in sorted(tracks, key=lambda track: track.length):
        made.numbers[track.link.id] = _place_number(ground, scene, track)
    first = _foremost(tracks, spans)
    _place_tags(ground, made, spans, first, True)
    crowded = {name: sum(name in track.link.ends for track in tracks) for name in points}
    for name in sorted(points, key=lambda name: -crowded[name]):
        made.names[name] = ground.place_name(name, text_width(name, NAME_SIZE), NAME_HIGH)
    _place_tags(ground, made, spans, first, False)
    made.covered = ground.covered
    return made


def draw(drawing: Drawing, made: Arranged) -> None:
    """Draws the map."""
    scene = made.scene
    spans = {} if scene.shows_load else scene.spans_by_link()
    load = loads(scene) if scene.shows_load else {}
    full = scene.full_links()
    for track in made.tracks:
        if load:
            _draw_load(drawing, track, load, track.link.id in scene.failed)
        else:
            _draw_lanes(drawing, track, spans.get(track.link.id, []), track.link.id in scene.failed)
    for tag in made.tags:
        _draw_tag(drawing, tag)
    for track in made.tracks:
        number = track.link.id
        is_used = number in spans or any(load[number, end].taken for end in track.link.ends if load)
        marks = _Marks(is_used, number in full, number in scene.failed)
        _draw_number(drawing, number, made.numbers[number], marks)
    _draw_nodes(drawing, made)


def _bed(scene: Scene, spans: list[Span]) -> float:
    """How wide a link is drawn."""
    return 2 * FIBRE + 3 if scene.shows_load else bed(len(spans))


def _place_number(ground: Ground, scene: Scene, track: Track) -> Box:
    """The place of the link's number: on the link, near its middle."""
    wide = _number_wide(track.link.id)
    high = NUMBER_HIGH
    if track.link.id in scene.failed:
        wide, high = max(wide, 2 * CROSS), 2 * CROSS
    boxes = [box_around(track.at(share, 0), wide, high) for share in SHARES]
    place = ground.place_badge(boxes, track.link.id, True)
    return boxes[place or 0]


def _number_wide(number: int) -> float:
    return 10 + 6.4 * len(str(number))


def _foremost(tracks: list[Track], spans: dict[int, list[Span]]) -> set[tuple[int, int, bool]]:
    """Of each circuit, and of what carries it and what doesn't, the longest link: there its number has to stand."""
    longest: dict[tuple[int, bool], Track] = {}
    for track in tracks:
        for span in spans.get(track.link.id, []):
            key = (span.circuit.number, span.carries)
            if key not in longest or longest[key].length < track.length:
                longest[key] = track
    return {(track.link.id, *key) for key, track in longest.items()}


def _place_tags(
    ground: Ground, made: Arranged, spans: dict[int, list[Span]], first: set[tuple[int, int, bool]], are_first: bool
) -> None:
    """Places for the circuits' numbers on their lanes: those that have to stand, or those that may where there is room."""
    rows = [
        (track, span, aside)
        for track in made.tracks
        for span, aside in zip(spans.get(track.link.id, []), asides(len(spans.get(track.link.id, []))))
    ]
    for track, span, aside in rows:
        if ((track.link.id, span.circuit.number, span.carries) in first) != are_first:
            continue
        points = [track.at(share, aside) for share in _tag_shares(track)]
        wide = 2 * (TAG_RADIUS + 1)
        place = ground.place_badge([box_around(at, wide, wide) for at in points], track.link.id, are_first)
        if place is not None:
            made.tags.append(_Tag(span, points[place]))


def _tag_shares(track: Track) -> list[float]:
    """The shares of the way where a circuit's number may stand: not upon an arrowhead."""
    room = (ARROW_GAP + ARROW_LONG + TAG_RADIUS + 2) / track.length
    return [share for share in SHARES if room <= share <= 1 - room] or [0.5]


def _draw_lanes(drawing: Drawing, track: Track, spans: list[Span], is_failed: bool) -> None:
    """A lane for each circuit: solid where it carries its call there, else dashed; and its direction."""
    look = {"stroke_width": bed(len(spans)), "stroke_opacity": 0.35 if spans else 1}
    drawing.polyline(track.points(0), stroke=FAULT if is_failed else FAINT, **look, class_="link", data_link=track.link.id)
    half = min(4.5, lane(len(spans)) * 0.75)
    for span, aside in zip(spans, asides(len(spans))):
        style = {} if span.carries else {"stroke_dasharray": DASHES}
        width, paint = min(3.6, lane(len(spans)) * 0.7), colour(span.circuit)
        drawing.polyline(track.points(aside), stroke=paint, stroke_width=width, **style)
        for is_forward in (True, False):
            if span.is_two_way or is_forward == (span.sender == track.first):
                drawing.polygon(track.arrow(aside, is_forward, ARROW_GAP, ARROW_LONG, half), fill=paint)


def _draw_load(drawing: Drawing, track: Track, load: dict[tuple[int, str], Load], is_failed: bool) -> None:
    """A band for each fibre, which runs on the right: in colour what is used, pale what is reserved, grey what others hold."""
    bed_paint = FAULT if is_failed else PAPER
    look = {"stroke_opacity": 0.5 if is_failed else 1, "class_": "link", "data_link": track.link.id}
    drawing.polyline(track.points(0), stroke=bed_paint, stroke_width=2 * FIBRE + 3, **look)
    for sender, side in ((track.first, 1), (track.last, -1)):
        fibre = load[track.link.id, sender]
        drawing.polyline(track.points(side * (FIBRE / 2 + 0.5)), stroke=FAINT, stroke_width=FIBRE, stroke_opacity=0.6)
        paint, from_middle = load_colour(fibre.share), 0.5
        for count, tone, opacity in ((fibre.used, paint, 1), (fibre.reserved, paint, PALE), (fibre.others, SOFT, 1)):
            width = max(LEAST_BAND, FIBRE * count / fibre.labels) if count else 0.0
            if count:
                aside = side * (from_middle + width / 2)
                drawing.polyline(track.points(aside), stroke=tone, stroke_width=width, stroke_opacity=opacity)
            from_middle += width


def _draw_tag(drawing: Drawing, tag: _Tag) -> None:
    """A circuit's number on its lane: filled where the circuit carries its call."""
    (x, y), span = tag.at, tag.span
    paint = colour(span.circuit)
    fill = paint if span.carries else PAPER
    drawing.circle(x, y, TAG_RADIUS, fill=fill, stroke=paint, stroke_width=1.6, class_="tag", data_link=span.link)
    text = {"text_anchor": "middle", "font_weight": "bold", "fill": PAPER if span.carries else paint}
    drawing.text(x, y + 3, str(span.circuit.number), 8.5, **text)


@dataclass(frozen=True)
class _Marks:
    """What a link's number shows: whether a label is held, a fibre of it has no free label, and it is down."""

    is_used: bool
    is_full: bool
    is_failed: bool

    @property
    def is_plain(self) -> bool:
        """Whether the number is of a link of which there is nothing to tell."""
        return not (self.is_used or self.is_full or self.is_failed)


def _draw_number(drawing: Drawing, number: int, box: Box, marks: _Marks) -> None:
    """The link's number: on red where a fibre has no free label, with a cross where it is down."""
    x, y = (box[0] + box[2]) / 2, (box[1] + box[3]) / 2
    text, wide = str(number), _number_wide(number)
    if marks.is_failed:
        cross(drawing, x, y, CROSS)
    own = {"class_": "number", "data_link": number}
    edge = FAULT if marks.is_full or marks.is_failed else SOFT
    if marks.is_plain:
        drawing.rect(x - wide / 2, y - 6, wide, 12, rx=3, fill=PAPER, **own)
        drawing.text(x, y + 3, text, 9, fill=SOFT, text_anchor="middle")
        return
    fill = FAULT if marks.is_full else PAPER
    drawing.rect(x - wide / 2, y - 8, wide, NUMBER_HIGH, rx=3, fill=fill, stroke=edge, stroke_width=1, **own)
    drawing.text(x, y + 4, text, 11, text_anchor="middle", fill=PAPER if marks.is_full else INK)


def cross(drawing: Drawing, x: float, y: float, half: float) -> None:
    """The mark of what is down."""
    for way in (1, -1):
        ends = (x - half, y - way * half, x + half, y + way * half)
        drawing.line(*ends, stroke=FAULT, stroke_width=4, stroke_linecap="round")


def _draw_nodes(drawing: Drawing, made: Arranged) -> None:
    """The nodes with their names, and a line between the two where they are apart."""
    for name, box in made.names.items():
        own = made.points[name]
        if distance(box, own) > NODE_RADIUS + LEADER:
            drawing.line(*own, *nearest(box, own), stroke=SOFT, stroke_width=1, stroke_dasharray="2 2")
    for name, (x, y) in made.points.items():
        drawing.circle(x, y, NODE_RADIUS, fill=INK, stroke=PAPER, stroke_width=2, class_="node", data_node=name)
    for name, box in made.names.items():
        place = {"class_": "name", "data_node": name, "textLength": box[2] - box[0], "lengthAdjust": "spacingAndGlyphs"}
        drawing.text(box[0], box[3] - 4, name, NAME_SIZE, fill=INK, font_weight="bold", **place)
