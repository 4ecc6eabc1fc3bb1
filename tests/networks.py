"""A network of 60 nodes that the tests of pictures and of pages share."""

import random

from ason_tools.plan import Link, Node, Plan

CITIES = """\
Aachen Augsburg Berlin Bielefeld Bochum Bonn Braunschweig Bremen Bremerhaven Chemnitz Cottbus Darmstadt Dortmund Dresden
Duesseldorf Duisburg Erfurt Essen Flensburg Frankfurt Freiburg Fulda Giessen Goettingen Halle Hamburg Hannover Heilbronn
Ingolstadt Jena Kaiserslautern Karlsruhe Kassel Kempten Kiel Koblenz Koeln Konstanz Leipzig Luebeck Magdeburg Mainz
Mannheim Muenchen Muenster Norden Nuernberg Oldenburg Osnabrueck Passau Potsdam Regensburg Rostock Saarbruecken Schwerin
Siegen Stuttgart Trier Ulm Wuerzburg""".split()


def sixty(count: int, cut: int | None = None, kind: str = "") -> Plan:
    """60 nodes at drawn places, joined where no third one lies in the circle over the two; so many calls, and a cut."""
    chance = random.Random(7)
    places: list[tuple[float, float]] = []
    while len(places) < len(CITIES):
        place = (chance.uniform(6, 15), chance.uniform(47.5, 54.8))
        if all(abs(place[0] - x) / 1.6 + abs(place[1] - y) > 0.55 for x, y in places):
            places.append(place)
    nodes = [Node(name, number, True, place) for number, (name, place) in enumerate(zip(CITIES, places), 1)]
    pairs = [(a, b) for b in range(len(places)) for a in range(b) if is_free(places, a, b)]
    links = [Link(number, (CITIES[a], CITIES[b]), 16) for number, (a, b) in enumerate(sorted(pairs), 1)]
    chance, script = random.Random(3), []
    for number in range(1, count + 1):
        source, target = chance.sample(CITIES, 2)
        script += [f"setup c{number} {source} {target}{kind}", "settle 1000"]
    return Plan(nodes, links, script + ([f"fail link {cut}", "settle 1000"] if cut else []))


def is_free(places: list[tuple[float, float]], a: int, b: int) -> bool:
    """Whether no third place lies in the circle whose diameter joins these two."""
    middle = ((places[a][0] + places[b][0]) / 2, (places[a][1] + places[b][1]) / 2)
    reach = square(places[a], places[b]) / 4
    return all(square(place, middle) >= reach for number, place in enumerate(places) if number not in (a, b))


def square(one: tuple[float, float], other: tuple[float, float]) -> float:
    """The square of the distance, with degrees to the east as long as they are there."""
    return ((one[0] - other[0]) * 0.63) ** 2 + (one[1] - other[1]) ** 2
