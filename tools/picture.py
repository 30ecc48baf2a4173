"""The picture of a network as SVG: a link is as wide as it can carry, and filled as far as it is
used; the darker the filling, the fuller the link. page.css has the looks of each class.
"""
import math
from collections import defaultdict

import places

WIDTH, MOST_HEIGHT, MARGIN = 1000, 620, 60
ONE_PLACE = 4  # nodes that are nearer stand at one place
APART = 64  # between two nodes of one place; half of it is more than 10 pixels on a telephone
EDGE = 6
GAP = 22  # between two links that join the same nodes, where these are not nearer than 3 of it
NAMED = 80  # nodes, of which no more are named at once; page_view.js has the same
SHARED = 60  # links, of which no more have their use beside them
DIRECTIONS = ("e", "ne", "n", "nw", "w", "sw", "s", "se")


class Picture:
    """Where a picture of a topology has its nodes and links, in the units of its SVG."""

    def __init__(self, topology):
        self.topology = topology
        self.number = {name: place for place, name in enumerate(topology.nodes)}
        nodes, self.height = fitted(places.places_of(topology))
        self.nodes = parted(nodes, self.height)
        self.bends = bends(topology.links)

    def ends(self, link):
        return self.nodes[self.number[link.a]], self.nodes[self.number[link.b]]

    def middle(self, link):
        """The point of a link's curve that is half way between its nodes."""
        (ax, ay), (bx, by) = self.ends(link)
        across = math.dist((ax, ay), (bx, by)) or 1
        bend = self.bends[link.number] * min(GAP, across / 3) / across
        bend = bend if link.a < link.b else -bend
        return (ax + bx) / 2 - bend * (by - ay), (ay + by) / 2 + bend * (bx - ax)

    def path(self, link):
        (ax, ay), (bx, by) = self.ends(link)
        if self.bends[link.number] == 0:
            return f"M{ax:.1f} {ay:.1f}L{bx:.1f} {by:.1f}"
        x, y = self.middle(link)
        cx, cy = 2 * x - (ax + bx) / 2, 2 * y - (ay + by) / 2
        return f"M{ax:.1f} {ay:.1f}Q{cx:.1f} {cy:.1f} {bx:.1f} {by:.1f}"


def fitted(at):
    """Places as those of a picture, whose y grows downward, and its height."""
    left, low = (min(values) for values in zip(*at))
    width, height = (max(values) - least for values, least in zip(zip(*at), (left, low)))
    inner, tallest = WIDTH - 2 * MARGIN, MOST_HEIGHT - 2 * MARGIN
    scale = min(inner / (width or 1e-9), tallest / (height or 1e-9))
    scale = 0 if width == height == 0 else scale
    indent = (WIDTH - width * scale) / 2
    return ([(indent + (x - left) * scale, MARGIN + (low + height - y) * scale) for x, y in at],
            height * scale + 2 * MARGIN)


def parted(nodes, height):
    """The nodes, those at one place on a circle round it, so that a link between them is seen and
    can be pointed at. The circle lies within the picture."""
    together = []
    for number, at in enumerate(nodes):
        near = (group for group in together if math.dist(nodes[group[0]], at) < ONE_PLACE)
        group = next(near, None)
        if group:
            group.append(number)
        else:
            together.append([number])
    found = list(nodes)
    for group in (group for group in together if len(group) > 1):
        radius = min(APART / 2 / math.sin(math.pi / len(group)), height / 2 - EDGE)
        x, y = (min(max(value, radius + EDGE), most - radius - EDGE)
                for value, most in zip(nodes[group[0]], (WIDTH, height)))
        for place, number in enumerate(group):
            angle = 2 * math.pi * place / len(group) + math.pi
            found[number] = (x + radius * math.cos(angle), y + radius * math.sin(angle))
    return found


def bends(links):
    """How many gaps each link keeps from the line between its nodes, where others join the two."""
    beside = defaultdict(list)
    for link in links:
        beside[frozenset((link.a, link.b))].append(link.number)
    return {number: place - (len(numbers) - 1) / 2
            for numbers in beside.values() for place, number in enumerate(numbers)}


def svg(picture, loads, out):
    """The picture's elements; `loads` has each link's load, or is None without an audit."""
    topology = picture.topology
    widest = 14 if len(topology.links) <= SHARED else 8 if len(topology.links) <= 400 else 5
    most = max((link.capacity for link in topology.links), default=1)
    yield (f'<svg viewBox="0 0 {WIDTH} {picture.height:.0f}" role="img" aria-label="The network" '
           f'class="{"small" if len(topology.nodes) <= NAMED else "large"}">')
    yield "<g>"
    for link in busiest_last(topology.links, loads):
        width = max(2.5, widest * math.sqrt(link.capacity / most))
        yield drawn_link(picture, link, width, loads and loads[link.number], link.number in out)
    yield "</g>"
    for x, y in picture.nodes:
        yield f'<circle class="node" cx="{x:.1f}" cy="{y:.1f}" r="4"/>'
    yield from names(picture)
    if loads and len(topology.links) <= SHARED:
        yield from shares(picture, loads)
    yield '<g id="over"></g></svg>'


def busiest_last(links, loads):
    """The links, so that the busiest are drawn over the others."""
    return sorted(links, key=lambda link: loads[link.number] / link.capacity) if loads else links


def drawn_link(picture, link, width, load, out):
    path = picture.path(link)
    core = ""
    if load:
        filled = max(1.2, width * load / link.capacity)
        core = f'<path class="core {degree(load, link.capacity)}" d="{path}" ' \
               f'style="--width:{filled:.1f}"/>'
    return (f'<g class="link{" out" if out else ""}" data-link="{link.number}">'
            f'<path class="case" d="{path}" style="--width:{width:.1f}"/>{core}</g>')


def degree(load, capacity):
    """The class of a link's use: a quarter each, and what is full."""
    return "full" if load >= capacity else f"used{4 * load // capacity + 1}"


def names(picture):
    """Each node's name, on the side on which its links leave the most room."""
    angles = defaultdict(list)
    for link in picture.topology.links:
        (ax, ay), (bx, by) = picture.ends(link)
        angles[link.a].append(math.atan2(ay - by, bx - ax))
        angles[link.b].append(math.atan2(by - ay, ax - bx))
    for name, (x, y) in zip(picture.topology.nodes, picture.nodes):
        yield (f'<text class="name" data-side="{freest(angles[name])}" '
               f'x="{x:.1f}" y="{y:.1f}">{name}</text>')


def freest(angles):
    """The direction that is farthest from all angles, and north where there is none."""
    def room(place):
        apart = (abs(place * math.pi / 4 - angle) % (2 * math.pi) for angle in angles)
        return min(min(turn, 2 * math.pi - turn) for turn in apart)

    if not angles:
        return "n"
    return DIRECTIONS[max(range(8), key=lambda place: round(room(place), 6))]


def shares(picture, loads):
    for link in picture.topology.links:
        x, y = picture.middle(link)
        yield f'<text class="share" x="{x:.1f}" y="{y:.1f}">' \
              f'{percent(loads[link.number], link.capacity)}</text>'


def percent(load, capacity):
    """A link's use in whole percent: 0 and 100 are told of what is empty and what is full alone."""
    whole = 100 * load // capacity
    return f"{max(1, whole) if load else 0} %"
