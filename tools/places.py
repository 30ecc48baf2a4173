"""Where a picture of a network has its nodes: at the places that its topology gives, and elsewhere
by springs.

A network of many nodes, of which none has a place, is laid out by Graphviz's `sfdp` where that is
there. All others have springs between all pairs of nodes, each as long as the least number of links
between the two, which are relaxed pair by pair in an order at random. Both begin with a seed that
is fixed, so that the same network has the same picture.
"""
import math
import random
import subprocess
from collections import deque

SEED = 1
MANY = 80  # nodes, above which `sfdp` is asked
SFDP = ("sfdp", f"-Gstart={SEED}", "-Goverlap=prism", "-Nshape=point", "-Tplain")
SFDP_SECONDS = 60
BROAD = 1.75  # how many times as broad as high its pictures are made, as a screen is
MOST_STRETCH = 2.0
ROUNDS = 15  # for a network of many nodes; for few there are more, which take no time
MOST_ROUNDS = 150
MOVES = 200000
LAST_STEP = 0.1


def places_of(topology):
    """Each node's x and y, by its number."""
    number = {name: place for place, name in enumerate(topology.nodes)}
    pairs = [(number[link.a], number[link.b]) for link in topology.links]
    fixed = {number[name]: place for name, place in topology.places.items()}
    if len(fixed) == len(number):
        return [fixed[node] for node in range(len(number))]
    by_sfdp = None if fixed or len(number) <= MANY else laid_out(len(number), pairs)
    return by_sfdp or relaxed(len(number), pairs, fixed)


def laid_out(count, pairs, words=SFDP):
    """Places of nodes by `sfdp`; none where it is not there, or fails."""
    text = "\n".join(["graph {", *map(str, range(count)), *(f"{a}--{b}" for a, b in pairs), "}\n"])
    try:
        done = subprocess.run(words, input=text, stdout=subprocess.PIPE, stderr=subprocess.DEVNULL,
                              universal_newlines=True, timeout=SFDP_SECONDS)
        lines = [line.split() for line in done.stdout.splitlines()]
        found = {int(line[1]): (float(line[2]), float(line[3])) for line in lines
                 if line[0] == "node"}
    except (OSError, subprocess.TimeoutExpired, ValueError, IndexError):
        return None
    return broad(level([found[node] for node in range(count)])) if len(found) == count else None


def broad(places):
    """The places, stretched to the form of a picture; they mean no distances."""
    width, height = (max(values) - min(values) or 1e-9 for values in zip(*places))
    stretch = min(MOST_STRETCH, max(1.0, BROAD * height / width))
    return [(x * stretch, y) for x, y in places]


def relaxed(count, pairs, fixed):
    """Places of nodes by springs; those that are fixed stay where they are."""
    unit = unit_of(pairs, fixed)
    chance = random.Random(SEED)
    middle = mean(list(fixed.values()) or [(0.0, 0.0)])
    spread = unit * math.sqrt(count)
    at = [fixed.get(node) or tuple(value + spread * (chance.random() - 0.5) for value in middle)
          for node in range(count)]
    lengths = spring_lengths(count, pairs)
    springs = [(a, b, lengths[a][b] * unit) for a in range(count) for b in range(a)]
    chance.shuffle(springs)
    longest = max((length for _, _, length in springs), default=unit)
    x, y = [list(values) for values in zip(*at)]
    moves = [0 if node in fixed else 1 for node in range(count)]
    rounds = max(ROUNDS, min(MOST_ROUNDS, MOVES // (len(springs) or 1)))
    for turn in range(rounds):
        # The step goes from the square of the longest spring down to a part of the shortest's.
        share = turn / (rounds - 1)
        step = longest ** (2 * (1 - share)) * (LAST_STEP * unit * unit) ** share
        relax(x, y, springs, step, moves)
    places = list(zip(x, y))
    return places if fixed else level(places)


def relax(x, y, springs, step, moves):
    """Moves the nodes of each spring towards its length, the more the shorter this is."""
    for a, b, length in springs:
        dx, dy = x[a] - x[b], y[a] - y[b]
        distance = math.sqrt(dx * dx + dy * dy) or 1e-9
        pull = min(1, step / (length * length)) * (length - distance) / 2 / distance
        x[a] += pull * dx * moves[a]
        y[a] += pull * dy * moves[a]
        x[b] -= pull * dx * moves[b]
        y[b] -= pull * dy * moves[b]


def spring_lengths(count, pairs):
    """From each node to each, the least number of links; one more than the most where none join."""
    beside = [set() for _ in range(count)]
    for a, b in pairs:
        beside[a].add(b)
        beside[b].add(a)
    rows = [steps_from(node, beside) for node in range(count)]
    apart = 1 + max((max(row.values()) for row in rows), default=0)
    return [[row.get(node, apart) for node in range(count)] for row in rows]


def steps_from(start, beside):
    steps = {start: 0}
    waiting = deque([start])
    while waiting:
        node = waiting.popleft()
        for other in beside[node]:
            if other not in steps:
                steps[other] = steps[node] + 1
                waiting.append(other)
    return steps


def unit_of(pairs, fixed):
    """How long a link is drawn: as the mean of those between nodes that have their places."""
    drawn = [math.dist(fixed[a], fixed[b]) for a, b in pairs if a in fixed and b in fixed]
    return sum(drawn) / len(drawn) if sum(drawn) > 0 else 1.0


def mean(places):
    return tuple(sum(values) / len(places) for values in zip(*places))


def level(places):
    """The places, turned so that they extend from left to right rather than upward."""
    middle = mean(places)
    around = [(x - middle[0], y - middle[1]) for x, y in places]
    xx, yy = sum(x * x for x, _ in around), sum(y * y for _, y in around)
    angle = math.atan2(2 * sum(x * y for x, y in around), xx - yy) / 2
    cosine, sine = math.cos(angle), math.sin(angle)
    return [(x * cosine + y * sine, y * cosine - x * sine) for x, y in around]
