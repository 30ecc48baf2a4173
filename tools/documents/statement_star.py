"""A picture of the star of the examples: its links, and what a hose reserves on them."""
import html
import os
import sys

sys.path.append(os.path.join(os.path.dirname(os.path.abspath(__file__)), ".."))
import networks

TOPOLOGY, SCRIPT = "demo/star.txt", "demo/star_script.txt"
PLACES = [(70, 40), (250, 40), (160, 196)]  # of the ends; the middle is at MIDDLE
MIDDLE = (160, 96)


def reserved(rates):
    """What a hose of these rates reserves on the links of a star, one for each of its ends."""
    return [min(rate, sum(rates) - rate) for rate in rates]


def hose_of(line):
    """The endpoints of an admission: names and rates."""
    words = line.split()[2:]
    return [(name, int(rate)) for name, rate in (word.split(":") for word in words)]


def text(x, y, words, anchor):
    return f'<text x="{x}" y="{y}" text-anchor="{anchor}">{html.escape(words)}</text>'


def node(x, y, name):
    return f'<circle cx="{x}" cy="{y}" r="15"/><g class="node">{text(x, y + 4, name, "middle")}</g>'


def figure(top):
    """The picture, with the first hose of the script; nothing where there are no such files."""
    path, script = os.path.join(top, TOPOLOGY), os.path.join(top, SCRIPT)
    if not (os.path.exists(path) and os.path.exists(script)):
        return ""
    topology = networks.load(networks.read_topology, path)
    with open(script, encoding="utf-8") as file:
        hose = hose_of(next(file))
    amounts = reserved([rate for _, rate in hose])
    cost = sum(link.cost * amount for link, amount in zip(topology.links, amounts))
    drawn = []
    for link, amount, (name, rate), (x, y) in zip(topology.links, amounts, hose, PLACES):
        side = -1 if x < MIDDLE[0] else 1
        drawn.append(f'<path d="M{x} {y}L{MIDDLE[0]} {MIDDLE[1]}"/>')
        end = "end" if side < 0 else "start"
        words = [f"link {link.number}: {amount} reserved", f"{link.cost} a unit"]
        for line, said in enumerate(words):
            drawn.append(text((x + MIDDLE[0]) / 2 + side * 14, (y + MIDDLE[1]) / 2 + 10 + 14 * line,
                              said, end))
        drawn.append(node(x, y, name))
        drawn.append(text(x + side * 22, y + 4, f"rate {rate}", end))
    drawn.append(node(*MIDDLE, topology.nodes[-1]))
    words = " ".join(f"{name}:{rate}" for name, rate in hose)
    sums = " + ".join(f"{amount}·{link.cost}" for link, amount in zip(topology.links, amounts))
    return (f'<figure><svg class="star" viewBox="-20 14 360 204" role="img" aria-label="A star of '
            f'three links">{"".join(drawn)}</svg><figcaption>The hose {words} on {TOPOLOGY}. On '
            f'each link the smaller side\'s rate sum is reserved: {sums} = {cost} is what it '
            f'costs.</figcaption></figure>')
