#!/usr/bin/env python3
"""Turns an audit into a graph for Graphviz, on standard output: the wider a link, the more it
carries, and its colour goes from green to red as it fills up; a link that is out is dashed.

    hosed audit TOPOLOGY JOURNAL | python3 tools/graph.py > GRAPH; dot -Tsvg -o PICTURE GRAPH

A topology may stand in place of the audit, and is JSON where its name ends in `.json`; its links
carry nothing.
"""
import argparse
import sys

import networks

WIDEST = 12


def read_links(text):
    """The links of an audit, or of a topology, or those that replies to `link` tell."""
    if text.startswith("epoch "):
        return networks.read_audit(text).links
    if any(line.startswith("node ") for line in networks.lines_of(text)):
        return empty(networks.read_topology(text))
    try:
        return networks.latest(networks.read_link_replies(text))
    except networks.WrongText as wrong:
        what = f"{wrong.what}, and the text is neither an audit nor a topology"
        raise networks.WrongText(wrong.line, what) from None


def empty(topology):
    """The links of a network that carry nothing."""
    return [networks.LinkState(link.number, link.a, link.b, link.capacity, link.cost, 0)
            for link in topology.links]


def load_links(path):
    if path.endswith(".json"):
        return empty(networks.load_topology(path))
    return networks.load(read_links, path)


def drawn(link, most, out):
    """The line of the graph for a link, where this is the greatest load."""
    width = 1 + (WIDEST - 1) * link.load / most
    hue = (1 - link.load / link.capacity) / 3  # from green, a third, down to red
    look = f'label="{link.number}: {link.load}", penwidth={width:.1f}, color="{hue:.3f} 1 0.8"'
    dashes = ", style=dashed" if out else ""
    return f'  "{link.a}" -- "{link.b}" [{look}{dashes}];'


def graph(links, replies=()):
    """The lines of the graph; the replies tell which of the links are out."""
    out = {link.number for link in networks.latest([*links, *replies]) if link.out}
    most = max((link.load for link in links), default=0) or 1
    return ["graph {", *(drawn(link, most, link.number in out) for link in links), "}"]


def main():
    words = argparse.ArgumentParser(
        description=__doc__, formatter_class=argparse.RawDescriptionHelpFormatter)
    words.add_argument("audit", metavar="AUDIT", nargs="?", default="-",
                       help="an audit, replies to `link`, or a topology; else it is read from "
                            "standard input")
    words.add_argument("replies", metavar="REPLIES", nargs="?",
                       help="replies to `link`, which tell what is out")
    given = words.parse_args()
    links = load_links(given.audit)
    replies = networks.load(networks.read_link_replies, given.replies) if given.replies else []
    for line in graph(links, replies):
        print(line)


if __name__ == "__main__":
    sys.exit(networks.status_of(main))
