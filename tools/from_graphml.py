#!/usr/bin/env python3
"""Writes the topology of a network in GraphML, as those of the Internet Topology Zoo are and as
networkx writes them, on standard output; what was changed is told on standard error.

A node's name is made of its `label`, or of its id: in lower case and without marks, with one `-`
for what a name may not have, 16 bytes at most, and a number where two would be one. A link's length
is the great circle between its nodes in whole km, at least 1, by their `Longitude` and `Latitude`;
where one of them has none, it is that of --length. Its capacity is its `LinkSpeedRaw`, in bits a
second, in whole Mbit/s rounded down, at least 1; else that of --capacity. Loops, and edges to nodes
that are not there, are dropped. The places of nodes stand in comment lines
`# at NAME LONGITUDE LATITUDE`, with --json in a member `places`; the server passes both over.

example:
  python3 tools/from_graphml.py demo/alps.graphml > alps.txt

status:
  0 the topology was written; 2 these words are not allowed, or FILE is no network in GraphML, has
  more than 512 nodes or 2,048 links, or tells no capacity or place where none is given
"""
import sys
from typing import Dict, NamedTuple
from xml.etree import ElementTree

import networks
import topologies

MEGA = 1_000_000


class Keys(NamedTuple):
    """What the data of nodes or edges are called, and what holds where they have none."""

    names: Dict[str, str]
    defaults: Dict[str, str]


def local(element) -> str:
    """The name of an element without its namespace."""
    return element.tag.rpartition("}")[2] if isinstance(element.tag, str) else ""


def children(element, name: str):
    return [child for child in element if local(child) == name]


def text_of(element) -> str:
    return " ".join("".join(element.itertext()).split())


def keys_of(root, kind: str) -> Keys:
    found = Keys({}, {})
    for key in children(root, "key"):
        if key.get("for", "all") in (kind, "all"):
            name = key.get("attr.name", key.get("id", "")).lower()
            found.names[key.get("id", "")] = name
            for default in children(key, "default"):
                found.defaults[name] = text_of(default)
    return found


def data_of(element, keys: Keys) -> Dict[str, str]:
    """What the data of a node or an edge are, by their names in lower case."""
    found = dict(keys.defaults)
    for data in children(element, "data"):
        found[keys.names.get(data.get("key", ""), "")] = text_of(data)
    return found


def root_of(content: bytes, name: str, what: str):
    """The root of a document, which has to have this name."""
    try:
        root = ElementTree.fromstring(content)
    except (ElementTree.ParseError, ValueError, LookupError) as fault:
        raise networks.WrongInput(f"it is not {what}, nor any other XML: {fault}") from None
    if local(root) != name:
        raise networks.WrongInput(f"it is XML, but its root is {ascii(local(root))}, not '{name}'")
    return root


def graph_of(content: bytes, draft: topologies.Draft):
    """The root of the document, and its first graph."""
    root = root_of(content, "graphml", "GraphML")
    graphs = children(root, "graph")
    if not graphs:
        raise networks.WrongInput("there is no graph in it")
    if len(graphs) > 1:
        draft.note(f"the first of {len(graphs)} graphs is taken")
    if graphs[0].get("edgedefault") == "directed":
        draft.note("the graph is directed, and each edge becomes a link for both directions")
    return root, graphs[0]


def add_node(node, keys: Keys, draft: topologies.Draft) -> None:
    key, data = node.get("id", ""), data_of(node, keys)
    east, north = data.get("longitude"), data.get("latitude")
    at = topologies.place(east, north)
    if not draft.add_node(key, data.get("label") or key, at):
        return
    if at is None and (east, north) != (None, None):
        draft.note(f"node {key!r} has no place: {east!r}, {north!r} are no longitude and latitude")
    if children(node, "graph"):
        draft.note(f"the graph within node {key!r} is dropped")


def add_edge(edge, keys: Keys, draft: topologies.Draft) -> None:
    speed = data_of(edge, keys).get("linkspeedraw")
    bits = topologies.number(speed)
    if speed is not None and (bits is None or bits <= 0):
        draft.note(f"a LinkSpeedRaw of {speed!r} is none")
    ends = edge.get("source", ""), edge.get("target", "")
    draft.add_link(*ends, bits / MEGA if bits is not None else None)


def read(content: bytes, draft: topologies.Draft) -> None:
    """Adds the nodes and the edges of a graph to a draft."""
    root, graph = graph_of(content, draft)
    nodes, edges = keys_of(root, "node"), keys_of(root, "edge")
    for node in children(graph, "node"):
        add_node(node, nodes, draft)
    for edge in children(graph, "edge"):
        add_edge(edge, edges, draft)
    dropped = len(children(graph, "hyperedge"))
    if dropped:
        draft.note(f"edges of more than two nodes are dropped: {dropped}")


if __name__ == "__main__":
    sys.exit(networks.status_of(lambda: topologies.main(__doc__, read)))
