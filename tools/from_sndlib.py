#!/usr/bin/env python3
"""Writes the topology of a network of SNDlib, in its native format or in its XML, on standard
output; what was changed is told on standard error.

A node's name is made of its id: in lower case and without marks, with one `-` for what a name may
not have, 16 bytes at most, and a number where two would be one. A link's length is the great circle
between its nodes in whole km, at least 1, where the coordinates of both are longitudes and
latitudes; else that of --length. Where those of any node are none, as those of a picture, no node
has a place. A link's capacity is the one that is installed, else its greatest module, rounded down,
at least 1; else that of --capacity. Loops are dropped. The places of nodes stand in comment lines
`# at NAME LONGITUDE LATITUDE`, with --json in a member `places`. Costs, demands and paths are
passed over.

example:
  python3 tools/from_sndlib.py polska.txt > topology.txt

status:
  0 the topology was written; 2 these words are not allowed, or FILE is no network of SNDlib, has
  more than 512 nodes or 2,048 links, or tells no capacity or place where none is given
"""
import re
import sys
from typing import List, Optional, Sequence, Tuple

import networks
import topologies
from from_graphml import children, root_of, text_of

HEAD = re.compile(r"\?SNDlib native format;.*\btype: *network\b")


def nested(text: str) -> list:
    """The words of a text, and a list for each pair of parentheses."""
    top: list = []
    open_lists = [top]
    for line in text.split("\n"):
        for word in re.findall(r"[()]|[^\s()]+", line.partition("#")[0]):
            if word == "(":
                open_lists[-1].append([])
                open_lists.append(open_lists[-1][-1])
            elif word != ")":
                open_lists[-1].append(word)
            elif len(open_lists) == 1:
                raise networks.WrongInput("a ) has no ( before it")
            else:
                open_lists.pop()
    if len(open_lists) > 1:
        raise networks.WrongInput("a ( has no ) after it")
    return top


def section(parts: list, name: str) -> list:
    """What stands in parentheses after a section's name."""
    for word, inside in zip(parts, parts[1:]):
        if word == name and isinstance(inside, list):
            return inside
    raise networks.WrongInput(f"it has no section {name}")


def is_like(parts: list, form: str) -> bool:
    """Whether parts are words and lists as the form says: w for a word, l for a list of words."""
    for part, kind in zip(parts, form):
        if isinstance(part, list) != (kind == "l"):
            return False
        if kind == "l" and any(isinstance(word, list) for word in part):
            return False
    return len(parts) == len(form)


def rows(parts: list, form: str, what: str) -> List[list]:
    """The rows of a section, each of which is like the form."""
    found = [parts[at : at + len(form)] for at in range(0, len(parts), len(form))]
    for count, row in enumerate(found, 1):
        if not is_like(row, form):
            raise networks.WrongInput(f"{what} {count} is not as in SNDlib's native format")
    return found


def node_rows(parts: list) -> List[Tuple[str, list]]:
    """Each node, with its coordinates: none where no parentheses follow it."""
    found: List[Tuple[str, list]] = []
    for at, part in enumerate(parts):
        if not isinstance(part, list):
            found.append((part, []))
        elif at and not isinstance(parts[at - 1], list) and is_like([part], "l"):
            found[-1] = found[-1][0], part
        else:
            raise networks.WrongInput(f"node {len(found)} is not as in SNDlib's native format")
    return found


def add_nodes(nodes: List[Tuple[str, Sequence]], draft: topologies.Draft) -> None:
    """Adds nodes, each with its coordinates; these are places where all that are there may be."""
    places = [topologies.place(*at) if len(at) == 2 else None for _, at in nodes]
    if any(at and not place for (_, at), place in zip(nodes, places)):
        draft.note("the coordinates are not all longitudes and latitudes, so no node has a place")
        places = [None] * len(nodes)
    for (key, _), place in zip(nodes, places):
        draft.add_node(key, key, place)


def capacity_of(installed: Optional[str], sizes: Sequence[Optional[str]]) -> Optional[float]:
    """The capacity that is installed, else the greatest size of a module."""
    room = topologies.number(installed)
    if room:
        return room
    found = [size for size in map(topologies.number, sizes) if size is not None]
    return max(found, default=None)


def read_native(text: str, draft: topologies.Draft) -> None:
    head, _, body = text.partition("\n")
    if not HEAD.match(head):
        raise networks.WrongInput(
            "it begins neither as XML nor with `?SNDlib native format; type: network; version: 1.0`"
        )
    parts = nested(body)
    add_nodes(node_rows(section(parts, "NODES")), draft)
    for count, link in enumerate(rows(section(parts, "LINKS"), "wlwwwwl", "link"), 1):
        if len(link[1]) != 2:
            raise networks.WrongInput(f"link {count} does not have two nodes")
        draft.add_link(*link[1], capacity_of(link[2], link[6][::2]))


def child(element, *names: str):
    """What lies in an element under these names, one within the other, if it is there."""
    for name in names:
        found = children(element, name) if element is not None else []
        element = found[0] if found else None
    return element


def word_of(element, *names: str) -> Optional[str]:
    found = child(element, *names)
    return text_of(found) if found is not None else None


def part_of(root, name: str):
    found = child(root, "networkStructure", name)
    if found is None:
        raise networks.WrongInput(f"there is no networkStructure with {name} in it")
    return found


def read_xml(content: bytes, draft: topologies.Draft) -> None:
    root = root_of(content, "network", "SNDlib's XML")
    nodes, found = part_of(root, "nodes"), []
    of_the_globe = nodes.get("coordinatesType", "geographical") == "geographical"
    if not of_the_globe:
        draft.note(f"the coordinates are {nodes.get('coordinatesType')!r}, so no node has a place")
    for node in children(nodes, "node"):
        at = [word_of(node, "coordinates", axis) for axis in "xy"]
        found.append((node.get("id", ""), at if of_the_globe and at != [None, None] else []))
    add_nodes(found, draft)
    for count, link in enumerate(children(part_of(root, "links"), "link"), 1):
        ends = word_of(link, "source"), word_of(link, "target")
        if None in ends:
            raise networks.WrongInput(f"link {count} does not have two nodes")
        modules = child(link, "additionalModules")
        sizes = [word_of(module, "capacity") for module in
                 (children(modules, "addModule") if modules is not None else [])]
        draft.add_link(*ends, capacity_of(word_of(link, "preInstalledModule", "capacity"), sizes))


def read(content: bytes, draft: topologies.Draft) -> None:
    """Adds the nodes and links of a network to a draft."""
    try:
        text = content.decode("utf-8")
    except UnicodeDecodeError:
        text = content.decode("latin-1")
    text = text.lstrip("\ufeff \r\n")
    if text.startswith("<"):
        read_xml(content, draft)
    else:
        read_native(text, draft)


if __name__ == "__main__":
    sys.exit(networks.status_of(lambda: topologies.main(__doc__, read)))
