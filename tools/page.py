#!/usr/bin/env python3
"""Writes a page to look at a network and its VPNs in a browser, on standard output. The page needs
nothing else: no other file, and no network.

    hosed audit TOPOLOGY JOURNAL > AUDIT
    python3 tools/page.py TOPOLOGY AUDIT > PAGE.html

and, where links may be out of service, with LAST for the last link's number,

    seq 0 LAST | sed 's/^/x link /' | cat TOPOLOGY - | hosed run JOURNAL > REPLIES
    python3 tools/page.py TOPOLOGY AUDIT REPLIES > PAGE.html

A link is drawn as wide as it can carry and filled as far as it is used, the darker the fuller, and
the busiest over the others; the numbers are under the pointer. In a network of more than 400 links
the 100 busiest are filled, until more or fewer are chosen. The wheel, two fingers, the buttons and
the keys +, - and 0 zoom, and what is zoomed is dragged. The tables sort by any column, and that of
the VPNs filters by customer. A VPN or a link that is chosen, in a table, in the picture or by the
end of the page's address, as PAGE.html#vpn=1 or PAGE.html#link=5, is shown in the picture and in
numbers; Escape shows all again. Of each link of a VPN's tree is told whether without it a way leads
round, over links in service, whatever these carry, or which endpoints it cuts off; such a link is
drawn double.

TOPOLOGY is JSON where its name ends in `.json`. The costs are those of the audit, which have to be
the network's own or those of a tariff; of the one that --tariff names, where it is given.

Nodes stand where comment lines `# at NAME X Y` of the topology put them, with Y growing upward, or
where a member `places` of one in JSON does, as {"NAME": [X, Y]}; tools/from_graphml.py and
tools/from_sndlib.py write these. Of more than 80 nodes without a place Graphviz's `sfdp` makes the
picture, where it is there. Otherwise nodes stand where springs along the links pull them. Each of
these does so in the same way each time.
"""
import argparse
import html
import json
import os
import sys

import networks
from picture import Picture, svg

HERE = os.path.dirname(os.path.abspath(__file__))
PAGE = """<!DOCTYPE html>
<html lang="en">
<head>
<meta charset="utf-8">
<meta name="viewport" content="width=device-width, initial-scale=1">
<meta http-equiv="Content-Security-Policy"
 content="default-src 'none'; style-src 'unsafe-inline'; script-src 'unsafe-inline'; img-src data:">
<link rel="icon" href="data:,">
<title>{title}</title>
<style>
{style}</style>
<script type="application/json" id="network">{network}</script>
<script type="text/plain" id="vpns">{vpns}</script>
</head>
<body>
<header>
<h1>{title}</h1>
<p>{summary}</p>
</header>
<main>
<section id="shown" aria-label="The network">
{picture}
{legend}
<h2 id="title" aria-live="polite"></h2>
<div id="chosen"></div>
</section>
<div id="tables"></div>
</main>
<div id="pointed" hidden></div>
<script>
{script}</script>
</body>
</html>
"""
LEGEND = [("used1", "below 25 % used"), ("used2", "below 50 %"), ("used3", "below 75 %"),
          ("used4", "below 100 %"), ("full", "full")]


def beside(name):
    with open(os.path.join(HERE, name), encoding="ascii") as file:
        return file.read()


def network_of(picture, loads, out):
    """What the page's script is told of the network, by the numbers of nodes and links."""
    topology = picture.topology
    nodes = [[name, round(x, 1), round(y, 1)]
             for name, (x, y) in zip(topology.nodes, picture.nodes)]
    links = [[picture.number[link.a], picture.number[link.b], link.capacity, link.length, link.cost,
              loads[link.number] if loads else 0, int(link.number in out),
              *(round(value, 1) for value in picture.middle(link))] for link in topology.links]
    return {"nodes": nodes, "links": links, "audit": loads is not None}


def vpn_line(vpn):
    """A line of the page's list of VPNs, which its script reads."""
    ends = ",".join(f"{name}:{rate}" for name, rate in vpn.ends)
    amounts = ",".join(f"{link}:{amount}" for link, amount in vpn.amounts)
    return f"{vpn.id} {vpn.customer} {vpn.cost} {ends} {amounts}"


def summary(topology, audit, out):
    nodes, links = len(topology.nodes), len(topology.links)
    said = f"{networks.counted(nodes, 'node')}, {networks.counted(links, 'link')}"
    if out:
        said += f", of which {len(out)} out"
    if audit:
        said += f"; at epoch {audit.epoch}: {networks.counted(audit.live, 'VPN')}"
        said += f", cost {audit.cost}"
    return said


def legend(audit, out):
    keys = []
    if audit:
        keys += [f'<li><i class="{name}"></i>{words}</li>' for name, words in LEGEND]
    if out:
        keys += ['<li><i class="out"></i>out of service</li>']
    return f'<ul class="legend" aria-label="Links">{"".join(keys)}</ul>' if keys else ""


def page(title, topology, audit=None, out=frozenset(), picture=None):
    """The page as a text in ASCII; the picture is that of the topology, made before or not."""
    picture = picture or Picture(topology)
    loads = [link.load for link in audit.links] if audit else None
    text = PAGE.format(
        title=html.escape(title), style=beside("page.css"),
        script=beside("page_view.js") + beside("page.js"),
        summary=summary(topology, audit, out), legend=legend(audit, out),
        picture="\n".join(svg(picture, loads, out)),
        network=json.dumps(network_of(picture, loads, out), separators=(",", ":")),
        vpns="\n".join(vpn_line(vpn) for vpn in audit.vpns) if audit else "")
    return text.encode("ascii", "xmlcharrefreplace").decode("ascii")


def out_of(topology, replies):
    """The numbers of the links that are out, by a text of replies to `link`."""
    told = networks.latest(networks.read_link_replies(replies))
    networks.check_links(topology, told)
    return frozenset(link.number for link in told if link.out)


def of_network(made, path, of):
    """What `made` makes of a text in a file, where that is of the same network as another file."""
    try:
        return networks.load(made, path)
    except networks.OtherNetwork as other:
        raise networks.WrongInput(f"{networks.named(path)} is of another network than "
                                  f"{networks.named(of)}: {other}") from None


def audited(topology, tariff, text):
    """The audit of a text, and the network with its costs."""
    audit = networks.read_audit(text)
    return networks.of_audit(topology, audit, tariff), audit


def main():
    words = argparse.ArgumentParser(
        description=__doc__, formatter_class=argparse.RawDescriptionHelpFormatter)
    words.add_argument("topology", metavar="TOPOLOGY", help="a topology's file")
    words.add_argument("audit", metavar="AUDIT", nargs="?",
                       help="an audit of this network, `-` for standard input")
    words.add_argument("replies", metavar="REPLIES", nargs="?",
                       help="replies to `link`; a link that is told to be out is dashed")
    given = networks.add_tariff(words).parse_args()
    topology, audit = networks.load_topology(given.topology, given.tariff), None
    if given.audit:
        topology, audit = of_network(lambda text: audited(topology, given.tariff, text),
                                     given.audit, given.topology)
    out = frozenset()
    if given.replies:
        out = of_network(lambda text: out_of(topology, text), given.replies, given.topology)
    print(page(os.path.basename(given.topology), topology, audit, out), end="")


if __name__ == "__main__":
    sys.exit(networks.status_of(main))
