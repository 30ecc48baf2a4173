#!/usr/bin/env python3
"""Plans the VPNs of an audit anew in another network: writes the script that admits them, and then
tells what became of each.

It is for a network that is any other, as where nodes or links are gone, or where VPNs are to have
the trees that are cheapest now; some may be refused. Where the new network goes on from the old
one, with more nodes and links or other capacities and costs, `hosed move` moves the journal itself:
each VPN keeps its tree and what is reserved, and its number too, or none but its number with
`--live`, and none is refused (docs/OPERATING.md, "Move to another network").

With AUDIT alone the script is written: an `admit` for each VPN of the audit, in the order in which
they were admitted. With OUTPUT too, which is what `hosed run` wrote to this script, a line is
written for each VPN, and one for all:

  vpn OLD CUSTOMER is NEW cost C now D   it was admitted under the number NEW; it cost C, and now D
  vpn OLD CUSTOMER refused: REPLY        it is not there; the REPLY says why
  moved K of N cost C now D              how many were admitted, and what these cost together

With --topology the text of a network stands before the script, whose file is JSON where its name
ends in `.json`: then the whole is what `hosed run` reads. With --down L, once for each link that is
to be out of service, an `operator down L` stands before the first VPN. In OUTPUT the replies to
such lines are passed over, and those to an `operator up L`, also where they were put between the
VPNs' lines or behind them. Where the first reply of all tells that a link was not taken out, as
`bad 3` for one that the network has not, that is said.

example, for a network in new.json of which link 3 is out:
  ./hosed audit demo/backbone.txt backbone.journal > audit.txt
  python3 tools/replay.py --topology new.json --down 3 audit.txt | ./hosed run new.journal > output
  python3 tools/replay.py audit.txt output

Each VPN is planned anew, so its links may be others. Those that come first have the first choice of
what is free; who is refused may be admitted where others are given up. That may be so on the same
network too, where what was released meanwhile had led a later VPN another way.

status:
  0 the script was written, or each VPN was admitted; 1 one was refused; 2 these words are not
  allowed, or a file is not what it should be
"""
import argparse
import sys
from typing import List, NamedTuple, Tuple, Union

import client
import networks
from lines import COMMANDS


class Move(NamedTuple):
    """A VPN of an audit, and what was replied to its admission elsewhere."""

    vpn: networks.Vpn
    reply: Union[client.Admitted, client.Refusal]

    def __str__(self):
        was = f"vpn {self.vpn.id} {self.vpn.customer}"
        if isinstance(self.reply, client.Admitted):
            return f"{was} is {self.reply.id} cost {self.vpn.cost} now {self.reply.cost}"
        if isinstance(self.reply, client.Bad):
            words = line_of(self.vpn).split(" ")
            return f"{was} refused: {self.reply}, at {words[self.reply.word - 1]}"
        return f"{was} refused: {self.reply}"


def line_of(vpn: networks.Vpn) -> str:
    """The line of a script that admits such a VPN."""
    return f"{vpn.customer} admit {client.hose(dict(vpn.ends))}"


def script(audit: networks.Audit) -> List[str]:
    return [line_of(vpn) for vpn in audit.vpns]


def may_answer(reply, vpn: networks.Vpn) -> bool:
    """Whether a reply may be that to the VPN's line."""
    if isinstance(reply, client.Bad):
        return 1 <= reply.word <= 2 + len(vpn.ends)
    return reply is not None and reply.line in (*COMMANDS["admit"].replies, "Long")


def moves(audit: networks.Audit, output: str) -> List[Move]:
    """What became of each VPN of an audit, by what `hosed run` wrote to the script."""
    lines, vpns, found = networks.lines_of(output), audit.vpns, []
    replies = [(at, line) for at, line in enumerate(lines, 1) if not answers_change(line)]
    check_first(replies, len(vpns))
    for at, line in replies:
        if len(found) == len(vpns):
            what = f"{networks.shown(line)} stands after the replies to all {len(vpns)} VPNs"
            raise networks.WrongText(at, what)
        vpn, reply = vpns[len(found)], client.read_reply(line)
        if not may_answer(reply, vpn):
            what = networks.unlike(line, f"no reply to {networks.shown(line_of(vpn))}")
            raise networks.WrongText(at, what)
        found.append(Move(vpn, reply))
    if len(found) < len(vpns):
        what = f"the replies end after {len(found)} of {len(vpns)} VPNs"
        raise networks.WrongText(len(lines) + 1, what)
    return found


def answers_change(line: str) -> bool:
    """Whether a line is a reply to an `operator down` or `operator up` that was done or was so
    already, which no VPN's line is answered."""
    return isinstance(client.read_reply(line), (client.Down, client.Up, client.Already))


def check_first(replies: List[Tuple[int, str]], vpns: int) -> None:
    """Raises where the first of more replies than VPNs tells that a link was not taken out."""
    if len(replies) > vpns and may_refuse_down(client.read_reply(replies[0][1])):
        at, line = replies[0]
        what = f"{networks.shown(line)} answers an `operator down`: that link is in service"
        raise networks.WrongText(at, what)


def may_refuse_down(reply) -> bool:
    """Whether a reply may tell that a link was not taken out of service."""
    if isinstance(reply, client.Bad):
        return reply.word == 3
    return isinstance(reply, (client.Spent, client.DiskFailed, client.OutOfMemory))


def total(found: List[Move]) -> str:
    moved = [move for move in found if isinstance(move.reply, client.Admitted)]
    was, now = sum(move.vpn.cost for move in moved), sum(move.reply.cost for move in moved)
    return f"moved {len(moved)} of {len(found)} cost {was} now {now}"


def write_script(given: argparse.Namespace, audit: networks.Audit) -> None:
    if given.topology:
        print(networks.text_of(networks.load_topology(given.topology)), end="")
    for line in [*(f"operator down {link}" for link in given.down), *script(audit)]:
        print(line)


def main() -> None:
    words = argparse.ArgumentParser(
        description=__doc__, formatter_class=argparse.RawDescriptionHelpFormatter
    )
    words.add_argument("audit", metavar="AUDIT", help="what `hosed audit` wrote")
    words.add_argument("output", metavar="OUTPUT", nargs="?", help="what came of the script")
    words.add_argument("--topology", metavar="TOPOLOGY", help="stands before the script, as text")
    words.add_argument("--down", metavar="L", type=int, action="append", default=[],
                       help="a link that is taken out of service before the first VPN")
    given = words.parse_args()
    audit = networks.load(networks.read_audit, given.audit)
    if given.output is None:
        write_script(given, audit)
        return
    found = networks.load(lambda text: moves(audit, text), given.output)
    for move in found:
        print(move)
    print(total(found), flush=True)
    if any(isinstance(move.reply, client.Refusal) for move in found):
        sys.exit(1)


if __name__ == "__main__":
    sys.exit(networks.status_of(main))
