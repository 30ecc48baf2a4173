#!/usr/bin/env python3
"""Tells which VPNs lose their tree where links go out of service, and which of them would be
admitted anew over the others. It works on a copy of the journal, which it makes and takes away: the
journal is read, and nothing of it is changed.

On the copy the links are taken out of service, the VPNs over them are all released, and then their
hoses are admitted again, in the order in which they were first admitted. A line is written for
each, and one for all:

  vpn ID CUSTOMER over L .. cost C now D   a tree is there for it, which costs D
  vpn ID CUSTOMER over L .. refused: REPLY none is, and the REPLY says why
  links L .. lost K of N again M cost C now D
                                           K of N VPNs are over them, of which M would be admitted,
                                           for C before and for D then

The copy of a journal that a server writes meanwhile has the orders up to some moment (OPERATING.md,
"Back up"). Each VPN is planned as by `admit`, with what all others reserve; one that is refused may
be admitted where others are not, or come later.

examples:
  python3 tools/what_if.py demo/backbone.txt backbone.journal 5 7
  for link in $(seq 0 13); do
      python3 tools/what_if.py demo/backbone.txt backbone.journal $link | tail -n 1
  done

status:
  0 each VPN would be admitted anew; 1 one would be refused; 2 these words are not allowed, a file
  is not what it should be, or the program failed
"""
import argparse
import os
import shutil
import subprocess
import sys
import tempfile
from typing import List, NamedTuple, Sequence

import client
import networks
import replay

ABOVE = os.path.join(os.path.dirname(os.path.dirname(os.path.abspath(__file__))), "hosed")


class Hosed(NamedTuple):
    """The program, and the tariff that it is given."""

    program: str
    tariff: str

    def answered(self, verb: str, *words: str, text: str = "") -> str:
        tariff = ["--tariff", self.tariff] if self.tariff else []
        try:
            done = subprocess.run(
                [self.program, verb, *tariff, *words], input=text, stdout=subprocess.PIPE,
                stderr=subprocess.PIPE, universal_newlines=True)
        except OSError as fault:
            raise networks.WrongInput(f"{self.program} cannot be run: {fault.strerror}") from None
        if done.returncode:
            told = (done.stdout.splitlines() or [""])[-1]
            hint = " (of a book under a tariff --tariff names it)" if "other" in told else ""
            raise networks.WrongInput(f"{self.program} {verb} ended with the status "
                                      f"{done.returncode}: {told}{hint}")
        return done.stdout


class Lost(NamedTuple):
    """What became of a VPN that lost its tree, and the links that it lost."""

    move: replay.Move
    links: List[int]

    def __str__(self):
        vpn, reply = self.move
        was = f"vpn {vpn.id} {vpn.customer} over {' '.join(map(str, self.links))}"
        if isinstance(reply, client.Admitted):
            return f"{was} cost {vpn.cost} now {reply.cost}"
        return f"{was} refused: {reply}"


def over(vpn: networks.Vpn, links: Sequence[int]) -> List[int]:
    """Which of the links a VPN's tree has."""
    return [link for link, _ in vpn.amounts if link in links]


def script(links: Sequence[int], vpns: List[networks.Vpn]) -> List[str]:
    return [*(f"operator down {link}" for link in links),
            *(f"{vpn.customer} release {vpn.id}" for vpn in vpns), *map(replay.line_of, vpns)]


def replies_of(output: str, links: Sequence[int], vpns: List[networks.Vpn]) -> list:
    """The replies to the admissions of the script, where those before say that it was done."""
    replies = [client.read_reply(line) for line in networks.lines_of(output)]
    wanted = [(client.Down, client.Already)] * len(links) + [client.Released] * len(vpns)
    before, after = replies[:len(wanted)], replies[len(wanted):]
    if len(after) != len(vpns) or not all(map(isinstance, before, wanted)) \
            or not all(map(replay.may_answer, after, vpns)):
        raise networks.WrongInput(f"the program did not answer the script: {replies}")
    return after


def lost_with(hosed: Hosed, path: str, journal: str, links: Sequence[int]):
    """The audit of a journal, and what became of each VPN over the links."""
    topology = networks.load_topology(path)
    for link in links:
        if not 0 <= link < len(topology.links):
            raise networks.WrongInput(f"{path} has no link {link}")
    audit = networks.read_audit(hosed.answered("audit", path, journal))
    vpns = [vpn for vpn in audit.vpns if over(vpn, links)]
    lines = "".join(f"{line}\n" for line in script(links, vpns))
    output = hosed.answered("run", journal, text=networks.text_of(topology) + lines)
    moves = map(replay.Move, vpns, replies_of(output, links, vpns))
    return audit, [Lost(move, over(move.vpn, links)) for move in moves]


def total(links: Sequence[int], audit: networks.Audit, lost: List[Lost]) -> str:
    again = [move for move, _ in lost if isinstance(move.reply, client.Admitted)]
    was, now = sum(move.vpn.cost for move in again), sum(move.reply.cost for move in again)
    return (f"links {' '.join(map(str, links))} lost {len(lost)} of {audit.live} "
            f"again {len(again)} cost {was} now {now}")


def copied(journal: str, folder: str) -> str:
    copy = os.path.join(folder, "copy.journal")
    try:
        shutil.copyfile(journal, copy)
    except OSError as fault:
        raise networks.WrongInput(f"{journal} cannot be copied: {fault.strerror}") from None
    return copy


def main() -> None:
    words = argparse.ArgumentParser(
        description=__doc__, formatter_class=argparse.RawDescriptionHelpFormatter)
    words.add_argument("topology", metavar="TOPOLOGY", help="that of the journal, text or .json")
    words.add_argument("journal", metavar="JOURNAL")
    words.add_argument("links", metavar="L", nargs="+", type=int, help="a link by its number")
    words.add_argument("--program", metavar="PROGRAM",
                       default=ABOVE if os.access(ABOVE, os.X_OK) else "hosed",
                       help="the server's program; else `hosed` above this folder, or on the path")
    given = networks.add_tariff(words).parse_args()
    hosed, links = Hosed(given.program, given.tariff), list(dict.fromkeys(given.links))
    with tempfile.TemporaryDirectory() as folder:
        copy = copied(given.journal, folder)
        audit, lost = lost_with(hosed, given.topology, copy, links)
    for line in [*lost, total(links, audit, lost)]:
        print(line)
    sys.stdout.flush()
    if any(isinstance(move.reply, client.Refusal) for move, _ in lost):
        sys.exit(1)


if __name__ == "__main__":
    sys.exit(networks.status_of(main))
