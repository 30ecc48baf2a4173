#!/usr/bin/env bash
# What comes of want of memory: programs run once for each growth of memory, and in each run just
# that one fails. The runs are an admission, a quote that is taken, a quote that goes stale, an
# admission on a backbone of eleven cities, a customer's numbers and an admission that is bound to
# them, and each of a journal that is begun, gone on with and another network's; an audit, a
# generated script, a certificate that is written and one that is judged, and two prices; a journal
# that is moved, as a whole and what is live of it, and one that is cut; packets that are shipped
# and followed; a server with one customer; a host with one and its operator, and such a host with a
# standby. Each has to end in one of three ways: with status 7 and the line `no memory`; with a line
# `memory` in the place of the command that was refused; or with the fault of an object that wanted
# it, as `cabinet` and status 6, or `door K` and status 9. A host may let a connection go besides,
# and serves who comes then; its log may lose a line, which it tells its operator. One with a
# standby may go on alone, which its log tells; else the standby has all that was told. All other
# lines have to be those of the orders that were acknowledged, by the slow planner of planner.py,
# and these the entries of the journal, by the reader of forged.py. A library that gcc makes of
# edge.c refuses the growth. A run has no more of them where twenty in a row were not wanted; how
# many it had, and with which status it ended, is printed.
# usage: bench/judge/memory.sh [PROGRAM]
# The PROGRAM (crates/hosed_main/out/hosed_main) is seen from the top of the repository. It is no
# script: the growths of the shell would be refused.
[ "${1-}" != --help ] || exec sed -n '2,/^[^#]/s/^# \{0,1\}//p' "$0"
set -euo pipefail
export LC_ALL=C
cd "$(dirname "${BASH_SOURCE[0]}")/../.."

exec python3 - "${1:-crates/hosed_main/out/hosed_main}" <<'END'
import contextlib
import os
import pathlib
import socket
import subprocess
import sys
import tempfile
import threading
import time
from collections import Counter

sys.path[:0] = ["bench/judge", "bench/parts", "tools"]
from planner import Link, Network
from forged import CHAINED, VALUE, journal_of, judged, spelled
from generated import Sizes, planned
from hostile import Desk
from standby_kill import Far

PROGRAM = os.path.abspath(sys.argv[1])
ENOUGH = 20
SECONDS = 30


def network_of(text):
    nodes, links = [], []
    for words in (line.split() for line in text.splitlines()):
        if words[:1] == ["node"]:
            nodes.append(words[1])
        elif words[:1] == ["link"]:
            a, b, (capacity, length, *cost) = words[1], words[2], map(int, words[3:])
            cost = cost or [length]
            links.append(Link(nodes.index(a), nodes.index(b), capacity, length, *cost))
    return Network(nodes, links)


NAMES = ("star", "detour", "backbone")
TEXTS = {name: pathlib.Path(f"demo/{name}.txt").read_text() for name in NAMES}
NETWORKS = {name: network_of(text) for name, text in TEXTS.items()}
ADMIT = ["acme admit a:3 b:4 c:5"]
ONE = [("admit", "acme", [(0, 3), (1, 4), (2, 5)], [(0, 3), (1, 4), (2, 5)])]
KEPT = journal_of(NETWORKS["star"], ONE, CHAINED)
# The packet of the entry that it has: the length of the body, the epoch after it, the chain value
# before it, which is the network's digest, and the body.
BODY = spelled(ONE[0])
PACKET = b"".join([len(BODY).to_bytes(2, "big"), (1).to_bytes(4, "big"), KEPT[6:6 + VALUE], BODY])

# Names, networks, lines, and what the journal has at first where there is one.
RUNS = {
    "admission": ("star", ADMIT, None),
    "quote": ("star", ["acme quote a:1 b:1", "beta admit b:2 c:2", "acme take 1"], None),
    "stale": ("detour", ["acme admit a:3 b:3", "acme quote a:3 b:3", "beta admit a:8 c:8",
                         "acme take 1"], None),
    "backbone": ("backbone", ["acme admit sea:400 lax:600 chi:500 nyc:1000"], None),
    "bound": ("star", ["acme admit-after 0 a:1 b:1", "acme vpns", "acme admit-after 1 b:1 c:1",
                       "acme vpns"], None),
    "new_journal": ("star", ADMIT, b""),
    "kept_journal": ("star", ADMIT, KEPT),
    "other_journal": ("detour", ["acme admit a:3 b:3"], KEPT),
}
# Words, the input, and the lines where no growth is refused. The audit is that of the kept journal.
ASKED = {
    "audit": (["audit", "demo/star.txt", "JOURNAL"], "", None),
    "gen": (["gen", "7", "9", "27", "20"], "", [planned(Sizes(7, 9, 27, 20)).strip()]),
    "prove": (["prove", "demo/star.txt", "a:3", "b:4", "c:5"], "",
              pathlib.Path("demo/star_certificate.txt").read_text().splitlines()),
    "check": (["check", "demo/star.txt"], pathlib.Path("demo/star_certificate.txt").read_text(),
              ["yes 26"]),
    "price": (["price", "demo/star.txt"], "acme a:3 b:4 c:5\nbeta a:8 b:8\n",
              ["price acme flat 26 12 26 hops 12 12 12 long 112 60 112 best hops",
               "price beta flat 24 16 24 hops 16 16 16 long 128 80 128 best hops"]),
}
# The kept journal is moved to the same network, or cut behind its entry, into one that is there and
# empty.
MOVES = {
    "move": (["move", "demo/star.txt", "OLD", "demo/star.txt", "NEW"], ["moved 1 live 1"]),
    "move_live": (["move", "--live", "demo/star.txt", "OLD", "demo/star.txt", "NEW"],
                  ["vpn 1 is 1", "moved 1 live 1"]),
    "cut": (["cut", "demo/star.txt", "OLD", "1", "NEW"], ["moved 1 live 1"]),
}
SESSION = ["hello acme", "admit a:3 b:4 c:5", "vpns", "admit-after 1 a:1 b:1", "show 1", "bye"]
OPERATOR = ["hello operator", "figures", "end"]
STANDBY = 'standby "" '  # what a line of a host's log begins with that tells of its standby


class Wrong(Exception):
    pass


def desk_of(network, held):
    """The planner's server, with the entries that a journal has."""
    desk = Desk(network)
    if held == KEPT:
        desk.enter(ONE[0][1], ONE[0][2], ONE[0][3], 26)
    return desk


def replayed(desk, lines, replies):
    """How many lines are replied to by the rules: as the planner says, or with want of memory."""
    count = 0
    for line, reply in zip(lines, replies):
        if reply == "memory":
            # A take that is refused so keeps its quote.
            count += 1
        elif reply != desk.line(line.encode()):
            break
        else:
            count += 1
    return count


def judge(name, status, output, journal):
    """Whether a run ended without want of memory; or what is wrong with it."""
    which, lines, held = RUNS[name]
    network, replies = NETWORKS[which], output.splitlines()
    desk = desk_of(network, held)
    if held == KEPT and which != "star" and replies[:1] and replies[0].startswith("journal other "):
        if status != 5 or journal != held:
            raise Wrong("another network's journal")
        return True
    count = replayed(desk, lines, replies)
    rest, ends = replies[count:], {7: ["no memory"], 6: ["cabinet"], 0: [], 3: ["read"], 4: []}
    if status not in ends or rest != ends[status] or status == 0 and count != len(lines):
        raise Wrong(f"status {status} after {replies}")
    if status == 7 and count != 0:
        raise Wrong(f"status 7 after {replies}")
    if journal is not None:
        if not replies[:count]:
            # The journal is as it was, or begun, or begun in part.
            is_as_before = journal == held or not held and judged(network, journal)[1] == 0
            if not is_as_before:
                raise Wrong(f"the journal has {journal.hex()}")
        elif judged(network, journal)[:2] != (desk.audit(), 0):
            raise Wrong(f"the journal has {journal.hex()}")
    return status == 0 and "memory" not in replies


def without(growth, library):
    """What a program finds in its environment, so that this growth of its memory fails."""
    return {**os.environ, "LD_PRELOAD": library, "EDGE_MEMORY": str(growth)}


def run_without(growth, name, library, work):
    """Whether a run ended without want of memory, and its status."""
    which, lines, held = RUNS[name]
    journal, words = work / f"{name}.journal", [PROGRAM, "run"]
    if held is not None:
        journal.write_bytes(held)
        words.append(str(journal))
    done = subprocess.run(words, input=TEXTS[which] + "".join(line + "\n" for line in lines),
                          capture_output=True, text=True, timeout=SECONDS,
                          env=without(growth, library))
    after = None if held is None else journal.read_bytes()
    return judge(name, done.returncode, done.stdout, after), done.returncode


def answer_without(growth, name, library, work):
    """The same of a command that orders nothing."""
    words, text, wanted = ASKED[name]
    journal = work / "kept.journal"
    journal.write_bytes(KEPT)
    words = [PROGRAM, *(str(journal) if word == "JOURNAL" else word for word in words)]
    done = subprocess.run(words, input=text, capture_output=True, text=True, timeout=SECONDS,
                          env=without(growth, library))
    status, output = done.returncode, done.stdout.splitlines()
    if wanted is None:
        wanted = desk_of(NETWORKS["star"], KEPT).audit()
    ends = {0: [], 6: ["cabinet"], 7: ["no memory"]}
    if status not in ends or journal.read_bytes() != KEPT:
        raise Wrong(f"status {status} after {output}")
    lines = output[:-1] if status else output
    is_by_rule = output[len(lines):] == ends[status] and len(lines) <= len(wanted) and all(
        line in (want, "memory") for line, want in zip(lines, wanted))
    if not is_by_rule or not status and len(lines) != len(wanted):
        raise Wrong(f"status {status} after {output}")
    return status == 0 and lines == wanted, status


def move_without(growth, name, library, work):
    """The same of a move. The old journal stays, and the new one has a part of its orders."""
    words, wanted = MOVES[name]
    old, new = work / "old.journal", work / "new.journal"
    old.write_bytes(KEPT)
    new.write_bytes(b"")
    paths = {"OLD": str(old), "NEW": str(new)}
    words = [PROGRAM, *(paths.get(word, word) for word in words)]
    done = subprocess.run(words, capture_output=True, text=True, timeout=SECONDS,
                          env=without(growth, library))
    status, output, after = done.returncode, done.stdout.splitlines(), new.read_bytes()
    ends = {0: ("",), 6: ("cabinet", "new cabinet"), 7: ("no memory", "new no memory")}
    if status not in ends or old.read_bytes() != KEPT:
        raise Wrong(f"status {status} after {output}")
    last = output[-1:] if status else [""]
    lines = output[:-1] if status else output
    if last[0] not in ends[status] or lines != wanted[:len(lines)]:
        raise Wrong(f"status {status} after {output}")
    whole = status == 0 and lines == wanted
    if after != KEPT and (whole or after and judged(NETWORKS["star"], after)[1] != 0):
        raise Wrong(f"status {status}, and the new journal has {after.hex()}")
    return whole, status


def ship_without(growth, library, work):
    """The same of a journal whose packets are written. It stays."""
    journal = work / "leader.journal"
    journal.write_bytes(KEPT)
    done = subprocess.run([PROGRAM, "ship", "demo/star.txt", str(journal), "1"],
                          capture_output=True, timeout=SECONDS, env=without(growth, library))
    status, output = done.returncode, done.stdout
    ends = {0: b"", 6: b"cabinet\n", 7: b"no memory\n"}
    if status not in ends or journal.read_bytes() != KEPT:
        raise Wrong(f"status {status} after {output}")
    if output != PACKET + ends[status] and (status == 0 or output != ends[status]):
        raise Wrong(f"status {status} after {output}")
    return status == 0, status


def follow_without(growth, library, work):
    """The same of a follower that is sent one packet. What it has is in its journal."""
    journal = work / "follower.journal"
    journal.write_bytes(b"")
    done = subprocess.run([PROGRAM, "follow", "demo/star.txt", str(journal)], input=PACKET,
                          capture_output=True, timeout=SECONDS, env=without(growth, library))
    status, output, after = done.returncode, done.stdout.decode().splitlines(), journal.read_bytes()
    ends = {0: [], 6: ["cabinet"], 7: ["no memory"]}
    lines = output[:-1] if status else output
    is_by_rule = (status in ends and output[len(lines):] == ends[status]
                  and lines in ([["have 1"], ["memory"]] if status == 0 else
                                [[], ["have 1"], ["memory"]] if status == 6 else [[]]))
    is_kept = after == KEPT if lines == ["have 1"] else (
        not after or after == KEPT or judged(NETWORKS["star"], after)[1] == 0)
    if not is_by_rule or not is_kept:
        raise Wrong(f"status {status} after {output}, and the journal has {after.hex()}")
    return status == 0 and lines == ["have 1"], status


def customer(port, ended, replies):
    """Comes as soon as the server is ready, and keeps what it is told."""
    while not ended.is_set():
        try:
            with socket.create_connection(("127.0.0.1", port), SECONDS) as peer:
                peer.sendall("".join(line + "\n" for line in SESSION).encode())
                while piece := peer.recv(65_536):
                    replies.append(piece)
            return
        except OSError:
            time.sleep(0.05)


def server_without(growth, library, work):
    """The same of a server with one customer."""
    with socket.socket() as probe:
        probe.bind(("127.0.0.1", 0))
        port = probe.getsockname()[1]
    topology, journal = work / "topology", work / "server.journal"
    topology.write_text(TEXTS["star"])
    journal.write_bytes(b"")
    words = [PROGRAM, "serve", str(topology), str(journal), str(port), "1", "1"]
    ended, pieces = threading.Event(), []
    peer = threading.Thread(target=customer, args=(port, ended, pieces))
    peer.start()
    try:
        done = subprocess.run(words, stdin=subprocess.DEVNULL, capture_output=True, text=True,
                              timeout=SECONDS, env=without(growth, library))
    finally:
        ended.set()
        peer.join()
    status, output = done.returncode, done.stdout.splitlines()
    replies = b"".join(pieces).decode().splitlines()
    desk = Desk(NETWORKS["star"])
    wanted = ["welcome at 0"]
    for line, reply in zip(SESSION[1:], replies[1:]):
        wanted.append("memory" if reply == "memory" else desk.later(line.encode(), "acme"))
    if replies != wanted[:len(replies)]:
        raise Wrong(f"status {status}, {replies}")
    # What was acknowledged is in the journal, and what was not told yet may be, as the last entry.
    told = judged(NETWORKS["star"], journal.read_bytes())[:2]
    if told != (desk.audit(), 0) and (len(replies) > 1 or told[1] != 0):
        raise Wrong(f"status {status}, {replies}, and the journal has {told}")
    if status in (6, 7):
        if output[-1:] != ["no memory" if status == 7 else "cabinet"]:
            raise Wrong(f"status {status} after {output}")
        return False, status
    if status != 0 or output != ["ready", *desk.audit()]:
        raise Wrong(f"status {status}, {replies}, {output}")
    return len(replies) == len(SESSION) and "memory" not in replies, status


def talked(path, lines):
    """What lines are answered at a socket, each before the next one is sent, until a connection is
    let go."""
    replies = []
    with socket.socket(socket.AF_UNIX) as peer:
        peer.settimeout(SECONDS)
        peer.connect(path)
        with contextlib.suppress(ConnectionError), peer.makefile("r", encoding="ascii") as told:
            for line in lines:
                peer.sendall(f"{line}\n".encode())
                reply = told.readline()
                if not reply.endswith("\n"):
                    break
                replies.append(reply.rstrip("\n"))
    return replies


def hosted(words, work, env):
    """Runs a host that a customer and then its operator come to, who comes again where he was let
    go, and tells its status, its output, its log, and the replies to both."""
    door, operator, log = (str(work / name) for name in ("door", "operator", "log"))
    replies, ending = [], []
    with open(log, "wb") as errors:
        host = subprocess.Popen(words, stdin=subprocess.DEVNULL, stdout=subprocess.PIPE,
                                stderr=errors, text=True, env=env)
    try:
        ready = host.stdout.readline()
        if ready == "ready\n":
            replies = talked(door, SESSION)
            with contextlib.suppress(OSError):
                while host.poll() is None:
                    ending.append(talked(operator, OPERATOR))
        output = ready + host.communicate(timeout=SECONDS)[0]
    finally:
        host.kill()
        host.wait()
    with open(log, encoding="ascii") as file:
        return host.returncode, output.splitlines(), file.read().splitlines(), replies, ending


def host_with(standby, growth, library, work):
    """What comes of a host with one customer and its operator: whether each line was answered as
    without want of memory, its status, its log, the orders that it should have, and the book."""
    topology, journal = work / "topology", work / "host.journal"
    topology.write_text(TEXTS["star"])
    journal.write_bytes(b"")
    words = [PROGRAM, "host", "--operator", str(work / "operator"), *standby, str(topology),
             str(journal), str(work / "door")]
    status, output, log, replies, ending = hosted(words, work, without(growth, library))
    desk, wanted = Desk(NETWORKS["star"]), ["welcome at 0"]
    for line, reply in zip(SESSION[1:], replies[1:]):
        wanted.append("memory" if reply == "memory" else desk.later(line.encode(), "acme"))
    if replies != wanted[:len(replies)]:
        raise Wrong(f"status {status}, {replies}")
    # A line whose reply was lost with its connection may be done.
    books = [desk.audit()]
    if 0 < len(replies) < len(SESSION):
        desk.later(SESSION[len(replies)].encode(), "acme")
        books.append(desk.audit())
    book, rest = judged(NETWORKS["star"], journal.read_bytes())[:2]
    if book not in books or rest:
        raise Wrong(f"status {status}, {replies}, and the journal has {book}")
    ends = {6: ["cabinet"], 7: ["no memory"]}
    if status == 9 and output[:1] in (["door 3"], [f"door {len(words) - 1}"]):
        ends[9] = output[:1]
    if status in ends:
        if output != ends[status] or replies:
            raise Wrong(f"status {status} after {output}, {replies}")
        return False, status, log, [], books
    if status != 0 or output != ["ready", *book]:
        raise Wrong(f"status {status}, {replies}, {output}, {log}")
    orders = [f'acme "{line}" {reply}' for line, reply in zip(SESSION, replies)
              if reply.startswith("admitted ")]
    is_whole = (len(replies) == len(SESSION) and "memory" not in replies and len(ending) == 1
                and f" admitted {len(orders)} " in ending[0][1])
    return is_whole, status, log, orders, books


def host_without(growth, library, work):
    """The same of a host with one customer and its operator."""
    is_whole, status, log, orders, _ = host_with([], growth, library, work)
    return is_whole and log == orders, status


def standby_without(growth, library, work):
    """The same of a host with a standby, whose own memory is not refused."""
    path, topology, journal = work / "standby", work / "star", work / "standby.journal"
    topology.write_text(TEXTS["star"])
    journal.write_bytes(b"")
    far = Far(str(path), [PROGRAM, "follow", str(topology), str(journal)])
    try:
        is_whole, status, log, orders, books = host_with(
            ["--standby", str(path), "--standby-seconds", "2"], growth, library, work)
    finally:
        far.end()
    book, rest = judged(NETWORKS["star"], journal.read_bytes())[:2]
    held = [line for line in log if line.startswith(STANDBY)]
    # Nothing was told that it lacks, unless the host went on alone.
    if rest or status == 0 and STANDBY + "alone" not in held and book not in books:
        raise Wrong(f"status {status}, {log}, and the standby has {book}")
    # It is heard first before the first order, or behind it.
    joined = [STANDBY + f"joined at {epoch}" for epoch in range(2)]
    return (is_whole and [line for line in log if line not in held] == orders
            and len(held) == 1 and held[0] in joined), status


def try_all(name, tried):
    """Has each growth of a run fail, and tells how many there were and how it ended."""
    ends, growth, whole = Counter(), 0, 0
    while whole < ENOUGH:
        growth += 1
        try:
            is_whole, status = tried(growth)
        except (Wrong, subprocess.TimeoutExpired) as wrong:
            sys.exit(f"memory: growth {growth} of {name}: {wrong}")
        if is_whole:
            whole += 1
        else:
            whole = 0
            ends[status] += 1
    if not ends:
        sys.exit(f"memory: {name} has no growth: was the library loaded?")
    told = ", ".join(f"{count} with status {status}" for status, count in sorted(ends.items()))
    print(f"memory: {name}: {sum(ends.values())} growths refused, each alone: {told}", flush=True)


def main():
    with tempfile.TemporaryDirectory() as work:
        if not os.access(PROGRAM, os.X_OK):
            sys.exit(f"memory: there is no program {PROGRAM}; ./hosed builds it")
        work = pathlib.Path(work)
        library = str(work / "edge.so")
        subprocess.run(["gcc", "-O1", "-shared", "-fPIC", "bench/judge/edge.c",
                        "-o", library, "-ldl"],
                       check=True)
        for name in RUNS:
            try_all(name, lambda growth: run_without(growth, name, library, work))
        for name in ASKED:
            try_all(name, lambda growth: answer_without(growth, name, library, work))
        for name in MOVES:
            try_all(name, lambda growth: move_without(growth, name, library, work))
        try_all("ship", lambda growth: ship_without(growth, library, work))
        try_all("follow", lambda growth: follow_without(growth, library, work))
        try_all("server", lambda growth: server_without(growth, library, work))
        try_all("host", lambda growth: host_without(growth, library, work))
        try_all("standby", lambda growth: standby_without(growth, library, work))


main()
END
