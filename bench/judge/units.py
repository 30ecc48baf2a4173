#!/usr/bin/env python3
"""Runs the units of tools/systemd/ and the procedures of docs/OPERATING.md under a real systemd.

Two machines are booted by systemd-nspawn, over an overlay of a minimal Debian that nothing is
written to, with a wire between them: a leader, and a standby of the same network. On them

- the blocks after <!-- run: NAME --> of docs/OPERATING.md are run as they stand, by root, from an
  archive of tools/package.sh on: install, start, sockets by name, upgrade, go back, back up,
  restore, move, both standbys, the one that replies wait for by each way to it, and promote;
- the examples of README.md, docs/GUIDE.md and docs/OPERATING.md are run by the user hosed, in the
  folder of the release;
- each unit is started and stopped again and again, and asked something after each start; a start
  that is not done in time counts as one that hangs;
- the server is killed, its disk filled, its journal taken away, damaged, given to root and locked,
  and the standby cut off; what the system's log has to say of each is looked for.

Prints what was tried, and each sentence that was found; ends with status 1 at what is not so. It
wants root, systemd-nspawn, and debootstrap with a mirror of Debian, or the folder of a base that it
made before. Where these are not there it says that it did not run, and ends with status 0.

usage: bench/judge/units.py ARCHIVE [--next ARCHIVE] [--base FOLDER] [--starts COUNT]
           [--skip PART ..]
ARCHIVE is of tools/package.sh, and --next of the next release (the same again); FOLDER is where the
base is made, or was (out/base at the top of the repository); COUNT is how often each unit is
started (20); a PART is a function of this script, as `full_disk`.
"""
import argparse
import contextlib
import os
import re
import signal
import sys
import time

sys.path.insert(0, os.path.join(os.path.dirname(os.path.abspath(__file__)), "..", "parts"))
from usage import TOP, tell_usage

import machines
from machines import Hangs, Machine, Wrong

CURRENT = "/usr/local/lib/hosed/current/tools"
JOURNAL, NETWORK = "/var/lib/hosed/orders.journal", "/etc/hosed/network.txt"
AS_HOSED = "setpriv --reuid hosed --regid hosed --clear-groups"
OPERATOR = "/run/hosed/operator"
START = 60  # seconds for a unit to start, also beside other work
SERVED = {"hosed-host": "7000", "hosed": "7000"}


def blocks():
    """The blocks of docs/OPERATING.md that are run, by their names."""
    with open(os.path.join(TOP, "docs", "OPERATING.md"), encoding="utf-8") as file:
        found = re.findall(r"(?m)^<!-- run: (.*) -->\n```\n((?:.*\n)*?)```$", file.read())
    return dict(found)


class Day:
    """Both machines, what is run on them, and what was seen."""

    def __init__(self, leader, standby, given):
        self.leader, self.standby, self.given = leader, standby, given
        self.blocks, self.left = blocks(), set(blocks())
        self.sentences = self.starts = 0

    def block(self, machine, name):
        """Runs a block as it stands, and gives what it told."""
        told = machine.run(self.blocks[name])
        self.left.discard(name)
        tell(f"{machine.name}: {name}")
        return told

    def says(self, machine, unit, since, *sentences, seconds=20):
        """Waits until the system's log of a unit has lines, from a cursor on, that match these
        patterns as a whole."""
        last = time.monotonic() + seconds
        for sentence in sentences:
            while not re.search(f"(?m)^{sentence}$", machine.log(unit, since)):
                if time.monotonic() > last:
                    raise Wrong(f"the log of {unit} has no line {sentence}:\n"
                                f"{machine.log(unit, since)}")
                time.sleep(0.5)
            self.sentences += 1
            shown = re.sub(r"\\(.)", r"\1", sentence)
            tell(f"{unit} says: {shown if len(shown) < 200 else shown[:200] + ' ..'}")


def tell(what):
    print(f"{time.monotonic() - BEGUN:7.1f} s  {what}", flush=True)


BEGUN = time.monotonic()


def same(what, found, wanted):
    if found != wanted:
        raise Wrong(f"{what}: {found!r}, and not {wanted!r}")


def client(machine, line, place="7000", customer="acme"):
    """What a customer is answered, by the client that is installed."""
    return machine.attempt(f"python3 {CURRENT}/client.py {place} {customer} {line}")[1].strip()


def asks(machine, unit):
    """Asks something of a unit that has started."""
    if unit in SERVED:
        told = client(machine, "vpns", SERVED[unit])
        if not re.fullmatch(r"vpns [0-9 ]*at [0-9]+", told):
            raise Wrong(f"{unit} has started, and answers {told!r}")
    elif unit == "hosed-metrics":
        machine.until(http("/metrics", 200), "metrics are told", 10)


def http(path, status):
    """A script that goes well where the metrics answer with this status."""
    return (f"python3 - <<'END'\nimport sys, urllib.request, urllib.error\ntry:\n"
            f"    told = urllib.request.urlopen('http://127.0.0.1:7001{path}', timeout=5).status\n"
            f"except urllib.error.HTTPError as fault:\n    told = fault.code\n"
            f"sys.exit(told != {status})\nEND")


def started_often(day, machine, unit, asked=asks):
    """Starts a unit again and again, and asks it something each time."""
    for count in range(day.given.starts):
        machine.run(f"systemctl stop {unit}; systemctl reset-failed {unit} || true")
        status, told = machine.attempt(f"timeout {START} systemctl start {unit}", seconds=2 * START)
        if status:
            state = machine.attempt(f"systemctl status --no-pager {unit}")[1]
            raise Hangs(f"start {count + 1} of {unit}: status {status} {told}\n{state}")
        same(f"{unit} after its start", machine.run(f"systemctl is-active {unit}"), "active\n")
        asked(machine, unit)
        day.starts += 1
    tell(f"{unit} was started {day.given.starts} times, and answered each time")


def ready_at_once(day):
    """The same of the server's unit with what is ready before systemd looks: a `ready` that is out
    at once may not be lost."""
    machine = day.standby
    machine.run("mv /usr/local/bin/hosed kept")
    machine.put("/usr/local/bin/hosed", "#!/bin/sh\necho ready\nexec sleep 1000\n", 0o755)
    machine.run("systemctl daemon-reload")
    started_often(day, machine, "hosed", lambda machine, unit: None)
    machine.run("systemctl stop hosed; mv kept /usr/local/bin/hosed")


def stays_down(day, machine, unit, since, *sentences):
    """A start fails, the unit is not tried again, and the log says why."""
    status, _ = machine.attempt(f"timeout {START} systemctl start {unit}")
    machine.until(f"systemctl is-failed {unit}", f"{unit} has failed")
    day.says(machine, unit, since, *sentences)
    time.sleep(4)
    same(f"{unit} later", machine.attempt(f"systemctl is-failed {unit}")[1], "failed\n")


def by_hand(machine, script):
    """The sentences of the program, as its user has them where the unit does not stand between."""
    told = machine.attempt(f"{AS_HOSED} {script} 2>&1 >/dev/null")[1]
    return [re.escape(line) for line in told.splitlines() if line]


def serve_by_hand(machine, unit):
    words = (f"host {NETWORK} {JOURNAL} 7009" if unit == "hosed-host"
             else f"serve {NETWORK} {JOURNAL} 7009 1 1")
    return by_hand(machine, f"timeout 20 hosed {words} </dev/null")


# ---- The parts of the day, in their order.


def install(day):
    for machine in (day.leader, day.standby):
        for name, archive in (("release", day.given.archive), ("next", day.given.next)):
            machine.copy(archive, f"/root/{name}.tar.gz")
            machine.run(f"mkdir {name} && tar -xzf {name}.tar.gz -C {name} --strip-components 1")
        machine.copy(os.path.join(TOP, "demo", "star.txt"), "/root/network.txt")
        machine.run("sed -i 's/ 10 / 1000 /' network.txt")  # room for all orders of the day
        told = day.block(machine, "install")
        same("the first book", told.splitlines()[-1], "live 0 cost 0")
        same("the journal's owner", machine.run(f"stat -c %U:%a {JOURNAL}"), "hosed:600\n")
    day.leader.run("echo '10.78.0.2 standby.example' >> /etc/hosts")
    day.standby.run("echo '10.78.0.1 standby.example' >> /etc/hosts")
    same("the units", day.leader.run("systemd-analyze verify /etc/systemd/system/hosed*.s*"),
         "")


def examples(day):
    """Each example of the documents, as the user of the server, in a folder of the release."""
    machine, folder = day.standby, "/var/lib/examples"
    machine.run(f"cp -R release {folder}")
    for name in ("judge/examples.py", "parts/usage.py"):
        machine.copy(os.path.join(TOP, "bench", name), f"{folder}/bench/{name}")
    told = machine.run(f"chown -R hosed:hosed {folder}; cd {folder}; "
                       f"{AS_HOSED} python3 bench/judge/examples.py ./hosed", seconds=900)
    tell(f"as the user hosed: {told.splitlines()[-1]}")


def host(day):
    """hosed-host.service, its starts and its ends."""
    leader = day.leader
    day.block(leader, "start")
    since = leader.now()
    same("an order", client(leader, "admit a:3 b:4 c:5"),
         "admitted 1 cost 26 at 1 links 0:3 1:4 2:5")
    day.says(leader, "hosed-host", since,
             'acme "admit a:3 b:4 c:5" admitted 1 cost 26 at 1 links 0:3 1:4 2:5')
    same("the operator at the port", client(leader, "vpns", "7000", "operator")[-5:], "bad 2")
    same("who may open the operator's socket",
         leader.run(f"stat -c %U:%G:%a {OPERATOR} {os.path.dirname(OPERATOR)}"),
         "hosed:hosed:770\nhosed:hosed:750\n")
    for unit in ("hosed-host", "hosed-metrics"):
        started_often(day, leader, unit)
    since = leader.now()
    leader.run("systemctl stop hosed-host")
    same("a stop", leader.run("systemctl show -P Result -P ExecMainStatus hosed-host").split(),
         ["success", "0"])
    day.says(leader, "hosed-host", since, "ending at 1", "live 1 cost 26")
    leader.run("systemctl start hosed-host")
    for what, script, sentence in (
            ("killed", "systemctl kill --signal KILL hosed-host",
             ".*Main process exited, code=killed, status=9/KILL"),
            ("ended by its operator", f"python3 {CURRENT}/client.py {OPERATOR} operator end",
             "live 1 cost 26")):
        since = leader.now()
        leader.run(script)
        day.says(leader, "hosed-host", since, sentence)
        leader.until("systemctl is-active hosed-host", f"a host that was {what} is started again")
        asks(leader, "hosed-host")
    leader.run("systemctl stop hosed-host")
    wrong_files(day, "hosed-host")


def server(day):
    """hosed.service, its starts and its faults."""
    leader = day.leader
    leader.run("systemctl disable --now hosed-host; systemctl enable --now hosed")
    started_often(day, leader, "hosed")
    ready_at_once(day)
    since = leader.now()
    leader.run("systemctl kill --signal KILL hosed")
    day.says(leader, "hosed", since, ".*Main process exited, code=killed, status=9/KILL",
             ".*Scheduled restart job, restart counter is at 1[.]")
    leader.until("systemctl is-active hosed", "it is started again")
    asks(leader, "hosed")
    leader.run("systemctl stop hosed")
    wrong_files(day, "hosed")
    leader.run("systemctl disable hosed; systemctl enable hosed-host")
    for one, other in ("hosed-host", "hosed"), ("hosed", "hosed-host"), ("hosed-host", "hosed"):
        leader.run(f"systemctl reset-failed {one} || true; systemctl start {one}")
        same(f"{other} where {one} is started",
             leader.attempt(f"systemctl is-active {other}")[1], "inactive\n")
        asks(leader, one)


def wrong_files(day, unit):
    """What the journal and the network may be that a server cannot begin with."""
    leader = day.leader
    leader.run(f"cp -a {JOURNAL} kept; cp -a {NETWORK} network")
    damage = f"printf '\\377' | dd of={JOURNAL} bs=1 seek=60 conv=notrunc status=none"
    for what, script, last in (
            ("damaged", damage, "journal damaged at 38"),
            ("of another network", f"sed -i s/10/11/ {NETWORK}", "journal other .*"),
            ("a text of no network", f"echo nonsense > {NETWORK}", "topology 1 1"),
            ("root's", f"chown root {JOURNAL}", "cabinet"),
            ("a folder", f"rm {JOURNAL}; mkdir {JOURNAL}", "cabinet")):
        leader.run(script)
        sentences = serve_by_hand(leader, unit)
        if not sentences:
            raise Wrong(f"the program says nothing where its file is {what}")
        tell(f"a file that is {what}")
        stays_down(day, leader, unit, leader.now(), *sentences, last)
        leader.run(f"rm -rf {JOURNAL}; cp -a kept {JOURNAL}; cp -a network {NETWORK}")
    since = leader.now()
    leader.run(f"mv {JOURNAL} away")
    same("a start without a journal", bool(leader.attempt(f"systemctl start {unit}")[0]), True)
    day.says(leader, unit, since, ".*asserts? failed.*|.*Assertion failed.*")
    leader.run(f"mv away {JOURNAL}; systemctl reset-failed {unit} || true; systemctl start {unit}")
    locked(day, unit)


def locked(day, unit):
    """Another program has the journal at the moment of a start."""
    leader = day.leader
    leader.run(f"systemctl stop {unit}")
    leader.run(f"{AS_HOSED} sh -c 'sleep 300 | hosed follow {NETWORK} {JOURNAL}' "
               "> /dev/null 2>&1 < /dev/null & sleep 1")
    sentences = serve_by_hand(leader, unit)
    tell("a journal that another program has")
    stays_down(day, leader, unit, leader.now(), *sentences, "cabinet")
    leader.run(f"pkill --uid hosed --exact sleep; systemctl reset-failed {unit}; sleep 1; "
               f"systemctl start {unit}")


def upgrade(day):
    leader = day.leader
    for name in ("audit the next", "upgrade"):
        day.block(leader, name)
    same("an order", client(leader, "admit a:1 b:1"), "admitted 2 cost 3 at 2 links 0:1 1:1")
    day.block(leader, "go back")
    same("the book", client(leader, "vpns"), "vpns 1 2 at 2")
    leader.run("systemctl stop hosed-host")
    day.block(leader, "go back without the orders since")
    leader.run("systemctl start hosed-host")
    same("the book", client(leader, "vpns"), "vpns 1 at 1")


def customers(day):
    """Sockets by name, each for the members of one group."""
    leader = day.leader
    day.block(leader, "customers")
    for name in ("alice", "bob"):
        leader.run(f"useradd --no-create-home {name}")
    leader.run("usermod -aG acme alice; usermod -aG beta bob")
    for name, groups, path, customer, wanted in (
            ("alice", "acme", "acme/socket", "acme", "vpns 1 at 1"),
            ("bob", "beta", "beta/socket", "beta", "vpns at 1"),
            ("bob", "beta", "acme/socket", "acme", "Permission denied"),
            ("alice", "acme", "operator", "operator", "Permission denied"),
            ("alice", "acme", "acme/socket", "beta", "bad 2")):
        told = leader.attempt(
            f"setpriv --reuid {name} --regid {name} --init-groups python3 {CURRENT}/client.py "
            f"/run/hosed/{path} {customer} vpns")[1]
        if wanted not in told:
            raise Wrong(f"{name} as {customer} at {path} is told {told}, and not {wanted}")
        tell(f"{name} of the group {groups} as {customer} at {path}: {wanted}")
    same("root", client(leader, "vpns", OPERATOR, "operator"), "vpns at 1")
    same("the port", bool(leader.attempt(f"python3 {CURRENT}/client.py 7000 acme vpns")[0]), True)
    leader.run("rm -r /etc/systemd/system/hosed-host.service.d; systemctl daemon-reload; "
               "systemctl restart hosed-host")


def orders_until_full(machine, unit):
    """Orders on a disk whose last block may have room for some more, until one is answered by
    `disk`: that reply."""
    told = machine.attempt(f"python3 {CURRENT}/client.py {of_operator(unit)} operator",
                           "down 0\nup 0\n" * 150)[1]
    full = [line for line in told.splitlines() if re.fullmatch("disk at [0-9]+", line)]
    if not full:
        raise Wrong(f"on a full disk no order is answered by disk:\n{told}")
    return full[0]


def of_operator(unit):
    """Where a server believes its operator."""
    return OPERATOR if unit == "hosed-host" else SERVED[unit]


def full_disk(day):
    """The journal's disk is full, and has room again; with each server."""
    leader = day.leader
    leader.run("systemctl stop hosed-host hosed-metrics; cp -a /var/lib/hosed state; "
               "mount -t tmpfs -o size=256k tmpfs /var/lib/hosed; cp -a state/. /var/lib/hosed/; "
               "chown hosed:hosed /var/lib/hosed; chmod 700 /var/lib/hosed")
    for unit in SERVED:
        place, since = SERVED[unit], leader.now()
        leader.run(f"systemctl start {unit}")
        leader.attempt("cat /dev/zero > /var/lib/hosed/filler")
        told = orders_until_full(leader, unit)
        tell(f"{unit} on a full disk answers {told}")
        if unit == "hosed-host":
            day.says(leader, unit, since, f'operator ".*" {told}')
            figures = client(leader, "figures", OPERATOR, "operator")
            same("a failed disk in the figures", " disk 0 " in figures, False)
        asks(leader, unit)
        leader.run(f"systemctl restart {unit}")
        asks(leader, unit)
        leader.run("rm /var/lib/hosed/filler")
        client(leader, "up 0", of_operator(unit), "operator")
        told = client(leader, "admit a:1 b:1", place)
        if not told.startswith("admitted"):
            raise Wrong(f"once there is room an order is answered {told}")
        leader.run(f"systemctl stop {unit}")
        tell(f"{unit} starts on a full disk, and goes on once there is room")
    leader.run("cp -a /var/lib/hosed/orders.journal state/; umount /var/lib/hosed; "
               "cp -a state/orders.journal /var/lib/hosed/; "
               "systemctl start hosed-host hosed-metrics")


def journal_away(day):
    """The journal is taken from under the metrics; they say so, and tell it again."""
    leader = day.leader
    day.block(leader, "metrics of a host")
    asks(leader, "hosed-metrics")
    client(leader, "vpns")
    leader.until("python3 -c \"import urllib.request; print(urllib.request.urlopen("
                 "'http://127.0.0.1:7001/metrics').read().decode())\" > told; "
                 "grep -qx 'hosed_up 1' told && "
                 "grep -q '^hosed_host_connections [1-9]' told", "the host's figures are told", 20)
    leader.run("systemctl stop hosed-host")
    leader.until("python3 -c \"import urllib.request; print(urllib.request.urlopen("
                 "'http://127.0.0.1:7001/metrics').read().decode())\" > told; "
                 "grep -qx 'hosed_up 0' told", "a host that is stopped is not up", 20)
    leader.run("systemctl start hosed-host")
    leader.run(f"mv {JOURNAL} /var/lib/hosed/away")
    leader.until(http("/metrics", 503), "metrics without a journal answer 503", 20)
    leader.run(f"mv /var/lib/hosed/away {JOURNAL}")
    leader.until(http("/metrics", 200), "metrics with a journal answer 200", 20)
    tell("metrics answer 503 while the journal is away")


def back_up(day):
    leader = day.leader
    book = client(leader, "vpns")
    day.block(leader, "back up")
    client(leader, "admit a:1 b:1")
    day.block(leader, "restore")
    same("the book", client(leader, "vpns"), book)
    same("the journal's owner", leader.run(f"stat -c %U:%a {JOURNAL}"), "hosed:600\n")


def move(day):
    leader = day.leader
    book = client(leader, "vpns")
    leader.run("sed 's/link a h 1000/link a h 2000/' network.txt > new.txt")
    day.block(leader, "move")
    same("the book", client(leader, "vpns"), book)
    if " capacity 2000 " not in client(leader, "link 0"):
        raise Wrong("the network is not the new one")
    day.standby.copy(leader.root + NETWORK, NETWORK)
    leader.run("systemctl restart hosed-metrics")


def followed(day, leader, standby):
    """Has one machine follow the other, by the blocks."""
    day.block(leader, "key of the leader")
    standby.copy(leader.root + "/root/leader.pub", "/root/leader.pub")
    day.block(standby, "let the leader in")
    standby.run(f"rm {JOURNAL}")


def standby(day):
    """hosed-standby.service, its starts, and a standby that is cut off."""
    leader, other = day.leader, day.standby
    followed(day, leader, other)
    since = leader.now()
    other.run("usermod --shell /usr/sbin/nologin hosed")
    leader.run("systemctl enable hosed-standby; systemctl start --no-block hosed-standby")
    day.says(leader, "hosed-standby", since, ".*the follower answers 'This account is currently "
             "not available.'; again in [0-9]+ s")
    same("a standby without a login", leader.attempt("systemctl is-active hosed-standby")[1],
         "activating\n")
    leader.run("systemctl stop hosed-standby")
    other.run("usermod --shell /bin/sh hosed")
    day.block(leader, "begin to follow")
    day.says(leader, "hosed-standby", since, ".*the follower has [0-9]+ entr(y|ies), as the "
             "journal begins", "have [0-9]+")
    same("the standby's journal", other.run(f"stat -c %U:%a {JOURNAL}"), "hosed:600\n")
    started_often(day, leader, "hosed-standby")
    leader.until("grep -q '^hosed_standby_epoch [1-9]' /run/hosed-standby/standby.prom",
                 "the figures of the standby are told")
    since = leader.now()
    other.run("ip link set wire0 down")
    day.says(leader, "hosed-standby", since, ".*the follower is (gone|left): .*; again in 1 s",
             ".*(the follower is missing for [0-9]+ s; it had [0-9]+ entries|"
             "the follower is gone: .*; again in [0-9]+ s)", seconds=120)
    client(leader, "admit a:1 b:1")
    other.run("ip link set wire0 up")
    day.says(leader, "hosed-standby", leader.now(), ".*the follower has [0-9]+ entr(y|ies), as the "
             "journal begins", "have [0-9]+", seconds=120)
    leader.run("systemctl disable --now hosed-standby")


def joins(day, since, seconds=60):
    """Replies wait for the standby from now on."""
    day.says(day.leader, "hosed-host", since, 'standby "" joined at [0-9]+', seconds=seconds)


def is_at_the_standby(machine, told, journal=JOURNAL):
    """An order that was told is in a journal."""
    epoch = re.search(" at ([0-9]+) ", told)
    if not epoch:
        raise Wrong(f"an order is answered {told}")
    machine.run(f"cp {journal} copy; hosed audit {NETWORK} copy | grep -x 'epoch {epoch[1]}'")


def waits_for_a_standby(day):
    """A host whose replies wait for a standby, by each way to it, and what it does without one."""
    leader, other = day.leader, day.standby
    since = leader.now()
    day.block(leader, "a standby on this machine")
    joins(day, since)
    is_at_the_standby(leader, client(leader, "admit a:1 b:1"),
                      "/var/lib/hosed/second/orders.journal")
    day.block(other, "let a link in")
    since = leader.now()
    day.block(leader, "a standby over one login")
    waits_for_the_other(day, since)
    leader.run("systemctl stop hosed-link")
    other.run("systemctl disable --now hosed-follow.socket")
    day.block(leader, "a standby by socat")
    is_at_the_standby(other, client(leader, "admit a:1 b:1"))  # it was not alone meanwhile
    leader.run("systemctl stop hosed-link")
    since = leader.now()
    day.block(leader, "a standby by ssh")
    waits_for_the_other(day, since)
    started_often(day, leader, "hosed-host")
    goes_alone(day)
    is_brought_up(day)
    ends_without_a_standby(day)


def waits_for_the_other(day, since):
    """The standby is the other machine, and has each order once it was told."""
    joins(day, since)
    is_at_the_standby(day.standby, client(day.leader, "admit a:1 b:1"))


def goes_alone(day):
    """The standby is cut off, and comes back."""
    leader, other, since = day.leader, day.standby, day.leader.now()
    other.run("ip link set wire0 down")
    begun = time.monotonic()
    told = client(leader, "admit a:1 b:1")
    waited = time.monotonic() - begun
    if not told.startswith("admitted") or not 8 < waited < 25:
        raise Wrong(f"an order without the standby is answered {told} after {waited:.1f} s")
    day.says(leader, "hosed-host", since, 'standby "" alone')
    figures = client(leader, "figures", OPERATOR, "operator")
    if not re.search(" standby [0-9]+ alone 1$", figures):
        raise Wrong(f"figures of a host that is alone: {figures}")
    day.says(leader, "hosed-host", leader.now(), 'standby "" alone', seconds=90)
    other.run("ip link set wire0 up")
    joins(day, since, seconds=120)  # before it was alone it told of no joining
    is_at_the_standby(other, client(leader, "admit a:1 b:1"))


def is_brought_up(day):
    """By standby.py, while the host is alone."""
    leader, other = day.leader, day.standby
    day.block(leader, "bring a standby up")
    same("the standby's book", other.run(f"cp {JOURNAL} copy; hosed audit {NETWORK} copy | "
                                         "head -n 1").split()[1],
         client(leader, "vpns").split()[-1])


def ends_without_a_standby(day):
    """With --standby-or-stop, and where the standby has more orders."""
    leader, other = day.leader, day.standby
    path = "/etc/systemd/system/hosed-host.service.d/standby.conf"
    leader.run(f"sed -i 's#packets\"#packets --standby-seconds 3 --standby-or-stop\"#' {path}; "
               "systemctl daemon-reload; systemctl restart hosed-host")
    since = leader.now()
    other.run("ip link set wire0 down")
    day.says(leader, "hosed-host", since, "hosed: nothing was heard of the standby for too long, "
             "so the host ended", "standby", ".*status=16.*", seconds=60)
    other.run("ip link set wire0 up")
    leader.until("systemctl is-active hosed-host", "it is started again", 180)
    asks(leader, "hosed-host")
    leader.run(f"cp -a {JOURNAL} kept")
    is_at_the_standby(other, client(leader, "admit a:1 b:1"))
    leader.run(f"systemctl stop hosed-host; cp -a {JOURNAL} whole; cp -a kept {JOURNAL}")
    since = leader.now()
    leader.attempt("systemctl start hosed-host")
    leader.until("systemctl is-failed hosed-host", "hosed-host has failed")
    day.says(leader, "hosed-host", since, "hosed: the standby has [0-9]+ orders, more than the "
             "journal: .*", "ahead [0-9]+", ".*status=17.*")
    leader.run(f"cp -a whole {JOURNAL}; sed -i 's# --standby-seconds.*\"#\"#' {path}; "
               "systemctl daemon-reload; systemctl reset-failed hosed-host; "
               "systemctl start hosed-host")
    asks(leader, "hosed-host")


def promotion(day):
    """The standby becomes the leader, and the old leader follows it."""
    leader, other = day.leader, day.standby
    book = client(leader, "vpns")  # of the host whose standby it is
    leader.run("rm -r /etc/systemd/system/hosed-host.service.d; systemctl daemon-reload")
    day.block(leader, "step down")
    other.run("systemctl daemon-reload")
    same("the book of the new leader", day.block(other, "promote").splitlines()[-1],
         re.sub("vpns .*at", "vpns at", book))
    same("its book of acme", client(other, "vpns"), book)
    day.block(leader, "come back")
    leader.run("rm -r /var/lib/hosed/.ssh")
    other.run("rm -r /var/lib/hosed/.ssh")
    followed(day, other, leader)
    day.block(other, "begin to follow")
    client(other, "admit a:1 b:1")
    epoch = client(other, "vpns").split()[-1]
    day.says(other, "hosed-standby", "", f"have {epoch}")
    other.run("systemctl stop hosed-standby")
    leader.run(f"cp {JOURNAL} copy; hosed audit {NETWORK} copy | grep -x 'epoch {epoch}'")
    tell("the old leader follows the new one")


PARTS = (install, examples, host, customers, server, upgrade, full_disk, journal_away, back_up,
         move, standby, waits_for_a_standby, promotion)


def words():
    tell_usage(__doc__)
    parser = argparse.ArgumentParser(usage=__doc__.split("usage: ")[1])
    parser.add_argument("archive")
    parser.add_argument("--next")
    parser.add_argument("--base", default=os.path.join(TOP, "out", "base"))
    parser.add_argument("--starts", type=int, default=20)
    parser.add_argument("--skip", nargs="+", default=[],
                        choices=[part.__name__ for part in PARTS[1:]])
    given = parser.parse_args()
    given.next = given.next or given.archive
    return given


def run(given):
    with contextlib.ExitStack() as stack:
        leader, other = (stack.enter_context(Machine(os.path.abspath(given.base), name))
                         for name in ("leader", "standby"))
        machines.join(leader, other)
        tell(leader.run("systemctl --version | head -n 1").strip())
        day = Day(leader, other, given)
        for part in PARTS:
            if part.__name__ not in given.skip:
                tell(f"== {part.__name__.replace('_', ' ')}")
                part(day)
    if day.left and not given.skip:
        raise Wrong(f"blocks of docs/OPERATING.md that were not run: {', '.join(day.left)}")
    tell(f"{day.starts} starts, 0 hang; {day.sentences} sentences found; "
         f"{len(day.blocks) - len(day.left)} of {len(day.blocks)} blocks run")


def main():
    given = words()
    why = machines.why_not() or machines.make_base(os.path.abspath(given.base))
    if why:
        print(f"units: not run: {why}")
        return
    signal.signal(signal.SIGTERM, lambda *_: sys.exit(143))  # the machines are ended then, too
    try:
        run(given)
    except Wrong as fault:
        sys.exit(f"units: {fault}")


if __name__ == "__main__":
    main()
