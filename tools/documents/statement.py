#!/usr/bin/env python3
"""Prints the statement: every definition that the clauses of the top calls reach, all the way down.

Who believes what docs/PROOFS.md says has to believe these definitions, and no others, which are
steps of proofs. They are read from the sources, and names are looked up as the check does. Each
stands after those that it uses, with its comment, by chapters; so do types of the Rust sources as
contracts see them, constants, and the ghost members of traits. The last chapter has the calls. What
an outside of the program has to keep to says the contract of its trait's calls. Names of libraries
are not followed: they are told at the end.

usage: statement.py [COMMAND] [--html FILE]    the statement as a text, or as a page for a browser
       statement.py --count                    how many definitions and lines, by crate and command
       statement.py --files                    which files of definitions have what, and which
                                               definitions stand in the other's place

COMMAND is run, audit, gen, prove, check, price, ship, follow, move, cut, serve or host: what its
outcome reaches, alone. Lines are those of definitions, without comments and blank lines, and with
the heads of the modules around them; `--count` tells the others apart. Definitions of proofs alone
stand in the folder specs/steps/ of their crate. Ends with status 1 where a name is not found, and
tells it.
"""
import collections
import heapq
import signal
import sys

import resolve
import statement_page
from chapters import CHAPTERS, HISTORY, LAW, SHARED, SHARED_BY, WORDS, chapters_of
from resolve import Repository, definition_key

STEPS = "steps"  # the folder in specs/ of what is of proofs alone
LATE = ("type", "constant")
CALLS = [("call", "hosed", "lib", "offline_ended"), ("call", "hosed", "lib", "hosed_ended"),
         ("call", "hosed_program", "hosting", "host_ended"),
         ("call", "hosed_program", "starting", "start")]
OUTCOMES = {"run": "RunOutcome", "audit": "AuditOutcome", "gen": "GenOutcome",
            "prove": "ProveOutcome", "check": "CheckOutcome", "price": "PriceOutcome",
            "ship": "ShipOutcome", "follow": "FollowOutcome",
            "move": "MoveOutcome", "cut": "CutOutcome", "serve": "ServeOutcome",
            "host": "HostOutcome"}
APART = (("host",), ("host", "cut"))  # what came to the commands of before, told apart


class Statement:
    """What the calls reach, in reading order. `of` has the commands that reach each node."""

    def __init__(self, repository, calls=CALLS, outcomes=OUTCOMES):
        self.repository = repository
        self.outcomes = outcomes
        self.chapters = chapters_of(outcomes)
        self.calls = [key for key in calls]
        self.reached = self.closure(self.calls)
        self.of = collections.defaultdict(set)
        for command, name in outcomes.items():
            for key in self.closure([self.outcome(name)]):
                self.of[key].add(command)

    def outcome(self, name):
        found = [key for key in self.reached if key[0] == "definition" and key[3] == name]
        if len(found) != 1:
            raise ValueError(f"{name}: {len(found)} definitions of the statement have this name")
        return found[0]

    def closure(self, starts):
        """What the starts reach; of a trait the members that something of it reads."""
        seen, todo = set(), list(starts)
        while todo:
            while todo:
                key = todo.pop()
                if key not in seen:
                    seen.add(key)
                    todo += self.repository.node(key).uses
            read = {field for key in seen for field in self.repository.node(key).fields}
            for key in [key for key in seen if key[0] == "trait"]:
                todo += [member for name in self.repository.members(key) if name in read
                         for member in [("member", *key[1:], name)] if member not in seen]
        return seen

    def problems(self):
        """Names that were not found, and fields that no record, type or trait has."""
        known = self.repository.known_fields()
        found = set(self.repository.unresolved)
        found |= {resolve.Problem(node.path, field.line, f".{field.text}")
                  for node, field in self.repository.asked_fields if field.text not in known}
        return sorted(found)

    # ---- order

    def rank(self, key):
        """Where a node stands among those that do not use each other."""
        crates = list(self.repository.crates)
        if key[0] == "definition":
            file = self.repository.files[key[1], key[2]]
            place = (1, self.repository.file_rank(file))
        else:
            place = (0, 0)
        return (crates.index(key[1]), *place, key[2], self.repository.node(key).line, str(key))

    def home(self, key):
        """The chapter that a node would stand in by itself."""
        crate, module = key[1], key[2].split(".")[0]
        if key[0] == "call":
            return len(self.chapters) - 1
        for place, chapter in enumerate(CHAPTERS):
            modules = LAW.get(chapter.title, "").split() if crate == "hose_law" else ()
            if crate in chapter.crates.split() or module in modules:
                return place
        if crate == "hose_law":
            return HISTORY
        if not self.of[key]:
            return len(self.chapters) - 1 - (module in WORDS.get(crate, "").split())
        if len(self.of[key]) == 1:
            return len(CHAPTERS) + list(self.outcomes).index(*self.of[key])
        return next((place for commands, place in SHARED_BY.items()
                     if self.of[key] <= set(commands.split())), SHARED)

    def ordered(self, keys):
        """The chapters that have nodes, with these: each node after those that it uses. What is
        not explained by definitions, types and constants, stands where it is used first."""
        keys = set(keys)
        uses = {key: {other for other in self.repository.node(key).uses
                      if other in keys and other != key} for key in keys}
        users, chapter = users_of(uses), {}
        order = list(topological(uses, self.rank, lambda key: None))
        for key in order:
            home = 0 if key[0] in LATE and users[key] else self.home(key)
            chapter[key] = max([home, *(chapter[other] for other in uses[key])])
        for key in reversed(order):
            if key[0] in LATE and users[key]:
                chapter[key] = min(chapter[other] for other in users[key])
        found = collections.defaultdict(list)
        for key in topological(uses, lambda key: (chapter[key], self.rank(key)),
                               lambda key: (chapter[key], self.repository.node(key).path)):
            found[chapter[key]].append(key)
        for inside in found.values():
            self.put_late(inside, users)
        return [(self.chapters[place], found[place]) for place in sorted(found)]

    def put_late(self, keys, users):
        """Puts types and constants right before the file of the first that uses them."""
        for key in [key for key in reversed(keys) if key[0] in LATE]:
            at = keys.index(key)
            place = next((place for place in range(at + 1, len(keys))
                          if keys[place] in users[key]), at)
            path = self.repository.node(keys[place]).path
            while self.repository.node(keys[place - 1]).path == path and place - 1 > at:
                place -= 1
            keys.insert(place, key)
            del keys[at]

    # ---- figures

    def lines(self, keys):
        """How many lines these definitions have, with the heads of the modules around them."""
        found = sum(self.repository.node(key).lines() for key in keys if key[0] == "definition")
        heads = {(key[1], key[2], module.line): len(module.lines)
                 for key in keys if key[0] == "definition"
                 for module in self.repository.node(key).definition.outer}
        return found + sum(heads.values())

    def all_keys(self):
        return [definition_key(definition) for file in self.repository.files.values()
                for definition in file.definitions]


def users_of(uses):
    """Of each of these those that use it."""
    found = collections.defaultdict(set)
    for key, others in uses.items():
        for other in others:
            found[other].add(key)
    return found


def topological(uses, rank, group):
    """The keys in an order in which each stands after those that it uses: as long as there is one,
    the next of the same group, else the lowest rank."""
    left = {key: len(others) for key, others in uses.items()}
    users = users_of(uses)
    heap, groups, done, last = [], collections.defaultdict(list), set(), None

    def offer(key):
        heapq.heappush(heap, (rank(key), key))
        heapq.heappush(groups[group(key)], (rank(key), key))

    for key in uses:
        if left[key] == 0:
            offer(key)
    while heap:
        lowest, from_group = heap[0][0][:1], groups[last]
        while from_group and from_group[0][1] in done:
            heapq.heappop(from_group)
        near = from_group and from_group[0][0][:1] == lowest
        key = heapq.heappop(from_group if near else heap)[1]
        if key in done:
            continue
        done.add(key)
        last = group(key)
        yield key
        for user in users[key]:
            left[user] -= 1
            if left[user] == 0:
                offer(user)
    if len(done) < len(uses):
        raise ValueError("definitions use each other: " + ", ".join(
            ".".join(key) for key in sorted(uses) if key not in done))


# ---- as a text

def parts_of(statement, keys):
    """The nodes of a chapter in turn, each with the path where it changes and the heads of modules
    that begin."""
    path, outer = None, []
    for key in keys:
        node = statement.repository.node(key)
        within = node.definition.outer if node.definition else []
        heads = [module for module in within if module not in outer or node.path != path]
        yield node, node.path if node.path != path else None, heads
        path, outer = node.path, within


def as_text(statement, keys):
    found = []
    for place, (chapter, members) in enumerate(statement.ordered(keys), 1):
        found += ["", f"==== {place}. {chapter.title}", ""]
        for node, path, heads in parts_of(statement, members):
            if path is not None:
                found += [f"-- ==== {path}", ""]
            for module in heads:
                found += module.lines
            indent = " " * (node.definition.indent if node.definition else 0)
            found += [f"{indent}-- {line}".rstrip() for line in node.comment]
            found += [*node.text, ""]
    found += ["==== From libraries", "", *statement.repository.told_outside(keys), ""]
    return "\n".join(found[1:])


# ---- figures

def count_table(statement):
    """The rows of `--count`."""
    everything = statement.all_keys()
    reached = [key for key in statement.reached if key[0] == "definition"]
    others = collections.Counter(key[0] for key in statement.reached)
    rows = [f"statement: {len(reached)} definitions, {statement.lines(reached)} lines; beside them "
            f"{others['type']} types, {others['constant']} constants, {others['trait']} traits "
            f"with {others['member']} members, {others['view']} of implementations",
            f"all: {len(everything)} definitions, {statement.lines(everything)} lines", "",
            "crate              statement           all",
            "              definitions lines  definitions lines"]
    for crate in statement.repository.crates:
        own = [key for key in everything if key[1] == crate]
        inside = [key for key in reached if key[1] == crate]
        if own:
            rows.append(f"{crate:16} {len(inside):8} {statement.lines(inside):5} {len(own):12} "
                        f"{statement.lines(own):5}")
    rows += ["", "command      definitions lines   by it alone"]
    for command in statement.outcomes:
        inside = [key for key in reached if command in statement.of[key]]
        alone = [key for key in inside if len(statement.of[key]) == 1]
        rows.append(f"{command:16} {len(inside):7} {statement.lines(inside):5} {len(alone):8} "
                    f"{statement.lines(alone):5}")
    two = [key for key in reached if {"run", "serve"} & statement.of[key]]
    rows.append(f"{'run or serve':16} {len(two):7} {statement.lines(two):5}")
    for names in APART:
        rest = [key for key in reached if not statement.of[key] or statement.of[key] - set(names)]
        title = " ".join(["without", *names])
        rows.append(f"{title:16} {len(rest):7} {statement.lines(rest):5}")
    return rows


def below(crates, name):
    """A crate, and all that it stands on, of the repository."""
    seen, todo = set(), [name]
    while todo:
        crate = todo.pop()
        if crate in crates and crate not in seen:
            seen.add(crate)
            todo += crates[crate]
    return seen


def crates_with(crates, calls):
    """The crates that stand on those of the calls, and all that they stand on."""
    homes = {key[1] for key in calls}
    parts = {name: below(crates, name) for name in crates}
    return set().union(*(part for part in parts.values() if homes & part))


def misplaced(statement):
    """Rows of the definitions that stand in the other's place: those of the statement in a folder
    of steps, and those of proofs alone outside of it. Crates that stand beside the calls, as those
    of a host do yet, have calls of their own, and what these promise stands where they put it."""
    rows = []
    crates = crates_with(statement.repository.crates, statement.calls)
    for file in statement.repository.files.values():
        if file.crate not in crates:
            continue
        for one in file.definitions:
            inside = definition_key(one) in statement.reached
            if inside == file.module.startswith(f"{STEPS}."):
                kind = "the statement" if inside else "proofs alone"
                rows.append(f"{one.path}:{one.line}: {one.name} is of {kind}")
    return rows


def file_table(statement):
    """The rows of `--files`: what each file of definitions has."""
    found = collections.defaultdict(list)
    for file in statement.repository.files.values():
        inside = [definition_key(one) in statement.reached for one in file.definitions]
        if inside:
            kind = "statement" if all(inside) else "both" if any(inside) else "proofs"
            found[kind].append(f"{file.path}: {sum(inside)} of {len(inside)}"
                               if kind == "both" else file.path)
    titles = {"statement": "the statement alone", "proofs": "definitions of proofs alone",
              "both": "both, with how many of the statement"}
    rows = []
    for kind, title in titles.items():
        rows += [f"{title}: {len(found[kind])} files", *(f"  {path}" for path in found[kind]), ""]
    wrong = misplaced(statement)
    return [*rows, f"in the other's place: {len(wrong)} definitions",
            *(f"  {row}" for row in wrong), ""]


def main(words):
    options = [word for word in words if word.startswith("--")]
    names = [word for word in words if not word.startswith("--")]
    if "--help" in options or "-h" in words:
        print(__doc__.strip())
        return 0
    page = names.pop() if options == ["--html"] and names else None
    command = names.pop(0) if names else None
    if names or command not in (None, *OUTCOMES) or options not in (
            [], ["--html"], ["--count"], ["--files"]) or (
            options == ["--html"]) != (page is not None):
        print(__doc__.strip(), file=sys.stderr)
        return 1
    statement = Statement(Repository())
    problems = statement.problems()
    for problem in problems:
        print(f"{problem.path}:{problem.line}: {problem.name} is not found", file=sys.stderr)
    keys = statement.reached if command is None else {
        key for key in statement.reached if command in statement.of[key]}
    if options == ["--count"]:
        print("\n".join(count_table(statement)))
    elif options == ["--files"]:
        print("\n".join(file_table(statement)).rstrip())
    elif options == ["--html"]:
        title = "The statement of hosed" + (f" {command}" if command else "")
        with open(page, "w", encoding="utf-8") as file:
            file.write(statement_page.Page(statement, keys, title).html())
    elif not options:
        print(as_text(statement, keys), end="")
    return 1 if problems else 0


if __name__ == "__main__":
    signal.signal(signal.SIGPIPE, signal.SIG_DFL)  # as `| head` wants it
    sys.exit(main(sys.argv[1:]))
