#!/usr/bin/env python3
"""Compares how the program reads topologies in JSON with a judge that is made of Python's json.

The topologies are made by a seed. Most of them are changed: what they hold, as a name that repeats,
a number past its limit or a member that is missing, or the bytes of the text. Of each the judge
says the last line that the program has to write. The audit of a journal of another network tells
the digest of the topology that was read, so each name, link and number is compared.

What the judge takes from json, and where the program reads otherwise:

  a member that repeats        the last one counts, as in json
  NaN, Infinity, -Infinity     no JSON; json takes them
  7.0, 7e0, -7, -0, 2 ** 64    numbers, but none that a link may have; json takes -0 for 0
  a number too large for a     no JSON, wherever it stands; json takes it for infinite, or for a
    float                      whole number
  a surrogate that is alone    no JSON, wherever it stands; json takes it
  more than 127 brackets       no JSON; json takes about a thousand
    inside one another
  bytes that are not UTF-8, a  no JSON; json looks for UTF-16 and UTF-32, and passes over a mark
    mark before the text         where it is given bytes

Prints each topology that was answered otherwise, how often each answer was wanted, and how many
were compared; ends with status 1 where one differs or an answer was never wanted.

usage: bench/judge/json_texts.py [-n COUNT] [-s SEED] [-j JOBS] [PROGRAM]
    COUNT (100000), SEED (1), JOBS (2)    how many topologies, the first one's seed, at once
    PROGRAM (./hosed)                     as seen from the top of the repository
"""
import collections
import hashlib
import json
import math
import multiprocessing
import os
import random
import re
import subprocess
import sys
import tempfile

sys.path.insert(0, os.path.join(os.path.dirname(os.path.abspath(__file__)), "..", "parts"))
from usage import TOP, search_of, tell_usage

os.chdir(TOP)
MOST_NODES, MOST_LINKS, MOST_BYTES = 512, 2048, 16
MOST = {"capacity": 1_000_000_000, "length": 1_000_000, "cost": 1_000_000}
NAME = re.compile(r"[a-z0-9-]{1,16}")
DEEPEST = 127
OTHER = "node another\nend\n"  # the network of the journal
ANSWERS = ("read", "json", "nodes", "nodes I", "links", "links I")

# ---- the judge


class NoJson(Exception):
    """The text is no JSON, as the program reads it."""


class NotWhole:
    """A number that is not told by digits alone, or is too great for 64 bits."""


def whole(text):
    if len(text) <= 20 and not text.startswith("-") and int(text) < 2**64:
        return int(text)
    return broken(text)


def broken(text):
    if math.isinf(float(text)):
        raise NoJson
    return NotWhole()


def no_constant(text):
    raise NoJson


def make_sure(value):
    """That no text of a value has a surrogate that is alone; objects inside were looked at."""
    if isinstance(value, str):
        if any("\ud800" <= letter <= "\udfff" for letter in value):
            raise NoJson
    elif isinstance(value, list):
        for item in value:
            make_sure(item)


def members(pairs):
    for name, value in pairs:
        make_sure(name)
        make_sure(value)
    return dict(pairs)


def deepest(text):
    """How many brackets stand inside one another, outside of strings."""
    depth = most = 0
    for part in re.finditer(r'"(?:[^"\\]|\\.)*"?|[\[{]|[\]}]', text, re.DOTALL):
        if part[0] in "[{":
            depth += 1
            most = max(most, depth)
        elif part[0] in "]}":
            depth -= 1
    return most


def value_of(data):
    try:
        text = data.decode("utf-8")
        if deepest(text) > DEEPEST:
            raise NoJson
        value = json.loads(text, object_pairs_hook=members, parse_int=whole, parse_float=broken,
                           parse_constant=no_constant)
        make_sure(value)
        return value
    except (UnicodeDecodeError, json.JSONDecodeError):
        raise NoJson from None


def is_up_to(number, most):
    return type(number) is int and 1 <= number <= most


def link_of(value, names):
    """The words of a link after its names; None where the value tells none."""
    if not isinstance(value, dict):
        return None
    ends = [value.get("a"), value.get("b")]
    if any(not isinstance(end, str) or end not in names for end in ends) or ends[0] == ends[1]:
        return None
    numbers = [value.get("capacity"), value.get("length")]
    numbers.append(value["cost"] if "cost" in value else numbers[1])
    if not all(map(is_up_to, numbers, MOST.values())):
        return None
    return ends + numbers


def answer_of(data):
    """The digest of the topology, or the last line of a refusal without its first word."""
    try:
        value = value_of(data)
    except NoJson:
        return "json"
    if not isinstance(value, dict):
        return "json"
    nodes = value.get("nodes")
    if not isinstance(nodes, list) or not 1 <= len(nodes) <= MOST_NODES:
        return "nodes"
    names = {}
    for place, name in enumerate(nodes):
        if not isinstance(name, str) or not NAME.fullmatch(name) or name in names:
            return f"nodes {place}"
        names[name] = place
    links = value.get("links")
    if not isinstance(links, list) or len(links) > MOST_LINKS:
        return "links"
    lines = [f"node {name}\n" for name in nodes]
    for place, link in enumerate(links):
        words = link_of(link, names)
        if words is None:
            return f"links {place}"
        lines.append(f"link {' '.join(map(str, words))}\n")
    return hashlib.sha256("".join(lines + ["end\n"]).encode()).hexdigest()


# ---- the topologies


def name_of(chance, place):
    kinds = (f"n{place}", f"{place}", f"node-{place}", f"n-{place:014}")
    return chance.choice(kinds)


def number_up_to(chance, most):
    return chance.choice((1, most, chance.randint(1, most), chance.randint(1, 99)))


def topology(chance):
    """Names, and links as lists of members."""
    size = chance.random()
    if size < 0.003:
        nodes, links = chance.choice((511, 512, 513)), chance.choice((0, 2047, 2048, 2049))
    else:
        nodes, links = chance.randint(1, 6), chance.randint(0, 6)
    names = [name_of(chance, place) for place in range(nodes)]
    lists = []
    for _ in range(links if nodes > 1 else 0):
        a, b = chance.sample(names, 2)
        link = [["a", a], ["b", b]]
        link += [[member, number_up_to(chance, MOST[member])] for member in ("capacity", "length")]
        if chance.random() < 0.5:
            link.append(["cost", number_up_to(chance, MOST["cost"])])
        chance.shuffle(link)
        lists.append(link)
    return names, lists


WRONG_NUMBERS = ("0", "-1", "-0", "7.0", "7e0", "1E2", "1000000001", "1000001", "1000000000",
                 "1000000", "18446744073709551615", "18446744073709551616", "9" * 40, "1e400",
                 "9" * 400, "1e308", "-1e400", "0.1e1", "07", "+7", "7.", ".7", "7e", "NaN",
                 "Infinity", "-Infinity", "null", "true", '"7"', "[7]", "{}", "1e-400", "0e0")
WRONG_NAMES = ('""', '"A"', '"a b"', '"a_b"', '"' + "x" * 16 + '"', '"' + "x" * 17 + '"', "null",
               "1", "[]", '["a"]', "{}", '"\\ud800"', '"\\ud83d\\ude00"', '"\\udc00\\ud800"',
               '"\\u0061"', '"\u00e9"', '"a\\u0000"', '"\\u00e9"', '"-"', '"\\x61"', '"a\n"',
               '"\\u006"', '"\u007f"', '"\\/"')
PASSED_OVER = ("1", "null", '"text"', "[]", "{}", "[1,2,[3,{}]]", '{"nodes":[]}', "1e400",
               '"\\ud800"', '"\\ud83d\\ude00"', "-0", "NaN", "[" * 60 + "]" * 60,
               "[" * 126 + "]" * 126, "[" * 127 + "]" * 127, "[" * 10000 + "]" * 10000,
               '{"a":' * 126 + "1" + "}" * 126, '"\\ud800\\ud800"', "9" * 310, "0.0001e312")


def spelled(chance, text):
    """A string that holds a text, with some of its letters as escapes."""
    letters = []
    for letter in text:
        if chance.random() < 0.02:
            code = f"{ord(letter):04x}"
            letters.append("\\u" + (code.upper() if chance.random() < 0.5 else code))
        else:
            letters.append(letter)
    return '"' + "".join(letters) + '"'


def made(chance):
    """The text of a topology, in which some things may be wrong."""
    names, lists = topology(chance)
    nodes = [spelled(chance, name) for name in names]
    links = [[[member, spelled(chance, value) if isinstance(value, str) else str(value)]
              for member, value in link] for link in lists]
    whole_members = []
    for _ in range(chance.choice((0, 0, 1, 1, 1, 2, 3))):
        change = chance.randrange(12)
        if change == 0:
            nodes[chance.randrange(len(nodes))] = chance.choice(WRONG_NAMES)
        elif change == 1:
            nodes[chance.randrange(len(nodes))] = chance.choice(nodes)
        elif change == 2:
            del nodes[chance.randrange(len(nodes))]
        elif change == 3:
            whole_members.append((chance.choice(("nodes", "links", "Nodes", "more")),
                                  chance.choice(("[]", "{}", "null", "1", '["a"]', "[{}]", '"a"'))))
        elif change == 4:
            whole_members.append(("more", chance.choice(PASSED_OVER)))
        elif change == 5:
            whole_members.append((chance.choice(("nodes", "links")), None))
        elif links and change == 6:
            links[chance.randrange(len(links))] = chance.choice(
                ("[]", "null", "1", '"a"', "{}", '[["a","a"]]'))
        elif links:
            link = chance.choice(links)
            if isinstance(link, str):
                continue
            member = chance.choice(link)
            if change == 7:
                member[1] = chance.choice(WRONG_NAMES if member[0] in "ab" else WRONG_NUMBERS)
            elif change == 8:
                member[1] = chance.choice(nodes) if nodes and member[0] in "ab" else "1"
            elif change == 9:
                link.remove(member)
            elif change == 10:
                link.append([chance.choice(("a", "b", "length", "cost", "A", "more")),
                             chance.choice((*WRONG_NUMBERS, *nodes))])
            else:
                link.append(["more", chance.choice(PASSED_OVER)])
        if not nodes:
            break
    gap = chance.choice(("", " ", "\n", "\t", "\r\n "))
    texts = [link if isinstance(link, str)
             else "{" + f",{gap}".join(f'"{name}":{gap}{value}' for name, value in link) + "}"
             for link in links]
    parts = [("nodes", f"[{gap}" + f",{gap}".join(nodes) + "]"),
             ("links", "[" + f"{gap},".join(texts) + f"{gap}]")]
    for name, value in whole_members:
        if value is None:
            parts = [part for part in parts if part[0] != name]
        else:
            parts.insert(chance.randint(0, len(parts)), (name, value))
    if chance.random() < 0.3:
        chance.shuffle(parts)
    text = "{" + f",{gap}".join(f'"{name}"{gap}:{value}' for name, value in parts) + "}"
    if chance.random() < 0.01:
        text = chance.choice(("", " ", "[]", "null", "7", '"nodes"', f"[{text}]", text + text,
                              text + ",", text + "\n", " " + text, "\ufeff" + text, text[:-1]))
    return text


PIECES = (b'"', b"\\", b"{", b"}", b"[", b"]", b",", b":", b"0", b"1", b"-", b".", b"e", b" ",
          b"\x00", b"\x1f", b"\x7f", b"\x80", b"\xff", b"\xc3\xa9", b"\xed\xa0\x80", b"\xf0\x9f",
          b"\\u0061", b"\\ud83d", b"//", b"null", b"a", b"\xef\xbb\xbf", b"\xc0\x80")


def mutated(chance):
    """A topology in JSON; the bytes of one of three were changed."""
    text = made(chance)
    if chance.random() < 0.004:
        return text.encode(chance.choice(("utf-16", "utf-16-le", "utf-32", "utf-8-sig")))
    data = bytearray(text.encode())
    if chance.random() < 0.67 or not data:
        return bytes(data)
    for _ in range(chance.choice((1, 1, 1, 2, 4))):
        place = chance.randrange(len(data) + 1)
        change = chance.randrange(4)
        if change == 0:
            data[place:place + 1] = b""
        elif change == 1:
            data[place:place] = chance.choice(PIECES)
        elif change == 2:
            data[place:place + 1] = chance.choice(PIECES)
        else:
            end = min(len(data), place + chance.randint(1, 30))
            data[place:place] = data[place:end]
    return bytes(data)


# ---- the program


def kind_of(answer):
    if len(answer) == 64:
        return "read"
    return answer if answer in ANSWERS else answer.split()[0] + " I"


def differences(program, seeds):
    """How often each answer was wanted, and what came otherwise: the seed, wanted, what came."""
    wanted, found = collections.Counter(), []
    with tempfile.TemporaryDirectory() as folder:
        def run(*words, text=b""):
            done = subprocess.run([program, *words], input=text, capture_output=True, cwd=folder,
                                  timeout=60, check=False)
            return done.returncode, done.stdout.decode(errors="replace")

        if run("run", "journal", text=OTHER.encode()) != (0, ""):
            sys.exit("json_texts: no journal could be begun")
        kept = hashlib.sha256(OTHER.encode()).hexdigest()
        for seed in seeds:
            data = mutated(random.Random(seed))
            with open(os.path.join(folder, "topology.json"), "wb") as file:
                file.write(data)
            answer = answer_of(data)
            wanted[kind_of(answer)] += 1
            if len(answer) == 64:
                line = 5, f"journal other {kept} {answer}\n"
            else:
                line = 2, f"topology {answer}\n"
            came = run("audit", "topology.json", "journal")
            if came != line:
                found.append((seed, line, came))
    return wanted, found


def main():
    options = search_of(__doc__, 100_000)
    end = options.seed + options.count
    shares = [(options.program, range(options.seed + job, end, options.jobs))
              for job in range(options.jobs)]
    with multiprocessing.Pool(options.jobs) as pool:
        parts = pool.starmap(differences, shares)
    wanted = sum((part[0] for part in parts), collections.Counter())
    found = sorted(difference for part in parts for difference in part[1])
    for seed, line, came in found:
        print(f"topology of seed {seed}:\n  wanted: {line!r}\n  found:  {came!r}")
    for answer in ANSWERS:
        print(f"{wanted[answer]:8} {answer}")
    print(f"{options.count - len(found)} of {options.count} as wanted")
    sys.exit(1 if found or not all(wanted[answer] for answer in ANSWERS) else 0)


if __name__ == "__main__":
    tell_usage(__doc__)
    main()
