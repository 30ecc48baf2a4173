"""Tests of hosed.bash: what bash is offered at the end of a line that was typed."""
import os
import re
import subprocess
import unittest

import man
import networks
from tests.runs import DEMO, TOOLS

STAR = os.path.join(DEMO, "star.txt")
ALPS = os.path.join(DEMO, "alps.json")
# As bash calls it: by the line and the place of the cursor.
SHELL = r"""
source "$1"
COMP_LINE=$2 COMP_POINT=${#2}
_hosed
printf '%s\n' "${COMPREPLY[@]}"
"""


def offered(line):
    done = subprocess.run(
        ["bash", "-c", SHELL, "bash", os.path.join(TOOLS, "hosed.bash"), line],
        cwd=os.path.join(TOOLS, ".."), stdin=subprocess.DEVNULL, stdout=subprocess.PIPE,
        stderr=subprocess.PIPE, universal_newlines=True, timeout=20)
    assert done.stderr == "" and done.returncode == 0, done.stderr
    return [word for word in done.stdout.split("\n") if word]


class Completion(unittest.TestCase):
    def test_the_commands_are_those_of_the_program(self):
        usage = man.read_usage(networks.read_file(man.TEXTS)).text.partition("\n\n")[0]
        commands = re.findall(r"(?m)^(?:usage: | {7})hosed ([a-z]+)", usage)
        self.assertEqual(sorted(offered("hosed ")), sorted([*commands, "--help", "--version"]))
        for command in commands:
            takes = f"hosed {command} [--tariff NAME]" in usage
            self.assertEqual("--tariff" in offered(f"hosed {command} "), takes, command)
            self.assertEqual(offered(f"hosed {command} --tariff "),
                             list(networks.TARIFFS) if takes else [])

    def test_what_is_typed(self):
        for line, words in (
            ("hosed au", ["audit"]), ("./hosed --v", ["--version"]),
            ("hosed run --t", ["--tariff"]), ("hosed check --tariff h", ["hops"]),
            ("hosed audit demo/star.t", ["demo/star.txt"]),
            ("hosed audit --tariff hops demo/star.txt READ", ["README.md"]),
            ("hosed price READ", ["README.md"]), ("hosed gen ", []), ("hosed gen 1 ", []),
            ("hosed serve demo/star.txt README.md ", []), ("hosed run a ", []),
            (f"hosed prove {STAR} ", ["a:", "b:", "c:", "h:"]),
            (f"hosed prove {STAR} a:3 b", ["b:"]), (f"hosed prove {STAR} a:3", []),
            (f"hosed prove --tariff hops {ALPS} mil", ["milan:", "milan-2:"]),
            ("hosed prove demo/nothing ", []), ("hosed fly ", []),
            ("hosed host --", ["--tariff", "--operator", "--quiet", "--standby"]),
            ("hosed host --tariff hops --o", ["--operator"]),
            ("hosed host --operator READ", ["README.md"]),
            ("hosed host --operator /x --q", ["--quiet"]),
            ("hosed host --operator /x --quiet --s", ["--standby"]),
            ("hosed host --quiet --standby READ", ["README.md"]),
            ("hosed host --standby /x --", ["--standby-seconds", "--standby-or-stop"]),
            ("hosed host --standby /x --standby-seconds ", []),
            ("hosed host --standby /x --standby-seconds 9 --", ["--standby-or-stop"]),
            ("hosed host --standby /x --standby-or-stop READ", ["README.md"]),
            ("hosed host --standby /x demo/star.txt READ", ["README.md"]),
            ("hosed host --operator /x --quiet READ", ["README.md"]),
            ("hosed host --quiet demo/star.txt READ", ["README.md"]),
            ("hosed host demo/star.txt a 7000 READ", ["README.md"]), ("hosed host 7 --q", []),
            ("hosed move --l", ["--live"]), ("hosed move --tariff hops --l", ["--live"]),
            ("hosed move --live READ", ["README.md"]),
            (f"hosed cut --tariff hops {STAR} READ", ["README.md"]),
            (f"hosed cut {STAR} a READ", []), (f"hosed cut {STAR} a 3 READ", ["README.md"]),
            (f"hosed cut {STAR} a 3 b READ", []),
            (f"hosed move {STAR} a {STAR} READ", ["README.md"]),
            (f"hosed move --tariff hops --live {STAR} a {STAR} READ", ["README.md"]),
            (f"hosed move --live {STAR} a {STAR} b READ", []),
        ):
            self.assertEqual(offered(line), words, line)
