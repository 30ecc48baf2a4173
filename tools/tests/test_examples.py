"""Runs the examples of the documents that speak to a server, move VPNs, or read GraphML, without
the program. Where it stands in them, what it has to answer was worked out by the planner of bench/;
bench/judge/examples.py runs all examples with the program."""
import json
import os
import re
import subprocess
import tempfile
import unittest

import man
from tests.fake_server import FakeHosed, FakeServer

TOP = os.path.join(os.path.dirname(os.path.abspath(__file__)), "..", "..")
DOCUMENTS = ("README.md", "docs/GUIDE.md", "docs/OPERATING.md")


def text_of(name):
    with open(os.path.join(TOP, name), encoding="utf-8") as file:
        return file.read()


TEXT = "\n".join(text_of(name) for name in DOCUMENTS)

ADMITTED = "admitted 1 cost 26 at 1 links 0:3 1:4 2:5"
MOVED = """\
admitted 1 cost 42400 at 1 links 1:400 4:600 5:400 7:400 8:600 9:500 10:900 11:1000 12:1000
admitted 2 cost 3200 at 2 links 8:200 11:200
"""


def example(start):
    """The line of the documents, within a block or a sentence, that has this start."""
    found = re.findall(rf"^.*{re.escape(start)}[^`\n]*", TEXT, re.MULTILINE)
    assert len(found) == 1, f"{start}: {found}"
    return re.sub(r"^\$ ", "", found[0])


def told_after(line):
    """What a block says that a command writes."""
    return re.split(r"(?m)^(?:\$ |```)", TEXT.partition(f"$ {line}\n")[2])[0]


def run(line, folder=TOP):
    done = subprocess.run(
        ["bash", "-c", line], cwd=folder, stdin=subprocess.DEVNULL, stdout=subprocess.PIPE,
        stderr=subprocess.PIPE, universal_newlines=True, timeout=20,
    )
    return done.returncode, done.stdout


class Sessions(unittest.TestCase):
    def test_the_client(self):
        line = example("python3 tools/client.py 7000 beta")
        told = told_after(line).partition("epoch")[0]  # then the server writes its book
        replies = ["welcome at 1\n", *told.splitlines(True), "bye\n"]
        with FakeServer([reply.encode() for reply in replies]) as server:
            self.assertEqual(run(line.replace("7000", f"{server.port}")), (1, told))
        self.assertEqual(server.lines, ["hello beta", "admit a:8 b:8", "admit a:1 b:1", "bye"])

    def test_a_session_by_bash_alone(self):
        line = example("exec 3<>/dev/tcp/127.0.0.1/7000")
        told = told_after(line)
        self.assertEqual(told.splitlines()[1], ADMITTED)
        with FakeServer([reply.encode() for reply in told.splitlines(True)]) as server:
            self.assertEqual(run(line.replace("7000", f"{server.port}")), (0, told))
        self.assertEqual(server.lines, ["hello acme", "admit a:3 b:4 c:5", "bye"])

    def test_the_load(self):
        line = example("python3 tools/load.py 7000 4 10").rpartition("`")[2]
        with FakeHosed(workers=4) as server:
            line = line.replace("7000", f"{server.port}").replace(" 10", " 0.3")
            status, told = run(line)
        self.assertEqual((status, told.split()[0]), (0, "command"))


class Moves(unittest.TestCase):
    def test_script_and_result(self):
        script = example("backbone_audit.txt > examples/move/script.txt")
        without = example("grep -v 'link chi nyc' demo/backbone.txt")
        network = example("cat examples/move/moved.txt").partition("| ./hosed run")
        result = example("backbone_audit.txt examples/move/output.txt")
        with tempfile.TemporaryDirectory() as folder:
            os.makedirs(os.path.join(folder, "examples", "move"))
            for name in ("demo", "tools"):
                os.symlink(os.path.abspath(os.path.join(TOP, name)), os.path.join(folder, name))
            self.assertEqual(run(script, folder), (0, ""))
            self.assertEqual(run(without, folder), (0, ""))
            status, text = run(network[0], folder)
            self.assertEqual((status, text.count("\nlink "), text.count("admit ")), (0, 13, 2))
            path = os.path.join(folder, "examples", "move", "output.txt")
            with open(path, "w", encoding="ascii") as output:
                output.write(MOVED)
            self.assertEqual(run(result, folder), (0, told_after(result)))

    def test_a_link_out_of_service(self):
        """The reply to `down` stands first, and the epochs are one more."""
        line = example("--topology demo/backbone.txt --down 11").partition("| ./hosed run")[0]
        status, text = run(line)
        self.assertEqual(status, 0)
        self.assertIn("\nend\noperator down 11\nacme admit ", text)
        result = example("demo/backbone_audit.txt examples/move/out.txt")
        with tempfile.TemporaryDirectory() as folder:
            path = os.path.join(folder, "out.txt")
            with open(path, "w", encoding="ascii") as output:
                output.write("down 11 at 1\n" + MOVED.replace("ed 2 cost", "ed 3 cost")
                             .replace("at 2", "at 3").replace("ed 1 cost", "ed 2 cost")
                             .replace("at 1 ", "at 2 "))
            line = result.replace("examples/move/out.txt", path)
            self.assertEqual(run(line), (0, told_after(result)))


class Importers(unittest.TestCase):
    def test_the_alps(self):
        """What the program reads is the topology in demo/, and the script after it."""
        line = example("python3 tools/from_graphml.py demo").partition("| ./hosed run")[0]
        texts = []
        for name in ("alps.txt", "alps_script.txt"):
            with open(os.path.join(TOP, "demo", name), encoding="ascii") as file:
                texts.append(file.read())
        self.assertEqual(run(line), (0, "".join(texts)))

    def test_the_alps_in_json(self):
        """README.md makes what is in demo/, which tells the same nodes and links as the text."""
        line = example("python3 tools/from_graphml.py --json").partition(" > ")[0]
        told = text_of("demo/alps.json")
        self.assertEqual(run(line), (0, told))
        topology = json.loads(told)
        lines = [f"node {name}" for name in topology["nodes"]]
        lines += ["link {a} {b} {capacity} {length}".format(**link) for link in topology["links"]]
        text = text_of("demo/alps.txt").splitlines()
        self.assertEqual(lines, [line for line in text if line.startswith(("node ", "link "))])


class Sections(unittest.TestCase):
    def sections(self):
        """The name of each section, and the commands in it."""
        for name in DOCUMENTS:
            for section in re.split(r"(?m)^## ", text_of(name)):
                blocks = re.findall(r"(?ms)^```console\n(.*?)^```$", section)
                title = f"{name}, {section.splitlines()[0]}"
                yield title, re.findall(r"(?m)^\$ (.*)$", "".join(blocks))

    def test_each_has_a_folder_of_its_own(self):
        """It is made before all else, no other section names it, and nothing else is written to."""
        made = {}
        for title, commands in self.sections():
            folders = {folder for command in commands
                       for folder in re.findall(r"examples/([a-z_]+)", command)}
            written = {path for command in commands
                       for path in re.findall(r"> *([^\s|;&>]+)", command) if path != "/dev/full"}
            self.assertLessEqual(len(folders), 1, title)
            if written or folders:
                folder, = folders
                self.assertNotIn(folder, made, title)
                made[folder] = title
                self.assertEqual(commands[0], f"mkdir -p examples/{folder}", title)
        self.assertGreater(len(made), 8)

    def test_the_version(self):
        """CHANGELOG.md has that of the program, and it is the one that is installed."""
        version = man.read_usage(text_of("crates/hosed_program/src/texts.rt")).version.split()[1]
        self.assertIn(f"\n## {version}\n", text_of("CHANGELOG.md"))
        paths = re.findall(r"/usr/local/lib/hosed/([0-9.]+)", text_of("docs/OPERATING.md"))
        self.assertEqual(set(paths), {version})

    def test_the_unit(self):
        units = re.findall(r"(?ms)^```ini\n(.*?)^```$", text_of("docs/OPERATING.md"))
        self.assertIn(text_of("tools/systemd/hosed.service"), units)

    def test_units_name_what_is_installed(self):
        """docs/OPERATING.md, "Install", makes the program's name and a link to a release."""
        installed = re.compile(
            r"/usr/local/(bin/hosed|lib/hosed/current/(tools/\w+\.py|docs/\w+\.md))")
        for name in os.listdir(os.path.join(TOP, "tools", "systemd")):
            for path in re.findall(r"/usr/local/[^\s'\"]+", text_of(f"tools/systemd/{name}")):
                found = installed.fullmatch(path)
                self.assertTrue(found, f"{name}: {path}")
                if found[2]:
                    self.assertTrue(os.path.exists(os.path.join(TOP, found[2])), path)
