"""Runs the examples of README.md that make something of an audit."""
import os
import re
import subprocess
import tempfile
import unittest

from tests.runs import link_line

TOP = os.path.join(os.path.dirname(os.path.abspath(__file__)), "..", "..")
EXAMPLE = re.compile(r"^\$ (python3 tools/(\S+) [^|>\n]*) > \S+$", re.MULTILINE)
FOLDER = "examples/readme"
BEGINNINGS = {"page.py": "<!DOCTYPE html>\n", "graph.py": "graph {\n", "from_graphml.py": "{\n"}


class Examples(unittest.TestCase):
    def test_examples(self):
        """The page twice, of a text and of JSON with a tariff, on audits as the program tells
        them."""
        with open(os.path.join(TOP, "README.md"), encoding="utf-8") as file:
            examples = EXAMPLE.findall(file.read())
        self.assertEqual(sorted(tool for _, tool in examples), sorted([*BEGINNINGS, "page.py"]))
        with open(os.path.join(TOP, "demo", "backbone_audit.txt"), encoding="ascii") as file:
            audits = {"audit.txt": file.read(), "alps.txt": self.alps()}
        with open(os.path.join(TOP, "demo", "alps.json"), encoding="ascii") as file:
            audits["alps.json"] = file.read()
        with tempfile.TemporaryDirectory() as folder:
            for name, text in audits.items():
                with open(os.path.join(folder, name), "w", encoding="ascii") as file:
                    file.write(text)
            for line, tool in examples:
                with self.subTest(line=line):
                    ended = subprocess.run(
                        line.replace(FOLDER, folder).split(), cwd=TOP, stdout=subprocess.PIPE,
                        stderr=subprocess.DEVNULL, universal_newlines=True)
                    self.assertEqual(ended.returncode, 0)
                    self.assertTrue(ended.stdout.startswith(BEGINNINGS[tool]))

    def alps(self):
        """The audit of an empty book on the network of demo/alps.txt, where each link costs 1."""
        with open(os.path.join(TOP, "demo", "alps.txt"), encoding="ascii") as file:
            links = [line.split() for line in file if line.startswith("link ")]
        lines = [link_line(at, a, b, capacity, 1, 0)
                 for at, (_, a, b, capacity, _) in enumerate(links)]
        return "\n".join(["epoch 0", *lines, "live 0 cost 0", ""])
