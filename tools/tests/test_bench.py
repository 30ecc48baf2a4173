"""Each script of bench/ answers `--help` with how it is used, and does nothing else; and the index
of bench/ has each file."""
import glob
import os
import re
import subprocess
import unittest
from concurrent.futures import ThreadPoolExecutor

TOP = os.path.join(os.path.dirname(os.path.abspath(__file__)), "..", "..")
# Of bench/parts/ what is called as a program; all else is what other files take.
CALLED = {"bench/parts/measure.py", "bench/parts/reference.py"}


def files_of(folder):
    """The paths of the scripts and parts in a folder of bench/, from the top of the repository."""
    return [os.path.relpath(path, TOP) for pattern in ("*.py", "*.sh", "figures/*.sh")
            for path in glob.glob(os.path.join(TOP, "bench", folder, pattern))]


def all_scripts():
    return {path for path in files_of("*") if not path.startswith("bench/parts/")} | CALLED


def told(path):
    """A script's status, and what it writes."""
    done = subprocess.run(
        [os.path.join(TOP, path), "--help"], stdin=subprocess.DEVNULL, stdout=subprocess.PIPE,
        stderr=subprocess.STDOUT, universal_newlines=True, timeout=60)
    return done.returncode, done.stdout


class Index(unittest.TestCase):
    def test_each_file_stands_in_its_folders_table(self):
        with open(os.path.join(TOP, "bench", "README.md"), encoding="utf-8") as file:
            sections = dict(re.findall(r"(?ms)^## bench/(\w+)/:(.*?)(?=^## |\Z)", file.read()))
        for folder, section in sections.items():
            rows = [row.split("|")[1] for row in section.splitlines() if row.startswith("| `")]
            named = re.findall(r"`([^`]+)`", " ".join(rows))
            there = [os.path.relpath(path, f"bench/{folder}") for path in files_of(folder)]
            self.assertEqual(sorted(named), sorted(there), folder)
        folders = os.listdir(os.path.join(TOP, "bench"))
        self.assertEqual(sorted(sections), sorted(set(folders) - {"README.md", "out"}))


class Paths(unittest.TestCase):
    def test_each_file_that_a_script_names_is_there(self):
        for path in all_scripts() | set(files_of("parts")):
            with open(os.path.join(TOP, path), encoding="utf-8") as file:
                text = file.read()
            named = re.findall(r"\b(?:bench|tools|demo)/[\w/.-]+\.(?:py|sh|c|rs|txt)\b", text)
            beside = re.findall(r'\$\(dirname "\$0"\)/([\w./]+)', text)
            named += [os.path.relpath(os.path.join(TOP, os.path.dirname(path), one), TOP)
                      for one in beside if one.endswith(".sh")]
            for name in named:
                self.assertTrue(os.path.exists(os.path.join(TOP, name)), f"{path}: {name}")


class Help(unittest.TestCase):
    def test_each_script(self):
        scripts = sorted(all_scripts())
        self.assertGreater(len(scripts), 40)
        for path in scripts:  # before any is run, which would do what it does
            with open(os.path.join(TOP, path), encoding="utf-8") as file:
                self.assertRegex(file.read(), r"tell_usage\(__doc__\)|!= --help \]", path)
        with ThreadPoolExecutor(4) as pool:
            for path, (status, text) in zip(scripts, pool.map(told, scripts)):
                with self.subTest(path=path):
                    self.assertEqual(status, 0, text)
                    self.assertIn(f"usage: {path}", text)
                    self.assertNotIn("Traceback", text)
