"""Tests of package.sh in a small repository, whose ./hosed builds a program that needs no proof."""
import os
import re
import subprocess
import tarfile
import tempfile
import unittest

TOP = os.path.join(os.path.dirname(os.path.abspath(__file__)), "..", "..")
# Builds a program where there is none, as ./hosed does; MORE says what is written behind it.
HOSED = """#!/bin/sh
home=$(dirname "$(readlink -f "$0")")
made=$home/crates/hosed_main/out/hosed_main
mkdir -p "${made%/*}"
[ -e "$made" ] || { cp /bin/true "$made"; echo "MORE" >>"$made"; }
echo "hosed 7.8.9"
"""
STATEMENT = """import sys
with open(sys.argv[2], "w") as file:
    file.write(f"{sys.argv[1]} is asked for\\n")
"""
AS = ["-c", "user.name=tests", "-c", "user.email=tests@localhost", "-c", "init.defaultBranch=main"]


def write(folder, name, text):
    path = os.path.join(folder, name)
    os.makedirs(os.path.dirname(path), exist_ok=True)
    with open(path, "w", encoding="utf-8") as file:
        file.write(text)


def make(folder, more=""):
    """A repository of what package.sh takes, with other texts."""
    for name in ("tools/package.sh", "tools/documents/man.py", "tools/networks.py",
                 "tools/hosed.bash", "crates/hosed_program/src/texts.rt"):
        with open(os.path.join(TOP, name), encoding="utf-8") as file:
            write(folder, name, file.read())
    for name in ("README.md", "CHANGELOG.md", "docs/GUIDE.md", "demo/star.txt",
                 "tools/tests/test_man.py", "tools/systemd/hosed.service", "bench/README.md",
                 "tools/tests/fake_server.py", "tools/documents/make_documents.py"):
        write(folder, name, f"{name}\n")
    write(folder, ".gitignore", "out/\n__pycache__/\n")
    write(folder, "hosed", HOSED.replace("MORE", more))
    write(folder, "tools/documents/statement.py", STATEMENT)
    for name in ("hosed", "tools/package.sh"):
        os.chmod(os.path.join(folder, name), 0o755)
    for words in (["init", "-q"], ["add", "-A"], ["commit", "-qm", "All"]):
        subprocess.run(["git", *AS, *words], cwd=folder, check=True)
    return folder


def packaged(folder, *words):
    """The status of the script of a repository, its output, and what it says of faults."""
    done = subprocess.run(
        [os.path.join(folder, "tools", "package.sh"), *words], stdin=subprocess.DEVNULL,
        stdout=subprocess.PIPE, stderr=subprocess.PIPE, universal_newlines=True, timeout=60)
    return done.returncode, done.stdout, done.stderr


class Packages(unittest.TestCase):
    def test_an_archive(self):
        with tempfile.TemporaryDirectory() as folder:
            one = make(os.path.join(folder, "one"))
            other = os.path.join(folder, "other")
            subprocess.run(["git", "clone", "-q", one, other], check=True)
            contents = []
            for repository, place in ((one, "first"), (other, "second")):
                status, _, error = packaged(repository, os.path.join(folder, place))
                self.assertEqual((status, error), (0, ""))
                path = os.path.join(folder, place, "hosed-7.8.9-x86_64.tar.gz")
                with open(path, "rb") as file:
                    contents.append(file.read())
            self.assertEqual(*contents)
            with tarfile.open(path) as archive:
                names = [item.name.partition("/")[2] for item in archive if item.isfile()]
                self.assertEqual({(item.uid, item.gid, item.uname) for item in archive},
                                 {(0, 0, "")})
            self.assertEqual(sorted(names), sorted([
                "CHANGELOG.md", "README.md", "SHA256SUMS", "demo/star.txt", "docs/GUIDE.md",
                "hosed", "hosed.1", "hosed.bash", "statement.html", "tools/networks.py",
                "tools/systemd/hosed.service"]))
            subprocess.run(["tar", "-xzf", path, "-C", folder], check=True)
            release = os.path.join(folder, "hosed-7.8.9-x86_64")
            with open(os.path.join(release, "SHA256SUMS"), encoding="ascii") as file:
                self.assertEqual([line.split()[1] for line in file],
                                 sorted(set(names) - {"SHA256SUMS"}))
            subprocess.run(["sha256sum", "--quiet", "-c", "SHA256SUMS"], cwd=release, check=True)
            with open(os.path.join(release, "statement.html"), encoding="ascii") as file:
                self.assertEqual(file.read(), "--html is asked for\n")
            with open(os.path.join(release, "hosed.1"), encoding="ascii") as file:
                self.assertIn('"hosed 7.8.9"', file.read())

    def test_each_tool_has_what_it_imports(self):
        """Whatever stands directly in tools/ goes into the archive, and takes no more than that."""
        kept, left_out = ({name for name in os.listdir(os.path.join(TOP, "tools", *folder))
                           if name.endswith(".py")} for folder in ([], ["documents"]))
        for name in kept:
            with open(os.path.join(TOP, "tools", name), encoding="utf-8") as file:
                imported = re.findall(r"^ *(?:import|from) ([a-z_]+)", file.read(), re.MULTILINE)
            self.assertFalse({f"{one}.py" for one in imported} & left_out, name)
            self.assertFalse({"documents", "tests"} & set(imported), name)
        self.assertTrue({"client.py", "metrics.py", "page.py", "standby.py"} <= kept)

    def test_what_is_changed_is_not_packaged(self):
        with tempfile.TemporaryDirectory() as folder:
            make(folder)
            write(folder, "README.md", "changed\n")
            self.assertEqual(packaged(folder),
                             (1, "", "package: files differ from the commit's\n"))
            self.assertFalse(os.path.exists(os.path.join(folder, "out")))

    def test_the_check(self):
        with tempfile.TemporaryDirectory() as folder:
            alike = make(os.path.join(folder, "alike"))
            status, output, _ = packaged(alike, "--check")
            self.assertEqual(status, 0)
            here, there = (line.split(":")[1].split()[0] for line in output.splitlines())
            self.assertEqual(here, there)
            # A program that has the folder in which it was built.
            differs = make(os.path.join(folder, "differs"), more="$home")
            status, output, error = packaged(differs, "--check")
            self.assertEqual(status, 1)
            self.assertIn("two builds of one commit differ", error)
