"""Runs of the tools for their tests: within the test's process, which is fast, or as programs."""
import io
import os
import subprocess
import sys
from unittest import mock

import networks
from lines import told

TOOLS = os.path.dirname(os.path.dirname(os.path.abspath(__file__)))
DEMO = os.path.join(TOOLS, "..", "demo")


def link_line(link, a, b, capacity, cost, load, *, out=False, at=None):
    """What is told of a link: in a reply at an epoch, else in an audit."""
    line = told("LinkState", link, a, b, capacity, cost, load, out, at or 0)
    return line[:-len(" at 0")] if at is None else line


def within(name, main, *words, text=""):
    """The status, the output, and what is told on standard error, of a tool's `main`."""
    output, error = io.StringIO(), io.StringIO()
    source = io.TextIOWrapper(io.BytesIO(text.encode()))
    argv = mock.patch("sys.argv", [os.path.join(TOOLS, name), *map(str, words)])
    streams = mock.patch.multiple(sys, stdin=source, stdout=output, stderr=error)
    with argv, streams:
        try:
            status = networks.status_of(main)
        except SystemExit as end:
            status = end.code
    return status, output.getvalue(), error.getvalue()


def program(name, *words, **how):
    """The same of a tool as a program."""
    done = subprocess.run(
        [sys.executable, os.path.join(TOOLS, name), *map(str, words)],
        stdout=subprocess.PIPE, stderr=subprocess.PIPE, universal_newlines=True, timeout=30, **how
    )
    return done.returncode, done.stdout, done.stderr
