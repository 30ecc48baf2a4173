"""Tests of man.py: a small usage text, and that of the program, of which no line is lost."""
import os
import re
import tempfile
import unittest

import man
import networks
from tests.runs import within

SOURCE = r'''/// What `--help` is answered with.
pub const HELP: &str = "\
usage: hosed run [JOURNAL] < FILE
       hosed --help | --version

hosed run reads \"lines\", with - and \\,
and more:

    a line                      its meaning
    .end                        'end'

.A last one.

A TOPOLOGY whose name ends in .json is JSON.

order   an admission
epoch   how many

status  comes           last line
0       all was read    none
";

/// What `--version` is answered with.
pub const VERSION: &str = "hosed 7.8.9\n";
'''
PAGE = r'''.\" Made by tools/documents/man.py of the program's usage text.
.TH HOSED 1 "" "hosed 7.8.9" "User Commands"
.SH NAME
hosed \- provisions virtual private networks in the hose model, with proved promises
.SH SYNOPSIS
.nf
hosed run [JOURNAL] < FILE
hosed \-\-help | \-\-version
.fi
.SH DESCRIPTION
.SS run
.PP
hosed run reads "lines", with \- and \e,
and more:
.PP
.nf
    a line                      its meaning
    .end                        'end'
.fi
.PP
\&.A last one.
.SS TOPOLOGY
.PP
A TOPOLOGY whose name ends in .json is JSON.
.SH WORDS
.PP
.nf
order   an admission
epoch   how many
.fi
.SH EXIT STATUS
.PP
.nf
status  comes           last line
0       all was read    none
.fi
.SH SEE ALSO
docs/GUIDE.md and docs/OPERATING.md of the release.
'''


def source():
    return networks.read_file(man.TEXTS)


class Pages(unittest.TestCase):
    def test_a_small_text(self):
        self.assertEqual(man.page(man.read_usage(SOURCE)), PAGE)

    def test_what_help_writes_gives_the_same_page(self):
        usage = man.read_usage(SOURCE)
        self.assertEqual(man.read_usage(usage.text, "hosed 7.8.9"), usage)

    def test_no_line_of_the_program_is_lost(self):
        usage = man.read_usage(source())
        lines = [line for line in man.page(usage).split("\n") if not line.startswith(".")]
        plain = [re.sub(r"^\\&", "", line).replace("\\-", "-").replace("\\e", "\\")
                 for line in lines]
        told = [re.sub("^(usage: | {7}(?=hosed ))", "", line) for line in usage.text.split("\n")]
        self.assertEqual(plain[1:-2], [line for line in told if line])
        self.assertRegex(usage.version, r"^hosed [0-9]+\.[0-9]+\.[0-9]+$")

    def test_each_command_has_its_part(self):
        usage = man.read_usage(source())
        commands = set(re.findall(r"(?m)^(?:usage: |       )hosed ([a-z]+)", usage.text))
        parts = set(re.findall(r"(?m)^\.SS (\w+)$", man.page(usage)))
        self.assertLessEqual(commands - {"follow"}, parts)  # which stands with `ship`


class Program(unittest.TestCase):
    def run_on(self, *words):
        return within("man.py", man.main, *words)

    def test_the_text_itself(self):
        status, output, _ = within("man.py", man.main, "--usage")
        self.assertEqual((status, output[:17]), (0, "usage: hosed run "))
        self.assertTrue(output.endswith("\n"))

    def test_the_check_of_a_page(self):
        with tempfile.TemporaryDirectory() as folder:
            texts, page = os.path.join(folder, "texts.rt"), os.path.join(folder, "hosed.1")
            for path, text in ((texts, SOURCE), (page, PAGE)):
                with open(path, "w", encoding="ascii") as file:
                    file.write(text)
            self.assertEqual(self.run_on(texts), (0, PAGE, ""))
            self.assertEqual(self.run_on(texts, "--check", page), (0, "", ""))
            status, output, _ = self.run_on(texts, "--version", "hosed 7.8.10", "--check", page)
            self.assertEqual((status, output), ("man.py: " + page + " is another page", ""))
            status, output, error = self.run_on(page)
            self.assertEqual((status, output, error.count("\n")), (2, "", 1))
            self.assertIn("there is no text HELP in it", error)
