"""Tests of what makes parts of the documents: the markers, the parts, and that no part of the
repository's documents is stale."""
import os
import shutil
import tempfile
import unittest
from unittest import mock

import imports
import make_documents
from definitions import TOP
from resolve import Repository
from statement import Statement
from tests.test_lines import write_lines
from tests.test_statement import GO, TREE, whole, write_tree

TEXTS = """\
pub const HELP: &str = "\\
usage: go [NAME]
       go --help

go goes.

order   an admission
side    the nodes `a`

A name is short.
";
"""

class Parts(unittest.TestCase):
    def test_replaced(self):
        line = "It has <!-- made: x -->old<!-- end of x -->, and so on.\n"
        self.assertEqual(make_documents.replaced(line, "x", "new"),
                         "It has <!-- made: x -->new<!-- end of x -->, and so on.\n")
        block = "a\n<!-- made: x -->\nold\nold\n<!-- end of x -->\nb\n"
        self.assertEqual(make_documents.replaced(block, "x", "new\n"),
                         "a\n<!-- made: x -->\nnew\n<!-- end of x -->\nb\n")
        for text in ("", "<!-- made: x -->", "<!-- end of x --><!-- made: x -->", line + line,
                     line.replace("of x", "of y")):
            with self.subTest(text=text), self.assertRaises(make_documents.MarkerMissing):
                make_documents.replaced(text, "x", "new")

    def test_the_usage(self):
        with tempfile.TemporaryDirectory() as folder:
            write_tree(folder, {make_documents.TEXTS: TEXTS})
            self.assertEqual(make_documents.usage_text(folder),
                             "```\nusage: go [NAME]\n       go --help\n```")
            self.assertEqual(make_documents.glossary_text(folder),
                             "| Word | Meaning |\n|---|---|\n| order | an admission |\n"
                             "| side | the nodes `a` |")

    def test_the_length(self):
        with tempfile.TemporaryDirectory() as folder:
            write_tree(folder, TREE)
            made = Statement(Repository(folder), [GO], {"go": "GoOutcome", "stay": "StayOutcome"})
            self.assertEqual(make_documents.length_text(made),
                             "8 of 12 definitions, 27 of 36 lines")

    def test_what_an_import_is_used_for(self):
        text = "use A.{◌≡◌, f, g as h, Shape}\nuse A.Sizes\nuse A.Lines as lines\npub use A.{k}\n" \
               "-- f\nx : ℕ\nx = %s\n"
        for body, names in (("1", ["◌≡◌", "f", "h", "Shape", "Sizes", "lines"]),
                            ("f ≡ h Shape", ["Sizes", "lines"]),
                            ("lines.a (Sizes.b) g", ["◌≡◌", "f", "h", "Shape"])):
            with self.subTest(body=body):
                self.assertEqual(imports.unused(text % body), names)

    def test_what_names_a_constructor(self):
        enum = "pub enum Line {\n    /// Cut off.\n    Long,\n    Short {\n    },\n}\n"
        use = "use Rattle.base.specs.declared.line.Line.TheVariants"
        for text, is_source, named in (
                (enum, True, True), (enum.replace("Long", "Large"), True, False),
                ("pub enum Other {\n    Long,\n}\n", True, False),
                ("    let line = Line::Long;\n", True, True), ("// Line::Long\n", True, False),
                ("    ensures { result ≡ Line.Long }\n", True, True),
                ("    let long = Long;\n", True, False),
                (use + ".{Short, Long}\n", False, True), (use + ".{Long as Cut}\n", False, True),
                (use + ".{Longest}\n", False, False), (use + ".{Short}\nf = Long\n", False, False),
                (use + " as line\nf line.Long = 0\n", False, True),
                (use + " as line\nf line.Short = 0\n-- line.Long\n", False, False),
                (use + " as line\nf in_line.Long = 0\n", False, False)):
            with self.subTest(text=text):
                found = make_documents.names_constructor(text, is_source, "Line", "Long")
                self.assertEqual(found, named)

    def test_the_crates(self):
        tree = {"crates.txt": "base:\ntop: base\nlow: base\n",
                "crates/base/src/lib.rt": "//! A base: for all\n//! above it.\n//!\n//! More.\n",
                "crates/top/src/main.rt": "//! The top, as in:\n//!\n//! ```\nuse base;\n",
                "crates/low/src/lib.rt": "use base;\n"}
        with tempfile.TemporaryDirectory() as folder:
            write_tree(folder, tree)
            self.assertEqual(make_documents.crates_text(folder), """\
| Crate | What it is |
|---|---|
| `base` | A base: for all above it. |
| `top` | The top, as in. |
| `low` |  |""")

    def test_the_places(self):
        with tempfile.TemporaryDirectory() as folder, \
                mock.patch.object(make_documents, "EXAMPLES", [("Line", "Long"), ("Line", "No")]):
            write_tree(folder, TREE)
            self.assertEqual(make_documents.places_text(folder), """\
| Crate | `Line::Long`: 2 | `Line::No`: 0 |
|---|---|---|
| `base` | `src/line.rt`, `specs/Sizes.antt` |  |""")

    def test_the_imports(self):
        with tempfile.TemporaryDirectory() as folder:
            write_tree(folder, TREE)
            self.assertEqual(imports.table(folder), imports.HEAD
                             + "| `base` |  |  |  |\n| `top` | base | base |  |\n")


class Sources(unittest.TestCase):
    def test_each_definition_has_a_comment(self):
        self.assertEqual([f"{file.path}: {one.name}" for file in whole().repository.files.values()
                          for one in file.definitions if not one.comment], [])

    def test_each_import_is_used(self):
        self.assertEqual(list(imports.tell_unused()), [])


class Documents(unittest.TestCase):
    def test_no_part_is_stale(self):
        self.assertEqual(make_documents.stale_parts(statement=whole()), [],
                         "run python3 tools/documents/make_documents.py")

    def test_a_part_that_is_stale_is_told_and_made_anew(self):
        """Over the documents of the repository and the small tree: each part differs, is written,
        and differs no more; so do those of its length once a definition has come."""
        with tempfile.TemporaryDirectory() as folder:
            write_tree(folder, {**TREE, make_documents.TEXTS: TEXTS})
            write_lines(folder)
            for document in make_documents.PARTS:
                os.makedirs(os.path.join(folder, os.path.dirname(document)), exist_ok=True)
                shutil.copy(os.path.join(TOP, document), os.path.join(folder, document))

            def stale(write=False):
                made = Statement(Repository(folder), [GO],
                                 {"go": "GoOutcome", "stay": "StayOutcome"})
                return make_documents.stale_parts(folder, write, made)

            parts = [(document, name) for document, names in make_documents.PARTS.items()
                     for name in names]
            self.assertEqual(stale(), parts)
            self.assertEqual(stale(write=True), parts)
            self.assertEqual(stale(), [])
            path = os.path.join(folder, "crates/base/specs/Shapes.antt")
            with open(path, "a", encoding="utf-8") as file:
                file.write("\nabbrev pub more : ℕ\nmore = 1\n")
            self.assertEqual(stale(write=True), [("README.md", "statement"),
                                                 ("docs/PROOFS.md", "statement")])
            with open(os.path.join(folder, "docs/PROOFS.md"), encoding="utf-8") as file:
                self.assertIn("-->8 of 13 definitions, 27 of 38 lines<!--", file.read())
