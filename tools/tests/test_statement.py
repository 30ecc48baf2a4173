"""Tests of what reads definitions and says what the statement is: on a small tree of definitions,
worked out by hand, and on the repository."""
import contextlib
import functools
import io
import os
import tempfile
import unittest
from unittest import mock

import chapters
import definitions
import resolve
import statement
from statement import Statement

TREE = {
    "crates.txt": "# lowest first\nbase: sha2\ntop: base\n",
    "crates/base/src/lib.rt": "//! The base.\n",
    "crates/base/specs/Lib.antt": "pub mod Sizes\npub mod Shapes\n",
    # `far` and `Far` are in both files of base; the top names one of each.
    "crates/base/specs/Sizes.antt": """\
-- Sizes.
use Rattle.std.specs.Prelude.{◌≡◌, ℕ, ◌+◌, ◌≤◌, List}
use Rattle.base.specs.declared.limits.TheConstants.{MOST}
use Rattle.base.specs.declared.line.Line.{Line}
use Rattle.base.specs.declared.line.Line.TheVariants.{Long}

-- a size is small
abbrev pub IsSmall : ℕ → Type 0
IsSmall size = size ≤ MOST

abbrev pub far : ℕ → ℕ
far size = size + size

-- Not of the statement: it names one that is.
pub record Far (size : ℕ) : Type 0 where
  pub small : IsSmall size

-- the bytes of a line
abbrev pub line_size : Line → ℕ
line_size Long = 0
line_size line = 1
""",
    "crates/base/specs/Shapes.antt": """\
-- Shapes.
use Rattle.std.specs.Prelude.{◌≡◌, ℕ, List, map}
use Rattle.base.specs.declared.source.Source.{Ghosts as SourceGhosts}
use Rattle.base.specs.declared.line.Line.TheVariants as line
use Rattle.base.specs.declared.line.Line.{Line}
use Rattle.base.specs.declared.pile.Pile.{Pile}
pub use Rattle.base.specs.Sizes.{IsSmall}

-- ---- kinds

-- a kind of shape
pub data Kind : Type 0 where
  round square : Kind
  made : (of : Kind) → Kind

-- how far one is
abbrev pub far : Kind → ℕ
far round = 0
far square = 1
far (made of) = far of

-- a record of both
pub record Shape : Type 0 where
  pub kind : Kind
  pub far : ℕ
  pub is : far ≡ 0
  pub pile : Pile

-- not of the statement
abbrev pub unused : ℕ → ℕ
unused n = n

module _ {S : Type 0} (source : SourceGhosts S) (old new : S) where
  -- what was read is so
  pub record HasRead (kinds : List Kind) (Is : Line → Type 0) : Type 0 where
    pub content : source.content new ≡ source.content old
    pub all : map (λ far. far) kinds ≡ kinds
    pub is : (line' : Line) → Is line' → Is (line.Short 1)
""",
    "crates/base/src/limits.rt": "/// The most.\npub const MOST: u32 = LEAST + 1;\n"
                                 "\nconst LEAST: u32 = 1;\n\nconst OTHER: u32 = 2;\n",
    "crates/base/src/line.rt": "/// A line.\npub enum Line {\n    /// Cut off.\n    Long,\n"
                               "    Short(u8),\n}\n",
    "crates/base/src/pile.rt": """\
ghost use Rattle.std.specs.Prelude.{ℕ};
use crate::line::Line;
use std::marker::Model;

/// Seen as a number.
pub struct Pile {
    lines: Vec<Line>,
}

impl Model for Pile {
    ghost use Rattle.base.specs.Sizes.{Far};

    ghost Value = { ℕ };

    ghost invariant = { λ pile. Far pile };
}
""",
    "crates/base/src/source.rt": """\
ghost use Rattle.std.specs.Prelude.{List, ℕ};
ghost use Rattle.base.specs.Sizes.{far};

/// What is read.
pub trait Source {
    /// Its bytes.
    ghost content: { Self → List ℕ };

    /// How often it failed.
    ghost faults: { Self → ℕ };

    /// Not named by anything.
    ghost last: { Self → (n : ℕ) → far n ≡ n };

    fn take(&mut self) -> u8
        ensures more { faults self.old ≡ far (faults self.new) };
}
""",
    "crates/top/specs/Lib.antt": "pub mod Ends\n",
    "crates/top/specs/Ends.antt": """\
-- What calls come to.
use Rattle.std.specs.Prelude.{◌≡◌, ℕ, List, [], ◌∷◌}
use Rattle.base.specs.Shapes as shapes
use Rattle.base.specs.Shapes.{HasRead, IsSmall, Kind, Shape}
use Rattle.base.specs.Shapes.Kind.{round, made as built}
use Rattle.base.specs.declared.source.Source.{Ghosts}

-- what `go` comes to
pub record GoOutcome {S : Type 0} (source : Ghosts S) (old new : S) (status : ℕ) : Type 0 where
  pub read : HasRead source old new (round ∷ []) (λ far. ⊥)
  pub small : IsSmall status

-- what `stay` comes to
abbrev pub StayOutcome : Shape → Kind → Type 0
StayOutcome shape (built kind) = shapes.far kind ≡ shape.far
StayOutcome shape far = let small = 0 in far ≡ round

-- one of the two
abbrev pub Ends : {S : Type 0} → Ghosts S → S → S → Shape → Type 0
Ends source old new shape = GoOutcome source old new 0 × StayOutcome shape shape.kind
""",
    "crates/top/src/lib.rt": """\
ghost use Rattle.std.specs.Prelude.{◌≡◌, ◌≤◌};
ghost use Rattle.top.specs.Ends.{Ends};
use base::Source;

/// Goes.
pub fn go<S: Source>(source: &mut S, shape: &Shape) -> u8
    requires few { S.faults source.old ≡ 0 }
    ensures ends { Ends S.Source source.old source.new shape.now }
{
    let text = "ensures { nothing }";
    0
}
""",
}
GO = ("call", "top", "lib", "go")
# By hand: what `go` reaches, in an order in which each stands after those that it uses.
REACHED = {
    "crates/base/specs/Sizes.antt": ["IsSmall"],
    "crates/base/specs/Shapes.antt": ["Kind", "HasRead", "far", "Shape"],  # two of `stay` alone
    "crates/top/specs/Ends.antt": ["GoOutcome", "StayOutcome", "Ends"],
    "crates/base/src/limits.rt": ["LEAST", "MOST"],
    "crates/base/src/line.rt": ["Line"],
    "crates/base/src/pile.rt": ["Pile"],
    "crates/base/src/source.rt": ["Source", "Source.content", "Source.faults"],
    "crates/top/src/lib.rt": ["go"],
}
MISPLACED = [
    "crates/base/specs/Shapes.antt:30: unused is of proofs alone",
    "crates/base/specs/Sizes.antt:11: far is of proofs alone",
    "crates/base/specs/Sizes.antt:15: Far is of proofs alone",
    "crates/base/specs/Sizes.antt:19: line_size is of proofs alone",
]
LINES = 2 + 3 + 4 + 5 + 4 + 1 + 3 + 3 + 2  # of these definitions, and the head of one module


@functools.lru_cache(maxsize=1)
def whole():
    """The statement of the repository, with each definition looked up, for all tests that ask."""
    made = Statement(resolve.Repository())
    made.closure(made.all_keys())
    return made


def write_tree(folder, tree):
    for path, text in tree.items():
        os.makedirs(os.path.dirname(os.path.join(folder, path)), exist_ok=True)
        with open(os.path.join(folder, path), "w", encoding="utf-8") as file:
            file.write(text)


def small(changes=(), tree=None):
    """The statement of the small tree, with some texts changed: path, old, new."""
    tree = dict(TREE if tree is None else tree)
    for path, old, new in changes:
        assert tree[path].count(old) == 1, (path, old)
        tree[path] = tree[path].replace(old, new)
    with tempfile.TemporaryDirectory() as folder:
        write_tree(folder, tree)
        made = Statement(resolve.Repository(folder), [GO],
                         {"go": "GoOutcome", "stay": "StayOutcome"})
        made.problems()
        return made


class SmallTree(unittest.TestCase):
    def test_what_is_reached(self):
        made = small()
        self.assertEqual(made.problems(), [])
        found = {}
        for _, keys in made.ordered(made.reached):
            for key in keys:
                node = made.repository.node(key)
                found.setdefault(node.path, []).append(node.name)
        self.assertEqual({path: sorted(names) for path, names in found.items()},
                         {path: sorted(names) for path, names in REACHED.items()})
        for path in ("crates/base/specs/Shapes.antt", "crates/top/specs/Ends.antt",
                     "crates/base/src/limits.rt"):
            self.assertEqual(found[path], REACHED[path])

    def test_each_after_those_that_it_uses(self):
        made = small()
        place = {key: k for k, key in enumerate(
            key for _, keys in made.ordered(made.reached) for key in keys)}
        for key in place:
            for other in made.repository.node(key).uses:
                self.assertLess(place[other], place[key] + (other == key))
        self.assertEqual(max(place, key=place.get), GO)

    def test_types_stand_before_the_file_that_uses_them_first(self):
        made = small()
        paths = [made.repository.node(key).path.rpartition("/")[2]
                 for _, keys in made.ordered(made.reached) for key in keys]
        for first, then in (("limits.rt", "Sizes.antt"), ("pile.rt", "Shapes.antt"),
                            ("line.rt", "Shapes.antt")):
            place = len(paths) - paths[::-1].index(first)
            after = [path for path in paths[place:] if path.endswith(".antt")]
            self.assertEqual(after[0], then)

    def test_what_two_commands_share_alone(self):
        key = ("definition", "other", "Any", "Any")
        for of, title in (({"move", "cut"}, "Moved journals"), ({"move"}, "move"),
                          ({"move", "run"}, "What commands share"), ((), "The calls")):
            made = mock.Mock(spec=Statement, of={key: of}, outcomes=statement.OUTCOMES,
                             chapters=statement.chapters_of(statement.OUTCOMES))
            self.assertEqual(made.chapters[Statement.home(made, key)].title, title)
        self.assertEqual(set(chapters.ABOUT), set(statement.OUTCOMES))

    def test_by_command(self):
        made = small()
        of = {key[3]: made.of[key] for key in made.reached if key[0] == "definition"}
        self.assertEqual(of, {"IsSmall": {"go"}, "Kind": {"go", "stay"}, "far": {"stay"},
                              "Shape": {"stay"}, "HasRead": {"go"}, "GoOutcome": {"go"},
                              "StayOutcome": {"stay"}, "Ends": set()})

    def test_lines(self):
        made = small()
        self.assertEqual(made.lines(made.reached), LINES)
        self.assertEqual(made.lines(made.all_keys()), LINES + 2 + 2 + 3 + 2)

    def test_the_text(self):
        made = small()
        text = statement.as_text(made, made.reached)
        self.assertIn("-- a kind of shape\npub data Kind : Type 0 where\n", text)
        self.assertIn("type Pile is seen as ℕ\n", text)
        self.assertIn("Source.content : Self → List ℕ\n", text)
        self.assertIn("module _ {S : Type 0} (source : SourceGhosts S) (old new : S) where\n"
                      "  -- what was read is so\n", text)
        self.assertNotIn("unused", text)
        self.assertNotIn("Far (size", text)
        self.assertNotIn("nothing", text)
        self.assertIn("Rattle.std.specs.Prelude: List [] map ℕ ◌∷◌ ◌≡◌ ◌≤◌\n", text)

    def test_files_and_counts(self):
        made = small()
        self.assertEqual(statement.file_table(made), [
            "the statement alone: 1 files", "  crates/top/specs/Ends.antt", "",
            "definitions of proofs alone: 0 files", "",
            "both, with how many of the statement: 2 files",
            "  crates/base/specs/Shapes.antt: 4 of 5",
            "  crates/base/specs/Sizes.antt: 1 of 4", "",
            "in the other's place: 4 definitions", *(f"  {row}" for row in MISPLACED), ""])
        self.assertEqual(statement.count_table(made)[1], "all: 12 definitions, 36 lines")

    def test_what_others_than_some_commands_reach(self):
        with mock.patch.object(statement, "APART", (("go",), ("stay",), ("go", "stay"))):
            rows = statement.count_table(small())[-3:]
        self.assertEqual(rows, ["without go             5    17", "without stay           5    15",
                                "without go stay        1     2"])

    def test_what_stands_in_the_others_place(self):
        self.assertEqual(statement.misplaced(small()), MISPLACED)
        moved = {path.replace("specs/Sizes", "specs/steps/Sizes"):
                 text.replace("specs.Sizes", "specs.steps.Sizes") for path, text in TREE.items()}
        self.assertEqual(statement.misplaced(small(tree=moved)), [
            "crates/base/specs/Shapes.antt:30: unused is of proofs alone",
            "crates/base/specs/steps/Sizes.antt:8: IsSmall is of the statement"])


class Problems(unittest.TestCase):
    def told(self, path, old, new):
        return [problem.name for problem in small([(path, old, new)]).problems()]

    def test_names_that_are_not_there(self):
        ends, shapes = "crates/top/specs/Ends.antt", "crates/base/specs/Shapes.antt"
        for path, old, new, names in (
                (ends, "IsSmall status", "IsSmal status", ["IsSmal"]),
                (ends, "shapes.far kind", "shapes.near kind", ["shapes.near"]),
                (ends, "shape.far\n", "shape.width\n", [".width"]),
                (ends, "IsSmall, Kind, Shape}", "IsSmall, Kind, Shape, near}",
                 ["Rattle.base.specs.Shapes.near"]),
                (ends, "(built kind)", "(shapes.built kind)", ["shapes.built"]),
                (shapes, "line.Short 1", "line.Small 1", ["line.Small"]),
                (shapes, "Sizes.{IsSmall}", "Sizes.{IsLarge}",
                 ["Rattle.base.specs.Shapes.IsSmall", "Rattle.base.specs.Sizes.IsLarge"]),
                ("crates/top/src/lib.rt", "S.faults", "S.errors", ["S.errors"]),
                ("crates/base/src/limits.rt", "LEAST + 1", "LEST + 1", ["LEST"]),
                ("crates/base/src/line.rt", "Short(u8)", "Short(Byte)", ["Byte"])):
            with self.subTest(new=new):
                self.assertEqual(sorted(set(self.told(path, old, new))), names)

    def test_definitions_that_use_each_other(self):
        uses = {"a": {"b"}, "b": {"a"}, "c": set()}
        with self.assertRaises(ValueError):
            list(statement.topological(uses, lambda key: (0, key), lambda key: None))

    def test_usage(self):
        for words, status in ((["--help"], 0), (["walk"], 1), (["run", "audit"], 1),
                              (["--html"], 1), (["run", "--files", "--count"], 1)):
            out = io.StringIO()
            with contextlib.redirect_stdout(out), contextlib.redirect_stderr(out):
                self.assertEqual(statement.main(words), status)
            self.assertIn("usage: statement.py", out.getvalue())


class Reading(unittest.TestCase):
    def test_parameters(self):
        text = """\
use Rattle.std.specs.Prelude.{ℕ, List}

-- one
pub record R {A : Type 0} (a b : A)
    (c : List A) : Type 0 where
  pub x : A → A

abbrev pub f : {A : Type 0} → (A → A → A) → (n m : ℕ) → List A → ℕ
f g n m xs = n

module _ {A : Type 0} (x y : A) (z : ℕ) where
  module _ (w : A) where
    -- two
    abbrev pub g : A → Type 0
    g a = A
  h : ℕ
  h = 0

pub data D (a : ℕ) : (n : ℕ) → ℕ → Type 0 where
  one : D a 0 0
"""
        file = definitions.DefinitionFile("c", "M", text)
        self.assertEqual([(one.name, one.kind, one.own_parameters(), one.parameters(),
                           len(one.code()), one.comment) for one in file.definitions],
                         [("R", "record", 3, 3, 3, ["one"]), ("f", "abbrev", 4, 4, 2, []),
                          ("g", "abbrev", 1, 5, 2, ["two"]), ("h", "function", 0, 3, 2, []),
                          ("D", "data", 3, 3, 2, [])])


class Repository(unittest.TestCase):
    """Over the definitions of the repository."""

    @classmethod
    def setUpClass(cls):
        cls.made = whole()

    def test_each_name_of_each_definition_is_found(self):
        self.assertEqual(self.made.problems(), [])

    def test_each_import_is_named(self):
        """`rt tidy` takes imports away that nothing names: where all are, no name was passed over.
        Names of libraries with a small letter may be constructors, which are not told apart."""
        repository = self.made.repository
        for place, file in repository.files.items():
            named, outside = set(), set()
            for definition in file.definitions:
                node = repository.node(resolve.definition_key(definition))
                named |= set(node.uses)
                outside |= {name for _, name in node.outside}
            modules = {("module", *key[1:3]) for key in named}
            for use in file.uses if file.definitions else ():
                target = repository.scopes[place].names[use.alias]
                if use.public or target.kind == "outside" and (
                        use.name is None or use.name[0].islower()):
                    continue
                with self.subTest(file=file.path, name=use.alias):
                    if target.kind == "outside":
                        self.assertIn(use.name, outside)
                    else:
                        key = ("module", *target.key) if target.kind == "module" else target.key
                        self.assertIn(key, named | modules)

    def test_the_statement_stands_apart(self):
        """What a top call's clauses reach stands in specs/, and what is of proofs alone in
        specs/steps/."""
        self.assertEqual(statement.misplaced(self.made), [])

    def test_each_outcome_is_in_the_statement(self):
        for name in statement.OUTCOMES.values():
            self.assertIn(self.made.outcome(name), self.made.reached)

    def test_each_stands_after_those_that_it_uses(self):
        seen = set()
        for _, keys in self.made.ordered(self.made.reached):
            for key in keys:
                seen.add(key)
                uses = set(self.made.repository.node(key).uses) - {key}
                self.assertLessEqual(uses, seen)
        self.assertEqual(seen, self.made.reached)

    def test_no_chapter_begins_with_types_that_it_uses_later(self):
        """A type stands before the file that uses it first, and no other definitions between."""
        ordered = self.made.ordered(self.made.reached)
        uses = {key: self.made.repository.node(key).uses for _, keys in ordered for key in keys}
        for chapter, keys in ordered:
            for place, key in enumerate(keys):
                users = [other for other in keys[place + 1:] if key in uses[other]]
                if key[0] in statement.LATE and users:
                    path = self.made.repository.node(users[0]).path
                    between = keys[place + 1:keys.index(users[0])]
                    with self.subTest(chapter=chapter.title, key=key):
                        self.assertEqual([other for other in between
                                          if other[0] not in statement.LATE
                                          and self.made.repository.node(other).path != path], [])
