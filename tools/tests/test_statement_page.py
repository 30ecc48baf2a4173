"""Tests of the page of the statement: on the small tree of test_statement, and that the one of the
repository has each definition once, no link that leads nowhere, and the clauses of its headline."""
import collections
import html.parser
import os
import re
import tempfile
import unittest
from unittest import mock

import markdown
import networks
import statement
import statement_map
import statement_page
import statement_star
from definitions import TOP
from resolve import Repository
from statement import Statement
from statement_map import Box
from tests.test_statement import GO, TREE, small, whole, write_tree

LAWS = """\
//! Examples: what shapes
//! are.
//!
//! More.
ghost use Rattle.std.specs.Prelude.{◌≡◌};
ghost use Rattle.base.specs.Shapes.{far};
ghost use Rattle.shown.specs.steps.Near.{near};

/// What is near.
pub fn law_near()
    // It is no way
    // to `near`.
    ensures no_way { far near
        ≡ 0 }
{}
"""
NEAR = """\
-- What examples speak of.
use Rattle.base.specs.Shapes.{Kind}
use Rattle.base.specs.Shapes.Kind.{round}

-- a kind that is near
abbrev pub near : Kind
near = round
"""
PROOFS = """\
## The promises

1. It goes: `GoOutcome.small`, `nothing`.

## Tables

| Promise | Clause |
|---|---|
| it is small | `go`: `GoOutcome` |

## Trusted

- The `far` side.
"""


class Reader(html.parser.HTMLParser):
    """What a page has: the places, the links with the article or section around them, and the
    articles."""

    def __init__(self, page):
        super().__init__()
        self.places, self.links, self.articles = [], collections.defaultdict(set), []
        self.open, self.around, self.within = [], "", {}
        self.feed(page)

    def handle_starttag(self, tag, attrs):
        attrs = dict(attrs)
        if "id" in attrs:
            self.places.append(attrs["id"])
        if tag == "article":
            self.articles.append(attrs["id"])
        if tag in ("article", "section") and "id" in attrs:
            self.around = attrs["id"]
        if "id" in attrs:
            self.within[attrs["id"]] = self.around
        if tag == "a" and "href" in attrs:
            self.links[self.around].add(attrs["href"])

    def clicks(self, start, goal, most):
        """Whether so many clicks lead from a place to the article of another one."""
        near = {self.within[start]}
        for _ in range(most):
            if goal in near:
                return True
            near |= {self.within[link[1:]] for one in near for link in self.links[one]}
        return goal in near


def made(more=()):
    """The page of the small tree, with some files more."""
    with tempfile.TemporaryDirectory() as folder:
        write_tree(folder, {**TREE, **dict(more)})
        found = Statement(Repository(folder), [GO], {"go": "GoOutcome", "stay": "StayOutcome"})
        return statement_page.Page(found, found.reached, "A & B", folder).html()


def leading_nowhere(reader):
    """The links of a page that no place has."""
    leading = {link for links in reader.links.values() for link in links}
    return sorted(leading - {f"#{place}" for place in reader.places})


MORE = {"crates.txt": TREE["crates.txt"] + "shown: base\n", "crates/shown/src/lib.rt": LAWS,
        "crates/shown/specs/Lib.antt": "pub mod steps\n",
        "crates/shown/specs/steps/Near.antt": NEAR, "docs/PROOFS.md": PROOFS}


class SmallTree(unittest.TestCase):
    def has(self, page, text):
        self.assertTrue(text in page, text)

    def test_words_that_lead_somewhere(self):
        page = made()
        for text in ('<title>A &amp; B</title>',
                     'shapes.<a href="#base-Shapes-far">far</a> kind',
                     'shape.<a href="#base-Shapes-Shape.far">far</a>',
                     '<a class="f" id="base-Shapes-Shape.kind" href="#base-Shapes-Shape.kind">',
                     '<article id="base-Shapes-far" data-up="top-Ends-StayOutcome"><h3>',
                     '(<a href="#base-Shapes-Kind.made">built</a> kind)',
                     '(line.<a href="#base-line-Line.Short">Short</a> 1)',
                     '<dt id="library-Rattle.std.specs.Prelude-map">map</dt>',
                     'pub const MOST: u32 = <a href="#base-limits-LEAST">LEAST</a> + 1;',
                     "(λ far. ⊥)", "<p class=\"words\">How far one is.</p>"):
            self.has(page, text)
        for text in ("base-Sizes-far", "unused", 'id="base-Shapes-Shape.other"'):
            self.assertFalse(text in page, text)

    def test_the_way_up_goes_by_commands(self):
        page = made()
        for name, up in (("base-Sizes-IsSmall", "top-Ends-GoOutcome"),
                         ("top-Ends-GoOutcome", "top-Ends-Ends"), ("top-Ends-Ends", "top-lib-go"),
                         ("base-limits-LEAST", "base-limits-MOST")):
            self.has(page, f'<article id="{name}" data-up="{up}">')
        self.has(page, '<article id="top-lib-go"><h3>')

    def test_examples_and_promises_stand_beside(self):
        page = made(MORE)
        far = page[page.index('<article id="base-Shapes-far"'):]
        far = far[:far.index("</article>")]
        self.has(far, '<b>Example</b> <p class="words">It is no way\nto <code>near</code>.</p>')
        self.has(far, '<pre><a href="#base-Shapes-far">far</a> '
                      '<a href="#shown-steps.Near-near">near</a>\n')
        self.has(far, '</a> 0 <span class="proved">proved</span></pre>')
        self.has(page, '<p>Examples: what shapes are.</p>')
        self.has(page, '<div class="example" id="shown-steps.Near-near"><p class="words">A kind')
        self.has(page, '<div class="example" id="shown-lib-law_near.no_way">')
        outcome = page[page.index('<article id="top-Ends-GoOutcome"'):]
        self.has(outcome[:outcome.index("</article>")], "<li>it is small</li>")
        self.has(page, '<a href="#top-Ends-GoOutcome.small"><code>GoOutcome.small</code></a>, '
                       '<code>nothing</code>')
        self.has(page, '<details open><summary>Trusted</summary><ul><li>The '
                       '<a href="#base-Shapes-far"><code>far</code></a> side.</li></ul>')

    def test_no_link_leads_nowhere(self):
        for more in ({}, MORE):
            self.assertEqual(leading_nowhere(Reader(made(more))), [])

    def test_what_has_no_example_names_what_has_one(self):
        page = made(MORE)
        article = page[page.index('<article id="top-Ends-StayOutcome"'):]
        self.has(article[:article.index("</article>")],
                 '<div class="used">Examples at <a href="#base-Shapes-far">far</a></div>')

    def test_what_rests_on_types_alone(self):
        page = made()
        article = page[page.index('<article id="base-limits-MOST"'):]
        self.has(article[:article.index("</article>")],
                 "<summary>Rests on no definition, but on 1 other name</summary>")

    def test_a_name_of_several_is_that_of_what_stands_beside(self):
        found = small()
        links = statement_page.Page(found, found.reached, "").links
        far, size, stay = map(links.called, ("far", "IsSmall", "StayOutcome"))
        links.named["both"] = [far, size]
        self.assertIsNone(links.called("both"))
        self.assertEqual(links.called("both", [stay]), far)
        self.assertEqual(links.target("both", [stay]), "base-Shapes-far")
        self.assertIsNone(links.called("both", [links.called("Ends")]))

    def test_names_in_words(self):
        found = small()
        links = statement_page.Page(found, found.reached, "").links
        self.assertIsNone(links.target("GoOutcome.other"))
        self.assertIsNone(links.target("nothing"))
        self.assertEqual(links.target("GoOutcome.small"), "top-Ends-GoOutcome.small")
        self.assertEqual(links.target("Source.content"), "base-source-Source-content")


class Parts(unittest.TestCase):
    def test_markdown(self):
        text = "# One\n\n<!-- made: x -->Two <is> `a<b`\nand **three**.\n\n- four\n  more\n- " \
               "[five](F.f)\n\n1. six\n\n| h | `i` |\n|---|---|\n| j | k |\n"
        self.assertEqual(
            markdown.to_html(text, link=lambda words, target: f"{words}>{target}"),
            "<h1>One</h1>\n<p>Two &lt;is&gt; <code>a&lt;b</code> and <b>three</b>.</p>\n"
            "<ul><li>four more</li><li>five>F.f</li></ul>\n<ol><li>six</li></ol>\n"
            "<table><thead><tr><th>h</th><th><code>i</code></th></tr></thead>"
            "<tbody><tr><td>j</td><td>k</td></tr></tbody></table>")
        self.assertEqual(markdown.section("## A\n\na\n\n## B\nb\n", "A"), "a")
        self.assertIsNone(markdown.section("## A\n", "C"))

    def test_the_map_has_no_line_that_others_lead_along(self):
        edges = {("d", "c"), ("d", "b"), ("d", "a"), ("c", "a"), ("b", "a")}
        self.assertEqual(statement_map.reduced(edges),
                         [("b", "a"), ("c", "a"), ("d", "b"), ("d", "c")])

    def test_no_line_of_the_map_goes_behind_a_box(self):
        left, right, first = (10, 0, 40), (110, 0, 40), (10, 80, 40)
        self.assertEqual(statement_map.beside(left, right, [10, 110]), "M50.0 21.5H110.0")
        self.assertEqual(statement_map.beside(left, right, [10, 60, 110]),
                         "M130.0 43C130.0 56.0 30.0 56.0 30.0 43")
        self.assertEqual(statement_map.around((10, 0, 40, 43), (*first, 43), 5, True),
                         "M10.0 21.5H5.0V101.5H10.0")
        self.assertEqual(statement_map.around((10, 0, 40, 43), (110, 80, 40, 43), 5, False),
                         "M10.0 21.5H5.0V67.0H130.0V80")
        boxes = [Box(place, "title", "text", row, 10) for place, row in enumerate((2, 1, 1, 1), 1)]
        places, _, blocks = statement_map.placed(boxes, 360, 2)
        drawn = statement_map.drawn_edges(boxes, [(2, 1), (3, 1), (4, 1), (3, 2)], places, blocks)
        self.assertEqual(len(drawn), 1)

    def test_no_two_boxes_of_the_map_meet(self):
        boxes = [Box(place, "title", "text", row, 10) for place, row in
                 enumerate((3, 2, 2, 1, 1, 1, 1, 1, 1, 1, 1, 0), 1)]
        for width, most in statement_map.WIDTHS.values():
            places, height, _ = statement_map.placed(boxes, width, most)
            rows = sorted((top, left, size) for left, top, size in places.values())
            for (top, left, size), (next_top, next_left, _) in zip(rows, rows[1:]):
                self.assertLess((top, left + size), (next_top, next_left))
                self.assertTrue(top == next_top or top + statement_map.HEIGHT < next_top)
            for left, top, size in places.values():
                self.assertTrue(0 <= left <= left + size <= width and top < height)

    def test_the_star(self):
        topology = networks.load(networks.read_topology, os.path.join(TOP, "demo/star.txt"))
        self.assertEqual([(link.a, link.b) for link in topology.links],
                         [("a", "h"), ("b", "h"), ("c", "h")])
        self.assertEqual(statement_star.reserved([3, 4, 5]), [3, 4, 5])
        self.assertEqual(statement_star.reserved([9, 1, 1]), [2, 1, 1])
        self.assertIn("3·1 + 4·2 + 5·3 = 26", statement_star.figure(TOP))
        self.assertEqual(statement_star.figure(os.path.join(TOP, "tools")), "")


class Whole(unittest.TestCase):
    """The page of the repository."""

    @classmethod
    def setUpClass(cls):
        cls.statement = whole()
        cls.page = statement_page.Page(cls.statement, cls.statement.reached, "All")
        cls.text = cls.page.html()
        cls.reader = Reader(cls.text)

    def test_each_definition_is_on_it_once(self):
        self.assertEqual(sorted(self.reader.articles),
                         sorted(map(statement_page.anchor, self.statement.reached)))

    def test_no_link_leads_nowhere(self):
        counts = collections.Counter(self.reader.places)
        self.assertEqual([place for place, count in counts.items() if count > 1], [])
        self.assertEqual(leading_nowhere(self.reader), [])

    def test_it_asks_for_no_other_file(self):
        self.assertEqual(re.findall(r"(?i)(?:src|href)=[\"'](?!#|data:)|url\(|@import|fetch\(",
                                    self.text), [])

    def test_each_half_sentence_of_the_headline_leads_to_its_clause(self):
        headline = statement_page.read(TOP, statement_page.HEADLINE)
        found = re.findall(r"\[([^\]]+)\]\(([^)]+)\)", headline)
        self.assertGreater(len(found), 10)
        for words, target in found:
            with self.subTest(words=words):
                self.assertIsNotNone(self.page.links.target(target))

    def test_three_clicks_lead_to_a_matrix_a_tree_and_a_load(self):
        start = re.search(r'href="#([^"]+)">carries every traffic matrix', self.text)[1]
        for name in ("IsWithinRates", "IsTree", "matrix_load"):
            goal = statement_page.anchor(self.page.links.called(name))
            self.assertTrue(self.reader.clicks(start, goal, 2), name)
            self.assertTrue(self.page.shown_by[self.page.links.called(name)], name)

    def test_each_name_of_the_tour_leads_somewhere(self):
        found = re.findall(r'(">)?<code>([^<]+)</code>', self.page.tour())
        names = [(leads, name) for leads, name in found if re.search(r"[A-Z_]", name)]
        self.assertGreater(len(names), 30)
        self.assertEqual([name for leads, name in names if not leads], [])

    def test_each_example_shows_something(self):
        self.assertEqual([one.place for one in self.page.examples if one.lines is not None
                          and not one.named & set(self.page.links.place)], [])

    def test_the_lines_of_the_chapters_are_those_of_the_statement(self):
        self.assertEqual(sum(self.page.lines), self.statement.lines(self.statement.reached))

    def test_the_page_of_a_command(self):
        with tempfile.TemporaryDirectory() as folder, \
                mock.patch.object(statement, "Statement", lambda _: self.statement):
            path = os.path.join(folder, "page.html")
            self.assertEqual(statement.main(["check", "--html", path]), 0)
            with open(path, encoding="utf-8") as file:
                reader = Reader(file.read())
        self.assertEqual(leading_nowhere(reader), [])
        self.assertIn("hose_offline-CheckOutcome-CheckOutcome", reader.articles)
        self.assertNotIn("hose_offline-RunOutcome-RunOutcome", reader.articles)
