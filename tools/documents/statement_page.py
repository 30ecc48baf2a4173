"""The statement as a page for a browser: one file, which needs no network and no other file.

At its top stands what is promised, each half sentence with a link to the clause that says it; then
a map of the chapters, how a definition is read, examples, and what docs/PROOFS.md says of promises
and of trust. Then comes each definition with its comment, its examples, what docs/PROOFS.md says of
it, what it rests on and where it is used. Links and the map need no script; the path from the
calls, the search and lists of all that a definition rests on do.
"""
import collections
import html
import os
import re

import markdown
import resolve
import statement_examples
import statement_map
import statement_star
from chapters import KINDS
from definitions import TOP

HERE = os.path.dirname(os.path.abspath(__file__))
HEADLINE = "tools/documents/headline.md"  # its links lead to DEFINITION or DEFINITION.FIELD
READING = "tools/documents/reading.md"
PROOFS = "docs/PROOFS.md"
TOUR = "A tour of the statement"
SHOWN = 8  # how many users are shown at once
TRUSTED = [("Trusted", True), ("Not carried yet", False), ("Not claimed", False)]
WAYS = [("map", "the map", "says what to read and what to skip"),
        ("reading", "how a definition is read", "takes two minutes"),
        ("tour", "a tour", "names the main words"),
        ("examples", "a star of three links", "shows them at work"),
        ("trusted", "what must be trusted besides", "is short")]
PAGE = """<!DOCTYPE html>
<html lang="en">
<head>
<meta charset="utf-8">
<meta name="viewport" content="width=device-width, initial-scale=1">
<meta http-equiv="Content-Security-Policy"
 content="default-src 'none'; style-src 'unsafe-inline'; script-src 'unsafe-inline'; img-src data:">
<link rel="icon" href="data:,">
<title>{title}</title>
<style>
{style}</style>
</head>
<body>
<header>
<a href="#top">{title}</a>
<div id="search"><input type="search" placeholder="Search: a name or a word" autocomplete="off"
 aria-label="Search for a name or a word" aria-controls="found"><ol id="found" hidden></ol></div>
<button id="back" type="button" hidden></button>
<nav id="path" aria-label="The way from the calls" hidden></nav>
</header>
<main>
{main}
</main>
<script>
{script}</script>
</body>
</html>
"""


def read(top, name):
    """A file of the repository; nothing where it is not there."""
    path = os.path.join(top, name)
    if not os.path.exists(path):
        return ""
    with open(path, encoding="utf-8") as file:
        return file.read()


def anchor(key):
    """The place of a node on the page."""
    return html.escape("-".join(part.replace("/", ".").replace(" ", "_") for part in key[1:]))


def link(place, text, kind=""):
    return f'<a{kind} href="#{place}">{html.escape(text)}</a>'


def coded(place, text):
    return f'<a href="#{place}">{markdown.code(text)}</a>'


def number(count, one, many=None):
    return f"{count:,} {one if count == 1 else many or one + 's'}"


def members(node):
    """The fields, constructors and clauses that a node declares, each with its line and column."""
    found = {}
    if node.kind == "definition" and node.definition.kind in ("record", "data"):
        within = " " * (node.definition.indent + 2)
        shape = re.compile(within + r"(?:pub )?([^\s:({][^:({]*?) :(?:\s|$)")
    elif node.kind == "type":
        shape = re.compile(r"    (?:pub )?([A-Za-z]\w*)(?=[:({,]| \{)")
    elif node.kind == "call":
        shape = re.compile(r"    (?:ensures|requires) (\w+)")
    else:
        return found
    for place, line in enumerate(node.text[1:], node.line + 1):
        match = shape.match(line)
        for name in re.finditer(r"\S+", match[1]) if match else ():
            found.setdefault(name[0], (place, match.start(1) + name.start()))
    return found


class Links:
    """What leads where among the nodes of a page."""

    def __init__(self, statement, keys):
        self.repository = statement.repository
        self.keys = keys
        self.place = {key: place for place, key in enumerate(keys)}
        self.node = {key: self.repository.node(key) for key in keys}
        self.members = {key: members(node) for key, node in self.node.items()}
        self.lines = {key: node.lines() if key[0] == "definition" else 0
                      for key, node in self.node.items()}
        self.uses = {key: sorted((other for other in node.uses if other in self.place
                                  and other != key), key=self.place.get)
                     for key, node in self.node.items()}
        self.users = collections.defaultdict(list)
        for key in keys:
            for other in self.uses[key]:
                self.users[other].append(key)
        self.below = {}  # all that a node rests on, as the bits of a number
        for key in keys:
            self.below[key] = 0
            for other in self.uses[key]:
                self.below[key] |= self.below[other] | 1 << self.place[other]
        self.up = self.upward(statement.calls, [statement.outcome(name)
                                                for name in statement.outcomes.values()])
        self.holders = collections.defaultdict(int)  # which nodes have a field of a name, as bits
        for key in keys:
            for name in [key[4]] if key[0] == "member" else self.members[key]:
                self.holders[name] |= 1 << self.place[key]
        self.named = collections.defaultdict(list)
        for key in keys:
            if key[0] != "trait":
                self.named[self.node[key].name].append(key)

    def upward(self, calls, outcomes):
        """Of each node the one that leads to it on a shortest way from a call: by way of the first
        command that reaches it, if one does."""
        found = {}
        starts = [[key] for key in outcomes if key in self.place]
        starts.append([key for key in reversed(calls) if key in self.place]
                      or [key for key in self.keys if not self.users[key]])
        for start in starts:
            seen, todo = set(start), collections.deque(start)
            while todo:
                key = todo.popleft()
                for other in self.uses[key]:
                    if other not in seen:
                        seen.add(other)
                        found.setdefault(other, key)
                        todo.append(other)
        return found

    def called(self, name, beside=()):
        """The one definition of this name, or else the one node; of several the one that uses one
        of those beside it, or is used by one. None where there is none."""
        found = self.named.get(name, [])
        found = [key for key in found if key[0] == "definition"] or found
        if len(found) > 1:
            found = [key for key in found
                     if any(other in self.uses[key] or key in self.uses[other] for other in beside)]
        return found[0] if len(found) == 1 else None

    def target(self, words, beside=()):
        """The place that DEFINITION or DEFINITION.FIELD names, or None."""
        name, _, field = words.partition(".")
        whole = self.called(words, beside)
        key = whole or self.called(name, beside)
        if key is None or field and whole is None and field not in self.members[key]:
            return None
        return self.spot(key, field)

    def spot(self, key, name):
        """The place of a field or constructor of a node, or that of the node."""
        return anchor(key) + ("." + html.escape(name) if name in self.members[key] else "")

    def field(self, node, name):
        """The place of a field that a node reads: of the one thing it rests on that has it."""
        if name in resolve.LIBRARY_FIELDS:
            return None
        within = self.below[node.key] | 1 << self.place[node.key]
        found = self.holders.get(name, 0) & within
        if found == 0 or found & found - 1:
            return None
        return self.spot(self.keys[found.bit_length() - 1], name)


class Code:
    """Makes the text of nodes, in which each word that leads somewhere is a link."""

    def __init__(self, links, examples=()):
        self.links = links
        self.examples = set(examples)

    def lead(self, key, word):
        if key in self.links.place:
            return self.links.spot(key, word)
        return anchor(key) if key in self.examples and key[0] == "definition" else None

    def marks(self, node):
        """The links of a node's text, by line and column: each with its length and its opening."""
        found = {}
        for (line, column, length), (path, name) in node.library.items():
            found[line, column] = (length, f'<a class="l" href="#{library_anchor(path, name)}">')
        for (line, column, length), key in node.links.items():
            place = self.lead(key, node.constructors.get((line, column, length), ""))
            if place is not None:
                found[line, column] = (length, f'<a href="#{place}">')
        if node.key in self.links.place:
            for token in node.read:
                place = self.links.field(node, token.text)
                if place is not None:
                    found[token.line, token.column] = (len(token.text), f'<a href="#{place}">')
            for name, (line, column) in self.links.members[node.key].items():
                spot = self.links.spot(node.key, name)
                found[line, column] = (len(name), f'<a class="f" id="{spot}" href="#{spot}">')
        return found

    def by_words(self, node):
        """The links of a text that was made: the words that are the names of what it uses."""
        found = {}
        if node.key in self.links.place:
            names = {self.links.node[key].name: key for key in self.links.uses[node.key]}
            for place, text in enumerate(node.text, node.line):
                for word in re.finditer(r"\w+", text.partition("//")[0]):
                    if word[0] in names:
                        spot = self.links.spot(names[word[0]], "")
                        found[place, word.start()] = (len(word[0]), f'<a href="#{spot}">')
        return found

    @staticmethod
    def lines_of(node):
        """A node's lines with their numbers, those of the modules around it first."""
        outer = node.definition.outer if node.definition else []
        for module in outer:
            yield from ((place, text, True) for place, text in enumerate(module.lines, module.line))
        for place, text in enumerate(node.text, node.line):
            yield place, text, False

    def text(self, node, within=None):
        """A node's text, or that of these of its lines."""
        exact = node.kind in ("definition", "call")
        marks = self.marks(node)
        if not exact:
            marks = {**self.by_words(node), **{place: mark for place, mark in marks.items()
                                               if 'class="f"' in mark[1]}}
        by_line = collections.defaultdict(list)
        for (line, column), (length, opening) in sorted(marks.items()):
            by_line[line].append((column, length, opening))
        found = []
        for line, text, around in self.lines_of(node):
            if within is None or line in within:
                made = marked(text, by_line[line])
                found.append(f'<span class="m">{made}</span>' if around else made)
        return "\n".join(found)


def marked(text, marks):
    """A line with its links; what is a comment is set apart."""
    done, at = [], 0
    for column, length, opening in marks:
        if column >= at:
            done += [html.escape(text[at:column]), opening,
                     html.escape(text[column:column + length]), "</a>"]
            at = column + length
    done.append(html.escape(text[at:]))
    made = "".join(done)
    return f"<i>{made}</i>" if text.strip().startswith(("--", "//")) else made


def library_anchor(path, name):
    return html.escape(f"library-{path}-{name}")


class Page:
    def __init__(self, statement, keys, title, top=TOP):
        self.statement, self.repository, self.title, self.top = (
            statement, statement.repository, title, top)
        self.chapters = statement.ordered(keys)
        ordered = [key for _, inside in self.chapters for key in inside]
        self.links = Links(statement, ordered)
        self.chapter_of = {key: place for place, (_, inside) in enumerate(self.chapters, 1)
                           for key in inside}
        self.lines = self.chapter_lines()
        self.about_examples = dict(statement_examples.crates_of_examples(self.repository))
        self.examples = [one for crate in self.about_examples
                         for one in statement_examples.examples_of(self.repository, crate, anchor)]
        self.shown_by = collections.defaultdict(list)
        for one in self.examples:
            for key in one.named & set(self.links.place):
                self.shown_by[key].append(one)
        self.code = Code(self.links, [one.node.key for one in self.examples])
        self.said = self.read_promises()

    def chapter_lines(self):
        """The lines of each chapter; the head of a module counts where it stands first."""
        found, seen = [], set()
        for _, inside in self.chapters:
            heads = {(key[1], key[2], module.line): len(module.lines)
                     for key in inside if key[0] == "definition"
                     for module in self.links.node[key].definition.outer}
            found.append(sum(self.links.lines[key] for key in inside)
                         + sum(count for head, count in heads.items() if head not in seen))
            seen |= set(heads)
        return found

    def read_promises(self):
        """What docs/PROOFS.md says of each node: the promises whose clauses name it."""
        found = collections.defaultdict(list)
        for head, *rows in markdown.tables(read(self.top, PROOFS)):
            for row in rows if len(head) == 2 else ():
                names = re.findall(r"`([A-Za-z_]\w*)[^`]*`", row[1])
                beside = {self.links.called(name) for name in names} - {None}
                for name in names:
                    key = self.links.called(name, beside)
                    if key is not None and row[0] not in found[key]:
                        found[key].append(row[0])
        return found

    # ---- words

    def named(self):
        """Makes links of the names in words: of definitions, of their fields behind a dot, and of
        fields alone that are of the definition which was named last."""
        last = None

        def made(text):
            nonlocal last
            beside = () if last is None else (last,)
            name = text.partition(".")[0]
            key = self.links.called(text, beside) or self.links.called(name, beside)
            place = self.links.target(text, beside)
            if key is not None:
                last = key
            elif last is not None and text in self.links.members[last]:
                place = self.links.spot(last, text)
            return markdown.code(text) if place is None else coded(place, text)
        return made

    def near(self, key):
        """Makes links of the names in a node's comment that are names of what is around it."""
        around = {*self.links.uses[key], *self.links.users[key]}

        def made(text):
            other = (self.links.called(text, (key,))
                     or self.links.called(text.partition(".")[0], (key,)))
            place = self.links.target(text, (key,))
            if place is None or other == key or other not in around and other[1:3] != key[1:3]:
                return markdown.code(text)
            return coded(place, text)
        return made

    @staticmethod
    def paragraphs(comment, name):
        blocks = re.split(r"\n\s*\n", "\n".join(comment))
        return "".join(f'<p class="words">{markdown.inline(sentence(block), name)}</p>'
                       for block in blocks if block.strip())

    # ---- parts of the page

    def html(self):
        parts = {"map": self.map(), "reading": self.reading(), "tour": self.tour(),
                 "examples": self.star(), "promises": self.promises(), "trusted": self.trusted()}
        main = [self.opening(parts), *filter(None, parts.values()), *self.chapter_sections(),
                self.libraries()]
        return PAGE.format(title=html.escape(self.title), main="\n".join(main),
                           style=read(HERE, "statement.css"), script=read(HERE, "statement.js"))

    def headline(self):
        def made(words, target):
            place = self.links.target(target)
            return html.escape(words) if place is None else link(place, words)
        return markdown.to_html(read(self.top, HEADLINE), markdown.code, made)

    def opening(self, parts):
        """The first screen; of the other parts those that there are are named."""
        inside = [key for key in self.links.keys if key[0] == "definition"]
        ways = "; ".join(f"{link(name, text)} {rest}" for name, text, rest in WAYS if parts[name])
        return (f'<section id="top"><h1>{html.escape(self.title)}</h1>\n'
                f'<div class="headline">{self.headline()}</div>\n'
                f'<p class="note">{number(len(inside), "definition")} in '
                f'{number(sum(self.lines), "line")}, and nothing else of the sources, have to be '
                f'believed for this: {ways}.</p></section>')

    def map(self):
        boxes = [statement_map.Box(place, chapter.title, chapter.kind, chapter.row, lines)
                 for place, ((chapter, _), lines) in enumerate(zip(self.chapters, self.lines), 1)]
        edges = {(self.chapter_of[key], self.chapter_of[other])
                 for key in self.links.keys for other in self.links.uses[key]
                 if self.chapter_of[key] != self.chapter_of[other]}
        totals = collections.Counter()
        for box in boxes:
            totals[box.kind] += box.lines
        legend = "".join(f'<li><i class="{kind}"></i>{html.escape(words)}: '
                         f'{number(totals[kind], "line")}</li>'
                         for kind, words in KINDS.items() if totals[kind])
        rows = "".join(
            f'<tr><td><i class="{chapter.kind}"></i>{link(f"chapter{place}", chapter.title)}</td>'
            f'<td class="number">{lines:,}</td><td>{markdown.inline(chapter.about)}</td>'
            f'<td>{markdown.inline(chapter.skip)}</td></tr>'
            for place, ((chapter, _), lines) in enumerate(zip(self.chapters, self.lines), 1))
        pictures = "\n".join(statement_map.picture(boxes, edges, form)
                             for form in statement_map.WIDTHS)
        return (f'<section id="map"><h2>The map</h2>\n<p>From the top calls down: a line leads '
                f'from each chapter to those that it rests on, below it or on its left.</p>\n'
                f'<ul class="legend">{legend}</ul>\n{pictures}\n'
                f'<table class="chapters"><thead><tr><th>Chapter</th><th>Lines</th>'
                f'<th>What it says</th><th>Who may skip it</th></tr></thead>'
                f'<tbody>{rows}</tbody></table></section>')

    def reading(self):
        text = read(self.top, READING)
        return text and (f'<section id="reading"><h2>How a definition is read</h2>\n'
                         f'{markdown.to_html(text, self.named())}</section>')

    def tour(self):
        text = markdown.section(read(self.top, PROOFS), TOUR)
        return text and (f'<section id="tour"><h2>{TOUR}</h2>\n'
                         f'{markdown.to_html(text, self.named())}</section>')

    def star(self):
        if not self.examples:
            return ""
        shown = "\n".join(f'<div class="example" id="{one.place}">{self.example(one)}</div>'
                          for one in self.examples)
        about = "".join(f"<p>{markdown.inline(said)}</p>" for said in self.about_examples.values())
        return (f'<section id="examples"><h2>Examples</h2>\n{about}\n'
                f'{statement_star.figure(self.top)}\n<div class="examples">{shown}</div></section>')

    def example(self, one):
        """What is said of an example, and a fact, which is proved, or what facts speak of."""
        if one.lines is None:
            text = self.code.text(one.node)
        else:
            fact = statement_examples.fact(self.code.text(one.node, one.lines))
            text = f'{fact} <span class="proved">proved</span>'
        return f"{self.paragraphs(one.words, markdown.code)}<pre>{text}</pre>"

    def promises(self):
        text = markdown.section(read(self.top, PROOFS), "The promises")
        return text and (f'<section id="promises"><h2>The promises, with their clauses</h2>\n'
                         f'<p>From {PROOFS}, which has the same for each command.</p>\n'
                         f'{markdown.to_html(text, self.named())}</section>')

    def trusted(self):
        found = []
        for title, is_open in TRUSTED:
            text = markdown.section(read(self.top, PROOFS), title)
            if text:
                found.append(f'<details{" open" if is_open else ""}><summary>{title}</summary>'
                             f'{markdown.to_html(text, self.named())}</details>')
        return "" if not found else (
            '<section id="trusted"><h2>What must be trusted besides</h2>\n'
            f'<p>From {PROOFS}.</p>\n' + "\n".join(found) + "</section>")

    def chapter_sections(self):
        for place, ((chapter, inside), lines) in enumerate(zip(self.chapters, self.lines), 1):
            found = [f'<section class="chapter" id="chapter{place}">'
                     f'<h2><i class="{chapter.kind}"></i>{place}. {html.escape(chapter.title)}</h2>'
                     f'<p class="note">{number(lines, "line")}. {markdown.inline(chapter.about)} '
                     f'Who may skip it: {markdown.inline(lowered(chapter.skip))}</p>']
            path = None
            for key in inside:
                node = self.links.node[key]
                if node.path != path:
                    path = node.path
                    found.append(self.file_head(node))
                found.append(self.article(node))
            yield "\n".join([*found, "</section>"])

    def file_head(self, node):
        about = ""
        if node.definition is not None:
            about = " ".join(self.repository.files[node.key[1], node.key[2]].about)
        said = f": {markdown.inline(about)}" if about else ""
        return f'<p class="file"><code>{html.escape(node.path)}</code>{said}</p>'

    def article(self, node):
        key, up = node.key, self.links.up.get(node.key)
        above = f' data-up="{anchor(up)}"' if up is not None else ""
        return "".join([
            f'<article id="{anchor(key)}"{above}>'
            f'<h3>{link(anchor(key), node.name)}</h3>',
            self.paragraphs(node.comment, self.near(key)),
            f"<pre>{self.code.text(node)}</pre>", self.beside(key), self.rests(key),
            self.used(key), "</article>"])

    def beside(self, key):
        """The examples of a node, or those of what it names that have some; and what the promises
        say of it."""
        found = [f'<div class="shows"><b>Example</b> {self.example(one)}</div>'
                 for one in self.shown_by[key]]
        others = [link(anchor(other), self.links.node[other].name)
                  for other in self.links.uses[key] if self.is_shown(other)]
        if others and not found:
            found.append(f'<div class="used">Examples at {", ".join(others)}</div>')
        said = self.said.get(key, ())
        if said:
            rows = "".join(f"<li>{markdown.inline(row)}</li>" for row in said)
            found.append(f'<details class="said"><summary>What {PROOFS} promises by it '
                         f'({len(said)})</summary><ul>{rows}</ul></details>')
        return "".join(found)

    def is_shown(self, key):
        """A fact is proved of it on the star, and not just a value given."""
        return any(one.lines is not None for one in self.shown_by[key])

    def rests(self, key):
        below = self.links.below[key]
        if not below:
            return ""
        found = [self.links.keys[place] for place in bits(below)]
        count = sum(other[0] == "definition" for other in found)
        lines = sum(self.links.lines[other] for other in found)
        told = (f'{number(count, "definition")} of {number(lines, "line")} in all' if count
                else "no definition, but on " + number(len(found), "other name"))
        at_once = ", ".join(link(anchor(other), self.links.node[other].name)
                            for other in self.links.uses[key])
        return (f'<details class="rests"><summary>Rests on {told}</summary>'
                f'<p>At once: {at_once}</p></details>')

    def used(self, key):
        users = self.links.users[key]
        if not users:
            return ""
        first = [other for other in users if other == self.links.up.get(key)]
        users = first + [other for other in users if other not in first]
        made = [link(anchor(other), self.links.node[other].name) for other in users]
        rest = ""
        if len(made) > SHOWN:
            rest = (f'<details><summary>and {number(len(made) - SHOWN, "other")}</summary>'
                    f'{", ".join(made[SHOWN:])}</details>')
        return f'<div class="used">Used by {", ".join(made[:SHOWN])} {rest}</div>'

    def libraries(self):
        """The names of libraries, each with those that name it."""
        users, meanings = collections.defaultdict(list), library_words(self.top)
        nodes = {node.key: node for node in [*self.links.node.values(),
                                             *(one.node for one in self.examples)]}
        for node in nodes.values():
            for path, name in node.outside:
                users[path, name].append(node)
        found, last = [], None
        for path, name in sorted(users):
            if path != last:
                found.append(f"{'</dl>' if last else ''}<p class='file'><code>{html.escape(path)}"
                             "</code></p><dl>")
                last = path
            inside = [node for node in users[path, name] if node.key in self.links.place]
            first = ", ".join(link(anchor(node.key), node.name) for node in inside[:3])
            more = f" and {number(len(inside) - 3, 'other')}" if len(inside) > 3 else ""
            found.append(f'<dt id="{library_anchor(path, name)}">{html.escape(name)}</dt>'
                         f'<dd>{html.escape(sentence(meanings[name])) if name in meanings else ""} '
                         f'<span class="note">{"Used by " + first + more if first else ""}</span>'
                         f'</dd>')
        return ('<section id="libraries"><h2>From libraries</h2>\n<p>Names of the proved library '
                'of the kit and of its logic, which define them. Of a name with ◌ each ◌ is an '
                'argument.</p>\n' + "\n".join(found) + ("</dl>" if last else "") + "</section>")


def sentence(words):
    """Words as a sentence: with a great letter first, unless that is a name's, and a full stop."""
    words = words.strip()
    return words[:1].upper() + words[1:] + ("" if words[-1:] in ".:?" else ".")


def lowered(words):
    return words[:1].lower() + words[1:]


def bits(number_of_bits):
    """The places of the bits that are set, ascending."""
    while number_of_bits:
        low = number_of_bits & -number_of_bits
        yield low.bit_length() - 1
        number_of_bits ^= low


def library_words(top):
    """What names of libraries mean, by lines `NAME: words`."""
    lines = read(top, "tools/tests/data/library.txt").split("\n")
    return dict(line.split(": ", 1) for line in lines if ": " in line)
