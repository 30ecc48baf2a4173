"""Reads the sources of the crates, as far as tools here need them: items, functions, clauses.

A source is cut into tokens, and these into items: functions with their parameters, clauses and
bodies, types, traits and implementations with their ghost members, constants. A clause's text is a
term of the definitions' language, and is kept as tokens.
"""
import collections
import collections.abc
import re

from definitions import TOP, crates_of, files_of

PIECE = re.compile(
    r"""//[^\n]*|/\*.*?\*/|b?"(?:[^"\\]|\\.)*"|b'(?:[^'\\]|\\.[^']*)'"""
    r"""|(?<!\w)'(?:[^'\\\n]|\\[^'\n]*)'|(?<!\w)'\w+|->|=>|::|[^\W\d][\w']*|\d[\w]*|\s+|.""",
    re.S)
PAIRS = {"(": ")", "{": "}", "[": "]"}

Token = collections.namedtuple("Token", "text line start")
Clause = collections.namedtuple("Clause", "kind name tokens line last")
Ghost = collections.namedtuple("Ghost", "name tokens comment line")


def tokens_of(text):
    """The tokens of a source with their lines, without comments and space; and the comments, by the
    lines that they stand on."""
    found, comments, line = [], {}, 1
    for piece in PIECE.finditer(text):
        word = piece[0]
        if word.startswith(("//", "/*")):
            comments[line] = word
        elif not word.isspace():
            found.append(Token(word, line, piece.start()))
        line += word.count("\n")
    return found, comments


def closing(tokens, at):
    """The place of the bracket that closes the one at a place."""
    stack = []
    for place in range(at, len(tokens)):
        text = tokens[place].text
        if text in PAIRS:
            stack.append(PAIRS[text])
        elif stack and text == stack[-1]:
            stack.pop()
            if not stack:
                return place
    raise ValueError(f"line {tokens[at].line}: {tokens[at].text} is not closed")


def after_angles(tokens, at):
    """The place after `<..>`, if that begins at a place."""
    if at >= len(tokens) or tokens[at].text != "<":
        return at
    depth = 0
    while True:
        depth += (tokens[at].text == "<") - (tokens[at].text == ">")
        at += 1
        if depth == 0:
            return at


def parts_of(tokens):
    """The runs between commas that stand in no bracket."""
    runs, depth = [[]], 0
    for token in tokens:
        depth += (token.text in "([{<") - (token.text in ")]}>" and len(token.text) == 1)
        if token.text == "," and depth == 0:
            runs.append([])
        else:
            runs[-1].append(token)
    return [run for run in runs if run]


class Item:
    """A function, type, trait, implementation or constant. `owner` is the trait or implementation
    around it; `head` the tokens up to its body, and `inside` those within its braces."""

    def __init__(self, source, kind, name, line, owner=None):
        self.source, self.kind, self.name, self.line, self.owner = source, kind, name, line, owner
        self.last, self.head, self.inside = line, [], []
        self.public, self.tests = False, False
        self.generics, self.parameters, self.clauses = [], [], []
        self.ghosts, self.items = [], []
        self.body = None  # the lines of the braces of a function's body

    @property
    def comment(self):
        return self.source.comment_above(self.line)

    def body_lines(self):
        """The lines of a function's body that are code."""
        if self.body is None or self.body[0] == self.body[1]:
            return []
        lines = self.source.lines[self.body[0]:self.body[1] - 1]
        return [line for line in lines if line.strip() and not line.strip().startswith("//")]


class Source:
    """A file of src/: its items, and what its `ghost use` lines bring in."""

    def __init__(self, crate, name, text):
        self.crate, self.name, self.text = crate, name, text
        self.path = f"crates/{crate}/src/{name}.rt"
        self.lines = text.split("\n")
        self.tokens, self.comments = tokens_of(text)
        self.ghost_uses, self.items = [], []
        self.read(self.tokens, self.items, None, False)

    def comment_above(self, line):
        """The `///` or `//` lines right above a line, attributes passed over."""
        found, line = [], line - 1
        while line >= 1 and re.match(r"\s*(///?|#\[)", self.lines[line - 1]):
            text = self.lines[line - 1].strip()
            if not text.startswith("#["):
                found.insert(0, text.lstrip("/").strip())
            line -= 1
        return found

    def read(self, tokens, items, owner, tests):
        at, test, public = 0, tests, False
        while at < len(tokens):
            text = tokens[at].text
            if text == "#":
                at += 1 + (tokens[at + 1].text == "!")
                end = closing(tokens, at)
                test = test or "test" in [token.text for token in tokens[at:end]]
                at = end + 1
                continue
            if text == "pub":
                public, at = True, at + 1
                if tokens[at].text == "(":
                    at = closing(tokens, at) + 1
                continue
            if text in ("unsafe", "async") and tokens[at + 1].text != "{":
                at += 1
                continue
            if text == "ghost":
                at = self.ghost(tokens, at, owner)
            elif text == "fn":
                at = self.function(tokens, at, items, owner, public, test)
            elif text in ("struct", "enum", "trait", "impl", "mod", "const", "type", "static"):
                at = self.other(tokens, at, items, owner, public, test)
            else:  # a use, a call of a macro
                while at < len(tokens) and tokens[at].text != ";":
                    at = closing(tokens, at) + 1 if tokens[at].text in PAIRS else at + 1
                at += 1
            test, public = tests, False

    def ghost(self, tokens, at, owner):
        """A `ghost use ..;` line, or a ghost member of the owner."""
        line = tokens[at].line
        if tokens[at + 1].text == "use":
            end = next(k for k in range(at, len(tokens)) if tokens[k].text == ";")
            words = " ".join(self.lines[line - 1:tokens[end].line]).strip()
            self.ghost_uses.append((re.sub(r"^ghost use |;.*$", "", words), line, owner))
            return end + 1
        name = tokens[at + 1].text
        end = at + 2
        while tokens[end].text not in (";", ","):
            end = closing(tokens, end) + 1 if tokens[end].text in PAIRS else end + 1
        if owner is not None:
            body = tokens[at + 2:end]
            owner.ghosts.append(Ghost(name, body, self.comment_above(line), line))
        return end + 1

    def function(self, tokens, at, items, owner, public, test):
        found = Item(self, "fn", tokens[at + 1].text, tokens[at].line, owner)
        found.public, found.tests = public, test
        items.append(found)
        begin, at = at + 2, after_angles(tokens, at + 2)
        found.generics, start = tokens[begin:at], at
        end = closing(tokens, at)
        found.parameters = parts_of(tokens[at + 1:end])
        at = end + 1
        while tokens[at].text not in ("{", ";"):
            if tokens[at].text in ("requires", "ensures"):
                at = self.clause(tokens, at, found)
            elif tokens[at].text in ("(", "["):
                at = closing(tokens, at) + 1
            else:
                at += 1
        found.head = tokens[start:at]
        if tokens[at].text == ";":
            found.last = tokens[at].line
            return at + 1
        end = closing(tokens, at)
        found.body, found.inside = (tokens[at].line, tokens[end].line), tokens[at + 1:end]
        found.last = tokens[end].line
        return end + 1

    def clause(self, tokens, at, found):
        kind, line, name = tokens[at].text, tokens[at].line, ""
        at += 1
        while tokens[at].text != "{":
            name += tokens[at].text
            at += 1
        end = closing(tokens, at)
        inner = tokens[at + 1:end]
        found.clauses.append(Clause(kind, name, inner, line, tokens[end].line))
        return end + 1

    def other(self, tokens, at, items, owner, public, test):
        kind, start = tokens[at].text, at
        if kind == "impl":
            name = ""
        else:
            name = tokens[at + 1].text
            name = tokens[at + 2].text if name == "mut" else name
        found = Item(self, kind, name, tokens[at].line, owner)
        found.public, found.tests = public, test or name == "tests"
        items.append(found)
        while at < len(tokens) and tokens[at].text not in ("{", ";"):
            at = closing(tokens, at) + 1 if tokens[at].text in ("(", "[") else at + 1
        found.head = tokens[start:at]
        if kind in ("const", "static") or tokens[at].text == ";":
            while tokens[at].text != ";":
                at = closing(tokens, at) + 1 if tokens[at].text in PAIRS else at + 1
            found.head, found.last = tokens[start:at], tokens[at].line
            return at + 1
        end = closing(tokens, at)
        found.last, found.inside = tokens[end].line, tokens[at + 1:end]
        if kind in ("trait", "impl", "mod"):
            inner = None if kind == "mod" else found
            self.read(found.inside, found.items, inner, found.tests)
        elif kind == "struct":
            self.ghost_fields(found)
        return end + 1

    def ghost_fields(self, found):
        for part in parts_of(found.inside):
            words = [token.text for token in part]
            if "ghost" in words[:2]:
                at = words.index("ghost")
                comment = self.comment_above(part[0].line)
                found.ghosts.append(Ghost(words[at + 1], part[at + 2:], comment, part[0].line))

    def functions(self):
        """All functions of the file, with those of traits, implementations and modules."""
        todo = list(self.items)
        while todo:
            item = todo.pop(0)
            if item.kind == "fn":
                yield item
            todo = item.items + todo


class Sources(collections.abc.Mapping):
    """The sources of crates, by crate and the file's name without its ending; each is read when it
    is asked for."""

    def __init__(self, top=TOP, crates=None):
        self.paths, self.read = {}, {}
        for crate in crates_of(top) if crates is None else crates:
            self.paths.update(((crate, module), path)
                              for module, path in files_of(top, crate, "src"))

    def __getitem__(self, key):
        if key not in self.read:
            with open(self.paths[key], encoding="utf-8") as file:
                self.read[key] = Source(*key, file.read())
        return self.read[key]

    def __iter__(self):
        return iter(self.paths)

    def __len__(self):
        return len(self.paths)

    def of(self, crate):
        """The sources of one crate."""
        return [self[key] for key in self.paths if key[0] == crate]
