"""Reads the definitions of the crates: what stands in the files of their specs/ folders.

A file is a header of `use` lines and then declarations: `pub record`, `pub data`, `abbrev pub` and
plain ones, some of them within a `module` that has parameters. Here a definition is one declaration
with the comment above it, its lines and its tokens; how names are resolved is in statement.py.
"""
import collections
import os
import re

TOP = os.path.join(os.path.dirname(os.path.abspath(__file__)), "..", "..")
ENDINGS = {"src": ".rt", "specs": ".antt", "proofs": ".antt"}
PIECE = re.compile(r'--[^\n]*|"(?:[^"\\]|\\.)*"|«[^»]*»|[(){};,.@]|[^\s(){}.;,@"«»]+')
MARKS = re.compile(r"(?:pattern |unfoldable |abbrev |axiom |pub )*")
SIGNATURE = re.compile(r"\S+( \{[^}]*\})? :(\s|$)")
HEADING = re.compile(r"-- -{2,} ?(.*)")
USE = re.compile(r"(pub )?use (?:package\.)?([^\s{]+?)(?:\.\{(.*)\}|(?: as (\S+))?)$")

Token = collections.namedtuple("Token", "text line spaced column")
Use = collections.namedtuple("Use", "path name alias public line")


def tokens_of(lines, first=1):
    """The tokens of lines, of which the first has this number; comments are left out."""
    found = []
    for number, line in enumerate(lines, first):
        end = -1
        for piece in PIECE.finditer(line):
            if not piece[0].startswith("--"):
                found.append(Token(piece[0], number, piece.start() != end, piece.start()))
            end = piece.end()
    return found


def groups_of(tokens):
    """The binders `(x y : A)` and `{x : A}` that the tokens begin with, each as its bracket, its
    names and its type; and how many tokens they are. No group where another thing follows."""
    groups, at = [], 0
    while at < len(tokens) and tokens[at].text in "({":
        end = closing(tokens, at)
        inner = tokens[at + 1:end]
        colon = next((k for k, token in enumerate(inner) if token.text == ":"), None)
        if colon is None or any(token.text in ("(", "{", ".") for token in inner[:colon]):
            break
        names = [token.text for token in inner[:colon]]
        groups.append((tokens[at].text, names, inner[colon + 1:]))
        at = end + 1
    return groups, at


def closing(tokens, at):
    """The place of the bracket that closes the one at a place."""
    depth = 0
    for place in range(at, len(tokens)):
        if tokens[place].text in ("(", "{"):
            depth += 1
        elif tokens[place].text in (")", "}"):
            depth -= 1
            if depth == 0:
                return place
    raise ValueError(f"line {tokens[at].line}: a bracket is not closed")


def split_at(tokens, mark):
    """The runs of tokens between marks that stand in no bracket."""
    runs, depth = [[]], 0
    for token in tokens:
        depth += (token.text in ("(", "{")) - (token.text in (")", "}"))
        if depth == 0 and token.text == mark:
            runs.append([])
        else:
            runs[-1].append(token)
    return runs


def explicit(groups):
    return sum(len(names) for bracket, names, _ in groups if bracket == "(")


def arguments_of(tokens):
    """How many explicit arguments a type takes before its result."""
    count = 0
    for run in split_at(tokens, "→")[:-1]:
        groups, end = groups_of(run)
        count += explicit(groups) if groups and end == len(run) else 1
    return count


class Definition:
    """One declaration, with the comment right above it. `heading` is the last line `-- ---- ..`."""

    def __init__(self, crate, module, kind, name, line):
        self.crate, self.module, self.kind, self.name, self.line = crate, module, kind, name, line
        self.last = line
        self.comment, self.heading = [], ""
        self.lines, self.outer, self.tokens = [], [], []

    @property
    def key(self):
        return (self.crate, self.module, self.name)

    @property
    def path(self):
        return f"crates/{self.crate}/specs/{self.module.replace('.', '/')}.antt"

    def code(self):
        """The lines that are no comment and not blank."""
        return [line for line in self.lines if line.strip() and not line.strip().startswith("--")]

    def head(self):
        """The tokens after the name up to the body: of a record or data the parameters and the
        type; else the type."""
        tokens = self.tokens
        at = next(k for k, token in enumerate(tokens) if token.text == self.name) + 1
        if self.kind in ("record", "data"):
            depth = 0
            for end in range(at, len(tokens)):
                depth += (tokens[end].text in ("(", "{")) - (tokens[end].text in (")", "}"))
                if depth == 0 and tokens[end].text == "where":
                    return tokens[at:end]
            return tokens[at:]
        while tokens[at].text != ":":
            at += 1
        end = at + 1
        depth = 0
        while end < len(tokens):
            token = tokens[end]
            depth += (token.text in ("(", "{")) - (token.text in (")", "}"))
            if depth == 0 and token.text == self.name and self.starts_line(end):
                break
            end += 1
        return tokens[at + 1:end]

    def starts_line(self, place):
        """Whether a token is the first of its line and stands where the declaration does."""
        return (place == 0 or self.tokens[place - 1].line != self.tokens[place].line) \
            and indent_of(self.lines[self.tokens[place].line - self.line]) == self.indent

    @property
    def indent(self):
        return indent_of(self.lines[0])

    def own_parameters(self):
        """How many explicit parameters it takes, without those of the modules around it."""
        head = self.head()
        if self.kind in ("record", "data"):
            groups, end = groups_of(head)
            return explicit(groups) + arguments_of(head[end + 1:])
        return arguments_of(head)

    def parameters(self):
        """How many it takes where it is used outside of these modules."""
        return self.own_parameters() + sum(explicit(module.groups) for module in self.outer)


class Module:
    """A `module _ (..) where`, with its parameters and its lines."""

    def __init__(self, line, lines):
        self.line, self.lines = line, lines
        self.tokens = tokens_of(lines, line)
        self.groups = groups_of(self.tokens[2:-1])[0]


class DefinitionFile:
    """A file of definitions: its header comment, what it uses, its definitions in order."""

    def __init__(self, crate, module, text):
        self.crate, self.module = crate, module
        self.path = f"crates/{crate}/specs/{module.replace('.', '/')}.antt"
        self.about, self.uses, self.definitions, self.modules = [], [], [], []
        self.total = text.count("\n")
        # What is above the line that is read: the comment, the last heading, the modules around
        # with their indentation, and the declaration.
        self.comment, self.heading, self.stack, self.current = [], "", [], None
        lines, at = text.split("\n"), 0
        while at < len(lines) and lines[at].startswith("--"):
            self.about.append(lines[at][2:].strip())
            at += 1
        while at < len(lines):
            at = self.step(lines, at)
        for definition in self.definitions:
            definition.tokens = tokens_of(definition.lines, definition.line)

    def step(self, lines, at):
        """Reads the line at a place, and those that go with it; the place of the next one."""
        text, indent = lines[at].strip(), indent_of(lines[at])
        if not text:
            return at + 1
        if text.startswith("--"):
            return self.remark(lines, at)
        while self.stack and indent <= self.stack[-1][0]:
            self.stack.pop()
        if re.match(r"(pub )?use ", text):
            return self.read_use(lines, at)
        if re.match(r"(pub )?mod ", text):
            return at + 1
        if text.startswith("module "):
            return self.enter(lines, at)
        if self.current is None or (indent <= self.current.indent
                                    and not starts_clause(text, self.current)):
            self.begin(lines, at)
        return self.extend(lines, at)

    def remark(self, lines, at):
        """A heading, a line of a comment, or one within a declaration."""
        text = lines[at].strip()
        title = HEADING.fullmatch(text)
        if title:
            self.heading, self.comment = title[1].strip(), []
        elif self.current is not None and indent_of(lines[at]) > self.current.indent:
            return self.extend(lines, at)
        else:
            if not lines[at - 1].strip().startswith("--"):
                self.comment = []
            self.comment.append(text[2:].strip())
        return at + 1

    def enter(self, lines, at):
        """A module with parameters, whose head may take several lines."""
        end = at
        while not re.search(r"\bwhere$", lines[end].rstrip()):
            end += 1
        module = Module(at + 1, lines[at:end + 1])
        self.stack.append((indent_of(lines[at]), module))
        self.modules.append(module)
        self.current, self.comment = None, []
        return end + 1

    def read_use(self, lines, at):
        text, end = lines[at].strip(), at
        while "{" in text and "}" not in text:
            end += 1
            text += " " + lines[end].strip()
        found = USE.match(text)
        if found is None:
            raise ValueError(f"{self.path}:{at + 1}: no use line: {text}")
        self.uses += uses_of(found[2], found[3], found[4], bool(found[1]), at + 1)
        return end + 1

    def begin(self, lines, at):
        text = lines[at].strip()
        rest = text[MARKS.match(text).end():]
        words = rest.split()
        kind = words[0] if words[0] in ("record", "data") else \
            "abbrev" if "abbrev " in MARKS.match(text)[0] else "function"
        if kind in ("record", "data"):
            name = words[1]
        elif SIGNATURE.match(rest):
            name = words[0]
        else:
            raise ValueError(f"{self.path}:{at + 1}: no declaration: {text}")
        found = Definition(self.crate, self.module, kind, name, at + 1)
        found.outer = [module for _, module in self.stack]
        found.comment, found.heading = self.comment, self.heading
        self.comment, self.current = [], found
        self.definitions.append(found)

    def extend(self, lines, at):
        """Gives the declaration its lines up to this one."""
        self.current.lines = lines[self.current.line - 1:at + 1]
        self.current.last = at + 1
        return at + 1


def uses_of(path, names, alias, public, line):
    """The uses of one line: each name with the module that it is taken of, or the module."""
    if names is None:
        parts = path.split(".")
        return [Use(path, None, alias or parts[-1], public, line)]
    found = []
    for item in filter(None, (item.strip() for item in names.split(","))):
        whole, _, other = item.partition(" as ")
        *below, name = whole.split(".") if not whole.startswith(".") else [whole]
        found.append(Use(".".join([path, *below]), name, other or name, public, line))
    return found


def starts_clause(text, current):
    """Whether a line that stands where the declaration does is one of its clauses."""
    if current.kind in ("record", "data"):
        return False
    if text.startswith("unfolding "):
        return True
    words = text.split()
    if MARKS.match(text)[0] or words[0] in ("module", "data", "record"):
        return False
    return not SIGNATURE.match(text)


def indent_of(line):
    return len(line) - len(line.lstrip(" "))


def crates_of(top=TOP):
    """The crates in the order of crates.txt, each with the libraries that it stands on."""
    with open(os.path.join(top, "crates.txt"), encoding="utf-8") as file:
        lines = [line.strip() for line in file if line.strip() and not line.startswith("#")]
    return {line.split(":")[0]: line.split(":")[1].split() for line in lines}


def files_of(top, crate, part):
    """The files of src, specs or proofs of a crate: each as its name in there, with slashes and
    without its ending, and its path."""
    folder, ending = os.path.join(top, "crates", crate, part), ENDINGS[part]
    for base, _, names in sorted(os.walk(folder)):
        for name in sorted(names):
            if name.endswith(ending):
                path = os.path.join(base, name)
                yield os.path.relpath(path, folder)[:-len(ending)].replace(os.sep, "/"), path


def read_all(top=TOP):
    """The files of definitions, by crate and module, lowest crate first; `Lib` has none."""
    found = {}
    for crate in crates_of(top):
        for name, path in files_of(top, crate, "specs"):
            module = name.replace("/", ".")
            with open(path, encoding="utf-8") as file:
                found[crate, module] = DefinitionFile(crate, module, file.read())
    return found
