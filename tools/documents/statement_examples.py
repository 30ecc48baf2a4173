"""The examples that stand beside definitions of the statement: of each crate whose root file begins
with the word Examples, the definitions and the clauses of its laws, which are proved."""
import collections
import re

from resolve import definition_key

# `place` is where it stands on the page; of a law's clause `lines` are the first and the last line,
# and None of a definition, which is no fact. `named` are the nodes that its type, or it, names.
Example = collections.namedtuple("Example", "place node words lines named")
CLAUSE = re.compile(r"\s*ensures\s+\w*\s*\{\s*|\s*\}\s*\Z")


def crates_of_examples(repository):
    """The crates of examples, each with what its root file says first."""
    for crate in repository.crates:
        root = repository.sources.get((crate, "lib"))
        said = root and re.match(r"(?://! .+\n)*", root.text)[0].replace("//! ", "")
        if said and said.startswith("Examples"):
            yield crate, " ".join(said.split())


def examples_of(repository, crate, anchor):
    """The examples of a crate: what they speak of, and then what is proved of it."""
    for file in repository.files.values():
        for one in file.definitions if file.crate == crate else ():
            node = repository.node(definition_key(one))
            places = {(token.line, token.column) for token in one.head()}
            yield Example(anchor(node.key), node, node.comment, None, named_at(node, places))
    for source in repository.sources.of(crate):
        for law in source.functions():
            if law.public and law.clauses:
                node = repository.node(("call", crate, source.name, law.name))
                for clause in law.clauses:
                    lines = range(clause.line, clause.last + 1)
                    places = {place[:2] for place in node.links if place[0] in lines}
                    yield Example(f"{anchor(node.key)}.{clause.name}", node,
                                  source.comment_above(clause.line), lines,
                                  named_at(node, places))


def named_at(node, places):
    """The nodes that stand at places of a node's text, by line and column."""
    return {key for (line, column, _), key in node.links.items() if (line, column) in places}


def fact(text):
    """A clause's text, as HTML, without what makes it a clause."""
    return CLAUSE.sub("", text)
