"""The tables of tools/lines.py, as the sources tell them: each command and each reply.

A command's line is that of `verb.rt` of hose_proto. What answers it, and whether it leaves an
entry, say the clauses of hose_law's `IsAnswer` (Answer.antt); a reply's text is that of
`reply_words` (ReplyWords.antt of hose_proto), which is computed here as far as its words go.
"""
import os
import re
from collections import OrderedDict

ENDS = "NAME:RATE .."
# What clients call fields whose name in the sources is another one.
CALLED = {"at": "epoch", "now": "epoch", "seen": "quoted_at", "amounts": "links", "hose": "ends"}
# The kind of a list's words, by the function that spells one; a word of its own is a number, but:
LISTS = {"pair_word": "amounts", "end_word": "ends", "name_of": "names", "decimal": "numbers"}
WORDS = {"decimal": "number", "name_of": "name"}
TOKEN = re.compile(r'"[^"]*"|\[\]|[()∷≡×⊥]|\+\+|[^\W\d][\w.\'-]*')
LINE = 100


class Unknown(ValueError):
    """A definition has a form that is not read here."""


def read(top, *path):
    with open(os.path.join(top, "crates", *path), encoding="utf-8") as file:
        return re.sub(r"(?m)^--.*\n", "", file.read())


def clauses_of(text, name):
    """The clauses of a definition: the tokens of their patterns, and those of what they say."""
    found = []
    for head, body in re.findall(rf"(?m)^{name} ([^:=\n][^=\n]*?)? ?=((?:.*)(?:\n[ ].*)*)", text):
        found.append((parts_of(TOKEN.findall(head)), TOKEN.findall(body)))
    if not found:
        raise Unknown(f"{name} is not defined by clauses")
    return found


def parts_of(tokens):
    """Tokens as a row of atoms, where what stands in parentheses is one."""
    row, rest = [], list(tokens)
    while rest:
        token = rest.pop(0)
        if token != "(":
            row.append(token)
            continue
        depth, inner = 1, []
        while depth:
            token = rest.pop(0)
            depth += {"(": 1, ")": -1}.get(token, 0)
            inner.append(token)
        row.append(parts_of(inner[:-1]))
    return row


# ---- Replies.


class Words:
    """What definitions of words come to: a word is a text, or a field with its kind."""

    def __init__(self, text):
        self.text = text

    def value(self, row, known):
        """The words of a row of atoms, with `∷` and `++` between them."""
        for at, one in enumerate(row):
            if one == "∷":
                return [self.word(row[:at], known), *self.value(row[at + 1:], known)]
            if one == "++":
                return self.value(row[:at], known) + self.value(row[at + 1:], known)
        if len(row) == 1 and isinstance(row[0], list):
            return self.value(row[0], known)
        if row == ["[]"]:
            return []
        if row[0] == "map":
            spells = row[1][0] if isinstance(row[1], list) else row[1]
            return [(known.get(row[2], row[2]), LISTS[spells])]
        if len(row) == 1 and isinstance(known.get(row[0]), list):
            return known[row[0]]
        return self.called(row[0], row[1:], known)

    def word(self, row, known):
        if row[0] == "codes":
            return row[1].strip('"')
        if row[0] in WORDS:
            return known.get(row[-1], row[-1].split(".")[-1]), WORDS[row[0]]
        raise Unknown(f"{row} is no word")

    def called(self, name, given, known):
        """The words of a definition: its one clause, that of `Some`, or those of both truths."""
        values = [self.argument(one, known) for one in given]
        clauses = clauses_of(self.text, name)
        wholes = [self.value(parts_of(body), dict(zip(map(str, patterns), values)))
                  for patterns, body in clauses if "None" not in patterns]
        if len(wholes) == 1:
            return wholes[0]
        cases, (more, less) = [patterns[0] for patterns, _ in clauses], wholes
        if cases != ["true", "false"] or more[1:] != less or not isinstance(more[0], str):
            raise Unknown(f"{name} is told by cases of another kind")
        return [(values[0], more[0]), *less]

    def argument(self, one, known):
        if not isinstance(one, list):
            return known.get(one, one)
        return self.value(one, known) if one[0] != "slice_get" else one[-1]


def replies_of(top):
    """The form of each reply, with its fields in angle brackets, and the kind of each field that is
    no number."""
    words = Words(read(top, "hose_proto", "specs", "ReplyWords.antt"))
    forms, kinds = OrderedDict(), {}
    for patterns, body in clauses_of(words.text, "reply_words"):
        name, *fields = patterns[1] if isinstance(patterns[1], list) else [patterns[1]]
        told = words.value(parts_of(body), {field: field for field in fields})
        form = []
        for word in told:
            if isinstance(word, str):
                form.append(word)
                continue
            field, kind = CALLED.get(word[0], word[0]), word[1]
            kind = kind if kind in (*WORDS.values(), *LISTS.values()) else f"flag {kind}"
            if kinds.setdefault(field, kind) != kind:
                raise Unknown(f"{field} is {kind} in {name}, and {kinds[field]} elsewhere")
            form.append(f"<{field}>")
        forms[name] = " ".join(form)
    return forms, {field: kind for field, kind in sorted(kinds.items()) if kind != "number"}


# ---- Commands.


def names_of(top):
    """What the clauses of Answer.antt call each constructor of a command and of a reply."""
    text = read(top, "hose_law", "specs", "Answer.antt")
    found = {}
    for kind in ("Command", "Reply"):
        listed = re.search(rf"command\.{kind}\.TheVariants\.\{{(.*?)\}}", text)[1]
        pairs = (one.split(" as ") for one in listed.split(", "))
        found[kind] = {pair[-1]: pair[0] for pair in pairs}
    return text, found["Command"], found["Reply"]


class Answers:
    """What answers a command, by the clauses of hose_law."""

    def __init__(self, top):
        self.text, self.commands, self.replies = names_of(top)

    def told_by(self, row, known):
        """The replies that a row of atoms allows, each with whether an entry joins then."""
        found = []
        for at, one in enumerate(row):
            if isinstance(one, list):
                found += self.told_by(one, known)
            elif re.fullmatch(r"Is\w+Answer", one):
                found += self.of(one, row[at + 1:], known)
            elif row[at - 2:at] == ["reply", "≡"]:
                found.append((self.reply_of(one), False))
        return found

    def reply_of(self, one):
        """The reply that an atom is: a constructor, or a definition that gives one."""
        if one in self.replies:
            return self.replies[one]
        return self.reply_of(clauses_of(self.text, one)[0][1][0])

    def of(self, name, given, known):
        """Those of a definition at what it is given; a truth that is given leaves out the clauses
        of the other one."""
        found = []
        for patterns, body in clauses_of(self.text, name):
            values = [known.get(one, one) if isinstance(one, str) else None for one in given]
            both = [{pattern, value} for pattern, value in zip(patterns, values)
                    if isinstance(pattern, str)]
            if {"true", "false"} in both:
                continue
            heads = [one[0] if isinstance(one, list) else one for one in patterns]
            reply = next((at for at, head in enumerate(heads) if head in self.replies), None)
            now = {pattern: value for pattern, value in zip(patterns, values)
                   if isinstance(pattern, str)}
            if reply is None:
                found += self.told_by(parts_of(body), now)
            else:
                found.append((self.replies[heads[reply]], "Some" in heads[reply:]))
        return found

    def command_of(self, patterns):
        """The command that patterns are about."""
        heads = [one[0] if isinstance(one, list) else one for one in patterns]
        return next(self.commands[head] for head in heads if head in self.commands)

    def of_each(self):
        """The replies to each command in the order of the clauses, and the one that tells of an
        entry; a disk that fails to keep the entry, and want of memory, come after them."""
        found = {}
        wanting = {self.command_of(patterns): "⊥" not in body
                   for patterns, body in clauses_of(self.text, "MayWantMemory")}
        for patterns, body in clauses_of(self.text, "IsAnswer"):
            command = self.command_of(patterns)
            told = list(OrderedDict.fromkeys(self.told_by(parts_of(body), {})))
            entered = [reply for reply, enters in told if enters]
            replies = [reply for reply, _ in told] + ["Disk"] * len(entered)
            found[command] = (replies + ["Memory"] * wanting[command], *entered, None)[:2]
        return found


def commands_of(top):
    """Each command's line, its fields, the reply that tells of its entry, and all replies."""
    source = read(top, "hose_proto", "src", "verb.rt")
    words = dict(re.findall(r'\(Verb::(\w+), b"(\S+)"\)', source))
    answers, found = Answers(top).of_each(), OrderedDict()
    for usage, name in re.findall(r"// `(.*)`\n    (\w+),", source):
        who, word, *rest = usage.split(" ")
        fields = re.findall(r"NAME:RATE \.\.|\S+", " ".join(rest))
        if words[name] != word:
            raise Unknown(f"{usage} is not the usage of {words[name]}")
        replies, entered = answers[name]
        found[word] = (who, fields, entered, replies)
    return found


# ---- As Python.


def row(values):
    inner = ", ".join(f'"{value}"' for value in values)
    return f"({inner},)" if len(values) == 1 else f"({inner})"


def commands_text(top):
    lines = ["COMMANDS: Dict[str, Command] = {"]
    for word, (who, fields, entered, replies) in commands_of(top).items():
        begun = f'    "{word}": Command('
        told = f'"{entered}"' if entered else "None"
        rest = [f'{begun}"{who}", {row(fields)}, {told},', f"{row(replies)}),"]
        joined = " ".join(rest)
        lines += [joined] if len(joined) <= LINE else [rest[0], " " * len(begun) + rest[1]]
    return "\n".join([*lines, "}"])


def replies_text(top):
    forms, kinds = replies_of(top)
    lines = ["REPLIES: Dict[str, str] = {", *(f'    "{name}": "{form}",'
                                              for name, form in forms.items()), "}"]
    lines += ["FIELD_KINDS: Dict[str, str] = {", *(f'    "{field}": "{kind}",'
                                             for field, kind in kinds.items()), "}"]
    return "\n".join(lines)
