"""The commands of a customer, and those of the program: the table of the reader, its meaning, and
the usage text say one thing of each."""
import os
import re
import unittest

TOP = os.path.join(os.path.dirname(os.path.abspath(__file__)), "..", "..")

# How the usage text tells the fields that may follow a command's first word.
TOLD = {
    "ends_shape": "NAME:RATE ..",
    "id_and": "(?:K|Q|ID)",
    "link_shape": "L",
    "line_end": "",
}

# How the usage text tells what is no word of its own in the table of the program.
ENDS = "NAME:RATE .."
ABOUT_ITSELF = "--help | --version"
# What is told of the names that the definitions of shapes give to values.
NO_VALUE = {"names", "after"}


def read(*path):
    with open(os.path.join(TOP, "crates", *path), encoding="utf-8") as file:
        return file.read()


class Commands(unittest.TestCase):
    def setUp(self):
        source = read("hose_proto", "src", "verb.rt")
        self.usage = re.findall(r"// `(.*)`\n    (\w+),", source)
        self.words = dict(re.findall(r'\(Verb::(\w+), b"(\S+)"\)', source))
        meaning = read("hose_proto", "specs", "Command.antt")
        self.lines = {verb: (word, re.findall(r"\w+_(?:shape|and|end)", fields))
                      for verb, word, fields in
                      re.findall(r'verb_line verb\.(\w+) = \(codes "(\S+)", (.*)\)', meaning)}
        self.help = [line.strip() for line in read("hosed_program", "src", "texts.rt").splitlines()]

    def test_each_command_is_in_each_table(self):
        names = [name for _, name in self.usage]
        self.assertEqual(names, list(self.words))
        self.assertEqual(names, list(self.lines))

    def test_the_usage_of_a_command_is_its_word_and_its_fields(self):
        for usage, name in self.usage:
            word, fields = self.lines[name]
            self.assertEqual(word, self.words[name])
            told = " ".join([re.escape(word), *filter(None, (TOLD[field] for field in fields))])
            self.assertRegex(usage, "^(CUSTOMER|operator) " + told + "$")

    def test_the_usage_text_has_each_command_and_no_other(self):
        told = [line for line in self.help if re.match("(CUSTOMER|operator) [a-z-]", line)]
        self.assertEqual(len(told), len(self.usage))
        for line, (usage, _) in zip(told, self.usage):
            self.assertRegex(line, "^" + re.escape(usage) + "(  .*| the same.*|)$")


def definition(text, name):
    """The parameters and the right side of a definition that has one clause."""
    found = re.search(rf"^{name}((?: \w+)*) =\s(.*?)(?=\n\n)", text, re.S | re.M)
    return (found[1].split(), found[2]) if found else None


def option_of(text, name):
    """The word of an option."""
    return definition(text, name)[1].split('"')[1]


def fields_of(text, row):
    """What a row says after the command's own word, by the names that its values have there."""
    found = []
    for kind, bound, word in re.findall(r"(?:(last \w+|items \w+) \()?λ (\w+)\.|([a-z]\w*)", row):
        if kind.startswith("items"):
            found.append(ENDS)
        elif kind:
            found.append(f"[{bound.upper()}]")
        elif bound:
            found += [bound.upper()] * (bound not in NO_VALUE)
        elif word == "with_tariff":
            found.append(f"[{option_of(text, 'tariff_option')} NAME]")
        elif word.endswith("_option"):
            found.append(f"[{option_of(text, word)}]")
        elif word in ("topology_and", "journal_and"):
            found += fields_of(text, definition(text, word)[1])
    return found


def usage_of(text, word, row):
    """The usage of a command, by its row: its word, its options, and what else it names."""
    return " ".join([word, *fields_of(text, row)])


def usage_of_host(text):
    """The usage of a host and of its standby, by the words that its definitions have."""
    words = {name: re.search(rf'^{name} = codes "(\S+)"$', text, re.M)[1]
             for name in ("host_word", "operator_option", "quiet_option", "standby_option",
                          "seconds_option", "stop_option")}
    standby = (f"{words['standby_option']} PATH [{words['seconds_option']} N] "
               f"[{words['stop_option']}]")
    return (f"{words['host_word']} [--tariff NAME] [{words['operator_option']} PATH] "
            f"[{words['quiet_option']}] [STANDBY] TOPOLOGY JOURNAL DOOR .."), standby


def without_streams(usage):
    """A usage without what it says of the input and of the output."""
    return re.sub(r" [<>] [A-Z]+$", "", usage)


class Program:
    """What each file says of the commands of the program, in its order."""

    def __init__(self, verb, meaning, host, texts):
        self.host, self.standby = usage_of_host(host)
        self.texts = texts
        self.usage = re.findall(r"/// `(.*)`\n    (\w+),", verb)
        self.words = re.findall(r'\(ProgramVerb::(\w+), b"(\S+)"\)', verb)
        rows = re.findall(r'^program_line command\.(\w+) =\s+\(\s*codes "(\S+)",\s+(.*?),?\s*\)$',
                          meaning, re.S | re.M)
        self.row_words = [(name, word) for name, word, _ in rows]
        self.row_usage = [usage_of(meaning, word, " ".join(row.split())) for _, word, row in rows]
        told = re.search(r'HELP: &str = "\\\n(.*?)\n\n', texts, re.S)[1]
        self.help = [re.sub("^(usage:|      ) hosed ", "", line) for line in told.split("\n")]

    def pairs(self):
        """What has to be the same, two by two."""
        names = [name for _, name in self.usage]
        usages = [usage for usage, _ in self.usage]
        place = names.index("Serve") + 1  # a host stands behind the other server
        return {"words": (names, [name for name, _ in self.words]),
                "words of rows": (self.words, self.row_words),
                "usage of rows": ([without_streams(usage) for usage, _ in self.usage],
                                  self.row_usage),
                "standby": (f"STANDBY is {self.standby}." in self.texts, True),
                "usage text": ([*usages[:place], self.host, *usages[place:], ABOUT_ITSELF],
                               self.help)}


# A change of each file that makes it say another thing than the others.
CHANGES = {
    "verb": [("`audit [--tariff", "`audits [--tariff"), ("FROM > PACKETS", "[FROM] > PACKETS"),
             ("TOPOLOGY < SHEET", "TOPOLOGY < SHEETS"), ('b"gen"', 'b"make"'),
             ("(ProgramVerb::Ship", "(ProgramVerb::Follow")],
    "meaning": [('codes "--live"', 'codes "--alive"'), ('codes "--tariff"', 'codes "--prices"'),
                ("(λ from. line_end)", "line_end"), ("(λ from. line_end)", "(λ since. line_end)"),
                ("flag live_option (", "("),
                ("λ names. file_and (λ topology. line_end)", "topology_and (λ topology. line_end)"),
                ("items AreNewEndWords (λ end. end) least_ends", "line_end"),
                ('"serve",\n', '"server",\n'), ("λ new_journal.", "λ journal."),
                ('with_tariff (last IsFileName (λ journal. journal))', "λ names. line_end"),
                ("(λ nodes. ", "(λ links. ")],
    "host": [('codes "host"', 'codes "house"'), ('"--operator"', '"--owner"'),
             ('"--quiet"', '"--still"'), ('"--standby"', '"--follower"'),
             ('"--standby-seconds"', '"--seconds"'), ('"--standby-or-stop"', '"--or-stop"')],
    "texts": [("[--tariff NAME] [--live]", "[--live] [--tariff NAME]"), ("RATE ..\n", "RATE\n"),
              ("[JOURNAL] <", "JOURNAL <"), ("CONNECTIONS WORKERS", "WORKERS CONNECTIONS"),
              ("       hosed price TOPOLOGY < SHEET\n", ""), ("check [--tariff NAME]", "check"),
              ("usage: hosed run", "usage: hosed fly")],
}


class ProgramCommands(unittest.TestCase):
    def setUp(self):
        self.files = {"verb": read("hosed_requests", "src", "verb.rt"),
                      "meaning": read("hosed_requests", "specs", "ProgramWords.antt"),
                      "host": read("hosed_requests", "specs", "HostWords.antt"),
                      "texts": read("hosed_program", "src", "texts.rt")}

    def test_table_and_usage_text_say_one_thing(self):
        program = Program(**self.files)
        self.assertGreater(len(program.usage), 1)
        for what, (one, other) in program.pairs().items():
            with self.subTest(what):
                self.assertEqual(one, other)

    def test_a_change_of_one_of_them_is_found(self):
        for name, changes in CHANGES.items():
            for old, new in changes:
                with self.subTest(name, old=old, new=new):
                    self.assertIn(old, self.files[name])
                    changed = {**self.files, name: self.files[name].replace(old, new, 1)}
                    pairs = Program(**changed).pairs().values()
                    self.assertTrue(any(one != other for one, other in pairs))
