"""The chapters of the statement: which crates stand in each, what it says, and who may skip it."""
import collections

# What chapters speak of. A chapter that is none of the first three says what commands come to.
KINDS = {"subject": "networks, trees, the book", "text": "texts and formats",
         "outside": "what is outside of the program", "command": "what commands come to"}

# `row` is the chapter's place on the map, from the top calls down; `skip` says who may skip it.
Chapter = collections.namedtuple("Chapter", "title kind row crates about skip")

# Chapters, and the crates whose definitions stand in them. hose_law stands in four, by module. What
# is of one command alone, and of no crate that is named here, stands in a chapter of the command.
CHAPTERS = [
    Chapter("Network and traffic", "subject", 6, "hose_graph hose_tariff",
            "Networks, hoses, trees and routes, the matrices within the rates, and what it is to "
            "carry all of them.",
            "Nobody: every promise is in these words."),
    Chapter("Plans", "subject", 5,
            "hose_links hose_paths hose_root hose_tree hose_plan hose_price",
            "Which tree is picked, what it reserves and costs, and what is cheapest.",
            "Nobody, but the part on prices who does not ask for `price`."),
    Chapter("The book", "subject", 5, "hose_book",
            "Which VPNs are live, what each link carries, what is free, and which links are out of "
            "service.",
            "Nobody: that no link is oversold is said here."),
    Chapter("History", "subject", 4, "hose_core",
            "Which entries are sound and decided, what answers each command at its place, and what "
            "a script of replies is.",
            "Nobody who asks what a reply means. The answers to single commands may wait until one "
            "is doubted."),
    Chapter("Streams, disks and doors", "outside", 4, "hose_io hose_disk hose_door",
            "What a stream, a disk and a door tell of themselves, how their failures are counted, "
            "and which images a stop may leave.",
            "Who asks what is promised of networks, and not what a stop or a failure leaves."),
    Chapter("Lines and words", "text", 3, "hose_words hose_talk hose_topo hose_topo_json "
            "hose_proto",
            "Which bytes are which line, topology, command and reply, and which word is the first "
            "wrong one.",
            "Who takes docs/GUIDE.md for the forms of lines: an error here shows in the first line "
            "that somebody reads."),
    Chapter("The journal", "text", 3, "hose_codec hose_journal hose_store",
            "The bytes of a journal: records, gates, digests and seals, and for which entries an "
            "image stands.",
            "Who does not read journals by other programs: that an image stands for a history is "
            "used above by its name alone."),
    Chapter("Packets", "text", 3, "hose_follow",
            "A journal's orders as packets, what a follower answers to each, and what it has of "
            "its leader's orders then.",
            "Who keeps no standby."),
    Chapter("Connections of a host", "outside", 3, "hose_net hose_doors",
            "What happens at doors, at connections and at the link to a standby; a host's story "
            "of that and of its exchanges, and when a reply may be sent.",
            "Who does not use `host`."),
    Chapter("Certificates", "command", 2, "hose_cert",
            "The lines of a certificate, the six rules that make it valid, and the one that is "
            "written of a plan.",
            "Who uses neither `prove` nor `check`."),
    Chapter("Sessions", "command", 2,
            "hose_turn hose_pool hose_shared hose_greeting hose_session hose_crew",
            "What the lines of a session say; one customer's session at a server, and how sessions "
            "are along one history.",
            "Who uses neither `serve` nor `host`; of `host` what a session's lines say is enough."),
    Chapter("A host's answers", "command", 2, "hose_lead hose_clerk",
            "Which reply is a line's, of all connections in their order; what a link to a standby "
            "is sent, and what is heard by it.",
            "Who does not use `host`; the link to a standby who has none."),
    Chapter("What commands share", "command", 2, "",
            "A command's outcome is said of what is outside before and after it: what was read, "
            "what is out, what a journal was opened as, and the last line.",
            "Nobody who reads a command's outcome."),
    Chapter("Moved journals", "command", 2, "hose_move",
            "Which entries a journal states for another one, and what is left of both journals "
            "at each moment.",
            "Who uses neither `move` nor `cut`."),
]
OF_COMMAND = Chapter("", "command", 1, "", "{} What it comes to is said by cases of what ended it.",
                     "Who does not use `{}`.")
ABOUT = {
    "run": "Lines of many customers, each with its reply, by a book in memory or in a journal.",
    "audit": "The text of a journal's book.",
    "gen": "A network and a script of four numbers, and the line that sums the script up.",
    "prove": "A certificate of a hose's plan, or that there is none.",
    "check": "Whether a text is a valid certificate, and else the lowest rule that fails.",
    "price": "A sheet of hoses, and the prices of each by every tariff.",
    "ship": "The packets of a journal's orders, from an epoch on.",
    "follow": "A journal that takes packets, and the answer to each.",
    "move": "A journal's orders, or what is live of it, in a journal of another network.",
    "cut": "The first orders of a journal, in another one.",
    "serve": "The connections of a door, the history along which they were served, and what a "
             "stop leaves of it.",
    "host": "The doors of a host, the book that answers all its connections, and what a stop "
            "leaves of it at each moment."}
OF_WORDS = Chapter("The program's words", "text", 0, "",
                   "Which words of the program are which command or which host, and what they "
                   "name.",
                   "Who takes `--help` for them.")
OF_CALLS = Chapter("The calls", "command", 0, "",
                   "What the program's words come to: the calls whose clauses name all of the "
                   "above.",
                   "Nobody: all that is promised is in these clauses.")
# The modules of the program's words, by their crates.
WORDS = {"hosed": "ProgramWords HostWords HostNaming Naming Limits", "hose_gen": "Limits"}
LAW = {"Network and traffic": "Walk Row Tree Matrix Route Carries Heaviest",
       "Plans": "Plan CanonicalPlan Decision Cheapest",
       "The book": "Book Live Service Room"}
TITLES = [chapter.title for chapter in CHAPTERS]
HISTORY, SHARED = TITLES.index("History"), TITLES.index("What commands share")
# What these commands share, and no other has, stands in a chapter of its own.
SHARED_BY = {"move cut": TITLES.index("Moved journals")}


def chapters_of(commands):
    """All chapters: those of crates, one for each command, and those of words and of the calls."""
    own = [OF_COMMAND._replace(title=command, skip=OF_COMMAND.skip.format(command),
                               about=OF_COMMAND.about.format(ABOUT.get(command, "")).strip())
           for command in commands]
    return [*CHAPTERS, *own, OF_WORDS, OF_CALLS]
