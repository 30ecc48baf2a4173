"""Tests of generate.py: networks and scripts that were worked out from their draws by hand."""
import os
import tempfile
import unittest

import generate
import networks
from generate import Draws, Sizes
from tests.runs import program, within

# The numbers floor(x / 2^33) that follow from the seed 1. The first x is
# 6364136223846793005 + 1442695040888963407 = 7806831264735756412, and 8589934592 * 908834774 is
# 7806831264730710016.
DRAWN = [908834774, 1093944153, 1392341196, 822192870, 1708211034, 1074839795, 1189567130,
         140486902, 1803298089, 426146746, 1601520123, 1150530802, 1682947452, 680858400, 523087034,
         1610444812, 911684890, 1228670495, 1337093332, 436429365, 1859467627, 2103721357,
         1180584926, 1334893410, 831492669]

NODES = ["node n0", "node n1", "node n2", "node n3", "node n4", "node n5"]
# Seed 1, 6 nodes, 5 links. Three draws a link: its second node below the number of the first, what
# its capacity is above 1000 below 9001, and what its length is above 1 below 100.
#   link 0   n1   908834774 mod 1 = 0   1093944153 mod 9001 = 7618   1392341196 mod 100 = 96
#   link 1   n2   822192870 mod 2 = 0   1708211034 mod 9001 = 1254   1074839795 mod 100 = 95
#   link 2   n3  1189567130 mod 3 = 2    140486902 mod 9001 = 8295   1803298089 mod 100 = 89
#   link 3   n4   426146746 mod 4 = 2   1601520123 mod 9001 = 8197   1150530802 mod 100 = 2
#   link 4   n5  1682947452 mod 5 = 2    680858400 mod 9001 = 4758    523087034 mod 100 = 34
LINKS = ["link n1 n0 8618 97", "link n2 n0 2254 96", "link n3 n2 9295 90", "link n4 n2 9197 3",
         "link n5 n2 5758 35"]
# The script of seed 1 on 6 nodes with 5 links. The customer of a hose is drawn below 8, how many
# ends above 2 below 4; of each end the node below 6, and the rate above 1 below 20.
#   hose 0: 1610444812 mod 8 = 4, 911684890 mod 4 = 2; 1228670495 mod 6 = 5, 1337093332 mod 20 = 12;
#           436429365 mod 6 = 3, 1859467627 mod 20 = 7; 2103721357 mod 6 = 1, 1180584926 mod 20 = 6;
#           1334893410 mod 6 = 0, 831492669 mod 20 = 9
#   hose 1: 1692817328 mod 8 = 0, 1266356004 mod 4 = 0; 117939872 mod 6 = 2, 2071799121 mod 20 = 1;
#           1906775968 mod 6 = 4, 608200607 mod 20 = 7
#   hose 2: 1374987538 mod 8 = 2, 688839708 mod 4 = 0; 1175113925 mod 6 = 5, 1158372494 mod 20 = 14;
#           533141082 mod 6 = 0, 1718403786 mod 20 = 6
#   hose 3: 394474858 mod 8 = 2, 37380316 mod 4 = 0; 656418589 mod 6 = 1, 482739455 mod 20 = 15;
#           1369587172 mod 6 = 4, 2119158410 mod 20 = 10
#   hose 4: 770417080 mod 8 = 0, 1249254861 mod 4 = 1; 618054934 mod 6 = 4, 399563508 mod 20 = 8;
#           1201712901 mod 6 = 3, 28406063 mod 20 = 3; 391455394 mod 6 = 4, which is an end already,
#           so it is 5, 984900522 mod 20 = 2
#   after it: 617997544 mod 8 = 0, 1364384636 mod 5 = 1
SCRIPT = ["c4 admit n5:13 n3:8 n1:7 n0:10", "c0 admit n2:2 n4:8", "c2 admit n5:15 n0:7",
          "c2 admit n1:16 n4:11", "c0 admit n4:9 n3:4 n5:3", "c0 release 2"]

# The link after those of the tree, on 6 nodes, by the seed: its nodes below 6 and below 5, of which
# the second is raised unless it is below the first; capacity and length.
#   seed 0: 424565022 mod 6 = 0, 1102140745 mod 5 = 0, so 1; 2093160978 mod 9001 = 5431, .. 31
#   seed 2: 648840954 mod 6 = 0, 721229034 mod 5 = 4, so 5; 364180013 mod 9001 = 8554, .. 86
#   seed 3: 1834720745 mod 6 = 5, 530773179 mod 5 = 4; 1647173179 mod 9001 = 8181, .. 87
SIXTH = {0: "link n0 n1 6431 32", 2: "link n0 n5 9554 87", 3: "link n5 n4 9181 88"}

# What some server might reply to the script, with other costs.
REPLIES = ["admitted 1 cost 900 at 1 links 0:7 1:10", "admitted 2 cost 6 at 2 links 3:2",
           "refused at 2 side n5", "admitted 3 cost 40 at 3 links 0:11",
           "admitted 4 cost 100 at 4 links 4:3", "released 2 at 5"]


def run(*words, text=""):
    """The program's status, output and what it says on standard error."""
    return within("generate.py", generate.main, *words, text=text)


def lines(*parts):
    return "".join(f"{line}\n" for part in parts for line in part)


class Generated(unittest.TestCase):
    def test_the_draws_of_a_seed(self):
        draws = Draws(1)
        self.assertEqual([draws.below(2**31) for _ in DRAWN], DRAWN)

    def test_a_tree_without_a_script(self):
        self.assertEqual(generate.topology(Sizes(1, 6, 5, 0)), [*NODES, *LINKS, "end"])
        self.assertEqual(generate.script(Sizes(1, 6, 5, 0)), [])

    def test_a_link_beyond_the_tree(self):
        for seed, link in SIXTH.items():
            self.assertEqual(generate.topology(Sizes(seed, 6, 6, 0))[11:], [link, "end"])

    def test_a_release_comes_after_each_fifth_hose(self):
        self.assertEqual(generate.script(Sizes(1, 6, 5, 4)), SCRIPT[:4])
        self.assertEqual(generate.script(Sizes(1, 6, 5, 5)), SCRIPT)
        kinds = [line.split()[1] for line in generate.script(Sizes(1, 6, 5, 11))]
        self.assertEqual(kinds, (["admit"] * 5 + ["release"]) * 2 + ["admit"])

    def test_the_script_follows_the_topology(self):
        self.assertEqual(list(generate.lines(Sizes(1, 6, 5, 5))), [*NODES, *LINKS, "end", *SCRIPT])

    def test_numbers_wrap_around(self):
        """The first x of this seed is I - M, and 2^64 more: 13525302890751722018."""
        self.assertEqual(Draws(2**64 - 1).below(2**31), 13525302890751722018 // 8589934592)


class Summaries(unittest.TestCase):
    def test_a_script_without_a_command(self):
        self.assertEqual(generate.summary(Sizes(1, 6, 5, 0), ""),
                         "gen 1 hoses 0 admitted 0 refused 0 released 0 epoch 0 cost 0")

    def test_replies_are_counted_by_their_kinds(self):
        for last, released, epoch in ((REPLIES[5], 1, 5), ("no vpn 2 at 4", 0, 4)):
            told = generate.summary(Sizes(1, 6, 5, 5), lines([*REPLIES[:5], last]))
            self.assertEqual(told, "gen 1 hoses 5 admitted 4 refused 1 "
                                   f"released {released} epoch {epoch} cost 1046")

    def test_replies_of_something_else(self):
        first = REPLIES[:4]
        for replies, at, words in (
            (["topology 3 2"], 1, "'topology 3 2' is no reply to 'c4 admit"),
            ([*first, "memory"], 5, "'memory' is no reply"),
            ([*first, "no vpn 2 at 3", REPLIES[5]], 5, "'no vpn 2 at 3' is no reply"),
            ([*REPLIES[:5], REPLIES[4]], 6, "is no reply to 'c0 release 2'"),
            (first, 5, "there are 4 replies to 6 commands"),
            ([*REPLIES, "cabinet"], 7, "there are 7 replies to 6 commands"),
        ):
            with self.assertRaisesRegex(networks.WrongText, f"line {at}: .*{words}"):
                generate.summary(Sizes(1, 6, 5, 5), lines(replies))


class Program(unittest.TestCase):
    def test_the_input_of_a_run(self):
        self.assertEqual(run(1, 6, 5, 5), (0, lines(NODES, LINKS, ["end"], SCRIPT), ""))
        self.assertEqual(program("generate.py", 1, 6, 5, 1),
                         (0, lines(NODES, LINKS, ["end"], SCRIPT[:1]), ""))

    def test_a_summary(self):
        replies, wanted = lines(REPLIES[:1]), "gen 1 hoses 1 admitted 1 refused 0 released 0 " \
                                              "epoch 1 cost 900\n"
        self.assertEqual(run(1, 6, 5, 1, "--summary", "-", text=replies), (0, wanted, ""))
        with tempfile.TemporaryDirectory() as folder:
            path = os.path.join(folder, "replies")
            with open(path, "w", encoding="ascii") as file:
                file.write(replies)
            self.assertEqual(run(1, 6, 5, 1, "--summary", path), (0, wanted, ""))

    def test_the_least_and_the_greatest_numbers(self):
        for numbers in ((0, 6, 5, 0), (2**64 - 1, 6, 2048, 0), (1, 512, 511, 0), (1, 6, 5, 20_000)):
            self.assertEqual(tuple(generate.checked(*numbers)), numbers)

    def test_numbers_past_their_limits(self):
        for numbers, sentence in (
            ((2**64, 6, 5, 0), "SEED is not 0 to 18446744073709551615"),
            ((-1, 6, 5, 0), "SEED is not 0 to"),
            ((1, 5, 5, 0), "NODES is not 6 to 512"),
            ((1, 513, 512, 0), "NODES is not 6 to 512"),
            ((1, 6, 4, 0), "LINKS is not 5 to 2048"),
            ((1, 512, 510, 0), "LINKS is not 511 to 2048"),
            ((1, 6, 2049, 0), "LINKS is not 5 to 2048"),
            ((1, 6, 5, 20_001), "HOSES is not 0 to 20000"),
        ):
            with self.assertRaisesRegex(networks.WrongInput, sentence):
                generate.checked(*numbers)

    def test_one_sentence_and_status_2(self):
        self.assertEqual(run(1, 6, 4, 0), (2, "", "generate.py: LINKS is not 5 to 2048\n"))
        status, output, error = run(1, 6, 5, 5, "--summary", "-", text="cabinet\n")
        self.assertEqual((status, output), (2, ""))
        self.assertIn("standard input, line 1: 'cabinet' is no reply", error)
