"""Tests of the units of tools/systemd/ as texts. bench/judge/units.py runs them under a real
systemd."""
import os
import re
import shlex
import unittest

from tests.runs import TOOLS

FOLDER = os.path.join(TOOLS, "systemd")
UNITS = sorted(name for name in os.listdir(FOLDER) if name.endswith(".service"))


def settings(name):
    """The settings of a unit, or of a file beside one: each with its values, in their order."""
    with open(os.path.join(FOLDER, name), encoding="ascii") as file:
        text = file.read().replace("\\\n", " ")
    found = {}
    for key, value in re.findall(r"(?m)^([A-Z][A-Za-z]+)=(.*)$", text):
        found.setdefault(key, []).append(value.strip())
    return found


class Units(unittest.TestCase):
    def test_what_is_told_as_an_error_goes_to_the_log(self):
        """By a name of its own; and no output is truncated while another line waits for it."""
        self.assertEqual(len(UNITS), 5)
        for name in UNITS:
            unit = settings(name)
            self.assertEqual(unit["StandardError"], ["journal"])
            self.assertEqual(unit["SyslogIdentifier"], [name[:-len(".service")].rstrip("@")])
            self.assertNotIn("truncate:", unit["StandardOutput"][0])

    def test_a_journal_has_one_server(self):
        """The start of one waits for the end of the other."""
        servers = "hosed.service", "hosed-host.service"
        for one in servers:
            others = [other for other in servers if other != one]
            self.assertEqual(sorted(settings(one)["Conflicts"][0].split()), sorted(others))
            for other in others:
                ordered = [two for two in (one, other) if settings(two).get("After")]
                self.assertTrue(ordered, (one, other))

    def test_none_begins_without_its_files(self):
        for name in UNITS:
            unit = settings(name)
            call = " ".join(unit["ExecStart"] + unit.get("Environment", [])).replace("=/", " /")
            for path in unit["AssertPathExists"]:
                self.assertIn(f" {path}", call)
            self.assertEqual(len(unit["AssertPathExists"]), 2)
            self.assertEqual(unit["User"], ["hosed"])

    def test_each_word_that_a_file_sets_is_one_of_its_unit(self):
        """A mistyped name would be set, and change nothing."""
        for name, of in (("hosed-customers.conf", "hosed-host"),
                         ("hosed-with-standby.conf", "hosed-host"),
                         ("hosed-figures.conf", "hosed-metrics")):
            calls = re.sub("[{}]", "", settings(f"{of}.service")["ExecStart"][0]).split()
            for value in settings(name)["Environment"]:
                for word in shlex.split(value):
                    self.assertIn("$" + word.partition("=")[0], calls)

    def test_a_host_of_three_machines(self):
        """Its program is the unit's, behind `lead`, with its own words for a standby, and each word that
        is set is used."""
        here, unit = settings("hosed-quorum.conf"), settings("hosed-host.service")
        self.assertEqual(here["ExecStart"][0], "")
        call, base = (re.sub("[{}]", "", one["ExecStart"][-1]) for one in (here, unit))
        for word in shlex.split(here["Environment"][0]):
            self.assertIn("$" + word.partition("=")[0], call.split())
        host = call[call.index("/usr/local/bin/hosed host"):]
        standby = "--standby /run/hosed/quorum --standby-seconds 6 --standby-or-stop "
        self.assertIn(standby, " ".join(host.split()) + " ")
        self.assertEqual(" ".join(host.split()).replace(standby, "$HOST_STANDBY "),
                         " ".join(base[base.index("/usr/local/bin/hosed host"):].split()))

    def test_each_procedure_is_run(self):
        """bench/judge/units.py names each block of docs/OPERATING.md that is to be run, and no
        other."""
        with open(os.path.join(TOOLS, "..", "docs", "OPERATING.md"), encoding="utf-8") as file:
            blocks = re.findall("(?m)^<!-- run: (.*) -->\n```$", file.read())
        script = os.path.join(TOOLS, "..", "bench", "judge", "units.py")
        with open(script, encoding="ascii") as file:
            text = file.read()
        named = set(re.findall(r'day\.block\(\w+, "([^"]+)"\)', text))
        for names in re.findall(r"for name in (\(.*\)):\n +day\.block\(leader, name\)", text):
            named.update(re.findall('"([^"]+)"', names))
        self.assertEqual(sorted(blocks), sorted(named))
        self.assertGreater(len(blocks), 15)

    def test_the_folder_of_each_customer_is_made_with_his_group(self):
        unit = settings("hosed-customers.conf")
        sockets = re.findall(r"([^\s=]+)/socket=([a-z0-9-]+)", unit["Environment"][0])
        made = [re.search(r"-g (\S+) -m 2750 (\S+)$", line).groups()
                for line in unit["ExecStartPre"]]
        self.assertEqual([(name, folder) for folder, name in sockets], made)
        self.assertEqual(len(made), 2)

    def test_a_host_comes_to_the_socket_of_a_follower(self):
        """And that is opened before; a host has longer to start than it waits for a standby."""
        door = settings("hosed-follow.socket")
        unit = settings("hosed-with-standby.conf")
        path = door["ListenStream"][0]
        self.assertEqual(shlex.split(unit["Environment"][0]), [f"HOST_STANDBY=--standby {path}"])
        self.assertEqual((unit["Wants"], unit["After"]), (["hosed-follow.socket"],) * 2)
        self.assertGreater(int(unit["TimeoutStartSec"][0]), 600)
        follower = settings("hosed-follow@.service")
        self.assertEqual((door["Accept"], door["SocketUser"]), (["yes"], follower["User"]))
        for way in "StandardInput", "StandardOutput":
            self.assertEqual(follower[way], ["socket"])

    def test_a_host_starts_and_ends_by_its_operator(self):
        """Started is it once it answers, and ended by its own word; who else may not open its
        socket is kept out by the folder and the mask."""
        unit = settings("hosed-host.service")
        door = re.search("--operator (\\S+) ", unit["ExecStart"][0])[1]
        for key, line in (("ExecStartPost", "figures"), ("ExecStop", "end")):
            self.assertIn(f"client.py --timeout 20 {door} operator {line}", " ".join(unit[key][0].split()))
            self.assertIn("kill -0 $MAINPID", unit[key][0])
        self.assertEqual(os.path.dirname(door), f"/run/{unit['RuntimeDirectory'][0]}")
        self.assertEqual((unit["UMask"], unit["RuntimeDirectoryMode"]), (["0007"], ["0750"]))
        asked = settings("hosed-figures.conf")["Environment"][0]
        self.assertIn(f"--operator {door}", asked)
