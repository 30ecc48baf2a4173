"""Tests of monitoring/: each figure that a rule or the dashboard names is one that a tool tells; by
promtool, where it is installed, the rules and their tests."""
import json
import os
import re
import shutil
import subprocess
import tempfile
import unittest
from unittest import mock

import client
import figures
import metrics
import networks
import replies
import server_state
import standby
from tests.runs import DEMO, TOOLS
from tests.test_metrics import BODIES, journal_of

FOLDER = os.path.join(TOOLS, "monitoring")
# promtool makes a store for each test, and syncs it.
IN_MEMORY = {**os.environ, **({"TMPDIR": "/dev/shm"} if os.path.isdir("/dev/shm") else {})}
NAMES = re.compile(r"\bhosed_[a-z_]+\b")


def text_of(name):
    with open(os.path.join(FOLDER, name), encoding="ascii") as file:
        return file.read()


def told():
    """All that metrics.py, a host and standby.py tell, as one text."""
    with tempfile.TemporaryDirectory() as folder:
        path = os.path.join(folder, "journal")
        with open(path, "wb") as file:
            file.write(journal_of(BODIES))
        watched = metrics.Watched(path, networks.load_topology(os.path.join(DEMO, "star.txt")))
        watched.update()
        watched.question = server_state.Question("/nowhere/socket")
        watched.files = server_state.Figures([os.path.join(folder, "none")])
        with mock.patch("server_state.is_held", return_value=True):
            text = metrics.exposed(watched)
        watched.close()
    report = standby.Report()
    report.have = 1
    host = server_state.of_host(replies.FiguresWithStandby(*range(23)), 1000.0)
    return text + figures.exposed([*host, *report.families()])


class Names(unittest.TestCase):
    def test_each_figure_is_told(self):
        families = re.findall("^# TYPE ([a-z_]+) ([a-z]+)", told(), re.MULTILINE)
        samples = {name + end for name, kind in families
                   for end in (("_bucket", "_sum", "_count") if kind == "histogram" else ("",))}
        for name in ("hosed.rules.yml", "hosed.grafana.json", "hosed.rules.test.yml"):
            named = set(NAMES.findall(text_of(name)))
            self.assertGreater(len(named), 10, name)
            self.assertEqual(named - samples, set(), name)

    def test_the_dashboard(self):
        dashboard = json.loads(text_of("hosed.grafana.json"))
        panels = dashboard["panels"]
        self.assertEqual(len({panel["id"] for panel in panels}), len(panels))
        taken = set()
        for panel in panels:
            place = panel["gridPos"]
            cells = {(x, y) for x in range(place["x"], place["x"] + place["w"])
                     for y in range(place["y"], place["y"] + place["h"])}
            self.assertFalse(cells & taken, panel["title"])
            self.assertLessEqual(max(x for x, _ in cells), 23)
            taken |= cells
            self.assertTrue(all(target["expr"] for target in panel["targets"]))

    def test_each_alert_has_its_test(self):
        alerts = re.findall(r"- alert: (\w+)", text_of("hosed.rules.yml"))
        tested = set(re.findall(r'alertname="(Hosed\w+)"', text_of("hosed.rules.test.yml")))
        self.assertEqual(set(alerts), tested)
        self.assertEqual(len(set(alerts)), len(alerts))


@unittest.skipUnless(shutil.which("promtool"), "promtool is not installed")
class Rules(unittest.TestCase):
    def test_by_promtool(self):
        for words in (["check", "rules", "hosed.rules.yml"],
                      ["test", "rules", "hosed.rules.test.yml"],
                      ["check", "config", "--syntax-only", "prometheus.yml"]):
            done = subprocess.run(["promtool", *words], cwd=FOLDER, stdout=subprocess.PIPE,
                                  stderr=subprocess.STDOUT, universal_newlines=True, timeout=300,
                                  env=IN_MEMORY)
            self.assertEqual(done.returncode, 0, done.stdout)

    def test_each_query_of_the_dashboard(self):
        """As the rules of one group, which promtool reads."""
        panels = json.loads(text_of("hosed.grafana.json"))["panels"]
        queries = [target["expr"].replace("$__rate_interval", "1m")
                   for panel in panels for target in panel["targets"]]
        rules = [{"record": "query", "expr": query} for query in queries]
        with tempfile.NamedTemporaryFile("w", suffix=".yml") as file:
            json.dump({"groups": [{"name": "queries", "rules": rules}]}, file)
            file.flush()
            done = subprocess.run(["promtool", "check", "rules", "--lint=none", file.name],
                                  stdout=subprocess.PIPE, stderr=subprocess.STDOUT,
                                  universal_newlines=True, timeout=300)
        self.assertEqual(done.returncode, 0, done.stdout)
