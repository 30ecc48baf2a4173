"""Tests of books.py, metrics.py and metrics_server.py: a journal of version 1 whose bytes are put
together by hand, and the figures that it makes, worked out by hand."""
import http.client
import io
import json
import os
import tempfile
import threading
import unittest
from unittest import mock

import books
import metrics
import metrics_server
import networks
from live_journal import LiveJournal
from tests.fake_server import FakeServer
from tests.runs import DEMO, link_line, within
from tests.test_read_journal import ADMISSION, CHAINED, PLAIN, RELEASE, SEALED
from tests.test_server_state import FIGURES

STAR = os.path.join(DEMO, "star.txt")
# beta admits a:1 b:1, and link 2 goes out of service.
BETA = "01046265746102000000000001000100000001" + "0002000000000001000100000001"
OUT = "030002"
BODIES = [bytes.fromhex(body) for body in (ADMISSION, BETA, RELEASE, OUT)]
# The links of the star cost 1, 2 and 3. After each entry: loads, cost, live VPNs.
LOADS = [[3, 4, 5], [4, 5, 5], [1, 1, 0], [1, 1, 0]]
COSTS = [3 + 8 + 15, 4 + 10 + 15, 1 + 2, 1 + 2]
LIVE = [{"acme": 1}, {"acme": 1, "beta": 1}, {"beta": 1}, {"beta": 1}]
AUDIT = f"""epoch 2
{link_line(0, "a", "h", 10, 1, 4)}
{link_line(1, "b", "h", 10, 2, 5)}
{link_line(2, "c", "h", 10, 3, 5)}
vpn 1 acme cost 26 ends a:3 b:4 c:5 links 0:3 1:4 2:5
vpn 2 beta cost 3 ends a:1 b:1 links 0:1 1:1
live 2 cost 29
"""
EXPOSED = """# HELP hosed_epoch Orders in the journal.
# TYPE hosed_epoch gauge
hosed_epoch 4
# HELP hosed_orders_total Orders in the journal, by kind.
# TYPE hosed_orders_total counter
hosed_orders_total{kind="admit"} 2
hosed_orders_total{kind="release"} 1
hosed_orders_total{kind="down"} 1
hosed_orders_total{kind="up"} 0
# HELP hosed_live_vpns VPNs that are live.
# TYPE hosed_live_vpns gauge
hosed_live_vpns 1
# HELP hosed_customer_vpns VPNs that are live, of a customer who has one.
# TYPE hosed_customer_vpns gauge
hosed_customer_vpns{customer="beta"} 1
# HELP hosed_cost What all that is reserved costs.
# TYPE hosed_cost gauge
hosed_cost 3
# HELP hosed_link_load What is reserved on a link.
# TYPE hosed_link_load gauge
hosed_link_load{link="0",a="a",b="h"} 1
hosed_link_load{link="1",a="b",b="h"} 1
hosed_link_load{link="2",a="c",b="h"} 0
# HELP hosed_link_capacity What a link can carry.
# TYPE hosed_link_capacity gauge
hosed_link_capacity{link="0",a="a",b="h"} 10
hosed_link_capacity{link="1",a="b",b="h"} 10
hosed_link_capacity{link="2",a="c",b="h"} 10
# HELP hosed_link_out 1 where a link is out of service, else 0.
# TYPE hosed_link_out gauge
hosed_link_out{link="0",a="a",b="h"} 0
hosed_link_out{link="1",a="b",b="h"} 0
hosed_link_out{link="2",a="c",b="h"} 1
# HELP hosed_journal_readable 1 where the journal was read, else 0.
# TYPE hosed_journal_readable gauge
hosed_journal_readable 1
# HELP hosed_journal_bytes Bytes of the journal.
# TYPE hosed_journal_bytes gauge
hosed_journal_bytes 150
# HELP hosed_journal_free_bytes Bytes that its file system has left.
# TYPE hosed_journal_free_bytes gauge
hosed_journal_free_bytes 8192
# HELP hosed_last_entry_time_seconds When the journal was written last, in seconds since 1970.
# TYPE hosed_last_entry_time_seconds gauge
hosed_last_entry_time_seconds 1000.500
# HELP hosed_last_entry_age_seconds How long ago that was when this was written.
# TYPE hosed_last_entry_age_seconds gauge
hosed_last_entry_age_seconds 1.500
# HELP hosed_up 1 where a program has the journal open, as a server, else 0.
# TYPE hosed_up gauge
hosed_up 1
"""
UNREADABLE = """# HELP hosed_journal_readable 1 where the journal was read, else 0.
# TYPE hosed_journal_readable gauge
hosed_journal_readable 0
"""


def journal_of(bodies):
    """A journal of version 1: a length of four bytes before each body, and gates between."""
    records = b"".join(b"\1" + len(body).to_bytes(4, "big") + body for body in bodies)
    return PLAIN[:38] + records + b"\0"


class Journals(unittest.TestCase):
    def setUp(self):
        folder = tempfile.TemporaryDirectory()
        self.addCleanup(folder.cleanup)
        self.folder, self.path = folder.name, os.path.join(folder.name, "journal")
        for name, value in (("free_bytes", 8_192), ("is_held", True)):
            patch = mock.patch(f"server_state.{name}", return_value=value)
            patch.start()
            self.addCleanup(patch.stop)

    def put(self, held, path=None):
        with open(path or self.path, "wb") as file:
            file.write(held)
        os.utime(path or self.path, (1000.5, 1000.5))

    def replace(self, held):
        self.put(held, self.path + ".new")
        os.rename(self.path + ".new", self.path)

    def watched(self, held, tariff=None):
        self.put(held)
        watched = metrics.Watched(self.path, networks.load_topology(STAR, tariff))
        self.addCleanup(watched.close)
        return watched


class Books(Journals):
    def test_each_entry(self):
        book = books.Book(networks.load_topology(STAR))
        self.put(journal_of(BODIES))
        with LiveJournal(self.path) as journal:
            for at, record in enumerate(journal.read()):
                book.enter(record)
                told = book.epoch, book.loads, book.cost(), book.customers()
                self.assertEqual(told, (at + 1, LOADS[at], COSTS[at], LIVE[at]))
                if at == 1:
                    self.assertEqual(book.audit(), networks.read_audit(AUDIT))
        self.assertEqual(book.out, {2})

    def test_entries_that_no_book_takes(self):
        up, release_of_beta = b"\4\0\2", bytes.fromhex("020462657461" + "00000001")
        node_4 = bytes.fromhex(BETA[:26] + "0004" + BETA[30:])
        for bodies, epoch, gate in (
                ([BODIES[2]], 1, 38), ([BODIES[0], BODIES[2], BODIES[2]], 3, 103),
                ([BODIES[0], release_of_beta], 2, 88), ([up], 1, 38), ([b"\3\0\3"], 1, 38),
                ([node_4], 1, 38)):
            with self.assertRaises(books.Unsound) as caught:
                self.watched(journal_of(bodies)).update()
            self.assertEqual(str(caught.exception), f"the entry {epoch} of the journal is not "
                             f"sound; `hosed audit` tells it as damaged at {gate}")


class Figures(Journals):
    def test_as_a_text(self):
        watched = self.watched(journal_of(BODIES))
        watched.update()
        with mock.patch("time.time", return_value=1002):
            self.assertEqual(metrics.exposed(watched), EXPOSED)

    def test_as_json(self):
        watched = self.watched(SEALED)
        watched.update()
        with mock.patch("time.time", return_value=1002):
            told = json.loads(metrics.as_json(watched))
        links = [{"link": number, "a": name, "b": "h", "capacity": 10, "cost": number + 1,
                  "load": 0, "out": False} for number, name in enumerate("abc")]
        self.assertEqual(told, {
            "epoch": 2, "chain": watched.journal.value.hex(), "live_vpns": 0, "cost": 0,
            "orders": {"admit": 1, "release": 1, "down": 0, "up": 0}, "customers": {},
            "journal_bytes": 174, "journal_free_bytes": 8_192, "up": True,
            "last_entry_time_seconds": 1000.5, "last_entry_age_seconds": 1.5, "links": links})

    def test_as_a_page(self):
        watched = self.watched(journal_of(BODIES))
        watched.update()
        text = metrics.as_page(watched)
        self.assertIn("4 nodes, 3 links, of which 1 out; at epoch 4: 1 VPN, cost 3", text)
        self.assertIn("2 beta 3 a:1,b:1 0:1,1:1", text)

    def test_as_the_journal_grows_and_is_replaced(self):
        watched = self.watched(journal_of(BODIES[:1]))
        for held, epoch in ((journal_of(BODIES), 4), (journal_of(BODIES[:2]), 2), (CHAINED, 2),
                            (journal_of([]), 0)):
            for put in self.put, self.replace:
                put(held)
                watched.update()
                self.assertEqual(watched.book.epoch, epoch)
                self.assertEqual(watched.book.loads, LOADS[epoch - 1] if epoch and held != CHAINED
                                 else [0, 0, 0])

    def test_what_was_damaged_is_told_again_once_it_is_well(self):
        watched = self.watched(CHAINED)
        watched.update()
        for held in (CHAINED[:150] + b"\xff" + CHAINED[151:],
                     CHAINED[:6] + bytes(32) + CHAINED[38:],
                     b"a text of more than 39 letters, and no journal", b""):
            self.put(held)
            for _ in range(2):
                with self.assertRaises(networks.WrongInput):
                    watched.update()
            for bodies in BODIES[:2], BODIES:
                self.put(journal_of(bodies))
                watched.update()
                self.assertEqual((watched.book.epoch, watched.book.loads),
                                 (len(bodies), LOADS[len(bodies) - 1]))


class Program(Journals):
    def ended(self, *words, topology=STAR):
        status, output, error = within("metrics.py", metrics.main, *words, topology, self.path)
        return status, output, error.replace(self.path, "J")

    def test_to_a_file(self):
        self.put(journal_of(BODIES))
        path = os.path.join(self.folder, "hosed.prom")
        with mock.patch("time.time", return_value=1002):
            self.assertEqual(self.ended("--write", path), (0, "", ""))
        with open(path, encoding="ascii") as file:
            self.assertEqual(file.read(), EXPOSED)
        self.assertEqual(sorted(os.listdir(self.folder)), ["hosed.prom", "journal"])
        status, _, error = self.ended("--write", os.path.join(self.folder, "no", "file"))
        self.assertEqual(status, 2)
        self.assertIn("cannot be written: No such file or directory", error)

    def test_again_and_again(self):
        self.put(journal_of(BODIES[:1]))
        changes = iter([journal_of(BODIES), None])

        def pause(seconds):
            self.assertEqual(seconds, 5)
            held = next(changes)
            if held is None:
                raise KeyboardInterrupt
            self.put(held)

        with mock.patch("time.sleep", pause):
            status, output, _ = self.ended("--every", "5")
        self.assertEqual(status, networks.INTERRUPTED)
        self.assertEqual([line for line in output.splitlines() if line.startswith("hosed_epoch")],
                         ["hosed_epoch 1", "hosed_epoch 4"])

    def test_a_journal_that_goes_and_comes_back(self):
        """In between the file has no figure but that."""
        self.put(journal_of(BODIES))
        path, seen = os.path.join(self.folder, "hosed.prom"), []
        steps = iter(["rename", "rename back", None])

        def pause(_):
            with open(path, encoding="ascii") as file:
                seen.append(file.read())
            step = next(steps)
            if step is None:
                raise KeyboardInterrupt
            os.rename(*(self.path, f"{self.path}.away")[::1 if step == "rename" else -1])

        with mock.patch("time.sleep", pause), mock.patch("time.time", return_value=1002):
            status, _, error = self.ended("--every", "5", "--write", path)
        self.assertEqual((status, seen), (networks.INTERRUPTED, [EXPOSED, UNREADABLE, EXPOSED]))
        self.assertEqual(error, "metrics.py: J is gone: No such file or directory\n")

    def test_figures_of_a_host(self):
        """That it is up is its own answer, and not that its journal is open."""
        self.put(journal_of(BODIES))
        with FakeServer([b"welcome at 4\n", FIGURES]) as server:
            _, output, _ = self.ended("--operator", str(server.port))
        self.assertIn("\nhosed_up 1\n", output)
        self.assertIn('\nhosed_host_replies_total{reply="refused"} 5\n', output)
        _, output, _ = self.ended("--operator", "/nowhere/socket")
        self.assertIn("\nhosed_up 0\n", output)
        self.assertNotIn("hosed_host_", output)
        with FakeServer([b"welcome at 4\n", FIGURES]) as server:
            told = json.loads(self.ended("--json", "--operator", str(server.port))[1])
        self.assertEqual((told["up"], told["host"]["lines"]), (True, 3))
        self.assertIs(json.loads(self.ended("--json", "--operator", "/nowhere/x")[1])["up"], False)

    def test_figures_of_a_file(self):
        """They are told behind those of the journal as long as they are fresh."""
        self.put(journal_of(BODIES))
        file, no_file = os.path.join(self.folder, "file.prom"), os.path.join(self.folder, "none")
        self.put(b"hosed_standby_epoch 3\n", file)
        for now, sessions, age in ((1005.5, "hosed_standby_epoch 3\n", "5.000"),
                                   (1030.75, "", "30.250")):
            with mock.patch("time.time", return_value=now):
                _, output, _ = self.ended("--figures", file, "--figures", no_file)
            ages = (f'hosed_figures_age_seconds{{file="{file}"}} {age}\n'
                    f'hosed_figures_age_seconds{{file="{no_file}"}} +Inf\n')
            self.assertTrue(output.endswith(ages + sessions), output)

    def test_under_a_tariff_and_in_json(self):
        # With `hops` each link costs 1: 4 + 5 + 5. The digest is that of the star with these costs.
        with open(STAR, encoding="ascii") as file:
            star = networks.priced(networks.read_topology(file.read()), "hops")
        held = journal_of(BODIES[:2])
        self.put(held[:6] + metrics.journals.digest_of(star) + held[38:])
        path = os.path.join(self.folder, "star.json")
        with open(path, "w", encoding="ascii") as file:
            json.dump({"nodes": list("abch"), "links": [
                {"a": name, "b": "h", "capacity": 10, "length": length}
                for name, length in zip("abc", (1, 2, 3))]}, file)
        for topology in STAR, path:
            status, output, _ = self.ended("--tariff", "hops", topology=topology)
            self.assertEqual(status, 0)
            self.assertIn("\nhosed_cost 14\n", output)
        self.assertEqual(self.ended()[0], 12)

    def test_faults(self):
        for held, status, sentence in (
                (None, 6, "J cannot be read: No such file or directory"),
                (b"", 6, "J is not begun"), (CHAINED[:100], 5, "J is damaged at 38"),
                (journal_of([BODIES[2]]), 5, "the entry 1 of the journal is not sound; `hosed "
                                             "audit` tells it as damaged at 38")):
            if held is not None:
                self.put(held)
            self.assertEqual(self.ended(), (status, "", f"metrics.py: {sentence}\n"))

    def test_words(self):
        for words, sentence in ((("--http", "0"), "a number of 1 to 65535"),
                                (("--http", "80", "--every", "5"), "--http takes neither"),
                                (("--every", "x"), "a number of 1 to 86400"),
                                (("--ask", "7", "--operator", "8"), "--operator takes no --ask"),
                                (("--json", "--page"), "not allowed with")):
            status, output, error = self.ended(*words)
            self.assertEqual((status, output), (2, ""))
            self.assertIn(sentence, error)


class Http(Journals):
    def setUp(self):
        super().setUp()
        self.watched_one = self.watched(journal_of(BODIES))
        self.server = metrics_server.Server(0, self.watched_one.update, {
            "/": ("text/html", lambda: metrics.renewed(metrics.as_page(self.watched_one))),
            "/metrics": ("text/plain", lambda: metrics.exposed(self.watched_one))})
        self.addCleanup(self.server.server_close)
        thread = threading.Thread(target=self.server.serve_forever, args=(0.01,), daemon=True)
        thread.start()
        self.addCleanup(thread.join)
        self.addCleanup(self.server.shutdown)

    def asked(self, path, host="localhost", method="GET"):
        connection = http.client.HTTPConnection(*self.server.server_address, timeout=10)
        self.addCleanup(connection.close)
        connection.request(method, path, headers={"Host": host})
        answer = connection.getresponse()
        self.length = int(answer.getheader("Content-Length"))
        return answer.status, answer.read().decode()

    def test_the_text_and_the_page_that_renews_itself(self):
        with mock.patch("time.time", return_value=1002):
            self.assertEqual(self.asked("/metrics"), (200, EXPOSED))
        status, text = self.asked("/")
        self.assertEqual(status, 200)
        self.assertIn("at epoch 4: 1 VPN", text)
        self.assertEqual(text.count("<script>setTimeout(() => location.reload(), 10000);</script>"),
                         1)
        self.put(journal_of(BODIES[:2]))
        self.assertIn("at epoch 2: 2 VPNs", self.asked("/")[1])

    def test_the_head_alone(self):
        with mock.patch("time.time", return_value=1002):
            self.assertEqual(self.asked("/metrics", method="HEAD"), (200, ""))
        self.assertEqual(self.length, len(EXPOSED))
        self.assertEqual(self.asked("/x", method="HEAD"), (404, ""))

    def test_a_journal_that_is_gone(self):
        self.assertEqual(self.asked("/metrics")[0], 200)
        os.rename(self.path, f"{self.path}.away")
        for _ in range(2):
            gone = f"{self.path} is gone: No such file or directory\n"
            self.assertEqual(self.asked("/metrics"), (503, gone))
        os.rename(f"{self.path}.away", self.path)
        self.assertEqual(self.asked("/metrics")[0], 200)

    def test_what_is_not_there(self):
        self.assertEqual(self.asked("/x"), (404, "here are / /metrics\n"))
        self.assertEqual(self.asked("/metrics", "elsewhere.example:80")[0], 403)
        self.put(CHAINED[:100])
        status, text = self.asked("/metrics")
        self.assertEqual((status, text), (503, f"{self.path} is damaged at 38\n"))

    def test_one_who_does_not_wait_is_not_told_of(self):
        for fault, told in ((BrokenPipeError(), ""), (ValueError("a fault"), "ValueError: a fault")):
            error = io.StringIO()
            with mock.patch("sys.stderr", error):
                try:
                    raise fault
                except Exception:
                    self.server.handle_error(None, ("127.0.0.1", 1))
            self.assertIn(told, error.getvalue())
            self.assertEqual(bool(told), bool(error.getvalue()))

    def test_a_port_that_another_has(self):
        with self.assertRaises(networks.WrongInput):
            metrics_server.serve(self.server.server_address[1], None, {})
