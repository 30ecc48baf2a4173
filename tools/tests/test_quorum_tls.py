"""Tests of quorum.py at an etcd in memory by https, which wants a certificate of who asks.

openssl makes the certificates, each signed by itself.
"""
import os
import shutil
import signal
import ssl
import subprocess
import sys
import tempfile
import threading
import unittest
from unittest import mock

import quorum
from etcd import Etcd
from following import ASK_EPOCH
from tests.fake_etcd import FakeEtcd, served
from tests.runs import within
from tests.test_quorum import PROGRAM, ROOT, STAR, history, journal_of
from tests.test_standby import FakeLink

NAMES = "etcd", "machine", "stranger"
SECONDS = 20  # after which a leader is ended in any case
# What runs as a host asks who is at its standby's door, writes down the answer, and has its leader
# end.
HOST = """
import os, signal, socket, sys
said, question, _, door, _ = sys.argv[1:]
with socket.socket(socket.AF_UNIX) as link, open(said, "w") as file:
    link.connect(door)
    link.sendall(bytes.fromhex(question))
    file.write(link.makefile().readline())
os.kill(os.getppid(), signal.SIGTERM)
"""


@unittest.skipUnless(shutil.which("openssl"), "openssl is not there")
class Certificates(unittest.TestCase):
    @classmethod
    def setUpClass(cls):
        folder = tempfile.TemporaryDirectory()
        cls.addClassCleanup(folder.cleanup)
        cls.folder = folder.name
        for name in NAMES:
            subprocess.run(
                ["openssl", "req", "-x509", "-nodes", "-days", "2", "-newkey", "ec",
                 "-pkeyopt", "ec_paramgen_curve:prime256v1", "-subj", f"/CN={name}",
                 "-addext", "subjectAltName=IP:127.0.0.1", "-keyout", cls.path(f"{name}.key"),
                 "-out", cls.path(f"{name}.crt")],
                check=True, stdout=subprocess.DEVNULL, stderr=subprocess.DEVNULL)

    @classmethod
    def path(cls, name):
        return os.path.join(cls.folder, name)

    def setUp(self):
        tls = ssl.create_default_context(ssl.Purpose.CLIENT_AUTH, cafile=self.path("machine.crt"))
        tls.load_cert_chain(self.path("etcd.crt"), self.path("etcd.key"))
        tls.verify_mode = ssl.CERT_REQUIRED
        self.fake = FakeEtcd()
        server = served(self.fake, tls)
        self.url = server.__enter__()
        self.addCleanup(server.__exit__, None, None, None)
        self.keep_clients()
        self.addCleanup(signal.signal, signal.SIGTERM, signal.getsignal(signal.SIGTERM))
        self.journal = self.path("orders.journal")
        with open(self.journal, "wb") as file:
            file.write(journal_of(1, 2))

    def keep_clients(self):
        """Within a test what a program leaves open is closed by nobody else."""
        made, begin = [], Etcd.__init__

        def kept(client, *words):
            begin(client, *words)
            made.append(client)

        patch = mock.patch.object(Etcd, "__init__", kept)
        patch.start()
        self.addCleanup(lambda: [one._link.close() for one in made if one._link])
        self.addCleanup(patch.stop)

    def run_words(self, kind, *words, ca="etcd", who="machine"):
        """What comes of words, with these certificates."""
        shown = ["--cacert", self.path(f"{ca}.crt")] if ca else []
        if who:
            shown += ["--cert", self.path(f"{who}.crt"), "--key", self.path(f"{who}.key")]
        with mock.patch("quorum.FollowerLink", lambda words: FakeLink(words[-1:])):
            return within("quorum.py", quorum.main, kind, "--etcd", self.url, *shown, *words)

    def begin(self, **how):
        return self.run_words("begin", "--program", PROGRAM, STAR, self.journal, **how)

    def test_each_call_shows_the_certificate(self):
        """That of the lease, and that of `put`, which is a program of its own, as well."""
        self.assertEqual(self.begin(), (0, "head 2\n", ""))
        said, late = self.path("said"), threading.Timer(SECONDS, signal.raise_signal,
                                                        (signal.SIGTERM,))
        late.start()
        self.addCleanup(late.cancel)
        with mock.patch.object(self.fake, "lease_keepalive",
                               wraps=self.fake.lease_keepalive) as kept_alive:
            status, _, error = self.run_words(
                "lead", "--program", PROGRAM, "--machine", "a", STAR, self.journal,
                sys.executable, "-c", HOST, said, ASK_EPOCH.hex(), "--standby", self.path("door"),
                "--standby-or-stop")
        self.assertEqual((status, kept_alive.called), (0, True), error)
        self.assertIn("the host ended as asked: put -9", error)
        with open(said) as file:
            self.assertEqual(file.read(), "want 3\n")
        values, _ = history(1, 2)
        head = self.fake.told(ROOT + "head").decode().split()
        self.assertEqual((head[:2], head[3], self.fake.leases),
                         (["2", values[-1].hex()], "a", set()))
        self.assertEqual(self.run_words("trim", "0"), (0, "trimmed up to 2\n", ""))

    def test_who_shows_none_or_another_one_is_refused(self):
        for how in {"who": None}, {"who": "stranger"}, {"ca": None}, {"ca": "machine"}:
            status, output, error = self.begin(**how)
            self.assertEqual((status, output), (29, ""), how)
            self.assertIn("no member of etcd answers", error)
        self.assertEqual(self.fake.keys, {})
        self.assertEqual(self.begin()[0], 0)


if __name__ == "__main__":
    sys.exit(unittest.main())
