"""A server for tests of what speaks with `hosed serve`: it says what it was told to."""
import socket
import threading

from lines import COMMANDS, told

HOSE, LINKS = {"a": 1, "b": 1}, {0: 1}  # of each VPN that is told


class FakeServer:
    """Accepts connections one after the other. In each it reads a line, says the next text of that
    connection's list, and so on; then it closes the connection. `lines` are those that it read.

        with FakeServer([b"welcome at 0\\n", b"bye\\n"]) as server:
            Session("127.0.0.1", server.port, "acme").bye()
    """

    def __init__(self, *connections, at_last=None, path=None):
        self.connections, self.at_last, self.lines = connections, at_last, []
        if path:
            self.listener = socket.socket(socket.AF_UNIX)
            self.listener.bind(path)
            self.listener.listen()
        else:
            self.listener = socket.create_server(("127.0.0.1", 0))
        self.port = path or self.listener.getsockname()[1]
        self.thread = threading.Thread(target=self.serve, daemon=True)

    def serve(self):
        for texts in self.connections:
            try:
                peer, _ = self.listener.accept()
            except OSError:
                return
            with peer, peer.makefile("rb") as lines:
                self.say(peer, lines, texts)

    def say(self, peer, lines, texts):
        for text in texts:
            line = lines.readline()
            if not line:
                return
            self.lines.append(line.decode().rstrip("\n"))
            peer.sendall(text)
        if self.at_last:
            self.at_last.wait(10)

    def __enter__(self):
        self.thread.start()
        return self

    def __exit__(self, *fault):
        self.listener.shutdown(socket.SHUT_RDWR)  # ends a wait for a connection
        self.thread.join(10)
        self.listener.close()


class FakeHosed(FakeServer):
    """Serves so many connections at once, by a book that has room for all, on one link from a to b.
    If told to, it breaks a connection off in the middle of a reply, after so many replies on it, or
    leaves all but the first of a worker's connections waiting."""

    def __init__(self, workers, breaks_after=None, served=1_000):
        super().__init__()
        self.breaks_after, self.served = breaks_after, served
        self.epoch, self.live, self.lock = 0, set(), threading.Lock()
        self.workers = [threading.Thread(target=self.work, daemon=True) for _ in range(workers)]

    def serve(self):
        for worker in self.workers:
            worker.start()
        for worker in self.workers:
            worker.join()

    def work(self):
        for _ in range(self.served):
            try:
                peer, _ = self.listener.accept()
            except OSError:
                return
            with peer, peer.makefile("rb") as lines:
                try:
                    self.session(peer, lines)
                except ConnectionError:
                    pass

    def session(self, peer, lines):
        for count, line in enumerate(lines):
            with self.lock:
                text = line.decode().rstrip("\n")
                self.lines.append(text)
                reply = self.reply(*text.split()[:2])
            if count == self.breaks_after:
                peer.sendall(reply[:4].encode())
                return
            peer.sendall(f"{reply}\n".encode())
            if text == "bye":
                return

    def reply(self, command, number="1"):
        newest = max(self.live, default=0)
        if command == "admit-after" and number != str(newest):
            return told("Newest", newest, self.epoch)
        entered = COMMANDS[command].entered if command in COMMANDS else None
        if entered == "Admitted":
            self.epoch += 1
            self.live.add(self.epoch)
            return told(entered, self.epoch, 1, self.epoch, LINKS)
        if entered == "Released":
            self.epoch += 1
            self.live.remove(int(number))
            return told(entered, number, self.epoch)
        if command == "link" and number != "0":
            return told("Bad", 2)
        return {
            "hello": told("Welcome", self.epoch),
            "vpns": told("Vpns", sorted(self.live), self.epoch),
            "quote": told("Quoted", 1, 1, self.epoch, LINKS),
            "show": told("Shown", number, 1, self.epoch, HOSE, LINKS),
            "link": told("LinkState", 0, "a", "b", 9, 1, 0, False, self.epoch),
            "bye": told("Bye"),
        }[command]
