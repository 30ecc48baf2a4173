"""What the scripts that measure a disk share: a network in its canonical text, and a file on which
the writes and syncs of a journal's entries are made without a program."""
import os
import time

HEAD = 39  # bytes of a journal without an entry, with its last gate
OPEN, CLOSED = b"\1", b"\0"


def star(ends):
    """The canonical text of so many nodes around one, each on a link of its own number."""
    nodes = "".join(f"node n{node}\n" for node in range(ends)) + "node h\n"
    return nodes + "".join(f"link n{node} h 1000000000 1 1\n" for node in range(ends)) + "end\n"


class Loop:
    """A file with the head and one entry."""

    def __init__(self, path, first):
        self.file = os.open(path, os.O_RDWR | os.O_CREAT)
        os.pwrite(self.file, bytes(HEAD) + first, 0)
        os.fdatasync(self.file)
        self.gate = HEAD - 1 + len(first)

    def turn(self, records):
        """Writes and syncs as an append of each does; the seconds of that."""
        start = time.perf_counter()
        for written in records:
            os.pwrite(self.file, written, self.gate + 1)
            os.fdatasync(self.file)
            os.pwrite(self.file, OPEN, self.gate)
            os.fdatasync(self.file)
            self.gate += len(written)
        return time.perf_counter() - start
