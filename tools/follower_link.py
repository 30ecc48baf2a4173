"""A run of `hosed follow` behind a command, as behind one of ssh: packets go in, answers come out.

Nothing here waits but `turn`, for as long as it is told, so one thread does for both directions.
"""
import os
import re
import select
import signal
import subprocess
from time import monotonic
from typing import List

PIECE = 65_536
END = 5  # seconds for a command to end once its output has ended


# What `follow` writes last, which answers no packet.
LAST_LINE = re.compile("words [0-9]+|topology .*|journal (other|damaged) .*|packet [0-9]+|read|"
                       "cabinet|no memory|too long")


class Ended(Exception):
    """The command ended: its status, and the last line that it wrote, if that answers nothing."""

    def __init__(self, status: int, said: str):
        super().__init__(f"it ended with status {status}" + (f": {said}" if said else ""))
        self.status, self.said = status, said


class FollowerLink:
    """The command is begun at once. Where this is left its input ends, and it is killed, with all
    that it began, where it does not end then."""

    def __init__(self, command: List[str]):
        self.process = subprocess.Popen(command, stdin=subprocess.PIPE, stdout=subprocess.PIPE,
                                        bufsize=0, start_new_session=True)
        self.input, self.output = self.process.stdin, self.process.stdout
        for file in (self.input, self.output):
            os.set_blocking(file.fileno(), False)
        self.unsent, self.sent = bytearray(), 0
        """The bytes that are not handed on yet, and how many were."""
        self.part, self.said, self.broken = b"", "", False
        self.poll = select.poll()
        self.poll.register(self.output, select.POLLIN)
        self.poll.register(self.input, 0)

    def send(self, packets: bytes) -> None:
        self.unsent += packets

    def turn(self, milliseconds: int) -> List[str]:
        """The lines that came; it waits for these, and for the packets to go, for a while. Raises
        `Ended` where there are none any more."""
        if not self.input.closed:
            self.poll.register(self.input, select.POLLOUT if self.unsent else 0)
        elif self.broken and not self.poll.poll(1_000 * END):
            self.kill()
        for file, events in self.poll.poll(milliseconds):
            if file == self.output.fileno():
                return self._take()
            if events & select.POLLERR:
                self._break()
            else:
                self._give()
        return []

    def answers(self, packets: List[bytes], seconds: float) -> List[str]:
        """A line for each of these, where nothing else is to be answered. Raises `TimeoutError`
        where they are late."""
        self.send(b"".join(packets))
        lines, last = [], monotonic() + seconds
        while len(lines) < len(packets):
            lines += self.turn(1000)
            if monotonic() > last:
                raise TimeoutError("it does not answer")
        return lines

    def close_input(self) -> None:
        """Ends what the follower reads, once all was handed on."""
        if not self.input.closed:
            self.poll.unregister(self.input)
            self.input.close()

    def _give(self) -> None:
        try:
            count = os.write(self.input.fileno(), self.unsent[:PIECE])
            del self.unsent[:count]
            self.sent += count
        except BlockingIOError:
            pass
        except BrokenPipeError:
            self._break()

    def _break(self) -> None:
        """Nobody reads the input any more. Why is told by what is to come, and the status."""
        self.unsent.clear()
        self.close_input()
        self.broken = True

    def _take(self) -> List[str]:
        more = os.read(self.output.fileno(), PIECE)
        *whole, self.part = (self.part + more).split(b"\n")
        lines = [line.decode("ascii", "replace") for line in whole]
        if lines and LAST_LINE.fullmatch(lines[-1]):
            self.said = lines.pop()
        if not more:
            raise Ended(self._status(), self.said)
        return lines

    def _status(self) -> int:
        self.close_input()
        try:
            return self.process.wait(END)
        except subprocess.TimeoutExpired:
            return self.kill()

    def kill(self) -> int:
        try:
            os.killpg(self.process.pid, signal.SIGKILL)
        except ProcessLookupError:
            pass
        return self.process.wait()

    def __enter__(self) -> "FollowerLink":
        return self

    def __exit__(self, *_) -> None:
        self.close_input()
        self.output.close()
        self._status()
