#!/usr/bin/env bash
# Runs two programs on one journal at once, and prints what each replied. The first holds it; the
# second is to end with status 6 and the line `cabinet`, whether the first is idle or was answered
# in between, and the first goes on undisturbed. A third, after the first's end, finds all orders.
# Ends with status 1 where one of them did otherwise.
# usage: bench/judge/two.sh [PROGRAM]
[ "${1-}" != --help ] || exec sed -n '2,/^[^#]/s/^# \{0,1\}//p' "$0"
. "$(dirname "$0")/../parts/setup.sh"

PYTHONPATH=tools:bench/parts python3 - "$program" "$work/journal" <<'END'
import subprocess
import sys
import threading

from planner import link_line

PROGRAM, JOURNAL = sys.argv[1:]
SECONDS = 60  # after which a program hangs
LINK = link_line(0, "a", "h", 10, 1, 2) + " at 2"

with open("demo/star.txt") as star:
    STAR = star.read()


def whole(name, script, status, output):
    """Runs a program from start to end; whether it ended so and wrote this."""
    streams = {"input": STAR + script, "capture_output": True, "text": True, "timeout": SECONDS}
    done = subprocess.run([PROGRAM, "run", JOURNAL], **streams)
    print(f"{name}: status {done.returncode}, {done.stdout!r}")
    told = (done.returncode, done.stdout, done.stderr.count("\n"))
    return told == (status, output, int(status != 0))


class First:
    """The program that holds the journal, with its input open."""

    def __init__(self):
        pipes = {"stdin": subprocess.PIPE, "stdout": subprocess.PIPE, "text": True}
        self.process = subprocess.Popen([PROGRAM, "run", JOURNAL], **pipes)
        self.limit = threading.Timer(SECONDS, self.process.kill)
        self.limit.start()
        self.send(STAR)

    def send(self, text):
        try:
            self.process.stdin.write(text)
            self.process.stdin.flush()
        except BrokenPipeError:
            print("the first: reads no more")

    def answers(self, line, want):
        self.send(line + "\n")
        reply = self.process.stdout.readline()
        print(f"the first: {reply!r}")
        return reply == want + "\n"

    def ends(self):
        try:
            self.process.stdin.close()
        except BrokenPipeError:
            pass
        rest, status = self.process.stdout.read(), self.process.wait()
        self.limit.cancel()
        print(f"the first: status {status}, {rest!r}")
        return (status, rest) == (0, "")


def main():
    first = First()
    right = [
        first.answers("acme admit a:1 b:1", "admitted 1 cost 3 at 1 links 0:1 1:1"),
        whole("the second", "acme admit a:2 b:2\n", 6, "cabinet\n"),
        first.answers("acme show 1", "vpn 1 cost 3 at 1 ends a:1 b:1 links 0:1 1:1"),
        first.answers("acme admit a:1 c:1", "admitted 2 cost 4 at 2 links 0:1 2:1"),
        whole("the second again", "", 6, "cabinet\n"),
        first.answers("beta link 0", LINK),
        first.ends(),
        whole("the third", "acme link 0\n", 0, LINK + "\n"),
    ]
    print(f"two: {sum(right)} of {len(right)} as wanted")
    sys.exit(0 if all(right) else 1)


main()
END
