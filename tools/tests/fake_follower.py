"""A follower for tests: it answers packets by the rules of docs/GUIDE.md, and judges no entry.

    python3 fake_follower.py JOURNAL [ANSWERS LINE STATUS]

Its journal is one of version 2, which is there. After so many answers it writes LINE in place of
the next one, and ends with STATUS; with the status `wait` it answers nothing more.
"""
import os
import sys
from hashlib import sha256

FRONT = 38


def entries_of(held):
    """The number of entries of a journal of version 2, and their chain value."""
    at, count, value = 38, 0, held[6:38]
    while held[at] == 1:
        value, count = held[at + 5:at + 37], count + 1
        at += 37 + int.from_bytes(held[at + 1:at + 5], "big")
    return count, value


def answer(path, epoch, value, body):
    with open(path, "rb") as file:
        held = file.read()
    count, own = entries_of(held)
    if epoch <= count:
        return f"have {count}"
    if epoch > count + 1:
        return f"want {count + 1}"
    if value != own:
        return f"differs at {count} {own.hex()} {value.hex()}"
    record = len(body).to_bytes(4, "big") + sha256(own + body).digest() + body
    with open(path, "wb") as file:
        file.write(held[:-1] + b"\1" + record + b"\0")
    return f"have {epoch}"


def main():
    path, *fault = sys.argv[1:]
    most, line, status = (int(fault[0]), *fault[1:]) if fault else (1 << 62, "", "0")
    given, count = sys.stdin.buffer, 0
    while True:
        front = given.read(FRONT)
        if count == most:
            sys.stdout.write(line)
            sys.stdout.flush()
            if status != "wait":
                sys.exit(int(status))
            given.read()
            sys.exit()
        if not front:
            sys.exit(0)
        body = given.read(int.from_bytes(front[:2], "big"))
        print(answer(path, int.from_bytes(front[2:6], "big"), front[6:], body), flush=True)
        count += 1


if __name__ == "__main__":
    try:
        main()
    except BrokenPipeError:
        os._exit(4)
