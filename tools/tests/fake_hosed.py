#!/usr/bin/env python3
"""`hosed ship` and `cut` for tests, over journals of version 2; no entry is judged.

    fake_hosed.py ship|cut TOPOLOGY JOURNAL N [NEW_JOURNAL]
"""
import os
import sys

GATE = b"\1"


def records(held):
    """Each entry's record, and the chain value before it."""
    at, value = 38, held[6:38]
    while held[at:at + 1] == GATE:
        end = at + 37 + int.from_bytes(held[at + 1:at + 5], "big")
        yield held[at:end], value
        value, at = held[at + 5:at + 37], end


def main():
    verb, _, path, *more = sys.argv[1:]
    if verb not in ("ship", "cut"):
        sys.exit(1)
    with open(path, "rb") as file:
        held = file.read()
    rows = list(records(held))
    if verb == "ship":
        for number, (record, before) in enumerate(rows, 1):
            if number >= int(more[0]):
                body = record[37:]
                sys.stdout.buffer.write(len(body).to_bytes(2, "big") + number.to_bytes(4, "big")
                                        + before + body)
        return None
    wanted = held[:38] + b"".join(record for record, _ in rows[:int(more[0])]) + b"\0"
    if os.path.exists(more[1]):
        with open(more[1], "rb") as file:
            if file.read() != wanted:
                sys.exit(14)
    with open(more[1], "wb") as file:
        file.write(wanted)
    return None


if __name__ == "__main__":
    try:
        main()
    except BrokenPipeError:
        os._exit(4)
