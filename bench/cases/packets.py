#!/usr/bin/env python3
"""Writes crates/cases_program/data/ship.cases, follow.cases or follow_stops.cases: packets of the
entries of a journal, and what a follower answers to them.

A packet is the length of a body, an epoch, the chain value before the entry, and the body. What a
follower answers, and what it has afterwards, comes of the plain model of star_model.py and of the
rules that stand here; the packets of the first cases, of an admission and of its release, have 83
and 48 bytes, and their answers are written out by hand beside them.

usage: bench/cases/packets.py ship | diff - crates/cases_program/data/ship.cases
       bench/cases/packets.py follow | diff - crates/cases_program/data/follow.cases
       bench/cases/packets.py stops | diff - crates/cases_program/data/follow_stops.cases
"""

import os
import sys
from hashlib import sha256
from re import fullmatch

sys.path.insert(0, os.path.join(os.path.dirname(os.path.abspath(__file__)), "..", "parts"))
from usage import tell_usage

from star_model import DIGEST, EMPTY, Disk, Failed, Journal, audit, chain, journal_of, live_of, plan
from star_model import print_cases, spelled, stops_of

ROW = ("admit", "acme", ((0, 3), (1, 4), (2, 5)))
LEADER = (ROW, ("release", "acme", 1))
# Another history of the same network, and the digest of another network.
OTHER = (("admit", "beta", ((0, 1), (1, 1))), ("release", "beta", 1))
ELSEWHERE = sha256(b"another network").digest()
MOST_BODY, FRONT, LIMIT = 3_471, 38, 1 << 30
# What a journal that a case begins with is written by: a write and a sync.
WRITTEN = 2


def packet_of(epoch, value, body, size=None):
    """A packet, which may tell another length than its body has."""
    size = len(body) if size is None else size
    return size.to_bytes(2, "big") + epoch.to_bytes(4, "big") + value + body


def packets_of(entries):
    return [packet_of(at + 1, chain(entries[:at]), spelled(entry))
            for at, entry in enumerate(entries)]


def entry_of(body):
    """The entry of a body, where it is one of a star's admissions, or a release."""
    try:
        kind, named = body[0], 2 + body[1]
        customer, rest = body[2:named].decode(), body[named:]
        if kind == 1:
            pairs = [rest[1 + at:7 + at] for at in range(0, 6 * rest[0], 6)]
            told = tuple((int.from_bytes(pair[:2], "big"), int.from_bytes(pair[2:], "big"))
                         for pair in pairs)
            entry = ("admit", customer, told)
        else:
            entry = ("release", customer, int.from_bytes(rest, "big"))
        is_one = fullmatch("[a-z0-9-]{1,16}", customer) and spelled(entry) == body
        return entry if is_one else None
    except (IndexError, OverflowError, UnicodeDecodeError):
        return None


def is_sound(entries, entry):
    """Whether a book takes an entry that `entry_of` gives."""
    kind, customer, told = entry
    live = live_of(entries)
    if kind == "release":
        return told in live and live[told][0] == customer
    loads = dict.fromkeys(range(3), 0)
    for hose in [hose for _, hose in live.values()] + [told]:
        for link, amount in plan(hose)[0]:
            loads[link] += amount
    return max(loads.values()) <= 10


def answer(journal, epoch, value, body):
    """What a follower answers to a packet."""
    at, own = len(journal.entries), chain(journal.entries)
    if epoch <= at:
        return f"have {at}"
    if epoch > at + 1:
        return f"want {at + 1}"
    if value != own:
        return f"differs at {at} {own.hex()} {value.hex()}"
    entry = entry_of(body)
    if entry is None or not is_sound(journal.entries, entry):
        return f"unsound {epoch}"
    try:
        journal.enter(entry)
    except Failed:
        return f"disk at {at}"
    return f"have {epoch}"


def followed(disk, given, entries=()):
    """Lines, status and journal of a follower to which these bytes are given."""
    try:
        journal = Journal(disk, entries)
    except Failed:
        return ["cabinet"], 6, [(0, (entries,))]
    lines, at, status = [], 0, 0
    while at < len(given):
        size = int.from_bytes(given[at:at + 2], "big")
        end = at + FRONT + size
        if not 1 <= size <= MOST_BODY or end > len(given):
            lines, status = lines + [f"packet {at}"], 11
            break
        epoch = int.from_bytes(given[at + 2:at + 6], "big")
        lines.append(answer(journal, epoch, given[at + 6:at + FRONT], given[at + FRONT:end]))
        at = end
    try:
        journal.close()
    except Failed:
        if status == 0:
            lines, status = lines + ["cabinet"], 6
    return lines, status, journal.since


# ---- The lines of cases.


def shown(some):
    """Bytes as a case file has them."""
    return "".join(chr(byte) if chr(byte) in "abcdefghijklmnopqrstuvwxyz0123456789"
                   else f"{{b{byte}}}" for byte in some)


def given_lines(some):
    return [f"<. {shown(some)}"] if some else []


def case(name, given, *, more=(), held=b"", entries=(), failing=(), wanted=None, taken=None):
    """A case of `follow`: `given` is a list of packets, or of other bytes."""
    whole = b"".join(given)
    disk = Disk(held, failing)
    lines, status, _ = followed(disk, whole, entries)
    if wanted is not None and wanted != (lines, status):
        raise SystemExit(f"{name}: {lines}, {status} and not {wanted}")
    told = [f"case {name}", *more] + ([f"journal {held.hex()}"] if held else [])
    told += [f"disk-fails {kind} {number}" for kind, number in failing]
    for some in given:
        told += given_lines(some)
    told += [f"> {line}" for line in lines]
    if taken is not None:
        told.append(f"taken {taken}")
    return told + [f"status {status}", f"left {disk.held.hex()}"]


def audited(name, held, entries):
    """A case of `audit` on what a follower has left."""
    return [f"case {name}", "words audit t j", f"journal {held.hex()}",
            *(f"> {line}" for line in audit(entries))]


# ---- Following.


def rows():
    one, two = packets_of(LEADER)
    assert (len(one), len(two)) == (83, 48)
    left = journal_of(LEADER)
    zero = bytes(32)
    yield case("packets that come too early, and again", [two, one, one, two],
               wanted=(["want 1", "have 1", "have 1", "have 2"], 0))
    yield audited("and an audit of what the follower has then", left, LEADER)
    yield case("a chain value that is not the follower's",
               [one[:6] + zero + one[FRONT:]],
               wanted=([f"differs at 0 {DIGEST} {zero.hex()}"], 0))
    yield case("an amount that is not the plan's, and the packet as it was sent",
               [one[:-1] + b"\6", one], wanted=(["unsound 1", "have 1"], 0))
    yield case("a packet, and 20 bytes of another", [one, two[:20]],
               wanted=(["have 1", "packet 83"], 11))
    yield case("the second sync of an append fails, and the packet comes again", [one, two, one],
               held=EMPTY, failing=[("sync", 3)],
               wanted=(["disk at 0", "want 1", "have 1"], 0))


def follow_cases():
    one, two = packets_of(LEADER)
    both = one + two
    yield from rows()
    yield case("nothing", [], wanted=([], 0))
    for size in range(1, len(both)):
        name = f"two packets, of which {size} bytes are there"
        yield case(name, [both[:size]])
    yield from length_cases(one)
    yield from body_cases(one, two)
    yield from link_cases()
    yield from history_cases(one, two)
    yield from disk_cases(one, two)
    yield from stream_cases(one, two)
    yield from word_cases()
    yield from journal_cases(one)
    yield from long_cases()


def length_cases(one):
    largest = bytes([1]) * MOST_BODY
    value = bytes.fromhex(DIGEST)
    for size in (0, 1, MOST_BODY + 1, 65_535):
        yield case(f"a length of {size} and nothing after it", [size.to_bytes(2, "big")],
                   wanted=(["packet 0"], 11))
        if size != 1:
            yield case(f"a length of {size} after a packet", [one, size.to_bytes(2, "big"), one],
                       wanted=(["have 1", "packet 83"], 11))
    for epoch, wanted in ((0, "have 0"), (1, "unsound 1"), (2, "want 1"), (2 ** 32 - 1, "want 1")):
        packet = packet_of(epoch, value, largest)
        told = case(f"a body of {MOST_BODY} bytes at the epoch {epoch}, and a packet",
                    [packet, one], wanted=([wanted, "have 1"], 0))
        # The body is told by one short line.
        long = [at for at, line in enumerate(told) if line.startswith("<. ")][0]
        told[long:long + 1] = [*given_lines(packet[:FRONT]), f"<{MOST_BODY}. {{b1}}"]
        yield told


def body_cases(one, two):
    value, body = bytes.fromhex(DIGEST), spelled(ROW)
    for name, other in (
        ("a body and a byte more", body + b"\0"),
        ("a body and a byte less", body[:-1]),
        ("a body of one byte", b"\2"),
        ("a body of no kind", b"\0" + body[1:]),
        ("the body of a seal", b"\5"),
        ("a body whose customer has no name", b"\2\0" + bytes(4)),
        ("a body whose customer has a capital letter", body[:2] + b"A" + body[3:]),
    ):
        yield case(f"{name}, and a packet", [packet_of(1, value, other), one],
                   wanted=(["unsound 1", "have 1"], 0))
    yield case("a release of no VPN, and a packet",
               [packet_of(1, value, spelled(LEADER[1])), one], wanted=(["unsound 1", "have 1"], 0))
    yield case("a release by another customer, and the right one",
               [one, packet_of(2, chain(LEADER[:1]), spelled(("release", "beta", 1))), two],
               wanted=(["have 1", "unsound 2", "have 2"], 0))
    large = ("admit", "acme", ((0, 8), (1, 8)))
    yield case("an admission for which there is no room, and a release",
               [one, packet_of(2, chain(LEADER[:1]), spelled(large)), two],
               wanted=(["have 1", "unsound 2", "have 2"], 0))


def link_cases():
    """Links that go out of service and back, by the bodies of their entries alone."""
    down, up, order = b"\3\0\1", b"\4\0\1", spelled(ROW)
    for name, given in (
        ("a link goes out of service and back, and then an admission uses it",
         ((down, True), (up, True), (order, True))),
        ("an admission over a link that is out of service",
         ((down, True), (order, False), (up, True), (order, True))),
        ("a link goes out twice, and a link comes back that is in service",
         ((up, False), (down, True), (down, False))),
        ("links that there are not", ((b"\3\0\3", False), (b"\3\10\0", False))),
        ("the body of a link and a byte more, and one less",
         ((down + b"\0", False), (down[:2], False))),
    ):
        value, held, epoch, told = bytes.fromhex(DIGEST), EMPTY[:-1], 0, []
        for body, is_sound_there in given:
            told += given_lines(packet_of(epoch + 1, value, body))
            told.append(f"> {'have' if is_sound_there else 'unsound'} {epoch + 1}")
            if is_sound_there:
                value, epoch = sha256(value + body).digest(), epoch + 1
                held += b"\1" + len(body).to_bytes(4, "big") + value + body
        yield [f"case {name}", *told, "status 0", f"at {epoch}", f"left {held.hex()}00"]


def history_cases(one, two):
    begun, whole = journal_of(LEADER[:1]), journal_of(LEADER)
    yield case("an epoch of 0", [packet_of(0, bytes(32), b"\2"), one],
               wanted=(["have 0", "have 1"], 0))
    yield case("a packet of another network", [packet_of(1, ELSEWHERE, spelled(ROW))],
               wanted=([f"differs at 0 {DIGEST} {ELSEWHERE.hex()}"], 0))
    other = packets_of(OTHER)
    yield case("the second packet of another history", [one, other[1]],
               wanted=(["have 1", f"differs at 1 {chain(LEADER[:1]).hex()} "
                        f"{chain(OTHER[:1]).hex()}"], 0))
    yield case("a journal of before goes on", [one, two], held=begun, entries=LEADER[:1],
               wanted=(["have 1", "have 2"], 0))
    yield case("a journal of before has all", [two, one], held=whole, entries=LEADER,
               wanted=(["have 2", "have 2"], 0))
    yield audited("and an audit of it tells what it told", whole, LEADER)


def disk_cases(one, two):
    given = [one, two]
    for held in (b"", EMPTY):
        named = "a begun journal" if held else "a new journal"
        disk = Disk(held, ())
        followed(disk, b"".join(given))
        for call in disk.calls:
            yield case(f"{named}, call {call[1]} of the kind {call[0]} fails", [*given, one, two],
                       held=held, failing=[call])
    for failing in ([("sync", 3), ("write", 3)], [("sync", 3), ("sync", 4)]):
        calls = " and ".join(f"call {number} of the kind {kind}" for kind, number in failing)
        yield case(f"a begun journal, {calls} fail", [one, two, one, two], held=EMPTY,
                   failing=failing)


def stream_cases(one, two):
    both, left = one + two, journal_of(LEADER)
    for size in (1, 2, 37, 38, 82, 83, 84, 130):
        told = case(f"the input fails after {size} of 131 bytes", [both[:size]])
        lines = [line for line in told if line.startswith("> have")]
        bytes_left = [line for line in told if line.startswith("left")]
        yield [told[0], f"read {size}", "read-fails 2", *given_lines(both), *lines, "> read",
               f"taken {size}", "status 3", *bytes_left]
    yield ["case packets that are taken byte by byte", "read 1", *given_lines(both), "> have 1",
           "> have 2", "taken 131", f"left {left.hex()}"]
    text = "have 1\nhave 2\n"
    for size in range(len(text)):
        entries = LEADER[:1 if size < 7 else 2]
        yield [f"case the output fails after {size} bytes", "write 1", f"write-fails {size + 1}",
               *given_lines(both), *([f">. {shown_text(text[:size])}"] if size else []),
               "status 4", f"left {journal_of(entries).hex()}"]
    yield ["case the output fails in the last line", "write 1", "write-fails 10",
           *given_lines(both[:100]), "> have 1", ">. pa", "status 11",
           f"left {journal_of(LEADER[:1]).hex()}"]


def shown_text(text):
    return text.replace("\n", "{b10}").replace(" ", "{s}")


def word_cases():
    for words, word in (("follow", 2), ("follow t", 3), ("follow t j x", 4), ("follow -t j", 2),
                        ("follow t -j", 3), ("follow --tariff", 3), ("follow --tariff nope t j", 3),
                        ("follow --tariff hops t", 5), ("follow --tariff hops t j x", 6)):
        yield [f"case wrong words: {words}", f"words {words}", "< x", f"> words {word}", "taken 0",
               "status 1"]


def journal_cases(one):
    yield ["case no such text", "words follow u j", *given_lines(one), "> cabinet", "taken 0",
           "status 6", "left "]
    yield ["case the topology is refused", "words follow t.json j", *given_lines(one),
           "> topology json", "taken 0", "status 2", "left "]
    other = bytes.fromhex("01484f534502") + ELSEWHERE + b"\0"
    yield ["case the journal of another network", f"journal {other.hex()}", *given_lines(one),
           f"> journal other {ELSEWHERE.hex()} {DIGEST}", "taken 0", "status 5",
           f"left {other.hex()}"]
    damaged = journal_of(LEADER[:1])[:-1]
    yield ["case a journal without its last byte", f"journal {damaged.hex()}", *given_lines(one),
           "> journal damaged at 38", "taken 0", "status 5", f"left {damaged.hex()}"]


def long_cases():
    """Packets of 2,048 bytes, whose epoch is not the next one, up to the limit and past it."""
    count = LIMIT // 2_048
    for name, more, lines, status in (
        ("1 GiB of packets", LIMIT - 2_048, (), 0),
        ("packets, and a byte more than 1 GiB", LIMIT - 2_047, ("too long",), 8),
    ):
        taken = 2_048 + more
        yield [f"case {name}", "read 65536", *given_lines(packet_of(0, bytes(32), b"", 2_010)),
               "<2010. x", f"again {more}", f">{count} have 0", *(f"> {line}" for line in lines),
               f"taken {taken}", f"status {status}", f"left {EMPTY.hex()}"]


# ---- Stops.


def stopped(name, held, failing):
    """Stops after each call of the disk of a follower that is given two packets."""
    given = packets_of(LEADER)
    disk = Disk(held, failing)
    lines, status, since = followed(disk, b"".join(given))
    books, stops = stops_of(since, WRITTEN if held else 0, len(disk.calls))
    calls = " and then ".join(f"call {number} of the kind {kind}" for kind, number in failing)
    told = f"{calls} {'fails' if len(failing) == 1 else 'fail'}" if failing else "no call fails"
    yield f"case {name}, stopped after each call of the disk: {told}"
    yield from [f"journal {held.hex()}"] if held else []
    yield from (f"disk-fails {kind} {number}" for kind, number in failing)
    for packet in given:
        yield from given_lines(packet)
    yield from (f"> {line}" for line in lines)
    for number, book in enumerate(books, 1):
        yield from (f"{number}| {line}" for line in audit(book))
    yield from stops
    yield f"status {status}"
    yield f"left {disk.held.hex()}"


def stop_cases():
    for name, held in (("two packets in a new journal", b""), ("two packets", EMPTY)):
        yield stopped(name, held, ())
        disk = Disk(held, ())
        followed(disk, b"".join(packets_of(LEADER)))
        for call in disk.calls:
            yield stopped(name, held, (call,))
    for failing in (("sync", 3), ("write", 3)), (("sync", 3), ("sync", 4)):
        yield stopped("two packets", EMPTY, failing)


# ---- Shipping.


def ship(name, journal, start, given, *, lines=(), status=0, more=(), left=None):
    """A case of `ship`: the packets that are given, and the last line."""
    left = journal if left is None else left
    told = [f"case {name}", f"words ship t j {start}", *more]
    told += [f"journal {journal.hex()}"] if journal else []
    told += [f">. {shown(some)}" for some in given if some] + [f"> {line}" for line in lines]
    return told + [f"status {status}", f"left {left.hex()}"]


def plain_journal(entries):
    """The bytes of a journal of version 1."""
    records = b"".join(b"\1" + len(spelled(entry)).to_bytes(4, "big") + spelled(entry)
                       for entry in entries)
    return EMPTY[:5] + b"\1" + EMPTY[6:-1] + records + b"\0"


def sealed_journal(plain, chained):
    """One of version 1 that was sealed after some entries, and has more of them then."""
    seal = b"\1" + (33).to_bytes(4, "big") + b"\5" + chain(plain)
    held = plain_journal(plain)[:-1] + seal
    whole = plain + chained
    for at in range(len(plain), len(whole)):
        body = spelled(whole[at])
        held += b"\1" + len(body).to_bytes(4, "big") + chain(whole[:at + 1]) + body
    return held + b"\0"


def ship_cases():
    one, two = packets_of(LEADER)
    assert (len(one), len(two)) == (83, 48)
    journal = journal_of(LEADER)
    for start, given in (1, [one, two]), (2, [two]), (3, []), (4_000_000_000, []):
        yield ship(f"from the epoch {start} on", journal, start, given)
    yield ship("a journal without an entry", EMPTY, 1, [])
    yield ship("a journal of version 1, which is not sealed", plain_journal(LEADER), 1, [one, two])
    yield ship("the same from the epoch 2 on", plain_journal(LEADER), 2, [two])
    yield ship("a journal that was sealed after its first entry",
               sealed_journal(LEADER[:1], LEADER[1:]), 1, [one, two])
    yield ship("the same from the epoch 2 on, behind the seal",
               sealed_journal(LEADER[:1], LEADER[1:]), 2, [two])
    many = LEADER + (ROW, ("release", "acme", 3))
    yield ship("four entries", journal_of(many), 1, packets_of(many))
    yield ship("the last of four entries", journal_of(many), 4, packets_of(many)[3:])
    yield from damaged_cases(one)
    yield from ship_stream_cases(one, two)
    yield from ship_word_cases(journal)


def damaged_cases(one):
    journal = journal_of(LEADER)
    # The second record stands behind the gate at 120.
    for name, at in ("chain value", 126), ("body", 160):
        other = journal[:at] + bytes([journal[at] ^ 1]) + journal[at + 1:]
        told = dict(lines=("journal damaged at 120",), status=5)
        yield ship(f"a decayed byte in the {name} of the second record", other, 1, [one], **told)
        yield ship(f"the same from the epoch 2 on: {name}", other, 2, [], **told)
    unsound = LEADER[:1] + (("release", "beta", 1),)
    yield ship("a second entry that is not sound", journal_of(unsound), 1, [one],
               lines=("journal damaged at 120",), status=5)
    yield ship("a journal without its last byte", journal_of(LEADER[:1])[:-1], 1, [],
               lines=("journal damaged at 38",), status=5)
    other = EMPTY[:6] + ELSEWHERE + b"\0"
    yield ship("the journal of another network", other, 1, [],
               lines=(f"journal other {ELSEWHERE.hex()} {DIGEST}",), status=5)
    for kind in "sync", "len", "read":
        yield ship(f"the first call of the kind {kind} fails", journal, 1, [], lines=("cabinet",),
                   status=6, more=(f"disk-fails {kind} 1",))


def ship_stream_cases(one, two):
    journal, both = journal_of(LEADER), one + two
    for size in 0, 1, 38, 82, 83, 84, 130:
        yield ship(f"the output fails after {size} of 131 bytes", journal, 1, [both[:size]],
                   status=4, more=("write 1", f"write-fails {size + 1}"))
    other = journal[:160] + bytes([journal[160] ^ 1]) + journal[161:]
    yield ship("the output fails in the last line", other, 1, [one, b"jo"], status=5,
               more=("write 1", "write-fails 86"))


def ship_word_cases(journal):
    for words, word in (
        ("ship", 2), ("ship t", 3), ("ship t j", 4), ("ship t j 0", 4), ("ship t j 01", 4),
        ("ship t j 4000000001", 4), ("ship t j 4294967297", 4), ("ship t j x", 4),
        ("ship t j 1 x", 5), ("ship -t j 1", 2), ("ship t -j 1", 3), ("ship --tariff", 3),
        ("ship --tariff nope t j 1", 3), ("ship --tariff hops t j", 6),
        ("ship --tariff hops t j 1 x", 7),
    ):
        yield [f"case wrong words: {words}", f"words {words}", "< x", f"> words {word}", "taken 0",
               "status 1"]
    yield ["case nothing of the input is taken", "words ship t j 3", "< x",
           f"journal {journal.hex()}", "taken 0", "status 0"]
    yield ["case no such text", "words ship u j 1", "> cabinet", "status 6", "left "]
    yield ["case the topology is refused", "words ship t.json j 1", "> topology json", "status 2",
           "left "]


# ---- Files.

FILES = {
    "follow": (follow_cases, "what a follower answers to packets of the entries of a journal", "j"),
    "stops": (stop_cases, "stops after each call of the disk of a follower, whose calls fail in "
              "turn", "j"),
    "ship": (ship_cases, "the entries of a journal as packets", "j 1"),
}


def main():
    cases, told, after = FILES[sys.argv[1]]
    verb = "ship" if sys.argv[1] == "ship" else "follow"
    heads = [f"# Written by bench/cases/packets.py {sys.argv[1]}: {told}.",
             f"words {verb} t {after}"]
    print_cases(heads, "=", cases())


if __name__ == "__main__":
    tell_usage(__doc__)
    main()
