"""The leader's side of a connection to a follower, for tests: what it asks, compares, sends and
takes stands in the definitions of crates/hose_lead.

    leader = Leader(values, packets)  # of its history: chain values from 0 entries on, and packets
    for answer in ..:
        socket.sendall(leader.unsent()); leader.take(answer)

Where it is not followed on, `why` tells the reason: `ahead`, `other`, `disk`, `memory`, `stranger`.
"""
import following

ASK_HAVE = following.packet(0, following.NO_VALUE, following.NO_BODY)


class Leader:
    def __init__(self, values, packets):
        self.values, self.packets = values, packets
        self.start = self.upto = self.heard = None
        self.stage, self.why, self.output = "unasked", "", b""

    def unsent(self):
        """What is to be sent next."""
        if self.stage == "unasked":
            self.stage, self.output = "asked epoch", following.ASK_EPOCH
        elif self.stage == "told epoch":
            self.stage, self.output = "asked value", following.ask_value(self.start)
        elif self.stage == "following":
            self.output += b"".join(self.packets[self.upto:])
            self.upto = len(self.packets)
        output, self.output = self.output, b""
        return output

    def ask(self):
        """Asks for a `have`, behind what was sent."""
        self.output += ASK_HAVE

    def end(self, why):
        self.stage, self.why = "ended", why

    def take(self, line):
        """Takes in an answer."""
        try:
            answer = following.read_answer(line)
        except following.WrongAnswer:
            return self.end("stranger")
        if answer.kind in ("disk at", "memory"):
            return self.end(answer.kind.split()[0])
        if self.stage == "asked epoch" and answer.kind == "want" and answer.epoch:
            self.start, self.stage = answer.epoch - 1, "told epoch"
            if self.start > len(self.packets):
                self.end("ahead")
        elif self.stage == "asked value" and answer.kind == "differs" and \
                (answer.epoch, answer.given) == (self.start, following.NO_VALUE):
            if answer.own != self.values[self.start]:
                return self.end("other")
            self.stage, self.upto = "following", self.start
            self.ask()
        elif self.stage == "following" and answer.kind == "have" and \
                max(self.heard or 0, self.start) <= answer.epoch <= self.upto:
            self.heard = answer.epoch
        else:
            self.end("stranger")
