"""Random calls of the verb `client`: what a user wants, and what a server, or somebody else, sends."""
import random
from fractions import Fraction

import wire
import writing
from client import SERVER, Client, Settings, moment, spelled
from writing import ANONYMOUS, ANONYMOUS_OF_OLD, BY_MD5, BY_SHA256, MAPPED, OF_OLD, RELAYED, RELAYED_SIX, later

FOURS = [(bytes([198, 51, 100, 7]), 4000), (bytes([198, 51, 100, 7]), 4001), (bytes([198, 51, 100, 8]), 4000)]
PEERS = {"-": FOURS, "ipv4": FOURS, "ipv6": [(writing.ADDRESSES["six"], 4000), (writing.ADDRESSES["six"], 9)]}
BLINK = Fraction(1, 10**9)
CODES = [300, 400, 403, 437, 443, 486, 508]


class Trial:
    """A call, made beside the model, which knows what would be sent."""

    def __init__(self, seed, length):
        self.pick = random.Random(seed)
        options = self.pick.choice(["", "", "", ":peers-2", ":named-1", ":named-2", ":sends-2", ":retries-1", ":md5", ":rto-100"])
        self.transport, self.family = self.pick.choice(["udp", "udp", "udp", "tcp"]), self.pick.choice(["-", "-", "ipv4", "ipv6"])
        self.settings = f"{self.transport}:{self.family}:{self.pick.choice(['-', '3600'])}{options}"
        self.client = Client(Settings.read(self.settings))
        self.by = self.pick.choice([BY_SHA256, BY_SHA256, BY_MD5, OF_OLD, ANONYMOUS, ANONYMOUS_OF_OLD])
        # (it makes octets)
        self.row = writing.Row("trial", "-", "this-library", self.settings, self.by)
        writing.ROWS.clear()
        self.sent, self.stale, self.call = [], 0, []
        # (most begin, and get an allocation)
        for event in [self.allocate, self.poll] * (self.pick.random() < 0.95):
            event()
        for event in [self.challenge, self.poll, self.grant] * (self.pick.random() < 0.85):
            event()
        while len(self.call) < length:
            self.pick.choice(EVENTS)(self)

    def octets(self, name):
        return writing.NAMES[name[1:]].hex() or "-"

    def event(self, *words):
        self.call.append(" ".join(words))

    def peer(self):
        return self.pick.choice(PEERS[self.family] * 10 + [FOURS[2], PEERS["ipv6"][0]])

    def pending(self):
        its = [self.client.need, *(it.need for it in self.client.peers)]
        return [it.request for it in its if it.request]

    def request(self):
        """One that is under way, or one that was."""
        its = self.pending()
        return self.pick.choice(its if its and self.pick.random() < 0.95 else self.sent or [None])

    def take(self, name):
        source = self.pick.choice([SERVER] * 30 + [(SERVER[0], 1), FOURS[0]])
        octets = self.octets(name)
        self.event("from", spelled(source), octets)
        self.client.receive(source, bytes.fromhex(octets.strip("-")))

    # the events

    def allocate(self):
        self.event("allocate")
        self.client.allocate()

    def close(self):
        if self.pick.random() < 0.1:
            self.event("close")
            self.client.close()

    def poll(self):
        self.event("poll")
        self.client.poll()
        self.sent += [it for it in self.pending() if it not in self.sent]

    def permit(self):
        peer = self.peer()
        self.event("permit", spelled(peer))
        self.client.permit(peer)

    def bind(self):
        peer = self.peer()
        self.event("bind", spelled(peer))
        self.client.bind(peer)

    def drop(self):
        peer = self.peer()
        self.event("drop", spelled(peer))
        self.client.drop(peer)

    def send(self):
        peer, data = self.peer(), self.pick.choice([b"", b"a", b"data"])
        self.event("send", spelled(peer), data.hex() or "-")
        self.client.send(peer, data)

    def pass_time(self):
        """To the next moment at which something is due, or just before it, or somewhere else."""
        now, wake = self.client.now, self.client.wake()
        choices = [now + Fraction(self.pick.choice([1, 100, 1000]), 1000)] * 8 + [now + 20, now + 60, now + 900, now - 1]
        if wake is not None:
            choices += [wake] * 16 + [wake - BLINK]
        at = max(Fraction(0), self.pick.choice(choices))
        self.event("at", moment(at))
        self.client.at(at)
        self.poll()

    def wake(self):
        self.event("wake")

    def grant(self):
        if request := self.request():
            number, how = int.from_bytes(request.identity), self.proof(request)
            seconds = self.pick.choice([600] * 20 + [3600, 80, 90, 79, 0])
            six = (self.family == "ipv6") != (self.pick.random() < 0.03)
            makers = {
                "allocate": lambda: self.row.opening(number, seconds, RELAYED_SIX if six else RELAYED, MAPPED, **how),
                "refresh": lambda: self.row.refreshing(number, seconds, **how),
            }
            self.take(makers.get(request.kind, lambda: self.row.success(request.kind, number, **how))())

    def proof(self, request):
        """How a response is signed: rightly, mostly."""
        if request.login is None or self.pick.random() < 0.04:
            return {"signed_by": None}
        how = {"signed_by": request.login}
        if self.pick.random() < 0.04:
            how["key"] = b"another key"
        if self.pick.random() < 0.1:
            how["hash_name"] = self.pick.choice(["sha1", "sha256"])
        if self.pick.random() < 0.1:
            how["prints"] = True
        if self.pick.random() < 0.04:
            how["parts"] = [self.pick.choice([(0x7FFF, b""), (0xC000, b"")])]
        return how

    def challenge(self):
        if request := self.request():
            code = 401 if request.login is None or self.pick.random() < 0.05 else 438
            self.stale += 1
            by = later(self.by, f"n{self.stale}") if self.pick.random() < 0.95 else self.by
            self.take(self.row.challenge(int.from_bytes(request.identity), by, code, request.kind, name=f"{code}-{self.stale}"))

    def error(self):
        if request := self.request():
            code, how = self.pick.choice(CODES), self.proof(request)
            parts = [*how.pop("parts", []), *[self.elsewhere()] * (code == 300)]
            how = {it: value for it, value in how.items() if it != "parts"}
            self.take(self.row.error(request.kind, int.from_bytes(request.identity), code, parts, **how))

    def elsewhere(self):
        address = self.pick.choice([writing.ADDRESSES["other-server"], writing.ADDRESSES["six"]])
        return wire.ALTERNATE, wire.plain_address((address, 3479))

    def show(self):
        self.take(self.row.data_indication(self.peer(), self.pick.choice([b"", b"hello"]), "data"))

    def show_on(self):
        number = 0x4000 + self.pick.choice([0, 0, 0, 1, 1, 2])
        self.take(self.row.channel_octets(number, self.pick.choice([b"", b"hello"]), "channel-data"))


EVENTS = [Trial.allocate, Trial.close, Trial.permit, Trial.permit, Trial.bind, Trial.bind, Trial.send, Trial.send, Trial.send]
EVENTS += [Trial.poll] * 5 + [Trial.pass_time] * 5 + [Trial.grant] * 10 + [Trial.challenge, Trial.error, Trial.wake]
EVENTS += [Trial.drop, Trial.show, Trial.show, Trial.show_on, Trial.show_on]


def calls(count, seed, length=60):
    """So many calls; the same for the same seed."""
    for at in range(count):
        writing.NAMES.clear()
        trial = Trial(f"{seed}.{at}", length)
        yield f"client {trial.settings} {' '.join(trial.call)}"
