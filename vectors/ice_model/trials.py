"""Random calls: what an agent does with events of all kinds, at moments near to every edge."""
import random

from agent import MS, S, Agent, Base, Check, Remote, Setup, candidate_priority
from events import moment, spelled

# 198.51.100.1 to .6, and two ports; one address of IPv6 and a link-local one.
PLACES = [(bytes([198, 51, 100, it]), port) for it in range(1, 7) for port in (4000, 4001)]
PLACES += [(bytes.fromhex("20010db8" + "00" * 11 + "05"), 4000), (bytes.fromhex("fe80" + "00" * 13 + "05"), 4000)]
PRIORITIES = [candidate_priority(kind, preference, 1) for kind in (126, 110, 0) for preference in (65535, 65534, 7)]
# How much time passes before an event, in nanoseconds: mostly none, or Ta.
PAUSES = [0] * 30 + [50 * MS] * 30 + [50 * MS - 1, 5 * MS, 200 * MS, 200 * MS - 1, 500 * MS, 500 * MS - 1, S, 2 * S,
          4 * S, 4 * S, 6 * S, 8 * S, 15 * S, 30 * S - 1, 30 * S, -S]
OPTIONS = ["pairs-3", "pairs-1", "candidates-2", "requests-2", "requests-0", "tries-1", "tries-3", "tries-0", "ta-0",
           "ta-20", "ta-100", "rto-0", "rto-800", "patience-0", "patience-1000"]


class Trial:
    """A call, made step by step, beside an agent of the model that says which requests are sent."""

    def __init__(self, seed, length):
        self.pick = random.Random(seed)
        options = self.pick.sample(OPTIONS, self.pick.choice([0, 0, 1, 2, 3]))
        options = {it.split("-")[0]: it for it in options}
        role = self.pick.choice(["controlling", "controlling", "controlled"])
        setup = ":".join([role, str(self.pick.choice([5, 9, 2**64 - 1])), *options.values()])
        self.agent, self.words, self.now, self.drawn, self.sent = Agent(Setup.read(setup)), ["agent", setup], 0, 0, []
        for at in range(length):
            self.pause()
            early = [Trial.base, Trial.remote, Trial.remote, Trial.base, Trial.peer]
            self.agent.begin()
            self.words += (early[at] if at < 5 else self.pick.choice(KINDS))(self)

    def pause(self):
        if pause := self.pick.choice(PAUSES):
            self.now = max(0, self.now + pause)
            self.words += ["at", moment(self.now)]
            self.agent.at(self.now)

    # the events

    def base(self):
        number, component = self.pick.choice([1, 1, 2, 3, 4]), self.pick.choice([1, 1, 1, 2])
        family = self.pick.choice([4] * 8 + [6])
        is_local = family == 6 and self.pick.random() < 0.5
        its = Base(number, component, family, self.pick.choice([1, 1, 2]), self.priority(), is_local)
        self.agent.add_base(its)
        word = f"{number}:{component}:{family}:{its.foundation}:{its.priority}" + ":link-local" * is_local
        return ["base", word]

    def remote(self):
        place, component = self.pick.choice(PLACES), self.pick.choice([1, 1, 1, 2])
        its = Remote(place, component, self.pick.choice([1, 1, 2]), self.priority())
        self.agent.add_remote(its)
        return ["remote", f"{spelled(place)}:{component}:{its.foundation}:{its.priority}"]

    def peer(self):
        self.agent.knows_peer = True
        return ["peer"]

    def check(self):
        base, source = self.place()
        its = Check(self.draw(), self.pick.choice(["controlling", "controlled", "controlled"]), self.pick.choice([4, 5, 6, 9, 10]),
                    self.priority(), self.pick.random() < 0.4)
        if self.pick.random() < 0.7:
            its = Check(its.identity, {"controlling": "controlled"}.get(self.agent.role, "controlling"), 7, its.priority, its.nominates)
        self.agent.check(base, source, its)
        word = f"{its.identity}:{its.role}:{its.tiebreaker}:{its.priority}" + ":use" * its.nominates
        return ["check", str(base), spelled(source), word]

    def respond(self):
        if not self.sent:
            return self.poll()
        its = self.pick.choice(self.sent[-4:])
        base, source = its.base, its.to
        if self.pick.random() < 0.08:
            base, source = self.place()
        code = self.pick.choice([0] * 12 + [487, 400])
        identity = its.identity if self.pick.random() < 0.97 else 999_999
        fresh = self.pick.choice([3, 8, 2**64 - 2])
        self.agent.respond(base, source, identity, code, fresh)
        return ["respond", str(base), spelled(source), f"{identity}:{code or 'ok'}" + f":{fresh}" * (code == 487)]

    def poll(self):
        identity = self.draw()
        if asked := self.agent.poll(identity):
            self.sent.append(asked)
        words = ["poll", str(identity)]
        return words + (self.respond() if asked and self.pick.random() < 0.3 else [])

    def stray(self):
        base, source = self.place()
        return ["stray", str(base), spelled(source), f"{self.pick.choice([18, 19, 20, 100])}:{self.pick.choice(['401', '-'])}"]

    def data(self):
        base, source = self.place()
        return ["data", str(base), spelled(source)]

    def send(self):
        return ["send", self.pick.choice("1112")]

    def look(self):
        base, place = self.place()
        return self.pick.choice([["pairs"], ["role"], ["pair", str(base), spelled(place)]])

    # parts of them

    def place(self):
        """Mostly of a pair."""
        if self.agent.checklist and self.pick.random() < 0.8:
            its = self.pick.choice(self.agent.checklist)
            return its.base.number, its.remote.address
        return self.pick.choice([1, 1, 1, 2, 3, 7]), self.pick.choice(PLACES)

    def priority(self):
        return self.pick.choice(PRIORITIES)

    def draw(self):
        self.drawn += self.pick.choice([1, 1, 1, 700])
        return self.drawn


KINDS = [Trial.base, Trial.remote, Trial.remote] + [Trial.check] * 5 + [Trial.respond] * 8 + [Trial.poll] * 12
KINDS += [Trial.stray, Trial.data, Trial.data, Trial.send, Trial.send, Trial.look, Trial.look, Trial.look]


def calls(count, seed, length=60):
    """So many calls; the same for the same seed."""
    return [" ".join(Trial(f"{seed}.{at}", length).words) for at in range(count)]
