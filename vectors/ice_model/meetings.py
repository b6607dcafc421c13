"""Two agents with one path between them that works, the way: the premises of the law that agents meet, at random.

In each round one agent polls and is answered, and then the other. What one sends on the way arrives at the
other, and nothing comes back on other pairs; the datagrams of the first rounds are lost. The law is `agents_will_meet`
of the library: from a stated round on, the data of both goes the way.
"""
import random

from agent import MS, S
from events import Recorded

# The ends of the way, as each agent sees the other one, and addresses that nothing comes back from.
ONE, OTHER = "c6336401:4000", "c6336402:4000"
DEAD = [f"c63364{it:02x}:4000" for it in range(16, 26)]


class Side:
    """An agent: its settings, its role and tiebreaker, how many useless pairs it has, and whether it knows the way."""

    def __init__(self, pick, to, knows):
        ta, patience = pick.choice([0, 5, 20, 50, 100]), pick.choice([0, 0, 50, 200, 1000])
        self.tries, self.rto = pick.choice([3, 5, 7]), pick.choice([100, 500, 800])
        self.pace, self.patience, self.to = max(5, ta) * MS, patience * MS, to
        role, tiebreaker = pick.choice(["controlling", "controlled"]), pick.choice([1, 5, 5, 2**64 - 1])
        self.agent = Recorded(f"{role}:{tiebreaker}:tries-{self.tries}:rto-{self.rto}:ta-{ta}:patience-{patience}")
        self.useless = pick.choice([0, 0, 1, 2, 5, 9])
        words = [f"base 1:1:4:1:{priority(pick)}", "base 2:1:4:2:relay-9"]
        words += [f"remote {to}:1:1:{priority(pick)}"] if knows else []
        # (from the second base the way doesn't go either)
        words += [f"remote {it}:1:{at + 2}:{priority(pick)}" for at, it in enumerate(DEAD[: self.useless])]
        pick.shuffle(words)
        for word in [*words, "peer"]:
            self.agent.does(0, word)
        self.useless = sum((it.base.number, spelled(it)) != (1, to) for it in self.agent.agent.checklist)

    def selects(self, now):
        return self.agent.does(now, "send 1") == f"to:1:{self.to}"


def priority(pick):
    return f"{pick.choice(['host', 'srflx', 'relay'])}-{pick.choice([1, 2, 65535])}"


def spelled(its):
    return f"{its.remote.address[0].hex()}:{its.remote.address[1]}"


class Meeting:
    """Random agents that satisfy the premises, their rounds, and what was wrong."""

    def __init__(self, seed):
        self.pick = random.Random(f"meeting.{seed}")
        who = self.pick.choice(["both", "both", "one", "other"])
        self.one = Side(self.pick, OTHER, who != "other")
        self.other = Side(self.pick, ONE, who != "one")
        # the agent that tries the way at the start
        self.starter = self.other if who == "other" else self.one
        self.lost = self.pick.choice([0, 0, 1, 2])
        pace = max(self.one.pace, self.other.pace)
        self.gaps = [pace, pace, 2 * pace, pace + 7 * MS]
        self.moments = [self.pick.choice([0, 50 * MS])]

    def moment(self, at):
        while len(self.moments) <= at:
            self.moments.append(self.moments[-1] + self.pick.choice(self.gaps))
        return self.moments[at]

    def first_round(self):
        """The round from which on both have met, by the law."""
        its, wait, each = self.starter, 0, 1
        if self.lost:
            each = 1 + its.tries
            due = max(self.moment(i) + (max(500, its.rto) * MS << i) for i in range(self.lost))
            wait = self.lost
            while self.moment(wait) < due:
                wait += 1
        least = self.moment(wait + its.useless * each + 2) + max(self.one.patience, self.other.patience)
        round_ = 0
        while self.moment(round_) < least:
            round_ += 1
        return round_ + 2

    def turn(self, at, own, peer):
        now = self.moment(at)
        asked = own.agent.does(now, f"poll {self.pick.getrandbits(40)}")
        identity = own.agent.words[-1]
        if asked == "idle" or not asked.startswith(f"ask:1:{own.to}:") or at < self.lost:
            return
        _, _, _, _, role, tiebreaker, its, *use = asked.split(":")
        check = ":".join([identity, role, tiebreaker, its, *use])
        answer = peer.agent.does(now, f"check 1 {peer.to} {check}")
        fresh = f":{self.pick.getrandbits(63)}" if answer == "487" else ""
        own.agent.does(now, f"respond 1 {own.to} {identity}:{answer}{fresh}")

    def noise(self, its, now):
        """What comes that isn't authentic, and the user's data."""
        for _ in range(self.pick.choice([0, 0, 0, 1, 2])):
            source = self.pick.choice([ONE, OTHER, DEAD[0], "cb007107:9"])
            word = self.pick.choice([f"stray 1 {source} 60:401", f"data 1 {source}", "send 1"])
            its.agent.does(self.pick.choice([now, max(0, now - 3 * MS)]), word)

    def run(self):
        """The rounds that it took until both had met, the law's bound, and what was wrong."""
        bound, met, faults = self.first_round(), None, []
        for at in range(bound + 40):
            now = self.moment(at)
            self.noise(self.one, now)
            self.noise(self.other, now)
            if at == bound + 20:
                # (later rounds may be far apart)
                self.gaps = [S, 5 * S, 20 * S]
            both = self.one.selects(now) and self.other.selects(now)
            met = at if both and met is None else met
            if at >= bound and not both:
                faults.append(f"round {at} at {now / S:.3f} s, bound {bound}: not met")
            self.turn(at, self.one, self.other)
            self.turn(at, self.other, self.one)
        return met, bound, faults


def report(count, seed):
    """The lines of the report, all agents, and what was wrong."""
    lines, agents, faults, taken = [], [], [], []
    for at in range(count):
        its = Meeting(f"{seed}.{at}")
        met, bound, wrong = its.run()
        faults += [f"meeting {seed}.{at}: {it}" for it in wrong[:1]]
        taken.append((met, bound))
        agents += [its.one.agent, its.other.agent]
    within = sum(met is not None and met <= bound for met, bound in taken)
    rounds = sorted(bound - met for met, bound in taken if met is not None) or ["none"]
    lines.append(f"{within} of {count} pairs of agents with one way met within the bound of the law;"
                 f" rounds before the bound: least {rounds[0]}, median {rounds[len(rounds) // 2]}, most {rounds[-1]}")
    return lines, agents, faults
