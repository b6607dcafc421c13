"""A full ICE agent as RFC 8445 describes it, with the consent of RFC 7675: what it keeps, and does with an event.

It shares no code with the library. An address is its four or sixteen octets with a port, a moment a whole
number of nanoseconds. The octets of datagrams are judged before. Each rule that decides an event is noted by
its name in `Agent.fired`; RULES has the names, and CHOICES those rules that the RFC leaves to an agent.
"""
import ipaddress
from dataclasses import dataclass, field

# Each rule that the RFC has, with its section (of RFC 7675 after a colon, from memory).
RULES = {
    # candidates, and the checklist
    "paired": "6.1.2.2", "other-component": "6.1.2.2", "other-family": "6.1.2.2", "link-local": "6.1.2.2",
    "redundant": "6.1.2.4", "too-many-pairs": "6.1.2.5", "thawed": "7.2.5.3.3",
    # which check is sent, and when
    "peer-unknown": "6.1.4.2", "within-ta": "14.2", "triggered-check": "6.1.4.2", "foundation-free": "6.1.4.2",
    "highest-waiting": "6.1.4.2", "held-by-foundation": "6.1.4.2", "nothing-to-check": "6.1.4.2",
    "reflexive-priority": "7.1.1", "nominates": "8.1.1", "nominated-once": "8.1.1", "consent-check": ":5.1",
    # checks of the peer
    "check-accepted": "7.3", "487-sent": "7.3.1.1", "switched-by-check": "7.3.1.1", "learned": "7.3.1.3",
    "check-triggers": "7.3.1.4", "check-on-valid": "7.3.1.4", "nominated-by-peer": "7.3.1.5",
    "no-nomination-of-controlled": "7.1.2",
    # responses
    "success": "7.2.5.3", "unknown-transaction": "7.2.5", "asymmetric": "7.2.5.2.1", "timed-out": "7.2.5.2.3",
    "unrecoverable": "7.2.5.2.4", "487-received": "7.2.5.1", "nomination-succeeds": "7.2.5.3.4",
    # data
    "selected": "8.1.1", "best-of-nominated": "8.1.1", "unselected": "8.1.1", "consent-lost": ":5.1",
    "data-of-peer": "12.2", "address-discovered": "7.2.5.3.1", "address-known": "7.2.5.3.1",
}
# What the RFC leaves to an agent, or has otherwise: as the library's documentation says.
CHOICES = {
    "clock-back": "-", "candidate-in-use": "5.1.3", "no-room-for-a-candidate": "6.1.2.5", "again": "7.2.4",
    "late-success": "7.2.5", "last-of-equals": "6.1.2.3", "patience": "8.1.1",
    "patience-of-the-first": "8.1.1", "picked-lost": "8.1.1", "lost-for-ever": ":5.1",
    "data-of-stranger": "12.2", "refused": "7.3", "too-short-for-an-error": "7.3", "unknown-base": "7.3", "forgotten": "7.2.5",
    "component-checks": "8.1.2", "component-failed": "8.1.2", "component-lost": ":5.1",
    "role-reported": "7.3.1.1", "loss-reported": ":5.1", "status-reported": "8.1.2", "other-pair-reported": "8.1.1",
    "no-room-for-an-address": "7.2.5.3.1", "nominations-end": "8.1.1", "refused-nomination": "7.2.5.3.4",
}
MS, S = 10**6, 10**9
TYPES = {"host": 126, "prflx": 110, "srflx": 100, "relay": 0}
# For how long a response counts, and the peer consents after one.
ANSWER_COUNTS, CONSENT = 30 * S, 30 * S
# The octets of an error response that is signed by nobody: header, ERROR-CODE with a phrase of 20, FINGERPRINT.
ERROR_SIZE = 20 + 4 + 4 + 20 + 8
FROZEN, WAITING, IN_PROGRESS, SUCCEEDED, FAILED, LOST = STATES = (
    "frozen", "waiting", "in-progress", "succeeded", "failed", "lost"
)


def candidate_priority(type_preference, local_preference, component):
    """The formula of 5.1.2.1."""
    return (type_preference << 24) + (local_preference << 8) + (256 - component)


def pair_priority(of_controlling, of_controlled):
    """The formula of 6.1.2.3."""
    return (
        2**32 * min(of_controlling, of_controlled) + 2 * max(of_controlling, of_controlled)
        + (1 if of_controlling > of_controlled else 0)
    )


@dataclass(frozen=True)
class Setup:
    """The role and tiebreaker that an agent begins with, its limits, and its times in nanoseconds."""
    role: str
    tiebreaker: int
    pairs: int = 100
    candidates: int = 32
    requests: int = 200
    tries: int = 5
    ta: int = 50 * MS
    rto: int = 500 * MS
    patience: int = 200 * MS

    @staticmethod
    def read(word):
        role, tiebreaker, *options = word.split(":")
        values = dict(it.split("-") for it in options)
        times = {"ta", "rto", "patience"}
        return Setup(role, int(tiebreaker), **{k: int(v) * (MS if k in times else 1) for k, v in values.items()})


@dataclass(frozen=True)
class Base:
    """What the agent sends from: a host candidate or a relayed one."""
    number: int
    component: int
    family: int
    foundation: int
    priority: int
    is_link_local: bool = False

    def reflexive_priority(self):
        """That of a candidate which its checks discover (7.1.1): the type preference is another one."""
        return TYPES["prflx"] << 24 | self.priority & 0xFFFFFF


@dataclass(frozen=True)
class Remote:
    """A candidate of the peer."""
    address: tuple
    component: int
    foundation: int
    priority: int


@dataclass
class Pair:
    """A pair of the checklist. The triggered-check queue is its flag `queued`; the valid list, those that
    have succeeded. `deadline` is when the next request on it is due."""
    base: Base
    remote: Remote
    born: int
    state: str = FROZEN
    queued: bool = False
    is_known: bool = False  # an authentic check has come on it
    picked: bool = False
    nominated: bool = False
    sends: int = 0
    deadline: int = 0
    valid_since: int = 0
    consent_until: int = 0

    def foundation(self):
        return self.base.foundation, self.remote.foundation

    def is_open(self):
        """Whether it may still succeed by an ordinary check."""
        return self.state in (FROZEN, WAITING, IN_PROGRESS)


@dataclass(frozen=True)
class Request:
    """A Binding request, which is a transaction of its own."""
    identity: int
    base: int
    to: tuple
    role: str
    tiebreaker: int
    nominates: bool
    priority: int
    sent: int


@dataclass(frozen=True)
class Check:
    """A Binding request of the peer that is authentic."""
    identity: int
    role: str
    tiebreaker: int
    priority: int
    nominates: bool


def opposite(role):
    return {"controlling": "controlled", "controlled": "controlling"}[role]


def is_link_local(address):
    return len(address) == 16 and ipaddress.IPv6Address(address).is_link_local


class Agent:
    """Its state, and what it does with each event."""

    def __init__(self, setup):
        self.setup, self.role, self.tiebreaker = setup, setup.role, setup.tiebreaker
        self.now, self.quiet_until, self.born = 0, 0, 0
        self.knows_peer, self.has_ended = False, False
        self.bases, self.remotes = [], []  # in the order in which they came
        self.checklist, self.transactions = [], []
        self.fired = []

    def note(self, rule, output=None):
        assert rule in RULES or rule in CHOICES, rule
        self.fired.append(rule)
        return output

    # time

    def at(self, moment):
        if moment < self.now:
            self.note("clock-back")
        self.now = max(self.now, moment)

    def begin(self):
        """An event begins: what time has decided by now."""
        for its in self.checklist:
            if its.state == IN_PROGRESS and its.sends >= self.setup.tries and self.now >= its.deadline:
                its.state = self.note("timed-out", FAILED)
            elif its.state == SUCCEEDED and self.now >= its.consent_until:
                if its.picked and not its.nominated:
                    self.note("picked-lost")
                its.state, its.queued, its.picked = self.note("consent-lost", LOST), False, False
        self.transactions = [it for it in self.transactions if self.now - it.sent < ANSWER_COUNTS]

    # what there is

    def priority(self, its):
        both = its.base.priority, its.remote.priority
        return pair_priority(*(both if self.role == "controlling" else both[::-1]))

    def find(self, base, remote):
        return next((it for it in self.checklist if it.base.number == base and it.remote.address == remote), None)

    def base(self, number):
        return next((it for it in self.bases if it.number == number), None)

    def ordered(self):
        """The checklist in decreasing order of priority; of equal pairs, the one that came last is the first."""
        return sorted(self.checklist, key=lambda it: (self.priority(it), it.born), reverse=True)

    # candidates

    def can_pair(self, base, remote):
        if base.component != remote.component:
            return self.note("other-component", False)
        if base.family != (6 if len(remote.address[0]) == 16 else 4):
            return self.note("other-family", False)
        if base.is_link_local != is_link_local(remote.address[0]):
            return self.note("link-local", False)
        return True

    def add_pair(self, base, remote):
        """Whether there is one more pair."""
        if self.find(base.number, remote.address):
            return self.note("redundant", False)
        if len(self.checklist) >= self.setup.pairs:
            return self.note("too-many-pairs", False)
        self.born += 1
        self.checklist.append(Pair(base, remote, self.born))
        return True

    def add(self, candidate, others, is_there, pairs):
        """Adds a candidate to its side; the word for it."""
        own = self.bases if isinstance(candidate, Base) else self.remotes
        if len(own) >= self.setup.candidates:
            return self.note("no-room-for-a-candidate", "full")
        if is_there:
            return self.note("candidate-in-use", "in-use")
        own.append(candidate)
        made = sum([self.add_pair(*both) for both in map(pairs, others) if self.can_pair(*both)])
        return self.note("paired", f"paired:{made}") if made else f"paired:{made}"

    def add_base(self, base):
        return self.add(base, [*self.remotes], self.base(base.number) is not None, lambda it: (base, it))

    def add_remote(self, remote):
        key = remote.component, remote.address
        is_there = any((it.component, it.address) == key for it in self.remotes)
        return self.add(remote, [*self.bases], is_there, lambda it: (it, remote))

    # requests

    def is_held(self, its):
        """Whether a pair of its foundation is waiting or in progress (6.1.4.2, step 2)."""
        kin = (it for it in self.checklist if it.foundation() == its.foundation())
        return any(it.state in (WAITING, IN_PROGRESS) for it in kin)

    def may_be_picked(self, its):
        """Whether a controlling agent nominates this valid pair now (8.1.1)."""
        same = [it for it in self.checklist if it.base.component == its.base.component]
        if self.role != "controlling" or its.state != SUCCEEDED or any(it.picked or it.nominated for it in same):
            return False
        best = self.priority(its)
        if not any(it.is_open() and self.priority(it) > best for it in same):
            return True
        return any(self.is_long_valid(it) for it in same)

    def is_long_valid(self, its):
        return its.state == SUCCEEDED and self.now >= its.valid_since + self.setup.patience

    def next_check(self):
        """The pair that a request is sent on, with the rule; None if none is due."""
        checklist = self.ordered()
        ready = [
            ("triggered-check", (it for it in checklist if it.queued)),
            ("nominates", (it for it in checklist if self.may_be_picked(it))),
            ("consent-check", sorted((it for it in checklist if it.state == SUCCEEDED and self.now >= it.deadline),
                                     key=lambda it: (it.deadline, -it.born))),
            ("highest-waiting", (it for it in checklist if it.state == WAITING or it.state == FROZEN and not self.is_held(it))),
            ("again", (it for it in checklist if it.state == IN_PROGRESS and self.now >= it.deadline)),
        ]
        for rule, those in ready:
            for its in those:
                return rule, its
        return None

    def poll(self, identity):
        """The request that is sent now, or None."""
        if not self.knows_peer:
            return self.note("peer-unknown")
        if self.now < self.quiet_until:
            return self.note("within-ta")
        found = self.next_check()
        if not found:
            held = any(it.state == FROZEN for it in self.checklist)
            return self.note("held-by-foundation" if held else "nothing-to-check")
        rule, its = found
        if rule == "highest-waiting":
            rule = "foundation-free" if its.state == FROZEN else rule
            rivals = [it for it in self.checklist if it is not its and it.state in (FROZEN, WAITING)]
            if any(self.priority(it) == self.priority(its) and not (it.state == FROZEN and self.is_held(it)) for it in rivals):
                self.note("last-of-equals")
            if any(it.state == FROZEN and self.priority(it) > self.priority(its) for it in rivals):
                self.note("held-by-foundation")
        if rule == "nominates" and any(it.is_open() and self.priority(it) > self.priority(its) for it in self.checklist):
            self.note("patience" if self.is_long_valid(its) else "patience-of-the-first")
        self.note(rule)
        return self.send_check(its, identity)

    def send_check(self, its, identity):
        if its.state == SUCCEEDED:
            nominates = self.role == "controlling" and (its.picked or self.may_be_picked(its))
            if nominates and its.nominated:
                self.note("nominated-once")
            # a nomination is repeated after RTO; consent is asked for after 4 to 6 s (RFC 7675, 5.1)
            pause = self.rto() if nominates and not its.nominated else (4000 + identity % 2001) * MS
            its.picked |= nominates
        else:
            nominates, its.state = False, IN_PROGRESS
            pause = self.rto() << its.sends
            its.sends += 1
        its.queued, its.deadline = False, self.now + pause
        self.quiet_until = self.now + max(5 * MS, self.setup.ta)
        request = Request(
            identity, its.base.number, its.remote.address, self.role, self.tiebreaker, nominates,
            its.base.reflexive_priority(), self.now
        )
        self.transactions.append(request)
        if len(self.transactions) > self.setup.requests:
            self.note("forgotten")
            del self.transactions[0]
        return self.note("reflexive-priority", request)

    def rto(self):
        return max(500 * MS, self.setup.rto)

    def is_eventful(self, moment):
        """Whether a poll at a moment, the first after now, sends a request, or a pair ends by then."""
        for its in self.checklist:
            if its.state == IN_PROGRESS and its.sends >= self.setup.tries and moment >= its.deadline:
                return True
            if its.state == SUCCEEDED and moment >= its.consent_until:
                return True
        now, self.now = self.now, moment
        found = self.knows_peer and moment >= self.quiet_until and self.next_check() is not None
        self.now = now
        return found

    def wake(self):
        """The least moment at which a poll sends a request, or a pair fails or is lost, if nothing else comes; None
        if there is none."""
        moments = {self.now, self.quiet_until}
        for its in self.checklist:
            if its.state in (IN_PROGRESS, SUCCEEDED):
                moments |= {its.deadline, its.valid_since + self.setup.patience, its.consent_until}
        later = sorted(it for it in moments if it >= self.now)
        return next((it for it in later if self.is_eventful(it)), None)

    def status(self, component):
        """What a component has come to: `connected`, `lost`, `failed` or `checking`."""
        own = [it for it in self.checklist if it.base.component == component]
        if self.selected(component):
            return "connected"
        if any(it.nominated and it.state == LOST for it in own):
            return self.note("component-lost", "lost")
        if self.has_ended and all(it.state in (FAILED, LOST) for it in own):
            return self.note("component-failed", "failed")
        return self.note("component-checks", "checking")

    # checks of the peer

    def check(self, base, source, check):
        """The code of the response; 0 for success, None for no response."""
        own = self.base(base)
        if own is None:
            return self.note("unknown-base")
        if check.role == self.role:
            is_larger_or_equal = self.tiebreaker >= check.tiebreaker
            if is_larger_or_equal == (self.role == "controlling"):
                return self.note("487-sent", 487)
            self.note("switched-by-check")
            self.take_role(opposite(self.role))
        self.note("check-accepted")
        its = self.find(base, source)
        if not its:
            remote = Remote(source, own.component, 0, check.priority)
            if self.add_pair(own, remote):
                its = self.note("learned", self.checklist[-1])
        if its:
            self.hear(its, check)
        return 0

    def hear(self, its, check):
        its.is_known = True
        if its.state == LOST:
            return self.note("lost-for-ever")
        if check.nominates and self.role == "controlled":
            its.nominated = self.note("nominated-by-peer", True)
        elif check.nominates:
            self.note("no-nomination-of-controlled")
        if its.state == SUCCEEDED:
            return self.note("check-on-valid")
        self.note("check-triggers")
        return self.enqueue(its)

    def enqueue(self, its):
        its.state, its.queued, its.sends = WAITING, True, 0

    def take_role(self, role):
        if role != self.role:
            self.role = role
            for its in self.checklist:
                if its.picked or its.nominated:
                    self.note("nominations-end")
                its.picked = its.nominated = False

    # responses

    def respond(self, base, source, identity, code, fresh=0):
        """A response that is authentic; `fresh` is the tiebreaker after a 487. Whether it counts."""
        request = next((it for it in self.transactions if it.identity == identity), None)
        if not request:
            return self.note("unknown-transaction", False)
        self.transactions = [it for it in self.transactions if it.identity != identity]
        its = self.find(request.base, request.to)
        if (base, source) != (request.base, request.to):
            self.fail(its)
            return self.note("asymmetric", False)
        if code == 487:
            self.tiebreaker = self.note("487-received", fresh)
            self.take_role(opposite(request.role))
            self.check_again(its)
        elif code:
            self.note("refused-nomination" if request.nominates else "unrecoverable")
            self.fail(its)
        else:
            self.succeed(its, request)
        return True

    def fail(self, its):
        if its.state == IN_PROGRESS:
            its.state = FAILED

    def check_again(self, its):
        if its.state == SUCCEEDED:
            its.queued = True
        elif its.state == LOST:
            self.note("lost-for-ever")
        else:
            self.enqueue(its)

    def succeed(self, its, request):
        if its.state == LOST:
            self.note("lost-for-ever")
        else:
            if its.state == FAILED:
                self.note("late-success")
            if its.state != SUCCEEDED:
                its.valid_since, its.deadline = self.now, self.now + 4 * S
            its.state, its.queued, its.sends = SUCCEEDED, False, 0
            its.consent_until = self.now + CONSENT
            if its.picked and request.nominates and self.role == "controlling":
                its.nominated = self.note("nomination-succeeds", True)
            self.note("success")
        for it in self.checklist:
            if it.state == FROZEN and it.foundation() == its.foundation():
                it.state = self.note("thawed", WAITING)

    # other datagrams, and data

    def stray(self, size, code):
        """The code of the error response to a message that isn't authentic, or None."""
        if code is None or ERROR_SIZE > 3 * size:
            return self.note("too-short-for-an-error")
        return self.note("refused", code)

    def receive(self, base, source):
        """The component whose data it is, or None."""
        its = self.find(base, source)
        if its and (its.is_known or its.state == SUCCEEDED):
            return self.note("data-of-peer", its.base.component)
        return self.note("data-of-stranger")

    def selected(self, component):
        """The selected pair of a component, or None."""
        those = [it for it in self.ordered() if it.base.component == component]
        those = [it for it in those if it.nominated and it.state == SUCCEEDED]
        if len(those) > 1:
            self.note("best-of-nominated")
        return those[0] if those else None

    def send(self, component):
        """The base and the address to which the user's data goes, or None."""
        its = self.selected(component)
        if not its:
            return self.note("unselected")
        return self.note("selected", (its.base.number, its.remote.address))
