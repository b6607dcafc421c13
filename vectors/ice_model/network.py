"""Two agents over a random network: NATs of four kinds, relays, loss, delay, copies, and an attacker.

A datagram is translated by the sender's NAT, is lost or delayed, so that it may overtake another one, and passes
the receiver's NAT, or is dropped there. An agent polls when its model says that something may be due, or later.
What the agents do is judged by what a user of them sees, their events and outputs: each rule of `Watcher` is
a law of the library, and none may ever be broken. How they end is counted.
"""
import collections
import heapq
import random
from dataclasses import dataclass, field

from agent import MS, S
from events import Recorded, spelled

# From which addresses a NAT lets a datagram in: any; those that its host sent to; those with their port; and the
# same, with another port for each address that the host sends to.
KINDS = ["none", "full cone", "address", "port", "symmetric"]
STUN, VICTIM = ("c6336463", 3478), ("cb007107", 9)
PUBLIC, PRIVATE, RELAY = {"L": "c0000201", "R": "c0000202"}, {"L": "0a000001", "R": "0a010001"}, {"L": "cb007165", "R": "cb007166"}
DURATION, SILENCE, TRIES = 50 * S, 30 * S, 5


@dataclass
class Nat:
    """What a host's datagrams pass. Ports that it gives are as long as it is."""
    kind: str
    address: str
    ports: dict = field(default_factory=dict)  # the port for a host's endpoint, or for it and an address
    hosts: dict = field(default_factory=dict)  # the host's endpoint, by the port
    sent_to: dict = field(default_factory=lambda: collections.defaultdict(set))  # by the port

    def out(self, host, to):
        """The source of a datagram outside."""
        if self.kind == "none":
            return host
        key = (host, to) if self.kind == "symmetric" else host
        if key not in self.ports:
            self.ports[key] = 50_000 + len(self.ports)
            self.hosts[self.ports[key]] = host
        port = self.ports[key]
        self.sent_to[port].add(to)
        return self.address, port

    def admits(self, port, source):
        """The host's endpoint for a datagram from outside, or None."""
        if port not in self.hosts:
            return None
        those = self.sent_to[port]
        if self.kind == "address":
            those, source = {it[0] for it in those}, source[0]
        return self.hosts[port] if self.kind == "full cone" or source in those else None


class Watcher:
    """The laws of sending, by the events and outputs of one agent alone."""

    def __init__(self, pace, faults):
        self.pace, self.faults = pace, faults
        self.asked, self.requests, self.accepted, self.spoken, self.known = -S, {}, {}, set(), set()
        self.sent = collections.Counter()  # how many requests, from a base to an address

    def fault(self, now, text):
        self.faults.append(f"{now / S:.3f} s: {text}")

    def asks(self, now, identity, place, role, use):
        if now - self.asked < self.pace:
            self.fault(now, "two requests within Ta")
        if use and role != "controlling":
            self.fault(now, "a controlled agent nominates")
        self.asked, self.requests[identity] = now, (now, place)
        self.sent[place] += 1
        if place not in self.spoken and self.sent[place] > TRIES:
            self.fault(now, f"request {self.sent[place]} to a silent address")

    def checked(self, place):
        self.spoken.add(place)
        self.known.add(place)

    def responded(self, now, place, identity, code):
        self.spoken.add(place)
        sent, its = self.requests.get(identity, (None, None))
        if code == "ok" and its == place and now - sent < SILENCE:
            self.accepted[place] = now
            self.known.add(place)

    def sends(self, now, place):
        if place not in self.accepted or now - self.accepted[place] >= SILENCE:
            self.fault(now, f"data to {place} without consent")

    def receives(self, now, place):
        if place not in self.known:
            self.fault(now, f"data from {place}, which nobody authentic sent from")


class Host:
    """An agent, its bases in a NAT and at a relay, and what watches it."""

    def __init__(self, name, kind, agent, relays, faults):
        self.name, self.agent, self.nat = name, agent, Nat(kind, PUBLIC[name])
        self.ta = 50 * MS
        self.watch = Watcher(self.ta, faults)
        address = PUBLIC[name] if kind == "none" else PRIVATE[name]
        self.places = {1: (address, 4000)}
        if relays:
            self.places[2] = RELAY[name], 6000
        self.permitted = set()  # the addresses that the relay lets in
        self.wake_at, self.data, self.route = None, 0, None

    def candidates(self):
        """What is signalled: address, foundation, type. The server-reflexive address is what a STUN server sees."""
        found = [(self.places[1], 1, "host")]
        mapped = self.nat.out(self.places[1], STUN)
        found += [(mapped, 2, "srflx")] if mapped != self.places[1] else []
        return found + ([(self.places[2], 3, "relay")] if 2 in self.places else [])


def word(place):
    return f"{place[0]}:{place[1]}"


class Network:
    """A random network, with what happened there."""

    def __init__(self, seed, kinds, relays):
        self.pick, self.now, self.order, self.queue, self.faults = random.Random(f"network.{seed}"), 0, 0, [], []
        self.loss, self.copies = self.pick.choice([0, 0, 0.05, 0.2]), self.pick.choice([0, 0, 0.1])
        self.delay = self.pick.choice([(1, 5), (20, 60), (20, 300), (300, 900)])
        self.attack = self.pick.choice(["", "", "", "signals", "strays", "replays"])
        self.is_cut = self.pick.random() < 0.2
        roles = self.pick.choice([("controlling", "controlled")] * 4 + [("controlling",) * 2, ("controlled",) * 2])
        self.hosts, setups = {}, set()
        for name, kind, role in zip("LR", kinds, roles):
            setup = f"{role}:{self.pick.choice([5, 5, self.pick.getrandbits(64)])}"
            setups.add(setup)
            self.hosts[name] = Host(name, kind, Recorded(setup), relays, self.faults)
        # (agents of one role with equal tiebreakers may both switch, and each nominate a pair)
        self.is_even, self.met_at = len(setups) == 1, None
        self.begin()

    def at(self, moment, what, *words):
        self.order += 1
        heapq.heappush(self.queue, (moment, self.order, what, words))

    def soon(self, most):
        return self.now + self.pick.randrange(most * MS)

    # what is set up

    def begin(self):
        for host in self.hosts.values():
            peer = self.hosts["R" if host.name == "L" else "L"]
            self.at(0, self.tell, host, "base 1:1:4:1:host-65535")
            if 2 in host.places:
                self.at(self.soon(300), self.tell, host, "base 2:1:4:2:relay-65535")
            offered = self.soon(400)
            self.at(offered, self.tell, host, "peer")
            for place, foundation, kind in peer.candidates():
                trickled = offered + self.pick.choice([0, 0, 50, 400]) * MS
                self.at(trickled, self.tell, host, f"remote {word(place)}:1:{foundation}:{kind}-65535")
            if self.attack == "signals":
                for component in (1, 1, 2):
                    self.at(self.soon(20_000), self.tell, host, f"remote {word(VICTIM)}:{component}:{self.pick.choice([1, 7])}:host-9")
            for second in range(1, DURATION // S):
                self.at(second * S + self.pick.randrange(S), self.sends, host)
            if self.attack == "strays":
                for _ in range(20):
                    self.at(self.soon(40_000), self.strays, host)

    def tell(self, host, event):
        self.does(host, event)

    def does(self, host, event):
        """An event of an agent, and when it polls next."""
        output = host.agent.does(self.now, event)
        due = host.agent.agent.wake()
        if due is not None and (host.wake_at is None or due < host.wake_at):
            # (a program is late now and then)
            host.wake_at = due + self.pick.choice([0, 0, 0, self.pick.randrange(20 * MS)])
            self.at(host.wake_at, self.poll, host, host.wake_at)
        return output

    # what agents send

    def poll(self, host, moment):
        if moment != host.wake_at:
            return
        host.wake_at, identity = None, self.pick.getrandbits(40)
        asked = self.does(host, f"poll {identity}")
        if asked == "idle":
            return
        _, base, address, port, role, tiebreaker, its, *use = asked.split(":")
        to = address, int(port)
        host.watch.asks(self.now, str(identity), (int(base), to), role, bool(use))
        self.send(host, int(base), to, ("check", ":".join([str(identity), role, tiebreaker, its, *use])))

    def sends(self, host):
        output = self.does(host, "send 1")
        if output != "dropped":
            _, base, address, port = output.split(":")
            to = address, int(port)
            host.watch.sends(self.now, (int(base), to))
            self.send(host, int(base), to, ("data",))

    def strays(self, host):
        """A request of the attacker, with the victim's address."""
        size = self.pick.choice([20, 28, 100])
        answer = self.does(host, f"stray 1 {word(VICTIM)} {size}:401")
        if answer != "dropped" and 56 > 3 * size:
            self.faults.append(f"an answer of 56 octets to {size}")
        if self.does(host, f"data 1 {word(VICTIM)}") != "dropped":
            host.watch.receives(self.now, (1, VICTIM))

    # the way of a datagram

    def source(self, host, base, to):
        if base == 2:
            host.permitted.add(to[0])
            return host.places[2]
        return host.nat.out(host.places[1], to)

    def place(self, source, to):
        """The host and the base at which a datagram arrives, or None."""
        for host in self.hosts.values():
            if to == host.places.get(2):
                return (host, 2) if source[0] in host.permitted else None
            if host.nat.kind == "none":
                if to == host.places[1]:
                    return host, 1
            elif to[0] == host.nat.address and host.nat.admits(to[1], source):
                return host, 1
        return None

    def send(self, host, base, to, what):
        source = self.source(host, base, to)
        if self.is_cut and self.now >= 12 * S:
            return
        for _ in range(2 if self.pick.random() < self.copies else 1):
            if self.pick.random() >= self.loss:
                delay = self.pick.randint(*self.delay) * MS + self.pick.randrange(MS)
                self.at(self.now + delay, self.arrive, source, to, what)
                if self.attack == "replays" and what[0] != "data" and self.pick.random() < 0.2:
                    # (the attacker reads it on its way, and sends it again as if from the victim, or later)
                    forged = self.pick.choice([VICTIM, VICTIM, source])
                    self.at(self.now + delay + self.pick.choice([1, 500, 40_000]) * MS, self.arrive, forged, to, what)

    def arrive(self, source, to, what):
        found = self.place(source, to)
        if not found:
            return
        host, base = found
        place = base, source
        kind, *rest = what
        if kind == "data":
            if self.does(host, f"data {base} {word(source)}") != "dropped":
                host.data += 1
                host.watch.receives(self.now, place)
        elif kind == "check":
            answer = self.does(host, f"check {base} {word(source)} {rest[0]}")
            host.watch.checked(place)
            if answer != "dropped":
                self.send(host, base, source, ("response", rest[0].split(":")[0], answer))
        else:
            identity, code = rest
            fresh = f":{self.pick.getrandbits(64)}" if code == "487" else ""
            self.does(host, f"respond {base} {word(source)} {identity}:{code}{fresh}")
            host.watch.responded(self.now, place, identity, code)
        if self.met_at is None and self.ended() == "one pair":
            self.met_at = self.now

    # how it ends

    def is_fair(self):
        """Whether every datagram arrives that a NAT lets in, and no other one; and the agents differ."""
        return not (self.loss or self.attack or self.is_cut or self.is_even)

    def to_victim(self):
        """The most requests that a base sent to the victim."""
        counts = (count for host in self.hosts.values() for place, count in host.watch.sent.items() if place[1] == VICTIM)
        return max(counts, default=0)

    def routes(self):
        found = {}
        for name, host in self.hosts.items():
            its = host.agent.agent.selected(1)
            found[name] = its and (its.base.number, (its.remote.address[0].hex(), its.remote.address[1]))
        return found

    def ended(self):
        """Whether both use one pair: what each sends arrives where the other sends from."""
        routes = self.routes()
        if not all(routes.values()):
            return "one alone" if any(routes.values()) else "none"
        for name, peer in ("LR", "RL"):
            base, to = routes[name]
            found = self.place(self.source(self.hosts[name], base, to), to)
            if not found or (found[0].name, found[1]) != (peer, routes[peer][0]):
                return "two pairs"
            if self.source(self.hosts[name], base, to) != routes[peer][1]:
                return "two pairs"
        return "one pair"

    def run(self):
        while self.queue and self.queue[0][0] < DURATION:
            self.now, _, what, words = heapq.heappop(self.queue)
            what(*words)
        self.now = DURATION
        if self.is_cut:
            for host in self.hosts.values():
                if self.does(host, "send 1") != "dropped":
                    self.faults.append("data after the network was cut, and consent has expired")
        end = "cut" if self.is_cut else self.ended()
        return "lost again" if self.met_at is not None and end in ("one alone", "none") else end


def has_path(kinds, relays):
    """Whether two agents have a path: a symmetric NAT shows the peer's a port that this doesn't let in."""
    return relays or not ("symmetric" in kinds and {*kinds} <= {"port", "symmetric"})


def both_kinds():
    return [(one, other) for at, one in enumerate(KINDS) for other in KINDS[at:]]


ENDS = ["one pair", "lost again", "two pairs", "one alone", "none", "cut"]


def report(count, seed):
    """The lines of the report, all agents, and what was wrong."""
    rows, times, agents, faults, victims = collections.defaultdict(collections.Counter), collections.defaultdict(list), [], [], collections.Counter()
    cases = [(kinds, relays) for relays in (True, False) for kinds in both_kinds()]
    for at in range(count):
        kinds, relays = cases[at % len(cases)]
        its = Network(f"{seed}.{at}", kinds, relays)
        end = its.run()
        if its.is_fair() and has_path(kinds, relays) != (end == "one pair"):
            faults.append(f"network {seed}.{at} ({kinds}, relays {relays}): {end}")
        key = f"{kinds[0]}, {kinds[1]}{', relays' if relays else ''}"
        rows[key][end] += 1
        times[key] += [its.met_at // MS] if its.met_at is not None else []
        victims[its.attack] = max(victims[its.attack], its.to_victim())
        faults += [f"network {seed}.{at} ({key}): {it}" for it in its.faults[:2]]
        agents += [host.agent for host in its.hosts.values()]
    lines = [f"{'NATs':<30}" + "".join(f"{it:>12}" for it in ENDS) + f"{'met, median ms':>17}{'most':>8}"]
    for key in sorted(rows):
        its = sorted(times[key])
        median, most = (its[len(its) // 2], its[-1]) if its else ("-", "-")
        lines.append(f"{key:<30}" + "".join(f"{rows[key][it]:>12}" for it in ENDS) + f"{median:>17}{most:>8}")
    sums = collections.Counter(end for key in rows for end in rows[key].elements())
    lines.append(f"{'all':<30}" + "".join(f"{sums[it]:>12}" for it in ENDS))
    lines += [f"attack {it or 'none'}: at most {victims[it]} requests from a base to the victim" for it in sorted(victims)]
    return lines, agents, faults
