"""Random calls of `events`: what a server does with events of all kinds, at moments near to every edge."""
import random
from fractions import Fraction

TUPLES = ["1"] * 8 + ["2", "2", "3", "3", "5", "6"]
# Whose request comes from a 5-tuple, mostly.
OWNERS = {"1": "alice", "2": "alice", "3": "bob", "5": "alice", "6": "bob"}
OPTIONS = ["channel-permits", "old-channels", "ipv4-only", "ipv6-only", "no-ipv4-sockets", "no-ipv6-sockets",
           "dont-fragment", "icmp", "no-pairs"]
# 198.51.100.7 to .11, 2001:db8::17 to ::1b; one that is forbidden of each family, and the server.
IPV4 = [f"c63364{it:02x}" for it in range(7, 12)]
IPV6 = [f"20010db8{0x17 + it:024x}" for it in range(5)]
OTHERS = ["0a000001", "fd" + "00" * 14 + "01", "cb007101"]
# How much time passes before an event, in seconds: mostly none.
PAUSES = [0] * 80 + [1] * 4 + [29, 30, Fraction("29.999999999"), 100, 200, 299, 300, 301, 599, 600, Fraction(1, 2), Fraction("299.999999999"), -50]
CHANNELS = ["4000"] * 6 + ["4001"] * 3 + ["4002", "4003", "4fff", "3fff", "5000"]


class Trial:
    """A call, made step by step."""

    def __init__(self, seed, length):
        self.pick = random.Random(seed)
        self.now, self.requests, self.opened, self.drawn = Fraction(0), 0, 1, 0
        options = self.pick.sample(OPTIONS, self.pick.choice([0, 1, 2, 3]))
        families = {"ipv4-only", "ipv6-only"} & set(options)
        options = [it for it in dict.fromkeys(options) if len(families) < 2 or it not in families]
        choices = ["1", "2", "3", "8", "8"], ["1", "2", "3", "3"], ["600", "3600"], ["1", "2", "4", "4"]
        room, quota, greatest, reserved = (self.pick.choice(it) for it in choices)
        options += [f"reserves-{reserved}"] if self.pick.random() < 0.8 else []
        self.words = ["events", ":".join([room, quota, greatest, *options])]
        for at in range(length):
            self.pause()
            self.words += self.pick.choice(KINDS if at > 1 else [Trial.allocate])(self)

    def pause(self):
        if pause := self.pick.choice(PAUSES):
            self.now = max(Fraction(0), self.now + pause)
            # (all of them have at most nine decimals)
            whole, part = divmod(int(self.now * 10**9), 10**9)
            self.words += ["at", f"{whole}.{part:09}".rstrip("0").rstrip(".")]

    def asker(self):
        name = self.pick.choice(TUPLES)
        return f"{name}:{OWNERS[name] if self.pick.random() < 0.95 else 'bob'}"

    def address(self):
        return self.pick.choice([*IPV4, *IPV4, *IPV6, *self.pick.sample(OTHERS, 1)])

    def peer(self):
        # (few addresses and ports, so that they meet again)
        address = self.pick.choice([IPV4[0]] * 6 + [IPV4[1], IPV6[0], IPV6[0], self.address()])
        return f"{address}:{self.pick.choice([4000] * 8 + [4001, 3478])}"

    def socket(self):
        # (sockets have ascending numbers, so that most of those that are open are the last)
        return str(max(1, self.opened - self.pick.choice([0, 0, 0, 1, 1, 2, -1])))

    def lifetime(self):
        return self.pick.choice(["-", "-", "-", "0", "599", "601", "1200", "4294967295"])

    # the events

    def allocate(self):
        self.requests += self.pick.random() < 0.8
        wish = self.pick.choice(["4"] * 6 + ["6", "6"] + ["46"] * 8 + ["508", "442", "440"])
        lifetime = self.pick.choice(["-", "0", "900", "3600", "3600"])
        # (about as many sockets are opened)
        self.opened += self.pick.random() < 0.5
        return ["allocate", f"{self.asker()}:{self.requests}:{lifetime}:{wish}"]

    def reserve(self):
        self.requests += self.pick.random() < 0.8
        asker, lifetime = self.asker(), self.pick.choice(["-", "-", "1200"])
        wish = self.pick.choice(["4"] * 8 + ["6"] * 3 + ["508", "400"])
        self.opened += 2 * (self.pick.random() < 0.5)
        words = []
        # (the request may come again, when another token is drawn, or the same)
        for _ in range(self.pick.choice([1, 1, 1, 1, 1, 2])):
            self.drawn += self.pick.random() < 0.9
            words += ["reserve", f"{asker}:{self.requests}:{self.drawn:016x}:{lifetime}:{wish}"]
        # (a claim is mostly near, and from another 5-tuple)
        return words + (self.claim() if self.pick.random() < 0.6 else [])

    def claim(self):
        self.requests += self.pick.random() < 0.8
        asker = self.pick.choice([self.asker(), "2:alice", "2:alice", "5:alice", "6:bob"])
        token = max(0, self.drawn - self.pick.choice([0, 0, 0, 0, 1, 1, 2, -1]))
        return ["claim", f"{asker}:{self.requests}:{token:016x}:{self.pick.choice(['-', '900'])}"]

    def refresh(self):
        family = self.pick.choice(["", "", ":4", ":6"])
        return ["refresh", f"{self.asker()}:{self.lifetime()}{family}"]

    def permit(self):
        return ["permit", self.asker(), ",".join(self.peer() for _ in range(self.pick.choice([1, 1, 2, 5])))]

    def bind(self):
        return ["bind", f"{self.asker()}:{self.pick.choice(CHANNELS)}", self.peer()]

    def unfit(self):
        return ["unfit", f"{self.asker()}:400:{self.pick.choice(['refresh', 'permit', 'bind'])}"]

    def send(self):
        flag = self.pick.choice(["", "", ":dont-fragment"])
        return ["send", self.pick.choice(TUPLES) + flag, self.peer(), self.data()]

    def channel(self):
        return ["channel", f"{self.pick.choice(TUPLES)}:{self.pick.choice(CHANNELS)}", self.data()]

    def arrive(self):
        return ["arrive", self.socket(), self.peer(), self.data()]

    def icmp(self):
        type_ = self.pick.choice(["3:3:0", "3:4:1400", "11:0:0", "1:0:0", "2:0:1280", "5:0:0"])
        return ["icmp", self.socket(), self.peer(), type_]

    def deny(self):
        return ["deny", self.pick.choice(["-", "-", IPV4[0], f"{IPV4[1]},{IPV6[0]}"])]

    def end(self):
        ends = [["end", self.socket()], ["end-user", "bob"], ["end-user", "alice"], ["poll"], ["poll"]]
        return self.pick.choice(ends)

    def data(self):
        return self.pick.choice(["-", "61", "616263"])


KINDS = [Trial.allocate] * 5 + [Trial.reserve] * 5 + [Trial.claim] * 2 + [Trial.refresh] * 3 + [Trial.unfit]
KINDS += [Trial.permit] * 6 + [Trial.bind] * 6 + [Trial.send] * 6 + [Trial.channel] * 6 + [Trial.arrive] * 6 + [Trial.icmp] * 3 + [Trial.deny, Trial.end]


def calls(count, seed, length=40):
    """So many calls; the same for the same seed."""
    return [" ".join(Trial(f"{seed}.{at}", length).words) for at in range(count)]
