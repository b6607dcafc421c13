"""What a TURN client keeps, sends and shows (RFC 8656, 7 to 12; RFC 8489, 6.2, 9.2.5 and 10).

It shares no code with the library. An address is its four or sixteen octets, an endpoint an address
and a port, a moment a fraction of seconds. Each rule that decides an event is noted by its name in
`Client.fired`; RULES has the names, in the order of the rules.
"""
from dataclasses import dataclass, field
from fractions import Fraction

import octets as spoken
import reading
import wire

# Each rule, with its section of RFC 8656 (of RFC 8489 after a colon).
RULES = {
    # the user
    "begins": "7.1", "permits": "10.1", "permitted-already": "9", "peer-of-another-family": "10.1", "peers-full": "10.1",
    "asked-anew": "10.1", "drops": "12", "drops-none": "12", "takes-a-place": "12", "binds": "12.1", "binds-a-permitted": "12.1", "bound-already": "12.1", "closed-before": "8",
    "deletes": "8.1", "no-effect": "8",
    # time
    "first-sending": ":6.2.1", "sent-again": ":6.2.1", "sent-enough": ":6.2.1", "silent": ":6.2.1",
    "violated": ":9.2.5", "peer-silent": ":6.2.1", "peer-violated": ":9.2.5", "ten-at-once": ":6.2", "nothing-due": ":6.2.1",
    "several-at-once": "10.1", "alone-since-none-answered": "10.1",
    # a datagram
    "from-elsewhere": ":6.3", "no-message": ":5", "not-for-a-client": ":6.3", "no-such-request": ":6.3",
    "without-its-list": ":9.2.5", "unsigned-400": ":9.2.5", "unsigned": ":9.2.5",
    "wrong-integrity-over-udp": ":9.2.5", "wrong-integrity-over-tcp": ":9.2.5",
    # a challenge
    "challenged": ":9.2.5", "challenged-too-often": ":9.2.5", "challenge-without-its-list": ":9.2.5",
    "challenge-incomplete": ":9.2.5", "no-algorithm": ":9.2.5", "credentials-refused": ":9.2.5",
    # an error or a success of the allocation
    "unknown-attribute": ":6.3.4", "no-code": ":6.3.4", "incomplete-success": "7.3", "refused": "7.4",
    "elsewhere": ":10", "elsewhere-later": ":10", "allocated": "7.3", "useless": "7.3", "too-short": "8.3",
    "allocated-with-a-token": "7.3", "refreshed": "8.3", "deleted": "8.3", "delete-refused": "8.3",
    # of a peer
    "mismatch": "8.3", "channel-refused": "12.3", "several-refused": "10.2", "peer-refused": "10.3", "permitted": "10.3", "bound": "12.3",
    # data
    "not-allocated": "11.1", "over": "6", "sent-on-a-channel": "12.5", "sent": "11.1", "sent-whole": "11.1", "not-permitted": "9",
    "shown": "11.4", "shown-on-a-channel": "12.6", "shown-early": "12", "data-not-permitted": "11.4",
    "error-shown": "11.6", "error-not-permitted": "11.6",
    "channel-unbound": "12.6", "unfit-data": "11.4", "cut-channel-data": "12.6",
}
SERVER = bytes([203, 0, 113, 1]), 3478
# For how long a request may be repeated, and its challenges be answered, until the server has granted it.
TO_BEGIN = 40
PERMISSION_LIFETIME, CHANNEL_LIFETIME, MARGIN = 300, 600, 20
# How long the number of a dropped peer rests: until its channel has surely expired, and five minutes more (12).
REST = CHANNEL_LIFETIME + 300
LEAST_LIFETIME = 80
CHANNELS = range(0x4000, 0x5000)
# Ten requests at once: one for the allocation, one for several peers, and the others for a peer each (RFC 8489, 6.2).
PEERS_AT_ONCE = 8
# How much earlier than it is due a permission is asked for together with others; and how many peers a request names.
AHEAD, MOST_NAMED = 30, 16


def spelled(endpoint):
    return f"{endpoint[0].hex()}:{endpoint[1]}"


def moment(seconds):
    """A moment as decimal digits."""
    whole, part = divmod(int(seconds * 10**9), 10**9)
    return f"{whole}.{part:09}".rstrip("0").rstrip(".") if part else str(whole)


@dataclass
class Settings:
    transport: str
    family: str | None
    seconds: int | None
    peers: int = 32
    named: int = 8
    sends: int = 7
    retries: int = 3
    rto: Fraction = Fraction(1, 2)
    supported: tuple = ("md5", "sha256")
    port: str | bytes | None = None  # an even one, a pair, or that of a token
    whole: bool = False  # DONT-FRAGMENT is asked for

    @staticmethod
    def read(word):
        transport, family, seconds, *options = word.split(":")
        its = Settings(transport, None if family == "-" else family, None if seconds == "-" else int(seconds))
        for option in options:
            name, _, number = option.partition("-")
            if name in spoken.NUMBERS:
                its.supported = (name,)
            elif name in spoken.EVEN:
                its.port = name
            elif name == "token":
                its.port = bytes.fromhex(number)
            elif name == "whole":
                its.whole = True
            else:
                setattr(its, name, Fraction(int(number), 1000) if name == "rto" else int(number))
        return its

    def octets_in_an_address(self):
        """Of a relayed address and of a peer's."""
        return 16 if self.family == "ipv6" else 4

    def wait(self, sends):
        """How long after so many sendings of a request the next is due, or the end (RFC 8489, 6.2.1 and 6.2.2)."""
        if self.transport == "tcp":
            return Fraction(79, 2)
        return self.rto * (2 ** (sends - 1) if sends < self.most_sends() else 16)

    def most_sends(self):
        return 1 if self.transport == "tcp" else self.sends


@dataclass
class Request:
    """A request under way: the octets, which stay the same, and when they were first sent."""
    identity: bytes
    kind: str
    login: object
    octets: bytes
    since: Fraction
    sends: int = 1


@dataclass
class Need:
    """What the server has to grant, first or again, by a deadline."""
    due: Fraction = Fraction(0)
    deadline: Fraction = Fraction(TO_BEGIN)
    request: Request | None = None
    retries: int = 0
    is_violated: bool = False

    @staticmethod
    def begun(now):
        return Need(now, now + TO_BEGIN)

    @staticmethod
    def granted(since, seconds):
        """Due a minute before the end, or after half of the time if that is later (8); 20 s before it is too late."""
        return Need(since + max(seconds - 60, Fraction(seconds, 2)), since + seconds - MARGIN)

    def again(self, now):
        """Due at once with a new request; the deadline stays."""
        self.due, self.request, self.is_violated = min(self.deadline, now), None, False


@dataclass
class Peer:
    endpoint: tuple
    number: int
    wants_channel: bool
    need: Need
    is_over: bool = False
    code: int = 0
    permitted_until: Fraction = Fraction(0)
    bound_until: Fraction = Fraction(0)
    has_wanted_a_channel: bool = False
    is_shared: bool = False  # the latest request since it was granted named other peers too
    rests_until: Fraction | None = None  # of one that was dropped

    def __post_init__(self):
        self.has_wanted_a_channel = self.wants_channel

    def restart(self, now):
        self.is_over, self.permitted_until, self.bound_until = False, Fraction(0), Fraction(0)
        self.need, self.rests_until, self.is_shared = Need.begun(now), None, False

    def permits(self, address, now):
        return self.endpoint[0] == address and now < self.permitted_until


@dataclass
class Client:
    settings: Settings
    server: tuple = SERVER
    now: Fraction = Fraction(0)
    phase: str = "quiet"
    why: str = "closed"
    need: Need = field(default_factory=Need)
    login: object = None
    expires: Fraction = Fraction(0)
    peers: list = field(default_factory=list)  # in the order of their numbers, with those that were dropped
    requests: int = 0
    words: list = field(default_factory=list)
    fired: list = field(default_factory=list)

    def note(self, rule, result=None):
        self.fired.append(rule)
        return result

    def say(self, rule, *words):
        self.fired.append(rule)
        self.words += words

    def at(self, now):
        """A clock that goes back counts as stopped."""
        self.now = max(self.now, now)

    # ---- the user

    def allocate(self):
        if self.phase != "quiet":
            return self.say("no-effect")
        self.phase, self.need = "asking", Need.begun(self.now)
        return self.say("begins")

    def peer(self, endpoint):
        return next((it for it in self.peers if it.endpoint == endpoint), None)

    def add(self, rule, endpoint, wants_channel):
        if len(endpoint[0]) != self.settings.octets_in_an_address():
            return self.say("peer-of-another-family", "refused:family")
        number = next((it.number for it in reversed(self.peers) if it.rests_until is not None and it.rests_until <= self.now), None)
        if number is not None:
            self.peers[CHANNELS.index(number)] = Peer(endpoint, number, wants_channel, Need.begun(self.now))
            return self.say("takes-a-place")
        if len(self.peers) >= min(self.settings.peers, len(CHANNELS)):
            return self.say("peers-full", "refused:full")
        self.peers.append(Peer(endpoint, CHANNELS[len(self.peers)], wants_channel, Need.begun(self.now)))
        return self.say(rule)

    def permit(self, endpoint):
        # (a permission is for an address with any port: 9)
        if any(not it.is_over and it.endpoint[0] == endpoint[0] for it in self.peers):
            return self.say("permitted-already")
        peer = self.peer(endpoint)
        if peer is None:
            return self.add("permits", endpoint, False)
        peer.restart(self.now)
        return self.say("asked-anew")

    def bind(self, endpoint):
        peer = self.peer(endpoint)
        if peer is None:
            return self.add("binds", endpoint, True)
        if not peer.is_over and peer.wants_channel:
            return self.say("bound-already")
        if peer.is_over:
            peer.restart(self.now)
            rule = "asked-anew"
        else:
            deadline = min(peer.need.deadline, self.now + TO_BEGIN)
            peer.need, peer.is_shared = Need(min(peer.need.deadline, self.now), deadline), False
            rule = "binds-a-permitted"
        peer.wants_channel = peer.has_wanted_a_channel = True
        return self.say(rule)

    def drop(self, endpoint):
        peer = self.peer(endpoint)
        if peer is None or peer.rests_until is not None:
            return self.say("drops-none")
        peer.is_over, peer.permitted_until, peer.bound_until = True, Fraction(0), Fraction(0)
        peer.need.request = None
        peer.rests_until = self.now + (REST if peer.has_wanted_a_channel else 0)
        return self.say("drops")

    def close(self):
        if self.phase in ("closing", "ended"):
            return self.say("no-effect")
        # (without a challenge no request was signed, so that the server has no allocation)
        if self.phase == "quiet" or self.phase == "asking" and self.login is None:
            return self.end("closed-before", "closed")
        return self.delete("deletes", "closed")

    def delete(self, rule, why):
        self.phase, self.why, self.need = "closing", why, Need.begun(self.now)
        self.say(rule, "closing")

    def end(self, rule, why):
        self.phase, self.why = "ended", why
        self.say(rule, f"ended:{why}")

    def give_up(self, rule, peer, code, why=None):
        peer.is_over, peer.code, peer.need.request = True, code, None
        self.say(rule, f"over:{spelled(peer.endpoint)}:{why or code}")

    # ---- time

    def is_active(self):
        return self.phase in ("asking", "allocated", "closing")

    def poll(self):
        if self.is_active() and self.need.due <= self.now:
            return self.turn_of_the_allocation()
        if self.phase == "allocated":
            waiting = [it for it in reversed(self.peers) if not it.is_over and it.need.due <= self.now]
            peer = next((it for it in waiting if self.may_turn(it)), None)
            if peer:
                return self.turn_of(peer)
            if waiting:
                return self.say("ten-at-once")
        return self.say("nothing-due")

    def may_turn(self, peer):
        """At most ten requests are under way, one of them for the allocation, and one for several peers (RFC 8489, 6.2)."""
        alone = sum(it.need.request is not None and not it.is_shared for it in self.peers)
        is_alone = peer.need.request is not None and not peer.is_shared
        return alone < PEERS_AT_ONCE or is_alone or peer.need.deadline <= self.now

    def may_share(self, peer):
        """Whether a request for other peers may ask for its permission too (10.1)."""
        is_free = not (peer.is_over or peer.wants_channel or peer.is_shared or peer.need.request)
        return is_free and self.now < peer.need.deadline and peer.need.due <= self.now + AHEAD

    def others_with(self, peer):
        """The further peers that the request for this one names: if there are any, no other request names several."""
        if not self.may_share(peer) or any(it.is_shared and it.need.request for it in self.peers):
            return []
        fit = [it for it in reversed(self.peers) if it is not peer and self.may_share(it)]
        return fit[: max(min(self.settings.named, MOST_NAMED) - 1, 0)]

    def turn_of_the_allocation(self):
        if self.now < self.need.deadline:
            kind = {"asking": "allocate", "allocated": "refresh", "closing": "refresh"}[self.phase]
            seconds = 0 if self.phase == "closing" else self.settings.seconds
            family = self.settings.family if kind == "allocate" else None
            wishes = {"port": self.settings.port, "whole": self.settings.whole} if kind == "allocate" else {}
            return self.send_request(self.need, kind, seconds=seconds, family=family, **wishes)
        if self.phase == "closing":
            return self.end("silent", self.why)
        return self.end("violated", "integrity") if self.need.is_violated else self.end("silent", "silent")

    def turn_of(self, peer):
        if self.now < peer.need.deadline:
            return self.ask_for(peer, self.others_with(peer))
        if peer.need.is_violated:
            return self.give_up("peer-violated", peer, 0, "integrity")
        return self.give_up("peer-silent", peer, 0)

    def ask_for(self, peer, others):
        if peer.is_shared and peer.need.request:
            # (a request that named several was sent once; now each is asked for alone)
            peer.need.request = None
            self.note("alone-since-none-answered")
        peer.is_shared = bool(others)
        if peer.wants_channel:
            return self.send_request(peer.need, "bind", peers=[peer.endpoint], number=peer.number)
        if others:
            self.note("several-at-once")
        self.send_request(peer.need, "permit", peers=[peer.endpoint, *(it.endpoint for it in others)])
        for it in others:
            it.is_shared, it.need.request = True, peer.need.request
            it.need.due = min(it.need.deadline, self.now + self.settings.wait(1))

    def send_request(self, need, kind, **content):
        request = need.request
        if request is None:
            self.requests += 1
            identity = self.requests.to_bytes(12)
            octets = spoken.request(kind, identity, self.login, **content)
            request = need.request = Request(identity, kind, self.login, octets, self.now)
            rule = "first-sending"
        elif request.sends < self.settings.most_sends():
            request.sends += 1
            rule = "sent-again"
        else:
            need.due = need.deadline
            return self.say("sent-enough")
        need.due = min(need.deadline, self.now + self.settings.wait(request.sends))
        return self.say(rule, f"to-server:{request.octets.hex()}")

    def wake(self):
        """When it is next to be polled, which may be over, or None."""
        moments = [self.need.due] if self.is_active() else []
        if self.phase == "allocated":
            moments += [it.need.due if self.may_turn(it) else it.need.deadline for it in self.peers if not it.is_over]
        return min(moments) if moments else None

    # ---- data of the user

    def send(self, endpoint, data, whole=False):
        if self.phase != "allocated":
            return self.say("not-allocated", "dropped")
        if self.now >= self.expires:
            return self.say("over", "dropped")
        peer = self.peer(endpoint)
        is_bound = peer and peer.permits(endpoint[0], self.now) and self.now + MARGIN < peer.bound_until
        # (ChannelData has no DONT-FRAGMENT)
        if is_bound and not whole:
            octets = spoken.channel_data(peer.number, data, self.settings.transport == "tcp")
            return self.say("sent-on-a-channel", f"to-server:{octets.hex()}")
        if any(it.permits(endpoint[0], self.now) for it in self.peers):
            return self.say("sent-whole" if whole else "sent", f"to-server:{spoken.send_indication(endpoint, data, whole).hex()}")
        return self.say("not-permitted", "dropped")

    # ---- a datagram

    def receive(self, source, octets):
        if source != self.server:
            return self.say("from-elsewhere")
        if octets and 0x40 <= octets[0] <= 0x4F:
            read = reading.channel_data(octets, self.settings.transport == "tcp")
            return self.show_on(*read) if read else self.say("cut-channel-data")
        message = wire.read(octets)
        if message is None:
            return self.say("no-message")
        if message.kind == "indication" and message.method == wire.METHODS["data"]:
            read, failed = reading.peer_data(message), reading.peer_error(message)
            if failed:
                return self.show_error(*failed)
            return self.show(*read) if read else self.say("unfit-data")
        if message.kind not in ("success", "error"):
            return self.say("not-for-a-client")
        return self.respond(message)

    def show(self, endpoint, data):
        if self.phase == "allocated" and any(it.permits(endpoint[0], self.now) for it in self.peers):
            return self.say("shown", f"data:{spelled(endpoint)}:{data.hex() or '-'}")
        return self.say("data-not-permitted")

    def show_error(self, endpoint, error):
        """An ICMP error about a packet to a peer (11.6)."""
        if self.phase == "allocated" and any(it.permits(endpoint[0], self.now) for it in self.peers):
            return self.say("error-shown", f"icmp:{spelled(endpoint)}:{error[2]}:{error[3]}:{int.from_bytes(error[4:])}")
        return self.say("error-not-permitted")

    def show_on(self, number, data):
        peer = next((it for it in self.peers if it.number == number), None)
        if self.phase != "allocated" or peer is None:
            return self.say("channel-unbound")
        word = f"data:{spelled(peer.endpoint)}:{data.hex() or '-'}"
        if self.now < peer.bound_until:
            return self.say("shown-on-a-channel", word)
        # (the answer to the ChannelBind request may come after data: 12)
        is_asked = peer.need.request is not None and peer.need.request.kind == "bind"
        if is_asked and any(it.permits(peer.endpoint[0], self.now) for it in self.peers):
            return self.say("shown-early", word)
        return self.say("channel-unbound")

    # ---- a response

    def respond(self, message):
        """A response is for a request under way, with its method and transaction ID (RFC 8489, 6.3)."""
        def is_for(need):
            request = need.request
            return request and request.identity == message.identity and wire.METHODS[request.kind] == message.method

        if self.is_active() and is_for(self.need):
            answer = reading.answer_to(message, self.need.request, self)
            return answer and self.answer(answer)
        peers = [it for it in self.peers if is_for(it.need)] if self.phase == "allocated" else []
        if not peers:
            return self.say("no-such-request")
        answer = reading.answer_to(message, peers[0].need.request, self)
        return answer and self.answer_peers(peers, answer)

    def may_answer(self, need, code):
        """Whether a challenge is answered: a 438, or the first 401 (9.2.5)."""
        return need.retries < self.settings.retries and (code == 438 or self.login is None)

    def answer(self, answer):
        need, is_closing = self.need, self.phase == "closing"
        if answer.kind == "challenge":
            if not self.may_answer(need, answer.code):
                return self.end("challenged-too-often", str(answer.code))
            self.login = answer.values[0]
            need.again(self.now)
            need.retries += 1
            return self.say("challenged")
        if answer.kind == "violation":
            if self.settings.transport == "udp":
                need.is_violated = True
                return self.say("wrong-integrity-over-udp")
            return self.end("wrong-integrity-over-tcp", self.why if is_closing else "integrity")
        if not answer.is_authentic:
            return self.say("unsigned")
        if answer.kind == "elsewhere":
            if need.request.kind != "allocate":
                return self.say("elsewhere-later")
            return self.end("elsewhere", f"moved:{spelled(answer.values[0])}")
        if answer.kind == "error":
            if is_closing:
                return self.end("delete-refused", self.why)
            return self.end("refused" if answer.rule == "error" else answer.rule, str(answer.code))
        return self.grant(need.request, *answer.values)

    def grant(self, request, *values):
        *addresses, seconds = values[:3]
        token = values[3] if len(values) > 3 else None
        if self.phase == "closing":
            return self.end("deleted", self.why)
        if addresses and len(addresses[0][0]) != self.settings.octets_in_an_address():
            return self.delete("useless", "useless")
        if seconds < LEAST_LIFETIME:
            return self.delete("too-short", "useless")
        # (the server granted it no earlier than the request was first sent)
        self.expires, self.need = request.since + seconds, Need.granted(request.since, seconds)
        if not addresses:
            return self.say("refreshed", f"refreshed:{moment(self.expires)}")
        self.phase = "allocated"
        for peer in self.peers:
            if peer.rests_until is None:
                peer.restart(self.now)
        word = f"allocated:{':'.join(map(spelled, addresses))}:{moment(self.expires)}"
        if token is not None:
            return self.say("allocated-with-a-token", f"token:{token.hex()}", word)
        return self.say("allocated", word)

    def answer_peers(self, peers, answer):
        """An answer is for each peer that the request named."""
        if answer.kind == "error" and answer.is_authentic and answer.code == 437:
            return self.end("mismatch", "437")
        answered = [it for it in peers if answer.kind == "challenge" and self.may_answer(it.need, answer.code)]
        if answer.kind == "challenge":
            self.login = answer.values[0]
        for peer in peers:
            self.answer_peer(peer, answer, any(it is peer for it in answered))

    def answer_peer(self, peer, answer, is_answered):
        need = peer.need
        if answer.kind == "challenge":
            if not is_answered:
                return self.give_up("challenged-too-often", peer, answer.code)
            need.again(self.now)
            need.retries += 1
            peer.is_shared = False
            return self.say("challenged")
        if answer.kind == "violation":
            need.is_violated = True
            if self.settings.transport == "udp":
                return self.say("wrong-integrity-over-udp")
            return self.give_up("wrong-integrity-over-tcp", peer, 0, "integrity")
        if not answer.is_authentic:
            return self.say("unsigned")
        if answer.kind == "elsewhere":
            return self.say("elsewhere-later")
        if answer.kind == "error":
            return self.refuse_peer(peer, answer)
        return self.grant_peer(peer, need.request)

    def refuse_peer(self, peer, answer):
        # (no further request to a server that refuses the credentials: 7.4)
        if peer.wants_channel and answer.code not in (401, 438):
            peer.wants_channel = False
            peer.need.again(self.now)
            return self.say("channel-refused", f"no-channel:{spelled(peer.endpoint)}")
        if peer.is_shared and answer.code not in (401, 438):
            # (any of the peers may be the reason: each is asked for alone)
            peer.need.again(self.now)
            return self.say("several-refused")
        return self.give_up("peer-refused" if answer.rule == "error" else answer.rule, peer, answer.code)

    def grant_peer(self, peer, request):
        before = peer.permitted_until, peer.bound_until
        peer.permitted_until = request.since + PERMISSION_LIFETIME
        peer.need, peer.is_shared = Need.granted(request.since, PERMISSION_LIFETIME), False
        name = spelled(peer.endpoint)
        if request.kind == "permit":
            word = f"permitted:{name}:{moment(peer.permitted_until)}"
        else:
            peer.bound_until = request.since + CHANNEL_LIFETIME
            word = f"bound:{name}:{peer.number:04x}:{moment(peer.bound_until)}"
        # (nothing changes if it was granted at the same moment before)
        has_changed = before != (peer.permitted_until, peer.bound_until)
        return self.say("permitted" if request.kind == "permit" else "bound", *[word] * has_changed)
