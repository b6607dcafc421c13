"""What a TURN server keeps, and does with an event whose octets are judged (RFC 8656, sections 5 to 12).

It shares no code with the library. An address is its four or sixteen octets, an endpoint an address
and a port, a moment a fraction of seconds. An allocation is the one or two relayed addresses of a
5-tuple, at most one of each family. Each rule that decides an event is noted by its name in
`Server.fired`; RULES has the names, in the order of the rules.
"""
import ipaddress
from dataclasses import dataclass, field
from fractions import Fraction

# Each rule, with its section of RFC 8656 (of RFC 8489 after a colon).
RULES = {
    # a datagram of a client
    "channel-data": "12.6", "no-message": ":5", "no-request-of-turn": ":6.3", "binding": ":6.3.1",
    "cut-channel-data": "12.6", "data-without-allocation": "5", "unbound-channel": "12.6",
    "channel-to-a-forbidden-peer": "9", "data-without-permission": "11.2", "data-to-a-forbidden-peer": "9",
    "no-df-bit": "11.2", "data-to-peer": "11.2", "channel-to-peer": "12.6", "unfit-send": "11.2",
    # a request of TURN
    "unsigned": ":9.2.4", "credentials-missing": ":9.2.4", "credentials-wrong": ":9.2.4",
    "unknown-types": ":6.3.1", "no-allocation": "5", "other-user": "5", "allocate-again": "7.2",
    "allocate-in-use": "7.2", "tunnel": "21.4", "transport": "7.2", "conflict": "7.2",
    "unknown-family": "7.2", "family": "7.2", "quota": "7.2", "no-room": "7.2", "no-socket-ready": "7.2",
    "allocated": "7.2", "allocated-both": "7.2", "one-of-two": "18.12",
    "no-pair-ready": "7.2", "reservations-of-a-user": "7.2", "no-room-for-a-reservation": "7.2",
    "token-in-use": "18.10", "reserved": "7.2", "reserve-again": "7.2", "unknown-token": "7.2", "token-of-another-user": "7.2",
    "claimed": "7.2", "redirected": "7.2",
    "unfit-refresh": "8.2", "refreshed": "8.2", "ended": "8.2",
    "unfit-permission": "10.2", "too-many-peers": "10.2", "permission-refused": "10.2", "permitted": "10.2",
    "unfit-channel": "12.2", "channel-taken": "12.2", "channel-refused": "12.2", "bound": "12.2",
    # a datagram of a peer, and ICMP
    "no-socket": "11.3", "peer-without-permission": "9", "forbidden-peer": "9", "peer-on-channel": "12.7",
    "peer-data": "11.3", "too-long": "11.3", "icmp-off": "11.5", "icmp-of-another-type": "11.5",
    "icmp-without-permission": "11.5", "icmp": "11.5",
    # a channel that is relayed both ways
    "flow-by-allocation": "6", "flow-by-channel": "12", "flow-by-permission": "9", "flow-unpermitted": "9",
    "flow-unbound": "12",
    # the IP header of data that is relayed
    "header-within-ipv4": "14", "header-translated": "13", "no-hop-left": "13.2", "header-after-tcp": "15",
    # time, and the caller
    "expired": "6", "reservation-over": "7.2", "polled": "6", "ended-by-the-caller": "6", "user-ended": "6",
}
DEFAULT_LIFETIME, PERMISSION_LIFETIME, CHANNEL_LIFETIME = 600, 300, 600
# How long a port is reserved: the least that the RFC permits (7.2).
RESERVATION_LIFETIME = 30
PERMISSIONS, CHANNELS = 4, 3
# The types of ICMP packets that are relayed, by their family (11.5).
ICMP_TYPES = {4: {3, 11}, 6: {1, 2, 3}}
SERVER = (bytes([203, 0, 113, 1]), 3478)
# Addresses that no peer may have, without those that the caller adds.
FORBIDDEN = [*map(ipaddress.ip_network, """
    0.0.0.0/8 10.0.0.0/8 100.64.0.0/10 127.0.0.0/8 169.254.0.0/16 172.16.0.0/12 192.0.0.0/24
    192.88.99.0/24 192.168.0.0/16 198.18.0.0/15 224.0.0.0/4 240.0.0.0/4
    ::/96 ::ffff:0:0/96 ::ffff:0:0:0/96 64:ff9b::/96 64:ff9b:1::/48 2001::/23 2002::/16 5f00::/16
    fc00::/7 fe80::/10 fec0::/10 ff00::/8
""".split())]
# Teredo and 6to4 (21.4).
TUNNELS = [ipaddress.ip_network("2001::/32"), ipaddress.ip_network("2002::/16")]


@dataclass(frozen=True)
class Tuple:
    """A 5-tuple: its name, the client's address and port, and whether its transport is a stream."""
    name: str
    client: tuple
    streams: bool = False


def tuples():
    """The 5-tuples by their names, as the heads of the files have them."""
    v4, other, v6 = bytes([192, 0, 2, 1]), bytes([192, 0, 2, 2]), ipaddress.ip_address("2001:db8::6").packed
    tunnels = [ipaddress.ip_address(it).packed for it in ("2002:c000:201::7", "2001:0:c000:201::8")]
    clients = [(v4, 5001), (v4, 5002), (other, 5001), (v4, 5001), (v4, 5001), (v6, 5001)]
    clients += [(it, 5001) for it in tunnels]
    return {str(at): Tuple(str(at), it, at == 5) for at, it in enumerate(clients, 1)}


@dataclass
class Setup:
    """How many relayed addresses there may be, and of a user; the greatest lifetime; and options."""
    relays: int
    relays_per_user: int
    greatest: int
    options: frozenset

    @staticmethod
    def read(word):
        relays, relays_per_user, greatest, *options = word.split(":")
        return Setup(int(relays), int(relays_per_user), int(greatest), frozenset(options))

    def is_channel(self, number):
        """Whether a client may bind it (12); RFC 5766 had 0x4000 to 0x7FFF."""
        return 0x4000 <= number <= (0x7FFF if "old-channels" in self.options else 0x4FFF)

    def has_family(self, family):
        return f"ipv{10 - family}-only" not in self.options

    def has_socket(self, family):
        return not {"no-sockets", f"no-ipv{family}-sockets"} & self.options

    def has_pair(self, family):
        """Whether the server has two sockets of a family ready, an even port and the next."""
        return self.has_socket(family) and "no-pairs" not in self.options

    def reservations(self):
        """How many ports are reserved at most."""
        return next((int(it.split("-")[1]) for it in self.options if it.startswith("reserves-")), 0)

    def alternate(self, family):
        """The address and port of another server for clients of a family, or None."""
        options = (it.split("-") for it in self.options if it.startswith("alternate-"))
        servers = ((bytes.fromhex(address), int(port)) for _, address, port in options)
        return next((it for it in servers if family_of(it[0]) == family), None)

    def permission_of_a_channel(self):
        """How long it lasts: 300 seconds (9), or as long as the channel, which departs from the RFC."""
        return CHANNEL_LIFETIME if "channel-permits" in self.options else PERMISSION_LIFETIME


@dataclass
class Relay:
    """A relayed address."""
    number: int
    tuple: Tuple
    user: str
    transaction_id: str
    family: int
    end: Fraction
    permissions: dict = field(default_factory=dict)  # the end of each, by its address
    channels: dict = field(default_factory=dict)  # endpoint and end of each, by its number


@dataclass(frozen=True)
class Reservation:
    """A reserved port: its token, the number of its socket, who reserved it by which request, and its end."""
    token: str
    number: int
    tuple: Tuple
    user: str
    made_by: str
    family: int
    end: Fraction


@dataclass(frozen=True)
class Refusal:
    """The code of a request that gets no further, and the rule that says so."""
    code: int
    rule: str


def family_of(address):
    return 4 if len(address) == 4 else 6


def within(address, networks):
    plain = ipaddress.ip_address(address)
    return any(plain in it for it in networks if it.version == plain.version)


def is_allowed(address, denied=()):
    """Whether a client may exchange data with this address."""
    return not within(address, FORBIDDEN) and address not in denied


def is_open(peer, denied=()):
    """Whether a client may send to it. A port of 0 stands for any port."""
    return is_allowed(peer[0], denied) and peer != SERVER


def greatest_datagram(family):
    """How many octets of data a UDP datagram takes: 65,535 without its own header and that of IPv4."""
    return 65_507 if family == 4 else 65_527


class Server:
    """Its state, and what it does with each event. Outputs are words, as the files have them."""

    def __init__(self, setup):
        self.setup, self.now, self.fired, self.denied = setup, Fraction(0), [], frozenset()
        self.relays, self.opened = [], 0  # those that have not expired, and how many there ever were
        self.closed = []  # the numbers of the sockets that this event closes
        self.reservations, self.over = [], []  # those that hold, and the tokens of those that are over now
        self.ports = {}  # of each socket, by its number
        self.moment = Fraction(0)  # that of the last event

    def note(self, rule, output):
        assert rule in RULES, rule
        self.fired.append(rule)
        return output

    def at(self, moment):
        self.now = max(self.now, moment)

    def begin(self):
        """An event begins: what has expired ends before it counts (6)."""
        self.closed, self.moment = [], self.now
        if self.end(lambda it: it.end <= self.now):
            self.fired.append("expired")
        self.over = [it.token for it in self.reservations if it.end <= self.now]
        self.reservations = [it for it in self.reservations if self.now < it.end]
        if self.over:
            self.fired.append("reservation-over")

    def end(self, test):
        """Ends the relayed addresses that pass a test; whether there are any. Their sockets are closed."""
        ended = [it for it in self.relays if test(it)]
        self.relays = [it for it in self.relays if it not in ended]
        self.closed += [it.number for it in ended]
        return ended

    # what there is

    def of(self, client):
        return [it for it in self.relays if it.tuple == client]

    def relay_for(self, client, family):
        return next((it for it in self.of(client) if it.family == family), None)

    def at_socket(self, number):
        return next((it for it in self.relays if it.number == number), None)

    def address_of(self, number, family):
        """The address of a socket: of two that one request opens both have one port."""
        host = SERVER[0] if family == 4 else ipaddress.ip_address("2001:db8::1").packed
        return host, self.ports[number]

    def permissions_of(self, its):
        return {address for address, end in its.permissions.items() if self.now < end}

    def channels_of(self, its):
        return {number: peer for number, (peer, end) in its.channels.items() if self.now < end}

    # requests

    def refused(self, refusal):
        return self.note(refusal.rule, str(refusal.code))

    def allocate(self, client, user, identity, lifetime, wish):
        """`wish` is what each relayed address is wanted of, as pairs of a family and whether the server has such
        a socket; or a Refusal by the octets alone."""
        if answer := self.not_opened(client, user, identity, wish):
            return answer
        offered = self.offered(wish)
        if not any(ready for _, ready in offered):
            return self.note("no-socket-ready", "508")
        granted, port = self.granted(lifetime), 50_002 + 2 * self.opened
        for family, ready in offered:
            if ready and self.has_quota(user) and self.has_room():
                self.opened += 1
                self.ports[self.opened] = port
                self.relays.append(Relay(self.opened, client, user, identity, family, self.now + granted))
        rules = {(1, 1): "allocated", (2, 2): "allocated-both", (2, 1): "one-of-two"}
        return self.note(rules[len(wish), len(self.of(client))], self.allocated(client, granted, wish))

    def reserve(self, client, user, identity, lifetime, wish, token):
        """An Allocate request for an even port and a reservation of the next, EVEN-PORT's R being 1 (8th check).
        `wish` says of one family whether there is such a pair; `token` is what the server draws for it."""
        if answer := self.not_opened(client, user, identity, wish):
            made = client, user, identity
            its = next((it for it in self.reservations if (it.tuple, it.user, it.made_by) == made), None)
            if answer.startswith("allocated") and its:
                return self.note("reserve-again", f"{answer}:token:{its.token}")
            return answer
        [(family, is_ready)] = wish
        if not is_ready:
            return self.note("no-pair-ready", "508")
        if sum(it.user == user for it in self.reservations) >= self.setup.relays_per_user:
            return self.note("reservations-of-a-user", "508")
        if len(self.reservations) >= self.setup.reservations():
            return self.note("no-room-for-a-reservation", "508")
        if any(it.token == token for it in self.reservations):
            return self.note("token-in-use", "508")
        granted, number = self.granted(lifetime), self.opened + 1
        self.opened += 2
        self.ports |= {number: 50_000 + 2 * number, number + 1: 50_001 + 2 * number}
        self.relays.append(Relay(number, client, user, identity, family, self.now + granted))
        end = self.now + RESERVATION_LIFETIME
        self.reservations.insert(0, Reservation(token, number + 1, client, user, identity, family, end))
        return self.note("reserved", f"{self.allocated(client, granted, wish)}:token:{token}")

    def claim(self, client, user, identity, lifetime, token):
        """An Allocate request with a RESERVATION-TOKEN (5th check). The token decides the family."""
        if answer := self.not_opened(client, user, identity, []):
            return answer
        held = [it for it in self.reservations if it.token == token]
        its = next((it for it in held if it.user == user), None)
        if its is None:
            return self.note("token-of-another-user" if held else "unknown-token", "508")
        self.reservations.remove(its)
        granted = self.granted(lifetime)
        self.relays.append(Relay(its.number, client, user, identity, its.family, self.now + granted))
        return self.note("claimed", self.allocated(client, granted, []))

    def not_opened(self, client, user, identity, wish):
        """The answer to an Allocate request that opens nothing, whichever sockets there are; or None."""
        there = self.of(client)
        if there and not isinstance(wish, Refusal) and (there[0].user, there[0].transaction_id) == (user, identity):
            left = int(min(it.end for it in there) - self.now)
            return self.note("allocate-again", self.allocated(client, left, wish))
        if there:
            return self.note("allocate-in-use", "437")
        if within(client.client[0], TUNNELS):
            return self.note("tunnel", "403")
        if isinstance(wish, Refusal):
            return self.refused(wish)
        if wish and not self.offered(wish):
            return self.note("family", "440")
        if not self.has_quota(user):
            return self.note("quota", "486")
        if not self.has_room():
            return self.note("no-room", "508")
        return None

    def offered(self, wish):
        return [(family, ready) for family, ready in wish if self.setup.has_family(family)]

    def granted(self, lifetime):
        return max(DEFAULT_LIFETIME, min(lifetime or 0, self.setup.greatest))

    def has_quota(self, user):
        return sum(it.user == user for it in self.relays) < self.setup.relays_per_user

    def has_room(self):
        return len(self.relays) < self.setup.relays

    def allocated(self, client, lifetime, wish):
        """What a client has, and each family that it asked for and has no address of, with the code (18.12)."""
        there = {it.family: it.number for it in self.of(client)}
        missing = [f"{it}-{508 if self.setup.has_family(it) else 440}" for it, _ in wish if it not in there]
        numbers = ",".join(str(there[it]) for it in sorted(there))
        return ":".join(["allocated", numbers, str(lifetime), *missing])

    def owned(self, client, user):
        """The user's relayed addresses, or the refusal of any request but Allocate."""
        there = self.of(client)
        if not there:
            return None, self.note("no-allocation", "437")
        return (there, None) if there[0].user == user else (None, self.note("other-user", "441"))

    def unfit(self, client, user, refusal):
        """A request other than Allocate that its octets make unfit."""
        _, fault = self.owned(client, user)
        return fault or self.refused(refusal)

    def refresh(self, client, user, lifetime, family):
        all_, fault = self.owned(client, user)
        if fault:
            return fault
        wanted = [it for it in all_ if family in (None, it.family)]
        if not wanted:
            return self.note("unfit-refresh", "443")
        if lifetime == 0:
            self.end(lambda it: it in wanted)
            return self.note("ended", "refreshed:0")
        granted = self.granted(lifetime)
        for its in wanted:
            its.end = self.now + granted
        return self.note("refreshed", f"refreshed:{granted}")

    def peers_fault(self, all_, peers, is_fit):
        """Why these peers are refused: their family, the rules of peers, or no room for all of them."""
        families = {it.family: it for it in all_}
        if any(family_of(address) not in families for address, _ in peers):
            return "443"
        if not all(is_fit(it) for it in peers):
            return "403"
        for family, its in families.items():
            named = {address for address, _ in peers if family_of(address) == family}
            if named and len(self.permissions_of(its) | named) > PERMISSIONS:
                return "508"
        return None

    def grant(self, all_, peers, lifetime):
        for its in all_:
            named = {address for address, _ in peers if family_of(address) == its.family}
            its.permissions |= {address: self.now + lifetime for address in named}
            its.permissions = {it: end for it, end in its.permissions.items() if self.now < end}

    def permit(self, client, user, peers):
        all_, fault = self.owned(client, user)
        if fault:
            return fault
        if fault := self.peers_fault(all_, peers, lambda it: is_allowed(it[0], self.denied)):
            return self.note("permission-refused", fault)
        self.grant(all_, peers, PERMISSION_LIFETIME)
        return self.note("permitted", "permitted")

    def bind(self, client, user, number, peer):
        all_, fault = self.owned(client, user)
        if fault:
            return fault
        if not self.setup.is_channel(number):
            return self.note("unfit-channel", "400")
        bound = {it: at for its in all_ for it, at in self.channels_of(its).items()}
        if bound.get(number, peer) != peer or any(at == peer and it != number for it, at in bound.items()):
            return self.note("channel-taken", "400")
        fault = self.peers_fault(all_, [peer], lambda it: is_open(it, self.denied))
        its = self.relay_for(client, family_of(peer[0]))
        if not fault and len({*self.channels_of(its), number}) > CHANNELS:
            fault = "508"
        if fault:
            return self.note("channel-refused", fault)
        self.grant(all_, [peer], self.setup.permission_of_a_channel())
        its.channels = {it: its.channels[it] for it in self.channels_of(its)}
        its.channels[number] = peer, self.now + CHANNEL_LIFETIME
        return self.note("bound", "bound")

    # data

    def to_peer(self, its, peer, data, rule, flag=""):
        if len(data) > greatest_datagram(its.family):
            return self.note("too-long", "dropped")
        return self.note(rule, f"to-peer:{its.number}:{spelled(peer)}:{hexed(data)}{flag}")

    def send(self, client, peer, data, dont_fragment=False):
        """A Send indication: it needs a permission (11.2)."""
        its = self.relay_for(client, family_of(peer[0]))
        if not its:
            return self.note("data-without-allocation", "dropped")
        if peer[0] not in self.permissions_of(its):
            return self.note("data-without-permission", "dropped")
        if not is_open(peer, self.denied):
            return self.note("data-to-a-forbidden-peer", "dropped")
        if dont_fragment and "dont-fragment" not in self.setup.options:
            return self.note("no-df-bit", "dropped")
        return self.to_peer(its, peer, data, "data-to-peer", ":dont-fragment" if dont_fragment else "")

    def channel(self, client, number, data):
        """A ChannelData message: it needs its channel, and no permission (12.6)."""
        if not self.of(client):
            return self.note("data-without-allocation", "dropped")
        for its in self.of(client):
            if peer := self.channels_of(its).get(number):
                if not is_open(peer, self.denied):
                    return self.note("channel-to-a-forbidden-peer", "dropped")
                return self.to_peer(its, peer, data, "channel-to-peer")
        return self.note("unbound-channel", "dropped")

    def arrive(self, number, peer, data):
        """A peer's datagram: it needs a permission, also if a channel is bound to the peer (9, 11.3)."""
        its = self.at_socket(number)
        if not its:
            return self.note("no-socket", "dropped")
        if peer[0] not in self.permissions_of(its):
            return self.note("peer-without-permission", "dropped")
        if not is_allowed(peer[0], self.denied):
            return self.note("forbidden-peer", "dropped")
        bound = next((it for it, at in self.channels_of(its).items() if at == peer), None)
        padded = -(-len(data) // 4) * 4
        if bound is None:
            length = 20 + (12 if len(peer[0]) == 4 else 24) + 4 + padded
        else:
            length = 4 + (padded if its.tuple.streams else len(data))
        most = 20 + 65_535 if its.tuple.streams else greatest_datagram(family_of(its.tuple.client[0]))
        if length > most:
            return self.note("too-long", "dropped")
        if bound is None:
            return self.note("peer-data", f"data:{its.tuple.name}:{spelled(peer)}:{hexed(data)}")
        return self.note("peer-on-channel", f"channel:{its.tuple.name}:{bound:04x}:{hexed(data)}")

    def icmp(self, number, peer, type_, code, mtu):
        """An ICMP packet about a datagram that a socket sent to a peer (11.5). The address of the packet itself
        doesn't matter."""
        its = self.at_socket(number)
        if not its:
            return self.note("no-socket", "dropped")
        if "icmp" not in self.setup.options:
            return self.note("icmp-off", "dropped")
        if type_ not in ICMP_TYPES[family_of(peer[0])]:
            return self.note("icmp-of-another-type", "dropped")
        if peer[0] not in self.permissions_of(its) or not is_allowed(peer[0], self.denied):
            return self.note("icmp-without-permission", "dropped")
        return self.note("icmp", f"icmp:{its.tuple.name}:{spelled(peer)}:{type_}:{code}:{mtu}")

    def flow(self, client, number):
        """The socket and the peer of a channel whose data is relayed both ways at the moment of the last event, and
        until when: the client's data needs the channel (12.6), the peer's the permission too (9)."""
        for its in self.of(client):
            peer, end = its.channels.get(number, (None, 0))
            if end <= self.moment:
                continue
            permitted = its.permissions.get(peer[0], 0)
            if permitted <= self.moment:
                return self.note("flow-unpermitted", "no-flow")
            ends = [(its.end, "allocation"), (end, "channel"), (permitted, "permission")]
            first, name = min(ends)
            whole, part = divmod(int(first * 10**9), 10**9)
            return self.note(f"flow-by-{name}", f"flow:{its.number}:{spelled(peer)}:{whole}.{part:09}")
        return self.note("flow-unbound", "no-flow")

    # time, and the caller

    def poll(self):
        return self.note("polled", None)

    def end_socket(self, number):
        self.end(lambda it: it.number == number)
        return self.note("ended-by-the-caller", None)

    def end_user(self, user):
        self.end(lambda it: it.user == user)
        return self.note("user-ended", None)

    def words(self, output):
        """The words of an event with this output, or with none; then which sockets are closed, and which tokens
        are over."""
        numbers, tokens = ",".join(map(str, sorted(self.closed))), ",".join(sorted(self.over))
        over = [f"over:{tokens}"] if tokens else []
        if output is None:
            return [f"closed:{numbers or '-'}", *over]
        return [output, *([f"closed:{numbers}"] if numbers else []), *over]


def spelled(peer):
    return f"{peer[0].hex()}:{peer[1]}"


def hexed(octets):
    return octets.hex() or "-"
