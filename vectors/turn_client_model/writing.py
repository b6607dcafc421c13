"""Rows in the making: their events, the words that they have for an answer by hand, and the names of octets."""
import itertools
from fractions import Fraction

import octets as spoken
import wire
from client import SERVER, moment

SERVER_WORD = "$server:3478"
RELAYED, MAPPED = (bytes([203, 0, 113, 2]), 50000), (bytes([192, 0, 2, 1]), 5001)
RELAYED_SIX = bytes.fromhex("20010db8000000000000000000000001"), 50000
REASONS = {
    300: "Try Alternate", 400: "Bad Request", 401: "Unauthenticated", 403: "Forbidden", 420: "Unknown Attribute",
    437: "Allocation Mismatch", 438: "Stale Nonce", 440: "Address Family not Supported", 441: "Wrong Credentials",
    442: "Unsupported Transport Protocol", 443: "Peer Address Family Mismatch", 486: "Allocation Quota Reached",
    500: "Server Error", 508: "Insufficient Capacity", 600: "No",
}
# Addresses: names of octets, and the octets.
ADDRESSES = {
    "server": SERVER[0], "relayed": RELAYED[0], "mapped": MAPPED[0], "relayed-six": RELAYED_SIX[0],
    "other-server": bytes([203, 0, 113, 9]),
    "a": bytes([198, 51, 100, 7]), "b": bytes([198, 51, 100, 8]), "c": bytes([198, 51, 100, 9]),
    "six": bytes.fromhex("20010db8000000000000000000000017"),
}
NAMES = {}
ROWS = []


def login(nonce, algorithms=None, algorithm="md5", realm=b"example.org"):
    return spoken.Login(realm, nonce, None if algorithms is None else spoken.listed(*algorithms), algorithm)


# What servers ask for: by SHA-256 or MD5 of a list; of MD5 alone; by RFC 5389; and by USERHASH.
BY_SHA256 = login(b"obMatJos2gAAAone", ["sha256", "md5"], "sha256")
BY_MD5 = login(b"obMatJos2gAAAone", ["md5"], "md5")
OF_OLD = login(b"one")
ANONYMOUS = login(b"obMatJos2wAAAone", ["sha256", "md5"], "sha256")
ANONYMOUS_OF_OLD = login(b"obMatJos2QAAAone")
# How each is called in the names of octets, and the nonces after it.
TAGS = {BY_SHA256: "", BY_MD5: "-md5", OF_OLD: "-old", ANONYMOUS: "-hash", ANONYMOUS_OF_OLD: "-hash-old"}


def later(it, word="two"):
    """The same with a later nonce."""
    return spoken.Login(it.realm, it.nonce.removesuffix(b"one") + word.encode(), it.algorithms, it.algorithm)


def named(name, octets):
    """The name of octets: the first that is free, or has them already."""
    letters = itertools.chain("bcdefghijklmnopqrstuvwxyz", itertools.count(27))
    for more in itertools.chain([""], (f"-{it}" for it in letters)):
        if NAMES.setdefault(f"{name}{more}", octets) == octets:
            return f"${name}{more}"
    raise AssertionError("there is no end of names")


def address_word(endpoint):
    """An address and a port, by the name of the address if it has one."""
    address, port = endpoint
    name = next((f"${name}" for name, its in ADDRESSES.items() if its == address), address.hex())
    return f"{name}:{port}"


def peer(name, port=4000):
    return ADDRESSES[name], port


def numbered_peer(number, port=4000):
    return bytes([198, 51, 100, number]), port


class Row:
    """A row: what is asked, and by hand what is answered."""

    def __init__(self, name, section, choice, settings="udp:-:-", by=BY_SHA256):
        transport, family, seconds, *options = settings.split(":")
        tokens = [bytes.fromhex(it.removeprefix("token-")) for it in options if it.startswith("token-")]
        self.port = next(iter(tokens), next((it for it in options if it in spoken.EVEN), None))
        self.whole = "whole" in options
        self.head, self.settings, self.by, self.login = (name, section, choice), settings, by, None
        self.is_stream, self.family = transport == "tcp", None if family == "-" else family
        self.seconds = None if seconds == "-" else int(seconds)
        self.now, self.requests, self.channels = Fraction(0), 0, []
        self.call, self.answer = [], []
        ROWS.append(self)

    def line(self):
        name, section, choice = self.head
        return name, section, choice, f"client {self.settings} {' '.join(self.call)}", " ".join(self.answer)

    # ---- events, with the words of the answer; `-` if none is given

    def event(self, words, *call):
        self.call += call
        self.answer += words or ["-"]
        return self

    def at(self, seconds):
        self.now = max(self.now, Fraction(str(seconds)))
        self.call += ["at", str(seconds)]
        return self

    def allocate(self, *words):
        return self.event(words, "allocate")

    def close(self, *words):
        return self.event(words, "close")

    def poll(self, *words):
        return self.event(words, "poll")

    def wake(self, at):
        return self.event([f"wakes:{at}"], "wake")

    def permit(self, endpoint, *words):
        return self.event(words, "permit", address_word(endpoint))

    def bind(self, endpoint, *words):
        return self.event(words, "bind", address_word(endpoint))

    def drop(self, endpoint, *words):
        return self.event(words, "drop", address_word(endpoint))

    def send(self, endpoint, data, *words):
        return self.event(words or ["dropped"], "send", address_word(endpoint), data.hex() or "-")

    def send_whole(self, endpoint, data, *words):
        return self.event(words or ["dropped"], "send-whole", address_word(endpoint), data.hex() or "-")

    def take(self, name, *words, source=SERVER_WORD):
        """A datagram with octets of this name."""
        return self.event(words, "from", source, name)

    # ---- requests: the word for one that is sent

    def request(self, kind, order, login=False, name=None, **content):
        """The octets of a request: by the login that the client has, if no other is named."""
        login = self.login if login is False else login
        if kind in ("allocate", "refresh"):
            content = {"seconds": self.seconds, **content}
        if kind == "allocate":
            content = {**content, "family": self.family, "port": self.port, "whole": self.whole}
        if "peer" in content:
            content["peers"] = [content.pop("peer")]
        octets = spoken.request(kind, order.to_bytes(12), login, **content)
        tag = TAGS.get(login, "") if login else ""
        return "to-server:" + named(f"{name or kind}-{order}{tag}", octets)

    def asks(self, kind, **content):
        """A poll at which a new request of this kind is sent."""
        self.requests += 1
        return self.poll(self.request(kind, self.requests, **content))

    def repeats(self, kind, order=None, **content):
        """A poll at which a request is sent again."""
        return self.poll(self.request(kind, order or self.requests, **content))

    def asks_to_permit(self, endpoint):
        return self.asks("permit", peer=endpoint)

    def asks_for(self, *endpoints):
        """The same for several peers in one request."""
        return self.asks("permit", peers=endpoints)

    def asks_to_bind(self, endpoint, number=0x4000):
        return self.asks("bind", peer=endpoint, number=number)

    def asks_to_delete(self):
        return self.asks("refresh", seconds=0, name="delete")

    # ---- responses: their octets have a name

    def response(self, name, kind, method, number, parts, signed_by=False, more=b"", **how):
        """A response to a request, signed by the login that the client has, if no other is named."""
        identity = number.to_bytes(12)
        login = self.login if signed_by is False else signed_by
        octets = spoken.message(kind, method, identity, [it(identity) if callable(it) else it for it in parts])
        tag = ""
        if login:
            octets = wire.signed(octets, how.get("key", login.key()), how.get("hash_name", login.hash_name()))
            tag = TAGS.get(login, "")
        if how.get("prints"):
            octets = wire.with_fingerprint(octets)
        return named(f"{name}-{number}{tag}", octets + more)

    def challenge(self, number, by=None, code=401, method="allocate", name=None, parts=(), without=(), **how):
        """A 401 or 438 to a request, unsigned."""
        by = by or self.by
        its = [(wire.ERROR_CODE, error_value(code)), (wire.REALM, by.realm), (wire.NONCE, by.nonce)]
        its += [(wire.ALGORITHMS, by.algorithms)] * (by.algorithms is not None)
        its = [it for it in its if it[0] not in without]
        tag = TAGS.get(by, "")
        signed_by = how.pop("signed_by", None)
        return self.response(f"{name or code}{tag}", "error", method, number, [*its, *parts], signed_by, **how)

    def opening(self, number, seconds=600, relayed=RELAYED, mapped=MAPPED, without=(), parts=(), name="allocated", **how):
        """The success response to an Allocate request."""
        its = [
            (wire.RELAYED, lambda identity: (wire.RELAYED, wire.xor_address(identity, relayed))),
            (wire.LIFETIME, spoken.lifetime(seconds)),
            (wire.MAPPED, lambda identity: (wire.MAPPED, wire.xor_address(identity, mapped))),
        ]
        its = [it for type_, it in its if type_ not in without]
        return self.response(name, "success", "allocate", number, [*its, *parts], **how)

    def success(self, method, number, parts=(), name=None, **how):
        names = {"refresh": "refreshed", "permit": "permitted", "bind": "bound"}
        return self.response(name or names[method], "success", method, number, parts, **how)

    def refreshing(self, number, seconds=600, parts=(), **how):
        return self.success("refresh", number, [spoken.lifetime(seconds), *parts], **how)

    def error(self, method, number, code, parts=(), name=None, **how):
        its = [(wire.ERROR_CODE, error_value(code))] if isinstance(code, int) else code
        unsigned = "-unsigned" if how.get("signed_by", self) is None else ""
        return self.response(f"{name or code}{unsigned}", "error", method, number, [*its, *parts], **how)

    # ---- parts of a session that many rows have

    def begin(self):
        """The first request, unsigned."""
        return self.allocate().asks("allocate")

    def learn(self, by=None):
        """The client knows what the server asks for."""
        self.login = by or self.by
        return self

    def sign(self, by=None):
        """The first request, its 401, and another request, signed."""
        self.begin().take(self.challenge(self.requests, by))
        return self.learn(by).asks("allocate")

    def opened(self, seconds=600, relayed=RELAYED):
        """The word for an allocation."""
        return f"allocated:{address_word(relayed)}:{address_word(MAPPED)}:{moment(self.now + seconds)}"

    def open(self, seconds=600):
        """An allocation."""
        relayed = RELAYED_SIX if self.family == "ipv6" else RELAYED
        self.sign()
        return self.take(self.opening(self.requests, seconds, relayed), self.opened(seconds, relayed))

    def renew(self, seconds=600):
        """A Refresh request, granted at once."""
        self.asks("refresh")
        return self.take(self.refreshing(self.requests, seconds), f"refreshed:{moment(self.now + seconds)}")

    def is_permitted(self, endpoint):
        """The answer to a CreatePermission request at the moment at which it was sent."""
        return self.take(self.success("permit", self.requests), f"permitted:{address_word(endpoint)}:{moment(self.now + 300)}")

    def are_permitted(self, *endpoints, number=None):
        """The answer to one for several peers, in the order in which they were named by the user."""
        words = [f"permitted:{address_word(it)}:{moment(self.now + 300)}" for it in endpoints]
        return self.take(self.success("permit", number or self.requests), *words)

    def is_bound(self, endpoint, number=0x4000):
        word = f"bound:{address_word(endpoint)}:{number:04x}:{moment(self.now + 600)}"
        return self.take(self.success("bind", self.requests), word)

    def permission(self, endpoint):
        """A permission, granted at once."""
        return self.permit(endpoint).asks_to_permit(endpoint).is_permitted(endpoint)

    def channel(self, endpoint, number=0x4000):
        return self.bind(endpoint).asks_to_bind(endpoint, number).is_bound(endpoint, number)

    # ---- data

    def to_peer(self, endpoint, data, name="send", whole=False):
        """The word for a Send indication."""
        return f"to-server:{named(name, spoken.send_indication(endpoint, data, whole))}"

    def on_channel(self, number, data, name="channel-data"):
        """The word for a ChannelData message."""
        return f"to-server:{named(name, spoken.channel_data(number, data, self.is_stream))}"

    def data_indication(self, endpoint, data, name="data", without=(), parts=(), method="data", prints=False, more=b""):
        identity = (9).to_bytes(12)
        its = [(wire.PEER, wire.xor_address(identity, endpoint)), (wire.DATA, data)]
        octets = spoken.message("indication", method, identity, [it for it in its if it[0] not in without] + list(parts))
        octets = wire.with_fingerprint(octets) if prints else octets
        return named(name, octets + more)

    def channel_octets(self, number, data, name, octets=None):
        return named(name, spoken.channel_data(number, data, self.is_stream) if octets is None else octets)


def error_value(code):
    return bytes([0, 0, code // 100, code % 100]) + REASONS.get(code, "").encode()


def reports(endpoint, kind, code, data):
    return f"icmp:{address_word(endpoint)}:{kind}:{code}:{data}"


def shows(endpoint, data):
    return f"data:{address_word(endpoint)}:{data.hex() or '-'}"
