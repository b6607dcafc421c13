"""A row's events as requests and datagrams to coturn, and what comes of them as the words of the files."""
import ipaddress
import itertools
import time

import judging
import wire
from place import CHANNEL, PERMISSION, Place

# How much later than its lifetime coturn may end a permission or a channel; how long the events of a
# moment may take; and how near to its end, as a part of it, the last moment of a lifetime is at best.
LATE, SPENT, NEAR = 2.0, 1.5, (0.75, 0.5, 0.25, 0)
# How long after a Refresh with 0 coturn keeps an allocation.
KEPT = 2.0
WISHES = {
    "4": [(wire.TRANSPORT, "11000000")], "6": [(wire.TRANSPORT, "11000000"), (wire.FAMILY, "02000000")],
    "442": [(wire.TRANSPORT, "06000000")], "440": [(wire.TRANSPORT, "11000000"), (wire.FAMILY, "03000000")],
    "46": [(wire.TRANSPORT, "11000000"), (wire.ADDITIONAL, "02000000")],
    "400": [], "508": [(wire.TRANSPORT, "11000000"), (wire.TOKEN, "00" * 8)],
}


class TooSlow(Exception):
    """The moments of a row are too near to each other here, or its events took too long."""


def schedule(moments, has_channels):
    """The real second for each moment, so that what is over in the row is over here, and what isn't isn't."""
    lifetimes = [(300, PERMISSION), (600, CHANNEL)][: 1 + has_channels]
    return next(filter(None, (laid_out(moments, lifetimes, near) for near in NEAR)), None)


def laid_out(moments, lifetimes, near):
    """The same, the last moment of a lifetime as near to its end as this part of it; None if that can't be."""
    real = {it: 0.0 for it in moments}
    for _ in range(4 * len(moments) + 4):
        before = dict(real)
        for one, other in itertools.combinations(moments, 2):
            apart, least = float(other - one), 0.0
            for lifetime, lasts in lifetimes:
                if apart >= lifetime:
                    least = max(least, lasts + LATE)
                else:
                    least = max(least, near * lasts * apart / lifetime)
                    real[one] = max(real[one], real[other] - lasts + SPENT)
            real[other] = max(real[other], real[one] + least)
        if real == before:
            return real
    return None


class Session:
    """A client of coturn, in a place; the answer to each event is a word."""

    def __init__(self, place: Place, level, patient):
        self.place, self.level, self.identities, self.patient = place, level, itertools.count(1000), patient
        # (coturn draws the tokens: its own, by those that the row has; and the next one of these)
        self.tokens, self.drawn = {}, judging.Site.drawn

    # messages

    def keys(self, name):
        return wire.long_term_key(name, judging.REALM, judging.USERS.get(name, b""), "md5")

    def nonce(self, name):
        """The nonce of a 5-tuple: that of the last challenge."""
        if name not in self.place.nonces:
            identity = next(self.identities).to_bytes(12)
            self.place.send(name, wire.assemble("request", 3, identity, [wire.attribute(wire.TRANSPORT, b"\x11\0\0\0")]))
            self.response(name, identity)
        return self.place.nonces.get(name, b"none")

    def response(self, name, identity):
        """The response with this transaction ID, or None; its nonce is that of the moment."""
        until = time.monotonic() + 1
        while time.monotonic() < until:
            found = self.place.received(until - time.monotonic())
            message = found and found[0] == name and wire.read(found[1])
            if message and message.identity == identity and message.kind in ("success", "error"):
                if message.get(wire.NONCE) is not None:
                    self.place.nonces[name] = message.get(wire.NONCE)
                return message
        return None

    def request(self, name, user, method, attributes, identity=None):
        """The response to a signed request, which is sent once more if its nonce is stale."""
        identity = identity or next(self.identities).to_bytes(12)
        for _ in range(2):
            parts = [*attributes(identity), (wire.USERNAME, user.encode()), (wire.REALM, judging.REALM)]
            parts.append((wire.NONCE, self.nonce(name)))
            octets = wire.assemble("request", wire.METHODS[method], identity, [wire.attribute(*it) for it in parts])
            self.place.send(name, wire.signed(octets, self.keys(user.encode()), "sha1"))
            response = self.response(name, identity)
            if response is None or self.code(response) != "438":
                break
        return self.word(name, user.encode(), response)

    @staticmethod
    def code(message):
        value = message.get(wire.ERROR_CODE)
        return "ok" if message.kind == "success" else str((value[2] & 7) * 100 + value[3]) if value else "no-code"

    def socket_number(self, peer):
        if peer not in self.place.relayed:
            self.place.relayed.append(peer)
        return self.place.relayed.index(peer) + 1

    def token_word(self, token, relayed):
        """A token of coturn as the row has it. One that is new reserves the port after a relayed address."""
        known = next((it for it, its in self.tokens.items() if its == token), None)
        if known is None:
            known = self.drawn
            self.tokens[known] = token
            self.socket_number((relayed[0], relayed[1] + 1))
        return f"token:{known}"

    def word(self, name, user, message):
        """A response as the files have it, of whichever level."""
        if message is None:
            return "dropped"
        parts, its = [self.code(message)], lambda type_: message.get(type_)
        if its(wire.LIFETIME) == bytes(4) and self.patient:
            time.sleep(KEPT)
        if its(wire.LIFETIME) is not None:
            parts.append(f"lifetime-{int.from_bytes(its(wire.LIFETIME))}")
        relayed = [wire.read_xor_address(message.identity, it) for it in message.all(wire.RELAYED)]
        parts += [f"relayed{4 if len(it[0]) == 4 else 6}-{self.socket_number(it)}" for it in relayed]
        if its(wire.TOKEN) is not None:
            parts.append(self.token_word(its(wire.TOKEN), relayed[0]))
        if its(wire.MAPPED) is not None:
            host, port = self.place.client(name)[0].getsockname()[:2]
            mapped = wire.read_xor_address(message.identity, its(wire.MAPPED))
            parts.append("mapped" if mapped == (ipaddress.ip_address(host).packed, port) else f"mapped-{mapped}")
        for value in message.all(wire.FAMILY_ERROR):
            family = {1: 4, 2: 6}.get(value[0], value[0])
            parts.append(f"missing{family}-{(value[2] & 7) * 100 + value[3]}")
        if its(wire.UNKNOWN) is not None:
            parts.append("types-" + its(wire.UNKNOWN).hex("-", 2))
        nonce, listed = its(wire.NONCE), its(wire.ALGORITHMS) is not None
        if its(wire.REALM) == judging.REALM and nonce is not None and judging.promises_list(nonce) == listed:
            parts.append("challenge")
        signed = wire.verified(message, self.keys(user))
        parts.append({"-": "unsigned", None: "signed-wrongly"}.get(signed, signed))
        parts += ["fingerprint"] * (its(wire.FINGERPRINT) is not None)
        return ":".join(parts) if self.level == "datagrams" else self.short(message, parts)

    @staticmethod
    def short(message, parts):
        """The word of the file `turn`."""
        if parts[0] != "ok":
            return parts[0]
        number = [",".join(sorted(it.split("-")[1] for it in parts if it.startswith("relayed")))]
        lifetime = [it.split("-")[1] for it in parts if it.startswith("lifetime")]
        name = {3: "allocated", 4: "refreshed", 8: "permitted", 9: "bound"}[message.method]
        missing = [it.removeprefix("missing") for it in parts if it.startswith("missing")]
        token = [it for it in parts if it.startswith("token:")]
        return ":".join([name, *filter(None, number), *lifetime, *missing, *token])

    # what is relayed

    def relayed(self):
        """What comes next, at a peer or at a client."""
        found = self.place.received()
        if found is None:
            return "dropped"
        name, octets, source = found
        if name[0] == "peer":
            relay = ipaddress.ip_address(source[0]).packed, source[1]
            number = self.place.relayed.index(relay) + 1 if relay in self.place.relayed else "?"
            return f"to-peer:{number}:{self.place.spelled(*name[1:])}:{octets.hex() or '-'}"
        if octets and octets[0] >= 0x40:
            if self.level == "datagrams":
                return f"channel-data:{name}:{octets.hex()}"
            length = int.from_bytes(octets[2:4])
            return f"channel:{name}:{octets[:2].hex()}:{octets[4 : 4 + length].hex() or '-'}"
        message = wire.read(octets)
        peer = message and wire.read_xor_address(message.identity, message.get(wire.PEER))
        if not peer or message.get(wire.DATA) is None:
            return f"octets:{name}:{octets.hex()}"
        spelled = self.place.spelled(str(ipaddress.ip_address(peer[0])), peer[1])
        return f"data:{name}:{spelled}:{message.get(wire.DATA).hex() or '-'}"

    def arrive(self, number, peer, data):
        if number > len(self.place.relayed):
            return "no-socket"
        relay = self.place.relayed[number - 1]
        self.place.peer(peer).sendto(data, (str(ipaddress.ip_address(relay[0])), relay[1]))
        return self.relayed()

    # events of the file `turn`

    def peers(self, peers):
        real = [(ipaddress.ip_address(host).packed, port) for host, port in map(self.place.real, peers)]
        return lambda identity: [(wire.PEER, wire.xor_address(identity, it)) for it in real]

    def reserve(self, name, user, identity, token, lifetime, wish):
        self.drawn = token
        return self.allocate(name, user, identity, lifetime, "4" if wish == "508" else wish, (wire.EVEN_PORT, b"\x80"))

    def claim(self, name, user, identity, token, lifetime):
        return self.allocate(name, user, identity, lifetime, "4", (wire.TOKEN, self.own(bytes.fromhex(token))))

    def own(self, token):
        """The token of coturn for one of the row, or this one if there is none."""
        return self.tokens.get(token.hex(), token)

    def allocate(self, name, user, identity, lifetime, wish, *more):
        parts = [*((type_, bytes.fromhex(value)) for type_, value in WISHES[wish]), *more]
        parts += [(wire.LIFETIME, lifetime.to_bytes(4))] if lifetime is not None else []
        return self.request(name, user, "allocate", lambda _: parts, int(identity).to_bytes(12))

    def refresh(self, name, user, lifetime, family):
        parts = [(wire.LIFETIME, lifetime.to_bytes(4))] if lifetime is not None else []
        parts += [(wire.FAMILY, bytes([1 if family == 4 else 2, 0, 0, 0]))] if family is not None else []
        return self.request(name, user, "refresh", lambda _: parts)

    def permit(self, name, user, peers):
        return self.request(name, user, "permit", self.peers(peers))

    def bind(self, name, user, number, peer):
        more = self.peers([peer])
        return self.request(
            name, user, "bind", lambda it: [(wire.CHANNEL_NUMBER, number.to_bytes(2) + b"\0\0"), *more(it)]
        )

    def unfit(self, name, user, method):
        """A request whose octets are unfit: a LIFETIME of three octets, or no peer."""
        return self.request(name, user, method, lambda _: [(wire.LIFETIME, bytes(3))] * (method == "refresh"))

    def send_indication(self, name, peer, data):
        identity = next(self.identities).to_bytes(12)
        parts = [*self.peers([peer])(identity), (wire.DATA, data)]
        self.place.send(name, wire.assemble("indication", 6, identity, [wire.attribute(*it) for it in parts]))
        return self.relayed()

    def channel(self, name, number, data):
        padding = bytes(-len(data) % 4) if name == "5" else b""
        self.place.send(name, number.to_bytes(2) + len(data).to_bytes(2) + data + padding)
        return self.relayed()

    # events of the file `turn-server`

    def rebuilt(self, name, octets):
        """A message with the nonce of coturn, the addresses of the loopback, and HMAC and checksum anew."""
        found = None
        if 20 <= len(octets) == 20 + int.from_bytes(octets[2:4]) and octets[0] < 0x40 and octets[4:8] == wire.COOKIE:
            found = wire.attributes_of(octets)
        if found is None:
            return octets, b""
        values = {type_: value for _, type_, value in reversed(found)}
        user = values.get(wire.USERNAME, b"")
        made = octets[:2] + b"\0\0" + octets[4:20]
        for at, type_, value in found:
            if type_ == wire.PEER:
                value = self.place.replaced(value, octets[8:20])
            elif type_ == wire.TOKEN:
                value = self.own(value)
            elif type_ == wire.NONCE and value == judging.FRESH:
                value = self.nonce(name)
            elif type_ == wire.INTEGRITY and any(value):
                right = wire.integrity(self.keys(user), octets[:at], "sha1") == value
                value = wire.integrity(self.keys(user) if right else b"wrong", made, "sha1")
            elif type_ == wire.FINGERPRINT:
                right = wire.checksum(octets[:at]) == value
                value = wire.checksum(made) if right else bytes(4)
            made = wire.with_more(made, wire.attribute(type_, value))
        return made, user

    def datagram(self, name, octets):
        answer = "dropped"
        for _ in range(2):
            made, user = self.rebuilt(name, octets)
            self.place.send(name, made)
            message = wire.read(made)
            if not message or message.kind != "request":
                return self.relayed()
            answer = self.word(name, user, self.response(name, message.identity))
            if not answer.startswith("438") or message.get(wire.NONCE) == octets_nonce(octets):
                break
        return answer


def octets_nonce(octets):
    """The NONCE of a request as the row has it, if it isn't that of the moment."""
    message = wire.read(octets)
    nonce = message and message.get(wire.NONCE)
    return None if nonce == judging.FRESH else nonce
