"""Which event a datagram of a client is, and how it is answered (RFC 8489, 6.3, 9.2.4; RFC 8656, 5, 7.2)."""
import wire
from machine import Refusal, Server, family_of, spelled

REALM = b"example.org"
USERS = {b"alice": b"wonderland", b"bob": b"builder"}
FRESH = b"obMatJos2wAAA1790"
# SHA-256 and MD5, without parameters.
LIST = bytes.fromhex("0002000000010000")
ALGORITHM_NAMES = {bytes.fromhex("00020000"): "sha256", bytes.fromhex("00010000"): "md5"}
# The attributes of RFC 8489 and of RFC 8656 that the server knows. Those that a message isn't expected to
# have are ignored (RFC 8489, 6.3).
KNOWN = {
    0x0001, wire.USERNAME, wire.INTEGRITY, wire.ERROR_CODE, wire.UNKNOWN, wire.CHANNEL_NUMBER, wire.LIFETIME,
    wire.PEER, wire.DATA, wire.REALM, wire.NONCE, wire.RELAYED, wire.FAMILY, wire.EVEN_PORT, wire.TRANSPORT,
    wire.INTEGRITY_256, wire.ALGORITHM, wire.USERHASH, wire.MAPPED, wire.TOKEN,
}
# How many peers a CreatePermission request may name.
NAMED = 64
# 4 and 6 are how the families are called here, 1 and 2 how they are in a message.
FAMILIES = {1: 4, 2: 6}


def names_by_hash():
    return {wire.hashlib.sha256(name + b":" + REALM).digest(): name for name in USERS}


def promises_list(nonce):
    """Whether a nonce says that the server sends its password algorithms (9.2, 18.1)."""
    digits = b"ABCDEFGHIJKLMNOPQRSTUVWXYZabcdefghijklmnopqrstuvwxyz0123456789+/"
    return nonce[:9] == b"obMatJos2" and len(nonce) >= 13 and nonce[9] in digits and digits.index(nonce[9]) >= 32


def optional(message, type_, length=4):
    """The number in an attribute, None without one; False if it has another length."""
    value = message.get(type_)
    if value is None:
        return None
    return int.from_bytes(value) if len(value) == length else False


class Site(Server):
    """A server that is asked by datagrams."""
    drawn = "0001020304050607"  # the token that it draws for the next reservation

    def known(self):
        """The types that it comprehends: DONT-FRAGMENT if it can set the DF bit (RFC 8656, 7.2 and 11.2)."""
        return KNOWN | {wire.DONT_FRAGMENT} if "dont-fragment" in self.setup.options else KNOWN

    def from_client(self, client, octets):
        last = 0x7F if "old-channels" in self.setup.options else 0x4F
        if octets and 0x40 <= octets[0] <= last:
            self.fired.append("channel-data")
            return self.channel_data(client, octets)
        message = wire.read(octets)
        if message is None:
            return self.note("no-message", "dropped")
        method = {number: name for name, number in wire.METHODS.items()}.get(message.method)
        if message.kind == "indication" and method == "send":
            return self.send_indication(client, message)
        if message.kind != "request" or method in (None, "send", "data"):
            return self.note("no-request-of-turn", "dropped")
        answer = self.binding(message) if method == "binding" else self.request(client, method, message)
        return answer + (":fingerprint" if message.get(wire.FINGERPRINT) is not None else "")

    def channel_data(self, client, octets):
        length = int.from_bytes(octets[2:4])
        if len(octets) < 4 or len(octets) < 4 + length:
            return self.note("cut-channel-data", "dropped")
        return self.channel(client, int.from_bytes(octets[:2]), octets[4 : 4 + length])

    def send_indication(self, client, message):
        peer = wire.read_xor_address(message.identity, message.get(wire.PEER))
        data = message.get(wire.DATA)
        if message.unknown(self.known()) or peer is None or data is None:
            return self.note("unfit-send", "dropped")
        return self.send(client, peer, data, message.get(wire.DONT_FRAGMENT) is not None)

    def binding(self, message):
        unknown = message.unknown(self.known())
        return self.note("binding", f"420:{types(unknown)}:unsigned" if unknown else "ok:mapped:unsigned")

    # credentials

    def is_valid(self, nonce):
        return nonce == FRESH

    def credentials(self, message):
        """The user, and how the answer is signed; or the answer."""
        if message.get(wire.INTEGRITY) is None and message.get(wire.INTEGRITY_256) is None:
            return self.note("unsigned", "401:challenge:unsigned"), None, None
        name, hashed, nonce = (message.get(it) for it in (wire.USERNAME, wire.USERHASH, wire.NONCE))
        missing = (name is None) == (hashed is None) or nonce is None or message.get(wire.REALM) is None
        algorithm = self.algorithm_of(message, nonce or b"")
        if missing or algorithm is None:
            return self.note("credentials-missing", "400:unsigned"), None, None
        name = name if hashed is None else names_by_hash().get(hashed)
        key = name in USERS and wire.long_term_key(name, REALM, USERS[name], algorithm)
        if not key or wire.verified(message, key) is None:
            return self.note("credentials-wrong", "401:challenge:unsigned"), None, None
        if not self.is_valid(nonce):
            return self.note("credentials-wrong", "438:challenge:unsigned"), None, None
        listed = promises_list(nonce) and message.get(wire.ALGORITHM) is not None
        return None, name.decode(), "sha256" if listed else "sha1"

    @staticmethod
    def algorithm_of(message, nonce):
        """The password algorithm, or None if it isn't one that was offered (9.2.4, third check)."""
        chosen, listed = message.get(wire.ALGORITHM), message.get(wire.ALGORITHMS)
        if not promises_list(nonce) or chosen is None and listed is None:
            return "md5"
        return ALGORITHM_NAMES.get(chosen) if listed == LIST else None

    # requests of TURN

    def request(self, client, method, message):
        answer, user, sign = self.credentials(message)
        if answer:
            return answer
        if unknown := message.unknown(self.known()):
            return self.note("unknown-types", f"420:{types(unknown)}:{sign}")
        return self.described(client, message, getattr(self, f"on_{method}")(client, user, message), sign)

    def described(self, client, message, output, sign):
        kind, *rest = output.split(":")
        if kind == "allocated":
            its = sorted(self.of(client), key=lambda it: it.family)
            given = [f"relayed{it.family}-{it.number}" for it in its]
            token = rest[rest.index("token") :] if "token" in rest else []
            missing = [f"missing{it}" for it in rest[2 : len(rest) - len(token)]]
            return ":".join(["ok", f"lifetime-{rest[1]}", *given, *token, "mapped", *missing, sign])
        if kind == "refreshed":
            return f"ok:lifetime-{rest[0]}:{sign}"
        return f"ok:{sign}" if kind in ("permitted", "bound") else f"{output}:{sign}"

    def wish(self, message):
        """What relayed addresses are wanted, or why the octets alone are refused (7.2, checks 3 and 5 to 9)."""
        transport = message.get(wire.TRANSPORT)
        if transport is None or len(transport) != 4:
            return Refusal(400, "transport")
        if transport[0] != 17:
            return Refusal(442, "transport")
        family, even, token = (message.get(it) for it in (wire.FAMILY, wire.EVEN_PORT, wire.TOKEN))
        more = message.get(wire.ADDITIONAL)
        pair = even is not None and len(even) == 1 and even[0] >= 0x80
        beside_token = any(it is not None for it in (even, family, more))
        lengths = ((wire.LIFETIME, 4), (wire.FAMILY, 4), (wire.EVEN_PORT, 1), (wire.TOKEN, 8), (wire.ADDITIONAL, 4))
        if (
            token is not None and beside_token
            or family is not None and more is not None
            or pair and more is not None
            or more is not None and more[:1] != b"\x02"
            or any(optional(message, type_, length) is False for type_, length in lengths)
        ):
            return Refusal(400, "conflict")
        wanted = [4] if family is None else [FAMILIES.get(family[0])]
        if wanted == [None]:
            return Refusal(440, "unknown-family")
        ready = self.setup.has_pair if pair else self.setup.has_socket
        return [(it, ready(it)) for it in (wanted if more is None else [4, 6])]

    def on_allocate(self, client, user, message):
        """A server with an alternate of the client's family redirects a client that it has no capacity for (7.2, 11th
        check; RFC 8489, 10). A reserved port is at this server, so a request with its token isn't redirected."""
        answer, token = self.transaction_id(client, user, message), message.get(wire.TOKEN)
        alternate = self.setup.alternate(family_of(client.client[0]))
        if answer != "508" or token is not None or alternate is None:
            return answer
        return self.note("redirected", f"300:alternate:{spelled(alternate)}")

    def transaction_id(self, client, user, message):
        lifetime, wish = optional(message, wire.LIFETIME) or 0, self.wish(message)
        asked = client, user, message.identity.hex(), lifetime
        even, token = message.get(wire.EVEN_PORT), message.get(wire.TOKEN)
        if isinstance(wish, Refusal):
            return self.allocate(*asked, wish)
        if token is not None:
            return self.claim(*asked, token.hex())
        if even is not None and even[0] >= 0x80:
            return self.reserve(*asked, wish, self.drawn)
        return self.allocate(*asked, wish)

    def on_refresh(self, client, user, message):
        lifetime, family = optional(message, wire.LIFETIME), optional(message, wire.FAMILY)
        if lifetime is False or family is False:
            return self.unfit(client, user, Refusal(400, "unfit-refresh"))
        return self.refresh(client, user, lifetime, None if family is None else FAMILIES.get(family >> 24, 0))

    def on_permit(self, client, user, message):
        peers = [wire.read_xor_address(message.identity, it) for it in message.all(wire.PEER)]
        if not peers or None in peers:
            return self.unfit(client, user, Refusal(400, "unfit-permission"))
        if len(peers) > NAMED:
            return self.unfit(client, user, Refusal(508, "too-many-peers"))
        return self.permit(client, user, peers)

    def on_bind(self, client, user, message):
        number = optional(message, wire.CHANNEL_NUMBER)
        peer = wire.read_xor_address(message.identity, message.get(wire.PEER))
        if number is None or number is False or peer is None:
            return self.unfit(client, user, Refusal(400, "unfit-channel"))
        return self.bind(client, user, number >> 16, peer)

    def from_peer(self, number, peer, data):
        """As `arrive`, but a ChannelData message is its octets, padded over a stream (12.5)."""
        output = self.arrive(number, peer, data)
        kind, *rest = output.split(":")
        if kind != "channel":
            return output
        octets = bytes.fromhex(rest[1]) + len(data).to_bytes(2) + data
        padding = bytes(-len(data) % 4) if self.at_socket(number).tuple.streams else b""
        return f"channel-data:{rest[0]}:{(octets + padding).hex()}"


def types(numbers):
    return "types-" + "-".join(f"{it:04x}" for it in numbers)
