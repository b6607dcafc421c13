"""A TURN server that answers in octets: its responses, what a peer's data becomes, and the nonces that it makes.

The order of the attributes in a response, and what a nonce is, the RFCs leave open: they are as the head of
vectors/turn-session says.
"""
import base64

import judging
import wire

SECRET, WINDOW = bytes([7]) * 32, 600
COOKIE = b"obMatJos2wAAA"
# The transaction ID of all Data indications.
DATA_IDENTITY = (7).to_bytes(12)
# The reason phrases of error codes (RFC 8489, 14.8; RFC 8656, 19), with capital letters.
REASONS = {
    300: "Try Alternate", 400: "Bad Request", 401: "Unauthenticated", 403: "Forbidden", 420: "Unknown Attribute",
    437: "Allocation Mismatch", 438: "Stale Nonce", 440: "Address Family Not Supported",
    441: "Wrong Credentials", 442: "Unsupported Transport Protocol", 443: "Peer Address Family Mismatch",
    486: "Allocation Quota Reached", 508: "Insufficient Capacity",
}


def nonce_of(client, seconds):
    """The nonce for a client's address and port at a time."""
    # (the last 36 bits of the time are six characters)
    begun = COOKIE + base64.b64encode((seconds % 2**36).to_bytes(6))[2:]
    covered = begun + wire.plain_address(client)
    return begun + base64.b64encode(wire.hmac.new(SECRET, covered, "sha256").digest()[:12])


def error_value(code, family=0):
    return bytes([family, 0, code // 100, code % 100]) + REASONS[code].encode()


class Speaker(judging.Site):
    """Its word for what goes to a client has the octets."""

    def is_valid(self, nonce):
        made = int.from_bytes(base64.b64decode(b"AA" + nonce[len(COOKIE) : len(COOKIE) + 6]))
        return nonce == nonce_of(self.client, made) and (int(self.now) - made) % 2**36 <= WINDOW

    def from_client(self, client, octets):
        self.client = client.client
        result, *parts = super().from_client(client, octets).split(":")
        if result != "ok" and not result.isdigit():
            return ":".join([result, *parts])
        return f"to-client:{client.name}:{self.response(wire.read(octets), result, parts).hex()}"

    def from_peer(self, number, peer, data):
        kind, name, *rest = [*super().from_peer(number, peer, data).split(":"), ""]
        if kind == "channel-data":
            return f"to-client:{name}:{rest[0]}"
        if kind != "data":
            return kind
        parts = [(wire.PEER, wire.xor_address(DATA_IDENTITY, peer)), (wire.DATA, data)]
        octets = wire.assemble("indication", wire.METHODS["data"], DATA_IDENTITY, [wire.attribute(*it) for it in parts])
        return f"to-client:{name}:{octets.hex()}"

    def response(self, request, result, parts):
        """The response to a request, of the parts of its word."""
        identity = request.identity
        numbers = {name: rest for name, _, rest in (it.partition("-") for it in parts)}
        content = [] if result == "ok" else [(wire.ERROR_CODE, error_value(int(result)))]
        if "alternate" in parts:
            address, port = parts[parts.index("alternate") + 1 :][:2]
            content.append((wire.ALTERNATE, wire.plain_address((bytes.fromhex(address), int(port)))))
        for family in (4, 6):
            if number := numbers.get(f"relayed{family}"):
                content.append((wire.RELAYED, wire.xor_address(identity, self.address_of(int(number), family))))
        if lifetime := numbers.get("lifetime"):
            content.append((wire.LIFETIME, int(lifetime).to_bytes(4)))
        if "token" in parts:
            content.append((wire.TOKEN, bytes.fromhex(parts[parts.index("token") + 1])))
        if "mapped" in parts:
            content.append((wire.MAPPED, wire.xor_address(identity, self.client)))
        for family, number in ((4, 1), (6, 2)):
            if code := numbers.get(f"missing{family}"):
                content.append((wire.FAMILY_ERROR, error_value(int(code), number)))
        if listed := numbers.get("types"):
            content.append((wire.UNKNOWN, bytes.fromhex(listed.replace("-", ""))))
        if "challenge" in parts:
            nonce = nonce_of(self.client, int(self.now))
            content += [(wire.REALM, judging.REALM), (wire.NONCE, nonce), (wire.ALGORITHMS, judging.LIST)]
        kind = "success" if result == "ok" else "error"
        octets = wire.assemble(kind, request.method, identity, [wire.attribute(*it) for it in content])
        sign = next((it for it in ("sha1", "sha256") if it in parts), None)
        octets = wire.signed(octets, self.key_of(request), sign) if sign else octets
        return wire.with_fingerprint(octets) if "fingerprint" in parts else octets

    def key_of(self, request):
        """The key of a request's user, who is known."""
        name, hashed = request.get(wire.USERNAME), request.get(wire.USERHASH)
        name = judging.names_by_hash()[hashed] if name is None else name
        algorithm = self.algorithm_of(request, request.get(wire.NONCE))
        return wire.long_term_key(name, judging.REALM, judging.USERS[name], algorithm)
