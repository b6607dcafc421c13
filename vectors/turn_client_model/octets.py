"""The octets that a TURN client and its server send: requests, responses, data (RFC 8656; RFC 8489, 9.2 and 14)."""
import hashlib
from dataclasses import dataclass

import wire

NAME, PASSWORD = b"George", b"secret"
SEND_IDENTITY = bytes(12)
UDP = bytes([17, 0, 0, 0])
FAMILIES = {"ipv4": 1, "ipv6": 2}
NUMBERS = {"md5": 1, "sha256": 2}
# EVEN-PORT, whose first bit asks for the next port too (18.7).
EVEN = {"even": 0, "pair": 0x80}
DIGITS = b"ABCDEFGHIJKLMNOPQRSTUVWXYZabcdefghijklmnopqrstuvwxyz0123456789+/"


def cookie_bits(nonce):
    """The first two bits of the security feature set: password algorithms, username anonymity (9.2, 18.1)."""
    digits = nonce[9:13]
    if nonce[:9] != b"obMatJos2" or len(digits) < 4 or not all(it in DIGITS for it in digits):
        return False, False
    return bool(DIGITS.index(digits[0]) & 32), bool(DIGITS.index(digits[0]) & 16)


def listed(*names):
    """The value of PASSWORD-ALGORITHMS, each without parameters (14.11)."""
    return b"".join(NUMBERS[it].to_bytes(2) + bytes(2) for it in names)


@dataclass(frozen=True)
class Login:
    """What a server asked for, and the password algorithm that the client selected."""
    realm: bytes
    nonce: bytes
    algorithms: bytes | None
    algorithm: str

    def key(self):
        return wire.long_term_key(NAME, self.realm, PASSWORD, self.algorithm)

    def hash_name(self):
        """By which algorithm a request is signed (the end of 9.2.5)."""
        return "sha1" if self.algorithms is None else "sha256"

    def parts(self):
        """What a request has of it, before it is signed (9.2.5)."""
        hashed = hashlib.sha256(NAME + b":" + self.realm).digest()
        yield (wire.USERHASH, hashed) if cookie_bits(self.nonce)[1] else (wire.USERNAME, NAME)
        yield from ((wire.REALM, self.realm), (wire.NONCE, self.nonce))
        if self.algorithms is not None:
            yield from ((wire.ALGORITHMS, self.algorithms), (wire.ALGORITHM, listed(self.algorithm)))


def message(kind, method, identity, parts):
    return wire.assemble(kind, wire.METHODS[method], identity, [wire.attribute(*it) for it in parts])


def lifetime(seconds):
    return wire.LIFETIME, seconds.to_bytes(4)


def request(kind, identity, login, seconds=None, family=None, peers=(), number=None, port=None, whole=False):
    """A request, of one of these kinds, unsigned if there is no login."""
    parts = [] if seconds is None else [lifetime(seconds)]
    if kind == "allocate":
        parts.append((wire.TRANSPORT, UDP))
        # (a token names an address of its own family: 7.1)
        if family and not isinstance(port, bytes):
            parts.append((wire.FAMILY, bytes([FAMILIES[family], 0, 0, 0])))
        if port in EVEN:
            parts.append((wire.EVEN_PORT, bytes([EVEN[port]])))
        elif port:
            parts.append((wire.TOKEN, port))
        parts += [(wire.DONT_FRAGMENT, b"")] * whole
    if kind == "bind":
        parts.append((wire.CHANNEL_NUMBER, number.to_bytes(2) + bytes(2)))
    parts += [(wire.PEER, wire.xor_address(identity, it)) for it in peers]
    parts += login.parts() if login else []
    octets = message("request", kind, identity, parts)
    return wire.signed(octets, login.key(), login.hash_name()) if login else octets


def send_indication(peer, data, whole=False):
    mark = [(wire.DONT_FRAGMENT, b"")] * whole
    return message("indication", "send", SEND_IDENTITY, [*mark, (wire.PEER, wire.xor_address(SEND_IDENTITY, peer)), (wire.DATA, data)])


def channel_data(number, data, is_stream=False):
    return number.to_bytes(2) + len(data).to_bytes(2) + data + bytes(-len(data) % 4) * is_stream
