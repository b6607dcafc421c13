"""Messages of STUN and TURN as octets: reading and writing them, HMACs and checksums (RFC 8489, 5, 14)."""
import binascii
import functools
import hashlib
import hmac
from dataclasses import dataclass

COOKIE = bytes.fromhex("2112a442")
CLASSES = ["request", "indication", "success", "error"]
METHODS = {
    "binding": 0x001, "allocate": 0x003, "refresh": 0x004, "send": 0x006, "data": 0x007,
    "permit": 0x008, "bind": 0x009,
}
# The types of attributes that the server and the files name.
USERNAME, INTEGRITY, ERROR_CODE, UNKNOWN, CHANNEL_NUMBER, LIFETIME = 0x6, 0x8, 0x9, 0xA, 0xC, 0xD
PEER, DATA, REALM, NONCE, RELAYED, FAMILY, EVEN_PORT, TRANSPORT = 0x12, 0x13, 0x14, 0x15, 0x16, 0x17, 0x18, 0x19
DONT_FRAGMENT, INTEGRITY_256, ALGORITHM, USERHASH, MAPPED, TOKEN = 0x1A, 0x1C, 0x1D, 0x1E, 0x20, 0x22
ADDITIONAL, FAMILY_ERROR, ALGORITHMS, SOFTWARE, ALTERNATE, FINGERPRINT = 0x8000, 0x8001, 0x8002, 0x8022, 0x8023, 0x8028


@dataclass(frozen=True)
class Message:
    """A message: its octets, class, method, ID, and the attributes that count, each with its offset."""
    octets: bytes
    kind: str
    method: int
    identity: bytes
    shown: tuple

    def get(self, type_):
        """The value of the first attribute of a type, or None."""
        return next((value for _, its, value in self.shown if its == type_), None)

    def all(self, type_):
        return [value for _, its, value in self.shown if its == type_]

    def unknown(self, known):
        """The types below 0x8000 that aren't known, as often as they are shown."""
        return [it for _, it, _ in self.shown if it < 0x8000 and it not in known]


def type_number(kind, method):
    bits = CLASSES.index(kind)
    spread = method & 0xF | (method & 0x70) << 1 | (method & 0xF80) << 2
    return spread | (bits & 1) << 4 | (bits & 2) << 7


def header(kind, method, identity, length):
    return type_number(kind, method).to_bytes(2) + length.to_bytes(2) + COOKIE + identity


def attribute(type_, value):
    return type_.to_bytes(2) + len(value).to_bytes(2) + value + bytes(-len(value) % 4)


def attributes_of(octets):
    """The attributes after a header, each with its offset; None if one is cut."""
    found, at = [], 20
    while at < len(octets):
        length = int.from_bytes(octets[at + 2 : at + 4])
        end = at + 4 + length + -length % 4
        if end > len(octets):
            return None
        found.append((at, int.from_bytes(octets[at : at + 2]), octets[at + 4 : at + 4 + length]))
        at = end
    return found


def counted(found):
    """The attributes that aren't to be ignored, since they follow one that ends a message (14.5 to 14.7)."""
    shown, allowed = [], None
    for one in found:
        if allowed is not None and one[1] not in allowed:
            continue
        shown.append(one)
        if one[1] == INTEGRITY:
            allowed = {INTEGRITY_256, FINGERPRINT}
        elif one[1] == INTEGRITY_256:
            allowed = {FINGERPRINT}
        elif one[1] == FINGERPRINT:
            allowed = set()
    return tuple(shown)


def read(octets):
    """The message that these octets are, or None (5, 6.3, 14.7)."""
    if len(octets) < 20 or octets[0] > 0x3F or octets[4:8] != COOKIE:
        return None
    length = int.from_bytes(octets[2:4])
    if length % 4 or length + 20 != len(octets):
        return None
    found = attributes_of(octets)
    if found is None:
        return None
    number = int.from_bytes(octets[:2])
    method = number & 0xF | number >> 1 & 0x70 | number >> 2 & 0xF80
    kind = CLASSES[number >> 7 & 2 | number >> 4 & 1]
    message = Message(octets, kind, method, octets[8:20], counted(found))
    for at, type_, value in message.shown:
        if type_ == FINGERPRINT and value != checksum(octets[:at]):
            return None
    return message


def checksum(before):
    """The value of a FINGERPRINT after these octets (14.7)."""
    covered = before[:2] + (len(before) - 12).to_bytes(2) + before[4:]
    return (binascii.crc32(covered) ^ 0x5354554E).to_bytes(4)


def integrity(key, before, name):
    """The HMAC after these octets, which counts itself in the length (14.5, 14.6)."""
    size = 20 if name == "sha1" else 32
    covered = before[:2] + (len(before) - 20 + 4 + size).to_bytes(2) + before[4:]
    return hmac.new(key, covered, name).digest()


def verified(message, key):
    """`sha256` or `sha1` if the last HMAC of a message is right, None if it isn't, `-` without one."""
    found = [it for it in message.shown if it[1] in (INTEGRITY, INTEGRITY_256)]
    if not found:
        return "-"
    at, type_, value = found[-1]
    name = "sha256" if type_ == INTEGRITY_256 else "sha1"
    return name if integrity(key, message.octets[:at], name) == value else None


@functools.cache
def long_term_key(user, realm, password, algorithm):
    """The key of a user by MD5 or SHA-256 (18.5.1)."""
    return hashlib.new(algorithm, b":".join((user, realm, password))).digest()


def xored(identity, family, address, port):
    """The value of an XOR-ed address (14.2)."""
    mask = COOKIE + identity
    return bytes([0, family, (port >> 8) ^ 0x21, (port & 255) ^ 0x12]) + bytes(a ^ b for a, b in zip(address, mask))


def plain_address(server):
    """The value of an address that isn't XOR-ed, as of a MAPPED-ADDRESS (14.1)."""
    address, port = server
    return bytes([0, 1 if len(address) == 4 else 2]) + port.to_bytes(2) + address


def xor_address(identity, peer):
    address, port = peer
    return xored(identity, 1 if len(address) == 4 else 2, address, port)


def read_xor_address(identity, value):
    """The endpoint in the value of an XOR-ed address; None if it is malformed."""
    if value is None or len(value) < 4 or {1: 8, 2: 20}.get(value[1]) != len(value):
        return None
    mask = COOKIE + identity
    port = int.from_bytes(value[2:4]) ^ 0x2112
    return bytes(a ^ b for a, b in zip(value[4:], mask)), port


def assemble(kind, method, identity, attributes):
    body = b"".join(attributes)
    return header(kind, method, identity, len(body)) + body


def with_more(octets, more):
    """A message with an attribute more, its length field grown."""
    whole = octets + more
    return whole[:2] + (len(whole) - 20).to_bytes(2) + whole[4:]


def signed(octets, key, name):
    type_ = INTEGRITY_256 if name == "sha256" else INTEGRITY
    return with_more(octets, attribute(type_, integrity(key, octets, name)))


def with_fingerprint(octets):
    return with_more(octets, attribute(FINGERPRINT, checksum(octets)))
