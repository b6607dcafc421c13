"""What a datagram is for a TURN client (RFC 8489, 6.3 and 9.2.5; RFC 8656, 7.3, 10, 11.4 and 12.6)."""
from dataclasses import dataclass

import octets as spoken
import wire

# The attributes of RFC 8489 and of RFC 8656 below 0x8000.
KNOWN = {
    0x0001, wire.USERNAME, wire.INTEGRITY, wire.ERROR_CODE, wire.UNKNOWN, wire.CHANNEL_NUMBER, wire.LIFETIME,
    wire.PEER, wire.DATA, wire.REALM, wire.NONCE, wire.RELAYED, wire.FAMILY, wire.EVEN_PORT, wire.TRANSPORT,
    wire.DONT_FRAGMENT, wire.INTEGRITY_256, wire.ALGORITHM, wire.USERHASH, wire.MAPPED, wire.TOKEN,
}
ICMP = 0x8004
MOST_OF_A_TEXT = 763


@dataclass
class Answer:
    """What a response says: a grant with its values; an error; another challenge; another server; or a wrong HMAC."""
    rule: str
    kind: str
    is_authentic: bool = False
    code: int = 0
    values: tuple = ()


def text(value):
    """A text of an attribute, or None (14.8 to 14.10)."""
    try:
        return value if value is not None and len(value) <= MOST_OF_A_TEXT and value.decode() is not None else None
    except UnicodeDecodeError:
        return None


def code_of(message):
    """The code of an error response, or None (14.8)."""
    value = message.get(wire.ERROR_CODE) if message.kind == "error" else None
    if value is None or len(value) < 4 or not 3 <= value[2] & 7 <= 6 or value[3] > 99 or text(value[4:]) is None:
        return None
    return (value[2] & 7) * 100 + value[3]


def channel_data(octets, is_stream):
    """The number and the data of a ChannelData message, or None (RFC 8656, 12.4 to 12.6)."""
    size = int.from_bytes(octets[2:4])
    padded = 4 + size + -size % 4
    least = padded if is_stream else 4 + size
    if len(octets) < 4 or not least <= len(octets) <= padded:
        return None
    return int.from_bytes(octets[:2]), octets[4 : 4 + size]


def peer_data(message):
    """The peer and the data of a Data indication, or None (RFC 8656, 11.4; RFC 8489, 6.3.2)."""
    if message.kind != "indication" or message.method != wire.METHODS["data"] or message.unknown(KNOWN):
        return None
    peer = wire.read_xor_address(message.identity, message.get(wire.PEER))
    data = message.get(wire.DATA)
    return None if peer is None or data is None or message.get(ICMP) is not None else (peer, data)


def peer_error(message):
    """The peer and the eight octets of an ICMP error that a Data indication reports, or None (RFC 8656, 11.6 and 18.13)."""
    if message.unknown(KNOWN):
        return None
    peer, error = wire.read_xor_address(message.identity, message.get(wire.PEER)), message.get(ICMP)
    return None if peer is None or error is None or len(error) != 8 else (peer, error)


def challenge_of(message, code, request, latest, supported):
    """What a 401 or a 438 asks for, or the rule by which its request isn't sent again (9.2.5)."""
    realm, nonce, algorithms = (message.get(it) for it in (wire.REALM, wire.NONCE, wire.ALGORITHMS))
    if algorithms is None and (nonce is not None and spoken.cookie_bits(nonce)[0] or latest and latest.algorithms is not None):
        return "challenge-without-its-list"
    if text(realm) is None or text(nonce) is None:
        return "challenge-incomplete"
    if algorithms is None:
        found = "md5" if "md5" in supported else None
    else:
        numbers = {number: name for name, number in spoken.NUMBERS.items() if name in supported}
        found = next((numbers[it] for it in numbers_in(algorithms) if it in numbers), None)
    if found is None:
        return "no-algorithm"
    if code == 401 and request.login and request.login.realm == realm:
        return "credentials-refused"
    return spoken.Login(realm, nonce, algorithms, found)


def numbers_in(algorithms):
    """The numbers of a PASSWORD-ALGORITHMS, up to one that is cut (14.11)."""
    at = 0
    while at + 4 <= len(algorithms):
        size = int.from_bytes(algorithms[at + 2 : at + 4])
        if at + 4 + size > len(algorithms):
            return
        yield int.from_bytes(algorithms[at : at + 2])
        at += 4 + size + -size % 4


def answer_to(message, request, client):
    """What a response to a request says; None if it counts for nothing."""
    settings = client.settings
    code, unknown = code_of(message), message.unknown(KNOWN)
    if code in (401, 438):
        if unknown:
            return unknown_in(message, request, client)
        asked = challenge_of(message, code, request, client.login, settings.supported)
        if isinstance(asked, str):
            return Answer(asked, "error", True, code)
        return Answer("challenged", "challenge", False, code, (asked,))
    nonce = message.get(wire.NONCE)
    if nonce is not None and spoken.cookie_bits(nonce)[0] and message.get(wire.ALGORITHMS) is None:
        return client.note("without-its-list", None)
    is_signed = any(it[1] in (wire.INTEGRITY, wire.INTEGRITY_256) for it in message.shown)
    if code == 400 and not is_signed:
        return client.note("unsigned-400", None)
    if request.login and wire.verified(message, request.login.key()) not in ("sha1", "sha256"):
        return Answer("wrong-integrity", "violation")
    proved = request.login is not None
    if unknown:
        return Answer("unknown-attribute", "error", proved)
    if message.kind == "error":
        if code is None:
            return Answer("no-code", "error", proved)
        server = alternate_of(message, client.server) if code == 300 else None
        return Answer("error", "elsewhere" if server else "error", proved, code, (server,))
    values = granted_values(message)
    if values is None:
        return Answer("incomplete-success", "error", proved)
    return Answer("success", "grant", proved, 0, values)


def unknown_in(message, request, client):
    """A challenge with an attribute that the client must understand and doesn't has failed, if it is signed."""
    if request.login and wire.verified(message, request.login.key()) in ("sha1", "sha256"):
        return Answer("unknown-attribute", "error", True)
    return client.note("unsigned")


def alternate_of(message, server):
    """The address in ALTERNATE-SERVER, if it has the family of the server's (RFC 8489, 10 and 14.15)."""
    value = message.get(wire.ALTERNATE)
    if value is None or len(value) != 4 + len(server[0]) or value[1] != (1 if len(server[0]) == 4 else 2):
        return None
    return value[4:], int.from_bytes(value[2:4])


def granted_values(message):
    """What a success response grants: an Allocate, a Refresh, or neither (RFC 8656, 7.2, 8.2, 10.2 and 12.2)."""
    seconds = message.get(wire.LIFETIME)
    seconds = int.from_bytes(seconds) if seconds is not None and len(seconds) == 4 else None
    if message.method == wire.METHODS["refresh"]:
        return None if seconds is None else (seconds,)
    if message.method != wire.METHODS["allocate"]:
        return ()
    relayed, mapped = (wire.read_xor_address(message.identity, message.get(it)) for it in (wire.RELAYED, wire.MAPPED))
    if None in (relayed, mapped, seconds):
        return None
    token = message.get(wire.TOKEN)
    return relayed, mapped, seconds, token if token is not None and len(token) == 8 else None
