"""Asks programs that answer datagrams on the loopback the rows of vectors/responders, and signs messages for their
trials by Python's hmac, hashlib and binascii."""
import binascii
import contextlib
import hashlib
import hmac
import select
import socket
import struct
import subprocess
import sys

import steps
from steps import REQUEST, TOP, check

sys.path.insert(0, str(TOP / ".ci"))
import common

INTEGRITY, ERROR_CODE, NONCE, INTEGRITY_SHA256, FINGERPRINT = 0x0008, 0x0009, 0x0015, 0x001C, 0x8028


def attribute(kind, value):
    return struct.pack("!HH", kind, len(value)) + value + bytes(-len(value) % 4)


def counted(whole, more):
    """A message whose length field counts so many bytes more."""
    return whole[:2] + struct.pack("!H", len(whole) - 20 + more) + whole[4:]


def checksum(covered):
    """The value of a FINGERPRINT after these bytes."""
    return struct.pack("!I", binascii.crc32(covered) ^ 0x5354554E)


def signed(kind, number, attributes, password, integrity=INTEGRITY, cut=None):
    """A message with an HMAC, which may be cut, unless the password is None, and a FINGERPRINT."""
    digest = hashlib.sha1 if integrity == INTEGRITY else hashlib.sha256
    whole = counted(struct.pack("!HH", kind, 0) + REQUEST[4:] + number.to_bytes(12, "big") + attributes, 0)
    if password is not None:
        covered = counted(whole, 4 + (cut or digest().digest_size))
        whole = covered + attribute(integrity, hmac.new(password, covered, digest).digest()[:cut])
    whole = counted(whole, 8)
    return whole + attribute(FINGERPRINT, checksum(whole))


def values_of(message):
    """The value of the first attribute of each type."""
    found, at = {}, 20
    while at + 4 <= len(message):
        kind, length = struct.unpack_from("!HH", message, at)
        found.setdefault(kind, message[at + 4 : at + 4 + length])
        at += 4 + length + -length % 4
    return found


def word_of(reply):
    """The word of a reply in the rows: `-` for none, `success`, or the code of an error."""
    if not reply:
        return "-"
    if reply[0] & 1 and not reply[1] & 0x10:
        return "success"
    value = values_of(reply)[ERROR_CODE]
    return str(value[2] * 100 + value[3])


def rows_of(kind):
    """The rows of a kind of responder: the name, the octets that are sent, and the word of the answer."""
    rows = [it for it in common.script("vectors/ask").all_rows(["responders"]) if it.call.split()[1] == kind]
    check(len(rows) > 10, f"vectors/responders has hardly any rows of {kind}")
    return [(it.name, bytes.fromhex(it.call.split()[2].strip("-")), it.answer) for it in rows]


@contextlib.contextmanager
def running(*command):
    """Runs a program that prints its port first; the program, and the port. It is killed at last."""
    pipes = {"stdin": subprocess.PIPE, "stdout": subprocess.PIPE, "text": True}
    with subprocess.Popen([*map(str, command)], **pipes) as ran:
        try:
            check(select.select([ran.stdout], [], [], 10)[0], "it says nothing")
            yield ran, int(ran.stdout.readline().rpartition(":")[2])
        finally:
            ran.kill()


@contextlib.contextmanager
def asking(port):
    """A socket that asks this port."""
    with socket.socket(socket.AF_INET, socket.SOCK_DGRAM) as client:
        client.settimeout(10)
        client.connect(("127.0.0.1", port))
        yield client


def reply_to(client, octets):
    """What a responder sends back for a datagram. A request that each of them answers follows, so that there is
    nothing to wait for if there is no reply."""
    last = signed(0x0001, 2**96 - 1, b"", None)
    client.send(octets)
    client.send(last)
    reply = client.recv(2000)
    if reply[8:20] == last[8:20]:
        return b""
    check(client.recv(2000)[8:20] == last[8:20], "it answers twice")
    check(reply[8:20] == octets[8:20], "the reply has another transaction ID")
    return reply


def sums_of(message, key):
    """The offsets of the HMAC-SHA256 and the FINGERPRINT of a message, each with the value that is right."""
    found = []
    at = message.find(struct.pack("!HH", INTEGRITY_SHA256, 32), 20)
    if at > 0:
        covered = message[:2] + struct.pack("!H", at + 36 - 20) + message[4:at]
        found.append((at + 4, hmac.new(key, covered, hashlib.sha256).digest()))
    at = message.find(struct.pack("!HH", FINGERPRINT, 4), 20)
    return [*found, (at + 4, checksum(message[:at]))] if at > 0 else found


def with_nonce(message, before, nonce, key):
    """A message with another nonce, whose HMAC and checksum are right, or wrong in the same bits, as they were."""
    renewed = message.replace(before, nonce)
    for place, (at, right) in enumerate(sums_of(message, key)):
        wrong = bytes(a ^ b for a, b in zip(message[at:], right))
        value = bytes(a ^ b for a, b in zip(sums_of(renewed, key)[place][1], wrong))
        renewed = renewed[:at] + value + renewed[at + len(value) :]
    return renewed


def by_datagrams(command, renewed=lambda _client, octets: octets):
    """Asks a program, which is run for each datagram: what it sends back."""
    def ask(octets):
        with running(*command) as (_, port), asking(port) as client:
            return reply_to(client, renewed(client, octets))
    return ask


def ask_rows(kind, ask):
    """Asks all rows of a kind; each counts as a step."""
    rows = rows_of(kind)
    words = [word_of(ask(octets)) for _, octets, _ in rows]
    wrong = [f"{name}: {word}, not {answer}" for (name, _, answer), word in zip(rows, words) if word != answer]
    check(not wrong, "; ".join(wrong))
    steps.passed += len(rows) - 1
