"""Trials of the server as a TURN server: ICMP packets about what its clients sent."""
import socket
import struct
import time

from forged import checksum
from steps import PATIENCE, Skipped, check, wait_until
from turn import CONTENT, DATA, FAMILY, INDICATION, OTHER, PEER, Client, Peer, attributes, ended, read_xored, turn_server

ICMP = 0x8004


def notice(client, seconds=PATIENCE):
    """The peer, the type, the code and the data of the next ICMP packet that a client learns of; None: of none."""
    message = client.receive(seconds)
    if message is None:
        return None
    found = attributes(message)
    check(int.from_bytes(message[:2], "big") == DATA | INDICATION and CONTENT not in found, message.hex())
    check(found[ICMP][:2] == b"\0\0" and len(message) == (44 if found[PEER][1] == 1 else 56), message.hex())
    return read_xored(found[PEER], message[8:20]), *struct.unpack(">xxBBI", found[ICMP])


def closed_peers(programs):
    """A client learns that nobody is at a peer's port, over UDP and TCP, IPv4 and IPv6, and data for others isn't
    lost by that. Without the setting it learns nothing."""
    at = ("127.0.0.1", "::1")
    for is_on in (True, False):
        with turn_server(programs, "-t", "-o", f"icmp={int(is_on)}", at=at) as server:
            for address in at:
                for stream in (False, True):
                    closed_peer(server, address, stream, is_on)
            counted = ended(server)
            check(counted["turn_icmp"] == (80 if is_on else 0) and counted["turn_failed"] == 0, str(counted))
            check(counted["turn_to_peer"] == 160 and counted["turn_dropped"] == 0, str(counted))


def closed_peer(server, address, stream, is_on):
    wanted = (1, 4) if ":" in address else (3, 3)
    with Client(server, at=address, stream=stream) as client, Peer(OTHER[address]) as peer:
        with Peer(OTHER[address]) as gone:
            pass
        client.allocate(*([(FAMILY, b"\2\0\0\0")] if ":" in address else []))
        client.permit(peer.address)
        for turn in range(20):
            client.send(gone.address, b"nobody")
            if turn % 2:  # (the packet is there already when the next datagram is sent)
                time.sleep(0.01)
            client.send(peer.address, b"%d" % turn)
            check(peer.hears()[1] == b"%d" % turn, "the peer hears another thing")
            if is_on:
                check(notice(client) == (gone.address, *wanted, 0), "the client learns something else")
        check(client.receive(0) is None and client.refresh(0) == 0, "more comes")


def packet_about(source, peer, kind, code, rest, protocol=17):
    """An ICMP packet about a datagram from a relayed address to a peer."""
    udp = struct.pack(">HHHH", source[1], peer[1], 12, 0) + b"data"
    head = struct.pack(">BBHHHBBH4s4s", 0x45, 0, 20 + len(udp), 0, 0, 64, protocol, 0, socket.inet_aton(source[0]),
                       socket.inet_aton(peer[0]))
    head = head[:10] + struct.pack(">H", checksum(head)) + head[12:]
    body = struct.pack(">BBHI", kind, code, 0, rest) + head + udp
    return body[:2] + struct.pack(">H", checksum(body)) + body[4:]


def forging():
    """A socket that sends ICMP packets."""
    try:
        return socket.socket(socket.AF_INET, socket.SOCK_RAW, socket.IPPROTO_ICMP)
    except PermissionError:
        raise Skipped("it takes the right to forge packets") from None


def forged(programs):
    """A packet about a peer with a permission goes on, whoever sent it: its data only if it is an MTU. One about
    another peer, of another type, or about what isn't UDP doesn't. A flood of them takes no other client's data."""
    with turn_server(programs, "-o", "icmp=1") as server, forging() as forger, Client(server) as client, \
            Client(server) as other, Peer() as peer:
        relayed, its = client.allocate(), other.allocate()
        client.permit(("127.0.0.7", 1))
        other.permit(peer.address)
        other.bind(0x4001, peer.address)
        near, far = ("127.0.0.7", 4000), ("127.0.0.8", 4000)
        for kind, code, rest, told in [(3, 1, 0xDEADBEEF, 0), (3, 4, 1300, 1300), (3, 3, 0, 0), (11, 0, 7, 0)]:
            forger.sendto(packet_about(relayed, near, kind, code, rest), (relayed[0], 0))
            check(notice(client) == (near, kind, code, told), f"type {kind}, code {code}: something else")
        before = server.counts()["turn_dropped"]
        for _ in range(100):
            forger.sendto(packet_about(relayed, far, 3, 1, 0), (relayed[0], 0))
            forger.sendto(packet_about(relayed, near, 4, 0, 0), (relayed[0], 0))
            forger.sendto(packet_about(relayed, near, 12, 0, 0), (relayed[0], 0))
            forger.sendto(packet_about(relayed, near, 3, 1, 0, protocol=6), (relayed[0], 0))
            forger.sendto(packet_about((relayed[0], 1), near, 3, 1, 0), (relayed[0], 0))
        wait_until(lambda: server.counts()["turn_dropped"] - before >= 100, "they aren't dropped")
        check(client.receive(0) is None, "the client learns of one")
        for turn in range(2000):
            forger.sendto(packet_about(relayed, far, 3, 1, 0), (relayed[0], 0))
            if turn % 20 == 0:
                other.send_on(0x4001, b"%d" % turn)
                check(peer.hears() == (its, b"%d" % turn), "the peer hears another thing")
                peer.socket.sendto(b"back", its)
                check(other.data() == (0x4001, b"back"), "the other client hears another thing")
        counted = ended(server)
        check(counted["turn_icmp"] == 4 and client.receive(0) is None, str(counted))
