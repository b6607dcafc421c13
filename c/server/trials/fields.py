"""Trials of the server as a TURN server: fields of the IP header of what it relays."""
import os
import secrets
import signal
import socket

from harness import in_own_network
from steps import PATIENCE, Skipped, check, run
from turn import ALLOCATE, CONTENT, FAMILY, INDICATION, PEER, SEND, UDP, Client, Peer, ended, turn_server

DONT_FRAGMENT = (0x001A, b"")
MARKED = 46 << 2 | 2  # Expedited Forwarding, ECT(0)


class Raw:
    """Sees the packets of IPv4 that come to a peer, with their headers."""

    def __init__(self, peer):
        try:
            self.socket = socket.socket(socket.AF_INET, socket.SOCK_RAW, socket.IPPROTO_UDP)
        except PermissionError:
            raise Skipped("it takes the right to see packets") from None
        self.socket.settimeout(PATIENCE)
        self.socket.bind((peer.address[0], 0))
        self.port = peer.address[1]

    def __enter__(self):
        return self

    def __exit__(self, *_):
        self.socket.close()

    def packet(self):
        """The next one's TOS, DF bit, TTL and data."""
        while True:
            packet = self.socket.recv(70000)
            if int.from_bytes(packet[22:24], "big") == self.port:
                return packet[1], packet[6] >> 6 & 1, packet[8], packet[28:]


def send_whole(client, peer, data):
    """Sends data by a Send indication with DONT-FRAGMENT."""
    given = [(PEER, peer.address), (CONTENT, data), DONT_FRAGMENT]
    client.socket.send(client.request(SEND | INDICATION, *given, sign=False))


def dont_fragment(programs):
    """With the setting the datagram of a Send indication with DONT-FRAGMENT has the DF bit, and no other one, over
    UDP and TCP. Without it the indication is dropped, and an Allocate request with it refused with 420."""
    with turn_server(programs, "-t", "-o", "dont-fragment=1") as server, Peer() as peer, Raw(peer) as raw:
        for stream in (False, True):
            with Client(server, stream=stream) as client:
                check(client.ask(ALLOCATE, UDP, DONT_FRAGMENT).code == 0, "no allocation")
                client.bind(0x4001, peer.address)
                for turn in range(100):
                    data = [b"%d" % turn + bytes(i) for i in range(4)]  # (none go together)
                    send_whole(client, peer, data[0])
                    client.send(peer.address, data[1])
                    client.send_on(0x4001, data[2])
                    send_whole(client, peer, data[3])
                    got = [raw.packet() for _ in data]
                    check([(it[1], it[3]) for it in got] == list(zip((1, 0, 0, 1), data)), f"{got}")
                check(client.refresh(0) == 0, "it doesn't end")
        counted = ended(server)
        check(counted["turn_to_peer"] == 800 and counted["turn_failed"] == 0, str(counted))
    with turn_server(programs) as server, Peer() as peer, Client(server) as client:
        check(client.ask(ALLOCATE, UDP, DONT_FRAGMENT).code == 420, "it isn't refused")
        client.allocate()
        client.permit(peer.address)
        send_whole(client, peer, b"whole")
        client.send(peer.address, b"data")
        check(peer.hears()[1] == b"data", "it isn't dropped")
        ended(server)


def too_long(programs):
    """What doesn't fit into a packet goes in fragments, unless it is not to: then it is dropped and counted."""
    def run_there():
        check(run(["ip", "link", "set", "lo", "mtu", "1280"])[0] == 0, "no MTU")
        with turn_server(programs, "-o", "dont-fragment=1") as server, Peer() as peer, Client(server) as client:
            client.allocate()
            client.permit(peer.address)
            for data in (secrets.token_bytes(1300), secrets.token_bytes(5000)):
                send_whole(client, peer, data)
                client.send(peer.address, data)
                check(peer.hears()[1] == data, "the peer hears another thing")
            send_whole(client, peer, b"short")
            check(peer.hears()[1] == b"short", "the peer hears another thing")
            check(ended(server)["turn_failed"] == 2, "it isn't counted")
    in_own_network(run_there)


def whole_flood(programs):
    """A client that sends nothing but datagrams with DONT-FRAGMENT takes no other client's data, nor its fields."""
    with turn_server(programs, "-o", "dont-fragment=1") as server, Peer() as peer, Peer() as sink, \
            Client(server) as client, Client(server) as other, Raw(peer) as raw:
        for it, to in ((client, sink), (other, peer)):
            it.allocate()
            it.bind(0x4001, to.address)
        flood = client.request(SEND | INDICATION, (PEER, sink.address), (CONTENT, bytes(100)), DONT_FRAGMENT, sign=False)
        for turn in range(200):
            for _ in range(50):
                client.socket.send(flood)
            other.send_on(0x4001, b"%d" % turn)
            got = raw.packet()
            check((got[1], got[3]) == (0, b"%d" % turn), f"{got}")
        counted = ended(server)
        check(counted["turn_to_peer"] + counted["udp_dropped"] >= 10000, str(counted))


def receive_fields(end):
    """The traffic class, the hop limit and the data of the next datagram that a socket receives."""
    data, said, _, _ = end.recvmsg(70000, 200)
    values = {(level, kind): int.from_bytes(value[:4], "little") for level, kind, value in said}
    four = [(socket.IPPROTO_IP, socket.IP_TOS), (socket.IPPROTO_IP, socket.IP_TTL)]
    six = [(socket.IPPROTO_IPV6, socket.IPV6_TCLASS), (socket.IPPROTO_IPV6, socket.IPV6_HOPLIMIT)]
    return [next((values[it] for it in pair if it in values), 0) for pair in zip(four, six)], data


def show_fields(end):
    """Has a socket show the fields of what it receives."""
    if end.family == socket.AF_INET6:
        end.setsockopt(socket.IPPROTO_IPV6, socket.IPV6_RECVTCLASS, 1)
        end.setsockopt(socket.IPPROTO_IPV6, socket.IPV6_RECVHOPLIMIT, 1)
    else:
        end.setsockopt(socket.IPPROTO_IP, socket.IP_RECVTOS, 1)
        end.setsockopt(socket.IPPROTO_IP, 12, 1)  # IP_RECVTTL


def mark(end, tos, hops):
    """Has a socket send with a traffic class and a hop limit."""
    if end.family == socket.AF_INET6:
        end.setsockopt(socket.IPPROTO_IPV6, socket.IPV6_TCLASS, tos)
        end.setsockopt(socket.IPPROTO_IPV6, socket.IPV6_UNICAST_HOPS, hops)
    else:
        end.setsockopt(socket.IPPROTO_IP, socket.IP_TOS, tos)
        end.setsockopt(socket.IPPROTO_IP, socket.IP_TTL, hops)


def carried(programs):
    """With the setting DSCP and ECN go on as they came, each datagram's own, and the hop limit is one less unless
    both sides are of IPv4; what has used up its hops is dropped. Without it they have the system's defaults."""
    for at in (("127.0.0.1", "::1"), ("::",)):
        for is_on in (True, False):
            options = ["-o", "relay-address=127.0.0.1", "-o", "relay-address=::1", "-o", f"header-fields={int(is_on)}"]
            with turn_server(programs, *options, at=at) as server:
                for near, far in (("127.0.0.1", "127.0.0.9"), ("127.0.0.1", "::1"), ("::1", "127.0.0.9"), ("::1", "::1")):
                    with Client(server, at=near) as client, Peer(far) as peer:
                        carried_one(client, peer, far, is_on)
                counted = ended(server)
                check(counted["turn_hops"] == (6 if is_on else 0), str(counted))


def carried_one(client, peer, far, is_on):
    both_four = "." in client.socket.getsockname()[0] and "." in far
    relayed = client.allocate(*([(FAMILY, b"\2\0\0\0")] if ":" in far else []))
    client.bind(0x4001, peer.address)
    for one, to, sends in [(client.socket, peer.socket, lambda data: client.send_on(0x4001, data)),
                           (peer.socket, client.socket, lambda data: peer.socket.sendto(data, relayed))]:
        show_fields(to)
        for tos, hops in ((MARKED, 9), (0, 200), (MARKED | 3, 64), (8 << 2, 2)):
            mark(one, tos, hops)
            sends(b"data")
            (got, left), data = receive_fields(to)
            wanted = (tos, 64 if both_four else hops - 1) if is_on else (0, 64)
            check((got, left) == wanted and data.endswith(b"data"), f"{got} and {left} at {far}, not {wanted}")
        mark(one, MARKED, 1)
        sends(b"last")
        mark(one, 0, 64)
        sends(b"next")
        (got, _), data = receive_fields(to)
        if not is_on or both_four:
            check(data.endswith(b"last"), f"{data} isn't the last")
            data = receive_fields(to)[1]
        check(data.endswith(b"next"), f"{data} isn't the next")


def carried_at_once(programs):
    """Datagrams that come at once keep their own fields, though those of one length to one address go together."""
    with turn_server(programs, "-o", "header-fields=1") as server, Client(server) as client, Peer() as peer:
        worker, = server.workers()
        relayed = client.allocate()
        client.bind(0x4001, peer.address)
        marks = [(i % 5) * 8 << 2 | i % 3 for i in range(50)]
        for one, to, sends in [(client.socket, peer.socket, lambda data: client.send_on(0x4001, data)),
                               (peer.socket, client.socket, lambda data: peer.socket.sendto(data, relayed))]:
            show_fields(to)
            os.kill(worker, signal.SIGSTOP)
            for tos in marks:
                mark(one, tos, 64)
                sends(bytes(100))
            os.kill(worker, signal.SIGCONT)
            got = [receive_fields(to)[0][0] for _ in marks]
            check(got == marks, f"{got}, not {marks}")
        ended(server)
