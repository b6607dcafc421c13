"""Trials of the server over UDP."""
import contextlib
import select
import socket
import struct
import time
import zlib

from harness import (LOAD, Server, ask, ask_once, asking_socket, attributes_of, expect,
                     in_own_network, put_load)
from steps import REQUEST, check

INDICATION = bytes.fromhex("001100002112A442") + bytes(12)


def over_udp(programs, bound, asked, *options):
    """A server on some addresses, a client and a load that ask it at others."""
    with Server(programs["server"], *options, at=bound) as server:
        for address in asked:
            ask(programs["client"], address, server.port)
            put_load(programs["load"], address, server.port)
        total = len(asked) * (LOAD["clients"] * LOAD["requests"] + 1)
        counted = server.end()
        # (the client asks again if it isn't answered in half a second)
        check(counted["udp_received"] >= total, str(counted))
        expect(counted, udp_received=counted["udp_received"], udp_sent=counted["udp_received"])
        told = server.ran.stdout.read().splitlines()
    shown = [f"[{address}]" if ":" in address else address for address in bound]
    check(told == [f"listening on {address}:{server.port} over UDP" for address in shown], str(told))


def unanswered(programs):
    """What gets no reply gets none, and the server goes on; the longest request is answered."""
    with Server(programs["server"]) as server:
        with asking_socket(server) as asking:
            # 16,371 empty attributes that must be understood fill the longest datagram
            longest = bytes.fromhex("0001FFCC2112A442") + bytes(12) + b"\x7f\xff\0\0" * 16371
            for datagram in [b"", b"\x80", b"\0", INDICATION, bytes(65507), longest]:
                asking.send(datagram)
            reply = asking.recv(65536)
            right = reply[:2] == b"\x01\x11" and len(reply) > 2 * 16371
            check(right, "no 420 to the longest request")
        ask_once(server)
        expect(server.end(), udp_received=7, udp_sent=2, udp_unanswered=5)


def send_to_all(address, port):
    """Sends a request to an address that is everybody's, by a socket that it returns."""
    six = ":" in address
    asking = socket.socket(socket.AF_INET6 if six else socket.AF_INET, socket.SOCK_DGRAM)
    if six:
        asking.setsockopt(socket.IPPROTO_IPV6, socket.IPV6_MULTICAST_IF, socket.if_nametoindex("lo"))
    else:
        own = socket.inet_aton("127.0.0.1")
        asking.setsockopt(socket.SOL_SOCKET, socket.SO_BROADCAST, 1)
        asking.setsockopt(socket.IPPROTO_IP, socket.IP_MULTICAST_IF, own)
        if address.startswith("224."):
            group = socket.inet_aton(address) + own
            asking.setsockopt(socket.IPPROTO_IP, socket.IP_ADD_MEMBERSHIP, group)
    asking.sendto(REQUEST + bytes(12), (address, int(port)))
    return asking


def to_everybody(programs):
    """A request to a broadcast or multicast address gets no reply, whoever is in that group."""
    in_own_network(ask_everybody, programs)


def ask_everybody(programs):
    for bound, everybody in [("0.0.0.0", ["127.255.255.255", "224.0.0.251"]),
                             ("::", ["127.255.255.255", "224.0.0.251", "ff02::1", "ff01::1"])]:
        with Server(programs["server"], at=(bound,)) as server, contextlib.ExitStack() as all_of:
            asking = [all_of.enter_context(send_to_all(it, server.port)) for it in everybody]
            ask_once(server)
            counted = server.end()
            check(counted["udp_sent"] == 1, f"it answers a request to everybody: {counted}")
            check(not select.select(asking, [], [], 0)[0], "a reply came")


def software(programs):
    """Replies have a SOFTWARE, or none if it is switched off; all else is in them."""
    def ends(message):
        message = message[:2] + struct.pack(">H", len(message) - 12) + message[4:]
        return message + b"\x80\x28\0\x04" + (zlib.crc32(message) ^ 0x5354554E).to_bytes(4, "big")
    bare = REQUEST + bytes(12)
    unknown = bare[:2] + b"\0\x04" + bare[4:] + b"\x7f\xff\0\0"
    for options, left in [((), {0x8022}), (("-o", "software=0"), set())]:
        with Server(programs["server"], "-t", *options) as server, asking_socket(server) as asking:
            for request, wanted in [(bare, {0x20}), (ends(bare), {0x20, 0x8028}),
                                    (unknown, {9, 10}), (ends(unknown), {9, 10, 0x8028})]:
                asking.send(request)
                types = attributes_of(asking.recv(2048))
                check(set(types) == wanted | left, f"{types} after {request.hex()}")
            ask(programs["client"], "127.0.0.1", server.port, "-t")
            expect(server.end(), udp_received=4, udp_sent=4, tcp_accepted=1, tcp_received=1, tcp_sent=1)


def burst(sockets, other):
    """Sends 60 requests from each socket, and then one from another, which has to be answered. Returns
    how many answers come until none comes for a second, and in how many seconds the last has come."""
    began = last = time.monotonic()
    for _ in range(60):
        for asking in sockets:
            asking.send(REQUEST + bytes(12))
    other.send(REQUEST + bytes(12))
    other.recv(2048)
    got = 0
    while ready := select.select(sockets, [], [], 1)[0]:
        for one in ready:
            one.recv(2048)
            got += 1
        last = time.monotonic()
    return got, last - began


def limited(programs):
    """A prefix of IPv4 has as many answers as -o rate says, at once and in a second, and no more for
    having been quiet; another one isn't hindered by it."""
    options = ["-o", "rate=20", "-o", "slip=0"]
    with Server(programs["server"], *options) as server, contextlib.ExitStack() as all_of:
        near = [all_of.enter_context(asking_socket(server, f"127.0.0.{i}")) for i in (1, 200)]
        far = all_of.enter_context(asking_socket(server, "127.0.1.1"))
        sent = 0
        for pause in (0, 1.5):
            time.sleep(pause)
            got, took = burst(near, far)
            check(20 <= got <= 20 + 20 * took + 1, f"{got} answers in {took:.1f} s")
            sent += got
        expect(server.end(), udp_received=242, udp_sent=sent + 2, udp_limited=240 - sent)
