"""Trials of the server as a TURN server: allocations with two addresses, and reserved ports."""
import contextlib
import errno
import secrets
import socket
import struct
import time

from harness import free_port
from metrics import shows
from operators import report
from steps import check, wait_until
from turn import (ALLOCATE, EVEN_PORT, OTHER, RELAYED, FAMILY, UDP, Client, Peer, ended, exchange, read_xored,
                  turn_server)

ADDITIONAL, TOKEN = 0x8000, 0x0022
RESERVING = (EVEN_PORT, b"\x80")
SECONDS = 30


def all_relayed(answer):
    """Each relayed address that a response has."""
    found, at = [], 20
    while at < len(answer.message):
        kind, length = struct.unpack(">HH", answer.message[at : at + 4])
        if kind == RELAYED:
            found.append(read_xored(answer.message[at + 4 : at + 4 + length], answer.number))
        at += 4 + (length + 3) // 4 * 4
    return found


def is_bound(address, port):
    """Whether somebody has a port."""
    with socket.socket(socket.AF_INET6 if ":" in address else socket.AF_INET, socket.SOCK_DGRAM) as probe:
        try:
            probe.bind((address, port))
        except OSError as error:
            check(error.errno == errno.EADDRINUSE, str(error))
            return True
    return False


def both_families(programs):
    """A client gets an address of each family at once, over UDP and over TCP: data goes both ways by each, and both
    end together. They count as two of the user's; beside one that it has, it gets one."""
    options = ["-t", "-o", "relay-address=127.0.0.1", "-o", "relay-address=::1", "-o", "user-allocations=3"]
    with turn_server(programs, *options) as server:
        before = server.sockets()
        for stream in (False, True):
            with Client(server, stream=stream) as client, Client(server, stream=stream) as other:
                answer = client.ask(ALLOCATE, UDP, (ADDITIONAL, b"\2\0\0\0"))
                relayed = all_relayed(answer)
                check(answer.code == 0 and [it[0] for it in relayed] == ["127.0.0.1", "::1"], f"{relayed}")
                for own, channel in zip(relayed, (0x4001, 0x4002)):
                    with Peer(OTHER[own[0]]) as peer:
                        client.permit(peer.address)
                        client.send(peer.address, b"there")
                        check(peer.hears() == (own, b"there"), "the peer hears another thing")
                        client.bind(channel, peer.address)
                        peer.socket.sendto(b"back", own)
                        check(client.data() == (channel, b"back"), "the client hears another thing")
                part = other.ask(ALLOCATE, UDP, (ADDITIONAL, b"\2\0\0\0"))
                check(part.code == 0 and len(all_relayed(part)) == 1, f"{part.code}: {all_relayed(part)}")
                check(client.refresh(0) == 0 and other.refresh(0) == 0, "they don't end")
        wait_until(lambda: server.sockets() == before, f"sockets are left: {server.sockets()}")
        counted = ended(server)
        check(counted["turn_allocated"] == counted["turn_ended"] == 6, str(counted))


@contextlib.contextmanager
def reserving_server(programs, *options, **how):
    """A server that reserves ports; how many are reserved is asked for by its `reserved`."""
    where = ("127.0.0.1", int(free_port(["127.0.0.1"])))
    with turn_server(programs, "-m", str(where[1]), *options, **how) as server:
        server.where = where
        yield server


def reserves(server, number):
    """Waits until so many ports are reserved."""
    told = f"it reserves {report(server.where)['stun_server_reserved']} ports, not {number}"
    wait_until(lambda: shows(server.where, reserved=number), told)


def reserve(client, *given, wanted=0):
    """Reserves a port: the relayed address, and the token."""
    answer = client.ask(ALLOCATE, UDP, RESERVING, *given)
    check(answer.code == wanted, f"{answer.code}, not {wanted}")
    return None if wanted else (answer.address(RELAYED), answer.values[TOKEN])


def reserved(programs):
    """A client reserves the next port, whose socket is bound at once, and another one takes it by the token, once:
    over UDP and TCP, IPv4 and IPv6. Without the setting it gets none."""
    at = ("127.0.0.1", "::1")
    options = ["-t", "-o", "reservations=2", "-o", "ports=51000-51039"]
    with reserving_server(programs, *options, at=at) as server:
        before = server.sockets()
        for address in at:
            for stream in (False, True):
                reserve_one(server, address, stream)
        wait_until(lambda: server.sockets() == before, f"sockets are left: {server.sockets()}")
        counted = ended(server)
        check(counted["turn_allocated"] == counted["turn_ended"] == 8, str(counted))
        check(counted["turn_to_peer"] == counted["turn_to_client"] == 4 * 7, str(counted))
    with turn_server(programs) as server, Client(server) as client:
        check(reserve(client, wanted=508) is None and client.allocate(), "it isn't refused")
        ended(server)


def reserve_one(server, address, stream):
    family = [(FAMILY, b"\2\0\0\0")] if ":" in address else []
    with Client(server, at=address, stream=stream) as client, Client(server, at=address, stream=stream) as other, \
            Peer(OTHER[address]) as peer:
        (own, port), token = reserve(client, *family)
        check(own == address and port % 2 == 0 and 51000 <= port < 51039 and len(token) == 8, f"{own}:{port} {token}")
        check(is_bound(address, port + 1), "the next port isn't bound")
        reserves(server, 1)
        check(other.allocate((TOKEN, token)) == (address, port + 1), "it gets another port")
        reserves(server, 0)
        exchange(other, peer, (address, port + 1), b"data")
        check(client.refresh(0) == 0, "it doesn't end")
        client.allocate((TOKEN, token), wanted=508)
        check(other.refresh(0) == 0, "it doesn't end")
        wait_until(lambda: not is_bound(address, port + 1), "the port isn't free again")


def reserved_in_a_loop(programs):
    """A user who reserves in a loop gets as many ports as its quota allows, all users together as many as the
    setting, and all else goes on; after 30 seconds the ports are free again. Who guesses tokens, or has one of
    another user, gets nothing."""
    options = ["-o", "reservations=4", "-o", "user-allocations=3", "-o", "ports=51000-51063"]
    users = "user pass\nbob word\neve word\n"
    with reserving_server(programs, *options, users=users) as server, contextlib.ExitStack() as all_of:
        before = server.sockets()
        client = all_of.enter_context(Client(server))
        bob, eve = (all_of.enter_context(Client(server, user=name, password="word")) for name in ("bob", "eve"))
        taken, began = [], time.monotonic()
        for _ in range(3):
            taken.append(reserve(client))
            check(client.refresh(0) == 0, "it doesn't end")
        for _ in range(100):
            reserve(client, wanted=508)
        taken.append(reserve(bob))
        check(bob.refresh(0) == 0, "it doesn't end")
        reserves(server, 4)
        for _ in range(100):
            reserve(eve, wanted=508)
        for token in [taken[0][1], *(secrets.token_bytes(8) for _ in range(1000))]:
            eve.allocate((TOKEN, token), wanted=508)
        with Peer() as peer:
            check(eve.allocate((EVEN_PORT, b"\0"))[1] % 2 == 0 and eve.refresh(0) == 0, "no even port")
            exchange(eve, peer, eve.allocate(), b"data")
        check(eve.refresh(0) == 0, "it doesn't end")
        check(client.allocate((TOKEN, taken[0][1])) == ("127.0.0.1", taken[0][0][1] + 1), "it gets another port")
        check(client.refresh(0) == 0 and time.monotonic() - began < SECONDS - 5, "that took too long")
        reserves(server, 3)
        time.sleep(began + SECONDS - 1 - time.monotonic())
        check(shows(server.where, reserved=3), "they ended too early")
        reserves(server, 0)
        for _, token in taken:
            client.allocate((TOKEN, token), wanted=508)
        wait_until(lambda: server.sockets() == before, f"sockets are left: {server.sockets()}")
        reserve(client)
        ended(server)
