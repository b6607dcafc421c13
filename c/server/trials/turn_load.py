"""Trials of the server as a TURN server under load: a call that goes on while others misbehave, or while the
server runs out of something. The call and the load are bench/relay_load.c."""
import contextlib
import hashlib
import os
import re
import signal
import socket
import struct

import serving
from harness import after, ask_once, many_files, status_of
from steps import Skipped, check, wait_until
from turn import (ALLOCATE, BIND, CHANNEL, LIFETIME, PEER, REFRESH, UDP, Client, Peer, ended, reread,
                  turn_server)

PEERS = "127.0.0.2"
MANY = ["-o", "allocations=5000", "-o", "user-allocations=5000"]
# a call: 20 clients that send 50 datagrams a second each, of 160 octets, for four seconds
CALL = ["-n", "20", "-m", "200", "-i", "20000", "-s", "160", "-c"]


@contextlib.contextmanager
def load(programs, server, *options):
    key = hashlib.md5(b"user:example.org:pass").hexdigest()
    words = [*options, "-p", PEERS, "-u", "user", "-k", key]
    with serving.Load(programs["relay_load"], ("127.0.0.1", server.port), *words) as run:
        yield run


def done(run, command, failed=0, code=0):
    """Has all clients of a load make a request; so many of them fail, by a code."""
    counted = run.obey(command)
    check(counted["failed"] == failed and counted["by code"] == code, counted["line"])


def whole(counted):
    check(serving.is_whole(counted), counted["line"])


@contextlib.contextmanager
def call(programs, server):
    """A call, of which nothing is lost though something is done meanwhile."""
    with load(programs, server, *CALL) as run:
        done(run, "allocate")
        run.begin("relay")
        yield
        counted = run.end()
        print("   the call:", counted["line"], flush=True)
        whole(counted)
        check(counted["delays"][0] < 1_000_000, f"half of the call is late: {counted['line']}")
        done(run, "release")


def flooded(programs):
    """A flood of Allocate requests without credentials, with and without a limit of answers, costs a call
    nothing; with it few of the requests are answered: 100 at once, and 100 a second."""
    flood = ["-n", "50", "-m", "1000", "-w", "10", "-i", "3000", "-f", "127.0.1.3"]
    for options in ((), ("-o", "rate=100", "-o", "slip=0")):
        with turn_server(programs, *MANY, *options) as server:
            with call(programs, server), load(programs, server, *flood) as stranger:
                counted = stranger.obey("flood")
                print("   the flood:", counted["line"], flush=True)
            counts = ended(server)
            took = float(re.search(r"([0-9.]+) s$", counted["line"])[1])
            most = min(50_000, 100 + 100 * (took + 2)) if options else 50_000
            check(counted["sent"] == 50_000 and 0 < counted["answered"] <= most, counted["line"])
            check(counts["turn_allocated"] == 20 and counts["udp_limited"] >= 50_000 - most, str(counts))
            check(counts["udp_dropped"] == 0, f"the flood doesn't wait: {counts}")


def read_again(programs):
    """A call loses nothing while the users are read again and again, 20,000 of them. Who is in the file no
    more is refused, and has no allocation."""
    others = "".join(f"user{i} md5:{i:032x}\n" for i in range(20_000))
    with turn_server(programs, *MANY, users="user pass\nleaves pass\n" + others) as server:
        with Client(server, user="leaves") as client, Peer() as peer:
            relayed = client.allocate()
            client.bind(0x4001, peer.address)
            client.send_on(0x4001, b"data")
            check(peer.hears() == (relayed, b"data"), "a user has no data relayed")
            with call(programs, server):
                for turn in range(5):
                    reread(server, "users", f"user pass\nnew{turn} pass\n" + others)
                    with Client(server, user=f"new{turn}") as new:
                        new.allocate()
                        new.refresh(0)
                    client.refresh(wanted=401)
                wait_until(lambda: server.counts(signal.SIGUSR1)["turn_ended"] == 6, "a user is outlasted")
                client.send_on(0x4001, b"data")
                check(peer.hears(0.3) is None, "who is no user has data relayed")
        ended(server)


def worker_lost(programs):
    """A call over UDP loses nothing if the process of the connections is killed, time and again."""
    with turn_server(programs, "-t", *MANY) as server:
        with call(programs, server):
            for _ in range(3):
                worker = wait_until(lambda: of_connections(server), "nobody has connections")
                with Client(server, stream=True) as client:
                    client.allocate()
                    os.kill(worker, signal.SIGKILL)
                    server.wait_for("worker-died")
                wait_until(lambda: of_connections(server) not in (None, worker), "no other worker")
        check(server.end()["workers_died"] == 3, "others have died")


def of_connections(server):
    """The worker that has a listening socket for TCP."""
    listening = {line.split()[9] for line in open("/proc/net/tcp").readlines()[1:] if line.split()[3] == "0A"}
    for worker in server.workers():
        with contextlib.suppress(OSError):
            links = [os.readlink(it) for it in os.scandir(f"/proc/{worker}/fd")]
            if listening & {it[8:-1] for it in links if it.startswith("socket:")}:
                return worker
    return None


def connections_end(programs):
    """Allocations end with their connections, with those too that the server ends since nonsense came: of
    one address 900 clients, whose connections break off under way, leave room for 300 others at once."""
    with many_files(), turn_server(programs, "-t", "-o", "user-allocations=1000") as server:
        for turn in range(3):
            for clients in (900, 300):
                with load(programs, server, "-n", str(clients), "-m", "10", "-t", "-c") as run:
                    done(run, "allocate")
                    whole_of(run.obey("relay"), 10 * clients)
        wait_until(lambda: server.counts()["turn_ended"] == 3600, "allocations are left")
        with Client(server, stream=True) as client:
            client.allocate()
            client.socket.send(b"\xffnonsense")
            check(client.socket.recv(1) == b"", "nonsense goes on")
            check(server.counts()["turn_ended"] == 3601, "its allocation lasts")
        ended(server)


def crowded_table(programs):
    """Of more clients than there are allocations the rest is refused; nobody else loses anything."""
    with turn_server(programs, "-o", "allocations=100", "-o", "user-allocations=1000") as server:
        with load(programs, server, "-n", "150", "-m", "100", "-w", "4", "-c") as run:
            done(run, "allocate", failed=50, code=508)
            ask_once(server)
            whole_of(run.obey("relay"), 100 * 100)
            done(run, "refresh", failed=0)
        counts = ended(server)
        check(counts["turn_allocated"] == 100 and counts["turn_refused"] >= 50, str(counts))


def whole_of(counted, sent):
    whole(counted)
    check(counted["sent"] == sent, counted["line"])


def crowded_ports(programs):
    """So it is if the ports are taken, and if there are no more files."""
    for options, command, least in [
        (["-o", "ports=51000-51063", "-o", "relay-address=127.0.0.77"], (), 60),
        ([], after("resource.setrlimit(resource.RLIMIT_NOFILE, (90, 90))"), 40),
    ]:
        with turn_server(programs, *MANY, *options, command=command) as server:
            with load(programs, server, "-n", "150", "-m", "100", "-w", "4", "-c") as run:
                counted = run.obey("allocate")
                check(least <= 150 - counted["failed"] < 90 and counted["by code"] == 508, counted["line"])
                ask_once(server)
                whole_of(run.obey("relay"), 100 * (150 - counted["failed"]))
            counts = ended(server)
            check(counts["turn_no_port"] > 0, str(counts))


def closed_peers(programs):
    """Peers that have closed their ports, which the system reports by ICMP, cost nobody anything: neither a
    call, nor other peers of the same client."""
    with turn_server(programs, *MANY) as server, Client(server) as client, Peer() as peer, Peer() as gone:
        relayed = client.allocate()
        client.bind(0x4000, gone.address)
        client.bind(0x4002, peer.address)
        gone.socket.close()
        with call(programs, server):
            for turn in range(500):
                for _ in range(4):
                    client.send_on(0x4000, bytes(100))
                client.send_on(0x4002, b"%d" % turn)
                check(peer.hears() == (relayed, b"%d" % turn), "the peer doesn't hear")
                peer.socket.sendto(b"%d" % turn, relayed)
                check(client.data() == (0x4002, b"%d" % turn), "the client doesn't hear")
        counts = ended(server)
        check(counts["turn_to_peer"] >= 4000 + 2500 and counts["turn_dropped"] == 0, str(counts))


def forged(payload, source, to):
    """A datagram of IPv4 with its headers, from an address that may be another's."""
    udp = struct.pack(">HHHH", source[1], to[1], 8 + len(payload), 0) + payload
    return struct.pack(">BBHHHBBH4s4s", 0x45, 0, 20 + len(udp), 0, 0, 64, 17, 0,
                       socket.inet_aton(source[0]), socket.inet_aton(to[0])) + udp


def spoofed(programs):
    """What others send in a client's name changes nothing without its password: its allocation lasts, and
    its data goes on. What comes in the name of a peer without a permission isn't delivered."""
    try:
        raw = socket.socket(socket.AF_INET, socket.SOCK_RAW, socket.IPPROTO_RAW)
    except PermissionError:
        raise Skipped("it takes the right to forge datagrams") from None
    users = "user pass\nother pass\n"
    with raw, turn_server(programs, *MANY, users=users) as server, Client(server) as victim, \
            Client(server, user="other") as other, Peer() as peer:
        relayed = victim.allocate()
        victim.bind(0x4001, peer.address)
        other.allocate()
        to, own = ("127.0.0.1", int(server.port)), victim.socket.getsockname()
        ending, peers = (LIFETIME, bytes(4)), ((CHANNEL, b"\x40\1\0\0"), (PEER, ("127.0.0.9", 9)))
        requests = [(other.request(REFRESH, ending, sign=False), 401), (other.request(REFRESH, ending), 438),
                    (other.request(ALLOCATE, UDP, sign=False), 401)]
        # (a nonce is its address's: of these the nonce is right)
        other.challenge = victim.challenge
        requests += [(other.request(REFRESH, ending), 441), (other.request(ALLOCATE, UDP), 437),
                     (other.request(BIND, *peers), 441)]
        other.password = "guess"
        requests += [(other.request(REFRESH, ending), 401), (other.request(BIND, *peers), 401)]
        for request, code in requests:
            for _ in range(5):
                raw.sendto(forged(request, own, to), to)
                message = victim.receive()
                check(message[8:20] == request[8:20] and b"\0\x09" in message, "another message comes")
                at = message.index(b"\0\x09", 20)
                check(message[at + 6] * 100 + message[at + 7] == code, f"{code} is owed: {message.hex()}")
        for source in (("127.0.0.10", 9), ("198.51.100.1", 53), own, to):
            raw.sendto(forged(b"forged", source, relayed), relayed)
        for turn in range(50):
            victim.send_on(0x4001, b"%d" % turn)
            check(peer.hears() == (relayed, b"%d" % turn), "the peer hears another thing")
            peer.socket.sendto(b"%d" % turn, relayed)
            check(victim.data() == (0x4001, b"%d" % turn), "the client hears another thing")
        check(victim.refresh() == 600, "the allocation has changed")
        counts = ended(server)
        check(counts["turn_allocated"] == 2 and counts["turn_ended"] == 0, str(counts))
        check(counts["turn_to_client"] == 50, f"a stranger is heard: {counts}")


def own_memory(server):
    """The octets that its processes have for themselves."""
    return sum(1024 * int(status_of(it)["RssAnon"][0]) for it in server.workers())


def held(programs):
    """As many allocations as there may be are held over refreshes, all are used, and what they take of memory
    is used again by others after them."""
    options = ["-o", "allocations=4000", "-o", "user-allocations=4000", "-o", "ports=32000-65535"]
    with many_files(), turn_server(programs, *options) as server:
        sizes = []
        for _ in range(4):
            with load(programs, server, "-n", "4000", "-m", "2", "-w", "1", "-c") as run:
                done(run, "allocate")
                for _ in range(3):
                    whole_of(run.obey("relay"), 8000)
                    done(run, "refresh")
                done(run, "release")
                sizes.append(own_memory(server))
            wait_until(lambda: server.counts()["turn_ended"] == 4000 * len(sizes), "they don't end")
        check(sizes[-1] <= sizes[1] + 500_000, f"its memory grows: {sizes}")
        counts = ended(server)
        check(counts["turn_allocated"] == 16_000 and counts["turn_dropped"] == 0, str(counts))
