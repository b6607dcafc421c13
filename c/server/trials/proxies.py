"""Trials of connections that a proxy passes on, with headers of the PROXY protocol."""
import contextlib
import secrets
import socket
import struct
import time

from harness import Server, is_closed
from operators import folder_of
from logs import has, wait_for
from steps import PATIENCE, REQUEST, check, run, wait_until
from turn import ALLOCATE, MAPPED, Answer, Client, Peer, UDP, ended, exchange, turn_server

SIGNATURE = b"\r\n\r\n\0\r\nQUIT\n"
PROXY = "127.0.0.2"  # (the server is at 127.0.0.1)
OWN = b"\x20\0\0\0"


def text_header(client, server=("198.51.100.7", 5349)):
    """A header of version 1."""
    family = "TCP6" if ":" in client[0] else "TCP4"
    return f"PROXY {family} {client[0]} {server[0]} {client[1]} {server[1]}\r\n".encode()


def binary_header(client, server=("198.51.100.7", 5349), more=b""):
    """A header of version 2."""
    six = ":" in client[0]
    family = socket.AF_INET6 if six else socket.AF_INET
    ends = socket.inet_pton(family, client[0]) + socket.inet_pton(family, server[0])
    body = ends + struct.pack(">HH", client[1], server[1]) + more
    return SIGNATURE + bytes([0x21, 0x21 if six else 0x11]) + struct.pack(">H", len(body)) + body


def header_cases(programs):
    """The table of headers, those that are right and those that aren't."""
    status, out, told = run([programs["proxy"]], PATIENCE)
    check(status == 0 and out.endswith(" cases, 0 wrong\n"), out + told)


def mapped(stream, *pieces):
    """The address of a client that sends these pieces and asks for it."""
    stream.setsockopt(socket.IPPROTO_TCP, socket.TCP_NODELAY, 1)
    for piece in [*pieces[:-1], pieces[-1] + REQUEST + secrets.token_bytes(12)]:
        stream.sendall(piece)
        time.sleep(0.001)
    heard = b""
    while len(heard) < 20 or len(heard) < 20 + int.from_bytes(heard[2:4], "big"):
        more = stream.recv(2048)
        check(more, "the connection is closed")
        heard += more
    return Answer(heard).address(MAPPED)


def headers(programs):
    """A client of a proxy learns its own address, also if the header comes in single octets or with what
    follows it. What a proxy says of itself counts as no header. Other connections are refused: those of a proxy
    without a header, with a wrong one or with two, those of others with one, and whoever doesn't finish it."""
    four, six, server = ("192.0.2.1", 12345), ("2001:db8::1", 7), ("2001:db8::2", 5349)
    for turn in ([], ["--turn"]):
        headers_of(programs, turn, four, six, server)


def headers_of(programs, turn, four, six, server_six):
    options = ["-t", "-o", f"proxy={PROXY}", "-o", "proxy=127.0.1.0/24", "-o", "request-timeout=2"]
    with turn_server(programs, *options) if turn else Server(programs["server"], *options) as server, \
            contextlib.ExitStack() as all_of:
        def stream(source=PROXY):
            return all_of.enter_context(server.connect(source))
        half = stream()
        half.sendall(text_header(four)[:-1])
        for header, wanted in [(text_header(four), four), (binary_header(four), four),
                               (text_header(six, server_six), six), (binary_header(six, server_six), six),
                               (binary_header(four, more=bytes(3000)), four)]:
            check(mapped(stream(), header) == wanted, f"with {header[:30]} another address")
            check(mapped(stream("127.0.1.77"), *(bytes([it]) for it in header[:200]), header[200:]) == wanted,
                  f"with {header[:30]} in single octets another address")
        for header in (SIGNATURE + OWN, b"PROXY UNKNOWN\r\n", b"PROXY UNKNOWN " + b"x" * 91 + b"\r\n"):
            own = stream()
            check(mapped(own, header) == own.getsockname(), f"with {header} another address")
        direct = stream("127.0.0.1")
        check(mapped(direct, b"") == direct.getsockname(), "another address without a proxy")
        hostile = [b"", b"PROXY TCP4 nonsense\r\n", b"PROXY UNKNOWN " + b"x" * 92 + b"\r\n", b"x" * 5000,
                   SIGNATURE + b"\x21\x31\0\xd8" + bytes(216), SIGNATURE + b"\x21\x11\xff\xff" + bytes(65535),
                   SIGNATURE + b"\x21\x11\0\x0b" + bytes(11), SIGNATURE[:-1] + b"x" + OWN]
        for header in hostile:
            refused = stream()
            refused.sendall(header + REQUEST + bytes(12))
            check(is_closed(refused), f"{header[:40]} is taken")
        for header in (text_header(four), binary_header(four), SIGNATURE + OWN):
            for source, sent in ((PROXY, 2 * header), ("127.0.0.1", header), ("127.0.0.3", header)):
                refused = stream(source)
                refused.sendall(sent + REQUEST + bytes(12))
                check(nothing_of(refused), f"{sent[:40]} of {source} is taken")
        check(is_closed(half), "a header that isn't finished")
        counted = ended(server)
        check(counted["tcp_bad_header"] == len(hostile) and counted["tcp_slow"] == 1, str(counted))


def nothing_of(stream):
    """Whether a connection is closed, and nothing is sent before."""
    stream.settimeout(PATIENCE)
    with contextlib.suppress(ConnectionResetError):
        return stream.recv(2048) == b""
    return True


class Proxied(Client):
    """A client of a TURN server, by way of a proxy."""

    def __init__(self, server, address, *given, header=text_header, **how):
        super().__init__(server, *given, source=PROXY, stream=True, **how)
        self.address = address
        self.socket.sendall(header(address))


def relayed(programs):
    """Through a proxy data is relayed both ways, the log has the client's address, and a nonce is of that alone.
    Who comes once more from the same address and port has nothing of the older connection, which is closed."""
    first, second = ("192.0.2.1", 12345), ("2001:db8::1", 443)
    def six_header(client):
        return binary_header(client, ("2001:db8::2", 5349))
    with folder_of(programs) as folder:
        log = folder / "allocations"
        options = ["-t", "-o", f"proxy={PROXY}", "-o", f"allocation-log={log}"]
        with turn_server(programs, *options) as server, Proxied(server, first) as client, \
                Proxied(server, second, header=six_header) as other, Peer() as peer:
            for it in (client, other):
                exchange(it, peer, it.allocate(), b"data")
            opened = wait_for(log, 2)
            has(opened[0], event="allocation-opened", client="192.0.2.1:12345", transport="tcp", user="user")
            has(opened[1], event="allocation-opened", client="[2001:db8::1]:443", transport="tcp")
            with Proxied(server, ("192.0.2.2", 12345)) as stranger:
                stranger.challenge = client.challenge
                check(stranger.ask(ALLOCATE, UDP).code == 438, "a nonce of another client counts")
            with Proxied(server, first, header=binary_header) as again:
                again.challenge = client.challenge
                exchange(again, peer, again.allocate(), b"anew")  # (the nonce counts, and it isn't a 437)
                check(is_closed(client.socket), "the older connection stays")
                check(other.refresh(0) == 0 and again.refresh() == 600, "an allocation has ended")
                def other_side(client):
                    return text_header(client, ("198.51.100.8", 5349))
                with Proxied(server, first, header=other_side) as beside:  # (a client may use its port for both)
                    beside.challenge = again.challenge
                    exchange(beside, peer, beside.allocate(), b"beside")
                    check(again.refresh() == 600, "an allocation to another address of the proxy has ended")
            wait_until(lambda: server.counts()["turn_ended"] == 4, "an allocation outlives its connection")
            check(ended(server)["turn_allocated"] == 4, "another number of allocations")


def neighbours(programs):
    """Through one proxy the neighbours of a client are those of its own address: a crowd of one neighbourhood
    displaces itself, and nobody else."""
    with Server(programs["server"], "-t", "-o", f"proxy={PROXY}", "-o", "max-connections=8") as server, \
            contextlib.ExitStack() as all_of:
        def client(address):
            stream = all_of.enter_context(server.connect(PROXY))
            check(mapped(stream, text_header(address)) == address, "another address")
            return stream
        alone = [client((f"198.51.{i}.1", 1000)) for i in range(3)]
        crowd = [client(("192.0.2.7", 1000 + i)) for i in range(20)]
        for it in crowd[:12]:
            check(is_closed(it), "a connection of the crowd stays")
        for i, it in enumerate(alone):
            check(mapped(it, b"") == (f"198.51.{i}.1", 1000), "it is displaced by a crowd of others")
        check(server.end()["tcp_displaced"] == 15, "another number is displaced")
