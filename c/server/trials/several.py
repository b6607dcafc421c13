"""Trials of several servers that share nothing but files, and of one that is to end."""
import contextlib
import os
import shutil
import signal
import socket
import struct
import sys
import time
import zlib

from harness import Server, after, ask_once, free_port
from metrics import refused, shows
from operators import folder_of, write
from steps import PATIENCE, REQUEST, Skipped, check, run, wait_until
from turn import (ALLOCATE, ERROR_CODE, FAMILY, OTHER, SOFTWARE, UDP, Answer, Client, Peer, coturn_clients, ended,
                  limited_name, reset, turn_server)

TOKEN, ALTERNATE, FINGERPRINT = 0x0022, 0x8023, 0x8028
SHARED = "0123456789abcdef" * 4


def moved(client, server):
    """The same client, with the same address and port, at another server."""
    port = client.socket.getsockname()[1]
    if client.stream:
        client.socket.setsockopt(socket.SOL_SOCKET, socket.SO_LINGER, struct.pack("ii", 1, 0))
    client.socket.close()
    at = Client(server, client.user, client.password, port=port, sha256=client.sha256, stream=client.stream)
    at.challenge = client.challenge
    return at


# starts a program by a clock that is as far ahead as that of another machine, which has run for longer
LATER = """
system = ctypes.CDLL(None)
if system.unshare(0x80) != 0:
    sys.exit("no clock of its own")
open("/proc/self/timens_offsets", "w").write("monotonic 1000000 500000000")
"""


def later_clock():
    """The command that starts a program by another clock, if the system can do so."""
    command = after(LATER)
    status, out, _ = run([*command, sys.executable, "-c", "import time; print(time.monotonic())"])
    return command if status == 0 and float(out) - time.monotonic() > 100000 else ()


def shared_secrets(programs):
    """Servers that share the secret of the nonces, and that of names which are valid for a time, take a client's
    nonce from each other, as long as it lasts, and ask it for credentials but once; others don't."""
    with folder_of(programs) as folder, contextlib.ExitStack() as all_of:
        def server(secret, *options, command=()):
            file = folder / f"nonces{len(secret or '')}"
            write(file, f"# of a trial\n\n{secret}\n")
            given = ["-o", f"nonce-secret={file}"] if secret else []
            return all_of.enter_context(turn_server(programs, "-t", *given, *options, users=None, secret="north\n",
                                                    command=command))
        first, second, other, own = (server(SHARED), server(SHARED, command=later_clock()), server(SHARED[1:]),
                                      server(None))
        short = server(SHARED, "-o", "nonce-lifetime=1")
        user = limited_name("north", 100)
        for stream in (False, True):
            for sha256 in (False, True):
                client = all_of.enter_context(Client(first, *user, sha256=sha256, stream=stream))
                client.allocate()
                client.refresh(0)
                for server_of, wanted in ((second, 0), (first, 0), (other, 438), (own, 438)):
                    client = all_of.enter_context(moved(client, server_of))
                    code = client.ask(ALLOCATE, UDP).code
                    check(code == wanted, f"at a server {code}, not {wanted}")
                    if not wanted:
                        client.refresh(0)
        time.sleep(2.1)
        for server_of, wanted in ((short, 438), (second, 0)):
            client = all_of.enter_context(moved(client, server_of))
            check(client.ask(ALLOCATE, UDP).code == wanted, f"a nonce that is two seconds old gets no {wanted}")
        for it in (first, second, other, own, short):
            ended(it)


def wrong_secrets(programs):
    """A secret that is too short or too long, two of them or none: the file, its line and what is right."""
    with folder_of(programs) as folder:
        file = folder / "nonces"
        right = ["realm=example.org", "secret=/dev/null", f"nonce-secret={file}"]
        words = [word for it in right for word in ("-o", it)]
        for text, told in [("x" * 15 + "\n", ":1: 16 to 256"), ("x" * 257 + "\n", ":1: 16 to 256"), ("", ": no secret"),
                           ("\n# none\n", ": no secret"), (SHARED + "\n#\n" + SHARED, ":3: a secret too many"),
                           ("x" * 5000, ":1: 16 to 256"), ("x" * 256, None), ("#" * 15 + "\n" + "x" * 16, None)]:
            write(file, text)
            status, _, said = run([programs["server"], "--check", "--turn", *words, "127.0.0.1", "3478"])
            check((status, said) == (0, "") if told is None else status == 78 and f"{file}{told}" in said,
                  f"{text[:20]!r}: status {status}: {said}")
        file.unlink()
        status, _, said = run([programs["server"], "--check", "--turn", *words, "127.0.0.1", "3478"])
        check(status == 78 and f"{file}: No such file" in said, f"status {status}: {said}")


# ---- A server that is drained


def drain(server):
    """Drains a server as `systemctl kill --signal=SIGUSR2` does, which signals all its processes."""
    for process in [server.ran.pid, *server.workers()]:
        os.kill(process, signal.SIGUSR2)
    return server.wait_for("draining")


def has_ended(server):
    """Whether a server ends by itself, with status 0, and no worker has died. Returns what it said last."""
    left = server.wait_for("drained")
    counted = server.wait_for("counts")
    check(server.ran.wait(PATIENCE) == 0, f"it ended with status {server.ran.returncode}")
    check(int(counted["workers_died"]) == 0, f"workers have died: {counted}")
    return int(left["allocations"])


class Session:
    """A client with an allocation and a channel, and its peer. Numbers go both ways."""

    def __init__(self, server, all_of, at, stream):
        self.client = all_of.enter_context(Client(server, at=at, stream=stream))
        self.peer = all_of.enter_context(Peer(OTHER[at]))
        self.relayed = self.client.allocate(*([(FAMILY, b"\2\0\0\0")] if ":" in at else []))
        self.client.bind(0x4001, self.peer.address)
        self.sent = 0

    def send(self):
        self.sent += 1
        self.client.send_on(0x4001, b"to the peer %d" % self.sent)
        self.peer.socket.sendto(b"to the client %d" % self.sent, self.relayed)

    def check_last(self):
        """Each datagram that was sent last has come."""
        heard = self.peer.hears(), self.client.data()
        wanted = ((self.relayed, b"to the peer %d" % self.sent), (0x4001, b"to the client %d" % self.sent))
        check(heard == wanted, f"lost while it drains: {heard}, not {wanted}")


def drained(programs):
    """A hundred sessions under way, over UDP and TCP, IPv4 and IPv6, while the server is drained: none loses a
    datagram, and each can be refreshed and reach new peers. A new Allocate is sent to another server of its family
    by a signed 300, if there is one, or refused with 508. The server ends with the last allocation."""
    at, port = ("127.0.0.1", "::1"), int(free_port(["127.0.0.1"]))
    options = ["-t", "-j", "2", "-m", str(port), "-o", "user-allocations=1000", "-o", "alternate=127.0.0.8:3478",
               "-o", "old-channels=0"]
    where = ("127.0.0.1", port)
    with turn_server(programs, *options, at=at) as server, contextlib.ExitStack() as all_of:
        sessions = [Session(server, all_of, at[i % 2], i // 2 % 2 == 1) for i in range(100)]
        wait_until(lambda: shows(where, allocations=100, draining=0), "another number of allocations")
        for turn in range(10):
            for it in sessions:
                it.send()
            if turn == 4:
                check(drain(server)["allocations"] == "100", "another number is left")
            for it in sessions:
                it.check_last()
        wait_until(lambda: shows(where, allocations=100, draining=1), "another number of allocations")
        for it in sessions:
            check(it.client.refresh() == 600, "an allocation can't be refreshed")
        with Peer() as new, Peer("::1") as six:
            for it in sessions:
                it.client.permit(new.address if it.client.socket.family == socket.AF_INET else six.address)
        new_clients(server)
        found = shows(where, allocations=100, draining=1)
        causes = refused(found)
        check(causes[300, "draining"] == 9 and causes[508, "draining"] == 4, f"the causes are {causes}")
        for it in sessions[1:]:
            it.client.refresh(0)
        wait_until(lambda: shows(where, allocations=1, draining=1), "an allocation is left")
        time.sleep(2.5)
        sessions[0].send()
        sessions[0].check_last()
        sessions[0].client.refresh(0)
        check(has_ended(server) == 0, "it ends before the last")


def new_clients(server):
    """What a new client gets of a server that is drained."""
    for stream in (False, True):
        for sha256 in (False, True):
            for given in ([], [(SOFTWARE, b"a client")]):
                with Client(server, stream=stream, sha256=sha256) as client:
                    answer = client.ask(ALLOCATE, UDP, *given)
                    check(answer.code == 300, f"a new client gets {answer.code}")
                    found = answer.values.get(ALTERNATE)
                    check(found == b"\0\1" + struct.pack(">H", 3478) + bytes([127, 0, 0, 8]), f"it is sent to {found}")
                    check(answer.values[ERROR_CODE][4:] == b"Try Alternate", "it has another reason")
                    check(answer.values.get(SOFTWARE) == b"stun-types", "it has another SOFTWARE")
        with Client(server, at="::1", stream=stream) as client:
            client.allocate((FAMILY, b"\2\0\0\0"), wanted=508)
        with Client(server, stream=stream) as client:
            client.allocate((TOKEN, bytes(8)), wanted=508)
            client.refresh(wanted=437)
        with Client(server, password="guess", stream=stream) as client:
            client.allocate(wanted=401)
    with Client(server) as client:
        client.allocate((FAMILY, b"\1\0\0\0"), (TOKEN, bytes(8)), wanted=400)
        answer = client.ask_with(with_fingerprint(client.request(ALLOCATE, UDP)))
        crc = struct.pack(">I", zlib.crc32(answer.message[:-8]) ^ 0x5354554E)
        check(answer.code == 300 and answer.values.get(FINGERPRINT) == crc, "a 300 without a FINGERPRINT")
        client.check_signed(answer)


def with_fingerprint(request):
    length = int.from_bytes(request[2:4], "big") + 8
    request = request[:2] + struct.pack(">H", length) + request[4:]
    return request + struct.pack(">HHI", FINGERPRINT, 4, zlib.crc32(request) ^ 0x5354554E)


def drain_ends(programs):
    """Without another server each new client gets a 508, and the server ends after drain-seconds, whatever is left;
    one that relays nothing ends at once."""
    with turn_server(programs, "-t", "-o", "drain-seconds=5") as server, Client(server) as client, \
            Client(server, stream=True) as other:
        for it in (client, other):
            it.allocate()
        began = time.monotonic()
        check(drain(server)["allocations"] == "2", "another number is left")
        for stream in (False, True):
            with Client(server, stream=stream) as new:
                new.allocate(wanted=508)
        other.refresh(0)
        ask_once(server)
        server.ran.send_signal(signal.SIGUSR2)  # (once more changes nothing)
        check(has_ended(server) == 1, "another number is left")
        check(5 <= time.monotonic() - began < PATIENCE, f"it ends after {time.monotonic() - began:.1f} s")
    with Server(programs["server"], "-t") as server:
        ask_once(server)
        check(drain(server)["allocations"] == "0" and has_ended(server) == 0, "another number is left")


def alternates(programs):
    """Where new clients are sent changes at SIGHUP; while the server isn't drained they are sent nowhere."""
    with turn_server(programs, "-t", lines="alternate 127.0.0.8:3478\nalternate [2600:7::1]:99\n",
                     at=("127.0.0.1", "::1")) as server, Client(server) as last:
        last.allocate()
        drain(server)
        sent = {"127.0.0.1": b"\0\1\x0d\x96\x7f\0\0\x08",
                "::1": b"\0\2\0\x63" + socket.inet_pton(socket.AF_INET6, "2600:7::1")}
        for lines, at in [(None, ["127.0.0.1", "::1"]), ("alternate [2600:7::1]:99\n", ["::1"]), ("", []),
                          ("alternate 127.0.0.8:3478\n", ["127.0.0.1"]), ("alternate 127.0.0.8\n", ["127.0.0.1"])]:
            if lines is not None:
                reset(server, lines)
            for address in sent:
                for stream in (False, True):
                    with Client(server, at=address, stream=stream) as client:
                        answer = client.ask(ALLOCATE, UDP)
                        found = answer.code, answer.values.get(ALTERNATE)
                        wanted = (300, sent[address]) if address in at else (508, None)
                        check(found == wanted, f"{lines!r}: at {address} a client gets {found}")
        check(server.wait_for("settings-refused")["line"] == "4", "another line is wrong")
        last.refresh(0)
        check(has_ended(server) == 0, "another number is left")


def followed(programs):
    """Clients of this library and of coturn follow a 300 to the other server, and use that."""
    with turn_server(programs, "-t", "-o", "old-channels=1", "-o", "user-allocations=1000") as other:
        options = ["-t", "-o", f"alternate=127.0.0.1:{other.port}", "-o", "user-allocations=1000"]
        with turn_server(programs, *options) as server, Client(server) as last:
            last.allocate()
            drain(server)
            for stream in ([], ["-t"]):
                status, out, told = run([programs["turn_client"], "-u", "user", *stream, f"127.0.0.1:{server.port}"],
                                        3 * PATIENCE, env={**os.environ, "STUN_PASSWORD": "pass"})
                check(status == 0 and out.endswith("lifetime 600\ndeleted\n"), f"status {status}: {out}{told}")
            counted = other.counts()
            check(counted["turn_allocated"] == counted["turn_ended"] == 2, f"the other server counts {counted}")
            if shutil.which("turnutils_uclient"):
                coturn_clients(server.port, (["-s"], ["-s", "-t"]))
                check(other.counts()["turn_to_peer"] == 4000, "coturn's client doesn't use the other server")
            last.refresh(0)
            check(has_ended(server) == 0, "another number is left")
        ended(other)
    if not shutil.which("turnutils_uclient"):
        raise Skipped("coturn's turnutils_uclient isn't on this machine")


def circle(programs):
    """stun-turn-client follows no 300 that leads back."""
    port = free_port(["127.0.0.1"])
    with turn_server(programs, "-o", f"alternate=127.0.0.1:{port}") as first:
        options = ["-o", f"alternate=127.0.0.1:{first.port}", "127.0.0.1", port]
        with turn_server(programs, *options, at=()) as second:
            second.port = port
            with Client(first) as one, Client(second) as two:
                for server, client in ((first, one), (second, two)):
                    client.allocate()
                    drain(server)
                status, out, told = run([programs["turn_client"], "-u", "user", f"127.0.0.1:{first.port}"],
                                        PATIENCE, env={**os.environ, "STUN_PASSWORD": "pass"})
                check(status == 1 and "error 300 Try Alternate" in told, f"status {status}: {out}{told}")
                sent = [it.counts(signal.SIGUSR1)["turn_refused"] for it in (first, second)]
                check(sent == [1, 1], f"they send it on {sent} times")
