"""Trials of the server as a TURN server, by a client in Python."""
import base64
import contextlib
import hashlib
import hmac
import os
import pathlib
import random
import re
import resource
import secrets
import select
import shutil
import signal
import socket
import ssl
import struct
import subprocess
import sys
import time

from harness import Server, after, ask_once, free_port, in_own_network, is_closed
from manager import PASS_ON
from operators import HERE, folder_of, write
from steps import PATIENCE, REQUEST, Skipped, check, run, wait_until

COOKIE = 0x2112A442
ALLOCATE, REFRESH, SEND, DATA, PERMIT, BIND = 3, 4, 6, 7, 8, 9
SUCCESS, ERROR, INDICATION = 0x100, 0x110, 0x10
USERNAME, INTEGRITY, ERROR_CODE, REALM, NONCE = 0x0006, 0x0008, 0x0009, 0x0014, 0x0015
CHANNEL, LIFETIME, PEER, CONTENT, RELAYED = 0x000C, 0x000D, 0x0012, 0x0013, 0x0016
FAMILY, EVEN_PORT, TRANSPORT, INTEGRITY_SHA256 = 0x0017, 0x0018, 0x0019, 0x001C
PASSWORD_ALGORITHM, USERHASH, PASSWORD_ALGORITHMS = 0x001D, 0x001E, 0x8002
UNKNOWN_ATTRIBUTES, SOFTWARE, MAPPED = 0x000A, 0x8022, 0x0020
UDP = (TRANSPORT, b"\x11\0\0\0")
ALLOWING = ["-o", "allow=127.0.0.0/8", "-o", "allow=::1"]
OTHER = {"127.0.0.1": "127.0.0.9", "::1": "::1"}  # where peers are


def attribute(kind, value):
    return struct.pack(">HH", kind, len(value)) + value + bytes(-len(value) % 4)


def attributes(message):
    """The first value of each type that a message has."""
    check(int.from_bytes(message[2:4], "big") == len(message) - 20, "its length is wrong")
    found, at = {}, 20
    while at < len(message):
        kind, length = struct.unpack(">HH", message[at : at + 4])
        found.setdefault(kind, message[at + 4 : at + 4 + length])
        at += 4 + (length + 3) // 4 * 4
    return found


def xored(address, port, number):
    """The value of an XOR-PEER-ADDRESS, and the other way round."""
    six = ":" in address
    octets = socket.inet_pton(socket.AF_INET6 if six else socket.AF_INET, address)
    mask = COOKIE.to_bytes(4, "big") + number
    mixed = bytes(a ^ b for a, b in zip(octets, mask))
    return struct.pack(">BBH", 0, 2 if six else 1, port ^ COOKIE >> 16) + mixed


def read_xored(value, number):
    mask = COOKIE.to_bytes(4, "big") + number
    octets = bytes(a ^ b for a, b in zip(value[4:], mask))
    family = {1: socket.AF_INET, 2: socket.AF_INET6}[value[1]]
    return socket.inet_ntop(family, octets), int.from_bytes(value[2:4], "big") ^ COOKIE >> 16


class Answer:
    """A response: its code, 0 for a success, and its attributes."""

    def __init__(self, message):
        self.message, self.number = message, message[8:20]
        self.kind = int.from_bytes(message[:2], "big")
        self.values = attributes(message)
        error = self.values.get(ERROR_CODE)
        self.code = error[2] * 100 + error[3] if error else 0

    def address(self, kind):
        return read_xored(self.values[kind], self.number)


class Client:
    """A client of a TURN server, over UDP or over TCP."""

    def __init__(self, server, user="user", password="pass", at="127.0.0.1", source=None, stream=False,
                 sha256=False, by_hash=False, port=None):
        family = socket.AF_INET6 if ":" in at else socket.AF_INET
        self.user, self.password, self.stream = user, password, stream
        self.sha256, self.by_hash = sha256, by_hash
        self.challenge, self.kept = {}, b""
        self.socket = socket.socket(family, socket.SOCK_STREAM if stream else socket.SOCK_DGRAM)
        self.socket.settimeout(PATIENCE)
        if port:
            self.socket.setsockopt(socket.SOL_SOCKET, socket.SO_REUSEADDR, 1)
        self.socket.bind((source or at, port or 0))
        self.socket.connect((at, int(server.port)))

    def __enter__(self):
        return self

    def __exit__(self, *_):
        self.socket.close()

    # -- messages

    def receive(self, seconds=PATIENCE):
        """The next message or ChannelData; None: nothing comes in so many seconds."""
        while True:
            length = self.whole()
            if length:
                message, self.kept = self.kept[:length], self.kept[length:]
                return message
            if not select.select([self.socket], [], [], seconds)[0]:
                return None
            more = self.socket.recv(70000)
            check(more, "the server has closed the connection")
            self.kept += more

    def whole(self):
        """How many bytes the first message of what was kept has, if it is whole."""
        if len(self.kept) < 4 or not self.stream:
            return len(self.kept)
        length = int.from_bytes(self.kept[2:4], "big")
        length = 4 + (length + 3) // 4 * 4 if self.kept[0] >= 0x40 else 20 + length
        return length if len(self.kept) >= length else 0

    def key(self):
        text = f"{self.user}:{self.challenge[REALM].decode()}:{self.password}".encode()
        return (hashlib.sha256 if self.sha256 else hashlib.md5)(text).digest()

    def login(self):
        """The attributes by which a request is signed."""
        realm, nonce = self.challenge[REALM], self.challenge[NONCE]
        named = hashlib.sha256(self.user.encode() + b":" + realm).digest()
        parts = [attribute(USERHASH, named) if self.by_hash else attribute(USERNAME, self.user.encode()),
                 attribute(REALM, realm), attribute(NONCE, nonce)]
        if self.sha256:
            parts.append(attribute(PASSWORD_ALGORITHMS, self.challenge[PASSWORD_ALGORITHMS]))
            parts.append(attribute(PASSWORD_ALGORITHM, b"\0\2\0\0"))
        return b"".join(parts)

    def request(self, method, *given, sign=True, number=None):
        """The bytes of a request."""
        number = number or secrets.token_bytes(12)
        peers = [(kind, xored(*value, number) if kind == PEER else value) for kind, value in given]
        body = b"".join(attribute(*it) for it in peers) + (self.login() if sign else b"")
        size = (36 if self.sha256 else 24) if sign else 0
        head = struct.pack(">HHI", method, len(body) + size, COOKIE) + number
        if not sign:
            return head + body
        digest = hashlib.sha256 if self.sha256 else hashlib.sha1
        kind = INTEGRITY_SHA256 if self.sha256 else INTEGRITY
        return head + body + attribute(kind, hmac.new(self.key(), head + body, digest).digest())

    def ask_with(self, request):
        """The answer to a request. Data of peers that comes before it is dropped."""
        self.socket.send(request)
        while True:
            message = self.receive()
            check(message is not None, f"no answer to {request.hex()}")
            if message[0] < 0x40 and message[8:20] == request[8:20]:
                return Answer(message)

    def ask(self, method, *given, **how):
        """The answer to a signed request, after a challenge if there was none; the answer is signed too."""
        if not self.challenge:
            answer = self.ask_with(self.request(method, *given, sign=False))
            check(answer.code == 401, f"{answer.code} without a signature")
            self.challenge = answer.values
        answer = self.ask_with(self.request(method, *given, **how))
        if answer.code not in (401, 438, 400):
            self.check_signed(answer)
        return answer

    def check_signed(self, answer):
        kind, size = (INTEGRITY_SHA256, 32) if self.sha256 else (INTEGRITY, 20)
        check(kind in answer.values, f"a {answer.code} isn't signed")
        at = answer.message.index(attribute(kind, answer.values[kind]))
        head = answer.message[:2] + struct.pack(">H", at + 4 + size - 20) + answer.message[4:at]
        digest = hashlib.sha256 if self.sha256 else hashlib.sha1
        check(hmac.new(self.key(), head, digest).digest() == answer.values[kind], "a wrong HMAC")

    # -- TURN

    def allocate(self, *given, wanted=0):
        """Allocates, and returns the relayed address."""
        answer = self.ask(ALLOCATE, UDP, *given)
        check(answer.code == wanted, f"Allocate: {answer.code}, not {wanted}")
        return None if wanted else answer.address(RELAYED)

    def permit(self, peer, wanted=0):
        answer = self.ask(PERMIT, (PEER, peer))
        check(answer.code == wanted, f"CreatePermission for {peer}: {answer.code}, not {wanted}")

    def bind(self, channel, peer, wanted=0):
        answer = self.ask(BIND, (CHANNEL, struct.pack(">HH", channel, 0)), (PEER, peer))
        check(answer.code == wanted, f"ChannelBind to {peer}: {answer.code}, not {wanted}")

    def refresh(self, seconds=None, wanted=0):
        given = [] if seconds is None else [(LIFETIME, struct.pack(">I", seconds))]
        answer = self.ask(REFRESH, *given)
        check(answer.code == wanted, f"Refresh: {answer.code}, not {wanted}")
        return None if wanted else int.from_bytes(answer.values[LIFETIME], "big")

    def send(self, peer, data):
        """Sends data by a Send indication."""
        self.socket.send(self.request(SEND | INDICATION, (PEER, peer), (CONTENT, data), sign=False))

    def send_on(self, channel, data):
        padding = bytes(-len(data) % 4) if self.stream else b""
        self.socket.send(struct.pack(">HH", channel, len(data)) + data + padding)

    def data(self, seconds=PATIENCE):
        """The next data of a peer: from whom, an address or a channel, and what; None: none comes."""
        message = self.receive(seconds)
        if message is None:
            return None
        if message[0] >= 0x40:
            channel, length = struct.unpack(">HH", message[:4])
            return channel, message[4 : 4 + length]
        check(int.from_bytes(message[:2], "big") == DATA | INDICATION, f"another message: {message.hex()}")
        found = attributes(message)
        return read_xored(found[PEER], message[8:20]), found[CONTENT]


class Peer:
    """A peer, who is at an address."""

    def __init__(self, at="127.0.0.9"):
        self.socket = socket.socket(socket.AF_INET6 if ":" in at else socket.AF_INET, socket.SOCK_DGRAM)
        self.socket.setsockopt(socket.SOL_SOCKET, socket.SO_RCVBUF, 1 << 20)
        self.socket.settimeout(PATIENCE)
        self.socket.bind((at, 0))
        self.address = self.socket.getsockname()[:2]

    def __enter__(self):
        return self

    def __exit__(self, *_):
        self.socket.close()

    def hears(self, seconds=PATIENCE):
        """From where data comes, and what; None: none comes."""
        if not select.select([self.socket], [], [], seconds)[0]:
            return None
        data, source = self.socket.recvfrom(70000)
        return source[:2], data


@contextlib.contextmanager
def turn_server(programs, *options, users="user pass\n", secret=None, at=("127.0.0.1",), allowing=True, lines="",
                **how):
    """A server that relays, its settings in a file of its folder, to which the lines are added."""
    with folder_of(programs) as folder:
        file = folder / "stun-server.conf"
        settings = ["turn 1", "realm example.org"]
        for name, text in (("users", users), ("secret", secret)):
            if text is not None:
                write(folder / name, text)
                settings.append(f"{name} {folder / name}")
        settings = "\n".join(settings) + "\n"
        write(file, settings + lines)
        words = [*(ALLOWING if allowing else []), *programs.get("options", []), *options]
        with Server(programs["server"], "-c", str(file), *words, at=at, **how) as server:
            server.folder, server.settings = folder, settings
            for address in at:
                for stream in {False, "-t" in words}:
                    where = {"::": "::1"}.get(address, address)
                    with Client(server, at=where, source=OTHER.get(where), stream=stream) as client:
                        client.ask_with(REQUEST + bytes(12))  # (now it serves)
                        if stream:  # (its socket isn't one of those that a trial counts)
                            client.socket.shutdown(socket.SHUT_WR)
                            check(is_closed(client.socket), "a connection that is half closed stays")
            yield server


def ended(server):
    """Ends the server, no worker of which has died, and returns what it has counted."""
    counted = server.end()
    check(counted["workers_died"] == 0, f"workers have died: {counted}")
    return counted


def reset(server, lines):
    """Has a server read its settings with other lines that are added."""
    reread(server, "stun-server.conf", server.settings + lines)


def reread(server, name, text):
    """Replaces a file, and has the server read it again."""
    write(server.folder / name, text)
    server.counts(signal.SIGHUP)


def exchange(client, peer, relayed, data):
    """Data goes to a peer and back, by indications (or on a channel, if there is one) and on a channel."""
    client.permit(peer.address)
    client.send(peer.address, data)
    check(peer.hears() == (relayed, data), "the peer hears another thing")
    peer.socket.sendto(data[::-1], relayed)
    check(client.data() in [(peer.address, data[::-1]), (0x4001, data[::-1])], "the client hears another thing")
    client.bind(0x4001, peer.address)
    for size in (0, 1, 2, 3, 4, 1200):
        client.send_on(0x4001, data[:1] * size)
        check(peer.hears() == (relayed, data[:1] * size), f"the peer hears no {size} bytes of a channel")
        peer.socket.sendto(data[1:2] * size, relayed)
        check(client.data() == (0x4001, data[1:2] * size), f"the client hears no {size} bytes of a channel")


def relays(programs):
    """Each request of a client, and data both ways, over UDP and TCP, IPv4 and IPv6. Who isn't permitted
    isn't heard, and an allocation's socket is closed once it has ended."""
    at = ("127.0.0.1", "::1")
    with turn_server(programs, "-t", at=at) as server:
        before = server.sockets()
        for address in at:
            for stream in (False, True):
                relay_one(server, address, stream)
        wait_until(lambda: server.sockets() == before, f"sockets are left: {server.sockets()}")
        counted = ended(server)
        check(counted["turn_allocated"] == counted["turn_ended"] == 4, str(counted))
        check(counted["turn_to_peer"] == counted["turn_to_client"] == 28, str(counted))
        check(counted["turn_dropped"] == 4 and counted["turn_no_port"] == 0, str(counted))


def relay_one(server, address, stream):
    with Client(server, at=address, stream=stream) as client, Peer(OTHER[address]) as peer, \
            Peer(OTHER[address]) as stranger:
        family = [(FAMILY, b"\2\0\0\0")] if ":" in address else []
        relayed = client.allocate(*family)
        check(relayed[0] == address and 49152 <= relayed[1] <= 65535, f"it relays at {relayed}")
        client.ask_with(REQUEST + secrets.token_bytes(12))
        before = server.counts()["turn_dropped"]
        stranger.socket.sendto(b"unpermitted", relayed)
        wait_until(lambda: server.counts()["turn_dropped"] == before + 1, "who isn't permitted isn't dropped")
        exchange(client, peer, relayed, secrets.token_bytes(1000))
        check(client.refresh() == 600 and client.refresh(7200) == 3600, "other lifetimes")
        check(client.refresh(0) == 0, "it doesn't end")
        client.send_on(0x4001, b"late")
        check(client.refresh(wanted=437) is None and peer.hears(0) is None, "it hasn't ended")


def software(programs):
    """Replies to Binding requests, and to users but a 420, have a SOFTWARE, a 401, 420 and 438 have none;
    and no reply has one if it is switched off."""
    for options, name in [((), b"stun-types"), (("-o", "software=0"), None)]:
        with turn_server(programs, *options) as server, Client(server) as client, Client(server) as other:
            replies = [(0, client.ask_with(REQUEST + secrets.token_bytes(12)), name),
                       (401, client.ask_with(client.request(ALLOCATE, UDP, sign=False)), None),
                       (0, client.ask(ALLOCATE, UDP), name), (437, client.ask(ALLOCATE, UDP), name)]
            unknown = client.ask(REFRESH, (0x7FFF, b""))
            check(unknown.values.get(UNKNOWN_ATTRIBUTES) == b"\x7f\xff", "a 420 lists other types")
            other.challenge = {**client.challenge, NONCE: client.challenge[NONCE][:-1] + b"*"}
            replies += [(420, unknown, None), (438, other.ask(ALLOCATE, UDP), None)]
            for code, answer, wanted in replies:
                check(answer.code == code, f"{answer.code}, not {code}")
                check(answer.values.get(SOFTWARE) == wanted, f"a {code} has another SOFTWARE, {options}")
            ended(server)


def bursts(programs):
    """Data that comes at once, of any lengths, is relayed whole and in order, by one worker that was
    stopped for a moment."""
    lengths = [100] * 5 + [50] + [100] * 2 + [1400] * 3 + [1401] * 2 + [0, 7, 0] + [1200] * 20 + [3, 3000, 3]
    for at, asked in (("127.0.0.1", "127.0.0.1"), ("::", "127.0.0.2"), ("::", "::1")):
        options = ["-o", f"relay-address={OTHER[asked] if asked in OTHER else '127.0.0.9'}"]
        with turn_server(programs, *options, at=(at,)) as server, Client(server, at=asked) as client, \
                Client(server, at=asked) as other, Peer(OTHER.get(asked, "127.0.0.9")) as peer:
            family = [(FAMILY, b"\2\0\0\0")] if ":" in asked else []
            worker, = server.workers()
            relayed = []
            for it in (client, other):
                relayed.append(it.allocate(*family))
                it.bind(0x4001, peer.address)
            os.kill(worker, signal.SIGSTOP)
            data = [bytes([i]) * length for i, length in enumerate(lengths)]
            for one in data:
                for it in (client, other):
                    it.send_on(0x4001, one)
                    peer.socket.sendto(one, relayed[it is other])
            os.kill(worker, signal.SIGCONT)
            for it in (client, other):
                heard = [it.data() for _ in data]
                check(heard == [(0x4001, one) for one in data], "a client hears other data")
            heard = [peer.hears() for _ in range(2 * len(data))]
            for source in relayed:
                check([it[1] for it in heard if it[0] == source] == data, "the peer hears other data")
            ended(server)


def small_packets(programs):
    """The same if packets are shorter than some datagrams that would go together."""
    def run_there():
        status, _, told = run(["ip", "link", "set", "lo", "mtu", "1280"])
        check(status == 0, told)
        bursts(programs)
    in_own_network(run_there)


def nonsense(programs):
    """Whatever clients and peers send, over UDP and TCP, the server goes on, and an allocation too."""
    drawn = random.Random(8656)
    def changed(message):
        message = bytearray(message)
        for _ in range(drawn.choice((0, 1, 1, 2, 8))):
            message[drawn.randrange(len(message))] = drawn.randrange(256)
        return bytes(message[: drawn.choice((len(message), len(message), drawn.randrange(len(message) + 1)))])
    with turn_server(programs, "-t") as server, Client(server) as client, Client(server) as other, \
            Peer() as peer:
        relayed = client.allocate()
        client.bind(0x4001, peer.address)
        near = [("127.0.0.9", 7), ("10.0.0.1", 7), ("::1", 7), ("198.51.100.1", 0), peer.address]
        other.challenge = client.challenge
        for turn in range(3000):
            to = drawn.choice(near)
            request = drawn.choice([
                client.request(drawn.choice((ALLOCATE, REFRESH, PERMIT, BIND)), UDP, (PEER, to),
                               (CHANNEL, b"\x40\2\0\0"), number=drawn.randbytes(12)),
                client.request(PERMIT, *[(PEER, to)] * drawn.randrange(80), number=drawn.randbytes(12)),
                client.request(SEND | INDICATION, (PEER, to), (CONTENT, b"data"), sign=False),
                b"\x40\1\0\4data", drawn.randbytes(drawn.randrange(1, 100))])
            drawn.choice((client, other)).socket.send(changed(request))
            peer.socket.sendto(drawn.randbytes(drawn.randrange(100)), relayed)
            if turn % 30 == 0:
                with Client(server, stream=True) as stream:
                    stream.socket.send(changed(request))
            if turn % 100 == 0:
                ask_once(server)
        with Client(server) as another, Peer() as its_peer:
            exchange(another, its_peer, another.allocate(), b"data")
        ended(server)


def even_ports(programs):
    """A client that asks for an even port gets one; ports are of the range."""
    options = ["-o", "ports=51000-51031", "-o", "user-allocations=100"]
    with turn_server(programs, *options) as server, contextlib.ExitStack() as all_of:
        found = set()
        for i in range(16):
            client = all_of.enter_context(Client(server))
            _, port = client.allocate(*([(EVEN_PORT, b"\0")] if i % 2 else []))
            check(51000 <= port <= 51031 and (i % 2 == 0 or port % 2 == 0), f"the port is {port}")
            found.add(port)
        check(len(found) == 16 and sorted(found) != list(range(min(found), min(found) + 16)),
              f"the ports are {found}")
        ended(server)


def credentials(programs):
    """Who signs with another password, or isn't known, is refused, and changes nothing; a nonce is valid
    for a time; keys may be given for passwords, and names by their hashes."""
    def key(kind, name, password):
        text = f"{name}:example.org:{password}".encode()
        return f"{name} {kind}:{hashlib.new(kind, text).hexdigest()}\n"
    users = "# of a trial\n\nuser pass\n" + key("md5", "short", "word") + key("md5", "both", "words")
    users += key("sha256", "both", "words") + "spaced  a # word\n"
    with turn_server(programs, "-o", "nonce-lifetime=2", users=users) as server:
        for user, password, how, wanted in [
            ("user", "pass", {}, 0), ("user", "pass", {"sha256": True}, 0),
            ("user", "pass", {"sha256": True, "by_hash": True}, 0), ("user", "pass", {"by_hash": True}, 0),
            ("short", "word", {}, 0), ("both", "words", {"sha256": True}, 0), ("both", "words", {}, 0),
            ("spaced", "a # word", {}, 0), ("user", "Pass", {}, 401), ("nobody", "pass", {}, 401),
            ("short", "word", {"sha256": True}, 401), ("user", "Pass", {"sha256": True}, 401),
            ("nobody", "pass", {"by_hash": True}, 401), ("", "", {}, 401),
        ]:
            with Client(server, user, password, **how) as client:
                client.allocate(wanted=wanted)
        with Client(server) as client:
            client.allocate()
            time.sleep(3.1)
            answer = client.ask(REFRESH)
            check(answer.code == 438 and NONCE in answer.values, f"{answer.code} with an old nonce")
            client.challenge = answer.values
            client.refresh()
            with Client(server, "short", "word", port=None) as other:
                other.challenge = client.challenge
                check(other.ask(ALLOCATE, UDP).code == 438, "a nonce of another client counts")
        counted = ended(server)
        check(counted["turn_allocated"] == 9 and counted["turn_stale"] == 2, str(counted))


def users_again(programs):
    """The users are read again at SIGHUP, in each process; who is no user any more is refused from then on,
    and has no allocation. A wrong file changes nothing."""
    with turn_server(programs, "-t", users="user pass\nother word\n") as server, Client(server) as client, \
            Client(server, "other", "word") as kept, Client(server, stream=True) as streams:
        client.allocate()
        streams.allocate()
        kept.allocate()
        reread(server, "users", "other word\n")
        check(server.wait_for("users-read")["users"] == "1", "another number of users")
        wait_until(lambda: server.counts()["turn_ended"] == 2, "relays of a user who is revoked last")
        client.refresh(wanted=401)
        kept.refresh()
        for stream in (False, True):
            with Client(server, "other", "word", stream=stream) as other:
                other.allocate()
        for text in ("a b\nc\n", "a b\n" * 2, "a b\n" + "c" * 3000, "a b\na md5:" + "0" * 32 + "\n"):
            reread(server, "users", text)
            refused = server.wait_for("users-refused")
            check(refused["line"] == "2", f"{text[:20]!r}: {refused}")
        (server.folder / "users").unlink()
        server.counts(signal.SIGHUP)
        check(server.wait_for("users-refused")["error"] == "2", "another error")
        with Client(server, "other", "word") as other:
            other.allocate()
        ended(server)


def limited_name(secret, seconds, name="alice"):
    """A name that is valid for so many seconds, and its password."""
    user = f"{int(time.time()) + seconds}" + (f":{name}" if name else "")
    return user, base64.b64encode(hmac.new(secret.encode(), user.encode(), hashlib.sha1).digest()).decode()


def time_limited(programs):
    """Names that are valid for a time, by each of the secrets; an allocation lasts beyond that."""
    with turn_server(programs, "-t", users="user pass\n", secret="north\n" + "s" * 100 + "\n") as server:
        for user, password, how, wanted in [
            (*limited_name("north", 100), {}, 0), (*limited_name("s" * 100, 100), {}, 0),
            (*limited_name("north", 100), {"sha256": True}, 0), (*limited_name("north", 100, ""), {}, 0),
            (*limited_name("north", 100), {"stream": True}, 0), ("user", "pass", {}, 0),
            (*limited_name("north", -1), {}, 401), (*limited_name("south", 100), {}, 401),
            (limited_name("north", 100)[0], "pass", {}, 401),
            (limited_name("north", 900)[0], limited_name("north", 100)[1], {}, 401),
            ("alice", limited_name("north", 100)[1], {}, 401),
        ]:
            with Client(server, user, password, **how) as client:
                client.allocate(wanted=wanted)
        with Client(server, *limited_name("north", 4)) as client, Peer() as peer:
            relayed = client.allocate()
            time.sleep(5)
            exchange(client, peer, relayed, b"data")
            check(client.refresh() == 600, "the allocation ends")
            with Client(server, client.user, client.password) as later:
                later.allocate(wanted=401)
        reread(server, "secret", "south\n")
        with Client(server, *limited_name("south", 100)) as client:
            client.allocate()
        with Client(server, *limited_name("north", 100)) as client:
            client.allocate(wanted=401)
        ended(server)
    with turn_server(programs, users=None, secret="north\n") as server:
        with Client(server, *limited_name("north", 100)) as client:
            client.allocate()
        ended(server)


def quotas(programs):
    """A user has so many allocations, and a process; what has ended makes room."""
    users = "".join(f"user{i} pass\n" for i in range(9))
    options = ["-o", "user-allocations=2", "-o", "allocations=5"]
    with turn_server(programs, *options, users=users) as server, contextlib.ExitStack() as all_of:
        def client(user):
            return all_of.enter_context(Client(server, user))
        first = client("user1")
        first.allocate()
        client("user1").allocate()
        client("user1").allocate(wanted=486)
        for user in ("user2", "user3", "user4"):
            client(user).allocate()
        client("user5").allocate(wanted=508)
        ask_once(server)
        first.refresh(0)
        last = client("user5")
        wait_until(lambda: last.ask(ALLOCATE, UDP).code == 0, "there is no room again")
        counted = ended(server)
        check(counted["turn_refused"] >= 2 and counted["turn_allocated"] == 6, str(counted))


def quotas_again(programs):
    """The quota of a user changes at SIGHUP, and the lifetime: a higher one has room at once; with a lower one what there is stays, and
    a request that is sent again has its response still."""
    with turn_server(programs, "-t", lines="user-allocations 1\n", users="user pass\nother pass\n") as server, \
            contextlib.ExitStack() as all_of:
        def client(*given, **how):
            return all_of.enter_context(Client(server, *given, **how))
        clients = [client() for _ in range(5)]
        clients[0].challenge = clients[0].ask_with(clients[0].request(ALLOCATE, UDP, sign=False)).values
        request = clients[0].request(ALLOCATE, UDP)
        first = clients[0].ask_with(request).address(RELAYED)
        again = clients[0].ask_with(request)
        check(again.code == 0 and again.address(RELAYED) == first, "a request that is sent again is refused")
        clients[0].allocate(wanted=437)
        clients[1].allocate(wanted=486)
        for sha256 in (False, True):
            client(sha256=sha256).allocate(wanted=486)
        client("other").allocate()
        reset(server, "user-allocations 3\n")
        clients[1].allocate()
        both = client(stream=True)
        both.allocate()  # (each process has its own)
        clients[2].allocate()
        clients[3].allocate(wanted=486)
        reset(server, "user-allocations 1\n")
        for it in clients[:3]:
            check(it.refresh() == 600, "a lower quota ends an allocation")
        for it, wanted in zip(clients[:3], (486, 486, 0)):
            it.refresh(0)
            clients[3].allocate(wanted=wanted)
        check(both.refresh(7200) == 3600, "another lifetime")
        reset(server, "user-allocations 1\nlifetime 1200\n")
        check(both.refresh(7200) == 1200, "the lifetime doesn't change")
        reset(server, "user-allocations 3\n")
        clients[4].allocate()
        check(ended(server)["turn_allocated"] == 7, "another number of allocations")


def no_ports(programs):
    """If no port is left, or no file, there are no more allocations; all else goes on."""
    for options, command, most in [
        (["-o", "ports=51000-51003"], (), 4), (["-o", "ports=51001-51001"], (), 1),
        ([], after("resource.setrlimit(resource.RLIMIT_NOFILE, (20, 20))"), 20),
    ]:
        options = ["-o", "user-allocations=100", *options]
        with turn_server(programs, *options, command=command) as server, contextlib.ExitStack() as all_of:
            clients = []
            while True:
                client = all_of.enter_context(Client(server))
                answer = client.ask(ALLOCATE, UDP)
                if answer.code == 508:
                    break
                check(answer.code == 0 and len(clients) < most, f"{answer.code} after {len(clients)}")
                clients.append((client, answer.address(RELAYED)))
            check(clients, "there is none")
            ask_once(server)
            with Peer() as peer:
                exchange(*clients[-1][:1], peer, clients[-1][1], b"data")
            clients[0][0].refresh(0)
            wait_until(lambda: client.ask(ALLOCATE, UDP).code == 0, "no port is free again")
            check(ended(server)["turn_no_port"] > 0, "no port is missing")


def forbidden(programs):
    """Peers in the server's own networks are forbidden, in all spellings, and those that it denies; the
    server itself is, even if its address is allowed."""
    four = ["127.0.0.1", "0.0.0.0", "0.1.2.3", "10.0.0.1", "100.64.0.1", "169.254.169.254", "172.16.0.1",
            "192.168.1.1", "224.0.0.1", "255.255.255.255", "198.51.103.7"]
    six = ["::1", "::", "::ffff:10.0.0.1", "::ffff:127.0.0.1", "::127.0.0.1", "64:ff9b::7f00:1",
           "2002:7f00:1::1", "fe80::1", "fc00::1", "ff02::1", "2600:7::1"]
    options = ["-o", "deny=198.51.103.0/24", "-o", "deny=2600:7::/48"]
    at = ("127.0.0.1", "::1")
    with turn_server(programs, *options, at=at, allowing=False) as server:
        for family, denied, allowed in [(b"\1", four, "198.51.101.1"), (b"\2", six, "2600:8::1")]:
            with Client(server) as client:
                client.allocate((FAMILY, family + b"\0\0\0"))
                for address in denied:
                    client.permit((address, 7), wanted=403)
                    client.bind(0x4001, (address, 7), wanted=403)
                client.permit((allowed, 7))
        check(ended(server)["turn_to_peer"] == 0, "it sends")
    with turn_server(programs) as server, Client(server) as client, Peer() as peer:
        client.allocate()
        client.permit(("127.0.0.1", 7))
        client.bind(0x4001, ("127.0.0.1", int(server.port)), wanted=403)
        client.send(("127.0.0.1", int(server.port)), REQUEST + bytes(12))
        client.permit(("::1", 7), wanted=443)
        check(client.data(0.3) is None, "the server answers itself")
        ended(server)


def bandwidths(programs):
    """What is over the bandwidth of an allocation is dropped, both ways together, and so is what is over
    that of a user, whose allocations share it over all processes; others aren't hindered."""
    users = "user pass\nother pass\n"
    for setting, most in (("bandwidth", 2 * 10), ("user-bandwidth", 10)):
        at = ("127.0.0.1", "127.0.0.2")
        with turn_server(programs, "-o", f"{setting}=10000", users=users, at=at) as server, \
                Client(server) as first, Client(server, at="127.0.0.2") as second, \
                Client(server, "other") as other, Peer() as peer:
            began = time.monotonic()
            for client in (first, second):
                relayed = client.allocate()
                client.bind(0x4000, peer.address)
                for _ in range(30):
                    client.send_on(0x4000, bytes(1000))
            heard = relayed_of(60, server, peer)
            took = time.monotonic() - began
            check(most <= heard <= most + 20 * took + 2, f"{setting}: {heard} in {took:.1f} s")
            exchange(other, peer, other.allocate(), b"data")
            ended(server)


def relayed_of(sent, server, peer):
    """How many datagrams a peer hears of so many that are sent to it; the others are over a limit."""
    def passed():
        counted = server.counts(signal.SIGUSR1)
        return counted["turn_to_peer"] if counted["turn_to_peer"] + counted["turn_over"] == sent else None
    wait_until(lambda: passed() is not None, "datagrams are lost")
    heard = passed()
    check(all(peer.hears() for _ in range(heard)), "a peer hears less than is relayed")
    check(peer.hears(0.3) is None, "a peer hears more than is relayed")
    return heard


def packet_rates(programs):
    """Datagrams without data count too: so many a second pass by the packet rate of an allocation, and of a
    user, and fewer by a bandwidth."""
    for setting, rate, most in (("packet-rate", 20, 2 * 20), ("user-packet-rate", 20, 20),
                                ("bandwidth", 560, 2 * 20), ("user-bandwidth", 560, 20)):
        with turn_server(programs, "-o", f"{setting}={rate}") as server, Client(server) as first, \
                Client(server) as second, Peer() as peer:
            for client in (first, second):
                client.allocate()
                client.bind(0x4000, peer.address)
            began = time.monotonic()
            for client in (first, second):
                for _ in range(200):
                    client.send_on(0x4000, b"")
            heard = relayed_of(400, server, peer)
            took = time.monotonic() - began
            check(most <= heard <= most + 40 * took + 2, f"{setting}: {heard} in {took:.1f} s")
            ended(server)


def workers_killed(programs):
    """The clients of a worker that dies allocate anew, with the nonces that they have; those of others
    go on. The allocation's socket has gone with its worker."""
    at = ("127.0.0.1", "127.0.0.2")
    with turn_server(programs, at=at) as server, Client(server) as client, \
            Client(server, at="127.0.0.2") as other, Peer() as peer:
        def sizes():
            return {it: len(os.listdir(f"/proc/{it}/fd")) for it in server.workers()}
        kept = other.allocate()
        other.bind(0x4000, peer.address)
        before = sizes()
        relayed = client.allocate()
        client.bind(0x4000, peer.address)
        grown = [it for it, size in sizes().items() if size > before[it]]
        check(len(grown) == 1, f"files of {before} become {sizes()}")
        os.kill(grown[0], signal.SIGKILL)
        server.wait_for("worker-died")
        other.send_on(0x4000, b"on")
        check(peer.hears() == (kept, b"on"), "another worker's client is hindered")
        wait_until(lambda: len(sizes()) == 2, "no other worker")
        client.refresh(wanted=437)
        exchange(client, peer, client.allocate(), b"anew")
        with Peer() as taken:
            taken.socket.close()
            taken.socket = socket.socket(socket.AF_INET, socket.SOCK_DGRAM)
            taken.socket.bind(relayed)
        server.end()


def connections(programs):
    """A connection with an allocation lasts as long as that, whatever the time-outs and however full the
    table; when it is closed its relay ends at once, and the next connection of its 5-tuple has nothing of it."""
    options = ["-t", "-o", "idle-timeout=3", "-o", "max-age=4", "-o", "max-connections=2"]
    with turn_server(programs, *options) as server, Peer() as peer:
        before = server.sockets()
        with Client(server, stream=True) as client, Client(server, stream=True) as idle:
            relayed = client.allocate()
            idle.ask_with(REQUEST + bytes(12))
            check(is_closed(idle.socket), "a connection without an allocation stays")
            time.sleep(1.5)
            exchange(client, peer, relayed, b"data")
            with Client(server, stream=True) as second:
                second.allocate()
                with Client(server, stream=True) as third:
                    third.socket.send(REQUEST + bytes(12))
                    check(is_closed(third.socket), "a connection with an allocation goes for another")
                exchange(client, peer, relayed, b"data")
                second.refresh(0)
            port = client.socket.getsockname()[1]
            client.socket.setsockopt(socket.SOL_SOCKET, socket.SO_LINGER, struct.pack("ii", 1, 0))
        wait_until(lambda: server.sockets() == before, f"sockets are left: {server.sockets()}")
        wait_until(lambda: server.counts()["turn_ended"] == 2, "the relay of a closed connection lasts")
        with Client(server, stream=True, port=port) as again:
            exchange(again, peer, again.allocate(), b"anew")
        ended(server)


def unread(programs):
    """A client that doesn't read its connection loses data, whole messages, and what it sends passes; others
    lose nothing."""
    with turn_server(programs, "-t") as server, Peer() as peer, Client(server, stream=True) as deaf, \
            Client(server, stream=True) as client:
        deaf_at, relayed = deaf.allocate(), client.allocate()
        for it in (deaf, client):
            it.bind(0x4000, peer.address)
        for _ in range(60):
            for _ in range(20):
                peer.socket.sendto(bytes(60000), deaf_at)
            peer.socket.sendto(b"data", relayed)
            check(client.data() == (0x4000, b"data"), "another client is hindered")
            for _ in range(5):
                deaf.send_on(0x4000, bytes(1000))
                check(peer.hears() == (deaf_at, bytes(1000)), "what it sends is kept back")
        check(server.counts()["turn_unread"] > 0, "nothing is dropped")
        while (got := deaf.data(1)) is not None:
            check(got == (0x4000, bytes(60000)), "a message is torn")
        ended(server)


def late_readers(programs):
    """A client that reads late gets each response to the requests that it sent meanwhile, also if the data of
    a peer has taken all room before, and it sends many."""
    with turn_server(programs, "-t") as server, Peer() as peer, Client(server, stream=True) as late:
        relayed = late.allocate()
        late.bind(0x4001, peer.address)
        for requests in (60, 1000):
            wait_until(lambda: is_full(server, peer, relayed), "there is room for data")
            numbers = [secrets.token_bytes(12) for _ in range(requests)]
            late.socket.sendall(b"".join(late.request(REFRESH, number=it) for it in numbers))
            time.sleep(0.3)
            heard = []
            while len(heard) < requests and (message := late.receive()) is not None:
                if message[0] < 0x40:
                    heard.append(message[8:20])
            check(heard == numbers, f"{requests - len(heard)} of {requests} responses are lost")
            late.refresh()  # (what data is left comes before its response)
        exchange(late, peer, relayed, b"data")
        ended(server)


def is_full(server, peer, relayed):
    """Whether nothing of a peer's data, twice in turn, has room for a client that doesn't read."""
    unread_of(server, peer, relayed, [20000] * 4)
    return all(unread_of(server, peer, relayed, [1000] * 40) == 40 for _ in range(2))


def unread_of(server, peer, relayed, sizes):
    """How many of a peer's datagrams have no room."""
    def counts():
        counted = server.counts(signal.SIGUSR1)
        return counted["turn_to_client"], counted["turn_unread"]
    taken, dropped = counts()
    for size in sizes:
        peer.socket.sendto(bytes(size), relayed)
    wait_until(lambda: counts()[0] == taken + len(sizes), "data of a peer is lost before")
    return counts()[1] - dropped


def rates(programs):
    """The limit of answers is for those who aren't authenticated: data and signed requests pass."""
    with turn_server(programs, "-o", "rate=2", "-o", "slip=0") as server, Client(server) as client, \
            Peer() as peer:
        relayed = client.allocate()
        for _ in range(50):
            client.socket.send(REQUEST + bytes(12))
            client.socket.send(client.request(ALLOCATE, UDP, sign=False))
        wait_until(lambda: server.counts(signal.SIGUSR1)["udp_limited"] > 90, "nothing is limited")
        client.kept = b""
        client.refresh()  # (what else is answered comes before its response)
        for _ in range(30):
            exchange(client, peer, relayed, b"data")
        ended(server)


def outside(programs):
    """Clients of a server that has a NAT before it learn the NAT's address. A socket for all addresses answers from the one that
    was asked."""
    options = ["-o", "relay-address=127.0.0.3", "-o", "external-address=198.51.100.9",
               "-o", "allow=198.51.100.0/24"]
    with turn_server(programs, *options) as server, Client(server) as client, Peer() as peer:
        address, port = client.allocate()
        check(address == "198.51.100.9", f"clients learn {address}")
        exchange(client, peer, ("127.0.0.3", port), b"data")
        client.permit(("198.51.100.9", 7))
        client.bind(0x4005, ("198.51.100.9", int(server.port)), wanted=403)
        ended(server)
    options = ["-t", "-o", "relay-address=127.0.0.3", "-o", "relay-address=::1"]
    for stream in (False, True):
        with turn_server(programs, *options, at=("::",)) as server, Peer() as peer:
            for at in ("127.0.0.1", "127.0.0.2", "::1"):
                with Client(server, at=at, source=OTHER.get(at, "127.0.0.1"), stream=stream) as client:
                    relayed = client.allocate()
                    exchange(client, peer, relayed, b"data")
                    client.bind(0x4005, (relayed[0], int(server.port)), wanted=403)
                    client.bind(0x4006, ("127.0.0.1", int(server.port)), wanted=403)
            ended(server)


def misused(programs):
    """What can't work is refused at the start, and said."""
    with folder_of(programs) as folder:
        users = folder / "users"
        write(users, "user pass\n")
        right = ["realm=example.org", f"users={users}"]
        for status, given, told in [
            (78, right[1:], "realm"), (78, right[:1], "users"), (78, [right[0], f"users={folder}/none"], "none"),
            (3, [*right, "relay-address=192.0.2.1"], "192.0.2.1"),
            (78, [*right, "external-address=2001:db8::1"], "external"),
            (78, [*right, "relay-address=0.0.0.0"], "external"),
            *((64, [it], it) for it in ("turn=2", "realm=", "ports=5-4", "ports=1", "allow=10.0.0.1/8", "deny=10/8",
                                        "allow=10.0.0.0/33", "relay-address=host", "lifetime=1", "deny=10.0.0.1:",
                                        "deny=10.0.0.1:0", "deny=10.0.0.0/8:5-4", "allow=10.0.0.1:65536",
                                        "deny=[::1]", "deny=[::1]80")),
            (64, ["realm=a", "realm=b"], "realm=b"),
        ]:
            got, said = start_at(programs, "127.0.0.1", given)
            check(got == status and told in said, f"{given}: status {got}: {said}")
        got, said = start_at(programs, "0.0.0.0", right)
        check(got == 78 and "relay-address" in said, f"status {got}: {said}")
        with socket.socket(socket.AF_INET, socket.SOCK_DGRAM) as passed:
            passed.bind(("127.0.0.1", 0))
            command = [sys.executable, "-c", PASS_ON, "1", str(passed.fileno()), programs["server"], "-j", "2"]
            words = [word for it in ["turn=1", *right] for word in ("-o", it)]
            got, _, said = run([*command, *words], pass_fds=[passed.fileno()])
            check(got == 78 and "-j 1" in said, f"processes that share a socket: status {got}: {said}")


def start_at(programs, address, settings):
    """The status and the errors of a server that can't begin with these settings."""
    words = [word for it in settings for word in ("-o", it)]
    status, _, told = run([programs["server"], "--turn", *words, address, free_port([address])])
    return status, told


def own_client(programs):
    """stun-turn-client allocates, sends by indications and on a channel, and deletes."""
    echoing = """
import socket
peer = socket.socket(socket.AF_INET, socket.SOCK_DGRAM)
peer.bind(("127.0.0.9", 0))
print(peer.getsockname()[1], flush=True)
while True:
    peer.sendto(*peer.recvfrom(2000))
"""
    with turn_server(programs, "-t") as server, \
            subprocess.Popen([sys.executable, "-c", echoing], stdout=subprocess.PIPE, text=True) as peer:
        try:
            port = int(peer.stdout.readline())
            for how in ("-p", "-c"):
                for stream in ([], ["-t"]):
                    words = ["-u", "user", *stream, how, f"127.0.0.9:{port}", "-r", "20", f"127.0.0.1:{server.port}"]
                    status, out, told = run([programs["turn_client"], *words], 3 * PATIENCE,
                                            env={**os.environ, "STUN_PASSWORD": "pass"})
                    check(status == 0 and "hello" in out, f"status {status}: {out}{told}")
        finally:
            peer.kill()
        wait_until(lambda: server.counts()["turn_ended"] == 4, "the allocations haven't ended")
        ended(server)


def behind_tls(programs):
    """Clients come by TLS, which the programs end whose configurations are here, and learn their own
    addresses."""
    tried = False
    for name, file in (("stunnel", "stunnel.conf"), ("haproxy", "haproxy.cfg")):
        if shutil.which(name) and shutil.which("openssl"):
            behind(programs, name, (HERE / file).read_text())
            tried = True
    if not tried:
        raise Skipped("neither stunnel nor haproxy, with openssl, is on this machine")


def behind(programs, name, text):
    port = free_port(["127.0.0.1"])
    with turn_server(programs, "-t", "-o", "proxy=127.0.0.1") as server, Peer() as peer:
        cert, key, both = (server.folder / it for it in ("cert.pem", "key.pem", "both.pem"))
        words = ["openssl", "req", "-x509", "-newkey", "rsa:2048", "-nodes", "-days", "2", "-subj", "/CN=localhost"]
        status, _, told = run([*words, "-keyout", str(key), "-out", str(cert)], PATIENCE)
        check(status == 0, told)
        both.write_text(cert.read_text() + key.read_text())
        for old, new in [(":::5349", f"127.0.0.1:{port}"), ("127.0.0.1:3478", f"127.0.0.1:{server.port}"),
                         ("/etc/ssl/certs/turn.pem", cert), ("/etc/ssl/private/turn.key", key),
                         ("/etc/haproxy/turn.pem", both), ("setuid = nobody\nsetgid = nogroup\n", "")]:
            text = text.replace(old, str(new))
        file = server.folder / name
        file.write_text(text)
        front = subprocess.Popen([name, *(["-f"] if name == "haproxy" else []), str(file)],
                                 stdout=subprocess.DEVNULL, stderr=subprocess.DEVNULL)
        try:
            wait_until(lambda: can_connect(port), f"{name} doesn't listen")
            trusting = ssl.create_default_context(cafile=str(cert))
            with Client(server, stream=True, source="127.0.0.7") as client:
                client.socket.close()
                plain = socket.create_connection(("127.0.0.1", int(port)), PATIENCE, ("127.0.0.5", 0))
                plain_address = plain.getsockname()
                client.socket = trusting.wrap_socket(plain, server_hostname="localhost")
                own = client.ask_with(REQUEST + secrets.token_bytes(12)).address(MAPPED)
                check(own == plain_address, f"through {name} a client at {plain_address} learns {own}")
                exchange(client, peer, client.allocate(), b"data")
                client.refresh(0)
            if shutil.which("stunnel"):
                own_client_by_tls(programs, server, port, cert)
        finally:
            front.kill()
            front.wait()
        ended(server)


def own_client_by_tls(programs, server, port, cert):
    """stun-turn-client, which has no TLS, goes by a stunnel beside it."""
    near, file = free_port(["127.0.0.1"]), server.folder / "near.conf"
    file.write_text(f"foreground = yes\npid =\n[turns]\nclient = yes\naccept = 127.0.0.1:{near}\n"
                    f"connect = 127.0.0.1:{port}\nverifyChain = yes\nCAfile = {cert}\n")
    words = [programs["turn_client"], "-u", "user", "-t", "-c", "127.0.0.9:9", f"127.0.0.1:{near}"]
    with subprocess.Popen(["stunnel", str(file)], stdout=subprocess.DEVNULL, stderr=subprocess.DEVNULL) as adding:
        try:
            wait_until(lambda: can_connect(near), "the client's stunnel doesn't listen")
            status, out, told = run(words, 3 * PATIENCE, env={**os.environ, "STUN_PASSWORD": "pass"})
            right = re.search(r"channel 0x4000 of 127\.0\.0\.9:9\nsent 5 bytes to .*\ndeleted\n$", out)
            check(status == 0 and right, f"status {status}: {out}{told}")
        finally:
            adding.kill()


def can_connect(port):
    with contextlib.suppress(OSError):
        socket.create_connection(("127.0.0.1", int(port)), 1).close()
        return True
    return False


def dropped():
    """How many datagrams the kernel has dropped, since a socket's buffer was full."""
    names, counts = [line.split() for line in pathlib.Path("/proc/net/snmp").read_text().splitlines()
                     if line.startswith("Udp:")]
    return int(counts[names.index("RcvbufErrors")])


def coturn_clients(server_port, kinds):
    """coturn's client by each of these kinds of words at once, and its peer: no message is lost, but those
    that the kernel drops while a busy machine leaves nobody to read them."""
    if not shutil.which("turnutils_uclient") or not shutil.which("turnutils_peer"):
        raise Skipped("coturn's turnutils_uclient and turnutils_peer aren't on this machine")
    port, before, lost_in_all = free_port(["127.0.0.1"]), dropped(), 0
    with contextlib.ExitStack() as all_of:
        def start(*words, **how):
            started = all_of.enter_context(subprocess.Popen([*words, "127.0.0.1"], text=True, **how))
            all_of.callback(started.kill)
            return started
        start("turnutils_peer", "-p", port, "-L", stdout=subprocess.DEVNULL, stderr=subprocess.DEVNULL)
        words = ["turnutils_uclient", "-c", "-u", "user", "-w", "pass", "-e", "127.0.0.1", "-r", port,
                 "-p", str(server_port), "-m", "10", "-n", "200"]
        ran = [start(*words, *kind, stdout=subprocess.PIPE, stderr=subprocess.STDOUT) for kind in kinds]
        for kind, one in zip(kinds, ran):
            out, _ = one.communicate(timeout=5 * PATIENCE)
            lost = re.findall(r"Total lost packets (\d+)", out)
            sent = re.findall(r"tot_send_msgs=(\d+), tot_recv_msgs=(\d+)\n", out)
            right = one.returncode == 0 and lost and sent and sent[-1][0] == "2000" and sent[-1][1] != "0"
            check(right, f"{kind}: status {one.returncode}: {out[-500:]}")
            lost_in_all += int(lost[-1])
    drops = dropped() - before
    check(lost_in_all <= drops, f"{lost_in_all} messages are lost, of which the kernel dropped {drops}")


def coturn_client(programs):
    """coturn's client, with Send indications and with channels, over UDP and TCP: no message is lost."""
    options = ["-t", "-j", "2", "-o", "old-channels=1", "-o", "user-allocations=1000"]
    with turn_server(programs, *options) as server:
        coturn_clients(server.port, (["-s"], [], ["-s", "-t"], ["-t"]))
        ended(server)
