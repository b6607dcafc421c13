"""A coturn of its own for a row, on the loopback, with the clients and peers of the row as sockets."""
import contextlib
import ipaddress
import pathlib
import select
import socket
import subprocess
import sys
import time

sys.path.insert(0, str(pathlib.Path(__file__).resolve().parents[2] / "turn_model"))
import judging
import wire

# How long to wait for a datagram that may not come, and for the server to begin, in seconds.
QUIET, BEGINNING = 0.3, 20
# The lifetimes of a permission and of a channel, in real seconds.
PERMISSION, CHANNEL = 8, 16
FORBIDDEN = ["10.0.0.0-10.255.255.255", "fc00::-fdff:ffff:ffff:ffff:ffff:ffff:ffff:ffff"]
LOOPBACK_V6 = ipaddress.ip_address("::1").packed


def has_ipv6():
    """Whether there is an IPv6 loopback address."""
    with socket.socket(socket.AF_INET6, socket.SOCK_DGRAM) as tried:
        try:
            tried.bind(("::1", 0))
        except OSError:
            return False
    return True


def text_of(address):
    return str(ipaddress.ip_address(address))


class Place:
    """The server, and the sockets of clients and peers; `number` makes its addresses its own."""

    def __init__(self, number, setup, folder):
        self.host = f"127.{20 + number // 200}.{number % 200 + 1}"
        self.port = 20_000 + number
        self.sockets, self.names, self.nonces, self.relayed, self.rests = {}, {}, {}, [], {}
        self.setup, self.folder, self.ran = setup, folder, None
        self.stack = contextlib.ExitStack()

    def __enter__(self):
        v6 = [] if "ipv4-only" in self.setup.options else ["-E", "::1"]
        command = [
            "turnserver", "-n", "--no-cli", "--no-tls", "--no-dtls", "--no-tcp-relay", "--lt-cred-mech",
            "--realm", judging.REALM.decode(), "--allow-loopback-peers", "--relay-threads", "1",
            "--listening-port", str(self.port), "-L", f"{self.host}.9", "-L", f"{self.host}.10", "-L", "::1",
            "-E", f"{self.host}.9", *v6, f"--permission-lifetime={PERMISSION}", f"--channel-lifetime={CHANNEL}",
            f"--max-allocate-lifetime={self.setup.greatest}", f"--user-quota={self.setup.relays_per_user}",
            f"--total-quota={self.setup.relays}", "--userdb", str(self.folder / f"db{self.port}"),
            "--pidfile", str(self.folder / f"pid{self.port}"), "--log-file", "/dev/null", "--simple-log",
        ]
        self.see_that_the_port_is_free()
        for name, password in judging.USERS.items():
            command += ["--user", f"{name.decode()}:{password.decode()}"]
        for prefix in FORBIDDEN:
            command += ["--denied-peer-ip", prefix]
        self.ran = subprocess.Popen(command, stdout=subprocess.DEVNULL, stderr=subprocess.DEVNULL)
        self.stack.callback(self.end)
        try:
            self.wait_until_it_answers()
        except OSError:
            self.stack.close()
            raise
        return self

    def __exit__(self, *why):
        self.stack.close()

    def end(self):
        self.ran.terminate()
        try:
            self.ran.wait(5)
        except subprocess.TimeoutExpired:
            self.ran.kill()
            self.ran.wait()

    def see_that_the_port_is_free(self):
        """Fails if another process has it, since coturn shares a port, and that one would answer."""
        with socket.socket(socket.AF_INET, socket.SOCK_DGRAM) as tried:
            tried.bind((f"{self.host}.9", self.port))

    def wait_until_it_answers(self):
        until = time.monotonic() + BEGINNING
        request = wire.assemble("request", 1, bytes(12), [])
        hosts = [(socket.AF_INET, f"{self.host}.9"), (socket.AF_INET, f"{self.host}.10"), (socket.AF_INET6, "::1")]
        for family, host in hosts:
            with socket.socket(family, socket.SOCK_DGRAM) as tried:
                tried.settimeout(0.1)
                while time.monotonic() < until and self.ran.poll() is None:
                    try:
                        tried.sendto(request, (host, self.port))
                        tried.recv(2000)
                        break
                    except OSError:
                        time.sleep(0.02)
                else:
                    raise OSError("coturn doesn't begin")

    # addresses of a row, and those of the loopback instead

    def real(self, peer):
        """The loopback address for a peer of a row."""
        address, port = peer
        if address[:3] == bytes([198, 51, 100]):
            return f"{self.host}.{100 + address[3]}", port
        if address[:4] == bytes.fromhex("20010db8"):
            # (all rows share this address)
            return "::1", self.port - 8_000
        return text_of(address), port

    def replaced(self, value, identity):
        """The value of an XOR-PEER-ADDRESS, with the loopback address for a peer."""
        peer = wire.read_xor_address(identity, value)
        if peer is None:
            return value
        host, port = self.real(peer)
        return wire.xor_address(identity, (ipaddress.ip_address(host).packed, port))

    def spelled(self, host, port):
        """A peer as the row has it."""
        packed = ipaddress.ip_address(host.split("%")[0]).packed
        if packed == LOOPBACK_V6:
            packed, port = bytes.fromhex("20010db8000000000000000000000017"), 4000
        elif host.startswith(f"{self.host}."):
            packed = bytes([198, 51, 100, packed[3] - 100])
        return f"{packed.hex()}:{port}"

    # sockets

    def open(self, key, family, kind, address):
        if key not in self.sockets:
            made = self.stack.enter_context(socket.socket(family, kind))
            made.setsockopt(socket.SOL_SOCKET, socket.SO_REUSEADDR, 1)
            made.setsockopt(socket.SOL_SOCKET, socket.SO_RCVBUF, 1 << 20)
            made.bind(address)
            self.sockets[key], self.names[made] = made, key
        return self.sockets[key]

    def client(self, name):
        """The socket of a 5-tuple, and the server's address."""
        host, port = {"3": (f"{self.host}.2", 5001), "2": (f"{self.host}.1", 5002)}.get(name, (f"{self.host}.1", 5001))
        to = (f"{self.host}.10" if name == "4" else f"{self.host}.9", self.port)
        if name == "6":
            return self.open(name, socket.AF_INET6, socket.SOCK_DGRAM, ("::1", self.port - 9_000)), ("::1", self.port)
        if name == "5":
            made = self.open(name, socket.AF_INET, socket.SOCK_STREAM, (host, port))
            if name not in self.rests:
                made.connect(to)
                self.rests[name] = b""
            return made, to
        if name in "14":
            # (one socket: the 5-tuples differ by the server's address)
            return self.open("1", socket.AF_INET, socket.SOCK_DGRAM, (host, port)), to
        return self.open(name, socket.AF_INET, socket.SOCK_DGRAM, (host, port)), to

    def peer(self, peer):
        host, port = self.real(peer)
        family = socket.AF_INET6 if ":" in host else socket.AF_INET
        return self.open(("peer", host, port), family, socket.SOCK_DGRAM, (host, port))

    def send(self, name, octets):
        made, to = self.client(name)
        made.sendall(octets) if name == "5" else made.sendto(octets, to)

    def received(self, timeout=QUIET):
        """The next datagram: the name of the socket, octets and source; None if there is none in time."""
        until = time.monotonic() + timeout
        while True:
            for name in self.rests:
                if (octets := self.cut(name)) is not None:
                    return name, octets, None
            ready = select.select([*self.names], [], [], max(0, until - time.monotonic()))[0]
            if not ready:
                return None
            name = self.names[ready[0]]
            if name == "5":
                got = ready[0].recv(70_000)
                self.rests[name] += got
                if not got:
                    return None
            else:
                octets, source = ready[0].recvfrom(70_000)
                return ("4" if name == "1" and source[0] == f"{self.host}.10" else name), octets, source

    def cut(self, name):
        """The first message of a stream, or None if it isn't there yet."""
        rest = self.rests[name]
        if len(rest) < 4:
            return None
        length = int.from_bytes(rest[2:4])
        length = 4 + length + -length % 4 if rest[0] >= 0x40 else 20 + length
        if len(rest) < length:
            return None
        self.rests[name] = rest[length:]
        return rest[:length]
