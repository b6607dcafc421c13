"""The servers that other people's clients are tried against: this one, or coturn in its place. Both serve
UDP and TCP at the server's addresses, and relay there."""
import contextlib
import dataclasses
import ipaddress
import re
import shutil
import socket
import subprocess
import types

from harness import free_port
from hosts import NETWORKS, SERVER
from operators import HERE
from steps import REQUEST, Skipped, TOP, check, wait_until
from turn import ended, limited_name, turn_server

REALM = "example.org"
USER, PASSWORD = "alice", "wonderland"
SECRET = "a secret of the server and of those who give credentials"
DEFAULTS = TOP / "crates/turn_peers/src/defaults.rt"


@dataclasses.dataclass
class Settings:
    """What a trial asks of a server."""
    timed: bool = False  # credentials are valid for a time
    old_channels: bool = False
    channel_permits: bool = False
    extensions: bool = False  # reserved ports, DONT-FRAGMENT, ICMP and fields of the IP header, which coturn has
    nonce_seconds: int = 0  # that a nonce is valid; 0: as long as the server likes
    port: str = ""  # that of a server before this one; otherwise any

    def credentials(self):
        """A name and a password."""
        return limited_name(SECRET, 3600, USER) if self.timed else (USER, PASSWORD)


def denied_prefixes():
    """The prefixes that this server denies by default, but for those of the hosts."""
    found = []
    for kind, number, length in re.findall(r"v([46])!\((0x[0-9A-F_]+) / (\d+)\)", DEFAULTS.read_text()):
        address = ipaddress.IPv6Address if kind == "6" else ipaddress.IPv4Address
        found.append(ipaddress.ip_network((address(int(number, 16)), int(length))))
    more = re.findall(r'^    "([0-9a-f.:]+/\d+)",', (HERE / "peers.c").read_text(), re.M)
    check(len(found) > 10 and {*NETWORKS} < {*more}, f"{DEFAULTS} or peers.c has no list of prefixes")
    return found + [ipaddress.ip_network(it) for it in more if it not in NETWORKS]


def answers(address, port, kind):
    """Whether a server answers binding requests by a kind of sockets."""
    family = socket.AF_INET6 if ":" in address else socket.AF_INET
    with socket.socket(family, kind) as asking, contextlib.suppress(OSError):
        asking.settimeout(0.2)
        asking.connect((address, int(port)))
        asking.send(REQUEST + bytes(12))
        return asking.recv(2048)[:2] == b"\1\1"
    return False


@contextlib.contextmanager
def coturn(host, folder, settings):
    """Starts coturn's turnserver. Yields something with its port."""
    program = shutil.which("turnserver")
    if not program:
        raise Skipped("it needs turnserver, of coturn")
    with host.inside():
        port = settings.port or free_port(SERVER)
    words = [program, "-n", "--no-cli", "--no-tls", "--no-dtls", "--no-software-attribute", "--realm", REALM,
             "--listening-port", port, "--pidfile", folder / "turnserver.pid", "--log-file", "stdout",
             "--db", folder / "turnserver.db"]
    for address in SERVER:
        words += ["--listening-ip", address, "--relay-ip", address]
    # (a range from :: would have all of IPv4 in it)
    words += [f"--denied-peer-ip={it[1]}-{it[-1]}" for it in denied_prefixes()]
    if settings.nonce_seconds:
        words.append(f"--stale-nonce={settings.nonce_seconds}")
    if settings.timed:
        words += ["--use-auth-secret", "--static-auth-secret", SECRET]
    else:
        words += ["--lt-cred-mech", "--user", f"{USER}:{PASSWORD}"]
    with open(folder / "turnserver.log", "w") as log, host.inside():
        ran = subprocess.Popen(list(map(str, words)), stdin=subprocess.DEVNULL, stdout=log, stderr=log)
    try:
        with host.inside():
            for address in SERVER:
                for kind in (socket.SOCK_DGRAM, socket.SOCK_STREAM):
                    wait_until(lambda: answers(address, port, kind), "coturn doesn't answer")
        yield types.SimpleNamespace(port=port)
        check(ran.poll() is None, f"coturn ended with status {ran.returncode}")
    finally:
        ran.kill()
        ran.wait()


@contextlib.contextmanager
def this_server(program, host, _, settings):
    """Starts this server. Yields something with its port."""
    options = ["-o", f"old-channels={int(settings.old_channels)}", "-o", "user-allocations=100",
               "-o", f"channel-permits={int(settings.channel_permits)}"]
    if settings.extensions:
        options += [word for it in ("reservations=100", "dont-fragment=1", "icmp=1", "header-fields=1")
                    for word in ("-o", it)]
    if settings.nonce_seconds:
        options += ["-o", f"nonce-lifetime={settings.nonce_seconds}"]
    options += [word for it in NETWORKS for word in ("-o", f"allow={it}")]
    known = {"users": None, "secret": f"{SECRET}\n"} if settings.timed else {"users": f"{USER} {PASSWORD}\n"}
    with contextlib.ExitStack() as all_of:
        with host.inside():
            at = [word for address in SERVER for word in (address, settings.port)] if settings.port else []
            server = all_of.enter_context(turn_server({"server": program}, "-t", *options, *at,
                                                      at=() if at else SERVER, allowing=False, **known))
            server.port = settings.port or server.port
        yield server
        ended(server)
