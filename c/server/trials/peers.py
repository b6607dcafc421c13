"""Trials of whom clients of a TURN server reach as peers, and of what they don't reach."""
import contextlib
import ipaddress
import re
import socket
import sys

from harness import after, in_own_network
from manager import PASS_ON
from operators import HERE
from steps import PATIENCE, REQUEST, Skipped, Wrong, check, run, wait_until
from turn import BIND, CHANNEL, FAMILY, NONCE, PEER, PERMIT, Client, Peer, ended, reset, turn_server

HOST, LATER = {4: "203.0.113.5", 6: "2001:db8:5::5"}, {4: "203.0.113.6", 6: "2001:db8:5::6"}
ELSEWHERE = {4: "203.0.113.77", 6: "2001:db8:7::7"}
LOOPBACK = {4: "127.0.0.1", 6: "::1"}
OPEN = [word for it in ("127.0.0.0/8", "::1", "203.0.113.0/24", "2001:db8::/32") for word in ("-o", f"allow={it}")]
# what isn't globally reachable by IANA's registries of special-purpose addresses (RFC 6890) on 30 November 2026,
# what has an IPv4 address in it, and site-local ones (RFC 3879)
NOWHERE = ["0.0.0.0/8", "10.0.0.0/8", "100.64.0.0/10", "127.0.0.0/8", "169.254.0.0/16", "172.16.0.0/12",
           "192.0.0.0/24", "192.0.2.0/24", "192.88.99.0/24", "192.168.0.0/16", "198.18.0.0/15", "198.51.100.0/24",
           "203.0.113.0/24", "224.0.0.0/3", "::/96", "::ffff:0:0/96", "64:ff9b::/96", "64:ff9b:1::/48", "100::/64",
           "100:0:0:1::/64", "2001::/23", "2001:db8::/32", "2002::/16", "3fff::/20", "5f00::/16", "fc00::/7",
           "fe80::/10", "fec0::/10", "ff00::/8"]
DOCUMENTATION = ["192.0.2.0/24", "198.51.100.0/24", "203.0.113.0/24", "2001:db8::/32", "3fff::/20"]
# has sockets of other families refused, as systemd does
RESTRICT = """
steps = [(0x20, 0, 0, 0), (0x15, 0, {count} + 2, 41), (0x20, 0, 0, 16)]
steps += [(0x15, {count} - i, 0, family) for i, family in enumerate({families})]
steps += [(0x06, 0, 0, 0x00050061), (0x06, 0, 0, 0x7FFF0000)]
code = ctypes.create_string_buffer(b"".join(struct.pack("HBBI", *step) for step in steps))
program = struct.pack("HP", len(steps), ctypes.addressof(code))
system = ctypes.CDLL(None)
if system.prctl(38, 1, 0, 0, 0) != 0 or system.prctl(22, 2, program) != 0:
    sys.exit("no filter")
"""


def as_the_unit():
    """A command whose sockets have the families of the unit alone."""
    unit = (HERE / "stun-server.service").read_text()
    names = re.search(r"^RestrictAddressFamilies=(.*)$", unit, re.M)[1].split()
    families = [int(getattr(socket, it)) for it in names]
    command = after(RESTRICT.format(count=len(families), families=families))
    if run([*command, "/bin/true"])[0] != 0:
        raise Skipped("system calls can't be filtered here")
    return command


def add_address(address):
    # (nobody else is asked for an IPv6 address, which could be used only later)
    at_once = ["nodad"] if ":" in address else []
    status, _, told = run(["ip", "address", "add", address, "dev", "lo", *at_once])
    check(status == 0, told)


def own_ports(programs):
    """Nobody reaches a port at which the server listens, nor that of its reports, at any address of its host,
    also one that comes later, however the server was bound, and under its unit; other ports there and the
    same ports elsewhere are reached, and a refused request changes nothing."""
    for command in ((), as_the_unit()):
        for at in (("0.0.0.0",), ("::",), ("127.0.0.1", "::1")):
            in_own_network(own_ports_at, programs, at, command)
    in_own_network(own_ports_passed, programs)


def own_ports_passed(programs):
    """The same of a socket that it was started with."""
    add_address(HOST[4] + "/32")
    with socket.socket(socket.AF_INET, socket.SOCK_DGRAM) as passed:
        passed.bind(("0.0.0.0", 3478))
        command = [sys.executable, "-c", PASS_ON, "1", str(passed.fileno())]
        options = [*OPEN, "-m", "9478", "-o", f"relay-address={HOST[4]}"]
        with turn_server(programs, *options, at=(), allowing=False, command=command,
                         pass_fds=[passed.fileno()]) as server:
            server.port = "3478"
            with Client(server) as client, Client(server) as other:
                own_ports_of(server, client, other, 4, "a socket that was passed")
            ended(server)


def own_ports_at(programs, at, command):
    families = [4] if at == ("0.0.0.0",) else [4, 6]
    relays = [f"relay-address={HOST[it]}" for it in families]
    options = [*OPEN, "-t", "-m", "9478", *(word for it in relays for word in ("-o", it))]
    for family in families:
        add_address(HOST[family] + ("/32" if family == 4 else "/128"))
    with turn_server(programs, *options, at=at, allowing=False, command=command) as server:
        for family in families:
            with Client(server, at=LOOPBACK[family]) as client, Client(server, at=LOOPBACK[family]) as other:
                own_ports_of(server, client, other, family, f"{at}, {'unit' if command else 'no unit'}")
        ended(server)


def bound(client, address, port, channel=0x4001):
    """The code of a ChannelBind."""
    return client.ask(BIND, (CHANNEL, channel.to_bytes(2, "big") + b"\0\0"), (PEER, (address, port))).code


def own_ports_of(server, client, other, family, when):
    wanted = (FAMILY, bytes([family // 3, 0, 0, 0]))
    (host, first), (_, second) = client.allocate(wanted), other.allocate(wanted)
    own = [HOST[family], LOOPBACK[family]] + (["127.0.0.77"] if family == 4 else [])
    add_address(LATER[family] + ("/32" if family == 4 else "/128"))
    for address in [*own, LATER[family]]:
        client.permit((address, 7))
        for port in (int(server.port), 9478):
            code = bound(client, address, port)
            check(code == 403, f"{when}: ChannelBind to {address}, port {port}: {code}")
            client.send((address, port), REQUEST + bytes(12))
    check(client.data(0.3) is None, f"{when}: the server answers itself")
    client.bind(0x4001, (ELSEWHERE[family], int(server.port)))
    client.bind(0x4002, (host, second))
    other.permit((host, first))
    client.send_on(0x4002, b"from user to user")
    check(other.data() == ((host, first), b"from user to user"), f"{when}: users don't reach each other")


def ports(programs):
    """Rules deny and allow ports of a prefix; the longest prefix decides, of equal ones deny."""
    rules = ["deny=198.51.101.0/24:1-1023", "deny=[2001:db8:7::/48]:53", "deny=2001:db8:7:1::/64",
             "allow=[2001:db8:7:1::1]:80", "allow=10.1.0.0/16:5000-6000", "allow=10.1.2.3",
             "deny=10.1.2.0/24:5555", "allow=10.3.0.0/16:80", "allow=10.3.0.0/16:443", "deny=10.3.0.0/16:443",
             "allow=2001:db8::/32"]
    cases = {"198.51.101.7": {1: 403, 80: 403, 1023: 403, 1024: 0, 65535: 0}, "198.51.102.7": {80: 0},
             "10.1.0.1": {5000: 0, 6000: 0, 4999: 403, 6001: 403, 80: 403}, "10.1.2.4": {5554: 0, 5555: 403, 1: 403},
             "10.1.2.3": {1: 0, 5555: 0, 65535: 0}, "10.2.0.1": {5000: 403}, "10.3.0.1": {80: 0, 443: 403, 81: 403},
             "2001:db8:7::1": {52: 0, 53: 403, 54: 0}, "2001:db8:7:1::1": {80: 0, 81: 403, 53: 403},
             "2001:db8:7:1::2": {80: 403}, "2001:db8:8::1": {53: 0}}
    options = [word for it in rules for word in ("-o", it)]
    with turn_server(programs, *options, at=("127.0.0.1", "::1"), allowing=False) as server, \
            Client(server) as four, Client(server, at="::1", sha256=True, by_hash=True) as six:
        four.allocate()
        six.allocate((FAMILY, b"\2\0\0\0"))
        channel = 0x4001
        for address, codes in cases.items():
            for port, wanted in codes.items():
                code = bound(six if ":" in address else four, address, port, channel)
                check(code == wanted, f"ChannelBind to {address}, port {port}: {code}")
                channel += code == 0
        ended(server)
    denied_port(programs)


def denied_port(programs):
    """No data goes to a denied port, and requests for it are judged as others are."""
    with Peer() as denied, Peer() as peer, contextlib.ExitStack() as all_of:
        (address, port), (_, free) = denied.address, peer.address
        server = all_of.enter_context(turn_server(programs, "-o", f"deny={address}:{port}"))
        client, stranger, idle = (all_of.enter_context(Client(server, password=it)) for it in ("pass", "no", "pass"))
        relayed = client.allocate()
        client.permit(denied.address)
        for at in (denied, peer):
            client.send(at.address, b"to a port")
        peer.socket.sendto(b"from a port", relayed)
        check(peer.hears() == (relayed, b"to a port") and client.data() == (peer.address, b"from a port"),
              "data of another port is lost")
        check(denied.hears(0.2) is None, "data goes to a denied port")
        codes = [bound(it, address, port) for it in (client, stranger, idle)]
        check(codes == [403, 401, 437], f"ChannelBind to a denied port: {codes}")
        nonce = client.challenge[NONCE]
        client.challenge = {**client.challenge, NONCE: nonce[:-1] + b"*"}
        check(bound(client, address, port) == 438, "an old nonce counts")
        client.challenge = {**client.challenge, NONCE: nonce}
        channel, *both = (CHANNEL, b"\x40\1\0\0"), (PEER, denied.address), (PEER, peer.address)
        check(client.ask(BIND, channel, *both).code == 403, "another peer after a denied port opens it")
        check(client.ask(BIND, channel, *reversed(both)).code == 0, "a refused channel is bound, or the last counts")
        client.send_on(0x4001, b"to the first")
        check(peer.hears() == (relayed, b"to the first") and denied.hears(0.2) is None, "it goes to another one")
        check(bound(client, address, free) == 0, "it isn't bound to the first")
        ended(server)


def nowhere(programs):
    """What is reached nowhere is denied, from its first address to its last, unless it is allowed."""
    networks = list(map(ipaddress.ip_network, NOWHERE))
    options = [word for it in DOCUMENTATION for word in ("-o", f"allow={it}")]
    for opened in ((), DOCUMENTATION):
        with turn_server(programs, *(options if opened else []), at=("127.0.0.1", "::1"), allowing=False) as server:
            for network in networks:
                with Client(server, at=LOOPBACK[network.version]) as client:
                    client.allocate((FAMILY, bytes([network.version // 3, 0, 0, 0])))
                    nowhere_in(client, network, networks, str(network) in opened)
                    client.refresh(0)
            ended(server)


def nowhere_in(client, network, networks, is_open):
    for address in (network[0], network[-1]):
        client.permit((str(address), 7), wanted=0 if is_open else 403)
    for number in (int(network[0]) - 1, int(network[-1]) + 1):
        with contextlib.suppress(ValueError):
            beside = type(network[0])(number)
            if not any(beside in it for it in networks if it.version == network.version):
                client.permit((str(beside), 7))


def again(programs):
    """The rules change at SIGHUP, over UDP and TCP, also for processes that start later: what is denied then is
    refused with 403, and its data dropped both ways, on channels too, until it is allowed again; to a port that is
    denied nothing goes. Wrong rules change nothing."""
    for stream in (False, True):
        start = "allow 127.0.0.0/8\nallow ::1\n"
        with turn_server(programs, "-t", allowing=False, lines=start) as server, \
                Client(server, stream=stream) as client, Peer("127.0.0.9") as near, Peer("127.0.0.9") as other, \
                Peer("127.0.0.10") as far:
            change(server, start, client, near, other, far)


def change(server, start, client, near, other, far):
    relayed = client.allocate()
    for channel, it in ((0x4001, near), (0x4002, other)):
        client.bind(channel, it.address)
    client.permit(far.address)
    def reached(wanted, from_whom):
        for channel, it in ((0x4001, near), (0x4002, other), (None, far)):
            if channel:
                client.send_on(channel, b"on a channel")
            client.send(it.address, b"to a peer")
            it.socket.sendto(b"from a peer", relayed)
        for channel, it in ((0x4001, near), (0x4002, other), (None, far)):
            heard = [it.hears(PATIENCE if it in wanted else 0.1)]
            while heard[-1]:
                heard.append(it.hears(0.1))
            count = (2 if channel else 1) if it in wanted else 0
            check(len(heard) - 1 == count, f"after {lines!r} {it.address} hears {heard}, though {[at.address for at in wanted]} are reached")
        heard = {it[0] for it in (client.data() for _ in from_whom)}
        names = {0x4001: near, 0x4002: other, far.address: far}
        right = [names[it] for it in names if it in heard] == from_whom and client.data(0.1) is None
        check(right, f"after {lines!r} the client hears {heard}")
    everyone, lines = [near, other, far], start
    reached(everyone, everyone)
    for lines, wanted, refused, channel in [
        (start + "deny 127.0.0.9\n", [far], [near, other], True),
        (start, everyone, [], False),
        (start + f"deny 127.0.0.9:{near.address[1]}\n", [other, far], [], True),
        (start + "deny 127.0.0.9/33\n", [other, far], [], True),
        ("allow 127.0.0.9\nallow 127.0.0.10\ndeny 127.0.0.0/8\n", everyone, [], False),
        ("allow 127.0.0.10\n", [far], [near, other], True),
        ("", [], everyone, True),
        (f"allow 127.0.0.0/8\ndeny 127.0.0.8/31\nallow 127.0.0.9:{other.address[1]}\n", [other, far], [], True),
        (start + "deny 0.0.0.0/0\ndeny 127.0.0.0/16\n", [], everyone, True),
        (start, everyone, [], False),
    ]:
        reset(server, lines)
        reached(wanted, everyone if other in wanted else wanted)  # (a denied port is one to which nothing goes)
        for it in everyone:
            client.permit(it.address, wanted=403 if it in refused else 0)
        if refused:
            answer = client.ask(PERMIT, (PEER, ("127.0.0.10", 1)), (PEER, refused[0].address))
            check(answer.code == 403, f"CreatePermission for two peers: {answer.code}")
        client.bind(0x4001, near.address, wanted=403 if channel and near not in wanted else 0)
        check(client.refresh() == 600, "the allocation ends")
    check(not any("needs-restart" in it for it in server.others), f"it says {server.others}")
    check(server.wait_for("settings-refused")["line"] == "6", "another line is wrong")
    client.permit(("10.0.0.1", 7), wanted=403)
    reset(server, start + "allow 10.0.0.0/8\nallow 127.0.0.0/9\n")
    client.permit(("10.0.0.1", 7))
    with contextlib.ExitStack() as all_of:
        server.kill_workers()
        server.wait_for("worker-died")
        def allocated():
            with contextlib.suppress(OSError, Wrong):
                new = all_of.enter_context(Client(server, stream=client.stream))
                new.socket.settimeout(1)
                new.allocate()
                return new
        new = wait_until(allocated, "no new process serves")
        new.permit(("10.0.0.1", 7))
        new.permit(far.address)
        new.permit(("172.16.0.1", 7), wanted=403)
    server.end()
