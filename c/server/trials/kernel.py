"""Trials of channels that the kernel relays: a server between clients on the left and peers on the right."""
import concurrent.futures
import contextlib
import ctypes
import functools
import os
import platform
import random
import signal
import struct
import time

from harness import free_port
from hosts import LEFT, LIBC, NETWORKS, PINS, RIGHT, SERVER, Hosts, mount_pins, write_checksums
from steps import Skipped, check, run
from turn import Client, Peer, ended, reset, turn_server

CALLS = {"x86_64": 321, "aarch64": 280}
FLOWS, FLOW, UNTIL = "flows", 192, 80  # a flow's bytes, and where its end is
SECOND = 10 ** 9


def with_mounts(function):
    """Runs a trial with a folder for pins that is its own."""
    @functools.wraps(function)
    def trial(programs):
        def run_there():
            mount_pins()
            with Hosts() as hosts:
                for host in (hosts.left, hosts.right):
                    write_checksums(host, "uplink")
                function(programs, hosts)
        with concurrent.futures.ThreadPoolExecutor(1) as own:
            own.submit(run_there).result()
    return trial


BY = ["-o", "kernel=left", "-o", "kernel=right"]


def load(programs, port, *words):
    """Loads the program for a server at a port."""
    if "kernel" not in programs:
        raise Skipped("the program of the kernel isn't built here")
    status, out, told = run([programs["kernel"], *words, *BY, *(it for at in SERVER for it in (at, port))])
    if status != 0:
        raise Skipped(f"the program isn't loaded: {(out + told).strip()}")


@contextlib.contextmanager
def relaying(programs, hosts, *options, load_for=(), by=BY, port=None, **how):
    """A server whose channels the kernel relays. The program is loaded first, unless load_for is None."""
    allowed = [word for it in NETWORKS for word in ("-o", f"allow={it}")]
    with hosts.server.inside():
        port = port or free_port(SERVER)
        if load_for is not None:
            load(programs, port, *load_for)
        words = [*allowed, *by, "-o", "user-allocations=100", *options]
        with turn_server(programs, *words, at=SERVER, allowing=False, port=port, **how) as server:
            yield server


class Pair:
    """A client with a channel, and its peer."""

    def __init__(self, hosts, server, six=False, channel=0x4001, peer=None):
        self.channel = channel
        with hosts.left.inside():
            self.client = Client(server, at=SERVER[six], source=LEFT[six])
        with hosts.right.inside():
            self.peer = peer or Peer(RIGHT[six])
        self.begin(six)

    def begin(self, six=False):
        wanted = [(0x0017, b"\2\0\0\0")] if six else []
        self.relayed = self.client.allocate(*wanted)
        self.client.bind(self.channel, self.peer.address)

    def exchange(self, count=10, length=100):
        """Data goes both ways, all of it, and unchanged."""
        for i in range(count):
            data = struct.pack("I", i) + os.urandom(length - 4)
            self.client.send_on(self.channel, data)
            check(self.peer.hears() == (self.relayed, data), "the peer hears another thing")
            self.peer.socket.sendto(data[::-1], self.relayed)
            check(self.client.data() == (self.channel, data[::-1]), "the client hears another thing")

    def is_relayed(self, seconds=0.3):
        """Whether data reaches the peer, and data of the peer the client; what isn't, isn't in part."""
        mark = os.urandom(16)
        self.peer.socket.sendto(mark, self.relayed)
        heard = told = None
        with contextlib.suppress(ConnectionRefusedError):  # (nobody is there)
            self.client.send_on(self.channel, mark)
            heard = self.peer.hears(seconds)
            told = self.client.data(seconds)
        check(heard in (None, (self.relayed, mark)) and told in (None, (self.channel, mark)), f"{heard}, {told}")
        return heard is not None, told is not None

    def __enter__(self):
        return self

    def __exit__(self, *_):
        self.client.socket.close()
        self.peer.socket.close()


def in_kernel(server):
    """How many datagrams the kernel has relayed, once the server has counted them, and how many flows there are."""
    time.sleep(1.3)
    return server.counts(signal.SIGUSR1)["turn_in_kernel"]


def relayed_by_kernel(server, pair, count=10):
    """The kernel relays all that a pair exchanges."""
    before = in_kernel(server)
    pair.exchange(count)
    got = in_kernel(server) - before
    check(got == 2 * count, f"the kernel relayed {got} of {2 * count}")


@with_mounts
def relays(programs, hosts):
    """The kernel relays data both ways, over IPv4 and IPv6, for a channel bound once and again; lengths that it leaves
    to the server are relayed too; by a Refresh with 0 it ends, before the response."""
    log = ["-o", "allocation-log=on"]
    with relaying(programs, hosts, *log) as server:
        for six in (False, True):
            with Pair(hosts, server, six) as pair:
                relayed_by_kernel(server, pair)
                for length in (4, 5, 6, 7, 1200, 1400):
                    pair.exchange(1, length)
                pair.client.bind(pair.channel, pair.peer.address)
                pair.client.refresh(600)
                relayed_by_kernel(server, pair)
                pair.client.refresh(0)
                check(pair.is_relayed() == (False, False), "data is relayed after the end")
                pair.begin(six)
                time.sleep(1.2)
                relayed_by_kernel(server, pair)
                pair.client.refresh(0)
            lines = [server.wait_for("allocation-ended") for _ in range(2)]
            counted = [tuple(int(it[name]) for name in ("to_peer", "to_client", "to_peer_octets")) for it in lines]
            first = 20 * 100 + sum((4, 5, 6, 7, 1200, 1400))
            check(counted == [(26, 26, first), (10, 10, 1000)], f"the log says {counted}")
        counted = ended(server)
        check(counted["turn_to_peer"] == counted["turn_to_client"] == 72, str(counted))


@with_mounts
def lives(programs, hosts):
    """A worker that is stopped, or killed, and a server that is killed: in the fifth second nothing is relayed; a worker
    that goes on, or is new, relays again."""
    with relaying(programs, hosts, "-o", "hang-timeout=60") as server, Pair(hosts, server) as pair:
        relayed_by_kernel(server, pair)
        worker = max(server.workers(), key=lambda it: len(os.listdir(f"/proc/{it}/fd")))
        os.kill(worker, signal.SIGSTOP)
        time.sleep(4.1)
        check(pair.is_relayed(0.5) == (False, False), "a worker that is stopped relays")
        os.kill(worker, signal.SIGCONT)
        check(pair.peer.hears() and pair.client.data(), "what waited is lost")
        relayed_by_kernel(server, pair)
        os.kill(worker, signal.SIGKILL)
        check(server.wait_for("worker-died")["signal"] == "9", "it died otherwise")
        check(pair.is_relayed() == (False, False), "flows of a worker that has died relay")
        time.sleep(1.2)
        with Pair(hosts, server) as other:
            relayed_by_kernel(server, other)
            server.ran.kill()
            server.ran.wait()
            time.sleep(4.1)
            check(other.is_relayed() == (False, False), "the kernel relays without a server")
    with relaying(programs, hosts, load_for=None, port=server.port) as server, Pair(hosts, server) as pair:
        relayed_by_kernel(server, pair)
        ended(server)


class Map:
    """A pinned map of numbered entries."""

    def __init__(self, name):
        self.call = CALLS.get(platform.machine()) or 0
        self.path = ctypes.create_string_buffer(f"{PINS}/stun-server/{name}".encode())
        self.number = self.bpf(7, struct.pack("QII", ctypes.addressof(self.path), 0, 0))

    def bpf(self, command, given):
        how = ctypes.create_string_buffer(given, 128)
        result = LIBC.syscall(self.call, command, how, 128)
        check(result >= 0, f"bpf {command}: {os.strerror(ctypes.get_errno())}")
        return result

    def entry(self, command, at, value):
        key, place = ctypes.c_uint32(at), ctypes.create_string_buffer(value, len(value))
        self.bpf(command, struct.pack("IIQQQ", self.number, 0, ctypes.addressof(key), ctypes.addressof(place), 0))
        return place.raw

    def live(self):
        """The places of the entries that haven't ended, of the first slots."""
        return [it for it in range(64) if self.until(it)]

    def until(self, at):
        return int.from_bytes(self.entry(1, at, bytes(FLOW))[UNTIL : UNTIL + 8], "little")

    def end_at(self, at, until):
        entry = self.entry(1, at, bytes(FLOW))
        self.entry(2, at, entry[:UNTIL] + until.to_bytes(8, "little") + entry[UNTIL + 8 :])


@with_mounts
def ends(programs, hosts):
    """A flow ends with the first of permission, channel and allocation, by the clock of the kernel; requests move that.
    After it the server relays, and by what it relays the flow begins again."""
    with relaying(programs, hosts) as server, Pair(hosts, server) as pair:
        flows = Map(FLOWS)
        pair.exchange(1)
        check(len(flows.live()) == 2, f"there are {flows.live()}")
        for request, seconds in ((lambda: None, 300), (lambda: pair.client.permit(pair.peer.address), 300),
                                 (lambda: pair.client.refresh(600), 300)):
            time.sleep(0.2)
            before = time.monotonic_ns()
            request()
            lasts = [flows.until(it) - before for it in flows.live()]
            check(all((seconds - 2) * SECOND < it < (seconds + 2) * SECOND for it in lasts), f"they last {lasts}")
        relayed_by_kernel(server, pair)
        for at in flows.live():
            flows.end_at(at, time.monotonic_ns() + SECOND // 2)
        pair.exchange(1)
        time.sleep(0.6)
        before = in_kernel(server)
        pair.exchange(1)
        check(in_kernel(server) == before, "a flow relays after its end")
        ended(server)


@with_mounts
def astray(programs, hosts):
    """While flows begin and end under data, nothing reaches another peer or another client."""
    with relaying(programs, hosts) as server, contextlib.ExitStack() as all_of:
        pairs = [all_of.enter_context(Pair(hosts, server, channel=0x4000 + i % 4)) for i in range(12)]
        marks = [struct.pack("I", i) * 10 for i in range(len(pairs))]
        relayed = {pair.relayed: marks[i] for i, pair in enumerate(pairs)}
        heard, end = 0, time.monotonic() + 8
        while time.monotonic() < end:
            for pair, mark in zip(pairs, marks):
                pair.client.send_on(pair.channel, mark)
                pair.peer.socket.sendto(mark, pair.relayed)
            for pair, mark in zip(pairs, marks):
                while (it := pair.peer.hears(0)) is not None:
                    check(it[1] == mark and relayed[it[0]] == mark, f"{it} astray")
                    heard += 1
                while (it := pair.client.data(0)) is not None:
                    check(it == (pair.channel, mark), f"{it} astray")
                    heard += 1
            if random.randrange(4) == 0:
                at = random.randrange(len(pairs))
                pairs[at].client.refresh(0)
                pairs[at].begin()
                relayed[pairs[at].relayed] = marks[at]
        counted = ended(server)
        check(heard > 1000 and counted["turn_in_kernel"] > 500, f"{heard} heard, {counted}")


@with_mounts
def denied(programs, hosts):
    """A peer that is denied while the kernel relays: two seconds later nothing is relayed, and another one's still is."""
    with relaying(programs, hosts) as server, Pair(hosts, server) as pair, \
            Pair(hosts, server, six=True) as other:
        relayed_by_kernel(server, pair)
        reset(server, f"deny {RIGHT[0]}\nallow {SERVER[0]}\n")
        time.sleep(2)
        check(pair.is_relayed() == (False, False), "a denied peer is reached")
        other.exchange(1)
        relayed_by_kernel(server, other)
        ended(server)


@with_mounts
def drained(programs, hosts):
    """A server that is drained has its flows go on until the last allocation ends."""
    with relaying(programs, hosts) as server, Pair(hosts, server) as pair:
        server.ran.send_signal(signal.SIGUSR2)
        server.wait_for("draining")
        relayed_by_kernel(server, pair)
        pair.client.refresh(0)
        server.wait_for("drained")
        server.ran.wait(20)


@with_mounts
def workers(programs, hosts):
    """Two workers for each address have flows of their own."""
    with relaying(programs, hosts, "-j", "2") as server, contextlib.ExitStack() as all_of:
        pairs = [all_of.enter_context(Pair(hosts, server)) for _ in range(12)]
        before = in_kernel(server)
        for pair in pairs:
            pair.exchange(5)
        got = in_kernel(server) - before
        check(got == 120, f"the kernel relayed {got} of 120")
        ended(server)


@with_mounts
def rates(programs, hosts):
    """The kernel and the server pay into one bucket; with a limit of a user's all is the server's."""
    with relaying(programs, hosts, "-o", "packet-rate=50") as server, Pair(hosts, server) as pair:
        pair.exchange(1)
        time.sleep(1.5)
        for i in range(400):
            if i % 2 == 0:
                pair.client.send_on(pair.channel, bytes(100))
            else:
                pair.client.send(pair.peer.address, bytes(100))
        heard = 0
        while pair.peer.hears(0.5):
            heard += 1
        counted = ended(server)
        check(45 <= heard <= 75 and counted["turn_in_kernel"] > 2, f"{heard} heard: {counted}")
        check(counted["turn_over"] == 400 - heard, f"{heard} heard: {counted}")
    with relaying(programs, hosts, "-o", "user-bandwidth=1000000") as server, Pair(hosts, server) as pair:
        pair.exchange()
        check(ended(server)["turn_in_kernel"] == 0, "the kernel relays beside a limit of a user's")


@with_mounts
def left_to_it(programs, hosts):
    """What the kernel can't relay the server does: to a peer on its own machine, and to one by another interface."""
    with relaying(programs, hosts) as server:
        with hosts.server.inside():
            peer = Peer("203.0.113.1")
        with Pair(hosts, server, peer=peer) as pair:
            pair.exchange()
            check(ended(server)["turn_in_kernel"] == 0, "the kernel relays to its own machine")
    with relaying(programs, hosts, by=["-o", "kernel=left"]) as server, Pair(hosts, server) as pair:
        pair.exchange()
        check(ended(server)["turn_in_kernel"] == 0, "the kernel relays by another interface")


# what the unit does by TemporaryFileSystem and BindReadOnlyPaths
UNIT_MOUNTS = f"""
mount -t tmpfs none /mnt && mkdir /mnt/pins && mount --bind {PINS}/stun-server /mnt/pins
mount -t tmpfs -o mode=755 none {PINS} && mkdir {PINS}/stun-server
mount --bind /mnt/pins {PINS}/stun-server && mount -o remount,bind,ro {PINS}/stun-server
exec "$0" "$@"
"""


@with_mounts
def without(programs, hosts):
    """Without the program, the right to its maps, or an interface that it has, the server says so once, and relays."""
    as_nobody = ["setpriv", "--reuid", "65534", "--clear-groups", "--bounding-set", "-all", "--inh-caps", "-all"]
    under_unit = ["unshare", "-m", "sh", "-ec", UNIT_MOUNTS, *as_nobody]
    for reason, load_for, how in (("not-loaded", None, {}), ("no-interface", (), {"by": ["-o", "kernel=none"]}),
                                  ("other-interface", (), {"by": ["-o", "kernel=lo"]}),
                                  ("other-addresses", None, {}),
                                  ("no-rights", (), {"command": as_nobody}), (None, ("-U", "65534"), {"command": under_unit})):
        with relaying(programs, hosts, load_for=load_for, **how) as server, Pair(hosts, server) as pair:
            if reason:
                check(server.wait_for("kernel-off")["reason"] == reason, f"another reason than {reason}")
            pair.exchange(3)
            counted = ended(server)
            check((counted["turn_in_kernel"] == 0) == (reason is not None), f"{reason}: {counted}")
            check(not any("kernel-off" in it for it in server.others), "it says so again")
