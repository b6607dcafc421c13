"""Three hosts, a client, a server and a peer, in network namespaces, and what the program at the server relays."""
import contextlib
import ctypes
import fcntl
import itertools
import os
import socket
import struct
import subprocess
import time

import programs
from steps import PATIENCE, check

HOME = "/proc/self/ns/net"
CLIENTS, SERVERS = ("10.77.1.2", "fd77:1::2"), ("10.77.1.1", "fd77:1::1")
RELAYED, PEERS = ("10.77.2.1", "fd77:2::1"), ("10.77.2.2", "fd77:2::2")
REST = 1.0  # seconds until a slot is used again


def sh(command):
    ran = subprocess.run(command.split(), capture_output=True, text=True)
    check(ran.returncode == 0, f"{command}: {ran.stderr}")


class Host:
    """A namespace, by a process that only waits in it."""

    def __init__(self):
        self.ran = subprocess.Popen(["unshare", "--net", "sleep", "600"])
        home = os.readlink(HOME)
        end = time.monotonic() + 10
        while os.readlink(f"/proc/{self.ran.pid}/ns/net") == home:
            check(time.monotonic() < end, "no namespace")
            time.sleep(0.01)

    def do(self, command):
        sh(f"nsenter -t {self.ran.pid} -n {command}")

    @contextlib.contextmanager
    def here(self):
        home, there = os.open(HOME, os.O_RDONLY), os.open(f"/proc/{self.ran.pid}/ns/net", os.O_RDONLY)
        try:
            check(programs.libc.setns(there, programs.NEW_NETWORK) == 0, "no namespace")
            yield
        finally:
            programs.libc.setns(home, programs.NEW_NETWORK)
            os.close(home)
            os.close(there)

    def socket(self, address, port):
        with self.here():
            made = socket.socket(socket.AF_INET6 if ":" in address else socket.AF_INET, socket.SOCK_DGRAM)
            made.bind((address, port))
            made.settimeout(PATIENCE)
            return made


def write_checksums(name):
    """Has checksums written before a packet leaves by an interface, as they are in what comes by a wire."""
    order = struct.pack("<II", 0x17, 0)  # ETHTOOL_STXCSUM
    room = ctypes.create_string_buffer(order)
    with socket.socket(socket.AF_INET, socket.SOCK_DGRAM) as any_socket:
        fcntl.ioctl(any_socket, 0x8946, struct.pack("<16sQ16x", name.encode(), ctypes.addressof(room)))  # SIOCETHTOOL


@contextlib.contextmanager
def three():
    """The client's and the peer's host; this process is the server's."""
    hosts = []
    try:
        for near, far, net in (("near", "c0", 1), ("far", "p0", 2)):
            host = Host()
            hosts.append(host)
            sh(f"ip link add {near} type veth peer name {far} netns {host.ran.pid}")
            for do, name, number in ((sh, near, 1), (host.do, far, 2)):
                do(f"sysctl -qw net.ipv6.conf.{name}.accept_dad=0")
                do(f"ip address add 10.77.{net}.{number}/24 dev {name}")
                do(f"ip address add fd77:{net}::{number}/64 dev {name} nodad")
                do(f"ip link set {name} up")
            with host.here():
                write_checksums(far)
        yield hosts
    finally:
        for host, name in zip(hosts, ("near", "far")):
            subprocess.run(["ip", "link", "delete", name], capture_output=True)
            host.ran.kill()
            host.ran.wait()


def end_of(address, port):
    return socket.inet_pton(socket.AF_INET6 if ":" in address else socket.AF_INET, address), port


@contextlib.contextmanager
def relay(loader, folder):
    with three() as (client, peer):
        listening = [(it, 3478) for it in SERVERS]
        program = programs.Program(loader, folder, listening, RELAYED, interfaces=("near", "far"))
        yield program, client, peer, (socket.if_nametoindex("near"), socket.if_nametoindex("far"))


def channel(program, family, number, interfaces, client=20001, peer=40001, relayed=50001):
    """The keys of both flows of a channel."""
    ends = [end_of(it[family], port) for it, port in ((CLIENTS, client), (SERVERS, 3478), (RELAYED, relayed), (PEERS, peer))]
    far = time.monotonic_ns() + 600 * 10**9
    out = program.begin(ends[0], ends[1], number, ends[2], ends[3], 0, far, interfaces)
    return out, program.begin(ends[3], ends[2], 0, ends[1], ends[0], number, far, interfaces[::-1])


def received(of):
    try:
        return of.recvfrom(65536)
    except TimeoutError:
        return None


def both_ways(loader, folder):
    """Data of both families goes both ways by the kernel, and what isn't for it comes to the server."""
    with relay(loader, folder) as (program, client, peer, interfaces):
        for family in (0, 1):
            ours, theirs = client.socket(CLIENTS[family], 20001), peer.socket(PEERS[family], 40001)
            server = socket.socket(ours.family, socket.SOCK_DGRAM)
            server.bind((SERVERS[family], 3478))
            server.settimeout(PATIENCE)
            channel(program, family, 0x4000, interfaces)
            ours.sendto(b"\x40\0\0\4data", (SERVERS[family], 3478))
            got = received(theirs)
            check(got and got[0] == b"data" and got[1][:2] == (RELAYED[family], 50001), f"at the peer: {got}")
            theirs.sendto(b"some data back", (RELAYED[family], 50001))
            got = received(ours)
            check(got and got[0] == b"\x40\0\0\x0esome data back" and got[1][:2] == (SERVERS[family], 3478),
                  f"at the client: {got}")
            ours.sendto(b"\x40\1\0\4data", (SERVERS[family], 3478))
            got = received(server)
            check(got and got[0] == b"\x40\1\0\4data", f"at the server: {got}")
            for it in (ours, theirs, server):
                it.close()


def send_for_ever(host, address, port, data, to):
    """A process that sends the same datagram as fast as it can."""
    child = os.fork()
    if child == 0:
        try:
            out = host.socket(address, port)
            while True:
                out.sendto(data, to)
        finally:
            os._exit(0)
    return child


def take_all(of, wanted, source):
    """How many datagrams there are, each of which has to be what is wanted."""
    of.setblocking(False)
    for count in itertools.count():
        try:
            got = of.recvfrom(100)
        except BlockingIOError:
            return count
        check(got == (wanted, source), f"astray: {got}")


def changes(loader, folder, seconds=3.0, slots=4001):
    """While flows of two clients begin and end in the same slots, no datagram comes to another's peer."""
    with relay(loader, folder) as (program, client, peer, interfaces):
        peers = [peer.socket(PEERS[0], 40001 + i) for i in (0, 1)]
        server = socket.socket(socket.AF_INET, socket.SOCK_DGRAM)
        server.bind((SERVERS[0], 3478))
        senders = [send_for_ever(client, CLIENTS[0], 20001 + i, b"\x40\0\0\4" + bytes([i]) * 4, (SERVERS[0], 3478))
                   for i in (0, 1)]
        counts, freed, begun, end = [0, 0], [0.0] * slots, 0, time.monotonic() + seconds
        try:
            while time.monotonic() < end:
                which, slot = begun % 2, begun % slots
                if begun >= slots and time.monotonic() - freed[slot] < REST:
                    time.sleep(0.001)
                    continue
                program.used = slot
                out = program.begin(end_of(CLIENTS[0], 20001 + which), end_of(SERVERS[0], 3478), 0x4000,
                                    end_of(RELAYED[0], 50001 + which), end_of(PEERS[0], 40001 + which), 0, 2**63, interfaces)
                time.sleep(0.0002)
                program.end(out)
                begun += 1
                freed[slot] = time.monotonic()
                for i, it in enumerate(peers):
                    counts[i] += take_all(it, bytes([i]) * 4, (RELAYED[0], 50001 + i))
        finally:
            for it in senders:
                os.kill(it, 9)
                os.waitpid(it, 0)
        check(begun > 100 and min(counts) > 100, f"{begun} flows, {counts} datagrams")
