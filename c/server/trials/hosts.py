"""Hosts: networks of this machine, in which a server and two clients run as on three machines."""
import concurrent.futures
import contextlib
import ctypes
import fcntl
import os
import pathlib
import shutil
import socket
import struct
import subprocess
import threading
import time

from steps import PATIENCE, Skipped, Wrong, check, run, wait_until

NEW_NETWORK, NEW_MOUNTS, PRIVATE = 0x40000000, 0x20000, 0x44000
PINS = "/sys/fs/bpf"
LIBC = ctypes.CDLL(None, use_errno=True)
# for documentation (RFC 5737, RFC 3849): a server has to allow them
SERVER = ("192.0.2.1", "2001:db8::1")
LEFT = ("198.51.100.2", "2001:db8:1::2")
RIGHT = ("203.0.113.2", "2001:db8:2::2")
NETWORKS = ("192.0.2.0/24", "198.51.100.0/24", "203.0.113.0/24", "2001:db8::/32")
LINK_LOCAL = "fe80::1"  # of the right one


def own_network():
    """Opens this thread's network."""
    return os.open("/proc/thread-self/ns/net", os.O_RDONLY | os.O_CLOEXEC)


def new_network():
    """Opens a new network, which ends with the last file and process of it."""
    def make():
        if LIBC.unshare(NEW_NETWORK) != 0:
            raise Skipped("it needs the right to make networks, as root has it")
        return own_network()
    with concurrent.futures.ThreadPoolExecutor(1) as own:
        return own.submit(make).result()


def mount_pins():
    """Gives this thread, and what it starts, mounts of its own, with an empty folder for pins of BPF."""
    if LIBC.unshare(NEW_MOUNTS) != 0 or LIBC.mount(b"none", b"/", None, PRIVATE, None) != 0:
        raise Skipped("it needs the right to mount, as root has it")
    if LIBC.mount(b"bpf", PINS.encode(), b"bpf", 0, None) != 0:
        raise Skipped(f"no BPF file system can be mounted at {PINS}")


def write_checksums(host, device):
    """Has whoever sends by a device write checksums and cut datagrams, as what comes by a wire is."""
    with host.inside(), socket.socket(socket.AF_INET, socket.SOCK_DGRAM) as asking:
        for command in (0x17, 0x21, 0x2C):  # (ETHTOOL_STXCSUM, ETHTOOL_SUFO, ETHTOOL_SGRO)
            off = ctypes.create_string_buffer(struct.pack("II", command, 0))
            with contextlib.suppress(OSError):
                fcntl.ioctl(asking, 0x8946, struct.pack("16sP", device.encode(), ctypes.addressof(off)) + bytes(16))


class Host:
    """A network. It forwards no packets."""

    def __init__(self):
        self.network = new_network()
        with self.inside():
            for name in ("ipv4/ip_forward", "ipv6/conf/all/forwarding"):
                path = pathlib.Path("/proc/sys/net", name)
                if path.read_text() != "0\n":
                    path.write_text("0")
        self.ip("link set lo up")

        self.path = f"/proc/{os.getpid()}/fd/{self.network}"

    @contextlib.contextmanager
    def inside(self):
        """Sockets that this thread opens, and processes that it starts, are on this host."""
        before = own_network()
        try:
            check(LIBC.setns(self.network, NEW_NETWORK) == 0, "setns")
            yield self
        finally:
            LIBC.setns(before, NEW_NETWORK)
            os.close(before)

    def ip(self, words):
        """Runs ip on this host."""
        with self.inside():
            status, _, told = run(["ip", *words.split()])
        check(status == 0, f"ip {words}: {told}")

    def address(self, device, *addresses):
        """Gives a device addresses, and switches it on."""
        for address in addresses:
            nodad = "nodad" if ":" in address else ""
            self.ip(f"address add {address} dev {device} {nodad}")
        self.ip(f"link set {device} up")

    def close(self):
        os.close(self.network)


class Hosts:
    """A server between two clients, left and right. The server's packets for unknown addresses go to the
    right one."""

    def __init__(self):
        if not shutil.which("ip"):
            raise Skipped("it needs ip (iproute2)")
        self.server, self.left, self.right = self.all = [Host() for _ in range(3)]
        self.server.address("lo", f"{SERVER[0]}/32", f"{SERVER[1]}/128")
        for name, host, own in [("left", self.left, LEFT), ("right", self.right, RIGHT)]:
            near = [address[:-1] + "1" for address in own]
            self.server.ip(f"link add {name} type veth peer name uplink netns {host.path}")
            self.server.address(name, f"{near[0]}/24", f"{near[1]}/64")
            host.ip("link set uplink addrgenmode none")  # (a link-local address would be tentative at first)
            host.address("uplink", f"{own[0]}/24", f"{own[1]}/64")
            for address in near:
                host.ip(f"route add default via {address}")
        self.right.address("uplink", f"{LINK_LOCAL}/64")
        for address in RIGHT:
            self.server.ip(f"route add default via {address}")

    def __enter__(self):
        return self

    def __exit__(self, *_):
        for host in self.all:
            host.close()


def apart(hosts):
    """The left client reaches the server, and doesn't reach the right one."""
    for left, right, server in zip(LEFT, RIGHT, SERVER):
        with contextlib.ExitStack() as all_of:
            listening = {}
            for host, address in [(hosts.server, server), (hosts.right, right)]:
                with host.inside():
                    family = socket.AF_INET6 if ":" in address else socket.AF_INET
                    listening[address] = all_of.enter_context(socket.socket(family, socket.SOCK_DGRAM))
                    listening[address].bind((address, 0))
                    listening[address].settimeout(PATIENCE)
            with hosts.left.inside():
                asking = all_of.enter_context(socket.socket(family, socket.SOCK_DGRAM))
                asking.bind((left, 0))
                for own in listening.values():
                    asking.sendto(b"?", own.getsockname())
            check(listening[server].recv(9) == b"?", "the server receives something else")
            listening[right].settimeout(0.3)
            with contextlib.suppress(socket.timeout):
                raise Wrong(f"{left} reaches {right}: {listening[right].recv(9)}")


class Capture:
    """Has tshark see the datagrams of all interfaces of a host."""

    def __init__(self, host):
        if not shutil.which("tshark"):
            raise Skipped("it needs tshark")
        words = ["tshark", "-i", "any", "-l", "-n", "-f", "udp", "-T", "fields", "-E", "occurrence=l"]
        for field in ("ip.dst", "ipv6.dst", "udp.dstport", "udp.payload"):
            words += ["-e", field]
        self.seen = []  # (address, port, payload)
        pipes = {"stdin": subprocess.DEVNULL, "stdout": subprocess.PIPE, "stderr": subprocess.DEVNULL}
        with host.inside():
            self.probe = socket.socket(socket.AF_INET, socket.SOCK_DGRAM)
            self.ran = subprocess.Popen(words, text=True, **pipes)
        self.reader = threading.Thread(target=self.read, daemon=True)
        self.reader.start()

    def read(self):
        for line in self.ran.stdout:
            four, six, port, payload = line.rstrip("\n").split("\t")
            self.seen.append((four or six, int(port), bytes.fromhex(payload.replace(":", ""))))

    def catch_up(self):
        """Waits until tshark has seen all datagrams up to now."""
        mark = os.urandom(16)

        def marked():
            self.probe.sendto(mark, ("127.0.0.1", 9))
            time.sleep(0.1)
            return any(payload == mark for _, _, payload in self.seen)
        wait_until(marked, "tshark sees no datagram")

    def __enter__(self):
        try:
            self.catch_up()
        except Wrong:
            self.__exit__()
            raise
        return self

    def __exit__(self, *_):
        self.ran.terminate()
        self.ran.wait()
        self.reader.join()
        self.ran.stdout.close()
        self.probe.close()
