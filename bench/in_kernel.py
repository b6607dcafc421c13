"""What bench/relays --kernel measures: relaying between three hosts, which are networks of this machine."""
import contextlib
import hashlib
import pathlib
import statistics
import subprocess
import sys

import serving

sys.path[:0] = [str(serving.TOP / "c"), str(serving.TOP / "c/server/trials")]
from hosts import Host, mount_pins, write_checksums

# for tests of networks (RFC 2544); the last is that with no host between
SERVER, CLIENTS, PEERS, RELAYS = "198.18.1.1", "198.18.1.2", "198.18.2.2", "198.18.2.1"
NEAR, FAR = "198.18.3.1", "198.18.3.2"
PORT, USER, REALM, PASSWORD = "3478", "user", "example.org", "secret"
KEY = hashlib.md5(f"{USER}:{REALM}:{PASSWORD}".encode()).hexdigest()
SERVER_ON, LOADS_ON = "1", "2,3"
CROWDS = {1: 32, 10: 8, 1000: 1}
SIZES = (100, 1200)
EXCHANGES = 100000
MODES = {"router": "as a router", "kernel": "in the kernel", "here": "stun-server", "coturn": "coturn"}


class Network:
    """Clients, a server's host and peers; clients and peers are linked without it too."""

    def __init__(self, all_of):
        self.clients, self.server, self.peers = self.all = [Host() for _ in range(3)]
        for host in self.all:
            all_of.callback(host.close)
            with host.inside(), open("/proc/sys/net/ipv4/ip_local_port_range", "w") as ports:
                ports.write("10000 65535")
        self.link(self.clients, f"{CLIENTS}/24", self.server, f"{SERVER}/24", "left")
        self.link(self.peers, f"{PEERS}/24", self.server, f"{RELAYS}/24", "right")
        self.link(self.clients, f"{NEAR}/24", self.peers, f"{FAR}/24", "direct")
        self.clients.ip(f"route add 198.18.2.0/24 via {SERVER}")
        self.peers.ip(f"route add 198.18.1.0/24 via {RELAYS}")

    @staticmethod
    def link(one, address, other, its, name):
        one.ip(f"link add {name} type veth peer name {name} netns {other.path}")
        for host, own in ((one, address), (other, its)):
            host.address(name, own)
            write_checksums(host, name)

    def forward(self, forwards):
        with self.server.inside(), open("/proc/sys/net/ipv4/ip_forward", "w") as forward:
            forward.write(str(int(forwards)))


class Server:
    """A server on its host."""

    def __init__(self, mode, network, folder):
        users = folder / "users"
        users.write_text(f"{USER} {PASSWORD}\n")
        by = ["-o", "kernel=left", "-o", "kernel=right"] if mode == "kernel" else []
        settings = ["turn=1", f"realm={REALM}", f"users={users}", "allow=198.18.0.0/15", "ports=10000-65535",
                    "allocations=2000", "user-allocations=2000", f"relay-address={RELAYS}"]
        own = [word for it in settings for word in ("-o", it)]
        command = [folder / "server", *own, *by, SERVER, PORT]
        if mode == "coturn":
            command = ["turnserver", "-n", "-m", "1", "-L", SERVER, "-E", RELAYS, "-p", PORT, "--min-port", "10000", "-a",
                       "-u", f"{USER}:{PASSWORD}", "-r", REALM, *serving.COTURN_QUIET, "--pidfile", folder / "pid"]
        quiet = {"stdout": subprocess.DEVNULL, "stderr": subprocess.DEVNULL}
        with network.server.inside():
            if mode == "kernel":
                subprocess.run([str(folder / "kernel/stun-server-kernel"), *own, *by, SERVER, PORT], check=True)
            self.ran = subprocess.Popen(["taskset", "-c", SERVER_ON, *map(str, command)], **quiet)
        with network.clients.inside():
            serving.wait_until_it_answers(SERVER, PORT, False)

    def __enter__(self):
        return self

    def __exit__(self, *_):
        self.ran.terminate()
        self.ran.wait()

    def time(self):
        return serving.processor_time(self.ran.pid)


def kernel_time():
    """The time of the kernel's threads that handle packets."""
    threads = (it.parent for it in pathlib.Path("/proc").glob("[0-9]*/comm") if it.read_text().startswith("ksoftirqd"))
    return sum(int((it / "schedstat").read_text().split()[0]) for it in threads) / 1e9


def microseconds(mode, network, folder, count, size):
    """The processor time of all that takes part, for each datagram that reaches its end."""
    network.forward(mode == "router")
    words = ["-d"] if mode in ("router", "direct") else ["-c"]
    near, far = (NEAR, FAR) if mode == "direct" else (CLIENTS, PEERS)
    words += ["-n", str(count), "-m", str(EXCHANGES // count), "-s", str(size), "-w", str(CROWDS[count]), "-f", near,
              "-p", far, "-N", network.peers.path, "-u", USER, "-k", KEY]
    with contextlib.ExitStack() as all_of:
        servers = []
        if mode not in ("router", "direct"):
            servers = [all_of.enter_context(Server(mode, network, folder))]
        with network.clients.inside():
            load = all_of.enter_context(serving.Load(str(folder / "load"), (SERVER, PORT), *words,
                                                     command=("taskset", "-c", LOADS_ON)))
        load.obey("direct" if "-d" in words else "allocate")
        before = serving.processor_time(load.ran.pid) + sum(it.time() for it in servers) + kernel_time()
        counted = load.obey("relay")
        used = serving.processor_time(load.ran.pid) + sum(it.time() for it in servers) + kernel_time() - before
    if not serving.is_whole(counted):
        print(f"not all is right: {mode}:", counted["line"])
    return used / (counted["at peers"] + counted["back"]) * 1e6


def print_table(folder, rounds, has_coturn, words):
    modes = [it for it in MODES if it != "coturn" or has_coturn]
    mount_pins()
    subprocess.run([serving.TOP / "c/server/kernel/build", *unproved(folder), folder / "kernel"], check=True,
                   stdout=subprocess.DEVNULL)
    print("| Size, channels |", *(f"{MODES[it]} |" for it in modes), "Ratios |")
    print("|---|" + "---|" * (len(modes) + 1))
    with contextlib.ExitStack() as all_of:
        network = Network(all_of)
        for size in SIZES:
            for count in CROWDS:
                title = f"{size:,} octets, {count:,}"
                if words in title:
                    print_row(title, modes, network, folder, rounds, count, size)


def print_row(title, modes, network, folder, rounds, count, size):
    found = {mode: [] for mode in modes}
    for _ in range(rounds):
        load = microseconds("direct", network, folder, count, size)
        for mode in modes:
            found[mode].append(microseconds(mode, network, folder, count, size) - load)
    medians = {mode: statistics.median(its) for mode, its in found.items()}
    ratios = [f"{medians[mode] / medians['kernel']:.1f}" for mode in modes if mode not in ("kernel", "router")]
    print(f"| {title} |", *(f"{it:.2f} |" for it in medians.values()), f"{', '.join(ratios)} |", flush=True)


def unproved(folder):
    """The argument by which the program of the kernel is made as the library was."""
    told = subprocess.run(["readelf", "-p", ".comment", folder / "server"], capture_output=True, text=True).stdout
    return ["--unproved"] if "not proved" in told else []
