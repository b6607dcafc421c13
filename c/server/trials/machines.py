"""Trials of several servers on machines of their own, through a balancer and by their own addresses. Machines are
networks of this one."""
import concurrent.futures
import contextlib
import re
import secrets
import select
import shutil
import signal
import socket
import struct
import threading
import time

from harness import Server
from hosts import Host
from operators import folder_of, write
from several import ALTERNATE, SHARED, has_ended
from steps import PATIENCE, Skipped, check, run
from turn import ALLOCATE, UDP, Answer, Client, Peer, limited_name
from webrtc import blocks_of

BALANCER, CLIENTS = "192.0.2.1", "198.51.100.2"
SERVERS = [f"203.0.113.{11 + i}" for i in range(3)]
NEAR = "169.254.0.1"  # the balancer's address for each server, which nobody else needs
RTO, REQUESTS, LAST = 0.1, 7, 16  # a fifth of the times of RFC 8489, section 6.2.1
TIME_OUT = RTO * (2 ** (REQUESTS - 1) - 1 + LAST)
COUNT = 60


class Gone(Exception):
    """A transaction timed out."""


class Machines:
    """Clients, three servers, and a balancer between them, which forwards packets."""

    def __init__(self, all_of):
        self.balancer, self.clients, *self.servers = [Host() for _ in range(5)]
        for host in (self.balancer, self.clients, *self.servers):
            all_of.callback(host.close)
        with self.balancer.inside(), open("/proc/sys/net/ipv4/ip_forward", "w") as forward:
            forward.write("1")
        self.balancer.address("lo", f"{BALANCER}/32")
        self.link("clients", self.clients, "198.51.100.1/24", f"{CLIENTS}/24", "198.51.100.1")
        for i, (address, host) in enumerate(zip(SERVERS, self.servers)):
            self.link(f"server{i}", host, f"{NEAR}/32", f"{address}/32", NEAR)
            self.balancer.ip(f"route add {address} dev server{i}")

    def link(self, name, host, near, own, gateway):
        self.balancer.ip(f"link add {name} type veth peer name uplink netns {host.path}")
        self.balancer.address(name, near)
        host.address("uplink", own)
        if near.endswith("/32"):
            host.ip(f"route add {gateway} dev uplink")
        host.ip(f"route add default via {gateway}")

    def balance(self, folder, text, *servers):
        """Puts the balancer's lines of the page in force, with these servers."""
        places = ", ".join(f"{i} : {it}" for i, it in enumerate(servers))
        new, count = re.subn(r"mod 3 map \{[^}]*\}", f"mod {len(servers)} map {{ {places} }}", text)
        check(count == 1, "the page has other lines")
        (folder / "balancer.nft").write_text(text if len(servers) == 3 else new)
        with self.balancer.inside():
            status, _, told = run(["nft", "-f", str(folder / "balancer.nft")])
        check(status == 0, told)


def transact(client, request):
    """The answer to a request, which is sent again as RFC 8489 says, in a fifth of the time."""
    due, wait = time.monotonic(), RTO
    for sent in range(REQUESTS):
        client.socket.send(request)
        due += wait if sent < REQUESTS - 1 else LAST * RTO
        wait *= 2
        while select.select([client.socket], [], [], max(0, due - time.monotonic()))[0]:
            message = client.socket.recv(70000)
            if message[8:20] == request[8:20]:
                return Answer(message)
    raise Gone


class Moving:
    """A client that finds a server, and another one when that is gone."""

    def __init__(self, machines, at, user):
        self.machines, self.at, self.user, self.client = machines, at, user, None
        self.followed = self.asked = self.timed_out = self.tries = 0
        self.took = 0.0

    def allocate(self):
        """Allocates at the next address, or where a server sends it."""
        began = time.monotonic()
        with self.machines.clients.inside():
            while not self.try_next():
                pass
        self.took = time.monotonic() - began

    def try_next(self):
        if self.client:
            self.client.socket.close()
        address = self.at[self.tries % len(self.at)]
        self.client = Client(type("Port", (), {"port": 3478}), *self.user, at=address, source=CLIENTS)
        try:
            answer = transact(self.client, self.client.request(ALLOCATE, UDP, sign=False))
            self.client.challenge = answer.values
            answer = transact(self.client, self.client.request(ALLOCATE, UDP))
            while answer.code == 300:
                self.client.check_signed(answer)
                port, octets = struct.unpack(">xxH4s", answer.values[ALTERNATE])
                self.client.socket.connect((socket.inet_ntoa(octets), port))
                self.followed += 1
                answer = transact(self.client, self.client.request(ALLOCATE, UDP))
                self.asked += answer.code in (401, 438)
        except (Gone, ConnectionRefusedError) as why:  # (nobody listens where the drained one was)
            self.timed_out += isinstance(why, Gone)
            self.tries += 1
            return False
        check(answer.code == 0, f"Allocate: {answer.code}")
        self.relayed = answer.address(0x0016)
        return True

    def use(self):
        """Data goes both ways."""
        with self.machines.clients.inside(), Peer(CLIENTS) as peer:
            data = secrets.token_bytes(10)
            self.client.permit(peer.address)
            self.client.send(peer.address, data)
            check(peer.hears() == (self.relayed, data), "the peer hears another thing")
            peer.socket.sendto(data, self.relayed)
            check(self.client.data() == (peer.address, data), "the client hears another thing")


def each(clients, function):
    """Calls a function for all clients at once."""
    with concurrent.futures.ThreadPoolExecutor(len(clients)) as pool:
        for it in [pool.submit(function, client) for client in clients]:
            it.result()


def shares(clients):
    """How many of the clients each server has."""
    return [sum(it.relayed[0] == address for it in clients) for address in SERVERS]


def three(programs):
    """Three servers, through nftables by the lines of the page and by a list of their addresses. One is drained:
    what it has goes on, and new clients follow its 300 with the nonce that they have. One dies with its machine:
    each of its clients has an allocation again after one transaction that times out."""
    lacks = [it for it in ("nft", "ip") if not shutil.which(it)]
    if lacks:
        raise Skipped(f"it needs {', '.join(lacks)}")
    text, = [text for language, text in blocks_of("SERVERS.md", 40) if language == "nft"]
    with contextlib.ExitStack() as all_of:
        folder = all_of.enter_context(folder_of(programs))
        machines = Machines(all_of)
        try:
            machines.balance(folder, text, *SERVERS)
        except Exception as why:
            raise Skipped(f"nftables can't balance here: {why}") from None
        servers = [all_of.enter_context(serve(programs, folder, machines, i)) for i in range(3)]
        spread(folder, text, machines, servers)


@contextlib.contextmanager
def serve(programs, folder, machines, i):
    """A server on its machine. While it is drained, its clients go to the next."""
    write(folder / "nonces", SHARED + "\n")
    write(folder / "secret", "north\n")
    settings = ["realm=example.org", f"secret={folder}/secret", f"nonce-secret={folder}/nonces", "lifetime=600",
                f"alternate={SERVERS[(i + 1) % 3]}:3478", "allow=198.51.100.0/24", "user-allocations=1000"]
    words = [word for it in settings for word in ("-o", it)]
    with machines.servers[i].inside():
        with Server(programs["server"], "--turn", *words, SERVERS[i], "3478", at=()) as server:
            yield server


def spread(folder, text, machines, servers):
    user = limited_name("north", 3600)
    def clients(at, count=COUNT):
        made = [Moving(machines, at(i), user) for i in range(count)]
        each(made, Moving.allocate)
        return made
    balanced = clients(lambda i: [BALANCER])
    listed = clients(lambda i: SERVERS[i % 3:] + SERVERS[:i % 3])
    each(balanced + listed, Moving.use)
    print(f"   through the balancer {shares(balanced)} clients, by their addresses {shares(listed)}", flush=True)
    check(min(shares(balanced)) > COUNT // 10, "a server has few clients of the balancer")
    check(shares(listed) == [COUNT // 3] * 3, "the shares of addresses are others")

    servers[0].ran.send_signal(signal.SIGUSR2)
    servers[0].wait_for("draining")
    later = clients(lambda i: [BALANCER])
    each(balanced + listed + later, Moving.use)
    followed = sum(it.followed for it in later)
    print(f"   one is drained: {shares(later)} new clients, of which {followed} followed a 300", flush=True)
    check(shares(later)[0] == 0 and followed > COUNT // 10, "new clients are others")
    check(not any(it.asked or it.timed_out for it in later), "a client that follows is asked again")
    machines.balance(folder, text, *SERVERS[1:])
    everyone = balanced + listed + later
    staying = [it for it in everyone if it.relayed[0] != SERVERS[0]]
    each([it for it in everyone if it not in staying], lambda it: it.client.refresh(0))
    check(has_ended(servers[0]) == 0, "the drained one doesn't end with its last allocation")

    lost = [it for it in staying if it.relayed[0] == SERVERS[1]]
    machines.balancer.ip("link set server1 down")
    servers[1].ran.kill()
    check_health = threading.Timer(1, machines.balance, (folder, text, SERVERS[2]))
    check_health.start()
    each(lost, try_again)
    check_health.join()
    each(staying, Moving.use)
    most, tries = max(it.took for it in lost), [it.timed_out for it in lost]
    print(f"   one dies: {len(lost)} clients have another allocation after at most {most:.1f} s, "
          f"{sum(tries)} transactions timed out, of {TIME_OUT:.2f} s each", flush=True)
    check(shares(staying) == [0, 0, len(staying)], f"the shares are {shares(staying)}")
    check(sum(servers[2].counts()[it] for it in ("workers_died", "turn_no_port")) == 0, "the last one has failed")


def try_again(client):
    """What a client does that hears nothing of its server: its transaction times out, and it allocates anew."""
    began, before = time.monotonic(), client.timed_out
    with contextlib.suppress(Gone, OSError):
        transact(client.client, client.client.request(0x0004))
        check(False, "a dead server answers")
    client.timed_out += 1
    client.at = [it for it in client.at if it != SERVERS[1]]
    client.allocate()
    client.took = time.monotonic() - began
    told = f"{client.timed_out} transactions time out, in {client.took:.1f} s, {client.tries} tries at {client.at}"
    check(client.timed_out == before + 1 and client.took < TIME_OUT + PATIENCE, told)
