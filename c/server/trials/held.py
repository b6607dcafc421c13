"""Trials with stun-turn-client, which holds an allocation and sends to echoing peers: see c/server/held."""
import collections
import contextlib
import dataclasses
import os
import re
import select
import socket
import struct
import subprocess
import threading
import time

import forged
import steps
from hosts import LEFT, RIGHT, SERVER, Capture, Hosts
from steps import Skipped, Wrong, check, run, wait_until
from turn_servers import PASSWORD, USER, Settings

SECOND_PEER = ("203.0.113.3", "2001:db8:2::3")
PORT, CHANNEL_PORT = 4001, 4002
LOSS = 5  # of a hundred datagrams, each way
DOWN = 2  # seconds
REQUESTS = {0x0003: "Allocate", 0x0004: "Refresh", 0x0008: "CreatePermission", 0x0009: "ChannelBind"}
KINDS = {**REQUESTS, 0x0016: "Send"}
RULES = ("add table inet loss; add chain inet loss input {{ type filter hook input priority 0; }}; add rule inet loss "
         f"input iifname {{}} meta l4proto {{{{ tcp, udp }}}} numgen random mod 100 < {LOSS} counter drop")


class Echo:
    """Peers on the right host, which send back what they receive."""

    def __init__(self, host, six):
        host.ip(f"address add {SECOND_PEER[six]}/{64 if six else 24} dev uplink {'nodad' if six else ''}")
        self.sockets, self.count, self.ends = [], 0, False
        with host.inside():
            for at in ((RIGHT[six], PORT), (RIGHT[six], CHANNEL_PORT), (SECOND_PEER[six], CHANNEL_PORT)):
                own = socket.socket(socket.AF_INET6 if six else socket.AF_INET, socket.SOCK_DGRAM)
                own.bind(at)
                self.sockets.append(own)
        self.thread = threading.Thread(target=self.echo, daemon=True)
        self.thread.start()

    def echo(self):
        while not self.ends:
            for own in select.select(self.sockets, [], [], 0.2)[0]:
                own.sendto(*own.recvfrom(2000))
                self.count += 1

    def __enter__(self):
        return self

    def __exit__(self, *_):
        self.ends = True
        self.thread.join()
        for own in self.sockets:
            own.close()


class Client:
    """stun-turn-client on the left host, with a permission and two channels. Its seconds may be shorter."""

    def __init__(self, bench, host, six, port, options):
        self.bench, self.lines = bench, []  # the moments, in its seconds, and the lines
        peers = [f"[{it}]" if six else it for it in (RIGHT[six], SECOND_PEER[six])]
        server = f"[{SERVER[six]}]" if six else SERVER[six]
        words = [bench.client, "-u", USER, "-H", bench.hold, "-i", 1, "-p", f"{peers[0]}:{PORT}",
                 "-c", f"{peers[0]}:{CHANNEL_PORT}", "-c", f"{peers[1]}:{CHANNEL_PORT}", *options, f"{server}:{port}"]
        with host.inside():
            self.ran = subprocess.Popen([*map(str, words)], text=True, stdin=subprocess.DEVNULL, stdout=subprocess.PIPE,
                                        stderr=subprocess.PIPE, env={**os.environ, "STUN_PASSWORD": PASSWORD})
        bench.sides.append(self.ran)
        self.reader = threading.Thread(target=self.read, daemon=True)
        self.reader.start()

    def read(self):
        for line in self.ran.stdout:
            self.lines.append((time.monotonic() * self.bench.speed, line))

    def of(self, word):
        """The moments of the lines that begin with a word."""
        return [at for at, line in self.lines if line.startswith(f"{word} ")]

    def wait(self):
        """Waits for its end."""
        self.complaint = self.ran.stderr.read()
        self.status = self.ran.wait()
        self.reader.join()
        self.ended = time.monotonic() * self.bench.speed

    def counts(self):
        """How many lines it has printed of each kind."""
        words = ("relayed", "permitted", "channel", "refreshed", "sent", "received")
        pause = longest_pause(self.of("received"))
        return [*(f"{len(self.of(it))} {it}" for it in words), f"longest pause {pause:.0f} s"]

    def __enter__(self):
        return self

    def __exit__(self, *_):
        self.ran.kill()
        self.ran.wait()
        self.ran.stderr.close()


def lose(host, device):
    """Has a host lose some of the datagrams and segments that come by a device."""
    with host.inside():
        status, _, told = run(["nft", RULES.format(device)])
    if status != 0:
        raise Skipped(f"it needs nft and a kernel that loses at random: {told[:100]}")


def lost(host):
    """How many it has lost."""
    with host.inside():
        status, told, _ = run(["nft", "list", "table", "inet", "loss"])
    check(status == 0, "nft lists nothing")
    return sum(int(it.split()[0]) for it in told.split("packets ")[1:])


def what_left(capture, port):
    """Of each kind of message to the server how many left, in words; how many 438s came; how many Allocate
    transactions there were. Nothing may have left to anybody else."""
    left, transactions, stale = collections.Counter(), collections.defaultdict(set), 0
    for address, to, payload in capture.seen:
        if address in LEFT:
            stale += is_stale(payload)
        elif address in SERVER and to == int(port):
            kind = "ChannelData" if payload[0] >= 0x40 else KINDS.get(int.from_bytes(payload[:2], "big"), "another")
            left[kind] += 1
            transactions[kind].add(payload[8:20])
        else:
            check(address == "127.0.0.1" and to == 9, f"a datagram left to {address}, port {to}")
    check(set(left) == {*KINDS.values(), "ChannelData"}, f"what left is {left}")
    told = [f"{left[it]} {it} of {len(transactions[it])} transactions" for it in REQUESTS.values()]
    told += [f"{left[it]} {it}" for it in ("Send", "ChannelData")]
    return ", ".join(told), stale, len(transactions["Allocate"])


def is_stale(message):
    """Whether it is an error response with the code 438."""
    at = 20 if message[0] == 1 and message[1] & 0x10 else len(message)
    while at + 4 <= len(message):
        kind, length = struct.unpack_from(">HH", message, at)
        if kind == 0x0009:
            return message[at + 6 : at + 8] == bytes([4, 38])
        at += 4 + (length + 3) // 4 * 4
    return False


def longest_pause(moments):
    return max((later - one for one, later in zip(moments, moments[1:])), default=float("inf"))


@dataclasses.dataclass
class How:
    """Over what a client holds an allocation, and what happens meanwhile."""
    six: bool = False
    stream: bool = False
    loses: bool = False
    forges: bool = False
    restarts: bool = False


def held(bench, serve, name, how):
    """The client holds an allocation, a permission and two channels, and nothing is lost that need not be."""
    settings = Settings(nonce_seconds=max(1, 60 // bench.speed))
    with contextlib.ExitStack() as all_of:
        hosts = all_of.enter_context(Hosts())
        echo = all_of.enter_context(Echo(hosts.right, how.six))
        capture = None if how.stream else all_of.enter_context(Capture(hosts.left))
        server = all_of.enter_context(contextlib.ExitStack())
        settings.port = server.enter_context(serve(hosts.server, bench.new_folder(), settings)).port
        forger = all_of.enter_context(forged.Forger(hosts.server, settings.port)) if how.forges else None
        if how.loses:
            lose(hosts.left, "uplink")
            lose(hosts.server, "left")
        client = all_of.enter_context(Client(bench, hosts.left, how.six, settings.port, ["-t"] * how.stream))
        if how.restarts:
            wait_until(lambda: client.of("received"), "nothing is relayed")
            time.sleep(bench.hold / bench.speed / 2)
            server.close()
            time.sleep(DOWN)
            server.enter_context(serve(hosts.server, bench.new_folder(), settings))
            restarted = time.monotonic() * bench.speed
        client.wait()
        told = client.counts()
        if how.loses:
            told.append(f"{lost(hosts.server)} and {lost(hosts.left)} packets dropped")
        if how.forges:
            told.append(f"{forger.count} forged")
        if how.restarts and len(client.of("relayed")) > 1:
            told.append(f"allocated again {client.of('relayed')[1] - restarted:.0f} s after the restart")
        if capture:
            capture.catch_up()
            left, stale, allocates = what_left(capture, settings.port)
            told.append(f"{stale} 438s; left: {left}")
        with steps.counting:
            print(f"   {name}: {', '.join(told)}", flush=True)
        check_grants(client, how)
        check_data(client, how, echo.count)
        check(how.stream or stale >= 3, "no nonce is stale")
        check(how.stream or allocates <= 3 + 3 * how.restarts, "it allocates too often")


def check_grants(client, how):
    """It ends well, was granted all at first and again when it was due, and complains only of a restart."""
    check(client.status == 0 and client.lines[-1][1] == "deleted\n", f"status {client.status}: {client.complaint}")
    # (without an allocation coturn answers CreatePermission and ChannelBind by 400, and Refresh by 437)
    codes = [it for it in re.findall(r"error (\d+)", client.complaint) if it != "400" or not how.restarts]
    check(codes == ["437"] * how.restarts, client.complaint)
    times = (2, 4) if how.restarts else (3, 3)  # (permissions and channels are renewed every 240 s)
    for word, least, most in (("relayed", 1 + how.restarts, 1 + how.restarts), ("permitted", *times),
                              ("channel", 2 * times[0], 2 * times[1]), ("expired", 0, 0),
                              ("refreshed", 1 - how.restarts, 1 - how.restarts)):
        check(least <= len(client.of(word)) <= most, f"{word}: {len(client.of(word))} times")


def check_data(client, how, echoed):
    """Data comes until the end, and unless the server restarts all the time."""
    came, sent = client.of("received"), client.of("sent")
    check(client.ended - came[-1] < 20, "nothing is relayed at the end")
    check(len(came) <= echoed <= len(sent), "more comes back than was sent")
    check(not any("forged" in line for _, line in client.lines), "what is forged is shown")
    if not how.restarts:
        least = 0.85 if how.loses and not how.stream else 0.99
        check(len(came) >= least * len(sent), "too much is lost")
        most = 200 if how.stream and client.bench.speed > 1 else 20  # (TCP sends again by the real clock)
        check(longest_pause(came) < most, "nothing is relayed for a while")
