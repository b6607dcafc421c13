"""Trials of the server over TCP."""
import contextlib
import re
import resource
import select
import shutil
import socket
import threading
import time

from harness import (Server, after, ask, ask_on, expect, in_own_network, is_closed, many_files,
                     read_replies, refusing, status_of)
from steps import PATIENCE, REQUEST, Skipped, Wrong, check, run, wait_until


def flood(deaf):
    """Sends requests until the server takes no more, and reads no reply."""
    deaf.setblocking(False)
    sent, end = 0, time.monotonic() + PATIENCE
    while sent < 50_000_000 and time.monotonic() < end:
        try:
            sent += deaf.send((REQUEST + bytes(12)) * 1000)
        except BlockingIOError:
            if not select.select([], [deaf], [], 0.3)[1]:
                return
    raise Wrong(f"the server took {sent} bytes of a client that reads nothing")


def kernel_memory(server):
    """How many bytes the system keeps for each connection of a server, by its state: what was received,
    what is to be sent, and what is set aside for either. The server needn't know the connection any
    more."""
    if not shutil.which("ss"):
        raise Skipped("ss isn't on this machine")
    _, out, _ = run(["ss", "-Htanm", f"sport = :{server.port}"])
    found = []
    for state, sizes in re.findall(r"^(\S+) .*\n?.*skmem:\(([^)]*)\)", out, re.M):
        numbers = {name: int(size) for name, size in re.findall(r"([a-z]+)(\d+)", sizes)}
        if state != "LISTEN":
            found.append((state, numbers["r"] + numbers["w"] + numbers["f"]))
    return found


def slow_readers(programs):
    """A client that reads nothing takes little of the system's memory, and none once its connection is
    closed: because it was idle, or for another."""
    with contextlib.ExitStack() as all_of:
        idle, full = (all_of.enter_context(Server(programs["server"], "-t", "-o", option))
                      for option in ("idle-timeout=1", "max-connections=1"))
        for server in (idle, full):
            flood(all_of.enter_context(server.connect()))
        taken = kernel_memory(full)
        check(len(taken) == 1 and taken[0][1] <= 400_000, f"one connection takes {taken}")
        with full.connect() as other:
            ask_on(other)
        for server in (idle, full):
            wait_until(lambda: not kernel_memory(server), "a connection is left")
        check(idle.end()["tcp_idle"] == 1 and full.end()["tcp_displaced"] == 1, "other counts")


def over_tcp(programs):
    """Streams that are cut anywhere, beside clients that are slow, silent or send nonsense."""
    numbers = [number.to_bytes(12, "big") for number in range(1000)]
    options = ["-t", "-o", "request-timeout=60"]
    with Server(programs["server"], *options) as server, contextlib.ExitStack() as all_of:
        silent, halfway, nonsense, deaf, whole, cut = (
            all_of.enter_context(server.connect()) for _ in range(6))
        halfway.send(REQUEST[:7])
        nonsense.send(REQUEST + numbers[0] + b"GET / HTTP/1.1\r\n\r\n")
        flood(deaf)
        whole.sendall(b"".join(REQUEST + number for number in numbers))
        check(read_replies(whole, 1000) == numbers, "other replies than requests")
        cut.setsockopt(socket.IPPROTO_TCP, socket.TCP_NODELAY, 1)
        for byte in b"".join(REQUEST + number for number in numbers[:5]):
            cut.send(bytes([byte]))
            time.sleep(0.002)
        check(read_replies(cut, 5) == numbers[:5], "other replies to the cut stream")
        check(read_replies(nonsense, 1) == numbers[:1] and is_closed(nonsense), "nonsense goes on")
        ask(programs["client"], "127.0.0.1", server.port, "-t")
        counted = server.end()
        # (a silent one is accepted after a while)
        check(counted["tcp_accepted"] in (6, 7) and counted["tcp_refused"] == 0, str(counted))


def full_table(programs):
    """Sixteen addresses have 64 connections each, all that there are; one more client is served, as
    often as it likes, and none of its connections is closed for another."""
    options = ["-t", "-o", "idle-timeout=600"]
    with many_files(), contextlib.ExitStack() as all_of:
        server = all_of.enter_context(Server(programs["server"], *options))
        for i in range(16 * 64):
            ask_on(all_of.enter_context(server.connect(f"127.0.0.{1 + i % 16}")))
        others = []
        for _ in range(20):
            others.append(all_of.enter_context(server.connect("127.0.0.17")))
            ask_on(others[-1])
        for stream in others:
            ask_on(stream)
        expect(server.end(), tcp_accepted=1044, tcp_displaced=20, tcp_received=1064, tcp_sent=1064)


def few_files(programs):
    """If the system refuses more files, there are as many connections as it allowed before: 19 of 100
    files, since 16 + 64 are for other uses, and one is the listening socket."""
    most = resource.getrlimit(resource.RLIMIT_NOFILE)[1]
    fewer = f"resource.setrlimit(resource.RLIMIT_NOFILE, (100, {most}))"
    command = after(fewer + refusing("prlimit64", 2, 0))
    options = ["-t", "-o", "max-connections=50"]
    with Server(programs["server"], *options, command=command) as server:
        check(server.wait_for("few-files")["connections"] == "19", "other connections")
        with contextlib.ExitStack() as all_of:
            streams = [all_of.enter_context(server.connect()) for _ in range(19)]
            for stream in streams:
                ask_on(stream)
        expect(server.end(), tcp_accepted=19, tcp_received=19, tcp_sent=19)


def displaced(programs):
    """If all connections are taken, a new one takes the place of that which has been idle longest, of
    the addresses that have most."""
    options = ["-t", "-o", "max-connections=8"]
    with Server(programs["server"], *options) as server, contextlib.ExitStack() as all_of:
        def connect(source):
            stream = all_of.enter_context(server.connect(source))
            ask_on(stream)
            time.sleep(0.02)
            return stream
        few = [connect("127.0.0.2") for _ in range(3)]
        many = [connect("127.0.0.1") for _ in range(5)]
        ask_on(many[0])
        new = [connect(f"127.0.0.{i}") for i in (3, 4, 5)]
        # the third time both have three left
        for stream in (many[1], many[2], few[0]):
            check(is_closed(stream), "those that were idle longest are open")
        for stream in [*few[1:], many[0], *many[3:], *new]:
            ask_on(stream)
        expect(server.end(), tcp_accepted=11, tcp_displaced=3, tcp_received=20, tcp_sent=20)


def worker_memory(server):
    """How many bytes of memory the process with the connections has for itself."""
    sizes = [int(status_of(worker)["RssAnon"][0]) for worker in server.workers()]
    return 1024 * max(sizes)


def half_messages(programs):
    """Memory that messages took which didn't become whole is the system's again when their
    connections end."""
    with Server(programs["server"], "-t", "-o", "request-timeout=60") as server:
        with contextlib.ExitStack() as all_of:
            for _ in range(200):
                stream = all_of.enter_context(server.connect())
                stream.sendall(b"\0\1\xff\xfc" + REQUEST[4:] + bytes(65000))
            wait_until(lambda: worker_memory(server) > 12_000_000, "it doesn't read the messages")
        wait_until(lambda: worker_memory(server) < 5_000_000, "memory stays")
        server.end()


def crowded(programs):
    """Connections of many addresses displace each other, and nobody else, if these addresses are in one
    /24 of IPv4, or in one /48, /56 or /64 of IPv6."""
    crowds = [("127.0.1.1", "127.0.0.{0}"),
              ("2001:db8:1::1", "2001:db8:2:{0:02x}00::1"),
              ("2001:db8:1:100::1", "2001:db8:1:2{0:02x}::1"),
              ("2001:db8:1:101::1", "2001:db8:1:102::{0:x}")]
    for alone, crowd in crowds:
        with contextlib.ExitStack() as all_of:
            server = Server(programs["server"], "-t", "-o", "max-connections=8",
                            at=("127.0.0.1", "::1"))
            all_of.enter_context(server)
            served = all_of.enter_context(server.connect(alone))
            ask_on(served)
            for i in range(1, 31):
                ask_on(all_of.enter_context(server.connect(crowd.format(i))))
            with contextlib.suppress(ConnectionError):
                ask_on(served)
            counts = {"tcp_accepted": 31, "tcp_displaced": 23, "tcp_received": 32, "tcp_sent": 32}
            expect(server.end(), **counts)


def crowded_out(programs):
    in_own_network(crowded, programs)


def silent(programs):
    """Connections that are silent from their beginning take no place of one that isn't."""
    with contextlib.ExitStack() as all_of:
        server = all_of.enter_context(Server(programs["server"], "-t", "-o", "max-connections=2",
                                             "-o", "request-timeout=60"))
        first = all_of.enter_context(server.connect())
        ask_on(first)
        for _ in range(10):
            all_of.enter_context(server.connect("127.0.0.2"))
        last = all_of.enter_context(server.connect())
        for stream in (last, first):
            ask_on(stream)
        expect(server.end(), tcp_accepted=2, tcp_received=3, tcp_sent=3)


def last_displaced(programs):
    """The connection that is closed for another may be the last of the table, time and again; a place
    that is free again is used."""
    options = ["-t", "-o", "max-connections=4"]
    with Server(programs["server"], *options) as server, contextlib.ExitStack() as all_of:
        *kept, last = [all_of.enter_context(server.connect()) for _ in range(4)]
        ask_on(last)
        for _ in range(3):
            time.sleep(0.02)
            for stream in kept:
                ask_on(stream)
            other = all_of.enter_context(server.connect())
            ask_on(other)
            check(is_closed(last), "another connection is closed")
            last = other
        last.close()
        wait_until(lambda: server.sockets() == [1, 4], "a connection outlasts its client")
        for stream in [all_of.enter_context(server.connect()), *kept]:
            ask_on(stream)
        expect(server.end(), tcp_accepted=8, tcp_displaced=3, tcp_received=17, tcp_sent=17)


def drip(stream):
    """Sends a message of 1,020 bytes a byte at a time."""
    with contextlib.suppress(OSError):
        for byte in b"\0\1\3\xe8" + REQUEST[4:] + bytes(1008):
            stream.send(bytes([byte]))
            time.sleep(0.05)


def chatter(stream):
    """Asks as long as the connection lasts."""
    with contextlib.suppress(OSError, Wrong):
        while True:
            ask_on(stream)
            time.sleep(0.05)


def timed_out(programs):
    """A connection is closed if a message doesn't come whole in time, if none comes, and if it is
    old, though it is busy. The others are not."""
    with contextlib.ExitStack() as all_of:
        servers = {name: all_of.enter_context(Server(programs["server"], "-t", "-o", f"{name}=1"))
                   for name in ("request-timeout", "idle-timeout", "max-age")}
        slow, idle, busy = (all_of.enter_context(server.connect()) for server in servers.values())
        others = [all_of.enter_context(servers["request-timeout"].connect()) for _ in range(2)]
        ask_on(idle)
        talks = [threading.Thread(target=drip, args=(slow,)),
                 threading.Thread(target=chatter, args=(busy,))]
        for talk in talks:
            talk.start()
        for talk in talks:
            talk.join(PATIENCE)
            check(not talk.is_alive(), "a connection lasts")
        check(is_closed(idle), "an idle connection lasts")
        for stream in others:
            ask_on(stream)
        for server, cause in zip(servers.values(), ("tcp_slow", "tcp_idle", "tcp_aged")):
            counted = server.end()
            causes = {name for name in ("tcp_slow", "tcp_idle", "tcp_aged") if counted[name]}
            check(causes == {cause} and counted[cause] == 1, f"{cause}: {counted}")
