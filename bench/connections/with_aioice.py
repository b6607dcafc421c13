"""Agents of aioice for bench/connections/measure, in one loop: measured.h says how it is called."""
import asyncio
import ctypes
import os
import resource
import sys
import time

from aioice import Connection, ice

NEW_NETWORK = 0x40000000
LIBC = ctypes.CDLL(None, use_errno=True)


def enter(network):
    """Sockets that are opened from now on are in this network."""
    file = os.open(network, os.O_RDONLY)
    if LIBC.setns(file, NEW_NETWORK) != 0:
        sys.exit(f"setns: {os.strerror(ctypes.get_errno())}")
    os.close(file)


def sent_by(counters):
    """The datagrams that a network has sent."""
    lines = [it.split() for it in os.pread(counters, 8192, 0).decode().splitlines() if it.startswith("Udp:")]
    return int(dict(zip(*lines))["OutDatagrams"])


def resident():
    with open("/proc/self/statm") as file:
        return int(file.read().split()[1]) * resource.getpagesize()


async def opened(address, controls, stun=None):
    ice.get_host_addresses = lambda use_ipv4, use_ipv6: [address]
    connection = Connection(controls, stun_server=stun, use_ipv6=False)
    await connection.gather_candidates()
    return connection


async def describe(to, other):
    to.remote_username, to.remote_password = other.local_username, other.local_password
    for candidate in other.local_candidates:
        await to.add_remote_candidate(candidate)
    await to.add_remote_candidate(None)


async def connect_pair(sides, counters, stun):
    both = []
    for controls, (address, network) in zip((True, False), sides):
        enter(network)
        both.append(await opened(address, controls, stun))
    before, began = sum(map(sent_by, counters)), time.monotonic()
    for one, other in (both, both[::-1]):
        await describe(one, other)
    await asyncio.gather(*(it.connect() for it in both))
    took = time.monotonic() - began
    print(round(took * 1e6), sum(map(sent_by, counters)) - before, flush=True)
    for one in both:
        await one.close()


async def connect(count, left, left_network, right, right_network, *stun):
    counters = []
    for network in (left_network, right_network):
        enter(network)
        counters.append(os.open("/proc/thread-self/net/snmp", os.O_RDONLY))
    server = (stun[0], int(stun[1])) if stun else None
    for _ in range(int(count)):
        await connect_pair([(left, left_network), (right, right_network)], counters, server)


async def hold(count, seconds):
    resource.setrlimit(resource.RLIMIT_NOFILE, (resource.getrlimit(resource.RLIMIT_NOFILE)[1],) * 2)
    before = resident()
    every = [await opened("127.0.0.1", number % 2 == 0) for number in range(int(count))]
    for number, one in enumerate(every):
        await describe(one, every[number ^ 1])
    for at in range(0, len(every), 100):
        await asyncio.gather(*(it.connect() for it in every[at : at + 100]))
    print(round((resident() - before) / int(count)), flush=True)
    for _ in range(2):
        taken = time.process_time()
        await asyncio.sleep(float(seconds))
        print(round((time.process_time() - taken) * 1e6 / float(seconds)), flush=True)


asyncio.run({"connect": connect, "hold": hold}[sys.argv[1]](*sys.argv[2:]))
