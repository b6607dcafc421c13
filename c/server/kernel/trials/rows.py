"""The program beside the model of a TURN server, datagram by datagram.

The model (vectors/turn_model) goes through the events of each row of `turn` and `turn-server`. Before each datagram, of a
client over UDP or of a peer, the maps get the flows that the model has. Then the program runs on the datagram as a frame.
What it relays has to be what the model sends, octet for octet, with right checksums; what it doesn't relay goes up
unchanged, unless it is so plain that it must be relayed.
"""
import collections
import copy
import ipaddress
import operator
import pathlib
import random
import sys
import time
from fractions import Fraction

import frames
import programs
from frames import Read, summed

VECTORS = pathlib.Path(__file__).resolve().parents[4] / "vectors"
sys.path[:0] = [str(VECTORS.parent / ".ci"), str(VECTORS / "turn_model")]
import common
import judging
import machine

model = common.script("vectors/turn_model/run")
SERVERS = {4: ipaddress.ip_address("203.0.113.1").packed, 6: ipaddress.ip_address("2001:db8::1").packed}
OTHER = ipaddress.ip_address("203.0.113.2").packed  # where the fifth 5-tuple comes to
LISTENING = [("203.0.113.1", 3478), ("203.0.113.2", 3478), ("2001:db8::1", 3478)]
RELAYED = ["203.0.113.1", "2001:db8::1"]
PORT = 3478
LEAST_LENGTH = {b"\x08\0": 34, b"\x86\xdd": 54}  # of a frame that the kernel runs a program on


class Fault(Exception):
    """What the program does wrong."""


class Bench:
    """A program, the interface at which it is, and the flows that it has."""

    def __init__(self, program, interface, mac):
        self.program, self.interface, self.live = program, interface, {}
        self.macs = mac + bytes.fromhex("02000000000b")

    def frame(self, *words, **how):
        return frames.packet(self.macs, *words, **how)

    def fill(self, server):
        """The flows that the model has for its clients over UDP, by the event before."""
        self.program.clear()
        self.live = {}
        for its in server.relays:
            for number in [] if its.tuple.streams else its.channels:
                self.add(server, its, number)

    def add(self, server, its, number):
        word = server.flow(its.tuple, number)
        if word == "no-flow":
            return
        _, socket, address, port, until = word.split(":")
        peer = bytes.fromhex(address), int(port)
        if int(socket) != its.number or not machine.is_open(peer, server.denied) or number > 0x4FFF:
            return
        left = float(Fraction(until) - server.now)
        client, own = its.tuple.client, server.address_of(its.number, its.family)
        place, end = server_of(its.tuple), time.monotonic_ns() + int(left * 1e9)
        interfaces = self.interface, self.interface
        self.program.begin(client, place, number, own, peer, 0, end, interfaces)
        self.program.begin(peer, own, 0, place, client, number, end, interfaces)
        self.live |= {(client, place, number): end, (peer, own, 0): end}

    def check(self, frame, wanted):
        """Runs the program on a frame; `wanted` is what the model sends, as its ends and its data, or None. Returns
        the reason."""
        verdict, after, reason = self.program.run(frame, self.interface)
        if verdict == programs.UP:
            require(after == frame, f"changed a frame that goes up: {reason}")
            require(not self.must_relay(frame, wanted), f"left to the server: {reason}: {frame.hex()}")
            return reason
        require(verdict == programs.REDIRECT and reason == "relayed", f"{verdict}, {reason}")
        old, new = Read(frame), Read(after)
        require(wanted is not None, f"relayed what the model doesn't: {frame.hex()}")
        require(old.plain and old.exact, f"relayed what isn't plain: {frame.hex()}")
        require((old.fault is None) == (new.fault is None), f"a fault came or went: {old.fault}, {new.fault}")
        got = (new.source, new.source_port, new.destination, new.port, new.data)
        require(got == wanted, f"relayed otherwise: {got} for {wanted}")
        head = (new.tos, new.df, new.ttl, new.label) == (old.tos, old.df, old.ttl - 1, 0) and old.ttl > 1
        require(head, "the header of IP")
        require(new.has_check == old.has_check, "the checksum")
        return "relayed"

    def must_relay(self, frame, wanted):
        """Whether a datagram that the model sends on a channel is so plain that it may not be left to the server."""
        read = Read(frame)
        if wanted is None or read.fault or not (read.plain and read.exact and read.fills) or len(read.data) < 4:
            return False
        is_longer = len(wanted[4]) > len(read.data)
        number = 0 if is_longer else int.from_bytes(read.data[:2])
        key = (read.source, read.source_port), (read.destination, read.port), number
        is_exact = is_longer or len(wanted[4]) + 4 == len(read.data)
        return is_exact and self.live.get(key, 0) > time.monotonic_ns() and len(wanted[0]) == len(read.source) and read.ttl > 1


def require(holds, told):
    if not holds:
        raise Fault(told)


def server_of(client):
    """The address and the port that a client sends to."""
    return OTHER if client.name == "4" else SERVERS[machine.family_of(client.client[0])], PORT


def sent(server, output, state):
    """What an output sends on a channel, as ends and data, or None: something else."""
    kind, *parts = (output or "-").split(":")
    if kind == "to-peer":
        number, address, port, data = parts[:4]
        family = next(it.family for it in state if it.number == int(number))
        return *server.address_of(int(number), family), bytes.fromhex(address), int(port), model.octets(data)
    if kind in ("channel", "channel-data"):
        client, data = model.TUPLES[parts[0]], model.octets(parts[-1])
        if kind == "channel":
            data = bytes.fromhex(parts[1]) + len(data).to_bytes(2) + data
        return None if client.streams else (*server_of(client), *client.client, data)
    return None


# ---- Rows -------------------------------------------------------------------------------------------

def event_frame(bench, server, word, words):
    """The frame of an event with data, or None: it is none of UDP; and whether it is ChannelData or a peer's."""
    if word == "arrive":
        number, peer, data = int(words[0]), model.endpoint(words[1]), model.octets(words[2])
        its = server.at_socket(number)
        if its is None or number not in server.ports or len(data) > 2900:
            return None, True
        own = server.address_of(number, its.family)
        return (bench.frame(*peer, *own, data) if len(peer[0]) == len(own[0]) else None), True
    name, *number = words[0].split(":")
    client, data = model.TUPLES[name], model.octets(words[1])
    if word == "channel":
        data = bytes.fromhex(number[0]) + len(data).to_bytes(2) + data
    fits = not client.streams and len(data) < 2900
    is_channel = word == "channel" or data[:1] >= b"\x40"
    return (bench.frame(*client.client, *server_of(client), data) if fits else None), is_channel


def row_datagrams(row):
    """The events of a row: the server before it, the name of an event, and its words; the caller asks the model."""
    verb, first, *rest = row.call.split()
    server, left = judging.Site(machine.Setup.read(first)), iter(rest)
    for word in left:
        if word == "at":
            server.at(Fraction(next(left)))
        elif word == "deny":
            server.denied = frozenset(model.octets(it) for it in next(left).split(","))
        elif word == "draw":
            server.drawn = next(left)
        elif (verb, word) == ("flows", "flow"):
            next(left)
        else:
            at = len(rest) - operator.length_hint(left)
            yield server, word, rest[at:]
            server.begin()
            model.EVENTS[verb][word](server, left)


def rows(bench):
    """Each datagram of the rows: how many there are of each reason, how many the server relays on a channel, and the
    faults."""
    found, relayable, faults = collections.Counter(), 0, []
    for row in model.rows():
        if row.call.split()[0] not in ("events", "datagrams", "flows"):
            continue
        for server, word, words in row_datagrams(row):
            if word not in ("from", "arrive", "channel"):
                continue
            frame, is_channel = event_frame(bench, server, word, words)
            if frame is None:
                found["(not a frame)"] += 1
                continue
            bench.fill(server)
            wanted = asked(server, row.call.split()[0], word, words) if is_channel else None
            relayable += wanted is not None
            try:
                found[bench.check(frame, wanted)] += 1
            except Fault as fault:
                faults.append(f"{row.place} {row.name}: {fault}")
    return found, relayable, faults


def asked(server, verb, word, words):
    """What the model would send on a channel for an event, which leaves no trace in it."""
    other = copy.deepcopy(server)
    other.begin()
    state = [*other.relays]
    return sent(other, model.EVENTS[verb][word](other, iter(words)), state)


# ---- Frames that are nearly right --------------------------------------------------------------------

def wanted_of(server, frame):
    """What the model does with a frame, as a host would hand it over; None: nothing, or not on a channel."""
    read = Read(frame)
    if read.fault not in (None, "checksum", "head checksum"):
        return None
    theirs, ours = (read.source, read.source_port), (read.destination, read.port)
    state = [*server.relays]
    for its in state:
        if its.tuple.streams:
            continue
        if (its.tuple.client, server_of(its.tuple)) == (theirs, ours):
            is_channel = read.data and 0x40 <= read.data[0] <= 0x4F
            return sent(server, server.from_client(its.tuple, read.data), state) if is_channel else None
        if server.address_of(its.number, its.family) == ours:
            return sent(server, server.arrive(its.number, theirs, read.data), state)
    return None


def random_state(draw):
    server = judging.Site(machine.Setup.read("8:8:3600" + draw.choice(["", ":channel-permits"])))
    peers = [(bytes([198, 51, 100, 7 + i]), 4000 + j) for i in range(2) for j in range(2)]
    peers += [(ipaddress.ip_address("2001:db8::17").packed, 4000)]

    def wait(seconds):
        server.at(server.now + seconds)
        server.begin()
    server.begin()
    for name in "12346":
        server.allocate(model.TUPLES[name], "alice", name, None, [(draw.choice([4, 4, 6]), True)])
        wait(draw.choice([0, 1, 50, 200]))
        for _ in range(draw.randrange(6)):
            server.bind(model.TUPLES[name], "alice", 0x4000 + draw.randrange(3), draw.choice(peers))
            wait(draw.choice([0, 0, 1, 50]))
    if draw.random() < 0.3:
        server.refresh(model.TUPLES[draw.choice("1234")], "alice", 0, None)
    wait(draw.choice([0, 0, 100, 299, 300]))
    return server, peers


def random_frame(bench, server, peers, draw):
    client = model.TUPLES[draw.choice("12346")]
    data = draw.randbytes(draw.choice([0, 1, 3, 4, 20, 100, 1000]))
    how = {"tos": draw.choice([0, 2, 0xB8]), "df": draw.random() < 0.7, "ttl": draw.choice([64, 64, 2, 1, 255])}
    if draw.random() < 0.5 or not server.relays:
        length = len(data) + draw.choice([0] * 9 + [1, -1, 4]) & 0xFFFF
        head = (0x4000 + draw.randrange(4)).to_bytes(2) + length.to_bytes(2)
        frame = bench.frame(*client.client, *server_of(client), head + data, **how)
    else:
        to = server.address_of(*draw.choice([(it.number, it.family) for it in server.relays]))
        fitting = [it for it in peers if len(it[0]) == len(to[0])]
        if draw.random() < 0.2:
            data = b"\x40\0" + data
        frame = bench.frame(*draw.choice(fitting), *to, data, **how)
    return altered(bytearray(frame), draw)


def altered(frame, draw):
    """A frame with some octets, lengths or checksums changed."""
    for _ in range(draw.choice([0, 0, 0, 1, 1, 2])):
        place = draw.randrange(12, min(len(frame), 14 + 60))
        frame[place] = draw.choice([0, 1, 0x40, 0x45, 0x46, 0x55, 0x60, 0x65, 0xFF, frame[place] ^ 1 << draw.randrange(8)])
    if draw.random() < 0.1:
        place = 14 + (20 if frame[12:14] == b"\x08\0" else 40) + 6
        frame[place : place + 2] = b"\0\0"  # (no checksum)
    if draw.random() < 0.05:
        frame[14] = draw.choice([0x45, 0x55, 0x65, 0x75])
    if draw.random() < 0.1:
        frame = frame[: draw.randrange(14, len(frame) + 1)]
    if draw.random() < 0.05:
        frame += draw.randbytes(draw.randrange(20))
    if draw.random() < 0.3 and frame[12:14] == b"\x08\0" and len(frame) >= 34:
        frame[24:26] = b"\0\0"  # (a head whose checksum fits what was changed)
        frame[24:26] = (~summed(bytes(frame[14:34])) & 0xFFFF).to_bytes(2)
    return bytes(frame)


def random_frames(bench, count, seed, seconds):
    """So many frames in states of random requests, or as many as are done in the time: how many there are of each
    reason, and the faults; the first one ends it."""
    draw, found, end = random.Random(seed), collections.Counter(), time.monotonic() + seconds
    while found.total() < count and time.monotonic() < end:
        server, peers = random_state(draw)
        bench.fill(server)
        for _ in range(60):
            frame = random_frame(bench, server, peers, draw)
            if len(frame) < LEAST_LENGTH.get(frame[12:14], 34):
                continue
            try:
                found[bench.check(frame, wanted_of(server, frame))] += 1
            except Fault as fault:
                return found, [str(fault)]
    return found, []
