#!/usr/bin/env python3
"""Connects two ICE agents in this process, over sockets of the loopback, and passes data each way.

python3 ice_connect.py [LIBRARY [SECONDS [PASSWORD]]]    LIBRARY as for messages.py

The agents exchange descriptions, lines of RFC 8839, as two programs would do over a channel of their own.
After SECONDS, by default 7, the program reports how long each agent may still send, and ends. With PASSWORD
each agent is given this one instead of the other's, and no check succeeds: status 1.
"""
import secrets
import select
import socket
import sys
import time
from ctypes import c_size_t, c_uint64, create_string_buffer

import stun_types as stun
from stun_types import address_of, new_id, now, socket_address, text_of

BASE, COMPONENT, ROOM = 0, 1, 1500
# Of a host candidate, and of a peer-reflexive one of the same base (RFC 8445, section 5.1.2.1).
HOST_PRIORITY, REFLEXIVE_PRIORITY = ((kind << 24) + (65535 << 8) + 256 - COMPONENT for kind in (126, 110))
ROLES = {stun.STUN_TYPES_ICE_CONTROLLING: "controlling", stun.STUN_TYPES_ICE_CONTROLLED: "controlled"}


class Agent:
    """An agent with one socket: its only base, and its only candidate."""

    def __init__(self, library, name, role):
        self.library, self.name, self.agent, self.wake = library, name, stun.Ice(), c_uint64()
        self.has_failed, self.received = False, None
        self.ufrag, self.password = secrets.token_hex(4), secrets.token_hex(16)
        self.socket = socket.socket(socket.AF_INET, socket.SOCK_DGRAM)
        self.socket.bind(("127.0.0.1", 0))
        self.own = address_of(*self.socket.getsockname())
        ufrag, password = self.ufrag.encode(), self.password.encode()
        library.stun_types_ice_new(self.agent, stun.IceSettings(
            ufrag=ufrag, ufrag_length=len(ufrag), password=password, password_length=len(password),
            tiebreaker=secrets.randbits(64), role=role, tries=3))  # (3: to fail sooner)
        library.stun_types_ice_add_base(self.agent, now(), stun.IceBase(
            number=BASE, foundation=1, priority=HOST_PRIORITY, reflexive_priority=REFLEXIVE_PRIORITY,
            component=COMPONENT, family=self.own.family))
        library.stun_types_ice_add_address(self.agent, self.own)

    def description(self):
        """The lines that the other agent needs."""
        candidate = stun.IceCandidate((ord("1"),), 1, COMPONENT, HOST_PRIORITY, self.own,
                                      transport=stun.STUN_TYPES_UDP, kind=stun.STUN_TYPES_ICE_HOST)
        text, length = create_string_buffer(200), c_size_t()
        self.library.stun_types_ice_candidate_write(candidate, text, len(text), length)
        line = text.raw[: length.value].decode()
        return [f"a=ice-ufrag:{self.ufrag}", f"a=ice-pwd:{self.password}", f"a={line}", "a=end-of-candidates"]

    def take(self, lines, password):
        """Takes the other agent's description, with another password if there is one."""
        fields = dict(line.removeprefix("a=").partition(":")[::2] for line in lines)
        ufrag, password = fields["ice-ufrag"].encode(), (password or fields["ice-pwd"]).encode()
        self.library.stun_types_ice_set_peer(self.agent, now(), ufrag, len(ufrag), password, len(password))
        for line in lines:
            if line.startswith("a=candidate:"):
                self.take_candidate(line.encode())
        self.library.stun_types_ice_end_candidates(self.agent, now())

    def take_candidate(self, line):
        candidate = stun.IceCandidate()
        self.library.stun_types_ice_candidate_read(line, len(line), candidate)
        if candidate.transport == stun.STUN_TYPES_UDP and candidate.address.family == self.own.family:
            # (Number the foundations of several candidates: equal ones have the same number.)
            self.library.stun_types_ice_add_remote(self.agent, now(), stun.IceRemote(
                candidate.address, 1, candidate.priority, candidate.component))

    def receive(self):
        """Takes the datagram that has come: a check, a response or data."""
        datagram, source = self.socket.recvfrom(ROOM)
        out, received = create_string_buffer(ROOM), stun.IceReceived()
        self.library.stun_types_ice_datagram(self.agent, now(), BASE, address_of(*source), datagram, len(datagram),
                                             secrets.randbits(64), out, ROOM, received)
        if received.kind == stun.STUN_TYPES_ICE_RESPONSE:
            self.socket.sendto(out.raw[: received.length], source)
        elif received.kind == stun.STUN_TYPES_ICE_DATA:
            self.received = datagram.decode()
            print(f"{self.name} received {self.received}")

    def turn(self):
        """Sends the checks that are due, and acts on what has changed."""
        out, request, change = create_string_buffer(ROOM), stun.IceRequest(), stun.IceChange()
        while True:
            self.library.stun_types_ice_poll(self.agent, now(), new_id(), out, ROOM, request, self.wake)
            if request.length == 0:
                break
            self.socket.sendto(out.raw[: request.length], socket_address(request.to))
        while self.library.stun_types_ice_changes(self.agent, change):
            if change.kind == stun.STUN_TYPES_ICE_PROGRESS:
                self.take_progress(change)

    def take_progress(self, change):
        if change.progress == stun.STUN_TYPES_ICE_FAILED:
            self.has_failed = True
            print(f"{self.name} failed")
        elif change.progress == stun.STUN_TYPES_ICE_CONNECTED:
            print(f"{self.name} connected {text_of(self.own)} to {text_of(change.address)}")
            self.send(f"data of {self.name}")

    def send(self, text):
        path = stun.IcePath()
        if self.library.stun_types_ice_route(self.agent, now(), COMPONENT, path):
            self.socket.sendto(text.encode(), socket_address(path.to))

    def close(self):
        """Prints the role, and how long the peer's consent lasts, and frees the agent."""
        standing, pair = stun.IceStanding(), stun.IceChecked()
        self.library.stun_types_ice_status(self.agent, COMPONENT, standing)
        if self.library.stun_types_ice_pair(self.agent, 0, pair) and pair.nominated:
            print(f"{self.name} is {ROLES[standing.role]}, and may send for {(pair.until - now()) // 10**9} s")
        self.library.stun_types_ices_free(self.agent, 1)
        self.socket.close()


def main():
    library = stun.load(sys.argv[1] if len(sys.argv) > 1 else "libstun_types.so.0.1")
    end = now() + int(sys.argv[2] if len(sys.argv) > 2 else 7) * 10**9
    password = sys.argv[3] if len(sys.argv) > 3 else None
    left = Agent(library, "left", stun.STUN_TYPES_ICE_CONTROLLING)
    right = Agent(library, "right", stun.STUN_TYPES_ICE_CONTROLLED)
    agents = {left.socket: left, right.socket: right}
    left.take(right.description(), password)
    right.take(left.description(), password)
    while True:
        for agent in agents.values():
            agent.turn()
        if now() >= end or left.has_failed and right.has_failed:
            break
        wake = min(left.wake.value, right.wake.value, end)
        for ready in select.select(agents, [], [], max(0, wake - now()) / 10**9)[0]:
            agents[ready].receive()
    for agent in agents.values():
        agent.close()
    return 0 if (left.received, right.received) == ("data of right", "data of left") else 1


if __name__ == "__main__":
    sys.exit(main())
