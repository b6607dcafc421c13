#!/usr/bin/env python3
"""Gets a relayed address of a TURN server over UDP, and passes data to a peer and back by a channel.

python3 turn_client.py LIBRARY ADDRESS PORT USER PASSWORD    LIBRARY as for messages.py

The peer is a socket of this process at ADDRESS: the server has to permit peers there.
"""
import select
import socket
import sys
from ctypes import c_size_t, c_uint64, create_string_buffer

import stun_types as stun
from stun_types import address_of, new_id, now, text_of

HEAD, ROOM = 52, 3400


class Client:
    """A TURN client with its socket, and one peer."""

    def __init__(self, library, server, user, password, peer):
        self.library, self.client, self.wake, self.end = library, stun.Allocation(), c_uint64(), None
        self.server, self.peer = address_of(*server), address_of(*peer)
        self.socket = socket.socket(socket.AF_INET, socket.SOCK_DGRAM)
        self.socket.connect(server)
        library.stun_types_allocation_new(self.client, stun.AllocationSettings(
            server=self.server, transport=stun.STUN_TYPES_UDP, user=user, user_length=len(user),
            password=password, password_length=len(password)))
        self.want(stun.STUN_TYPES_ALLOCATION_ALLOCATE)
        self.want(stun.STUN_TYPES_ALLOCATION_BIND)

    def want(self, wish):
        self.library.stun_types_allocation_want(self.client, now(), wish, self.peer)

    def receive(self):
        """Takes the datagram that has come: a response, or data of the peer, after which the client closes."""
        datagram, data = self.socket.recv(ROOM), stun.AllocationData()
        self.library.stun_types_allocation_datagram(self.client, now(), self.server, datagram, len(datagram), data)
        if data.shown:
            text = datagram[data.at : data.at + data.length].decode()
            print(f"client received {text} from {text_of(data.peer)}")
            self.want(stun.STUN_TYPES_ALLOCATION_CLOSE)

    def turn(self):
        """Sends the requests that are due, and acts on what has changed."""
        out, length, change = create_string_buffer(ROOM), c_size_t(), stun.AllocationChange()
        while True:
            self.library.stun_types_allocation_poll(self.client, now(), new_id(), out, ROOM, length, self.wake)
            if length.value == 0:
                break
            self.socket.send(out.raw[: length.value])
        while self.library.stun_types_allocation_changes(self.client, change):
            self.take_change(change)

    def take_change(self, change):
        if change.kind == stun.STUN_TYPES_ALLOCATION_ALLOCATED:
            print(f"allocated {text_of(change.relayed)}")
        elif change.kind == stun.STUN_TYPES_ALLOCATION_BOUND:
            print(f"bound {text_of(change.peer)} to channel {change.channel:#x}")
            self.send(b"data of the client")
        elif change.kind == stun.STUN_TYPES_ALLOCATION_OVER:
            self.end = change.why
            print("closed" if change.why == stun.STUN_TYPES_ALLOCATION_CLOSED else f"failed, code {change.code}")

    def send(self, data):
        """Sends data to the peer, if it may be sent."""
        room, around = create_string_buffer(bytes(HEAD) + data, HEAD + len(data)), stun.AllocationHead()
        self.library.stun_types_allocation_send(self.client, now(), len(data), self.peer, new_id(), room, HEAD,
                                                around)
        if around.sends:
            self.socket.send(room.raw[HEAD - around.length :] + bytes(around.padding))

    def close(self):
        self.library.stun_types_allocations_free(self.client, 1)
        self.socket.close()


def reply(peer):
    """Replies to the datagram that has come to the peer's socket: to the relayed address."""
    datagram, source = peer.recvfrom(ROOM)
    print(f"peer received {datagram.decode()} from {text_of(address_of(*source))}")
    peer.sendto(b"data of the peer", source)


def main():
    if len(sys.argv) != 6:
        sys.exit(__doc__)
    name, host, port, user, password = sys.argv[1:]
    peer = socket.socket(socket.AF_INET, socket.SOCK_DGRAM)
    peer.bind((host, 0))
    client = Client(stun.load(name), (host, int(port)), user.encode(), password.encode(), peer.getsockname())
    client.turn()
    while client.end is None:
        wait = max(0, client.wake.value - now()) / 10**9
        ready, _, _ = select.select([client.socket, peer], [], [], min(wait, 60))
        if client.socket in ready:
            client.receive()
        if peer in ready:
            reply(peer)
        client.turn()
    client.close()
    return 0 if client.end == stun.STUN_TYPES_ALLOCATION_CLOSED else 1


if __name__ == "__main__":
    sys.exit(main())
