"""A trial with peers that a TURN server denies: it sends them nothing."""
import contextlib
import ipaddress
import socket

from hosts import LEFT, RIGHT, SERVER, Capture
from steps import check
from turn import FAMILY, Client
from turn_servers import Settings, denied_prefixes

PORT = 5000
NAMED = ["127.0.0.1", "0.0.0.0", "::1", "::ffff:10.0.0.1", "169.254.169.254"]
ALL_NODES = "ff02::1"


def forbidden_addresses():
    """Those above, and one of each prefix that is denied by default."""
    found = list(map(ipaddress.ip_address, NAMED))
    for prefix in denied_prefixes():
        address = prefix[1]
        if address.version == 6 and address.is_multicast:
            address = ipaddress.ip_address(ALL_NODES)
        if address not in found:
            found.append(address)
    return found


def send_directly(host, addresses):
    """Sends a datagram from a host to each address."""
    with host.inside(), contextlib.ExitStack() as all_of:
        scope = socket.if_nametoindex("right")
        kinds = {4: socket.AF_INET, 6: socket.AF_INET6}
        sockets = {version: all_of.enter_context(socket.socket(kind, socket.SOCK_DGRAM))
                   for version, kind in kinds.items()}
        for address in addresses:
            near = address.is_link_local or address.is_multicast
            rest = (0, scope if near else 0) if address.version == 6 else ()
            sockets[address.version].sendto(text("directly", address), (str(address), PORT, *rest))


def text(way, address):
    return f"{way} to {address}".encode()


def ask_for(client, channel, address, wanted):
    """Asks in all ways for data to go to an address. Requests must get an error code; 0 means success."""
    peer = (str(address), PORT)
    client.permit(peer, wanted)
    client.bind(channel, peer, wanted)
    client.send(peer, text("by Send", address))
    client.send_on(channel, text("by a channel", address))


def ask_for_all(bench, server, settings, six, allowed, forbidden):
    """A client asks for the addresses of one family."""
    name, password = settings.credentials()
    with bench.hosts.left.inside():
        asking = Client(server, name, password, at=SERVER[six], source=LEFT[six])
    with asking as client:
        client.allocate((FAMILY, bytes([2 if six else 1, 0, 0, 0])))
        for channel, address in enumerate([*allowed, *forbidden], 0x4000):
            if (address.version == 6) == six:
                ask_for(client, channel, address, 403 if address in forbidden else 0)
        client.refresh(0)


def denied(bench):
    """A client asks in all ways for data to go to denied addresses: it gets 403, and tshark sees none of
    the data. It does see data to allowed addresses, and what the server's host sends to denied ones."""
    settings, forbidden = Settings(), forbidden_addresses()
    allowed = list(map(ipaddress.ip_address, RIGHT))
    with bench.server(settings) as server, Capture(bench.hosts.server) as capture:
        for six in (False, True):
            ask_for_all(bench, server, settings, six, allowed, forbidden)
        capture.catch_up()
        send_directly(bench.hosts.server, forbidden)
        capture.catch_up()
        seen = {payload for _, _, payload in capture.seen}
    for address in forbidden:
        check(text("directly", address) in seen, f"what goes to {address} isn't seen")
    for address in [*allowed, *forbidden]:
        for way in ("by Send", "by a channel"):
            goes = text(way, address) in seen
            check(goes == (address in allowed), f"{'data' if goes else 'no data'} {way} to {address}")
