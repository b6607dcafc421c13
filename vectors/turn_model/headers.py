"""The IP header of a datagram that relays data (RFC 8656, sections 13 to 15; RFC 7915, sections 4 and 5)."""

# The length of the headers of IPv4 and UDP; and up to which length a packet that is translated to IPv4 may be
# fragmented (RFC 7915, 5.1).
HEADERS, SMALL = 20 + 8, 1260


def words(hops, dscp, ecn, is_whole):
    """The words of four fields, `-` for the default."""
    return ":".join("-" if it is None else str(int(it)) for it in (hops, dscp, ecn, is_whole))


def from_tcp(came, asked):
    """Section 15: of the connection there is the DSCP alone."""
    return "header-after-tcp", words(None, came[1] or 0, 0, asked)


def within_ipv4(came, asked):
    """Section 14, of UDP: the DF bit is that of a DONT-FRAGMENT, or else the incoming one."""
    _, dscp, ecn, is_whole = came
    return "header-within-ipv4", words(None, dscp or 0, ecn or 0, asked or is_whole or 0)


def translated(came, to_ipv4, length):
    """Section 13: as a router does it. A fragment may be fragmented again, and so may a small packet of IPv4."""
    hops, dscp, ecn, is_whole = came
    if hops is not None:
        hops = max(0, hops - 1)
        if hops == 0:
            return "no-hop-left", "expired"
    if is_whole and to_ipv4:
        is_whole = HEADERS + length > SMALL
    return "header-translated", words(hops, dscp or 0, ecn or 0, is_whole)


def header(route, fields):
    """The rule that decides, and the words of the header."""
    over, sender, receiver, length, *flag = route.split(":")
    came = [None if it == "-" else int(it) for it in fields.split(":")]
    if over == "tcp":
        return from_tcp(came, flag == ["dont-fragment"])
    if sender == receiver == "4":
        return within_ipv4(came, flag == ["dont-fragment"])
    return translated(came, receiver == "4", int(length))
