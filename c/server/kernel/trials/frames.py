"""Frames: making them, and reading them as a host does."""


def summed(octets, start=0):
    """The one's complement sum of octets."""
    octets += bytes(len(octets) % 2)
    total = start + sum(int.from_bytes(octets[i : i + 2]) for i in range(0, len(octets), 2))
    while total >> 16:
        total = (total & 0xFFFF) + (total >> 16)
    return total


def pseudo(source, destination, length):
    if len(source) == 4:
        return source + destination + b"\0\x11" + length.to_bytes(2)
    return source + destination + length.to_bytes(4) + b"\0\0\0\x11"


def udp(source, source_port, destination, port, data):
    length = 8 + len(data)
    bare = source_port.to_bytes(2) + port.to_bytes(2) + length.to_bytes(2) + b"\0\0" + data
    check = ~summed(pseudo(source, destination, length) + bare) & 0xFFFF or 0xFFFF
    return bare[:6] + check.to_bytes(2) + data


def packet(macs, source, source_port, destination, port, data, tos=0, df=True, ttl=64):
    """A frame with a datagram; `macs` are the first twelve octets."""
    inner = udp(source, source_port, destination, port, data)
    if len(source) == 16:
        head = bytes([0x60 | tos >> 4, (tos & 15) << 4 | 1, 2, 3]) + len(inner).to_bytes(2) + bytes([17, ttl])
        return macs + b"\x86\xdd" + head + source + destination + inner
    head = bytes([0x45, tos]) + (20 + len(inner)).to_bytes(2) + b"\x12\x34" + (b"\x40\0" if df else b"\0\0")
    head += bytes([ttl, 17])
    check = ~summed(head + b"\0\0" + source + destination) & 0xFFFF
    return macs + b"\x08\x00" + head + check.to_bytes(2) + source + destination + inner


class Read:
    """A frame as a host reads it: `fault` is why it would drop it, or None."""

    def __init__(self, frame):
        self.fault, kind, rest = None, frame[12:14], frame[14:]
        self.source = self.destination = self.data = b""
        self.source_port = self.port = 0
        self.plain = self.exact = self.fills = True
        if kind == b"\x08\x00" and len(rest) >= 20:
            inner, total = self.read_ipv4(rest)
        elif kind == b"\x86\xdd" and len(rest) >= 40:
            inner, total = self.read_ipv6(rest)
        else:
            self.fault, inner, total = "no IP", None, 0
        if inner is None:
            return
        self.exact = total == len(rest)
        self.read_udp(inner)

    def read_ipv4(self, rest):
        head, total = (rest[0] & 15) * 4, int.from_bytes(rest[2:4])
        if rest[0] >> 4 != 4 or head < 20 or total < head or total > len(rest) or len(rest) < head:
            self.fault = "head"
            return None, 0
        if summed(rest[:head]) != 0xFFFF:
            self.fault = "head checksum"
        self.plain = head == 20 and rest[6] & 0xBF == 0 and rest[7] == 0
        self.source, self.destination, self.protocol = rest[12:16], rest[16:20], rest[9]
        self.tos, self.ttl, self.df, self.label = rest[1], rest[8], rest[6] & 0x40, 0
        return rest[head:total], total

    def read_ipv6(self, rest):
        total = 40 + int.from_bytes(rest[4:6])
        if rest[0] >> 4 != 6 or total > len(rest):
            self.fault = "head"
            return None, 0
        self.source, self.destination, self.protocol = rest[8:24], rest[24:40], rest[6]
        self.tos, self.ttl, self.df = (rest[0] & 15) << 4 | rest[1] >> 4, rest[7], 0
        self.label = int.from_bytes(rest[:4]) & 0xFFFFF
        return rest[40:total], total

    def read_udp(self, inner):
        length = int.from_bytes(inner[4:6])
        self.fills = length == len(inner)
        if self.protocol != 17 or len(inner) < 8 or not 8 <= length <= len(inner):
            self.fault = self.fault or "udp"
            return
        inner = inner[:length]
        self.source_port, self.port = int.from_bytes(inner[:2]), int.from_bytes(inner[2:4])
        self.has_check = inner[6:8] != b"\0\0"
        if not self.has_check and len(self.source) == 16:
            self.fault = self.fault or "no checksum"
        if self.has_check and summed(pseudo(self.source, self.destination, length) + inner) != 0xFFFF:
            self.fault = self.fault or "checksum"
        self.data = inner[8:]
