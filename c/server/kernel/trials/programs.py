"""The program of relay.bpf.c in a network namespace of its own, its maps, and frames that it is run on."""
import contextlib
import ctypes
import mmap
import os
import pathlib
import platform
import struct
import subprocess
import tempfile
import time

CALL = {"x86_64": 321, "aarch64": 280}.get(platform.machine())
CREATE, LOOK_UP, UPDATE, DELETE, GET, RUN, LOOK_UP_ALL = 0, 1, 2, 3, 7, 10, 24
NEW_NETWORK, NEW_MOUNTS, PRIVATE = 0x40000000, 0x20000, 1 << 18 | 1 << 14
MOST_FLOWS, MOST_BUCKETS, MOST_LEASES = 65536, 65536, 64
FLOW, LEASE, BUCKET, OWN = 128, 16, 24, 256
REASONS = ["other", "not-plain", "unknown", "segments", "length", "expired", "unvouched", "interface", "too-long", "ttl",
           "family", "not-own", "relayed", "over", "error"]
SHOT, REDIRECT, UP = 2, 7, 0xFFFFFFFF
libc = ctypes.CDLL(None, use_errno=True)


def system(command, attributes):
    """The call `bpf`, with these bytes."""
    room = ctypes.create_string_buffer(attributes.ljust(152, b"\0"), 152)
    got = libc.syscall(CALL, command, room, 152)
    if got < 0:
        error = ctypes.get_errno()
        raise OSError(error, os.strerror(error))
    return got, room.raw


def at(room):
    return ctypes.addressof(room)


@contextlib.contextmanager
def away():
    """A network and mounts of its own for this process, with a file system of type bpf: its folder."""
    if libc.unshare(NEW_NETWORK | NEW_MOUNTS) != 0 or libc.mount(b"none", b"/", None, PRIVATE, None) != 0:
        raise OSError(ctypes.get_errno(), "no namespaces")
    with tempfile.TemporaryDirectory(prefix="kernel-bpf-") as folder:
        if libc.mount(b"bpf", folder.encode(), b"bpf", 0, None) != 0:
            raise OSError(ctypes.get_errno(), "no file system of type bpf")
        try:
            yield pathlib.Path(folder)
        finally:
            libc.umount2(folder.encode(), 2)


def why_not():
    """Why nothing of it can be tried here, or None."""
    if os.geteuid() != 0:
        return "it needs root"
    if CALL is None:
        return f"no number of the call bpf is known for {platform.machine()}"
    child = os.fork()
    if child == 0:
        status = 1
        try:
            with away():
                made, _ = system(CREATE, struct.pack("<5I", 2, 4, 8, 1, 0))
                os.close(made)
                subprocess.run("ip link add one type veth peer name other".split(), check=True, capture_output=True)
                status = 0
        except (OSError, subprocess.SubprocessError):
            pass
        os._exit(status)
    return "no namespace, BPF or interface can be made" if os.waitpid(child, 0)[1] else None


def packed(address):
    """An address of 4 or 16 octets as relay.h has it."""
    return address if len(address) == 16 else bytes(10) + b"\xff\xff" + address


class Maps:
    """Maps that a loader has pinned into a folder."""

    def __init__(self, folder):
        self.folder = pathlib.Path(folder)
        self.slots, self.reasons = self.open("slots"), self.open("reasons")
        self.flows, self.leases, self.buckets = (
            self.mapped(name, size) for name, size in (("flows", MOST_FLOWS * FLOW), ("leases", MOST_LEASES * LEASE),
                                                       ("buckets", MOST_BUCKETS * BUCKET)))
        self.used, self.keys = 0, {}

    def open(self, name):
        path = ctypes.create_string_buffer(str(self.folder / name).encode())
        return system(GET, struct.pack("<QI", at(path), 0))[0]

    def mapped(self, name, size):
        number = self.open(name)
        try:
            return mmap.mmap(number, size)
        finally:
            os.close(number)

    def entry(self, command, key, value=None, flags=0):
        rooms = [ctypes.create_string_buffer(it, len(it)) for it in (key, value) if it is not None]
        places = [*map(at, rooms), 0][:2]
        return system(command, struct.pack("<I4xQQQ", self.slots, *places, flags))

    def write(self, memory, offset, form, *values):
        struct.pack_into(form, memory, offset, *values)

    def constants(self):
        """The own places and interfaces, as the loader wrote them."""
        key, value, number = ctypes.create_string_buffer(4), ctypes.create_string_buffer(OWN), self.open("own")
        system(LOOK_UP, struct.pack("<I4xQQQ", number, at(key), at(value), 0))
        os.close(number)
        return value.raw

    def vouch(self, worker, life, seconds):
        self.write(self.leases, worker * LEASE, "<QII", time.monotonic_ns() + int(seconds * 1e9), life, 0)

    def bucket(self, number, bandwidth=0, packet_rate=0):
        self.write(self.buckets, number * BUCKET, "<QQII", 0, 0, bandwidth, packet_rate)

    def begin(self, theirs, ours, number, own, far, given, until, interfaces, mtu=1500, worker=0, life=1,
              bucket=0xFFFFFFFF):
        """A flow: what comes from one end to another with this number leaves from a third to a fourth with that."""
        ports = [int(it[1]).to_bytes(2) for it in (theirs, ours, own, far)]
        key = packed(theirs[0]) + packed(ours[0]) + ports[0] + ports[1] + number.to_bytes(2) + bytes(2)
        offset = self.used * FLOW
        out = packed(own[0]) + packed(far[0]) + ports[2] + ports[3] + given.to_bytes(2)
        whole = key + out + struct.pack("<HQIIIIIIQQ", mtu, 0, *interfaces, worker, life, bucket, 0, 0, 0)
        self.flows[offset : offset + len(whole)] = whole
        self.end(key)
        self.entry(UPDATE, key, self.used.to_bytes(4, "little"), 1)
        self.keys[key] = self.used
        self.used += 1
        self.until(key, until)
        return key

    def until(self, key, until):
        self.write(self.flows, self.keys[key] * FLOW + 80, "<Q", until)

    def end(self, key):
        if key in self.keys:
            self.until(key, 0)
            self.entry(DELETE, key)
            del self.keys[key]

    def clear(self):
        """Ends all flows. The slots may be used again, since no frame is on its way."""
        for key in [*self.keys]:
            self.end(key)
        self.used = 0

    def counts(self, key):
        """The datagrams and the octets that a flow relayed, and those that a rate dropped."""
        offset = self.keys[key] * FLOW
        over, = struct.unpack_from("<I", self.flows, offset + 108)
        return *struct.unpack_from("<QQ", self.flows, offset + 112), over

    def counted(self):
        """How many datagrams there were for each reason."""
        processors, last = processor_count(), ctypes.create_string_buffer(8)
        keys, values = (ctypes.create_string_buffer(len(REASONS) * it) for it in (4, 8 * processors))
        system(LOOK_UP_ALL, struct.pack("<QQQQIIQQ", 0, at(last), at(keys), at(values), len(REASONS), self.reasons, 0, 0))
        numbers = struct.unpack(f"<{len(REASONS) * processors}Q", values.raw)
        return {name: sum(numbers[i * processors : (i + 1) * processors]) for i, name in enumerate(REASONS)}


def processor_count():
    """How many processors the kernel has room for."""
    last = pathlib.Path("/sys/devices/system/cpu/possible").read_text().strip().split(",")[-1]
    return int(last.split("-")[-1]) + 1


class Program(Maps):
    """The program, loaded by stun-server-kernel at an interface `near`, and run on frames."""

    def __init__(self, loader, folder, listening, relayed, ports="49152-65535", interfaces=("near",)):
        words = [str(loader), "-P", str(folder)]
        for name, values in (("kernel", interfaces), ("relay-address", relayed), ("ports", [ports])):
            words += [word for it in values for word in ("-o", f"{name}={it}")]
        words += [word for address, port in listening for word in (address, str(port))]
        ran = subprocess.run(words, capture_output=True, text=True)
        if ran.returncode:
            raise ValueError(ran.stderr[-2000:])
        super().__init__(folder)
        self.number = self.open("program")
        self.before = self.counted()
        self.vouch(0, 1, 3600)

    def run(self, frame, interface, segment=0):
        """The verdict, the frame after it, and the reason."""
        into, out = ctypes.create_string_buffer(frame, len(frame)), ctypes.create_string_buffer(len(frame) + 64)
        context = bytearray(192)  # struct __sk_buff
        struct.pack_into("<I", context, 40, interface)
        struct.pack_into("<I", context, 176, segment)
        given = ctypes.create_string_buffer(bytes(context), len(context))
        _, answer = system(RUN, struct.pack("<IIIIQQIIIIQQ", self.number, 0, len(frame), len(out), at(into), at(out), 1, 0,
                                            len(context), 0, at(given), 0))
        verdict, _, size = struct.unpack_from("<III", answer, 4)
        now = self.counted()
        reasons = [it for it in now if now[it] != self.before[it]]
        self.before = now
        return verdict, out.raw[:size], ",".join(reasons)
