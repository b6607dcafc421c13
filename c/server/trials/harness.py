"""What the trials of the server share: a server that runs, its workers and its clients."""
import concurrent.futures
import contextlib
import ctypes
import os
import pathlib
import platform
import queue
import random
import re
import resource
import shutil
import signal
import socket
import struct
import subprocess
import sys
import threading
import zlib

from steps import PATIENCE, REQUEST, Skipped, Wrong, check, run

LOAD = {"clients": 20, "requests": 200}
IPV6_FREEBIND = 78  # (Python doesn't have it)


def free_port(addresses):
    """A port that is free at all addresses over UDP and TCP, out of reach of clients' sockets."""
    while True:
        port = random.randrange(20000, 32000)
        with contextlib.ExitStack() as all_of, contextlib.suppress(OSError):
            for address in addresses:
                family = socket.AF_INET6 if ":" in address else socket.AF_INET
                for kind in (socket.SOCK_DGRAM, socket.SOCK_STREAM):
                    probe = all_of.enter_context(socket.socket(family, kind))
                    probe.bind((address, port))
            return str(port)


class Server:
    """The server in C, at one port of some addresses, or as another command starts it."""

    def __init__(self, program, *options, at=("127.0.0.1",), command=(), port=None, **how):
        self.port = port or (free_port(at) if at else None)
        words = [word for address in at for word in (address, self.port)]
        pipes = {"stdin": subprocess.DEVNULL, "stdout": subprocess.PIPE, "stderr": subprocess.PIPE}
        self.ran = subprocess.Popen([*command, program, *options, *words], text=True, **pipes, **how)
        self.lines, self.others = queue.Queue(), []
        self.reader = threading.Thread(target=self.read, daemon=True)
        self.reader.start()

    def read(self):
        """Keeps each line of standard error that comes."""
        for line in self.ran.stderr:
            self.lines.put(line)
        self.lines.put("")

    def __enter__(self):
        try:
            self.started = self.wait_for("started")
        except Wrong:
            self.__exit__()
            raise
        return self

    def wait_for(self, event):
        """The values of the next line of an event. Lines of others are kept."""
        found = [line for line in self.others if line.startswith(f"event={event} ")]
        while not found:
            try:
                line = self.lines.get(timeout=PATIENCE)
            except queue.Empty:
                raise Wrong(f"no event {event}, but {self.others}") from None
            check(line, f"the server has ended before the event {event}: {self.others}")
            self.others.append(line)
            found = [line] if line.startswith(f"event={event} ") else []
        self.others.remove(found[0])
        check(re.fullmatch(r"[a-z_]+=\S+( [a-z_]+=\S+)*\n", found[0]), f"the line is {found[0]!r}")
        return dict(word.split("=", 1) for word in found[0].split())

    def counts(self, number=signal.SIGHUP):
        """Its counts, as it prints them at a signal."""
        self.ran.send_signal(number)
        counted = self.wait_for("counts")
        return {name: int(value) for name, value in counted.items() if name != "event"}

    def end(self):
        """Ends it by SIGTERM, and returns what it has counted."""
        counted = self.counts(signal.SIGTERM)
        self.ran.wait(PATIENCE)
        check(self.ran.returncode == 0, f"the server ended with status {self.ran.returncode}")
        return counted

    def __exit__(self, *_):
        if self.ran.poll() is None:
            self.ran.kill()
        self.ran.wait()
        self.reader.join()
        self.ran.stdout.close()
        self.ran.stderr.close()

    def workers(self):
        """The processes that it has started."""
        found = []
        for path in pathlib.Path("/proc").glob("[0-9]*/stat"):
            with contextlib.suppress(OSError):
                fields = path.read_text().rpartition(")")[2].split()
                if int(fields[1]) == self.ran.pid and fields[0] != "Z":
                    found.append(int(path.parent.name))
        return found

    def kill_workers(self):
        """Kills the processes that it has started, but for those that have just ended."""
        for worker in self.workers():
            with contextlib.suppress(ProcessLookupError):
                os.kill(worker, signal.SIGKILL)

    def sockets(self):
        """How many sockets each of its workers has, in ascending order."""
        counts = []
        for worker in self.workers():
            links = pathlib.Path(f"/proc/{worker}/fd").iterdir()
            counts.append(sum(os.readlink(link).startswith("socket:") for link in links))
        return sorted(counts)

    def connect(self, source="127.0.0.1"):
        """A connection from an address, which needn't be this machine's if packets find it."""
        six = ":" in source
        stream = socket.socket(socket.AF_INET6 if six else socket.AF_INET, socket.SOCK_STREAM)
        stream.settimeout(PATIENCE)
        if six:
            stream.setsockopt(socket.IPPROTO_IPV6, IPV6_FREEBIND, 1)
        stream.bind((source, 0))
        stream.connect(("::1" if six else "127.0.0.1", int(self.port)))
        return stream


def expect(counted, **wanted):
    """Checks counts; those that aren't named have to be 0."""
    told = {name: number for name, number in counted.items() if name != "uptime"}
    rest = {name: wanted.get(name, 0) for name in told}
    check(told == rest and told.keys() >= wanted.keys(), f"the server counted {told}, not {rest}")


def ask(program, address, port, *options):
    """Lets stun-client ask; its address has to be in what it prints."""
    host = f"[{address}]" if ":" in address else address
    status, out, told = run([program, *options, f"{host}:{port}"], 3 * PATIENCE)
    shown = re.escape(host)
    check(status == 0 and re.fullmatch(rf"{shown}:\d+\n", out), f"status {status}: {out}{told}")


def put_load(program, address, port, window=4):
    """Lets the load run; nothing may be lost, wrong or repeated."""
    numbers = ["-c", str(LOAD["clients"]), "-m", str(LOAD["requests"]), "-w", str(window)]
    status, out, told = run([program, *numbers, "-t", "10", address, port], 15)
    check(status == 0, f"status {status}: {out}{told}")


def after(statements):
    """A command that starts a program after some statements of Python."""
    imports = "import ctypes, os, resource, signal, struct, sys"
    return [sys.executable, "-c", f"{imports}\n{statements}\nos.execv(sys.argv[1], sys.argv[1:])"]


# has a system call fail with EPERM, unless one of its arguments is an allowed number
REFUSE = """
steps = [(0x20, 0, 0, 0), (0x15, 0, 3, {call}), (0x20, 0, 0, 16 + 8 * {place}),
         (0x15, 1, 0, {allowed}), (0x06, 0, 0, 0x00050001), (0x06, 0, 0, 0x7FFF0000)]
code = ctypes.create_string_buffer(b"".join(struct.pack("HBBI", *step) for step in steps))
program = struct.pack("HP", len(steps), ctypes.addressof(code))
system = ctypes.CDLL(None)
if system.prctl(38, 1, 0, 0, 0) != 0 or system.prctl(22, 2, program) != 0:
    sys.exit("no filter")
"""


def refusing(name, place, allowed):
    """Statements after which the system refuses a call."""
    numbers = {"x86_64": {"seccomp": 317, "prlimit64": 302, "landlock_create_ruleset": 444},
               "aarch64": {"seccomp": 277, "prlimit64": 261, "landlock_create_ruleset": 444}}
    if platform.machine() not in numbers:
        raise Skipped("the system calls of this machine have other numbers")
    call = numbers[platform.machine()][name]
    statements = REFUSE.format(call=call, place=place, allowed=allowed)
    if run([*after(statements), "/bin/true"])[0] != 0:
        raise Skipped("system calls can't be filtered here")
    return statements


# ---- Clients


def asking_socket(server, source="127.0.0.1", address="127.0.0.1"):
    """A socket that is connected to a server, from which nothing is sent twice."""
    family = socket.AF_INET6 if ":" in address else socket.AF_INET
    asking = socket.socket(family, socket.SOCK_DGRAM)
    asking.settimeout(PATIENCE)
    asking.bind((address if ":" in address else source, 0))
    asking.connect((address, int(server.port)))
    return asking


def ask_once(server, address="127.0.0.1"):
    with asking_socket(server, address=address) as asking:
        asking.send(REQUEST + bytes(12))
        check(asking.recv(2048)[:2] == b"\1\1", "no success response")


def attributes_of(message):
    """The types of a message's attributes; its length and its FINGERPRINT have to be right."""
    check(int.from_bytes(message[2:4], "big") == len(message) - 20, "its length is wrong")
    types, at = [], 20
    while at < len(message):
        kind, length = struct.unpack(">HH", message[at : at + 4])
        if kind == 0x8028:
            check(int.from_bytes(message[at + 4 :], "big") == zlib.crc32(message[:at]) ^ 0x5354554E,
                  "its FINGERPRINT is wrong")
        types.append(kind)
        at += 4 + (length + 3) // 4 * 4
    return types


def read_replies(stream, count):
    """The transaction IDs of the success responses that a stream brings."""
    six = stream.family == socket.AF_INET6
    length, data = 60 if six else 48, b""
    while len(data) < length * count:
        more = stream.recv(65536)
        check(more, f"the stream ended after {len(data)} bytes")
        data += more
    replies = [data[at : at + length] for at in range(0, len(data), length)]
    begins = bytes.fromhex("010100282112A442" if six else "0101001C2112A442")
    right = all(reply[:8] == begins for reply in replies)
    check(right and len(data) == length * count, "the replies are others")
    return [reply[8:20] for reply in replies]


def ask_on(stream):
    """Asks on a connection."""
    stream.sendall(REQUEST + bytes(12))
    read_replies(stream, 1)


def is_closed(stream, seconds=PATIENCE):
    """Whether the server closes a connection, after whatever it sends."""
    stream.settimeout(seconds)
    try:
        while stream.recv(65536):
            pass
    except ConnectionResetError:
        pass
    except socket.timeout:
        return False
    return True


# ---- Processes


def in_own_network(function, *given):
    """Runs a function in a network of its own, in which 2001:db8::/32 is this machine's too."""
    def run_there():
        if ctypes.CDLL(None).unshare(0x40000000) != 0 or not shutil.which("ip"):
            raise Skipped("it takes the right to make a network, and ip")
        for words in ("link set lo multicast on up", "-6 route add multicast ff00::/8 dev lo",
                      "-6 route add local 2001:db8::/32 dev lo"):
            status, _, told = run(["ip", *words.split()])
            check(status == 0, f"ip {words}: {told}")
        function(*given)
    with concurrent.futures.ThreadPoolExecutor(1) as own:
        own.submit(run_there).result()


@contextlib.contextmanager
def many_files():
    """Lets this process, and those that it starts, have as many files as the system allows."""
    before = resource.getrlimit(resource.RLIMIT_NOFILE)
    resource.setrlimit(resource.RLIMIT_NOFILE, (before[1], before[1]))
    try:
        yield
    finally:
        resource.setrlimit(resource.RLIMIT_NOFILE, before)


def status_of(process):
    """The lines of a process' status."""
    lines = pathlib.Path(f"/proc/{process}/status").read_text().splitlines()
    return {name: value.split() for name, _, value in (line.partition(":") for line in lines)}


def processor_ticks(server):
    """How long its workers have had a processor, in hundredths of a second."""
    stats = [pathlib.Path(f"/proc/{it}/stat").read_text() for it in server.workers()]
    fields = [stat.rpartition(")")[2].split() for stat in stats]
    return sum(int(it[11]) + int(it[12]) for it in fields)
