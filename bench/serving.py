"""What bench/servers and bench/relays share: servers that are started, and what they take of the machine."""
import contextlib
import os
import pathlib
import re
import socket
import subprocess
import sys
import time

HERE = pathlib.Path(__file__).resolve().parent
TOP = HERE.parent
ARCHIVE = TOP / "crates/stun_types_c/out/libstun_types_c.a"
REQUEST = bytes.fromhex("000100002112A442") + b"bench/server"  # a binding request
COTURN_QUIET = ["--no-tls", "--no-dtls", "--no-cli", "--log-file", "/dev/null", "--no-stdout-log"]


def compile_to(program, *files):
    command = ["gcc", "-O2", "-std=c11", "-I", TOP / "c", *files, "-o", program]
    subprocess.run([str(it) for it in command], check=True)


def build(folder, archive, load):
    """Makes the library folder/libstun_types.a, the server folder/server, and of a load here folder/load."""
    library = folder / "libstun_types.a"
    subprocess.run([TOP / "c/library.py", library, archive], check=True)
    compile_to(folder / "server", *sorted((TOP / "c/server").glob("*.c")), library)
    compile_to(folder / "load", HERE / load)


def free_port(address, ports=(0,)):
    """The first of some ports that is free at an address over UDP; by default any."""
    family = socket.AF_INET6 if ":" in address else socket.AF_INET
    for port in ports:
        with socket.socket(family, socket.SOCK_DGRAM) as probe, contextlib.suppress(OSError):
            probe.bind((address, port))
            return str(probe.getsockname()[1])
    raise OSError(f"no port is free at {address}")


def answers(address, port, stream):
    """Whether a server answers a request within a moment, over UDP and, if asked so, over TCP."""
    for kind in [socket.SOCK_DGRAM, *([socket.SOCK_STREAM] if stream else [])]:
        with socket.socket(socket.AF_INET, kind) as asking:
            asking.settimeout(0.2)
            try:
                asking.connect((address, int(port)))
                asking.send(REQUEST)
                asking.recv(2048)
            except OSError:
                return False
    return True


def wait_until_it_answers(address, port, stream):
    end = time.monotonic() + 20
    while not answers(address, port, stream):
        if time.monotonic() > end:
            sys.exit(f"the server at {address}:{port} doesn't answer")
        time.sleep(0.05)


def processes_of(process):
    """The numbers of a process and of those that it started, with the fields of their states from the third
    on."""
    for number in filter(str.isdigit, os.listdir("/proc")):
        try:
            fields = pathlib.Path(f"/proc/{number}/stat").read_text().rpartition(")")[2].split()
        except OSError:
            continue  # it has ended meanwhile
        if process in (int(number), int(fields[1])):
            yield int(number), fields


def processor_time(process):
    """The seconds that a process and those that it started have had of a processor."""
    threads = (it for number, _ in processes_of(process) for it in pathlib.Path(f"/proc/{number}/task").iterdir())
    return sum(int((it / "schedstat").read_text().split()[0]) for it in threads) / 1e9


def memory(process):
    """The octets of memory that a process and those that it started have resident."""
    return sum(int(fields[21]) for _, fields in processes_of(process)) * os.sysconf("SC_PAGE_SIZE")


class Load:
    """A run of relay_load: the clients and peers of a TURN server, which obey commands. A command prepares
    it, as taskset does."""

    def __init__(self, program, server, *options, command=()):
        self.server = server
        pipes = {"stdin": subprocess.PIPE, "stdout": subprocess.PIPE, "text": True}
        self.ran = subprocess.Popen([*command, program, *options, *server], **pipes)

    def __enter__(self):
        return self

    def __exit__(self, *_):
        with contextlib.suppress(BrokenPipeError):
            self.ran.stdin.close()
        self.ran.wait()
        self.ran.stdout.close()

    def begin(self, command):
        self.ran.stdin.write(command + "\n")
        self.ran.stdin.flush()

    def end(self):
        """What the command that began has counted, by name."""
        line = self.ran.stdout.readline().strip()
        if not line:
            raise OSError("the load has ended")
        counts = {name.strip(): int(number) for name, number in re.findall(r"([a-z ]+) (\d+),", line)}
        delays = re.search(r"delay (\d+) (\d+) (\d+) us", line)
        return {**counts, "delays": list(map(int, delays.groups())) if delays else [], "line": line}

    def obey(self, command):
        self.begin(command)
        return self.end()


def is_whole(counted):
    """Whether all that was relayed came, once, as it was sent."""
    came = counted["sent"] == counted["at peers"] == counted["back"]
    return came and counted["wrong"] == counted["repeated"] == 0


def require(missing):
    if missing:
        sys.exit("there is no " + ", no ".join(missing))
