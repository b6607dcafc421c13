"""Trials of the server under what systemd does with its unit, which is done here in its place."""
import contextlib
import ctypes
import os
import pathlib
import platform
import re
import signal
import struct
import tempfile

from harness import Server, after, in_own_network, status_of
from operators import HERE, folder_of, write
from steps import Skipped, check, run, wait_until
from turn import ALLOWING, Client, Peer, ended, exchange, turn_server

BPF = {"x86_64": 321, "aarch64": 280}
LOAD, ATTACH, SOCK_ADDR = 5, 8, 18  # (bpf(2))
BINDS = (8, 9)  # where a program sees what is bound, of IPv4 and of IPv6
PROTOCOLS = {"tcp": 6, "udp": 17}


def bpf(command, attributes):
    number = ctypes.CDLL(None, use_errno=True).syscall(BPF.get(platform.machine(), -1), command, attributes,
                                                       len(attributes))
    if number < 0:
        raise Skipped(f"BPF can't be used here: {os.strerror(ctypes.get_errno())}")
    return number


def program_of(rules):
    """Steps that allow what a rule does, (protocol, least, most), and refuse all else."""
    def step(code, registers, offset, number):
        return struct.pack("<BBhi", code, registers, offset, number)
    steps = [step(0x61, 0x12, 24, 0), step(0xDC, 2, 0, 16), step(0x61, 0x13, 36, 0)]  # port and protocol
    for protocol, least, most in rules:
        steps += [step(0x55, 3, 4, protocol), step(0xA5, 2, 3, least), step(0x25, 2, 2, most),
                  step(0xB7, 0, 0, 1), step(0x95, 0, 0, 0)]
    return b"".join([*steps, step(0xB7, 0, 0, 0), step(0x95, 0, 0, 0)])


def rules_of(unit):
    """The SocketBindAllow of a unit, also the one that is a comment."""
    text = pathlib.Path(unit).read_text()
    check("SocketBindDeny=any\n" in text, "it denies nothing")
    found = re.findall(r"^#?SocketBindAllow=(?:ipv4:)?(udp|tcp):(\d+)(?:-(\d+))?$", text, re.M)
    return [(PROTOCOLS[protocol], int(least), int(most or least)) for protocol, least, most in found]


@contextlib.contextmanager
def binding_only(rules):
    """A command in a control group, in which only some ports can be bound."""
    mounts = [line.split() for line in pathlib.Path("/proc/mounts").read_text().splitlines()]
    tops = [it[1] for it in mounts if it[2] == "cgroup2"]
    if not tops:
        raise Skipped("there are no control groups")
    try:
        folder = tempfile.mkdtemp(prefix="stun-server-", dir=tops[0])
    except OSError as error:
        raise Skipped(f"no control group can be made: {error}") from None
    try:
        group, steps, licence = os.open(folder, os.O_RDONLY), program_of(rules), b"GPL\0"
        kept = [ctypes.create_string_buffer(it) for it in (steps, licence)]
        for kind in BINDS:
            head = struct.pack("<IIQQ", SOCK_ADDR, len(steps) // 8, *map(ctypes.addressof, kept))
            loaded = bpf(LOAD, head + struct.pack("<IIQII16sII", 0, 0, 0, 0, 0, b"", 0, kind))
            bpf(ATTACH, struct.pack("<IIII", group, loaded, kind, 0))
            os.close(loaded)
        os.close(group)
        yield after(f"open('{folder}/cgroup.procs', 'w').write(str(os.getpid()))")
    finally:
        os.rmdir(folder)


def bound_ports(programs):
    """It relays where only the ports of its unit can be bound, as systemd has BPF do."""
    in_own_network(bound_ports_there, programs)


def bound_ports_there(programs):
    with binding_only(rules_of(programs["unit"])) as command:
        words = ["-t", "-m", "9478", "127.0.0.1", "3478"]
        with turn_server(programs, *words, at=(), command=command) as server:
            server.port = "3478"
            with Client(server) as client, Client(server, stream=True) as stream, Peer() as peer:
                for it in (client, stream):
                    exchange(it, peer, it.allocate(), b"data")
                    it.refresh(0)
            ended(server)
    with binding_only([(PROTOCOLS["udp"], 3478, 3478)]) as command:
        words = ["--turn", "-o", "realm=a", "-o", "secret=/dev/null", "127.0.0.1", "3478"]
        status, _, told = run([*command, programs["server"], *words])
        right = status == 3 and "49152-65535: Operation not permitted; a unit allows them" in told
        check(right, f"without ports of relays: status {status}: {told}")


def allocates(server, name):
    with Client(server, name, "pass") as client:
        client.allocate()
        client.refresh(0)


def copied_users(programs):
    """It reads users whom the service manager copies, named without a slash, at the start and at SIGHUP; the unit
    and the settings have lines for that."""
    unit = pathlib.Path(programs["unit"]).read_text()
    copies = re.findall(r"^#Exec(StartPre|Reload)=\+/bin/sh -c '(install .* \S+/etc/(\S+) \S+)'$", unit, re.M)
    check([it[0] for it in copies] == ["StartPre", "Reload"] and copies[0][1:] == copies[1][1:], "other lines")
    check(unit.index("#ExecReload=") < unit.index("\nExecReload="), "users are read before they are copied")
    found = copies[0][2:]
    settings = (HERE / "stun-server.conf").read_text()
    check(f"\n#users {found[0]}\n" in settings, "no line of the settings")
    with folder_of(programs) as folder:
        users = folder / found[0]
        write(users, "user pass\n")
        users.chmod(0o400)
        words = [*ALLOWING, "-o", "realm=example.org", "-o", f"users={found[0]}", "--turn"]
        environment = {**os.environ, "RUNTIME_DIRECTORY": str(folder)}
        with Server(programs["server"], *words, env=environment) as server:
            allocates(server, "user")
            write(users, "other pass\n")
            server.counts(signal.SIGHUP)
            allocates(server, "other")
            ended(server)


def own_users(programs):
    """With -U it reads files that this user can't, at SIGHUP too, by a process that can do no more than that; if
    that one ends, so does nothing else."""
    if os.geteuid() != 0:
        raise Skipped("it takes root")
    with folder_of(programs) as folder:
        closed = folder / "closed"
        closed.mkdir(0o700)
        users = closed / "users"
        write(users, "user pass\n")
        words = [*ALLOWING, "-o", "realm=example.org", "-o", f"users={users}", "--turn", "-U", "nobody"]
        with Server(programs["server"], *words) as server:
            allocates(server, "user")
            for owner, name in ((0, "other"), (4242, "third")):
                write(users, f"{name} pass\n")
                users.chmod(0o600)
                os.chown(users, owner, owner)
                server.counts(signal.SIGHUP)
                allocates(server, name)
            reader, = [it for it in server.workers() if status_of(it)["Name"] == ["stun-reader"]]
            status = status_of(reader)
            check(int(status["CapEff"][0], 16) == int(status["CapPrm"][0], 16) == 4, f"it may do more: {status}")
            check(len(os.listdir(f"/proc/{reader}/fd")) == 5, "it has more files than the standard ones and two pipes")
            for process in {server.ran.pid, *server.workers()} - {reader}:
                check(int(status_of(process)["CapPrm"][0], 16) == 0, "another process has its rights")
            os.kill(reader, signal.SIGKILL)
            wait_until(lambda: reader not in server.workers(), "it outlives a signal")
            server.counts(signal.SIGHUP)
            check(server.wait_for("users-refused")["error"] == "13", "another error")
            allocates(server, "third")
            ended(server)
            wait_until(lambda: not pathlib.Path(f"/proc/{reader}").exists(), "a process is left")
