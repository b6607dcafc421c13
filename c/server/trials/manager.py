"""Trials of the server under a service manager."""
import contextlib
import os
import pathlib
import re
import select
import shutil
import signal
import socket
import sys
import tempfile
import time

from harness import Server, after, ask, ask_once, expect, free_port, in_own_network, processor_ticks
from operators import report
from steps import PATIENCE, Skipped, check, run, wait_until


# puts sockets at the numbers that a program looks for, and starts that program
PASS_ON = """
import fcntl, os, sys
count, program = int(sys.argv[1]), sys.argv[2 + int(sys.argv[1]):]
kept = [fcntl.fcntl(int(number), fcntl.F_DUPFD, 100) for number in sys.argv[2:2 + count]]
for place, number in enumerate(kept, 3):
    os.dup2(number, place)
os.environ.update(LISTEN_FDS=str(count), LISTEN_PID=str(os.getpid()))
os.execv(program[0], program)
"""


def passed_on(programs):
    """A server that is started with open sockets serves these."""
    with contextlib.ExitStack() as all_of:
        udp = all_of.enter_context(socket.socket(socket.AF_INET, socket.SOCK_DGRAM))
        udp.bind(("127.0.0.1", 0))
        udp.setblocking(False)
        tcp = all_of.enter_context(socket.create_server(("::1", 0), family=socket.AF_INET6))
        numbers = [str(it.fileno()) for it in (udp, tcp)]
        command = [sys.executable, "-c", PASS_ON, "2", *numbers]
        server = Server(programs["server"], "-j", "2", at=(), command=command,
                        pass_fds=[int(number) for number in numbers])
        with server:
            server.port = udp.getsockname()[1]
            ask_once(server)
            ask(programs["client"], "::1", str(tcp.getsockname()[1]), "-t")
            check(server.started["workers"] == "3", str(server.started))
            before = processor_ticks(server)
            time.sleep(0.5)
            check(processor_ticks(server) - before < 10, "it turns without a pause")
            # a listener that is shut down by who opened it
            tcp.shutdown(socket.SHUT_RDWR)
            before = processor_ticks(server)
            time.sleep(1)
            check(processor_ticks(server) - before < 10, "it turns without a pause: no listener")
            expect(server.end(), udp_received=1, udp_sent=1, tcp_accepted=1, tcp_received=1,
                   tcp_sent=1)
        words = ["127.0.0.1", free_port(["127.0.0.1"])]
        opened = [int(number) for number in numbers]
        status, _, told = run([*command, programs["server"], *words], pass_fds=opened)
        check(status == 64, f"addresses beside sockets: status {status}: {told}")
        others = {**os.environ, "LISTEN_FDS": "1", "LISTEN_PID": "1"}
        status, _, told = run([programs["server"]], env=others)
        check(status == 64, f"another process' sockets: status {status}: {told}")
        for number in ["33", "0", "x", "", "-1"]:
            news = f"os.environ.update(LISTEN_FDS='{number}', LISTEN_PID=str(os.getpid()))"
            status, _, told = run([*after(news), programs["server"], "-j", "2"])
            right = told.startswith(f"stun-server: LISTEN_FDS={number}: ") and "32" in told
            check(status == 3 and right, f"LISTEN_FDS={number}: status {status}: {told}")
        with socket.socket() as deaf:
            command = [sys.executable, "-c", PASS_ON, "1", str(deaf.fileno())]
            status, _, told = run([*command, programs["server"]], pass_fds=[deaf.fileno()])
            check(status == 3 and "3" in told, f"a socket that isn't bound: {status}: {told}")


@contextlib.contextmanager
def news_of(name=None):
    """A manager's socket, and the environment of a server that it manages."""
    name = name or f"@stun-server-{os.getpid()}"
    with socket.socket(socket.AF_UNIX, socket.SOCK_DGRAM) as manager:
        manager.bind(name.replace("@", "\0"))
        manager.settimeout(PATIENCE)
        yield manager, {**os.environ, "NOTIFY_SOCKET": name, "WATCHDOG_USEC": "30000000"}


def heard(manager):
    """What the manager has heard, and hasn't received yet."""
    found = []
    while select.select([manager], [], [], 0)[0]:
        found.append(manager.recv(200))
    return found


def notified(programs):
    """The service manager hears when the server is ready, that it lives, and that it ends: at a socket
    that is a file, and at one that is none."""
    with tempfile.TemporaryDirectory(prefix="server-") as folder:
        os.chmod(folder, 0o755)
        for name in (f"{folder}/news", None):
            notified_at(programs, name)


def notified_at(programs, name):
    with news_of(name) as (manager, news), Server(programs["server"], env=news) as server:
        check(manager.recv(200) == b"READY=1", "it isn't ready first")
        check(manager.recv(200) == b"WATCHDOG=1", "it doesn't say that it lives")
        wait_until(lambda: server.sockets() == [1], "a worker has the manager's socket")
        ask(programs["client"], "127.0.0.1", server.port)
        server.end()
        rest = heard(manager)
        check(rest[-1] == b"STOPPING=1" and {*rest[:-1]} <= {b"WATCHDOG=1"}, f"it says {rest}")


def watched(programs):
    """The manager hears that the server lives only as long as each of its workers does."""
    with news_of() as (manager, news):
        options = ["-t", "-j", "2", "-o", "hang-timeout=600"]
        with Server(programs["server"], *options, env=news) as server:
            while manager.recv(200) != b"WATCHDOG=1":
                pass
            stopped = server.workers()[-1]
            os.kill(stopped, signal.SIGSTOP)
            wait_until(lambda: not select.select([manager], [], [], 3)[0] or not manager.recv(200),
                       "it says that it lives with a worker that doesn't")
            os.kill(stopped, signal.SIGCONT)
            check(manager.recv(200) == b"WATCHDOG=1", "it doesn't live again")
            server.end()


def unit_command(programs):
    """The very command of the unit serves and reports, at its ports, in a network of its own."""
    in_own_network(run_unit, programs)


def run_unit(programs):
    unit = pathlib.Path(programs["unit"]).read_text()
    command = re.search(r"^ExecStart=(.*)$", unit, re.M)[1].split()
    check(command[0] == programs["server"], f"it runs {command[0]}")
    with news_of() as (manager, news):
        with Server(*command, at=(), env=news) as server:
            check(manager.recv(200) == b"READY=1", "it isn't ready first")
            check(manager.recv(200) == b"WATCHDOG=1", "it doesn't say that it lives")
            for address in ("127.0.0.1", "::1"):
                ask(programs["client"], address, "3478")
                ask(programs["client"], address, "3478", "-t")
            check(report(("127.0.0.1", 9478))["stun_server_tcp_sent_total"] == 2, "another report")
            server.end()


def unit_file(programs):
    """The units say what systemd understands."""
    if not shutil.which("systemd-analyze"):
        raise Skipped("systemd-analyze isn't on this machine")
    for unit in (programs["unit"], programs["unit"].replace("stun-server.", "stun-server-kernel.")):
        status, out, told = run(["systemd-analyze", "verify", "--man=no", unit], 60)
        check(status == 0 and out + told == "", f"{unit}: status {status}: {out}{told}")
