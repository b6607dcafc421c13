"""Trials of the server's processes: they are replaced, and confined."""
import os
import pathlib
import pwd
import resource
import shutil
import signal
import tempfile
import time

from harness import (Server, after, ask, ask_once, asking_socket, expect, free_port, refusing,
                     status_of)
from manager import heard, news_of
from steps import PATIENCE, REQUEST, Skipped, check, run, wait_until


def both_at_once(programs):
    """UDP and TCP at several addresses by one group of processes, which prints its counts at
    signals."""
    at = ("127.0.0.1", "::1")
    with Server(programs["server"], "-t", "-j", "2", at=at) as server:
        check(server.started["workers"] == "5" and len(server.workers()) == 5, str(server.started))
        wait_until(lambda: server.sockets() == [1, 1, 1, 1, 2], "workers have sockets of others")
        for address in at:
            ask_once(server, address)
            ask(programs["client"], address, server.port, "-t")
        counts = {"udp_received": 2, "udp_sent": 2, "tcp_accepted": 2, "tcp_received": 2, "tcp_sent": 2}
        expect(server.counts(signal.SIGHUP), **counts)
        expect(server.counts(signal.SIGUSR1), **counts)
        for worker in server.workers():
            os.kill(worker, signal.SIGHUP)
            os.kill(worker, signal.SIGUSR1)
        ask_once(server)
        expect(server.end(), **{**counts, "udp_received": 3, "udp_sent": 3})


def replaced(programs, command=()):
    """A worker that hangs or dies is replaced; one that hangs doesn't keep the server from ending."""
    options = ["-t", "-o", "hang-timeout=2"]
    with Server(programs["server"], *options, command=command) as server:
        for number, event in [(signal.SIGSTOP, "hung"), (signal.SIGKILL, "died")]:
            before = server.workers()
            for worker in before:
                os.kill(worker, number)
            left = len(before)
            while left > 0:
                left -= int(server.wait_for(f"worker-{event}")["deaths"])
            ask(programs["client"], "127.0.0.1", server.port)
            ask(programs["client"], "127.0.0.1", server.port, "-t")
        for worker in server.workers():
            os.kill(worker, signal.SIGSTOP)
        counted = server.end()
        check(counted["workers_hung"] >= 2 and counted["workers_died"] >= 2, str(counted))
        check(counted["udp_sent"] >= 2 and counted["tcp_sent"] == 2, str(counted))


def replaced_unseen(programs):
    """The same if the server is started with SIGCHLD ignored."""
    replaced(programs, after("signal.signal(signal.SIGCHLD, signal.SIG_IGN)"))


def not_started(programs):
    """If the system starts no worker, the server says so once, and tries until it does."""
    options, lift = [], ""
    if os.geteuid() == 0:  # (the limit doesn't hold for root)
        user = pwd.getpwnam("nobody")
        options, lift = ["-U", "nobody"], f"os.setgid({user.pw_gid}); os.setuid({user.pw_uid}); "
    limit = resource.getrlimit(resource.RLIMIT_NPROC)
    command = after(f"resource.setrlimit(resource.RLIMIT_NPROC, (1, {limit[1]}))")
    with Server(programs["server"], *options, command=command) as server:
        server.wait_for("worker-not-started")
        time.sleep(0.5)
        server.counts()
        check(not server.others, f"it says more: {server.others}")
        lift += f"resource.prlimit({server.ran.pid}, resource.RLIMIT_NPROC, {limit})"
        status, _, told = run([*after(lift), "/bin/true"])
        check(status == 0, told)
        ask(programs["client"], "127.0.0.1", server.port)
        counted = server.end()
        check(counted["workers_died"] == 0 and counted["udp_sent"] > 0, str(counted))


def unconfined(programs):
    """A worker whose system calls can't be filtered serves nobody: it ends, is started again after a
    time that doubles, and the eighth time ends the server. The manager doesn't hear that it is ready
    or lives. A line a second says how many workers have ended."""
    command = after(refusing("seccomp", 0, 2))  # (2 asks what can be filtered)
    with news_of() as (manager, news):
        with Server(programs["server"], command=command, env=news) as server:
            check(server.started["seccomp"] == "on", str(server.started))
            began, deaths, lines = time.monotonic(), 0, 0
            with asking_socket(server) as asking:
                asking.send(REQUEST + bytes(12))
                while deaths < 8:
                    died = server.wait_for("worker-died")
                    check(died["status"] == "1", f"a worker ends so: {died}")
                    deaths, lines = deaths + int(died["deaths"]), lines + 1
                check(server.wait_for("gave-up")["deaths"] == "8", "it gave up early or late")
            counted = server.wait_for("counts")
            took = time.monotonic() - began
            check(server.ran.wait(PATIENCE) == 3, f"status {server.ran.returncode}")
            check(lines <= took + 1, f"{lines} lines in {took} s")
            check(took > 12, f"8 workers died in {took} s")
            check(counted["udp_received"] == "0" and counted["workers_died"] == "8", str(counted))
        check(heard(manager) == [b"STOPPING=1"], "the manager hears that it is ready or lives")


def has_rights(programs, server, user, groups):
    """Each process of a server has a user's rights alone, and these groups."""
    for process in [server.ran.pid, *server.workers()]:
        status = status_of(process)
        check(status["Uid"] == [str(user.pw_uid)] * 4, f"{process}: {status['Uid']}")
        check(status["Gid"] == [str(user.pw_gid)] * 4, f"{process}: {status['Gid']}")
        check({*map(int, status["Groups"])} == groups, f"{process}: {status['Groups']}")
        for held in ("CapInh", "CapPrm", "CapEff", "CapAmb"):
            check(int(status[held][0], 16) == 0, f"{process}: {held} {status[held]}")
    ask(programs["client"], "127.0.0.1", server.port)
    check(server.started["uid"] == str(user.pw_uid), str(server.started))
    server.end()


def rights(programs):
    """-U gives up all rights but a user's, of all processes; as root, nobody's, otherwise one's own."""
    as_root = os.geteuid() == 0
    user = pwd.getpwnam("nobody") if as_root else pwd.getpwuid(os.geteuid())
    with Server(programs["server"], "-t", "-U", user.pw_name) as server:
        has_rights(programs, server, user, {user.pw_gid} if as_root else {*os.getgroups()})
    for name in ("root", "no-such-user"):
        status, _, told = run([programs["server"], "-U", name, "127.0.0.1", free_port(["127.0.0.1"])])
        check(status == 3 and name in told, f"status {status}: {told}")


def granted_rights(programs):
    """-U gives up capabilities that its own user was granted, and groups if these let it."""
    if os.geteuid() != 0 or not shutil.which("setpriv"):
        raise Skipped("it takes root and setpriv")
    user = pwd.getpwnam("nobody")
    with tempfile.TemporaryDirectory(prefix="server-") as folder:
        os.chmod(folder, 0o755)
        program = shutil.copy(programs["server"], folder)
        for granted, groups in [("+net_bind_service", {user.pw_gid, 4242}),
                                ("+net_bind_service,+setgid,+setuid", {user.pw_gid})]:
            command = ["setpriv", f"--reuid={user.pw_uid}", f"--regid={user.pw_gid}",
                       f"--groups={user.pw_gid},4242", f"--inh-caps={granted}",
                       f"--ambient-caps={granted}"]
            with Server(program, "-t", "-U", user.pw_name, command=command) as server:
                has_rights(programs, server, user, groups)


def required(programs):
    """With -o sandbox=2 the server doesn't begin without its sandbox, and with 1 it says what is
    missing."""
    with Server(programs["server"], "-o", "sandbox=2") as server:
        check(server.started["seccomp"] == "on", str(server.started))
        ask_once(server)
        server.end()
    for name, place, allowed, missing in [("seccomp", 0, 3, "seccomp"),
                                          ("landlock_create_ruleset", 2, 1, "landlock")]:
        command = after(refusing(name, place, allowed))
        with Server(programs["server"], command=command) as server:
            check(server.started[missing] == "none", str(server.started))
            server.end()
        words = ["-o", "sandbox=2", "127.0.0.1", free_port(["127.0.0.1"])]
        status, out, told = run([*command, programs["server"], *words])
        check(status == 3 and "sandbox=2" in told, f"status {status}: {out}{told}")


def as_root(programs):
    """A server with root's rights says so, and one without doesn't."""
    if os.geteuid() != 0:
        raise Skipped("it takes root")
    with Server(programs["server"]) as server:
        check(server.wait_for("warning")["reason"] == "runs-as-root", "another warning")
        server.end()
    with Server(programs["server"], "-U", "nobody") as server:
        server.end()
        check(not server.others, f"it says more: {server.others}")


def own_files(programs):
    """A worker has its own sockets and no other file, though the server was started with fewer files
    than usual."""
    for command in ((), after("os.close(0); os.close(1)")):
        with Server(programs["server"], "-t", command=command) as server:
            for worker in server.workers():
                def files():
                    return {os.readlink(it).split(":")[0] for it in
                            pathlib.Path(f"/proc/{worker}/fd").iterdir()}
                wait_until(lambda: files() <= {"socket", "anon_inode"}, f"it has {files()}")
            wait_until(lambda: server.sockets() == [1, 1], f"they have {server.sockets()}")
            ask_once(server)
            ask(programs["client"], "127.0.0.1", server.port, "-t")
            expect(server.end(), udp_received=1, udp_sent=1, tcp_accepted=1, tcp_received=1,
                   tcp_sent=1)


def sandbox(programs):
    """Workers are confined as far as the system can do so, and the server says how far."""
    status, out, told = run([programs["sandbox"]], PATIENCE)
    check(status == 0, f"status {status}: {told}")
    lines = [line.split() for line in out.splitlines()]
    version, can_filter = int(lines[0][1]), lines[0][3] == "1"
    met = {(kind, name): int(error) for kind, name, error in lines[1:]}
    check(len(met) == 6 * 21, out)
    relays = {"make-relay", "take-memory", "set-fragments", "send-by-own", "send-by-other", "send-to", "send-back", "close"}
    allowed = {"udp": {"send-by-own", "close"}, "tcp": {"send-back", "set-linger", "close"},
               "udp-relay": relays, "tcp-relay": relays | {"set-linger"}}
    closed = {"open-file", "make-file", "start-program"} if version >= 1 else set()
    closed |= {"signal-parent"} if version >= 6 else set()
    for (kind, name), error in met.items():
        if kind in allowed and can_filter:
            wanted = 0 if name in allowed[kind] else -signal.SIGSYS
            check(error == wanted, f"{kind} {name}: {error}")
        else:
            refused = kind != "none" and name in closed
            check(error > 0 if refused else error == 0, f"{kind} {name}: {error}")
    with Server(programs["server"], "-t") as server:
        words = {"seccomp": "on" if can_filter else "none", "landlock": str(version or "none")}
        check(server.started.items() >= words.items(), f"{server.started}, and not {words}")
        for worker in server.workers():
            wanted = ["2"] if can_filter else ["0"]
            wait_until(lambda: status_of(worker)["Seccomp"] == wanted, "no filter")
            check(status_of(worker)["NoNewPrivs"] == ["1"], "it may get new rights")
        server.end()
