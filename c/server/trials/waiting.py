"""Trials of a supervisor that waits for nobody."""
import contextlib
import fcntl
import os
import pathlib
import re
import select
import signal
import socket
import subprocess

from harness import ask_once, free_port, status_of
from operators import folder_of, has_reported, report, reports_at, write
from steps import PATIENCE, check, wait_until
from turn import Client, turn_server

PIPE_SIZE = 1031  # F_SETPIPE_SZ


def slow_users(programs):
    """While the users are read again, from a file that comes late, a worker that dies is replaced, and clients are
    served; the users come when they are read, and a SIGHUP in between has them read once more."""
    with turn_server(programs) as server:
        users = server.folder / "users"
        users.unlink()
        os.mkfifo(users)
        worker, = server.workers()
        for _ in range(2):
            server.ran.send_signal(signal.SIGHUP)
            server.wait_for("settings-read")
        os.kill(worker, signal.SIGKILL)
        server.wait_for("worker-died")
        wait_until(lambda: serving(server) - {worker}, "no other worker")
        ask_once(server)
        for name in ("other", "last"):
            check(not any("users-read" in it for it in server.others), "the users were read before")
            feed(users, f"{name} pass\n")
            check(server.wait_for("users-read")["users"] == "1", "other users are read")
            with Client(server, name) as client:
                client.allocate()
        check(server.end()["workers_died"] == 1, "others have died")


def feed(fifo, text):
    """Writes what a process waits for to read."""
    def opened():
        with contextlib.suppress(OSError):
            return os.open(fifo, os.O_WRONLY | os.O_NONBLOCK)
    with open(wait_until(opened, "nobody reads the file"), "w") as to:
        to.write(text)


def serving(server):
    """Its processes but the one that reads files."""
    return {it for it in server.workers() if status_of(it)["Name"] != ["stun-reader"]}


@contextlib.contextmanager
def unread(kind):
    """A pipe, socket or terminal of a kind, and what reads it: nothing does so far."""
    if kind == "pipe":
        ours, theirs = os.pipe()
        fcntl.fcntl(theirs, PIPE_SIZE, 4096)
    elif kind == "terminal":
        ours, theirs = os.openpty()
    else:
        pair = socket.socketpair()
        pair[1].setsockopt(socket.SOL_SOCKET, socket.SO_SNDBUF, 4096)
        ours, theirs = (it.detach() for it in pair)
    try:
        yield ours, theirs
    finally:
        os.close(ours)
        with contextlib.suppress(OSError):
            os.close(theirs)


def read_all(source):
    """What is there to be read."""
    text = b""
    while select.select([source], [], [], 0.3)[0]:
        text += os.read(source, 65536)
    return text.decode()


def unread_errors(programs):
    """Nobody reads standard error: it goes on, replaces a worker, and counts the lines that are lost; and says how
    many once it's read again."""
    for kind in ("pipe", "socket", "terminal"):
        with folder_of(programs) as folder, unread(kind) as (ours, theirs):
            where = str(folder / "reports")
            words = [programs["server"], "-m", where, "127.0.0.1", free_port(["127.0.0.1"])]
            ran = subprocess.Popen(words, stdin=subprocess.DEVNULL, stdout=subprocess.DEVNULL, stderr=theirs)
            try:
                os.close(theirs)
                go_on_unread(ran, ours, where, kind)
            finally:
                ran.kill()
                ran.wait()


def go_on_unread(ran, ours, where, kind):
    wait_until(lambda: reports_at(where), "no report")
    wait_until(lambda: has_lost(ran, where), f"{kind}: no line is lost")
    before = children(ran.pid)
    os.kill(min(before), signal.SIGKILL)
    wait_until(lambda: children(ran.pid) - before, f"{kind}: a worker isn't replaced")
    wait_until(lambda: has_reported(where, "workers_died", 1), f"{kind}: no death is reported")
    first = read_all(ours)
    is_whole = kind == "terminal" or first.endswith("\n")
    check("event=started " in first and is_whole, f"{kind}: a line is cut: {first[-200:]!r}")
    ran.send_signal(signal.SIGUSR1)
    again = [first]
    wait_until(lambda: again.append(read_all(ours)) or "event=counts " in "".join(again[1:]), "no line comes again")
    lost = sum(map(int, re.findall(r"^event=lines-lost lines=(\d+)\r?$", "".join(again), re.M)))
    counted = report(where)["stun_server_lines_lost_total"]
    check(lost == counted, f"{kind}: {lost} of {counted} lost lines, {again!r}")
    ran.send_signal(signal.SIGTERM)
    check(ran.wait(PATIENCE) == 0, f"{kind}: status {ran.returncode}")


def has_lost(ran, where):
    """Has it print a line, and returns how many are lost."""
    ran.send_signal(signal.SIGUSR1)
    return report(where).get("stun_server_lines_lost_total")


def children(process):
    """The processes that a process has started, and that haven't ended."""
    found = set()
    for path in pathlib.Path("/proc").glob("[0-9]*/stat"):
        with contextlib.suppress(OSError):
            fields = path.read_text().rpartition(")")[2].split()
            if int(fields[1]) == process and fields[0] != "Z":
                found.add(int(path.parent.name))
    return found
