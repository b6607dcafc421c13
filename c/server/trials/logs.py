"""Trials of the log of allocations."""
import datetime
import hashlib
import json
import os
import re
import signal
import socket
import time

from operators import folder_of
from steps import PATIENCE, Skipped, check, run, wait_until
from turn import ALLOCATE, UDP, Client, Peer, ended, reread, reset, turn_server

LINE = re.compile(r"[a-z_]+=\S+( [a-z_]+=\S+)*")


def read_log(file, is_json=False):
    """The lines of a log, each as its values by their names."""
    lines = file.read_text().splitlines() if file.exists() else []
    if is_json:
        return [json.loads(it) for it in lines]
    check(all(LINE.fullmatch(it) for it in lines), f"the log is {lines}")
    return [dict(word.split("=", 1) for word in it.split()) for it in lines]


def wait_for(file, count, is_json=False):
    """The lines of a log, once there are so many."""
    wait_until(lambda: len(read_log(file, is_json)) >= count, f"the log has not {count} lines")
    found = read_log(file, is_json)
    check(len(found) == count, f"the log has {found}")
    return found


def shown(address):
    return f"{address[0]}:{address[1]}"


def has(line, **wanted):
    """Checks values of a line, and that its time is now."""
    found = {name: line.get(name) for name in wanted}
    check(found == wanted, f"{line} has not {wanted}")
    age = time.time() - datetime.datetime.fromisoformat(line["time"].replace("Z", "+00:00")).timestamp()
    check(-1 < age < PATIENCE, f"{line} is {age:.1f} s old")


def events(programs):
    """An allocation that is opened, refused or ended has a line, with its user, its addresses and what was
    relayed, and no password or nonce; as a file of lines NAME=VALUE, and of JSON."""
    name = 'n%a=m"\\\u00e9'
    users = f"user pass\n{name} pass\nleaves pass\n"
    for is_json in (False, True):
        with folder_of(programs) as folder:
            file = folder / "allocations"
            options = ["-t", "-o", f"allocation-log={file}", "-o", f"log-json={int(is_json)}",
                       "-o", "user-allocations=1"]
            with turn_server(programs, *options, users=users) as server:
                events_of(server, file, name, is_json)
            text = file.read_text()
            check(not re.search(r"pass|nonce|realm", text), f"the log has {text}")


def events_of(server, file, name, is_json):
    def number(value):
        return value if is_json else str(value)
    with Client(server) as client, Client(server) as second, Client(server, name, stream=True) as odd, \
            Client(server, "leaves", by_hash=True) as leaves, Client(server, password="guess") as guesses, \
            Peer() as peer:
        relayed = client.allocate()
        client.bind(0x4001, peer.address)
        for size in (0, 10, 100):
            client.send_on(0x4001, bytes(size))
            peer.hears()
        peer.socket.sendto(bytes(1000), relayed)
        client.data()
        second.allocate(wanted=486)
        guesses.allocate(wanted=401)
        client.refresh(0)
        who = {"user": "user", "client": shown(client.socket.getsockname()), "transport": "udp"}
        opened, quota, guess, ends = wait_for(file, 4, is_json)
        has(opened, event="allocation-opened", relayed=shown(relayed), **who)
        has(quota, event="allocation-refused", code=number(486), user="user",
            client=shown(second.socket.getsockname()))
        has(guess, event="allocation-refused", code=number(401), user="user")
        has(ends, event="allocation-ended", why="deleted", relayed=shown(relayed), to_peer=number(3),
            to_peer_octets=number(110), to_client=number(1), to_client_octets=number(1000), **who)
        check(float(ends["seconds"]) < PATIENCE, str(ends))
        odd_at, leaves_at = odd.allocate(), leaves.allocate()
        odd.socket.close()
        closed = wait_for(file, 7, is_json)[6]
        has(closed, why="closed", relayed=shown(odd_at), transport="tcp", user="n%25a%3Dm%22%5C%C3%A9")
        reread(server, "users", "user pass\n")
        revoked = wait_for(file, 8, is_json)[7]
        hashed = hashlib.sha256(b"leaves:example.org").hexdigest()
        has(revoked, why="revoked", relayed=shown(leaves_at), userhash=hashed)
        last = client.allocate()
        wait_for(file, 9, is_json)
        counted = ended(server)
        has(wait_for(file, 10, is_json)[9], why="stopped", relayed=shown(last))
        check((counted["log_lines"], counted["log_dropped"]) == (10, 0), f"it counts {counted}")


def find_user(log, address, at):
    """The user who had a relayed address at a time, by the log; None: nobody."""
    user = None
    for line in log:
        when = datetime.datetime.fromisoformat(line["time"].replace("Z", "+00:00"))
        if line.get("relayed") == address and when <= at:
            user = line["user"] if line["event"] == "allocation-opened" else None
    return user


def abuse(programs):
    """Somebody who was sent data by a relayed address knows it, its port, and the time: the log knows whose
    it was then, though others had the port before and after."""
    users = "alice pass\nbob pass\ncarol pass\n"
    with folder_of(programs) as folder, Peer() as victim:
        file, reports = folder / "allocations", []
        options = ["-o", f"allocation-log={file}", "-o", "ports=51000-51002"]
        with turn_server(programs, *options, users=users) as server:
            for user in ("alice", "bob", "carol", "bob", "alice") * 3:
                with Client(server, user) as client:
                    client.allocate()
                    client.bind(0x4001, victim.address)
                    client.send_on(0x4001, b"abuse")
                    source, _ = victim.hears()
                    reports.append((user, shown(source), datetime.datetime.now(datetime.timezone.utc)))
                    time.sleep(0.01)
                    client.refresh(0)
                time.sleep(0.01)
            log = wait_for(file, 30)
            ended(server)
        check(len({address for _, address, _ in reports}) < 4, "the ports are many")
        for user, address, at in reports:
            found = find_user(log, address, at)
            check(found == user, f"{address} at {at} was {user}'s, and not {found}'s")
        print("   the report:", *reports[1][1:], "leads to", find_user(log, *reports[1][1:]), flush=True)
        check(find_user(log, reports[0][1], reports[0][2] + datetime.timedelta(hours=1)) is None, "it is used")


def unread(programs):
    """A log that nobody reads keeps nobody waiting; what is dropped is counted."""
    with folder_of(programs) as folder:
        fifo = folder / "fifo"
        os.mkfifo(fifo)
        with open(os.open(fifo, os.O_RDONLY | os.O_NONBLOCK), "rb"):
            counted = flood(programs, "-o", f"allocation-log={fifo}", "-o", "log-rate=0")
        check(counted["log_dropped"] > 100 and counted["workers_hung"] == 0, str(counted))


def rate(programs):
    """A log has so many lines a second, and no more."""
    with folder_of(programs) as folder:
        began, file = time.monotonic(), folder / "allocations"
        counted = flood(programs, "-o", f"allocation-log={file}", "-o", "log-rate=20")
        took = time.monotonic() - began
        lines = len(read_log(file))
        check(20 <= lines <= 20 + 20 * took, f"{lines} lines in {took:.1f} s")
        check(counted["log_dropped"] == 2004 - lines, f"{lines} lines, and {counted}")


def flood(programs, *options):
    """Has 2,000 Allocate requests refused while data is relayed, and returns the counts."""
    with turn_server(programs, *options, "-o", "user-allocations=2") as server, Client(server) as client, \
            Client(server) as refused, Peer() as peer:
        relayed = client.allocate()
        client.bind(0x4001, peer.address)
        refused.allocate()
        request = refused.request(ALLOCATE, UDP)
        for turn in range(2000):
            refused.socket.send(request)
            check(refused.receive() is not None, "a request gets no answer")
            if turn % 100 == 0:
                client.send_on(0x4001, b"data")
                check(peer.hears() == (relayed, b"data"), "a peer hears nothing")
        return ended(server)


def renewed(programs):
    """At SIGHUP the log goes to another file, is switched off and on, and begins anew if its file was renamed, as
    logrotate does; allocations that were opened before have their ends in it. A file that can't be opened leaves
    it as it is."""
    with turn_server(programs, "-t") as server:
        def use():
            with Client(server) as client:
                client.allocate()
                client.refresh(0)
        use()
        with Client(server, stream=True) as before:
            relayed = before.allocate()
            reset(server, "allocation-log on\n")
            use()
            has(server.wait_for("allocation-opened"), user="user")
            before.refresh(0)
            server.wait_for("allocation-ended")
            has(server.wait_for("allocation-ended"), why="deleted", relayed=shown(relayed), transport="tcp")
        reset(server, "allocation-log off\n")
        use()
        check(ended(server)["log_lines"] == 3, "other lines")
    with folder_of(programs) as folder:
        first, second = folder / "first", folder / "second"
        with turn_server(programs, lines=f"allocation-log {first}\n") as server:
            def use(file, lines):
                with Client(server) as client:
                    client.allocate()
                    client.refresh(0)
                wait_for(file, lines)
            use(first, 2)
            first.rename(folder / "rotated")
            first.touch()
            use(folder / "rotated", 4)
            server.counts(signal.SIGHUP)
            use(first, 2)
            reset(server, f"allocation-log {second}\n")
            use(second, 2)
            second.rename(folder / "renamed")
            server.counts(signal.SIGHUP)
            use(second, 2)
            for where in (folder / "none/log", folder):
                reset(server, f"allocation-log {where}\n")
                refused = server.wait_for("log-refused")
                check(refused["file"] == str(where) and refused["error"] in ("2", "13", "21"), f"{where}: {refused}")
                use(second, 4 if where != folder else 6)
            reset(server, "allocation-log off\n")
            with Client(server) as client:
                client.allocate()
            reset(server, f"allocation-log {first}\n")
            use(first, 4)
            check(len(wait_for(second, 6)) == len(wait_for(folder / "rotated", 4)) + 2, "other lines")
            counted = ended(server)
            check(counted["log_lines"] == 17 and counted["log_dropped"] == counted["workers_hung"] == 0, str(counted))


def to_errors(programs):
    """The log goes to standard error, among the events there."""
    with turn_server(programs, "-o", "allocation-log=on") as server, Client(server) as client:
        relayed = client.allocate()
        has(server.wait_for("allocation-opened"), user="user", relayed=shown(relayed))
        client.refresh(0)
        has(server.wait_for("allocation-ended"), why="deleted", relayed=shown(relayed))
        check(ended(server)["log_lines"] == 2, "other lines")


SYSLOG = """mount -t tmpfs none /dev && mknod -m 666 /dev/null c 1 3 && mknod -m 666 /dev/urandom c 1 9 &&
ln -s "$1" /dev/log && shift && exec "$@\""""


def by_syslog(programs):
    """The log goes to syslog, also if its service begins anew."""
    if os.geteuid() != 0 or run(["unshare", "-m", "true"])[0] != 0:
        raise Skipped("it takes the right to mount")
    with folder_of(programs) as folder:
        path = folder / "syslog"
        def listen():
            service = socket.socket(socket.AF_UNIX, socket.SOCK_DGRAM)
            service.settimeout(PATIENCE)
            service.bind(str(path))
            return service
        service = listen()
        command = ["unshare", "-m", "sh", "-c", SYSLOG, "sh", str(path)]
        with turn_server(programs, "-o", "allocation-log=syslog", command=command) as server, \
                Client(server) as client:
            for event in ("opened", "ended"):
                client.allocate() if event == "opened" else client.refresh(0)
                line = service.recv(4096).decode()
                begins = rf"<30>stun-server\[\d+\]: event=allocation-{event} time=\S+ process=\d+ user=user "
                check(re.match(begins, line), f"syslog hears {line!r}")
                service.close()
                path.unlink()
                service = listen()
            ended(server)
            service.close()
