"""Trials of what is for operators: settings, reports, levels of the log, the manual page."""
import contextlib
import os
import pathlib
import re
import signal
import socket
import tempfile

from harness import Server, ask_once, asking_socket, attributes_of, expect, free_port
from steps import PATIENCE, REQUEST, Wrong, check, lint, run, wait_until

HERE = pathlib.Path(__file__).resolve().parent.parent


@contextlib.contextmanager
def folder_of(programs):
    """A folder that any user can read."""
    with tempfile.TemporaryDirectory(prefix="server-") as folder:
        os.chmod(folder, 0o755)
        yield pathlib.Path(folder)


def write(path, text):
    """Writes a file as an editor does: it is replaced by a new one."""
    new = path.with_suffix(".new")
    new.write_text(text)
    new.rename(path)


def has_software(server):
    with asking_socket(server) as asking:
        asking.send(REQUEST + bytes(12))
        return 0x8022 in attributes_of(asking.recv(2048))


def settings(programs):
    """The file of settings is read at the start, and again at SIGHUP, by a server that is confined;
    what the arguments say stays. A wrong file changes nothing, and starts no server."""
    with folder_of(programs) as folder:
        file = folder / "stun-server.conf"
        write(file, "# of a trial\n\nsoftware 0\n  max-age\t100 # s\nrate 1000000")
        options = ["-t", "-c", str(file), "-o", "idle-timeout=60"]
        with Server(programs["server"], *options) as server:
            check(not has_software(server), "the file isn't read")
            write(file, "software 1\nidle-timeout 1\nmax-connections 3\n")
            server.counts(signal.SIGHUP)
            changed = server.wait_for("settings-read")["changed"]
            check(changed == "3", f"{changed} settings change")
            check(has_software(server), "the file isn't read again")
            later = [server.wait_for("warning") for _ in range(2 if os.geteuid() == 0 else 1)]
            check({it.get("setting") for it in later} >= {"max-connections"}, f"it says {later}")
            for changed, names in [("max-connections 3\n", []), ("max-connections 3\nrealm a\n", ["realm"]),
                                   ("max-connections 3\nrealm a\n", []), ("max-connections 4\n", ["max-connections"]),
                                   ("alternate 192.0.2.7:3478\n", [])]:
                write(file, f"software 1\nidle-timeout 1\n{changed}")
                server.counts(signal.SIGHUP)
                said = [it for it in server.others if "needs-restart" in it]
                check([it.split("setting=")[1].strip() for it in said] == names, f"{changed!r}: it says {said}")
                server.others = [it for it in server.others if "needs-restart" not in it]
            for text, line in [("software 0\nsoftwar 1\n", 2), ("software 2\n", 1), ("rate\n", 1),
                               ("rate 1 2\n", 1), ("#" * 300 + "\n", 1)]:
                write(file, text)
                server.counts(signal.SIGHUP)
                refused = server.wait_for("settings-refused")
                check(refused["line"] == str(line), f"{text!r}: {refused}")
                check(has_software(server), f"{text!r} is taken")
            file.unlink()
            server.counts(signal.SIGHUP)
            check(server.wait_for("settings-refused")["error"] == "2", "another error")
            server.end()
        write(file, "rate -1\n")
        words = ["-c", str(file), "127.0.0.1", free_port(["127.0.0.1"])]
        status, _, told = run([programs["server"], *words])
        check(status == 78 and f"{file}:1: " in told, f"status {status}: {told}")


def settings_file(programs):
    """The file of settings that is installed has each setting, with its default if that is a number."""
    _, out, _ = run([programs["server"], "-h"])
    known = re.findall(r"^   ([a-z0-9-]+) +.*?(?:, (\d+)\))?$", out, re.M)
    text = (HERE / "stun-server.conf").read_text()
    given = re.findall(r"^#([a-z0-9-]+) (?:(\d+)|\S+)$", text, re.M)
    check(given == known and len(known) > 20, f"the file has {given}, and not {known}")
    check(not re.search(r"^[^#\n]", text, re.M), "it changes something")


def read_report(where):
    """The text that Prometheus gets at a port or a path."""
    family = socket.AF_UNIX if isinstance(where, str) else socket.AF_INET
    with socket.socket(family, socket.SOCK_STREAM) as asking:
        asking.settimeout(PATIENCE)
        asking.connect(where)
        asking.sendall(b"GET /metrics HTTP/1.1\r\nHost: localhost\r\n\r\n")
        text = b""
        while more := asking.recv(65536):
            text += more
    head, _, body = text.decode().partition("\r\n\r\n")
    check(head.startswith("HTTP/1.0 200 OK\r\n") and "text/plain; version=0.0.4" in head, head)
    return body


def report(where):
    """The numbers of a report, by their names with their labels."""
    lines = read_report(where).splitlines()
    return {name: int(value) for name, _, value in (it.rpartition(" ") for it in lines if it[0] != "#")}


def reports(programs):
    """A server reports its counts by a port of the loopback, or by a path, beside one who is silent;
    a path that an earlier server left is taken, and one by which another reports isn't."""
    port = int(free_port(["127.0.0.1"]))
    with folder_of(programs) as folder:
        path = str(folder / "reports")
        for option, where in [(str(port), ("127.0.0.1", port)), (path, path), (path, path)]:
            with Server(programs["server"], "-t", "-m", option) as server:
                silent = socket.socket(socket.AF_UNIX if where == path else socket.AF_INET)
                with silent:
                    silent.connect(where)
                    ask_once(server)
                    wait_until(lambda: report(where)["stun_server_udp_sent_total"] == 1,
                               "the report is another")
                check(server.started["workers"] == "3", str(server.started))
                os.kill(server.workers()[0], signal.SIGKILL)
                wait_until(lambda: has_reported(where, "workers_died", 1), "no death is reported")
                status, _, told = run([programs["server"], "-m", option, "127.0.0.1",
                                       free_port(["127.0.0.1"])])
                check(status == 3 and option in told, f"status {status}: {told}")
                server.ran.kill()
                wait_until(lambda: not reports_at(where), "the reports outlive their server")


def reports_at(where):
    with contextlib.suppress(OSError, Wrong):
        return bool(report(where))


def has_reported(where, name, number):
    with contextlib.suppress(OSError, Wrong):
        return report(where)[f"stun_server_{name}_total"] == number


def levels(programs):
    """The level of the log is a setting: at 0 it has failures alone, and the counts that a signal asks
    for."""
    with folder_of(programs) as folder:
        file = folder / "stun-server.conf"
        write(file, "log-level 2\n")
        user = ["-U", "nobody"] if os.geteuid() == 0 else []
        with Server(programs["server"], *user, "-c", str(file)) as server:
            write(file, "log-level 0\nmax-age 10\nsandbox 0\n")
            server.counts(signal.SIGHUP)
            os.kill(server.workers()[0], signal.SIGKILL)
            server.wait_for("worker-died")
            server.ran.send_signal(signal.SIGTERM)
            check(server.ran.wait(PATIENCE) == 0, "another status")
            server.reader.join()
            check(not server.others, f"it says more: {server.others}")


def slipped(programs):
    """Over the limit, one answer in so many is given nevertheless."""
    with Server(programs["server"], "-o", "rate=10", "-o", "slip=5") as server:
        with asking_socket(server) as asking:
            for _ in range(200):
                asking.send(REQUEST + bytes(12))
            wait_until(lambda: server.counts()["udp_received"] == 200, "requests are lost")
        counted = server.end()
        over = counted["udp_limited"] + counted["udp_slipped"]
        check(over > 100 and counted["udp_slipped"] == over // 5, f"it counts {counted}")
        expect(counted, udp_received=200, udp_sent=200 - counted["udp_limited"],
               udp_limited=counted["udp_limited"], udp_slipped=counted["udp_slipped"])


def manual_page(programs):
    """The manual page names each option and setting of -h, and each event and count."""
    page = HERE / "stun-server.8"
    text = page.read_text().replace("\\-", "-")
    _, out, _ = run([programs["server"], "-h"])
    words = re.findall(r"^ {0,3}(-\w|[a-z0-9-]+) ", out, re.M)
    sources = "".join(it.read_text() for it in HERE.glob("*.c"))
    words += re.findall(r"event=([a-z-]+)", sources) + ["worker-died", "worker-hung"]
    words += re.findall(r'= {"((?:udp|tcp|turn|workers|log|lines)_\w+)"', sources)
    check(len(words) > 40, f"the words are {words}")
    lacks = [it for it in words if it not in text]
    check(not lacks, f"it lacks {lacks}")
    lint(page)
