"""Trials of what the server reports to Prometheus."""
import contextlib
import re
import shutil
import socket
import subprocess
import time

from harness import Server, ask_once, free_port
from operators import read_report, report
from steps import PATIENCE, check, wait_until
from turn import ALLOCATE, UDP, Client, turn_server

# what promtool takes for a unit that isn't a base unit, or for its abbreviation
UNITS = {"milliseconds", "minutes", "hours", "days", "kilobytes", "megabytes", "bits", "s", "ms", "us", "ns",
         "sec", "b", "kb", "mb", "gb", "m", "h", "d", "counter", "gauge"}


def lint(text):
    """Checks a report by the rules of `promtool check metrics`, and by promtool if it is on this machine."""
    told, seen = {}, set()
    for line in text.splitlines():
        kind, name, rest = re.fullmatch(r"(?:# (HELP|TYPE) )?(\w+)(.*)", line).groups()
        words = set(name.split("_"))
        check(re.fullmatch(r"[a-z]+(_[a-z0-9]+)*", name) and not UNITS & words, f"a name: {line}")
        if kind:
            check(name not in seen and (kind, name) not in told and rest.strip(), f"it comes twice: {line}")
            told[kind, name] = rest.strip()
            continue
        check(("HELP", name) in told and list(told)[-1][1] == name, f"no HELP goes before: {line}")
        check((told["TYPE", name] == "counter") == name.endswith("_total"), f"another TYPE: {line}")
        check(not name.endswith(("_count", "_sum", "_bucket")), f"a name: {line}")
        check(re.fullmatch(r'(\{[a-z_]+="\w*"(,[a-z_]+="\w*")*\})? \d+', rest), f"a sample: {line}")
        seen.add(name)
    check(len(seen) > 30, f"it reports {seen}")
    if shutil.which("promtool"):
        ran = subprocess.run(["promtool", "check", "metrics"], input=text, capture_output=True, text=True,
                             timeout=PATIENCE)
        check(ran.returncode == 0 and not ran.stdout + ran.stderr, ran.stdout + ran.stderr)


def refused(found):
    """How often requests were refused, by code and cause."""
    pattern = r'stun_server_turn_refusals_total\{code="(\d+)",cause="(\w+)"\}'
    return {(int(it[1]), it[2]): number for name, number in found.items()
            if (it := re.fullmatch(pattern, name)) and number}


def shows(where, **wanted):
    """A report, if it has these numbers."""
    with contextlib.suppress(OSError):
        found = report(where)
        if all(found[f"stun_server_{name}"] == number for name, number in wanted.items()):
            return found
    return None


def gauges(programs):
    """A report has what there is at the moment, and why requests are refused. What a process had is gone
    right after its death."""
    port = int(free_port(["127.0.0.1"]))
    where = ("127.0.0.1", port)
    options = ["-t", "-m", str(port), "-o", "user-allocations=2", "-o", "ports=51000-51007"]
    with turn_server(programs, *options, users="user pass\nother pass\nthird pass\n") as server, \
            contextlib.ExitStack() as all_of:
        def client(*given, **how):
            return all_of.enter_context(Client(server, *given, **how))
        def reports(**wanted):
            return wait_until(lambda: shows(where, **wanted), f"it reports {report(where)}")
        reports(users=3, allocations=0, sockets_ready=4)
        lint(read_report(where))
        first, stream = client(), client(stream=True)
        for it in (first, stream, client()):
            it.allocate()
        client().allocate(wanted=486)
        first.permit(("10.0.0.1", 7), wanted=403)
        client(password="guess").allocate(wanted=401)
        codes = []
        while 508 not in codes:
            last = client("other" if len(codes) < 2 else "third")
            codes.append(last.ask(ALLOCATE, UDP).code)
        last.refresh(wanted=437)
        found = reports(allocations=2 + len(codes), connections=1)
        causes = {(401, "unsigned"): 5 + len(codes), (401, "credentials"): 1, (403, "peer"): 1,
                  (437, "allocation"): 1, (486, "user_allocations"): 1, (508, "ports"): 1}
        check(refused(found) == causes, f"the causes are {refused(found)}")
        check(found["stun_server_sockets_ready"] < 4, f"it reports {found}")
        check(10**6 < found["stun_server_memory_bytes"] < 10**9, f"it reports {found}")
        stream.socket.close()
        reports(allocations=1 + len(codes), connections=0)
        server.kill_workers()
        found = reports(allocations=0, workers_died_total=3)
        total = found["stun_server_turn_allocated_total"]
        check(total == found["stun_server_turn_ended_total"] == 2 + len(codes), f"it reports {found}")
        server.end()


def silent_askers(programs):
    """Fifteen connections that ask for nothing, and a hundred, keep nobody from a report."""
    port = int(free_port(["127.0.0.1"]))
    with Server(programs["server"], "-m", str(port)) as server:
        ask_once(server)
        for count in (15, 100):
            silent = [socket.create_connection(("127.0.0.1", port), PATIENCE) for _ in range(count)]
            began = time.monotonic()
            check(report(("127.0.0.1", port))["stun_server_udp_sent_total"] == 1, "another report")
            took = time.monotonic() - began
            check(took < 10, f"beside {count} silent connections a report takes {took:.1f} s")
            for it in silent:
                it.close()
        server.end()
