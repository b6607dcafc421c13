"""Trials with sessions of two clients, relayed: see sides/session.py."""
import pathlib
import re
import select
import shutil
import subprocess
import sys

from hosts import SERVER
from steps import Skipped, Wrong, build, c_compiler, check, run
from turn_servers import Settings

SIDES = pathlib.Path(__file__).resolve().parent / "sides"
PATIENCE = 60


def python_side(module):
    """The command of a side in Python, by a Python that has the module."""
    for python in (sys.executable, "/usr/bin/python3"):
        if shutil.which(python) and run([python, "-c", f"import {module}"])[0] == 0:
            return [python, "-B", str(SIDES / f"with_{module}.py")]
    raise Skipped(f"it needs {module}, a package of Python")


def aioice(bench, **how):
    refreshed(*session(bench, python_side("aioice"), **how))


def aiortc(bench, **how):
    refreshed(*session(bench, python_side("aiortc"), **how))


def refreshed(_, refreshes, channels):
    """The client has refreshed its allocation and its channel."""
    check(int(refreshes) >= 1 and int(channels) >= 2, f"{refreshes} refreshes, {channels} channels")


def libnice(bench, **how):
    missing = not c_compiler() or not shutil.which("pkg-config")
    status, flags, _ = (1, "", "") if missing else run(["pkg-config", "--cflags", "--libs", "nice"])
    if status != 0:
        raise Skipped("it needs libnice with its headers (libnice-dev), pkg-config and a C compiler")
    program = bench.new_folder() / "with_libnice"
    build(c_compiler(), "-Wall", "-Wextra", SIDES / "with_libnice.c", "-o", program, *flags.split())
    session(bench, [str(program)], **how)


def last_line(text):
    return "".join(text.strip().splitlines()[-1:])


def line_of(side):
    """The next line that a side prints."""
    ready, _, _ = select.select([side.stdout], [], [], PATIENCE)
    line = side.stdout.readline() if ready else ""
    if not line:
        side.kill()
        raise Wrong(f"a side describes nothing: {last_line(side.communicate()[1])}")
    return line


def session(bench, command, transport="udp", six=False):
    """Two clients talk through the server. Returns the numbers that the one that offers prints."""
    settings = Settings(channel_permits=True)  # (aioice doesn't refresh permissions, only channels)
    with bench.server(settings) as server:
        return talk(bench, command, SERVER[six], server.port, transport, *settings.credentials(),
                    bench.seconds, bench.speed)


def talk(bench, command, *given):
    """Starts two sides, gives each the other's description, and waits until they have talked."""
    pipes = dict.fromkeys(["stdin", "stdout", "stderr"], subprocess.PIPE)
    both = []
    try:
        for host, role in [(bench.hosts.left, "offers"), (bench.hosts.right, "answers")]:
            with host.inside():
                both.append(subprocess.Popen([*command, role, *map(str, given)], text=True, **pipes))
        bench.sides.extend(both)
        for one, other in [both, both[::-1]]:
            other.stdin.write(line_of(one))
            other.stdin.flush()
        told = [side.communicate(timeout=bench.seconds + 2 * PATIENCE) for side in both]
        for side, (_, complaint) in zip(both, told):
            check(side.returncode == 0, f"status {side.returncode}: {last_line(complaint)}")
        counted = re.findall(r"\d+", told[0][0])
        check(counted and int(counted[0]) > 10 * bench.seconds, f"it says {told[0][0]!r}")
        return counted
    finally:
        for side in both:
            side.kill()
            side.communicate()
