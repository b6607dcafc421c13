"""What c/run_tests and c/run_installed share: counting checks, finding compilers and archives."""
import os
import pathlib
import re
import shlex
import shutil
import subprocess
import sys
import time

HERE = pathlib.Path(__file__).resolve().parent
TOP = HERE.parent
STRICT = ["-Wall", "-Wextra", "-pedantic", "-Werror"]
C99 = ["-std=c99", *STRICT]
totals = [0, 0]


def part(name, passed, failed, since):
    """Prints the line of a part, and counts it."""
    totals[0] += passed
    totals[1] += failed
    print(f"{name}: {passed} passed, {failed} failed ({time.time() - since:.1f} s)", flush=True)


def skipped(what, why):
    """Names what this machine can't check. It counts as neither."""
    print(f"{what}: skipped, {why}", flush=True)


def end():
    print(f"{totals[0]} passed, {totals[1]} failed")
    sys.exit(1 if totals[1] or not totals[0] else 0)


def stop(reason):
    print(reason)
    totals[1] += 1
    end()


def run(command, **more):
    """Runs a command; its status and what it says."""
    done = subprocess.run(command, stdout=subprocess.PIPE, stderr=subprocess.STDOUT, **more)
    return done.returncode, done.stdout.decode(errors="replace")


def succeeds(name, command, **more):
    """Runs a command that is a part by itself: whether it ended with status 0."""
    since = time.time()
    status, said = run(command, **more)
    if status != 0:
        print(f"{shlex.join(map(str, command))}\n{said[-4000:]}")
    part(name, int(status == 0), int(status != 0), since)
    return status == 0


def counts(name, command, is_one=False, **more):
    """Runs a command whose last line is 'N passed, M failed'; it may count as one check."""
    since = time.time()
    status, said = run(command, **more)
    lines = said.splitlines() or [""]
    found = re.fullmatch(r"(\d+) passed, (\d+) failed", lines[-1])
    for line in lines[:-1] if found else lines[-40:]:
        print(line)
    passed, failed = (int(found[1]), int(found[2])) if found else (0, 1)
    if status != 0 and failed == 0:
        print(f"it ended with status {status}")
        failed = 1
    if is_one:
        name, passed, failed = f"{name} of {passed} inputs", int(failed == 0), int(failed != 0)
    part(name, passed, failed, since)


def compilers():
    """The C compilers that are there, the one to build with first."""
    named = os.environ.get("CC")
    names = [named] if named else ["cc", "gcc", "clang"]
    return [shlex.split(name) for name in names if shutil.which(shlex.split(name)[0])]


def archives(arguments):
    """The archive and the kit's archive that it needs, by the arguments or by default."""
    archive = TOP / "crates/stun_types_c/out/libstun_types_c.a"
    if arguments:
        archive = pathlib.Path(arguments[0])
    if len(arguments) > 1:
        kit = pathlib.Path(arguments[1])
    elif shutil.which("rt"):
        kit = pathlib.Path(run(["rt", "doc"])[1].strip()).parent / "c/liblibc_c.a"
    else:
        stop("the kit's command rt isn't there: name its archive c/liblibc_c.a as the second word")
    for path in (archive, kit):
        if not path.exists():
            stop(f"{path} isn't there; rt lib in crates/stun_types_c makes the library")
    return [archive.resolve(), kit.resolve()]


def library(given, folder):
    """The library of these archives, as c/install makes it."""
    made = folder / "libstun_types.a"
    if not succeeds("c/library.py", [HERE / "library.py", made, *given]):
        end()
    return made
