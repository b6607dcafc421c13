"""What c/examples/run, c/programs/run and c/server/run share: steps, which pass, fail or are skipped, and what they are
run over."""
import contextlib
import pathlib
import shutil
import subprocess
import tempfile
import threading
import time

HERE = pathlib.Path(__file__).resolve().parent
TOP = HERE.parent
ARCHIVE = TOP / "crates/stun_types_c/out/libstun_types_c.a"
REQUEST = bytes.fromhex("000100002112A442")  # and a transaction ID
PATIENCE = 20  # seconds, for what takes a moment on an idle machine
SANITIZED = ["-fsanitize=address,undefined", "-fno-sanitize-recover=all", "-g"]

passed = failed = 0
wrong = []  # what was printed of the steps that failed
counting = threading.Lock()  # of steps that run at once
wanted = ""  # trials without this in their names aren't run
archives = []  # what the library is made of, for c/install


class Wrong(Exception):
    """What isn't as it should be."""


class Skipped(Exception):
    """Why a step isn't tried on this machine."""


def skip(name, why):
    print(f"{name}: skipped, {why}", flush=True)


def check(holds, told):
    if not holds:
        raise Wrong(told)


def note(name, error):
    """Prints what is wrong in a step, and keeps it for the end."""
    with counting:
        wrong.append(f"{name}: {type(error).__name__}: {error}")
        print(wrong[-1], flush=True)


@contextlib.contextmanager
def step(name):
    """A step: it passes if nothing is wrong in it. If it is skipped, it counts as neither."""
    global passed, failed
    began = time.monotonic()
    try:
        yield
    except Skipped as why:
        skip(name, why)
    except (Wrong, OSError, ValueError, KeyError, subprocess.SubprocessError) as error:
        with counting:
            failed += 1
        note(name, error)
    else:
        with counting:
            passed += 1
            print(f"{name}: right, {time.monotonic() - began:.1f} s", flush=True)


def trial(name, function, *given):
    """A step that is one function, if its name is wanted."""
    if wanted in name:
        with step(name):
            function(*given)


def run(command, seconds=10, **how):
    """Status, standard output and standard error of a command."""
    ran = subprocess.run(command, capture_output=True, text=True, timeout=seconds,
                         stdin=subprocess.DEVNULL, errors="replace", **how)
    return ran.returncode, ran.stdout, ran.stderr


def wait_until(holds, what):
    """Waits until something holds, and returns what it is."""
    end = time.monotonic() + PATIENCE
    while not (found := holds()):
        check(time.monotonic() < end, f"after {PATIENCE} s: {what}")
        time.sleep(0.02)
    return found


def build(compiler, *words):
    """Compiles sources, if the compiler has no complaint."""
    command = [compiler, "-O2", "-I", HERE, *words]
    status, out, told = run(list(map(str, command)), 300)
    check(status == 0, (out + told)[:2000])


def has_sanitizers(compiler, folder):
    """Whether the compiler has AddressSanitizer, which finds leaks too, and UndefinedBehaviorSanitizer."""
    (folder / "empty.c").write_text("int main(void) { return 0; }\n")
    words = [folder / "empty.c", *SANITIZED, "-o", folder / "empty"]
    return run([compiler, *map(str, words)], 60)[0] == 0


# A clock that runs SPEED times as fast, for what waits by poll.
FAST_CLOCK = """
#include <poll.h>
#include <stdint.h>
#include <time.h>
int __real_clock_gettime(clockid_t, struct timespec *);
int __wrap_clock_gettime(clockid_t, struct timespec *);
int __wrap_clock_gettime(clockid_t clock, struct timespec *now) {
    int error = __real_clock_gettime(clock, now);
    uint64_t all = ((uint64_t)now->tv_sec * 1000000000 + (uint64_t)now->tv_nsec) * SPEED;
    now->tv_sec = (time_t)(all / 1000000000);
    now->tv_nsec = (long)(all % 1000000000);
    return error;
}
int __real_poll(struct pollfd *, nfds_t, int);
int __wrap_poll(struct pollfd *, nfds_t, int);
int __wrap_poll(struct pollfd *files, nfds_t count, int wait) {
    return __real_poll(files, count, wait < 0 ? wait : (wait + SPEED - 1) / SPEED);
}
"""


def fast_clock(folder, speed):
    """What a program is built with so that its clock runs faster."""
    (folder / "fast.c").write_text(FAST_CLOCK)
    return [f"-DSPEED={speed}", folder / "fast.c", "-Wl,--wrap=clock_gettime,--wrap=poll"]


def client_sources(name):
    """The sources of a program of c/programs."""
    more = sorted((HERE / "programs").glob("ice_*.c")) if name == "stun_ice" else []
    return [*(HERE / f"programs/{it}.c" for it in ("options", "connection", "requests", name)), *more]


def lint(page):
    """troff and mandoc, as far as they are on this machine, have nothing to say of a manual page."""
    words = [["groff", "-man", "-Tutf8", "-ww", "-z"], ["mandoc", "-Tlint", "-Wwarning"]]
    words = [it for it in words if shutil.which(it[0])]
    for command in words:
        status, out, told = run([*command, str(page)])
        check(status == 0 and out + told == "", out + told)
    if not words:
        raise Skipped("neither groff nor mandoc is on this machine")


# ---- A run


def kit_library():
    """The kit's library for programs in C."""
    told = subprocess.run(["rt", "doc"], capture_output=True, text=True, timeout=20, check=True)
    return pathlib.Path(told.stdout.strip()).parent / "c/liblibc_c.a"


def c_compiler():
    return shutil.which("gcc") or shutil.which("cc")


def run_in_folder(name, run_all):
    """Runs `run_all(folder)` in a new folder, and prints how many steps passed. Returns the status of the script."""
    began = time.monotonic()
    with tempfile.TemporaryDirectory(prefix=name) as folder:
        run_all(pathlib.Path(folder))
    print("".join(f"was wrong: {line}\n" for line in wrong), end="")
    print(f"{time.monotonic() - began:.0f} s\n{passed} passed, {failed} failed")
    return 1 if failed or not passed else 0


def run_over(given, folder_name, run_all):
    """Runs `run_all(compiler, folder, libraries)` over the library that c/library.py makes of the archives that
    the arguments name, or of those of this tree and of `rt`. Returns the status of the script."""
    global archives
    given = [pathlib.Path(word).resolve() for word in given]
    archives = [given[0] if given else ARCHIVE, given[1] if len(given) > 1 else kit_library()]
    compiler = c_compiler()
    missing = [] if compiler else ["no C compiler (gcc or cc) was found: nothing was built or run"]
    missing += [f"there is no library {it}" for it in archives if not it.is_file()]
    if missing:
        print("\n".join(missing) + "\n0 passed, 1 failed")
        return 1

    def run_over_library(folder):
        library = folder / "libstun_types.a"
        subprocess.run([HERE / "library.py", library, *archives], check=True)
        run_all(compiler, folder, [library])
    return run_in_folder(folder_name, run_over_library)
