"""Counts the instructions of calls, for bench/slots/measure, bench/allocations/measure and bench/relays.

`measure` proves and builds a program that makes a call many times. Its texts are in the folder `src` beside the script,
and in bench/numbered.rt.txt, kept so since the gate proves each source that it finds. They are put beside copies of
the crates in a folder, and run under valgrind's callgrind, which is needed. A number is that of a run that makes
the call 20,000 times, less that of a run that makes none, divided by 20,000. The numbers are the same on each run
with one kit, C library and kind of processor. If the C library fills or copies memory by a `rep` instruction,
each byte counts.

The exit status is 1 if a call beside 100,000 relayed addresses takes over 1.3 times the instructions that it takes
beside 1,000: `print_table` marks it. The last line is the memory that is taken for each relayed address that there is room for.
"""
import os
import pathlib
import re
import shutil
import sys
from concurrent.futures import ThreadPoolExecutor

TOP = pathlib.Path(__file__).resolve().parent.parent
sys.path.insert(0, str(TOP / ".ci"))
import common

SIZES, TIMES, MOST = (10, 1000, 10000, 100000), 20000, 1.3
CAPACITY = 131072  # of each program


def below(names):
    """The crates of the repository among these, with all that they depend on."""
    crates, found, left = common.crates(), set(), [*names]
    while left:
        name = left.pop()
        if name in crates and name not in found:
            found.add(name)
            left += crates[name]
    return found


def build(room, folder, name, uses):
    """Proves and builds the program; its path."""
    common.copy_crates(room)
    for crate in below(uses.split()):
        here, there = (top / "crates" / crate / "out" for top in (TOP, room))
        if here.is_dir() and not there.is_dir():
            shutil.copytree(here, there)
    crate = room / "crates" / name
    (crate / "src").mkdir(parents=True, exist_ok=True)
    texts = [*(TOP / "bench" / folder / "src").glob("*.rt.txt")]
    if any("mod numbered;" in it.read_text() for it in texts):
        texts.append(TOP / "bench/numbered.rt.txt")
    for text in texts:
        shutil.copy(text, crate / "src" / text.stem)
    with (room / "crates.txt").open("a") as crates:
        print(f"{name}: {uses}", file=crates)
    ran = common.ran("rt", "run", "--", "none", "0", "0", folder=crate)
    if ran.returncode:
        sys.exit(f"{ran.stdout[-3000:]}{ran.stderr[-3000:]}")
    return crate / "out" / name


def valgrind(found, program, words, *arguments):
    """What a tool of valgrind reports of a run: a number for each process, in the order in which they end."""
    ran = common.ran("valgrind", *words, program, *map(str, arguments))
    reports = re.findall(found, ran.stderr)
    if ran.returncode or not reports:
        sys.exit(f"{' '.join(map(str, arguments))}: {ran.stdout[-3000:]}{ran.stderr[-3000:]}")
    return [int(it.replace(",", "")) for it in reports]


def instructions(program, *arguments, options=()):
    """How many instructions each process of a run takes, without what callgrind's options leave out."""
    words = ["--tool=callgrind", "--callgrind-out-file=/dev/null", *options]
    return valgrind(r"Collected : (\d+)", program, words, *arguments)


def print_table(calls, taken):
    """Prints the instructions of calls; returns whether one grows.

    `calls` are titles, by the names of the calls; `taken` returns the instructions of a call beside so many
    relayed addresses.
    """
    grows = False
    print("| Call |", " | ".join(f"{it:,}" for it in SIZES), "|")
    print("|---" * (1 + len(SIZES)) + "|")
    for call, title in calls.items():
        numbers = {it: taken(call, it) for it in SIZES}
        over = numbers[100000] > MOST * numbers[1000]
        grows |= over
        shown = " | ".join(f"{it:,}" for it in numbers.values())
        print(f"| {title} |", shown, "|" + " grows" * over, flush=True)
    return grows


def measure(folder, name, uses, calls, without_call=lambda call: "none"):
    """Prints the instructions of each call, and the memory; returns the exit status.

    `calls` are titles, by the names that the program has for the calls; `without_call` is its name for the run
    that makes none.
    """
    cache = os.environ.get("XDG_CACHE_HOME") or pathlib.Path.home() / ".cache"
    room = pathlib.Path(*sys.argv[1:] or [cache, name]).resolve()
    room.mkdir(parents=True, exist_ok=True)
    program = build(room, folder, name, uses)
    runs = [(call, size) for call in sorted({*map(without_call, calls)} | {*calls}) for size in SIZES]
    with ThreadPoolExecutor(2) as pool:
        counts = dict(zip(runs, pool.map(lambda it: instructions(program, *it, TIMES)[0], runs)))
    def taken(call, size):
        return (counts[call, size] - counts[without_call(call), size]) // TIMES

    grows = print_table(calls, taken)
    [memory] = valgrind(r"([\d,]+) bytes allocated", program, ["--tool=memcheck"], "none", "0", "0")
    print(f"{memory / CAPACITY:.1f} bytes of memory for each relayed address")
    return int(grows)
