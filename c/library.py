#!/usr/bin/env python3
"""Makes the library that is installed: c/library.py OUT.a [ARCHIVE [KIT]], or c/library.py --source.

ARCHIVE is that of `rt lib`, by default crates/stun_types_c/out/libstun_types_c.a, and KIT the kit's
archive that it needs, by default the one of `rt doc`. The library is one object, in which the names of
the header are global and all others are local: a program may link another library made by a kit beside
it. A call that writes to a pointer of its caller, and has another one, gets a function in C in front of
it. That compares the addresses, and refuses what the proved function must not get: two arguments that
overlap, if one of them is written. A slice in a struct that is passed is an argument too; if it is NULL,
the proved function gets a copy of the struct with another address. --source prints these functions,
which follow from the header alone.

Needed are ld, objcopy and ar (binutils, or $LD, $OBJCOPY and $AR) and a C compiler ($CC, or cc)."""
import os
import pathlib
import re
import shlex
import subprocess
import sys
import tempfile

sys.dont_write_bytecode = True
import header
from checks import archives

# What a refused call leaves as zeros, which permit nothing: verdicts, and what these calls write.
VERDICTS = {
    "validated",
    "covered",
    "authentication",
    "action",
    "received",
    "nonce_state",
    "turn_action",
    "turn_delivery",
    "turn_notice",
    "turn_sent",
    "flow",
    "allocation_data",
    "allocation_head",
    "allocation_change",
    "ice_received",
    "ice_request",
    "ice_path",
    "ice_standing",
    "ice_checked",
    "ice_change",
}
ZEROS = {
    ("stun_types_transaction_begin", "transaction"),
    ("stun_types_binding_reply", "reply_length"),
}
# What it returns. A call that counts what it wrote wrote nothing.
REFUSED = {"bool": "false", "size_t": "SIZE_MAX", "stun_types_answer": "refused"}
REFUSED_BY = {"stun_types_turn_ended": "0", "stun_types_turn_over": "0", "stun_types_turn_end_user": "0"}
BEGINS = """\
/* (written by c/library.py) */
#include <stdbool.h>
#include <stdint.h>
#include <string.h>

#include "stun_types.h"

static const stun_types_answer refused = {STUN_TYPES_BAD_ARGUMENT, 0, 0, 0};

/* Whether two ranges of bytes have one in common. */
static bool meet(const void *one, size_t length, const void *other, size_t size) {
    return length != 0 && size != 0
        && ((uintptr_t)other - (uintptr_t)one < length || (uintptr_t)one - (uintptr_t)other < size);
}
"""


class Pointer:
    """A parameter that is a pointer: its name, its bytes as an expression, and whether they are written."""

    def __init__(self, declared, after):
        self.kind, self.name = re.fullmatch(r"(?:const )?(\w+) \*(\w+)", declared).groups()
        self.is_written = not declared.startswith("const ")
        count = re.fullmatch(r"size_t (\w+)", after)
        self.is_slice = bool(count)
        size = "" if self.kind in ("void", "char", "uint8_t") else f" * sizeof *{self.name}"
        self.bytes = count[1] + size if count else f"sizeof *{self.name}"


def pointers(parameters):
    """The parameters of a call that are pointers."""
    after = [*parameters[1:], ""]
    return [Pointer(it, then) for it, then in zip(parameters, after) if "*" in it]


def inside(pointer):
    """The slices in the struct that a parameter points to, by the names of their fields."""
    found = [] if pointer.is_slice else pointers(header.fields().get(pointer.kind, []))
    return [it for it in found if it.is_slice]


def arguments(parameters):
    """The parameters that are pointers, and the slices in what they point to, as expressions."""
    found = pointers(parameters)
    for outer in pointers(parameters):
        for it in inside(outer):
            it.bytes = f"{outer.name}->{it.bytes}".replace(f"*{it.name}", f"*{outer.name}->{it.name}")
            it.name = f"{outer.name}->{it.name}"
            found.append(it)
    return found


def pairs(parameters):
    """Each two of them that must not overlap: one is written."""
    found = arguments(parameters)
    every = ((one, other) for i, one in enumerate(found) for other in found[i + 1 :])
    return [(one, other) for one, other in every if one.is_written or other.is_written]


def guarded():
    """The calls with such pairs, as header.calls has them."""
    return {name: it for name, it in header.calls().items() if pairs(it[1])}


def refusal(name, result, parameters):
    """The statements of a call that is refused."""
    short = lambda it: it.kind.removeprefix("stun_types_")
    left = [it for it in pointers(parameters) if (name, it.name) in ZEROS
            or it.is_written and not it.is_slice and short(it) in VERDICTS]
    said = [f"memset({it.name}, 0, {it.bytes});" for it in left]
    return [*said, f"return {REFUSED_BY.get(name) or REFUSED[result]};"]


def copies(parameters):
    """The statements that copy a struct with slices, if one of them is NULL; the copy has none."""
    said = []
    for it in pointers(parameters):
        slices = [part.name for part in inside(it)]
        if not slices:
            continue
        said.append(f"{it.kind} {it.name}_copy;")
        said.append(f"if ({' || '.join(f'{it.name}->{part} == NULL' for part in slices)}) {{")
        said.append(f"    {it.name}_copy = *{it.name};")
        for part in slices:
            field = f"{it.name}_copy.{part}"
            said.append(f"    if ({field} == NULL) {field} = (const void *){it.name};")
        said += [f"    {it.name} = &{it.name}_copy;", "}"]
    return said


def source():
    """The functions in front of the calls."""
    made = [BEGINS]
    for name, (result, parameters) in guarded().items():
        tests = [f"meet({a.name}, {a.bytes}, {b.name}, {b.bytes})" for a, b in pairs(parameters)]
        overlap = "\n        || ".join(tests)
        said = copies(parameters)
        given = ", ".join(re.search(r"\w+$", it)[0] for it in parameters)
        declared = ", ".join(parameters)
        copied = "".join(f"    {it}\n" for it in said)
        refused = "".join(f"        {it}\n" for it in refusal(name, result, parameters))
        made.append(
            f"\n{result} unguarded_{name}({declared});\n{result} {name}({declared}) {{\n"
            f"    if ({overlap}) {{\n{refused}    }}\n{copied}"
            f"    return unguarded_{name}({given});\n}}\n"
        )
    return "".join(made)


def make(archive, kit, out):
    """The library, as an archive of one object."""
    tool = lambda name, word: shlex.split(os.environ.get(name, word))
    with tempfile.TemporaryDirectory() as room:
        run = lambda *words: subprocess.run(list(map(str, words)), cwd=room, check=True)
        room = pathlib.Path(room)
        (room / "guards.c").write_text(source())
        (room / "names").write_text("".join(f"{it} unguarded_{it}\n" for it in guarded()))
        run(*tool("LD", "ld"), "-r", "--whole-archive", archive, kit, "-o", "calls.o")
        run(*tool("OBJCOPY", "objcopy"), "--redefine-syms=names", "calls.o")
        compiled = ["-std=c99", "-O2", "-fPIC", "-I", header.PATH.parent, "-c", "guards.c"]
        run(*tool("CC", "cc"), *compiled, "-o", "guards.o")
        run(*tool("LD", "ld"), "-r", "calls.o", "guards.o", "-o", "stun_types.o")
        run(*tool("OBJCOPY", "objcopy"), "--wildcard", "--keep-global-symbol=stun_types_*", "stun_types.o")
        run(*tool("AR", "ar"), "rcsD", "made.a", "stun_types.o")
        pathlib.Path(out).write_bytes((room / "made.a").read_bytes())


if __name__ == "__main__":
    if sys.argv[1:] == ["--source"]:
        print(source(), end="")
    elif 2 <= len(sys.argv) <= 4 and not sys.argv[1].startswith("-"):
        make(*archives(sys.argv[2:]), sys.argv[1])
    else:
        sys.exit(__doc__)
