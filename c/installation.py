"""What c/run_installed, its checks of a release and c/run_packages share: what is installed, and how it is used."""
import contextlib
import hashlib
import hmac
import os
import re
import shlex
import shutil
import time
import zlib

from checks import HERE, TOP, part, run

DOCUMENTS = ("share/doc/stun_types/LICENSE-APACHE", "share/doc/stun_types/LICENSE-MIT")
# What c/install --programs writes.
PROGRAMS = sorted([*(f"{folder}{name}{end}" for name in ("stun-client", "stun-turn-client", "stun-ice")
                     for folder, end in (("bin/", ""), ("share/man/man1/", ".1"))), *DOCUMENTS])
# A project for CMake that links the example messages.c with each library.
CMAKE = """\
cmake_minimum_required(VERSION 3.13)
project(app C)
find_package(stun_types @VERSION@ REQUIRED)
foreach(kind static shared)
    add_executable(by_${kind} messages.c)
    target_link_libraries(by_${kind} stun_types::${kind})
endforeach()
"""


@contextlib.contextmanager
def checked(name):
    """A part by itself: it passes if nothing is added to the list of what is wrong."""
    since, wrong = time.time(), []
    try:
        yield wrong
    except (OSError, ValueError, RuntimeError, KeyError, TypeError, AttributeError) as error:
        wrong.append(f"{type(error).__name__}: {error}")
    for line in wrong:
        print(f"  {line}")
    part(name, int(not wrong), int(bool(wrong)), since)


def said_by(command, **more):
    """What a command says; it has to end with status 0."""
    status, said = run(command, **more)
    if status != 0:
        words = shlex.join(map(str, command))
        raise RuntimeError(f"{words}\nended with status {status}: {said[-3000:]}")
    return said


def version():
    """The version that CHANGELOG.md names, and the number that programs are linked with."""
    whole = re.search(r"^## (\d+\.\d+\.\d+)", (TOP / "CHANGELOG.md").read_text(), re.M)[1]
    first, middle, _ = whole.split(".")
    return whole, f"0.{middle}" if first == "0" else first


def installed(lib="lib"):
    """The files and links that an installation has."""
    whole, abi = version()
    names = [f"{lib}/libstun_types{end}" for end in (".a", ".so", f".so.{abi}", f".so.{whole}")]
    names += [f"{lib}/cmake/stun_types/stun_types-config{end}.cmake" for end in ("", "-version")]
    names += [f"{lib}/pkgconfig/stun_types.pc", "include/stun_types.h"]
    return sorted([*names, "share/man/man3/stun_types.3", *DOCUMENTS])


def shown_examples():
    """The examples that a release has."""
    kinds = ["messages.*", "turn_client.*", "stun_types.*", "ice_*", "own_hmacs.h", "hmac_*.c", "addresses.h",
             "datagrams.h"]
    return sorted(it for kind in kinds for it in (HERE / "examples").glob(kind))


def tree(folder):
    """The files and links below a folder, each with its bytes or where it leads."""
    found = {}
    for path in sorted(folder.rglob("*")):
        if path.is_symlink():
            found[str(path.relative_to(folder))] = f"to {os.readlink(path)}"
        elif path.is_file():
            found[str(path.relative_to(folder))] = path.read_bytes()
    return found


def compare(wrong, found, expected):
    wrong += [f"{name} is there" for name in sorted(set(found) - set(expected))]
    wrong += [f"{name} isn't there" for name in sorted(set(expected) - set(found))]


def install(*words, **variables):
    """Runs c/install without the caller's PREFIX, DESTDIR and LIBDIR."""
    ours = ("PREFIX", "DESTDIR", "LIBDIR")
    clean = {name: value for name, value in os.environ.items() if name not in ours}
    return said_by([HERE / "install", *words], env={**clean, **variables})


def names_of(library, *flags):
    """The global names that a library defines, and those that it needs."""
    lines = [line.split() for line in said_by(["nm", "-g", *flags, library]).splitlines() if line]
    defined = {line[2].split("@")[0] for line in lines if len(line) == 3 and line[1] != "A"}
    needed = {line[1].split("@")[0] for line in lines if len(line) == 2 and line[0] in "UwW"}
    return defined, needed - defined


def read_pc(path):
    """The flags that pkg-config reads of a .pc file."""
    values = dict(re.findall(r"^(\w+)=(.*)$", path.read_text(), re.M))
    values["pcfiledir"] = str(path.parent)
    flags = " ".join(re.findall(r"^(?:Cflags|Libs): (.*)$", path.read_text(), re.M)).split()
    for _ in values:
        flags = [re.sub(r"\$\{(\w+)\}", lambda found: values[found[1]], flag) for flag in flags]
    return flags


def pc_flags(prefix, lib="lib"):
    """How a program is compiled with what is installed under PREFIX."""
    pc = prefix / lib / "pkgconfig/stun_types.pc"
    if not shutil.which("pkg-config"):
        return read_pc(pc)
    environment = {**os.environ, "PKG_CONFIG_PATH": str(pc.parent)}
    said = said_by(["pkg-config", "--cflags", "--libs", "stun_types"], env=environment)
    return shlex.split(said)


def expected():
    """What each of the programs messages.* prints: the address, and the signed request."""
    def header_of(length):
        return bytes.fromhex(f"0001{length:04x}2112a442") + bytes(range(1, 13))

    user = bytes.fromhex("00060005") + b"alice" + bytes(3)
    signature = hmac.new(b"wonderland", header_of(len(user) + 36) + user, hashlib.sha256).digest()
    shown = user + bytes.fromhex("001c0020") + signature
    whole = header_of(len(shown) + 8) + shown
    checksum = zlib.crc32(whole) ^ 0x5354554E
    return f"192.0.2.1:32853\n{whole.hex()}80280004{checksum:08x}\n"


def language(name, path, *asking):
    """The program of a language, if it is there and runs."""
    found = shutil.which(name, path=path)
    return found if found and run([found, *asking])[0] == 0 else None
