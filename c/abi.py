#!/usr/bin/env python3
"""Compares the ABI of the library for C: what c/abi says of it with the header, as a C compiler sees it,
with the Rattle types and, by c/run_tests, with the calls that the archive defines.

c/abi.py [--write | --self-test]

--write      writes c/abi, and the assertions of c/stun_types.h; the calls and their versions in c/abi are
             written by hand, and the rest of their lines is not
--self-test  plants changes in copies of the header: those that a program or a binding would notice, which
             must each be refused, and others, which must not

A line of c/abi is one of these, without `stun_types_`, with sizes and offsets in bytes, on x86-64:

    enum NAME SIZE, enumerator NAME NUMBER
    struct NAME SIZE, field STRUCT.NAME OFFSET TYPE
    macro NAME VALUE
    call NAME VERSION RESULT (TYPE NAME, ..), inline NAME RESULT (TYPE NAME, ..)

VERSION is the one that the call came with: a program that uses the call doesn't load with an older shared
library. A type is `void`, `bool`, `char`, a number as u32 or i32, the name of a struct or of an
enumeration, an array as u8[16], or an address as *u8 or *const u8. The compiler says all of this by what
it writes for a debugger (gcc -g, readelf), and the macros by -E; the names of parameters are the header's.
They may change, but not change places.

Needed are a C compiler ($CC, or cc, gcc or clang) and readelf ($READELF; binutils)."""
import os
import pathlib
import re
import shlex
import subprocess
import sys
import tempfile

sys.dont_write_bytecode = True
import header
from checks import compilers

HERE = pathlib.Path(__file__).resolve().parent
PATH = HERE / "abi"
SOURCES = HERE.parent / "crates/stun_types_c/src"
# The structs of the header, and the Rattle types that the calls take for them.
TYPES = {
    "answer": "CResult",
    "id": "Id",
    "header": "Header",
    "attribute": "ShownAttribute",
    "cursor": "Cursor",
    "address": "Address",
    "key": "KeyHandle",
    "hash": "Hash",
    "policy": "CPolicy",
    "validated": "Validated",
    "covered": "CCovered",
    "hmac": "CHmac",
    "authentication": "CAuthenticated",
    "asked": "CAsked",
    "cookie": "Cookie",
    "schedule": "CSchedule",
    "transaction": "CTransaction",
    "action": "CAction",
    "received": "CReceived",
    "challenge": "CChallenge",
    "stream": "CStream",
    "channel_data": "CChannelMessage",
    "turn": "CTurn",
    "turn_limits": "CTurnLimits",
    "turn_settings": "CTurnSettings",
    "prefix": "CPrefix",
    "five_tuple": "CFiveTuple",
    "turn_ready": "CTurnReady",
    "turn_datagram": "CTurnDatagram",
    "turn_opened": "COpened",
    "turn_action": "CTurnAction",
    "turn_delivery": "CDelivery",
    "icmp": "CIcmp",
    "turn_notice": "CNotice",
    "ip_fields": "CIpFields",
    "turn_relayed": "CRelayed",
    "turn_sent": "CSentFields",
    "flow": "CFlow",
    "allocation": "CAllocation",
    "allocation_settings": "CAllocationSettings",
    "allocation_data": "CAllocationData",
    "allocation_head": "CAllocationHead",
    "allocation_change": "CAllocationChange",
    "allocation_attempt": "CAttempt",
    "ice": "CIce",
    "ice_settings": "CIceSettings",
    "ice_base": "CIceBase",
    "ice_remote": "CIceRemote",
    "ice_received": "CIceReceived",
    "ice_request": "CIceRequest",
    "ice_path": "CIcePath",
    "ice_standing": "CIceStanding",
    "ice_checked": "CIcePair",
    "ice_change": "CIceChange",
    "ice_candidate": "CIceCandidate",
    "ice_lite": "CIceLite",
    "ice_lite_base": "CIceLiteBase",
    "ice_lite_settings": "CIceLiteSettings",
}
# Fields that have another name in Rattle.
NAMES = {"type": ("atype", "mtype"), "message_class": ("class",), "at": ("place",)}
# Macros that say how a compiler warns or declares, and the version, which c/run_tests compares.
NO_ABI = {"H", "NODISCARD", "NONNULL", "ENUM", "LAYOUT", "VERSION", "VERSION_TEXT"}
BEGIN, END = "/* (written by c/abi.py) */\n", "/* (until here) */\n"
short = lambda name: re.sub(r"^stun_types_", "", name)


# ---- The header, as a compiler sees it


def run(*words):
    ran = subprocess.run(list(map(str, words)), capture_output=True, text=True)
    if ran.returncode:
        raise ValueError(f"{shlex.join(map(str, words))}\n{(ran.stdout + ran.stderr)[-3000:]}")
    return ran.stdout


class Debugging:
    """What the compiler says of types to a debugger: the entries of readelf, by their places."""

    def __init__(self, said):
        self.all, above, entry = {}, {}, None
        for line in said.splitlines():
            begun = re.match(r" *<(\w+)><(\w+)>: Abbrev Number: \d+ \(DW_TAG_(\w+)\)", line)
            has = re.match(r" *<\w+> +DW_AT_(\w+) *: +(.*)", line)
            if begun:
                depth, place = int(begun[1], 16), int(begun[2], 16)
                entry = above[depth] = self.all[place] = {"tag": begun[3], "in": []}
                if depth:
                    above[depth - 1]["in"].append(entry)
            elif has and entry is not None:
                entry[has[1]] = has[2]

    def name(self, entry):
        return re.sub(r"^\(.*?\)(?: \(offset: \w+\))?:? ", "", entry.get("name", "")).strip()

    def number(self, entry, of):
        """A number among its attributes; readelf may put the form before, and a meaning after it."""
        return int(re.match(r"(?:\(\w+\) )?(-?\w+)", entry[of])[1], 0)

    def below(self, entry):
        found = re.search(r"<(0x\w+)>", entry.get("type", ""))
        return self.all[int(found[1], 16)] if found else None

    def plain(self, entry):
        """A type without its names of typedef."""
        while entry is not None and entry["tag"] == "typedef":
            entry = self.below(entry)
        return entry

    def type(self, entry):
        """A type, as c/abi writes it."""
        if entry is None:
            return "void"
        tag = entry["tag"]
        is_named = self.plain(entry) is not None and "stun_types_" in self.name(entry)
        if is_named:
            return short(self.name(entry))
        if tag in ("typedef", "const_type"):
            return ("const " if tag == "const_type" else "") + self.type(self.below(entry))
        if tag == "pointer_type":
            return "*" + self.type(self.below(entry))
        if tag == "array_type":
            size = entry["in"][0]
            count = self.number(size, "count") if "count" in size else self.number(size, "upper_bound") + 1
            return f"{self.type(self.below(entry))}[{count}]"
        if tag == "base_type":
            if self.name(entry) in ("char", "_Bool"):
                return {"char": "char", "_Bool": "bool"}[self.name(entry)]
            sign = {5: "i", 6: "i", 7: "u", 8: "u"}[self.number(entry, "encoding")]
            return f"{sign}{8 * self.number(entry, 'byte_size')}"
        raise ValueError(f"c/abi has no form for a {tag}")


def seen(path):
    """The lines of c/abi on a header, but for the versions of calls, by kind: what the compiler sees."""
    compiler = compilers()[0]
    with tempfile.TemporaryDirectory() as room:
        room = pathlib.Path(room)
        before, _, rest = path.read_text().partition(BEGIN)
        (room / "stun_types.h").write_text(before + rest.partition(END)[2])
        flags = [*compiler, "-std=c99", f"-I{room}"]
        source = room / "abi.c"
        source.write_text('#include "stun_types.h"\n')
        text = run(*flags, "-E", "-P", source)
        defined = re.findall(r"(?m)^#define (STUN_TYPES_(\w+)) ", run(*flags, "-E", "-dM", source))
        macros = [name for name, ending in defined if ending not in NO_ABI]
        source.write_text('#include "stun_types.h"\n' + "".join(f"abi_of_{it} = {it};\n" for it in macros))
        values = dict(re.findall(r"(?m)^abi_of_(\w+) = (.*);$", run(*flags, "-E", "-P", source)))
        calls = list(dict.fromkeys(re.findall(r"\b(stun_types_\w+)\s*\((?=[^;{]*\)\s*[;{])", text)))
        inlined = set(re.findall(r"\bstatic inline [^;{(]*?\b(stun_types_\w+)\s*\(", text))
        types = re.findall(r"\}\s*(stun_types_\w+)\s*;", text)
        lines = [f"__typeof__({it}) *abi_call_{it};" for it in calls]
        lines += [f"{it} abi_type_{it};" for it in types]
        source.write_text('#include "stun_types.h"\n' + "".join(f"{it}\n" for it in lines))
        made = room / "abi.o"
        run(*flags, "-gdwarf-4", "-fno-eliminate-unused-debug-types", "-c", source, "-o", made)
        readelf = shlex.split(os.environ.get("READELF", "readelf"))
        return facts(Debugging(run(*readelf, "-W", "--debug-dump=info", made)), values, calls, inlined)


def valued(text):
    """What a macro stands for, in one form of each compiler's."""
    return re.sub(r"\(\(void ?\*\) ?0\)", "NULL", " ".join(text.split()))


def facts(told, values, calls, inlined):
    """The lines, by kind, in the order of the header."""
    enums, structs, signatures = [], [], {}
    entries = list(told.all.values())
    for entry in entries:
        name = told.name(entry)
        if entry["tag"] == "variable" and name.startswith("abi_call_"):
            of = told.below(told.below(entry))
            kinds = [told.type(told.below(it)) for it in of["in"] if it["tag"] == "formal_parameter"]
            signatures[name.removeprefix("abi_call_")] = told.type(told.below(of)), kinds
        if entry["tag"] == "variable" and name.startswith("abi_type_"):
            of, name = told.plain(told.below(entry)), short(name.removeprefix("abi_type_"))
            size = told.number(of, "byte_size")
            if of["tag"] == "enumeration_type":
                enums.append(f"enum {name} {size}")
                continue
            structs.append(f"struct {name} {size}")
            for it in of["in"]:
                at = told.number(it, "data_member_location")
                structs.append(f"field {name}.{told.name(it)} {at} {told.type(told.below(it))}")
    # (some compilers write a number of 32 bits without its sign)
    numbers = {
        told.name(it): told.number(it, "const_value") % 2**32
        for of in entries if of["tag"] == "enumeration_type"
        for it in of["in"] if told.name(it).startswith("STUN_TYPES_")
    }
    return {
        "types": enums + [f"enumerator {name} {number}" for name, number in numbers.items()] + structs,
        "macros": [f"macro {name} {valued(value)}" for name, value in sorted(values.items())],
        "calls": {name: signatures[name] for name in calls if name not in inlined},
        "inlines": {name: signatures[name] for name in calls if name in inlined},
    }


def signature(result, kinds, names):
    return f"{result} ({', '.join(f'{kind} {name}' for kind, name in zip(kinds, names))})"


def lines_of(path):
    """The lines of c/abi on a header: those on types and macros, and what calls and inline functions are."""
    found, names = seen(path), header.parameter_names(path)
    signed = lambda of: {name: signature(*it, names[name]) for name, it in found[of].items()}
    return found["types"] + found["macros"], signed("calls"), signed("inlines")


# ---- The Rattle types


def declared():
    """The fields of each struct of Rattle whose layout is C's: names and types."""
    made = {}
    for file in sorted(SOURCES.glob("*.rt")):
        text = re.sub(r"//.*", "", file.read_text())
        pattern = r"#\[repr\(C\)\]\s*(?:#\[[^\]]*\]\s*)*pub(?:\(crate\))? struct (\w+)(?:<'a>)? \{(.*?)\n\}"
        for name, body in re.findall(pattern, text, re.S):
            fields = re.findall(r"(?m)^    (?:pub(?:\(crate\))? )?(\w+): ([^,\n]+),", body)
            made[name] = [(field, kind) for field, kind in fields if kind != "Global"]
    return made


def in_c(kind):
    """What a type of Rattle may be in C: the types of one field, or of two, for each."""
    names = {of: name for name, of in TYPES.items()}
    if kind in ("KeyPlace", "TurnPlace", "AllocationPlace", "IcePlace", "IceLitePlace"):
        return [("*void",)]
    many = re.fullmatch(r"&'a \[(\w+)\]", kind)
    if many:
        of = ["u8", "void"] if many[1] == "u8" else [one for one, in in_c(many[1])]
        return [(f"*const {it}", "u64") for it in of]
    array = re.fullmatch(r"\[(\w+); (\d+)\]", kind)
    if array:
        return [(f"{names.get(array[1], array[1])}[{array[2]}]",)]
    if kind in names:
        return [(names[kind],)]
    return [({"usize": "u64"}.get(kind, kind),)]


def against_rattle(lines):
    """What differs between the structs of the header and the Rattle types: the order, names and types."""
    types, said, structs = declared(), [], {}
    enums = {it.split()[1] for it in lines if it.startswith("enum ")}
    for line in lines:
        word, name, *rest = line.split(maxsplit=3)
        if word == "struct":
            structs[name] = []
        if word == "field":
            structs[name.split(".")[0]].append((name.split(".")[1], rest[1]))
    for name, fields in structs.items():
        if TYPES.get(name) not in types:
            said.append(f"no Rattle type is named for {name}")
            continue
        left = [(field, "u32" if kind in enums else kind) for field, kind in fields]
        for field, kind in types[TYPES[name]]:
            allowed = in_c(kind)
            part, left = left[: len(allowed[0])], left[len(allowed[0]) :]
            is_named = part and (part[0][0] == field or field in NAMES.get(part[0][0], ()))
            if not is_named or tuple(it for _, it in part) not in allowed:
                said.append(f"{name} has {part}, and {TYPES[name]} has {field}: {kind}")
        said += [f"{name} has {field}, and {TYPES[name]} hasn't" for field, _ in left]
    return said


# ---- Comparing


def committed():
    """The lines of c/abi: those on types and macros, and the calls with their versions."""
    lines = [line for line in PATH.read_text().splitlines() if line and not line.startswith("#")]
    calls = dict(line.split()[1:3] for line in lines if line.startswith("call "))
    return [line for line in lines if not line.startswith(("call ", "inline "))], calls


def committed_signatures(of):
    """What c/abi says that calls or inline functions are."""
    pattern = {"call": r"(?m)^call (\w+) \S+ (.*)$", "inline": r"(?m)^inline (\w+) (.*)$"}[of]
    return dict(re.findall(pattern, PATH.read_text()))


def parted(signed):
    """The types and the names of a signature: the result first, which has no name."""
    result, given = re.fullmatch(r"(.*?) \((.*)\)", signed).groups()
    each = [it.rpartition(" ") for it in given.split(", ") if it]
    return [result, *(kind for kind, _, _ in each)], [name for _, _, name in each]


def changes(known, found, what):
    """What differs between signatures. Names of parameters may change, but not change places."""
    said = [f"c/abi lacks the {what} {name}" for name in sorted(set(found) - set(known))]
    said += [f"the header lacks the {what} {name}" for name in sorted(set(known) - set(found))]
    for name in sorted(set(known) & set(found)):
        (kinds, names), (now, named) = parted(known[name]), parted(found[name])
        moved = any(a != b and b in names for a, b in zip(names, named))
        if kinds != now or moved:
            said.append(f"{name} is {found[name]}, and in c/abi {known[name]}")
    return said


def differences(path=header.PATH):
    """What c/abi, the header and the Rattle types don't agree in."""
    try:
        lines, calls, inlined = lines_of(path)
    except ValueError as why:
        return [f"the header can't be read: {why}"]
    known, _ = committed()
    said = [f"c/abi lacks: {line}" for line in lines if line not in known]
    said += [f"c/abi has, and the header hasn't: {line}" for line in known if line not in lines]
    said += changes(committed_signatures("call"), calls, "call")
    said += changes(committed_signatures("inline"), inlined, "inline function")
    if parts_of_header(path)[1] != assertions(known):
        said.append("the header's assertions aren't those of c/abi")
    return said + against_rattle(lines)


def assertions(lines):
    """The assertions of the header, a line each for a size or an offset."""
    made = []
    for line in lines:
        word, name, *rest = line.split()
        if word in ("enum", "struct"):
            made.append(f"STUN_TYPES_LAYOUT({name}_size, sizeof(stun_types_{name}) == {rest[0]});")
        if word == "field":
            of, field = name.split(".")
            text = f"STUN_TYPES_LAYOUT({of}_{field}, offsetof(stun_types_{of}, {field}) == {rest[0]});"
            made.append(text)
    return "".join(f"{line}\n" for line in made)


def parts_of_header(path):
    before, _, rest = path.read_text().partition(BEGIN)
    block, _, behind = rest.partition(END)
    return before, block, behind


def version_script():
    """The script for the linker: each call in the node of its version, a node after the older one."""
    _, calls = committed()
    number = lambda version: [int(it) for it in version.split(".")]
    nodes, before = [], ""
    for version in sorted(set(calls.values()), key=number):
        names = "".join(f"        {it};\n" for it in sorted(calls) if calls[it] == version)
        rest = "" if before else "    local: *;\n"
        nodes.append(f"STUN_TYPES_{version} {{\n    global:\n{names}{rest}}}{before};\n")
        before = f" STUN_TYPES_{version}"
    return "\n".join(nodes)


def write():
    lines, calls, inlined = lines_of(header.PATH)
    comment = [line for line in PATH.read_text().splitlines() if line.startswith("#")]
    versions = sorted(committed()[1].items())
    signed = [f"call {name} {version} {calls.get(name, '')}".rstrip() for name, version in versions]
    signed += [f"inline {name} {it}" for name, it in sorted(inlined.items())]
    PATH.write_text("".join(f"{it}\n" for it in [*comment, *lines, *signed]))
    before, _, behind = parts_of_header(header.PATH)
    header.PATH.write_text(before + BEGIN + assertions(lines) + END + behind)


# ---- Planted changes

# What the header says, and what it says then: each is refused.
REFUSED = {
    "a parameter widened": (
        "stun_types_add_u16(uint8_t *room, size_t size, size_t *written, uint16_t type,",
        "stun_types_add_u16(uint8_t *room, size_t size, size_t *written, uint32_t type,",
    ),
    "a field made signed": ("    uint32_t last_wait;     /*", "    int32_t last_wait;     /*"),
    "the value of a macro changed": (
        "#define STUN_TYPES_GREATEST_MESSAGE 65552",
        "#define STUN_TYPES_GREATEST_MESSAGE 65556",
    ),
    "two parameters of one type exchanged": (
        "uint64_t window, uint64_t now,\n                                        const",
        "uint64_t now, uint64_t window,\n                                        const",
    ),
    "two parameters of other types exchanged": (
        "stun_types_message_type(stun_types_class message_class, stun_types_method method)",
        "stun_types_message_type(stun_types_method method, stun_types_class message_class)",
    ),
    "an enumerator renumbered": ("STUN_TYPES_SIGNED = 18", "STUN_TYPES_SIGNED = 99"),
    "an enumerator renamed": ("STUN_TYPES_DISCARDED = 3", "STUN_TYPES_IGNORED = 3"),
    "a field moved": (
        "    uint16_t port;      /* the machine's number */\n    uint16_t family;    /* 4 or 6 */\n",
        "    uint16_t family;    /* 4 or 6 */\n    uint16_t port;      /* the machine's number */\n",
    ),
    "a field added": ("    uint16_t first_port, last_port;\n} stun_types_prefix;", "    uint16_t first_port, last_port, more;\n} stun_types_prefix;"),
    "the result of a call changed": (
        "uint16_t stun_types_message_type(",
        "uint32_t stun_types_message_type(",
    ),
    "a const dropped": (
        "stun_types_parse(const uint8_t *bytes",
        "stun_types_parse(uint8_t *bytes",
    ),
    "a macro removed": ("#define STUN_TYPES_NONCE_LENGTH 35\n", ""),
    "a call removed": (
        "STUN_TYPES_NODISCARD\nuint32_t stun_types_version(void);\n",
        "",
    ),
    "an enumeration as the number that it has": (
        "size_t stun_types_text(stun_types_status code,",
        "size_t stun_types_text(uint32_t code,",
    ),
    "an array shortened": ("    uint8_t bytes[13];", "    uint8_t bytes[12];"),
    "the parameter of an inline function widened": (
        "stun_types_status_text(uint32_t code)",
        "stun_types_status_text(uint64_t code)",
    ),
}
# The same, and nothing is refused.
TAKEN = {
    "a comment": ("/* Reads a ChannelData message.", "/* Reads one ChannelData message."),
    "a parameter renamed": ("stun_types_protocol_of(uint8_t first)", "stun_types_protocol_of(uint8_t begin)"),
    "another name of a type": ("stun_types_protocol_of(uint8_t first)", "stun_types_protocol_of(unsigned char first)"),
    "a macro for warnings": ("STUN_TYPES_NODISCARD\nuint32_t stun_types_version", "uint32_t stun_types_version"),
}


def try_planted():
    """Plants each change in a copy of the header. What went wrong, and how many were tried."""
    said, text = [], header.PATH.read_text()
    with tempfile.TemporaryDirectory() as room:
        copy = pathlib.Path(room) / "stun_types.h"
        for name, (old, new) in (REFUSED | TAKEN).items():
            if text.count(old) != 1:
                said.append(f"{name}: the header has {text.count(old)} times: {old}")
                continue
            copy.write_text(text.replace(old, new))
            found = [it for it in differences(copy) if "can't be read" not in it]
            if bool(found) != (name in REFUSED):
                said.append(f"{name}: {found or 'is not refused'}")
    return said, len(REFUSED) + len(TAKEN)


def main(arguments):
    if arguments not in ([], ["--write"], ["--map"], ["--self-test"]):
        sys.exit(__doc__)
    if arguments == ["--map"]:
        print(version_script(), end="")
        return
    if arguments == ["--write"]:
        write()
    found, tried = try_planted() if arguments == ["--self-test"] else (differences(), 1)
    print("".join(f"{it}\n" for it in found), end="")
    print(f"{tried - min(tried, len(found))} passed, {len(found)} failed")
    sys.exit(bool(found))


if __name__ == "__main__":
    main(sys.argv[1:])
