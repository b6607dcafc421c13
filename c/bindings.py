"""Compares what the examples in Python and Rust retype of c/stun_types.h with the header: the
layout of each struct, each number, and the result and the parameters of each call."""
import ctypes
import importlib.util
import pathlib
import re

import header
from checks import run

EXAMPLES = pathlib.Path(__file__).resolve().parent / "examples"
# What the types of a language are in C, for an ABI.
OF_C = {"uint8_t": "bytes", "char": "bytes", "void": "bytes", "bool": "1 bit"}
OF_C |= {f"uint{bits}_t": f"{bits} bits" for bits in (16, 32, 64)} | {"size_t": "64 bits"}
OF_PYTHON = {
    ctypes.c_bool: "1 bit",
    ctypes.c_uint16: "16 bits",
    ctypes.c_uint32: "32 bits",
    ctypes.c_uint64: "64 bits",
    ctypes.c_char_p: "address of bytes",
    None: "nothing",
}
OF_RUST = {"u8": "bytes", "bool": "1 bit", "u16": "16 bits", "u32": "32 bits", "u64": "64 bits"}
OF_RUST["usize"] = "64 bits"


def named(name):
    """The name in C of a struct: `ChannelData` is stun_types_channel_data."""
    return "stun_types" + re.sub(r"[A-Z]", lambda it: "_" + it[0].lower(), name)


def program(compiler, folder, lines):
    """What a program prints that includes the header and has these statements, in words."""
    source, made = folder / "header_prints.c", folder / "header_prints"
    body = "\n".join(lines)
    includes = "#include <stdio.h>\n#include <stddef.h>\n#include <stun_types.h>\n"
    source.write_text(f"{includes}int main(void) {{\n{body}\nreturn 0; }}\n")
    status, said = run([*compiler, f"-I{header.PATH.parent}", source, "-o", made])
    if status == 0:
        status, said = run([made])
    if status != 0:
        raise RuntimeError(said)
    return [line.split() for line in said.splitlines()]


def facts_of_header(compiler, folder):
    """The sizes, the places of the fields and the numbers: (name, field) or name, to numbers."""
    lines = []
    for name, fields in header.structs().items():
        lines.append(f'printf("{name} - 0 %zu\\n", sizeof({name}));')
        for field in fields:
            place = f"offsetof({name}, {field}), sizeof((({name} *)0)->{field})"
            lines.append(f'printf("{name} {field} %zu %zu\\n", {place});')
    for name in header.enumerators():
        lines.append(f'printf("{name} - %lu 0\\n", (unsigned long){name});')
    return {(a, b): (int(c), int(d)) for a, b, c, d in program(compiler, folder, lines)}


def of_c(declared, structs):
    """What a result or a parameter of C is for an ABI, and whether it is a `const` address."""
    is_const = declared.startswith("const ")
    words = re.sub(r"\b(const|struct|enum)\b", "", declared)
    base = re.search(r"\w+", words)[0]
    kind = base if base in structs else OF_C.get(base, "32 bits")
    if "*" in declared:
        return f"address of {kind}", is_const
    return ("nothing" if base == "void" else kind), False


def calls_of_header():
    structs = header.structs()
    return {
        name: [of_c(it, structs) for it in (result, *parameters)]
        for name, (result, parameters) in header.calls().items()
    }


# ---- Python


def python_module():
    spec = importlib.util.spec_from_file_location("stun_types", EXAMPLES / "stun_types.py")
    module = importlib.util.module_from_spec(spec)
    spec.loader.exec_module(module)
    return module


def of_python(kind):
    if kind in OF_PYTHON:
        return OF_PYTHON[kind]
    if hasattr(kind, "contents"):
        return f"address of {of_python(kind._type_)}"
    return named(kind.__name__)


def facts_of_python():
    facts, calls = {}, {}
    module = python_module()
    for name, value in vars(module).items():
        if name.startswith("STUN_TYPES_"):
            facts[name, "-"] = (value, 0)
        elif isinstance(value, type) and ctypes.Structure in value.__bases__:
            facts[named(name), "-"] = (0, ctypes.sizeof(value))
            for field, *_ in value._fields_:
                place = getattr(value, field)
                facts[named(name), field] = (place.offset, place.size)
    for name, kinds in module.CALLS.items():
        calls[name] = [of_python(it) for it in kinds]
    return facts, calls


# ---- Rust

RUST_MAIN = """
fn size_behind<T>(_: *const T) -> usize { std::mem::size_of::<T>() }
fn main() {
"""


def rust_source():
    return (EXAMPLES / "stun_types.rs").read_text()


def facts_of_rust(rustc, folder):
    """The structs and numbers of the module, as a program that includes them prints them."""
    lines, source = [], rust_source()
    for name, body in re.findall(r"\bstruct (\w+) \{(.*?)\}", source):
        lines.append(f'println!("{named(name)} - 0 {{}}", std::mem::size_of::<{name}>());')
        lines.append(f"let it = std::mem::MaybeUninit::<{name}>::uninit();")
        for field in re.findall(r"([\w#]+):", body):
            lines.append(f"let place = unsafe {{ std::ptr::addr_of!((*it.as_ptr()).{field}) }};")
            lines.append("let offset = place as usize - it.as_ptr() as usize;")
            row = f"{named(name)} {field.replace('r#', '')} {{}} {{}}"
            lines.append(f'println!("{row}", offset, size_behind(place));')
    for name in re.findall(r"\bconst (STUN_TYPES_\w+):", source):
        lines.append(f'println!("{name} - {{}} 0", {name} as u64);')
    path, made = folder / "rust_prints.rs", folder / "rust_prints"
    unlinked = source.replace('#[link(name = "stun_types")]', "")
    path.write_text(unlinked + RUST_MAIN + "\n".join(lines) + "\n}\n")
    # (the calls of the module are never reached, and nothing has to define them)
    unresolved = "link-arg=-Wl,--unresolved-symbols=ignore-all"
    status, said = run([*rustc, "--edition", "2021", "-C", unresolved, path, "-o", made])
    if status == 0:
        status, said = run([made])
    if status != 0:
        raise RuntimeError(said)
    return {(a, b): (int(c), int(d)) for a, b, c, d in map(str.split, said.splitlines())}


def of_rust(kind):
    kind = kind.strip()
    found = re.fullmatch(r"\*(const|mut) (\w+)", kind)
    if found:
        return f"address of {OF_RUST.get(found[2]) or named(found[2])}", found[1] == "const"
    if not kind:
        return "nothing", False
    return OF_RUST.get(kind) or named(kind), False


def calls_of_rust():
    calls = {}
    pattern = r"fn (stun_types_\w+)\(([^)]*)\)(?: -> (\w+))?;"
    for name, parameters, result in re.findall(pattern, rust_source()):
        kinds = [it.split(":", 1)[1] for it in parameters.split(",") if it.strip()]
        calls[name] = [of_rust(it) for it in (result, *kinds)]
    return calls


# ---- Comparing


def differences(of, facts, calls, expected, expected_calls):
    """Each fact of a binding that differs from the header's, and each field that is missing."""
    said = []
    for place, value in facts.items():
        if expected.get(place) != value:
            said.append(f"{of}: {' '.join(place)} is {value}, in the header {expected.get(place)}")
    ours = {name for name, _ in facts}
    for name, field in expected:
        if name in ours and (name, field) not in facts:
            said.append(f"{of}: {name} has no {field}")
    for name, kinds in calls.items():
        if expected_calls.get(name) != kinds:
            said.append(f"{of}: {name} takes {kinds}, in the header {expected_calls.get(name)}")
    return said
