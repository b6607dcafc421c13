"""What c/stun_types.h declares: its functions, its structs and its enumerators, by name."""
import pathlib
import re

PATH = pathlib.Path(__file__).resolve().parent / "stun_types.h"
# What only says when a compiler warns.
WARNINGS = re.compile(r"^STUN_TYPES_NODISCARD *|STUN_TYPES_NONNULL\(\([\d, ]*\)\)\s*", re.M)
ENUM = re.compile(r"STUN_TYPES_ENUM\((\w+)\)")


def readable(text):
    """A part of the header as the C language has it, without its macros for warnings."""
    return ENUM.sub(r"enum \1", WARNINGS.sub("", text))


def plain(path=PATH):
    """The declarations: no comments, no lines of the preprocessor, no bodies of functions."""
    text = re.sub(r"/\*.*?\*/", "", path.read_text(), flags=re.S)
    text = re.sub(r"^#(?:.*\\\n)*.*$", "", text, flags=re.M)
    return readable(re.sub(r"^(static inline [^{}]*?) \{.*?^\}$", r"\1;", text, flags=re.M | re.S))


def functions(path=PATH):
    """Each function, inline ones too: its result, and the declarations of its parameters."""
    found = re.findall(r"^(\w[\w ]*?[ *]+)(stun_types_\w+)\(([^()]*)\);", plain(path), re.M)
    made = {}
    for result, name, parameters in found:
        each = [" ".join(it.split()) for it in parameters.split(",")]
        made[name] = (result.strip(), [it for it in each if it != "void"])
    return made


def calls():
    """Those that the library has."""
    return {name: it for name, it in functions().items() if not it[0].startswith("static ")}


def parameter_names(path):
    """The names of the parameters of each function."""
    each = functions(path).items()
    return {name: [re.search(r"\w+$", it)[0] for it in parameters] for name, (_, parameters) in each}


def slices():
    """Each call with slices, and the places of their addresses among its parameters."""
    made = {}
    for name, (_, parameters) in calls().items():
        pairs = enumerate(zip(parameters, parameters[1:]))
        places = [i for i, (a, b) in pairs if "*" in a and re.fullmatch(r"size_t \w+", b)]
        if places:
            made[name] = places
    return made


def fields():
    """Each struct, and the declarations of its fields, one by one."""
    made = {}
    for body, name in re.findall(r"^typedef struct \{([^{}]*)\} (stun_types_\w+);", plain(), re.M):
        made[name] = []
        for declaration in filter(str.strip, body.split(";")):
            first, *others = (" ".join(it.split()) for it in declaration.split(","))
            kind = re.match(r"(?:const )?\w+ ", first)[0]
            made[name] += [first, *(kind + it for it in others)]
    return made


def structs():
    """Each struct, and the names of its fields."""
    name_of = lambda declared: re.search(r"(\w+)(?:\[[^\]]*\])?$", declared)[1]
    return {name: [name_of(it) for it in each] for name, each in fields().items()}


def enumerations():
    """The types that are enumerations."""
    return re.findall(r"^typedef enum (stun_types_\w+) \{", plain(), re.M)


def enumerators():
    """The names of all enumerators."""
    bodies = re.findall(r"\benum(?: \w+)? \{([^{}]*)\}", plain())
    return [it.split("=")[0].strip() for body in bodies for it in body.split(",") if it.strip()]
