"""What the scripts of this folder share: the tree, its crates and copies of them, the kit, counts, and Markdown."""
import atexit
import collections
import functools
import importlib.machinery
import importlib.util
import itertools
import os
import pathlib
import re
import shutil
import subprocess
import sys
import tempfile

TOP = pathlib.Path(__file__).resolve().parent.parent
COUNT = re.compile(r"^(\d+) passed, (\d+) failed$", re.M)
# A comment in a definition, a proof or a source.
COMMENT = re.compile(r"(?:^|(?<=\s))(?:--|//).*$", re.M)
Block = collections.namedtuple("Block", "word at code has_end")
FENCE = re.compile(r"( *)```([^`]*)$")
# A word, a name or a command between backquotes, and what a link leads to.
QUOTED = re.compile(r"(?<!`)`([^`\n]+)`(?!`)")
LINK = re.compile(r"(?:\]\(|^\[[^\]]+\]: )([^)\s]+)")


def read(name):
    """The text of a file of the repository."""
    return (TOP / name).read_text()


def ran(*command, folder=TOP, **variables):
    """Runs a command in a folder, with no input and these variables, and returns its output and status."""
    how = {"stdin": subprocess.DEVNULL, "capture_output": True, "text": True, "errors": "replace"}
    return subprocess.run(command, cwd=folder, env={**os.environ, **variables}, **how)


def files():
    """The names of the files that Git has, or would add."""
    listed = ran("git", "ls-files", "-co", "--exclude-standard").stdout
    return [name for name in sorted({*listed.splitlines()}) if (TOP / name).is_file()]


def crates():
    """What each crate of crates.txt depends on, by its name."""
    lines = re.findall(r"^(\w+)(?: \w+)*:(.*)$", read("crates.txt"), re.M)
    return {name: uses.split() for name, uses in lines}


def libraries():
    """The names of the crates that are libraries of Rattle."""
    names = re.findall(r"^(\w+):", read("crates.txt"), re.M)
    return [it for it in names if (TOP / "crates" / it / "src/lib.rt").is_file()]


def sources(crate="*"):
    """The sources of a crate, or of all crates."""
    return sorted((TOP / "crates").glob(f"{crate}/src/**/*.rt"))


def copy_crates(folder, top=TOP):
    """Copies the crates and crates.txt, without what was built; what was built there stays."""
    for part in (folder / "crates").glob("*/*"):
        if part.is_dir() and part.name != "out":
            shutil.rmtree(part)
    how = {"ignore": shutil.ignore_patterns("out"), "dirs_exist_ok": True}
    shutil.copytree(top / "crates", folder / "crates", **how)
    shutil.copy(top / "crates.txt", folder)


def copy_with_program(folder, libraries, sources, top=TOP):
    """Copies the crates, with another program instead of stun_show; the folder of its crate.

    The program is these sources, each with its name in `src`. They are kept as texts, NAME.rt.txt,
    since `rt ci` proves each source that it finds, and these are only run.
    """
    copy_crates(folder, top)
    line, crates = " ".join(["stun_show:", *libraries]), folder / "crates.txt"
    crates.write_text(re.sub(r"^stun_show:.*$", line, crates.read_text(), flags=re.M))
    crate = folder / "crates/stun_show"
    shutil.rmtree(crate / "src")
    (crate / "src").mkdir()
    for source, name in sources.items():
        shutil.copy(source, crate / "src" / name)
    return crate


def texts(program):
    """The sources that a folder has as texts, each with its name in `src`."""
    return {it: it.stem for it in sorted(program.glob("*.rt.txt"))}


def loose(crate, program, mend=False):
    """The names of these sources that are not in the layout of `rt fmt`; with `mend` it formats them."""
    subprocess.run(["rt", "fmt"], cwd=crate, check=True, stdout=subprocess.DEVNULL)
    laid_out = {it: (crate / "src" / name).read_text() for it, name in texts(program).items()}
    found = [source for source, text in laid_out.items() if source.read_text() != text]
    for source in found if mend else []:
        source.write_text(laid_out[source])
    return [source.name for source in found]


def script(name):
    """The module of a script of the repository."""
    loader = importlib.machinery.SourceFileLoader(pathlib.PurePath(name).name, str(TOP / name))
    module = importlib.util.module_from_spec(importlib.util.spec_from_loader(loader.name, loader))
    loader.exec_module(module)
    return module


def kit():
    """The folder of the kit."""
    return str(pathlib.Path(ran("rt", "doc").stdout.strip()).parent)


@functools.cache
def kit_version():
    """What `rt version` prints: the name of the kit, and its logic."""
    return ran("rt", "version").stdout.strip()


def named_logic():
    """The logic that README.md names."""
    return (re.search(r"the logic ([0-9a-f]{16})", read("README.md")) or ["", ""])[1]


def kit_name():
    """The name of the kit."""
    return kit_version().partition(" ")[0]


def commit():
    """The hash of the commit that is checked out, or no name outside of a repository of Git."""
    return ran("git", "-c", "safe.directory=*", "rev-parse", "HEAD").stdout.strip() or "no commit"


def make_kit(folder, commands):
    """Makes a kit in a folder: links to the parts of the machine's, and these commands instead of its own, each
    with the lines of its script."""
    machines = pathlib.Path(kit()).resolve()
    own = {pathlib.PurePath(name) for name in commands}
    folders = {pathlib.PurePath("bin"), *(it.parent for it in own)}
    folders |= {it for name in folders for it in name.parents}
    for name in sorted(folders):
        (folder / name).mkdir(exist_ok=True)
        for part in (it.relative_to(machines) for it in (machines / name).iterdir()):
            if part not in own | folders:
                (folder / part).symlink_to(machines / part)
    # (rt finds its kit beside itself)
    for name in ("bin/rt", "bin/rtlib.py"):
        (folder / name).unlink()
        shutil.copy(machines / name, folder / name)
    for name, lines in commands.items():
        (folder / name).write_text("\n".join(["#!/bin/sh", *lines, ""]))
        (folder / name).chmod(0o755)


# What a kit for `rt try` has: there `rattle` only looks for reserved names, as `rt ci` does too, and takes
# as long as the rest.
FOR_TRIES = {"bin/rattle": ["exit 1"]}


@functools.cache
def kit_for_tries():
    """The folder of a kit for `rt try`."""
    room = tempfile.TemporaryDirectory(prefix="kit-")
    atexit.register(room.cleanup)
    make_kit(pathlib.Path(room.name), FOR_TRIES)
    return room.name


def tried(*words, folder, **variables):
    """Runs `rt try` in a crate."""
    return ran(f"{kit_for_tries()}/bin/rt", "try", *words, folder=folder, **variables)


def tested(crate):
    """Runs the tests of a crate, with no proof; all that was printed."""
    ended = tried("--test", folder=crate)
    return ended.stdout + ended.stderr


def results_of(said):
    """What is printed of each test that ran, by its name: `ok` if it passed."""
    return dict(re.findall(r"^test (\S+) \.\.\. (.*(?:\n    .*)*)", said, re.M))


def free():
    """Free memory in bytes, under the control group's limit too."""
    stated = pathlib.Path("/proc/meminfo").read_text()
    found = [1024 * int(re.search(r"MemAvailable:\s+(\d+)", stated)[1])]
    group = pathlib.Path("/sys/fs/cgroup")
    try:
        limit = (group / "memory.max").read_text().strip()
        if limit.isdigit():
            found.append(int(limit) - int((group / "memory.current").read_text()))
    except OSError:
        pass
    return min(found)


def version():
    """The version that CHANGELOG.md has at its top."""
    return re.search(r"^## (\d[\d.]*\d)", read("CHANGELOG.md"), re.M)[1]


def fail(why):
    """Ends a script that can try nothing."""
    print(why)
    sys.exit(end(0, 1))


def end(passed, failed):
    """Prints the last line of a script, and returns its exit status."""
    print(f"{passed} passed, {failed} failed", flush=True)
    return 0 if passed and not failed else 1


def counted(said, status, form=COUNT):
    """Returns how many passed and failed by the last count that a command printed. At least one failed
    if there is no count, if none passed, or if the exit status isn't 0."""
    found = form.findall(said)
    passed, failed = map(int, found[-1]) if found else (0, 1)
    return passed, failed or int(bool(status) or not passed)


def blank(piece):
    """Spaces instead of a text, or of a match, and its ends of lines."""
    return re.sub(r"[^\n]", " ", piece if isinstance(piece, str) else piece[0])


def blocks_of(lines):
    """The blocks of code in lines of Markdown: the word after the backquotes, the number of their
    line, and the lines of code. Instead of a line, None ends a text, and a block without an end."""
    at = 0
    while at < len(lines):
        fence, at = FENCE.match(lines[at] or ""), at + 1
        if fence:
            end, last = at, fence[1] + "```"
            while end < len(lines) and lines[end] is not None and not lines[end].startswith(last):
                end += 1
            yield Block(fence[2], at, lines[at:end], end < len(lines) and lines[end] is not None)
            at = end + 1


class Markdown:
    """A text, or its lines: the lines, of which those of the blocks of code are empty, and the blocks."""

    def __init__(self, text):
        lines = text.split("\n") if isinstance(text, str) else text
        self.whole, self.blocks = lines, [*blocks_of(lines)]
        ranges = (range(it.at - 1, it.at + len(it.code) + it.has_end) for it in self.blocks)
        self.inside = {*itertools.chain.from_iterable(ranges)}
        self.lines = ["" if at in self.inside else line or "" for at, line in enumerate(lines)]

    def rows(self):
        """The rows of the tables, but for their heads: the cells of each."""
        for line, below in zip(self.lines, [*self.lines[1:], ""]):
            if line.startswith("| ") and not below.startswith("|-"):
                yield cells(line)

    @functools.cached_property
    def places(self):
        """The names that a link may have after its #: of headings, and of anchors."""
        found = set(re.findall(r'<a id="([^"]+)"', "\n".join(self.whole)))
        for heading in filter(None, (re.match(r"#+ (.*)", line) for line in self.lines)):
            plain = re.sub(r"\[([^\]]*)\]\([^)]*\)", r"\1", heading[1]).replace("`", "")
            found.add(re.sub(r"[^\w\- ]", "", plain.lower()).replace(" ", "-"))
        return found

    def section(self, title):
        """The lines below the heading that begins so, up to the next one."""
        below = itertools.dropwhile(lambda line: not line.startswith(f"# {title}"), self.lines)
        return itertools.takewhile(lambda line: not line.startswith("# "), [*below][1:])


@functools.cache
def document(name):
    """The Markdown of a file of the repository."""
    return Markdown(read(name))


def cells(row):
    """The cells of a row of a table."""
    return row.removeprefix("| ").removesuffix(" |").split(" | ")
