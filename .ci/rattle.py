"""Reads crates in the layout of `rt fmt`: the public items, their members and docs, and what is exported.

An item begins at the left edge, a member of one four spaces to the right.
"""
import collections
import functools
import itertools
import re

from common import TOP, Markdown, crates, fail, sources

# The crates that a user lists, each with what it has.
PUBLIC = [
    "stun_types", "stun_framing", "stun_transactions", "stun_authentication", "stun_server",
    "ice_attrs", "ice_candidates", "ice_checks", "ice_agent", "turn_attrs", "turn_requests", "turn_client", "turn_client_state", "turn_client_messages", "stun_endpoints", "turn_peers", "turn_allocations", "turn_server",
    "discovery_attrs",
    "stun_plain_text",
]
DOC = re.compile(r"\s*//[/!](?: (.*)|)$")
ITEM = re.compile(r"pub (?:(?:final|const|unsafe) )?(struct|enum|trait|fn|const|static|type) (\w+)")
OTHER_ITEM = re.compile(r"(macro)_rules! (\w+)|(impl)\b")
MEMBER = re.compile(r"    (?:pub )?(?:final )?(fn|const|type) (\w+)")
PART = re.compile(r"    (?:pub )?(\w+)(?::|\(|,| \{|$)")
DEFINITION = re.compile(r"\[`[^\]]*`\]: ")
# What is above an item: its doc and its attributes.
ABOVE = re.compile(r"\s*(?:///|#\[|[\w:, ;<>']*\)\])")
# The last line of a head: not a clause whose braces begin there.
HEAD_ENDS = re.compile(r"(?!\s*(?:requires|ensures)\b.*\{$).*(?:;|\{\}|(?<![=→] )\{)$")
DEMAND = re.compile(r"requires (?:\w+ )?\{ ?(.*?) ?\}$")
# What a summary leaves out: asides, and what is added to a sentence, but for when a result is `None`.
NOT_IN_CODE = r"(?=(?:[^`]*`[^`]*`)*[^`]*$)"
ASIDE = re.compile(rf" \([^()]*\){NOT_IN_CODE}")
ADDED = r"[:;]|, (?:which|whose)(?= [^,]*$)|, (?:so that|so|since|as in|for a caller that|for the caller to)"
ADDED += r"|, as(?= `[^`]*` (?!does|do)\w+s\b)"
ADDED = re.compile(rf"(?:{ADDED}) {NOT_IN_CODE}")
NOTHING = re.compile(r"[,;] (?:and |or )?`None` .*")
# The clauses of the sections on errors and requirements, and what is left out of them.
COLON, CLAUSE = re.compile(f": {NOT_IN_CODE}"), re.compile(f"[.;] {NOT_IN_CODE}")
RFC = re.compile(r" \((?:RFC \d+|section)[^()]*\)")
OF_ERRORS = re.compile(r"`[A-Z]\w+\b(?!::)|^(?:As|Only|Those|That)\b|\berrors of|^Each impl|`fmt::Error`")
BY_ALLOC = r"(?:,? and |^)(?:Only )?(?:`OutOfMemory`(?: alone)?,?|Only)(?: if an allocation failed)?$"
FIELDS = re.compile(r"(?<=\w) \{ (?:\w+: )?\w+(?:, \w+)* \}")
TESTED = re.compile(r",(?: which| as) [^,]* tests?\b|, which may be 0|, as [^,]* is of [^,]*")
Entry = collections.namedtuple("Entry", "item modules parts traits")


def doc_lines(text):
    """The lines of a source: what `///` or `//!` precedes, and None for each other line."""
    return [it and (it[1] or "") for it in map(DOC.match, text.split("\n"))]


def links_gone(text):
    """A text with the names of its links alone."""
    return re.sub(r"\[(`[^`]*`)\](?:\([^)]*\))?", r"\1", text)


def shortened(sentence):
    """A sentence without asides and without what is added to it, unless that is at its start."""
    text = ASIDE.sub("", sentence)
    added = next((it.start() for it in ADDED.finditer(text) if text.count(" ", 0, it.start()) > 2), None)
    if not added:
        return text
    nothing = NOTHING.search(text, added)
    return text[:added] + (nothing[0] if nothing else ".")


def base(text):
    """The name of a type without its arguments and its path."""
    return re.sub(r"^&(?:'\w+ )?", "", re.split(r"[<\s]", text)[0]).split("::")[-1]


def outside(text):
    """The text after the generics that it begins with."""
    depth = 0
    for at, sign in enumerate(text):
        depth += (sign == "<") - (sign == ">" and text[at - 1] not in "-=")
        if not depth:
            return text[at + (sign == ">") :].strip()
    return text


class Item:
    """An item or a member of one: its doc, its signature, what it requires, its body, and its file."""

    def __init__(self, path, lines, at, kind, name):
        self.path, self.kind, self.name = path, kind, name
        above = [*itertools.takewhile(ABOVE.match, reversed(lines[:at]))][::-1]
        self.doc = Markdown([it for it in doc_lines("\n".join(above)) if it is not None])
        traits = re.findall(r"#\[derive(?:_where)?\(([^;)]*)", " ".join(above))
        words = (word.strip() for its in traits if its.strip() != "skip" for word in its.split(","))
        self.derives = [word.split("::")[-1] for word in words if word]
        end = next((it for it in range(at, len(lines)) if HEAD_ENDS.match(lines[it])), at)
        head = " ".join(it.strip() for it in lines[at : end + 1] if not it.strip().startswith("//"))
        text, *clauses = re.split(r" (?=(?:requires|ensures)\b)", re.sub(r"\s*(\{\}?|;)$", "", head))
        text = re.sub(r",\s*([)>])", r"\1", text.replace("( ", "(")).replace("< ", "<")
        self.signature = text.removeprefix("pub ").removesuffix(",")
        self.clauses = [DEMAND.sub(r"\1", it) for it in clauses if it.startswith("requires")]
        edge = re.match(" *", lines[at])[0] + "}"
        body = itertools.takewhile(lambda line: not line.startswith(edge), lines[end + 1 :])
        self.body = [*body] if lines[end].endswith("{") else []

    def sentence(self):
        """The first sentence of the doc."""
        lines = itertools.takewhile(lambda it: not re.match(r"$|#|```|- ", it), self.doc.whole)
        whole = " ".join(line.strip() for line in lines)
        found = re.match(r"(.*?\.)(?=\s|$)", whole)
        return links_gone(found[1] if found else whole)

    def section(self, title):
        """The text of a section of the doc, without code and the definitions of links."""
        lines = (it for it in self.doc.section(title) if it and not DEFINITION.match(it))
        return links_gone(" ".join(it.strip().removeprefix("- ") for it in lines))

    def summary(self):
        """The first sentence, shortened."""
        return shortened(re.sub(r"^Returns (\w)", lambda it: it[1].upper(), self.sentence()))

    def clauses_of(self, title):
        """The clauses of a section."""
        text = RFC.sub("", self.section(title)).removesuffix(".")
        return CLAUSE.split(text) if text else []

    def errors(self):
        """The errors that a call returns, each with its reason, but for `OutOfMemory` of one with `alloc`."""
        found = []
        for clause in self.clauses_of("Errors"):
            text = next(filter(OF_ERRORS.search, COLON.split(clause)), "")
            text = re.sub(BY_ALLOC, "", text) if "alloc: " in self.signature else text
            found += [FIELDS.sub("", text[0].lower() + text[1:])] if text else []
        return "; ".join(found)

    def requirement(self):
        """What a call requires."""
        found = (COLON.split(TESTED.sub("", it))[0] for it in self.clauses_of("Require"))
        found = [it for it in found if not re.match("(?:An?|One) ", it)]
        return "; ".join(found) or " and ".join(f"`{clause}`" for clause in self.clauses)

    def is_law(self):
        """Whether it is a function that does nothing, whose contract is a law or a fact."""
        is_alone = re.fullmatch(r"fn \w+(?:<.*>)?\(\)", self.signature)
        return self.kind == "fn" and bool(is_alone or self.path.name.endswith("laws.rt"))

    def members(self):
        """The functions and constants of a block: of a trait all, of an `impl` the public ones."""
        for at, line in enumerate(self.body):
            found = MEMBER.match(line)
            if found and (line.startswith("    pub ") or self.kind == "trait"):
                yield Item(self.path, self.body, at, *found.groups())

    def parts(self):
        """The variants of an enum, the public fields of a struct, and the members of a trait."""
        if self.kind == "trait":
            yield from self.members()
        for at, line in enumerate(self.body if self.kind in ("struct", "enum") else []):
            found = PART.match(line)
            if found and (self.kind == "enum" or line.startswith("    pub ")):
                end = at
                if line.endswith(("{", "(")):
                    after = range(at + 1, len(self.body))
                    end = next(it for it in after if re.match(r"    [})]", self.body[it]))
                lines = (it.strip() for it in self.body[at : end + 1] if not DOC.match(it))
                text = " ".join(lines).removeprefix("pub ").rstrip(",").replace("( ", "(")
                part = Item(self.path, self.body, at, "part", found[1])
                part.signature = re.sub(r"\s+", " ", text).replace(", }", " }").replace(",)", ")")
                yield part


@functools.cache
def items_of(crate):
    """The public items of a crate, its macros and what it implements."""
    found = []
    for path in sources(crate):
        lines = path.read_text().split("\n")
        for at, line in enumerate(lines):
            if head := ITEM.match(line) or OTHER_ITEM.match(line):
                kind, *name = filter(None, head.groups())
                found.append(Item(path, lines, at, kind, *(name or [""])))
    return found


def implemented(it):
    """The trait of an `impl`, or nothing, and the type."""
    text = outside(it.signature.removeprefix("impl").strip()).split(" where ")[0].strip()
    trait, is_of_trait, name = text.partition(" for ")
    return (trait.strip(), name) if is_of_trait else ("", text)


def items_below(crate):
    """Of a crate and those that it depends on: the items by name and crate, and by the name of a type and
    its crate its public members and its traits.

    An `impl` for a type that is none of these crates', as `From<DataSlice<'a>> for &'a [u8]`, is by
    the name of the type that its trait is of.
    """
    below = [crate, *(it for it in crates()[crate] if it in crates())]
    every, items, members, traits = [(name, it) for name in below for it in items_of(name)], {}, {}, {}
    for name, it in every:
        if it.kind != "impl":
            items.setdefault(it.name, {}).setdefault(name, it)
    for owner, it in ((owner, it) for owner, it in every if it.kind == "impl"):
        trait, name = implemented(it)
        of = re.match(r"\w+<(.*)>$", trait)
        if trait and of and base(name) not in items:
            trait, name = f"{trait} for {name}", of[1]
        its = items.get(base(name), {})
        place = (base(name), owner if owner in its else next(iter(its), None))
        if trait:
            traits.setdefault(place, []).append(trait)
        else:
            members.setdefault(place, []).extend(it.members())
    return items, members, traits


def exports(crate):
    """The public names of a crate: each with its modules and the crate that it is taken from."""
    found, waiting = {}, [(TOP / "crates" / crate / "src/lib.rt", "")]
    for file, module in waiting:
        text = re.sub(r"^\s*//.*$", "", file.read_text(), flags=re.M)
        # (what is hidden is public for the other crates of the repository alone)
        text = text.replace("#[doc(hidden)]\npub ", "")
        names = [(it, "", crate) for it in re.findall(r"^#\[macro_export\]\nmacro_rules! (\w+)", text, re.M)]
        # (a private module exports its macros alone)
        uses = re.findall(r"^pub use ([\w:]+?)::(\w+|\{[^}]*\});", text, re.M) if module is not None else []
        for path, its in uses:
            owner = path.split("::")[0]
            names += [(it, module, owner if owner in crates() else crate) for it in re.findall(r"\w+", its)]
        if module is not None:
            names += [(it[2], module, crate) for it in re.finditer(rf"^{ITEM.pattern}", text, re.M)]
        for name, place, owner in names:
            found.setdefault(name, ([], owner))[0].append(place)
        folder = file.parent if file.name == "lib.rt" else file.with_suffix("")
        for is_public, name in re.findall(r"^(pub )?mod (\w+);", text, re.M):
            its = f"{module}::{name}" if is_public and module is not None else None
            waiting.append((folder / f"{name}.rt", its))
    return found


@functools.cache
def entries(crate):
    """The public items of a crate, but for laws, each with its modules, the nearest first, and members."""
    items, members, traits = items_below(crate)
    found = []
    for name, (modules, owner) in exports(crate).items():
        if name not in items:
            fail(f"{crate}::{name}: no public item of this name was found")
        place = (name, owner if owner in items[name] else next(iter(items[name])))
        it = items[name][place[1]]
        modules = sorted({*modules}, key=lambda it: (it.count("::"), it == "::prelude", it))
        parts = [*it.parts(), *members.get(place, [])]
        found.append(Entry(it, modules, parts, {*it.derives, *traits.get(place, [])}))
    return sorted((it for it in found if not it.item.is_law()), key=lambda it: it.item.name.lower())


@functools.cache
def words_of_errors(crate):
    """The words of all sections on errors of a crate."""
    its = (it for each in entries(crate) for it in [each.item, *each.parts])
    return set(re.findall(r"\w+", " ".join(it.section("Errors") for it in its)))
