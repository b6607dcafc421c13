"""What a check says of the functions that it doesn't prove: which goals are open, and what their proofs lack."""
import collections
import re

# A goal that no proof was found for: its file and line, what isn't shown, and its name.
OPEN = re.compile(r"^note: (src/\S+?):(\d+):\d+: it is not proved that (.*?) \(`([^`]+)`\)", re.M)
# What is wrong in a stored proof: whose it is, and the message up to the next one.
STORED = re.compile(
    r"^(?:\./)?proofs/(\S+)/(?:Answers|Invariants|Proof)\.antt:\d+:\d+: error: (.*(?:\n  .*)*)", re.M
)
# The goal that a stored answer is of.
OF_GOAL = re.compile(r"`([^`]+)`: ")
# A name that the proof cites is gone, so that its refusal shows nothing. (So has it `rt must-fail`.)
GONE = re.compile(r"has no field|is not in scope|has no `|was not admitted|that can be named from here")
# Numbers for which all that is known holds, and the goal doesn't.
COUNTEREXAMPLE = re.compile(r"All of that holds, and the goal fails, at ")
# The words for a clause of the contract, and how the names of such goals begin.
CLAUSE = "what the function ensures holds when it returns"
OF_CLAUSE = re.compile(r"returns(?![^-])")

# A function of a source: the paths that it may have, its file, and its first and last line.
Place = collections.namedtuple("Place", "paths file first last")
Goal = collections.namedtuple("Goal", "name kind is_clause is_stored")


class Said:
    """What a check of a copy said: a line of each function, the whole text, and where the functions are."""

    def __init__(self, lines, text, places=()):
        self.lines, self.text, self.places = lines, text, places

    def place_of(self, file, line):
        """The innermost function that has a line of a source."""
        inside = [it for it in self.places if it.file == file and it.first <= line <= it.last]
        return max(inside, key=lambda it: it.first, default=None)

    def stored_faults(self, has):
        """What is wrong in the stored proofs of the functions that `has` takes."""
        for folder, message in STORED.findall(self.text):
            path = folder.replace("+", "").split("/")
            if any(it.split("::")[1:] == path for it in filter(has, self.lines)):
                yield message

    def open_goals(self, has):
        """The goals that these functions leave open."""
        found = []
        for file, line, kind, name in OPEN.findall(self.text):
            place = self.place_of(file, int(line))
            if place and any(map(has, place.paths)):
                found.append(Goal(name, kind, kind == CLAUSE, False))
        for message in self.stored_faults(has):
            named = OF_GOAL.match(message)
            if named:
                found.append(Goal(named[1], "a stored answer", bool(OF_CLAUSE.match(named[1])), True))
        return found

    def lacks(self, has):
        """The first name that the stored proofs of these functions cite, and that is gone; None if there is none."""
        return next((it.split("\n")[0] for it in self.stored_faults(has) if GONE.search(it.split("\n")[0])), None)

    def refuted(self, has):
        """A clause whose stored answer fails with a counterexample, or None."""
        for message in self.stored_faults(has):
            named = OF_GOAL.match(message)
            if named and OF_CLAUSE.match(named[1]) and COUNTEREXAMPLE.search(message):
                return named[1]
        return None
