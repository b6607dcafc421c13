"""A lite ICE agent as RFC 8445 describes it: the answers to the calls of vectors/ice-lite.

It keeps what has happened, and works each answer out of that. It shares no code with the library.
"""
from fractions import Fraction

from agent import CONSENT, ERROR_SIZE, S
from events import endpoint, spelled

# Each rule that decides an event, with its section (of RFC 7675 after a colon, from memory).
RULES = {
    "lite-accepts": "7.3", "lite-487": "6.1.1", "lite-selects": "7.3.2", "lite-renews": ":5.1",
    "lite-sends": "12.1.1", "lite-unselected": "12.1.1", "lite-takes": "12.2",
}
# What the RFC leaves to an agent, or has otherwise: as the library's documentation says.
CHOICES = {
    "lite-latest-nomination": "8.2", "lite-silence": ":5.1", "lite-data-of-stranger": "12.2",
    "lite-unknown-base": "7.3", "lite-refused": "7.3", "lite-too-short": "7.3", "lite-clock-back": "-",
}


class LiteAgent:
    """Its bases, and the accepted checks, the newest last: (moment, base, source, nominates)."""

    def __init__(self, word):
        parts = [] if word == "-" else [it.split(":") for it in word.split(",")]
        self.components = {}
        for number, component in parts:
            self.components.setdefault(int(number), int(component))
        self.now, self.heard, self.fired = 0, [], []

    def note(self, rule, output=None):
        assert rule in RULES or rule in CHOICES, rule
        self.fired.append(rule)
        return output

    def at(self, moment):
        if moment < self.now:
            self.note("lite-clock-back")
        self.now = max(self.now, moment)

    def selected(self, component):
        """The base and the address of the pair that was nominated last, or None."""
        named = [it for it in self.heard if it[3] and self.components[it[1]] == component]
        return named[-1][1:3] if named else None

    def is_live(self, pair):
        """Whether a check came on the pair less than 30 seconds ago."""
        return any(it[1:3] == pair and self.now - it[0] < CONSENT for it in self.heard)

    def check(self, base, source, role, nominates):
        if base not in self.components:
            return self.note("lite-unknown-base", "dropped")
        if role == "controlled":
            return self.note("lite-487", "487")
        before = self.selected(self.components[base])
        if nominates:
            self.note("lite-selects" if before in (None, (base, source)) else "lite-latest-nomination")
        elif before == (base, source):
            self.note("lite-renews")
        self.heard.append((self.now, base, source, nominates))
        return self.note("lite-accepts", "ok")

    def stray(self, size, code):
        if code == "-":
            return "dropped"
        return self.note("lite-too-short", "dropped") if 3 * size < ERROR_SIZE else self.note("lite-refused", code)

    def receive(self, base, source):
        component = self.components.get(base)
        pair = (base, source)
        if component is None or self.selected(component) != pair:
            return self.note("lite-data-of-stranger", "dropped")
        return self.note("lite-takes", f"data:{component}") if self.is_live(pair) else self.note("lite-silence", "dropped")

    def send(self, component):
        pair = self.selected(component)
        if not pair:
            return self.note("lite-unselected", "dropped")
        if not self.is_live(pair):
            return self.note("lite-silence", "dropped")
        return self.note("lite-sends", f"to:{pair[0]}:{spelled(pair[1])}")


def output(agent, word, words):
    """The word of what an agent does with an event."""
    if word == "send":
        return agent.send(int(next(words)))
    base, source = int(next(words)), endpoint(next(words))
    if word == "data":
        return agent.receive(base, source)
    if word == "stray":
        size, code = next(words).split(":")
        return agent.stray(int(size), code)
    assert word == "check", word
    _, role, _, _, *use = next(words).split(":")
    return agent.check(base, source, role, use == ["use"])


def answered(call):
    """The answer to a call, and the rules that decided its events."""
    _, bases, *words = call.split()
    agent, left, outputs = LiteAgent(bases), iter(words), []
    for word in left:
        if word == "at":
            agent.at(int(Fraction(next(left)) * S))
        else:
            outputs.append(output(agent, word, left))
    return " ".join(outputs) or "-", agent.fired
