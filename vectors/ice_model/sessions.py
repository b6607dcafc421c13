"""A session that restarts (RFC 8445, 9): an agent for each pair of credentials that may still be used.

A restart makes an agent of the next generation, with new credentials of both sides and the role of the one
before it. Data goes by the pairs of an earlier generation until the latest has selected its own, so there are two
agents at most. What an agent does with an event is in `agent.py`.
"""
from dataclasses import replace
from fractions import Fraction

from agent import S, Agent, Setup
from events import EVENTS, moment
from reported import Reported

# Each rule that decides an event of a session, with its section; those of CHOICES the RFC leaves to an agent.
RULES = {
    "restarts": "9", "role-is-kept": "9", "goes-by-older-pair": "9", "goes-by-newer-pair": "9", "older-is-flushed": "9",
    "is-for-older": "7.3", "is-for-newer": "7.3", "login-of-no-agent": "7.3", "older-awaits": "7.2.5", "newer-awaits": "7.2.5",
    "none-awaits": "7.2.5", "older-hears": "12.2", "newer-hears": "12.2", "older-keeps-consent": ":5.1",
}
CHOICES = {
    "restarts-again": "9", "older-has-no-pair": "9", "component-goes-by-older": "9", "newer-asks-first": "14.2",
    "older-wakes": "14.2", "newer-wakes": "14.2", "unfit": "7.3",
}
# How many words follow an event; and the rules by which the newer agent or the older one decides what both take.
WORDS = {
    "base": 1, "remote": 1, "own": 1, "check": 3, "respond": 3, "stray": 3, "data": 2, "unfit": 2, "send": 1, "poll": 1,
    "pair": 2, "status": 1, "restart": 1,
}
FIRST = {"data": ("newer-hears", "older-hears"), "send": ("goes-by-newer-pair", "goes-by-older-pair")}


class Session:
    """The agents by their generation: the least one's pairs carry data, and the greatest is that of the latest
    restart."""

    def __init__(self, setup):
        self.setup, self.clock, self.fired, self.agents = setup, 0, [], {}
        self.add(0, setup.role, setup.tiebreaker)

    def add(self, generation, role, tiebreaker):
        its = Agent(replace(self.setup, role=role, tiebreaker=tiebreaker))
        its.reported = Reported(its)
        self.agents[generation] = its

    def note(self, rule, output=None):
        assert rule in RULES or rule in CHOICES, rule
        self.fired.append(rule)
        return output

    def newest(self):
        return max(self.agents)

    def newer(self):
        return self.agents[max(self.agents)]

    def older(self):
        """The agent before the restart, if it is there."""
        return self.agents[min(self.agents)] if len(self.agents) > 1 else None

    def begun(self, its):
        """An agent, at this moment."""
        its.at(self.clock)
        its.begin()
        return its

    def restart(self, tiebreaker):
        last, role = self.newest(), self.newer().role
        if role != self.setup.role:
            self.note("role-is-kept")
        if self.older():
            self.note("restarts-again")
            del self.agents[last]
        self.note("restarts")
        self.add(last + 1, role, tiebreaker)

    def flush(self):
        """Ends the older agent, if no component needs it any more."""
        older = self.older()
        if not older:
            return
        used = {it.component for it in older.bases if older.selected(it.component)}
        left = [it for it in used if not self.newer().selected(it)]
        if used and len(left) < len(used) and left:
            self.note("component-goes-by-older")
        if not left:
            self.note("older-is-flushed" if used else "older-has-no-pair")
            del self.agents[min(self.agents)]

    # messages

    def request(self, event, words, generation):
        """The word for a request of the peer; one with the credentials of no agent is no check of the latest one."""
        if generation not in self.agents:
            self.begun(self.newer())
            return self.note("login-of-no-agent", "401")
        if len(self.agents) > 1:
            self.note("is-for-newer" if generation == self.newest() else "is-for-older")
        its = self.begun(self.agents[generation])
        return self.note("unfit", "400") if event == "unfit" else EVENTS[event](its, words)

    def respond(self, words, generation):
        """A response by the peer's password of a generation: the agent takes it, if it waits for it."""
        left, its = [*words], self.agents.get(generation)
        identity = int(left[2].split(":")[0])
        if not its or all(it.identity != identity for it in its.transactions):
            self.begun(self.newer())
            return self.note("none-awaits")
        if len(self.agents) > 1:
            self.note("newer-awaits" if generation == self.newest() else "older-awaits")
        EVENTS["respond"](self.begun(its), iter(left))
        return None

    # what both take

    def both(self, event, words, rules):
        """The word of the newer agent, or else that of the older one, with the rule for either."""
        left, agents = [*words], [it for it in (self.newer(), self.older()) if it]
        answers = [EVENTS[event](self.begun(it), iter(left)) for it in agents]
        found = [(rule, word) for rule, word in zip(rules, answers) if word != "dropped"]
        if not found:
            return "dropped"
        return self.note(*found[0]) if len(answers) > 1 else answers[0]

    def poll(self, words):
        """The newer agent's request, or else that of the older one, which may have ended before."""
        self.flush()
        left = [*words]
        word = EVENTS["poll"](self.begun(self.newer()), iter(left))
        if not self.older():
            return spelled(self.newest(), word)
        if word != "idle":
            return self.note("newer-asks-first", spelled(self.newest(), word))
        word = EVENTS["poll"](self.begun(self.older()), iter(left))
        return word if word == "idle" else self.note("older-keeps-consent", spelled(min(self.agents), word))

    def wake(self):
        wakes = {it: self.begun(its).wake() for it, its in self.agents.items()}
        moments = {it: at for it, at in wakes.items() if at is not None}
        if not moments:
            return "wake:never"
        first = min(moments, key=lambda it: (moments[it], -it))
        if len(self.agents) > 1:
            self.note("newer-wakes" if first == self.newest() else "older-wakes")
        return f"wake:{moment(moments[first])}"

    def does(self, event, words, generation, is_of_older):
        """The word of an event, or None. The peer's messages have the credentials of this generation."""
        if is_of_older:
            return EVENTS[event](self.begun(self.older()), words) if self.older() else "none"
        if event == "restart":
            return self.restart(int(next(words)))
        if event in ("check", "unfit"):
            return self.request(event, words, generation)
        if event == "respond":
            return self.respond(words, generation)
        if event in FIRST:
            return self.both(event, words, FIRST[event])
        own = {"agents": lambda _: f"agents:{len(self.agents)}", "poll": self.poll, "wake": lambda _: self.wake()}
        return own[event](words) if event in own else EVENTS[event](self.begun(self.newer()), words)


def spelled(generation, word):
    """The word for a request, with the generation of its credentials."""
    return f"of-{generation}:{word}" if generation and word != "idle" else word


def answered(call):
    """The answer to a call, and the rules that decided its events."""
    _verb, setup, *rest = call.split()
    session, words, found = Session(Setup.read(setup)), iter(rest), []
    for event in words:
        if event == "at":
            session.clock = int(Fraction(next(words)) * S)
            continue
        generation, is_of_older = session.newest(), event == "older"
        if event == "of":
            generation = int(next(words))
        if event in ("of", "older"):
            event = next(words)
        left = [next(words) for _ in range(WORDS.get(event, 0))]
        word = session.does(event, iter(left), generation, is_of_older)
        found += [word] if word else []
    of_agents = [rule for its in session.agents.values() for rule in its.fired]
    return " ".join(found) or "-", [*session.fired, *of_agents]
