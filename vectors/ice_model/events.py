"""The words of a call of vectors/ice-agent: which event each is, and the word of what the agent does."""
import operator
from fractions import Fraction

from agent import S, TYPES, Agent, Base, Check, Remote, Setup, candidate_priority
from reported import Reported


def endpoint(word):
    address, port = word.split(":")
    return bytes.fromhex(address), int(port)


def spelled(address):
    return f"{address[0].hex()}:{address[1]}"


def priority(word, component):
    """A number, or the formula's for a type and a local preference."""
    kind, is_formula, preference = word.partition("-")
    return candidate_priority(TYPES[kind], int(preference), component) if is_formula else int(word)


def moment(nanoseconds):
    """A moment in seconds, with nine decimals at most."""
    whole, part = divmod(nanoseconds, S)
    return f"{whole}.{part:09}".rstrip("0").rstrip(".")


def on_base(agent, words):
    number, component, family, foundation, its, *local = next(words).split(":")
    numbers = int(number), int(component), int(family), int(foundation)
    return agent.add_base(Base(*numbers, priority(its, int(component)), local == ["link-local"]))


def on_remote(agent, words):
    address, port, component, foundation, its = next(words).split(":")
    place = bytes.fromhex(address), int(port)
    return agent.add_remote(Remote(place, int(component), int(foundation), priority(its, int(component))))


def on_peer(agent, _words):
    agent.knows_peer = True


def on_end(agent, _words):
    agent.has_ended = True


def on_check(agent, words):
    base, source = int(next(words)), endpoint(next(words))
    identity, role, tiebreaker, its, *use = next(words).split(":")
    check = Check(int(identity), role, int(tiebreaker), int(its), use == ["use"])
    code = agent.check(base, source, check)
    return {None: "dropped", 0: "ok"}.get(code, str(code))


def on_respond(agent, words):
    base, source = int(next(words)), endpoint(next(words))
    identity, code, *more = next(words).split(":")
    counts = agent.respond(base, source, int(identity), 0 if code == "ok" else int(code), int(more[0]) if len(more) == 1 else 0)
    if counts and len(more) == 2:
        agent.reported.mapped(base, endpoint(":".join(more)))
    return "counted" if counts else "ignored"


def on_stray(agent, words):
    # (the response goes to where the message came from, whichever that is)
    next(words), next(words)
    size, code = next(words).split(":")
    found = agent.stray(int(size), None if code == "-" else int(code))
    return "dropped" if found is None else str(found)


def on_data(agent, words):
    component = agent.receive(int(next(words)), endpoint(next(words)))
    return "dropped" if component is None else f"data:{component}"


def on_send(agent, words):
    route = agent.send(int(next(words)))
    return f"to:{route[0]}:{spelled(route[1])}" if route else "dropped"


def on_poll(agent, words):
    asked = agent.poll(int(next(words)))
    if not asked:
        return "idle"
    use = ":use" if asked.nominates else ""
    return f"ask:{asked.base}:{spelled(asked.to)}:{asked.role}:{asked.tiebreaker}:{asked.priority}{use}"


def on_pair(agent, words):
    its = agent.find(int(next(words)), endpoint(next(words)))
    if not its:
        return "none"
    return its.state + ":triggered" * its.queued + ":nominated" * its.nominated


def on_pairs(agent, _words):
    return f"pairs:{len(agent.checklist)}"


def on_role(agent, _words):
    return agent.role


def on_status(agent, words):
    component = int(next(words))
    return f"status:{agent.status(component)}"


def on_own(agent, words):
    return agent.reported.own(endpoint(next(words)))


def on_changes(agent, _words):
    parts = ([spelled(it) if isinstance(it, tuple) else str(it) for it in change] for change in agent.reported.changes())
    return "changes:" + (",".join(sorted(":".join(it) for it in parts)) or "-")


def on_wake(agent, _words):
    wake = agent.wake()
    return "wake:never" if wake is None else f"wake:{moment(wake)}"


EVENTS = {
    "base": on_base, "remote": on_remote, "peer": on_peer, "end": on_end, "check": on_check,
    "respond": on_respond, "stray": on_stray, "data": on_data, "send": on_send, "poll": on_poll,
    "pair": on_pair, "pairs": on_pairs, "role": on_role, "status": on_status, "wake": on_wake, "own": on_own,
    "changes": on_changes,
}


def begun(setup):
    """An agent with this setup, of which nothing was reported."""
    agent = Agent(Setup.read(setup))
    agent.reported = Reported(agent)
    return agent


def steps(agent, words):
    """The events of a call: how many of its words are read up to there, and the word of its answer, or None."""
    left = iter(words)
    for word in left:
        if word == "at":
            agent.at(int(Fraction(next(left)) * S))
        else:
            agent.begin()
            output = EVENTS[word](agent, left)
            yield len(words) - operator.length_hint(left), output


def answered(call):
    """The answer to a call, and the rules that decided its events."""
    verb, setup, *words = call.split()
    if verb != "agent":
        return "?", []
    agent = begun(setup)
    return " ".join(word for _, word in steps(agent, words) if word) or "-", agent.fired


class Recorded:
    """An agent of the model, with the words of the call that has its events so far, and of its answer."""

    def __init__(self, setup):
        self.agent, self.words, self.answers, self.clock = begun(setup), ["agent", setup], [], 0

    def does(self, now, event):
        """The word of an event at a moment, or None."""
        words = event.split()
        if now != self.clock:
            self.clock = now
            self.words += ["at", moment(now)]
            self.agent.at(now)
        self.words += words
        self.agent.begin()
        output = EVENTS[words[0]](self.agent, iter(words[1:]))
        if output:
            self.answers.append(output)
        return output

    def call(self):
        return " ".join(self.words)
