"""What is reported of an agent: each difference between what it is and what was reported before, once."""
from agent import LOST


class Reported:
    """What was reported of an agent, and the addresses of its candidates. A component of which nothing was is as
    if it were checking."""

    def __init__(self, agent):
        self.agent, self.role, self.statuses, self.losses = agent, agent.role, {}, set()
        self.addresses, self.found = [], []

    def has_room(self):
        return len(self.addresses) < self.agent.setup.pairs

    def own(self, address):
        """The address of a candidate that the agent signals; the word for it."""
        if not self.has_room():
            return self.agent.note("no-room-for-an-address", "full")
        if address in self.addresses:
            return self.agent.note("address-known", "in-use")
        self.addresses.append(address)
        return "added"

    def mapped(self, base, address):
        """The mapped address of a success response that counts (7.2.5.3.1)."""
        if address in self.addresses:
            self.agent.note("address-known")
        elif not self.has_room():
            self.agent.note("no-room-for-an-address")
        else:
            self.addresses.append(address)
            self.found.append((base, address))
            self.agent.note("address-discovered")

    def status(self, component):
        """The status of a component, with the base and the address of its selected pair."""
        its = self.agent.selected(component)
        return (self.agent.status(component), *((its.base.number, its.remote.address) if its else ()))

    def changes(self):
        """The differences, each as a list of a kind and its parts."""
        found = []
        if self.role != self.agent.role:
            self.role = self.agent.note("role-reported", self.agent.role)
            found.append(["role", self.role])
        for its in self.agent.checklist:
            route = its.base.number, its.remote.address
            if its.state == LOST and route not in self.losses:
                self.losses.add(self.agent.note("loss-reported", route))
                found.append(["lost", its.base.component, *route])
        for component in {it.component for it in self.agent.bases}:
            before, now = self.statuses.get(component, ("checking",)), self.status(component)
            if now != before:
                self.statuses[component] = now
                is_other = before[0] == now[0] == "connected"
                self.agent.note("other-pair-reported" if is_other else "status-reported")
                found.append(["selected", component, *now[1:]] if is_other else ["status", component, *now])
        found += [["discovered", *it] for it in self.found]
        self.found = []
        return found
