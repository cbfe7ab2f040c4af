"""`trace`: what a run changes in its grove, a line for each change, and how many there were."""
from domlogic.reading.limits import LAST_U64
from domlogic.reading.machine import Machine, run_lines


class Tally:
    """How many nodes were created, moved and removed."""

    def __init__(self):
        self.counts = {"created": 0, "moved": 0, "removed": 0}

    def tell(self, kind):
        self.counts[kind] = min(self.counts[kind] + 1, LAST_U64)

    def line(self):
        return ", ".join(f"{kind} {count}" for kind, count in self.counts.items())


class Tracer(Machine):
    """A machine that writes a line for each change of its grove, and tells it an observer.

    Terms are evaluated before and after a command on the grove, which sets no variable in them.
    """

    def __init__(self, *start):
        super().__init__(*start)
        self.changes, self.observer = [], Tally()

    def told(self, kind, what):
        """Writes the change that the step to come makes."""
        self.changes.append(f"{self.steps + 1} {kind} {what}")
        self.observer.tell(kind)

    def on_createNode(self, target, name):
        super().on_createNode(target, name)
        node = self.store[target[1]]
        self.told("created", f"#{node} %{self.grove.childlist[node]}")

    def on_appendChild(self, parent, node):
        self.moved(super().on_appendChild, parent, node)

    def on_insertBefore(self, parent, node, following):
        self.moved(super().on_insertBefore, parent, node, following)

    def moved(self, move, *terms):
        """Makes a move, also where it leaves the grove as it was, and writes it."""
        to, node, *following = self.values(terms)
        before = self.grove.parent.get(node)
        move(*terms)
        origin = "root" if before is None else f"#{before}"
        place = f" before #{following[0]}" if following and following[0] is not None else ""
        self.told("moved", f"#{node} from {origin} to #{to}{place}")

    def on_removeChild(self, parent, node):
        super().on_removeChild(parent, node)
        parent, node = self.values([parent, node])
        self.told("removed", f"#{node} from #{parent}")


def traced(theory, procedure, arguments, grove, fuel):
    """Returns the status and the lines of `trace`."""
    machine = Tracer(theory, procedure, arguments, grove)
    status, lines = run_lines(machine, procedure, fuel)
    return status, [*machine.changes, *lines, machine.observer.line()]
