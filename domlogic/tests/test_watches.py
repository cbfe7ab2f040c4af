"""Random runs, watched and traced, against meanings and replays: each wrong reading is found."""
from domlogic.reading.traces import Tally, Tracer
from domlogic.reading.watching import Span, Watcher
from domlogic.tests.random_watches import complaint

CASES = 300


def cut_within(span: Span):
    """Each cut but that before the first."""
    return ((span._replace(last=at), span._replace(first=at))
            for at in range(span.first + 1, span.last + 1))


def first_root(self, root, others, span, found):
    """The first root alone is tried."""
    return span.size() > 0 and self.meets(root, Span(span.row, span.first, span.first + 1), found) \
        and self.meets(others, span.without(span.first), found)


def kept_before(span: Span, at: int) -> Span:
    """The roots after a root, without those before it."""
    return span._replace(first=at + 1)


def lists_for_numbers(self, node: int) -> list:
    """The list number in place of the node's number."""
    return [self.grove.name[node], self.grove.childlist[node], self.grove.childlist[node]]


def moved_from_nowhere(self, move, *terms) -> None:
    """A move that always comes from the roots."""
    to, node, *_ = self.values(terms)
    move(*terms)
    self.told("moved", f"#{node} from root to #{to}")


def moved_to_the_end(self, move, *terms) -> None:
    """A move that is told without the child before which it goes."""
    to, node, *_ = self.values(terms)
    before = self.grove.parent.get(node)
    move(*terms)
    origin = "root" if before is None else f"#{before}"
    self.told("moved", f"#{node} from {origin} to #{to}")


# What is put in place of which function.
WRONG = [(Span, "cuts", cut_within), (Span, "without", kept_before),
         (Watcher, "has_root", first_root), (Watcher, "at_node", lists_for_numbers),
         (Tracer, "moved", moved_from_nowhere), (Tracer, "moved", moved_to_the_end),
         (Tally, "tell", lambda self, kind: None)]


def test_runs() -> None:
    for number in range(100):
        wrong = complaint(f"runs {number}", None)
        assert wrong is None, wrong


def test_wrong_readings_are_found() -> None:
    for owner, name, wrong in WRONG:
        right = getattr(owner, name)
        setattr(owner, name, wrong)
        try:
            assert any(complaint(f"wrong {at}", None) for at in range(CASES)), (owner, name)
        finally:
            setattr(owner, name, right)
