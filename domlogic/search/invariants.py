"""Invariants of loops, guessed: what stands before a loop and behind its block is joined until it
stays.

The cases before the block and those behind it are taken together where the variables that the loop
sets say the same of them: null or a node, yes or no. What comes of it is a guess, which holds
where the block leads from it and the condition back to it.
"""
from typing import Callable, Iterator, NamedTuple

from domlogic.reading.nameless import condition_formula, modified
from domlogic.reading.sorts import walk
from domlogic.search.formulas import Formula, disjunction, free
from domlogic.search.heaps import Command, Opened, Variable
from domlogic.search.joins import Join
from domlogic.search.refusals import Fails
from domlogic.search.triples import Triples

ROUNDS = 4  # joins of one way
SETTING = (":=", "item", "createNode", "nodeName", "childNodes", "parentNode")

# From an assertion the triple of the loop's block.
RunBlock = Callable[[Formula], int]


class Way(NamedTuple):
    """How a guess is made: whether the first state stays as it is, and whether cases are joined."""

    is_first_apart: bool
    is_joined: bool


# The least to write comes first; the last one is for loops of few states.
WAYS = (Way(False, True), Way(True, True), Way(True, False))


def read_first(command: Command, is_set: frozenset[Variable] = frozenset()) -> set[Variable]:
    """The variables that the command may read before it sets them."""
    head, *parts = command
    if head == "block":
        found: set[Variable] = set()
        for it in parts:
            found |= read_first(it, is_set)
            is_set |= surely_set(it)
        return found
    if head in ("if", "while"):
        inner = [read_first(it, is_set) for it in parts[1:]]
        return set(free(parts[0])).union(*inner) - is_set
    if head == "local":
        return read_first(parts[2], is_set) - {parts[0]}
    read = parts[2:] if head == "call" else parts if head not in SETTING else parts[1:]
    return set(free(("read", *read))) - is_set


def surely_set(command: Command) -> set[Variable]:
    """The variables that the command sets on each way through it."""
    head, *parts = command
    if head == "block":
        return set().union(*map(surely_set, parts))
    if head == "if":
        return surely_set(parts[1]) & surely_set(parts[2])
    if head == "local":
        return surely_set(parts[2]) - {parts[0]}
    return set() if head == "while" else set(modified(command))


class Invariants:
    """The guesses for one loop from what stands before it."""

    def __init__(self, triples: Triples, command: Command, pre: Formula, sort: str):
        self.triples, self.heaps, self.book = triples, triples.heaps, triples.book
        self.test, block = condition_formula(command[1]), command[2]
        self.pre, self.sort = pre, sort
        self.first = self.heaps.of(pre, sort).cases
        self.live = free(self.test) | read_first(block)
        self.told_apart = sorted(it for it in modified(block) & self.live
                                 if self.book.sort_of(it) in ("node", "bool"))

    def found(self, way: Way, once: int, run_block: RunBlock) -> tuple[int, int] | None:
        """(the step that the state before the loop entails the invariant, the triple of the block
        that keeps it), or None. `once` is the triple of the block from the first state."""
        kept, cases = (self.first, []) if way.is_first_apart else ([], self.first)
        merged = self.merged if way.is_joined else list
        cases = merged([*cases, *self.behind(once)])
        for _ in range(ROUNDS):
            invariant = disjunction([it.formula for it in (*kept, *cases)])
            try:
                start = self.triples.matching.prove(self.pre, invariant, self.sort)
                number = run_block(("and", invariant, self.test))
            except Fails:
                return None
            try:
                return start, self.triples.weaker_to(number, invariant)
            except Fails:
                cases = merged([*cases, *self.new_cases(number, invariant)])
        return None

    def behind(self, number: int) -> list[Opened]:
        """The cases behind a triple."""
        return self.heaps.of(self.triples.post(number), self.sort).cases

    def new_cases(self, number: int, invariant: Formula) -> list[Opened]:
        """The cases behind a triple that the invariant doesn't have yet."""
        tried = self.triples.matching.tried
        return [it for it in self.behind(number)
                if tried(it.case.formula, invariant, self.sort) is None]

    def merged(self, cases: list[Opened]) -> list[Opened]:
        """The cases, those joined of which the variables of the loop say the same."""
        groups: dict[tuple, Opened] = {}
        for it in cases:
            key, hints = self.key(it), list(self.hints())
            if key in groups:
                it = Join(self.heaps, groups[key], it, self.live).whole(hints)
            groups[key] = it
        return list(groups.values())

    def key(self, opened: Opened) -> tuple:
        """What is known of the variables that the loop sets."""
        known = self.heaps.known(opened.case)

        def says(variable: Formula) -> tuple[bool, bool]:
            is_node = self.book.sort_of(variable) == "node"
            fact = ("=", variable, ("null",) if is_node else ("yes",))
            return known.prove(fact) is not None, known.prove(("not", fact)) is not None

        return tuple(map(says, self.told_apart))

    def hints(self) -> Iterator[Formula]:
        """Gives facts that a loop with this condition may keep."""
        for part in walk(self.test):
            if part[0] in ("=", "<=") and self.book.term_sort(part[1]) == "int":
                one, other = part[1:]
                yield from (("<=", one, other), ("<=", other, one))
                yield ("<=", one, ("+", other, ("int", 1)))
