"""The canonical models of an assertion, for each of its cases that has no contradiction.

In the first, all that isn't equated differs, and what a variable of shapes stands for is larger
than anything that the right side can spell out. In each other one, two terms more are equal: they
are for negated equations. An exact entailment is true where these models meet its right side.
"""
import itertools
from random import Random
from typing import Any, Iterator, NamedTuple

from domlogic.tests.generating import Entailment
from domlogic.tests.models import Formula, Hole, Model, Term, Tree, Values

LITERALS = ("null", "nolist", "int", "str")


class Case(NamedTuple):
    """A shape without facts, quantifiers and choices, and its facts."""

    shape: Formula
    facts: list[Formula]


class Cases:
    """Takes an assertion apart; quantified variables are made new."""

    def __init__(self, sorts: dict[Term, str]):
        self.sorts, self.count = dict(sorts), 0

    def of(self, formula: Formula) -> list[Case]:
        """The cases of a formula."""
        head, *parts = formula
        if head == "or":
            return self.of(parts[0]) + self.of(parts[1])
        if head == "exists":
            self.count += 1
            new = ("logic", f"$new_{self.count}")
            self.sorts[new] = self.sorts[parts[0]]
            return self.of(renamed(parts[1], parts[0], new))
        if head == "false":
            return []
        if head in ("=", "not"):
            return [Case(("true",), [formula])]
        if head == "and":
            return [Case(self.both(one.shape, two.shape), one.facts + two.facts)
                    for one in self.of(parts[0]) for two in self.of(parts[1])]
        listed = [self.of(it) if is_shape(head, at) else [Case(it, [])]
                  for at, it in enumerate(parts, 1)]
        return [Case((head, *(it.shape for it in chosen)),
                     [fact for it in chosen for fact in it.facts])
                for chosen in itertools.product(*listed)]

    @staticmethod
    def both(one: Formula, two: Formula) -> Formula:
        """The shape of (P and Q), one of which is a fact."""
        return two if one == ("true",) else one


def is_shape(head: str, at: int) -> bool:
    """Says whether a shape, that is no context, stands at this place of such a formula."""
    places = {"node": (3,), "one tree": (1,), "one root": (1,), "*": (1, 2), "+": (1, 2)}
    return at in ((2,) if head[0] == "@" else places.get(head, ()))


def renamed(formula: Formula, old: Term, new: Term) -> Formula:
    """The formula with another name for a variable."""
    if formula == old:
        return new
    if formula[0] == "exists" and formula[1] == old:
        return formula
    return tuple(renamed(it, old, new) if isinstance(it, tuple) else it for it in formula)


def terms_in(formula: Formula) -> Iterator[Term]:
    """Gives the variables and literals that stand in it."""
    if formula[0] in ("prog", "logic", *LITERALS):
        yield formula
        return
    for part in formula:
        if isinstance(part, tuple):
            yield from terms_in(part)


def has_negation(formula: Formula) -> bool:
    """Says whether a negated equation stands in it."""
    return formula[0] == "not" or any(has_negation(it) for it in formula if isinstance(it, tuple))


def node_count(formula: Formula) -> int:
    """The number of nodes that are spelled out."""
    return (formula[0] == "node") + sum(node_count(it) for it in formula if isinstance(it, tuple))


class Canonical:
    """Makes models of cases."""

    def __init__(self, sorts: dict[Term, str], depth: int, random: Random | None = None):
        """`depth` is the number of nodes that a variable of shapes stands for, or more; with a
        source of chance it is any shape."""
        self.sorts, self.depth, self.random = sorts, depth, random
        self.numbers = itertools.count(1000)

    def models(self, case: Case, asked: Entailment) -> Iterator[tuple[Model, Any]]:
        """Gives the models of a case of the left side, with their data."""
        left, right, sort = asked
        more = [*terms_in(left), *terms_in(right)]
        yield from self.model(case, sort, more)
        if not has_negation(right):
            return
        facts = [it for fact in case.facts for it in terms_in(fact)]
        terms = sorted({*terms_in(case.shape), *terms_in(right), *facts}, key=repr)
        for one, two in itertools.combinations(terms, 2):
            if self.sort_of(one) == self.sort_of(two) and len(self.sort_of(one)) > 2:
                equal = case._replace(facts=[*case.facts, ("=", one, two)])
                yield from self.model(equal, sort, more)

    def sort_of(self, term: Term) -> str:
        """The sort of a variable or literal."""
        kinds = {"null": "node", "nolist": "list", "int": "int", "str": "str"}
        return kinds.get(term[0]) or self.sorts[term]

    def model(self, case: Case, sort: str, more: list[Term]) -> Iterator[tuple[Model, Any]]:
        """Gives the first model of a case with its data, if it doesn't contradict itself.

        `more` are the terms of both sides.
        """
        values = self.values([*terms_in(case.shape), *(it for fact in case.facts
                                                       for it in terms_in(fact)), *more], case)
        if values is None:
            return
        try:
            data = self.data(case.shape, sort, values)
        except Twice:
            return
        nodes = list(nodes_of(data))
        numbers, lists = {it.number for it in nodes}, {it.listing for it in nodes}
        is_whole = len(numbers) == len(lists) == len(nodes)
        if is_whole and ("null",) not in numbers and ("nolist",) not in lists:
            yield Model(values, self.sorts, self.domains(values, nodes)), data

    def domains(self, values: Values, nodes: list) -> dict[str, list]:
        """For each sort the values that are there, and one that isn't."""
        found: dict[str, dict] = {sort: {} for sort in ("node", "list", "int", "str")}
        for variable, value in values.items():
            found.get(self.sorts[variable], {})[value] = True
        for name, number, _, listing in nodes:
            found["str"][name] = found["node"][number] = found["list"][listing] = True
        return {sort: [*values, self.new(sort)] for sort, values in found.items()}

    # ------------------------------------------------------------------------------------- values
    def values(self, terms: list[Term], case: Case) -> Values | None:
        """A value for each variable, or None where the facts contradict each other."""
        parent = {term: term for term in terms}

        def top(term: Term) -> Term:
            while parent[term] != term:
                term = parent[term]
            return term

        for fact in case.facts:
            if fact[0] == "=":
                # A literal comes second, and stays at the top.
                one, two = sorted((top(fact[1]), top(fact[2])), key=lambda it: it[0] in LITERALS)
                if one != two and one[0] in LITERALS:
                    return None
                parent[one] = two
        if any(fact[0] == "not" and top(fact[1][1]) == top(fact[1][2]) for fact in case.facts):
            return None
        made: Values = {}
        for term in parent:
            if top(term) not in made:
                is_literal = top(term)[0] in LITERALS
                made[top(term)] = top(term) if is_literal else self.new(self.sorts[top(term)])
        return {term: made[top(term)] for term in parent if term[0] in ("prog", "logic")}

    def new(self, sort: str) -> Any:
        """A value that nothing else has."""
        if len(sort) > 2:
            return (sort, next(self.numbers))
        return self.context(sort) if len(sort) == 2 else self.shape(sort, self.depth)

    # ------------------------------------------------------------------------------------- shapes
    def tree(self, children: tuple) -> Tree:
        """A tree with a new node."""
        name, number, listing = (self.new(it) for it in ("str", "node", "list"))
        return Tree(name, number, children, listing)

    def shape(self, sort: str, depth: int) -> Any:
        """A shape of new nodes, each below the other."""
        if self.random is not None:
            depth = self.random.choice((0, 0, 1, depth))
            if sort != "t":
                trees = [self.shape("t", depth) for _ in range(self.random.choice((0, 1, 2)))]
                return tuple(trees) if sort == "f" else frozenset(trees)
        children: tuple = ()
        for _ in range(depth):
            children = (self.tree(children),)
        tree = self.tree(children)
        return tree if sort == "t" else (tree,) if sort == "f" else frozenset((tree,))

    def context(self, sort: str) -> Any:
        """A context of new nodes, the hole below them all, or beside them in a grove."""
        hole, k = sort
        depth = self.depth if self.random is None else self.random.choice((0, 1, self.depth))
        if hole == "g":
            return self.shape("g", depth) | {Hole("g")}
        inside: Any = Hole(hole)
        if hole == "f" and (depth or k != "f"):
            inside = self.tree((inside,))
        for _ in range(depth):
            inside = self.tree((inside,))
        return inside if k == "t" else (inside,) if k == "f" else frozenset((inside,))

    def data(self, shape: Formula, sort: str, values: Values) -> Any:
        """What the shape describes."""
        head, *parts = shape
        hole, k = sort[:-1], sort[-1]
        if head == "is it":
            return values[parts[0]]
        if head in ("0f", "0g"):
            return () if head == "0f" else frozenset()
        if head[0] == "?":
            return Hole(k) if k == "t" else (Hole(k),) if k == "f" else frozenset((Hole(k),))
        if head == "node":
            name, number, listing = (values.get(parts[at], parts[at]) for at in (0, 1, 3))
            return Tree(name, number, self.data(parts[2], hole + "f", values), listing)
        if head in ("one tree", "one root"):
            tree = self.data(parts[0], hole + "t", values)
            return (tree,) if head == "one tree" else frozenset((tree,))
        if head[0] == "@":
            context = self.data(parts[0], head[1] + k, values)
            return filled(context, self.data(parts[1], hole + head[1], values), head[1])
        sorts = {".*": (sort, k), ".+": (sort, k), "*.": (k, sort)}.get(head, (sort, sort))
        one, two = (self.data(it, at, values) for it, at in zip(parts, sorts))
        return added(one, two)


class Twice(Exception):
    """The same root is added twice to a grove."""


def added(one: Any, two: Any) -> Any:
    """The forest, or grove, of both."""
    if isinstance(one, tuple):
        return one + two
    if one & two:
        raise Twice
    return one | two


def filled(context: Any, part: Any, hole: str) -> Any:
    """The context with the part in its hole."""
    if context == Hole(hole):
        return part
    if isinstance(context, Tree):
        return context._replace(children=filled(context.children, part, hole))
    found = type(context)()
    for it in context:
        is_hole = it == Hole(hole) and hole != "t"
        whole = part if is_hole else type(context)([filled(it, part, hole)])
        found = added(found, whole)
    return found


def nodes_of(data: Any) -> Iterator[Tree]:
    """Gives the trees in the data, each with all below it."""
    if isinstance(data, Tree):
        yield data
        yield from nodes_of(data.children)
    elif not isinstance(data, Hole):
        for it in data:
            yield from nodes_of(it)
