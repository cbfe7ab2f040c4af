"""Formulas judged in models: an answer to entailments that has nothing of the search.

A forest is a tuple of trees; a grove a frozenset of them. In a context a Hole stands where the part
goes: for a tree in its place, for a forest or a grove as one of the members. A model has a value
for each variable: of values, of shapes, of contexts. The value of a literal is the literal itself.

Quantified variables are looked for as they are met: in a node or an equation their value is read
off, and elsewhere they run through a domain. So a variable that isn't met has no value.
"""
import itertools
from typing import Any, Iterator, NamedTuple

Formula = tuple[Any, ...]
Term = tuple[Any, ...]
Values = dict[Term, Any]


class Tree(NamedTuple):
    """A node with what is below it; `children` are a forest."""

    name: Any
    number: Any
    children: tuple
    listing: Any


class Hole(NamedTuple):
    """The place of a context, with the sort of what goes there."""

    sort: str


def parted(data: Any, sort: str, hole: str) -> Iterator[tuple[Any, Any]]:
    """Gives (context, part): each part of the sort `hole` in the data, which is of sort `sort`."""
    if sort == "t":
        if hole == "t" and is_tree(data):
            yield Hole("t"), data
        for context, part in parted(data.children, "f", hole) if isinstance(data, Tree) else ():
            yield data._replace(children=context), part
        return
    if sort == "f":
        for at, tree in enumerate(data):
            for context, part in parted(tree, "t", hole) if hole != "g" else ():
                yield (*data[:at], context, *data[at + 1:]), part
        if hole == "f":
            for start in range(len(data) + 1):
                for end in range(start, len(data) + 1):
                    yield (*data[:start], Hole("f"), *data[end:]), data[start:end]
        return
    for tree in data:
        for context, part in parted(tree, "t", hole) if hole != "g" else ():
            yield data - {tree} | {context}, part
    if hole == "g":
        for part in subsets(data):
            yield data - part | {Hole("g")}, part


def subsets(grove: frozenset) -> Iterator[frozenset]:
    """Gives the groves that are in the grove."""
    members = sorted(grove, key=repr)
    for count in range(len(members) + 1):
        yield from map(frozenset, itertools.combinations(members, count))


def is_tree(data: Any) -> bool:
    """Says whether it is a tree, or a hole for one."""
    return not isinstance(data, Hole) or data.sort == "t"


def has_hole(data: Any) -> bool:
    """Says whether a hole stands in it."""
    if isinstance(data, Tree):
        return has_hole(data.children)
    return isinstance(data, Hole) or any(map(has_hole, data))


class Model:
    """Values of the variables, and the domains of quantified ones."""

    def __init__(self, values: Values, sorts: dict[Term, str], domains: dict[str, list]):
        self.values, self.sorts, self.domains = values, sorts, domains

    def holds(self, formula: Formula, sort: str, data: Any) -> bool:
        """Says whether the formula holds of the data."""
        return any(True for _ in self.solutions(formula, sort, data, self.values))

    # ------------------------------------------------------------------------------------- terms
    def value(self, term: Term, values: Values) -> Any:
        """The value of a term, or None for a variable that has none yet."""
        return values.get(term) if term[0] in ("prog", "logic") else term

    def equal(self, one: Term, other: Term, values: Values) -> Iterator[Values]:
        """Gives the values with which two terms are equal."""
        first, second = self.value(one, values), self.value(other, values)
        if first is None and second is None:
            for it in self.domains[self.sorts[one]]:
                yield {**values, one: it, other: it}
        elif first is None:
            yield {**values, one: second}
        elif second is None:
            yield {**values, other: first}
        elif first == second:
            yield values

    def differ(self, one: Term, other: Term, values: Values) -> Iterator[Values]:
        """Gives the values with which they differ."""
        for term in (one, other):
            if self.value(term, values) is None:
                for it in self.domains[self.sorts[term]]:
                    yield from self.differ(one, other, {**values, term: it})
                return
        if self.value(one, values) != self.value(other, values):
            yield values

    def reads(self, term: Term, found: Any, values: Values) -> Values | None:
        """The values with which the term is what was found; None where it differs."""
        value = self.value(term, values)
        if value is None:
            return {**values, term: found}
        return values if value == found else None

    # ---------------------------------------------------------------------------------- formulas
    def solutions(self, formula: Formula, sort: str, data: Any, values: Values) -> Iterator[Values]:
        """Gives the values of variables with which the formula holds of the data."""
        head = formula[0]
        if head == "true":
            yield values
        elif head == "and":
            one, two = sorted(formula[1:], key=has_equations_only)
            for first in self.solutions(one, sort, data, values):
                yield from self.solutions(two, sort, data, first)
        elif head == "or":
            for part in formula[1:]:
                yield from self.solutions(part, sort, data, values)
        elif head == "exists":
            inner = {one: to for one, to in values.items() if one != formula[1]}
            outer = {formula[1]: values[formula[1]]} if formula[1] in values else {}
            for it in self.solutions(formula[2], sort, data, inner):
                it = {**it, **outer}
                if not outer:
                    it.pop(formula[1], None)
                yield it
        elif head == "=":
            yield from self.equal(*formula[1:], values)
        elif head == "not":
            yield from self.differ(*formula[1][1:], values)
        elif head != "false":
            yield from self.shapes(formula, sort, data, values)

    def shapes(self, formula: Formula, sort: str, data: Any, values: Values) -> Iterator[Values]:
        """The same of a formula of shapes."""
        head, *parts = formula
        hole, k = sort[:-1], sort[-1]
        if head in ("0f", "0g"):
            yield from [values] if not data else []
        elif head[0] == "?":
            whole = Hole(k) if k == "t" else type(data)([Hole(k)])
            yield from [values] if data == whole else []
        elif head == "is it":
            yield from [values] if data == values[parts[0]] else []
        elif head == "node":
            yield from self.node(formula, hole, data, values)
        elif head in ("one tree", "one root"):
            if len(data) == 1 and is_tree(member := next(iter(data))):
                yield from self.solutions(parts[0], hole + "t", member, values)
        elif head[0] == "@":
            yield from self.spot(formula, sort, data, values)
        else:
            yield from self.two_parts(formula, sort, data, values)

    def node(self, formula: Formula, hole: str, data: Any, values: Values) -> Iterator[Values]:
        """The same of a node."""
        _, name, number, children, listing = formula
        now: Values | None = values if isinstance(data, Tree) else None
        for at, term in ((0, name), (1, number), (3, listing)):
            now = None if now is None else self.reads(term, data[at], now)
        if now is not None:
            yield from self.solutions(children, hole + "f", data.children, now)

    def spot(self, formula: Formula, sort: str, data: Any, values: Values) -> Iterator[Values]:
        """The same of (K @h P): the data is split at each of its parts."""
        head, context, part = formula
        hole, h, k = sort[:-1], head[1], sort[-1]
        for outer, inner in parted(data, k, h):
            if has_hole(inner) == bool(hole):
                for now in self.solutions(context, h + k, outer, values):
                    yield from self.solutions(part, hole + h, inner, now)

    def two_parts(self, formula: Formula, sort: str, data: Any, values: Values) -> Iterator[Values]:
        """The same of a row or a sum."""
        head, left, right = formula
        hole, k = sort[:-1], sort[-1]
        if k == "f":
            splits = [(data[:at], data[at:]) for at in range(len(data) + 1)]
        else:
            splits = [(part, data - part) for part in subsets(data)]
        left_sort = sort if head in ("*", "+", ".*", ".+") else k
        right_sort = sort if head in ("*", "+", "*.") else k
        for one, two in splits:
            if hole and has_hole(one) != (left_sort == sort):
                continue
            for now in self.solutions(left, left_sort, one, values):
                yield from self.solutions(right, right_sort, two, now)


def has_equations_only(formula: Formula) -> bool:
    """Says whether it speaks of no shape: such formulas are judged last."""
    if formula[0] in ("and", "or"):
        return all(map(has_equations_only, formula[1:]))
    if formula[0] == "exists":
        return has_equations_only(formula[2])
    return formula[0] in ("=", "not", "false")
