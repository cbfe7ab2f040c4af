"""What formulas mean on small groves, for formulas with `forall`, adjoints and `is` too.

A quantified variable is found where it is first met, as models.py says, and parts are taken from
left to right. What `not`, `forall`, `->` and an adjoint of a context speak of has to be found
before. Where a shape or a context is needed that isn't there, it is made as the formula writes it:
so an adjoint and the `is` of a variable that isn't found yet need a formula that spells it out.
"""
from functools import lru_cache
from itertools import product
from typing import Any, Iterator

from domlogic.tests.canonical import Twice, added, filled, nodes_of
from domlogic.tests.models import Formula, Hole, Model, Term, Tree, Values

NOTHING = {"0f": (), "0g": frozenset()}
HOLES = {"?t": Hole("t"), "?f": (Hole("f"),), "?g": frozenset([Hole("g")])}


@lru_cache(maxsize=None)
def free_variables(formula: Formula) -> frozenset[Term]:
    """The variables that stand free in a formula or a term."""
    if formula[0] in ("prog", "logic"):
        return frozenset([formula])
    found: frozenset[Term] = frozenset()
    for part in formula:
        found |= free_variables(part) if isinstance(part, tuple) else frozenset()
    return found - {formula[1]} if formula[0] in ("exists", "forall") else found


def is_whole(data: Any) -> bool:
    """Says whether it is well formed: no number is null, and none stands twice."""
    nodes = list(nodes_of(data))
    numbers, lists = {it.number for it in nodes}, {it.listing for it in nodes}
    return len(numbers - {("null",)}) == len(lists - {("nolist",)}) == len(nodes)


def put(context: Any, part: Any, hole: str) -> Any:
    """The context with the part in its hole, or None where they don't go together."""
    try:
        found = filled(context, part, hole)
    except Twice:
        return None
    return found if is_whole(found) else None


class Meaning(Model):
    """Values of the variables, and the numbers that `forall` goes through."""

    def value(self, term: Term, values: Values) -> Any:
        """The value of a term; None for a variable that isn't found yet."""
        if term[0] not in ("+", "-", "++"):
            return super().value(term, values)
        (sort, one), (_, two) = (self.known(part, values) for part in term[1:])
        return (sort, one - two if term[0] == "-" else one + two)

    def known(self, term: Term, values: Values) -> Any:
        """The value of a term whose variables are found."""
        assert free_variables(term) <= values.keys(), f"{term} is met too early"
        return self.value(term, values)

    def decided(self, formula: Formula, sort: str, data: Any, values: Values) -> bool:
        """Says whether a formula holds, all of whose variables are found."""
        assert free_variables(formula) <= values.keys(), f"{formula} is met too early"
        return any(True for _ in self.solutions(formula, sort, data, values))

    def solutions(self, formula: Formula, sort: str, data: Any, values: Values) -> Iterator[Values]:
        """Gives the values of variables with which the formula holds of the data."""
        head, *parts = formula
        if head in DECIDED:
            if DECIDED[head](self, formula, sort, data, values):
                yield values
        elif head == "and":
            for now in self.solutions(parts[0], sort, data, values):
                yield from self.solutions(parts[1], sort, data, now)
        elif head == "is":
            for now, value in self.valued(parts, values):
                yield from self.solutions(parts[1], self.sorts[parts[0]], value, now)
        elif head == "-o":
            yield from self.at_each(parts, sort, data, values)
        else:
            yield from super().solutions(formula, sort, data, values)

    def shapes(self, formula: Formula, sort: str, data: Any, values: Values) -> Iterator[Values]:
        """The same of a formula of shapes."""
        head, *parts = formula
        if head in ("len", "is it"):
            now = self.reads(parts[0], ("int", len(data)) if head == "len" else data, values)
            yield from [] if now is None else [now]
        else:
            yield from super().shapes(formula, sort, data, values)

    # ------------------------------------------------------------------------------- yes or no
    def negated(self, formula: Formula, sort: str, data: Any, values: Values) -> bool:
        """Says whether (not P) holds."""
        return not self.decided(formula[1], sort, data, values)

    def implied(self, formula: Formula, sort: str, data: Any, values: Values) -> bool:
        """Says whether (P -> Q) holds."""
        _, one, two = formula
        return not self.decided(one, sort, data, values) or self.decided(two, sort, data, values)

    def for_all(self, formula: Formula, sort: str, data: Any, values: Values) -> bool:
        """Says whether (forall $x . P) holds."""
        _, variable, inside = formula
        return all(self.decided(inside, sort, data, {**values, variable: it})
                   for it in self.domains[self.sorts[variable]])

    def at_most(self, formula: Formula, sort: str, data: Any, values: Values) -> bool:
        """Says whether E <= F holds."""
        (_, one), (_, two) = (self.known(term, values) for term in formula[1:])
        return one <= two

    def around(self, formula: Formula, sort: str, data: Any, values: Values) -> bool:
        """Says whether (K o-k Q) holds: Q in each context of K that the data may be put into."""
        (*_, k), context, inside = formula
        wholes = (put(it, data, sort) for it in self.made(context, sort + k, values))
        return all(self.decided(inside, k, it, values) for it in wholes if it is not None)

    # ------------------------------------------------------------------------------------ shapes
    def valued(self, parts: list, values: Values) -> Iterator[tuple[Values, Any]]:
        """Gives what the variable of (variable is P) stands for; it is made if it isn't found."""
        variable, inside = parts
        if variable in values:
            yield values, values[variable]
            return
        for it in self.made(inside, self.sorts[variable], values):
            yield {**values, variable: it}, it

    def at_each(self, parts: list, sort: str, data: Any, values: Values) -> Iterator[Values]:
        """The solutions of (P -o Q): with each shape of P that may be put into the data."""
        hole, k = sort
        found = [values]
        wholes = (put(data, it, hole) for it in self.made(parts[0], hole, values))
        for whole in (it for it in wholes if it is not None):
            found = [now for one in found for now in self.solutions(parts[1], k, whole, one)]
        yield from found

    def made(self, formula: Formula, sort: str, values: Values) -> Iterator[Any]:
        """Gives the well-formed shapes or contexts that a formula spells out."""
        yield from filter(is_whole, self.spelled(formula, sort, values))

    def spelled(self, formula: Formula, sort: str, values: Values) -> Iterator[Any]:
        """The same, where a number may stand twice."""
        head, *parts = formula
        hole, k = sort[:-1], sort[-1]
        if head in NOTHING or head in HOLES:
            yield NOTHING.get(head, HOLES.get(head))
        elif head == "is it":
            yield self.known(parts[0], values)
        elif head == "node":
            name, number, listing = (self.known(parts[at], values) for at in (0, 1, 3))
            for children in self.spelled(parts[2], hole + "f", values):
                yield Tree(name, number, children, listing)
        elif head in ("one tree", "one root"):
            for tree in self.spelled(parts[0], hole + "t", values):
                yield (tree,) if head == "one tree" else frozenset([tree])
        else:
            yield from self.joined(head, parts, sort, values)

    def joined(self, head: str, parts: list, sort: str, values: Values) -> Iterator[Any]:
        """The same of two parts."""
        hole, k = sort[:-1], sort[-1]
        sorts = {".*": (sort, k), ".+": (sort, k), "*.": (k, sort), "*": (sort, sort),
                 "+": (sort, sort)}.get(head, (head[-1] + k, hole + head[-1]))
        for one, two in product(*(self.spelled(*it, values) for it in zip(parts, sorts))):
            try:
                yield filled(one, two, head[-1]) if head[0] == "@" else added(one, two)
            except Twice:
                pass


DECIDED = {"not": Meaning.negated, "->": Meaning.implied, "forall": Meaning.for_all,
           "<=": Meaning.at_most, "o-t": Meaning.around, "o-f": Meaning.around,
           "o-g": Meaning.around}
