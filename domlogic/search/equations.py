"""What follows from the equations among the facts of a symbolic heap.

Equal terms have one representative, and formulas are compared by their representatives.
"""
from collections import deque
from typing import Sequence

from domlogic.reading.computing import is_replaced
from domlogic.reading.nameless import stands_in
from domlogic.search.formulas import (DEFAULTS, LITERALS, Formula, Term, size, term_replaced,
                                      with_facts)
from domlogic.search.refusals import Fails
from domlogic.search.shapes import Shapes

ROUNDS = 3  # how often all representatives are put in: one may stand in another's term


class Equations:
    """A symbolic heap, and what its equations make equal."""

    def __init__(self, shapes: Shapes, shape: Formula, pure: Sequence[Formula], sort: str):
        self.shapes, self.book = shapes, shapes.book
        self.shape, self.pure, self.sort = shape, list(pure), sort
        self.whole = with_facts(shape, self.pure)
        # For each term those that it equals, with the fact and whether it says so in this order.
        self.edges: dict[Term, list[tuple[Term, Formula, bool]]] = {}
        for fact in self.pure:
            if fact[0] == "=" and self.book.term_sort(fact[1]) in DEFAULTS:
                self.edges.setdefault(fact[1], []).append((fact[2], fact, True))
                self.edges.setdefault(fact[2], []).append((fact[1], fact, False))
        self.classes = self.representatives()
        pairs = [(it, best) for it, best in self.classes.items()
                 if it != best and it[0] not in LITERALS and not stands_in(it, best)]
        self.pairs = sorted(pairs, key=lambda pair: (-size(pair[0]), pair[0])) * ROUNDS
        self.meant: dict[tuple[Formula, bool], Formula] = {}

    def representatives(self) -> dict[Term, Term]:
        """The representative of each term of an equation: a literal, else a logic variable, else a
        program variable if nothing else is there."""
        classes: dict[Term, Term] = {}
        for start in self.edges:
            if start in classes:
                continue
            found, work = {start}, [start]
            while work:
                others = {other for other, _, _ in self.edges[work.pop()]} - found
                found |= others
                work += others
            best = min(found, key=self.rank)
            classes.update((it, best) for it in sorted(found, key=self.rank))
        return classes

    @staticmethod
    def rank(term: Term) -> tuple[int, int, str]:
        """The order in which terms are taken as representatives."""
        order = 0 if term[0] in LITERALS else {"logic": 1, "prog": 3}.get(term[0], 2)
        return order, size(term), repr(term)

    def rep(self, formula: Formula, is_term: bool = False) -> Formula:
        """The formula, or term, with representatives put in."""
        if not self.pairs:
            return formula
        key = formula, is_term
        if key not in self.meant:
            for old, new in self.pairs:
                formula = term_replaced(formula, old, new, is_term)
            self.meant[key] = formula
        return self.meant[key]

    def project(self, fact: Formula) -> int | None:
        """The step that the heap entails its conjunct, or None."""
        return self.shapes.project(self.whole, fact, self.sort)

    def reflexive(self, term: Term) -> int:
        """The step that the heap entails that the term equals itself."""
        return self.book.ent("eq_refl", (), self.whole, ("=", term, term), self.sort)

    def replaced_by(self, equation: int, number: int, formula: Formula, target: Formula) -> int:
        """From the steps of an equation and of a formula that of the target, which is the formula
        with the right side of the equation put for the left one somewhere."""
        book = self.book
        pair = ("and", book.judged(equation)[2], formula)
        if not is_replaced(formula, target, *pair[1][1:]):
            raise Fails("a term can't be replaced under a quantifier of its variable")
        both = book.ent("and_in", (equation, number), self.whole, pair, self.sort)
        return book.cut(both, book.ent("eq_subst", (), pair, target, self.sort))

    def equation(self, one: Term, other: Term) -> int:
        """The step that the heap entails one = other, by a chain of equations."""
        number, last = self.reflexive(one), one
        for here, there, fact, straight in self.chain(one, other):
            known = self.project(fact)
            if not straight:  # from `there = here` and `there = there` comes `here = there`
                same = ("=", there, there)
                known = self.replaced_by(known, self.reflexive(there), same, ("=", here, there))
            if last == one == here:
                number = known
            else:
                number = self.replaced_by(known, number, ("=", one, here), ("=", one, there))
            last = there
        return number

    def chain(self, one: Term, other: Term) -> list[tuple[Term, Term, Formula, bool]]:
        """The shortest chain of equations from one term to another of its class."""
        before, work = {one: None}, deque([one])
        while work and other not in before:
            at = work.popleft()
            for there, fact, straight in self.edges.get(at, ()):
                if there not in before:
                    before[there] = at, there, fact, straight
                    work.append(there)
        links, at = [], other
        while before[at] is not None:
            links.append(before[at])
            at = before[at][0]
        return links[::-1]

    def changed(self, number: int, formula: Formula, forward: bool = True) -> int:
        """From the step of the formula that of its representative, or back."""
        stages = [formula]
        for old, new in self.pairs:
            stages.append(term_replaced(stages[-1], old, new))
        order = list(zip(self.pairs, stages, stages[1:]))
        for (old, new), one, other in order if forward else reversed(order):
            if one == other:
                continue
            if forward:
                number = self.replaced_by(self.equation(old, new), number, one, other)
            else:
                number = self.replaced_by(self.equation(new, old), number, other, one)
        return number
