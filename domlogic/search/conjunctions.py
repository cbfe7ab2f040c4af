"""Symbolic heaps as conjunctions: what is taken out of them, put together, and moved to a place."""
from typing import Sequence

from domlogic.reading.nameless import is_pure
from domlogic.search.cutting import Cutting
from domlogic.search.formulas import (TRUE, Formula, Path, part_at, part_sort, sort_at, with_facts,
                                      with_part, with_part_at)

Known = Sequence[tuple[Formula, int]]  # formulas with steps that the whole entails them


class Conjunctions(Cutting):
    """Conjuncts, and pure facts that go in and out of shapes."""

    def project(self, whole: Formula, part: Formula, sort: str) -> int | None:
        """The step that the conjunction entails its conjunct, or None where it isn't one."""
        book = self.book
        if book.same(whole, part):
            return book.ent("id", (), whole, part, sort)
        if whole[0] != "and":
            return None
        for at in (1, 2):
            inner = self.project(whole[at], part, sort)
            if inner is not None:
                return book.cut(book.side(whole, at, sort), inner)
        return None

    def gather(self, whole: Formula, target: Formula, sort: str, known: Known = ()) -> int | None:
        """The step that the conjunction entails the target, or None.

        The conjuncts of the target are conjuncts of the whole, `true`, or known.
        """
        book = self.book
        for formula, number in known:
            if formula == target:
                return number
        if target == TRUE:
            return book.ent("true_in", (), whole, TRUE, sort)
        found = self.project(whole, target, sort)
        if found is not None or target[0] != "and":
            return found
        ends = tuple(self.gather(whole, it, sort, known) for it in target[1:])
        return None if None in ends else book.ent("and_in", ends, whole, target, sort)

    # -------------------------------------------------------------------- pure facts in and out
    def pull_pure(self, formula: Formula, sort: str, path: Path) -> tuple[int, Formula, Formula]:
        """At the path stands (A and B), one of them pure: (step, formula with the other, the pure
        one), the step from the formula to (formula with the other and the pure one)."""
        here = part_at(formula, path)
        at = 2 if is_pure(here[2]) else 1
        shape, fact = here[3 - at], here[at]
        first = self.gather(here, ("and", shape, fact), sort_at(formula, sort, path))
        number, outer = self.pulled(formula, sort, path, (first, shape, fact))
        return number, outer, fact

    def pulled(self, whole: Formula, sort: str, path: Path,
               innermost: tuple[int, Formula, Formula]) -> tuple[int, Formula]:
        """The same, layer by layer: (step, formula without the fact)."""
        number, shape, fact = innermost
        if not path:
            return number, shape
        at, book = path[0], self.book
        inner, kept = self.pulled(whole[at], part_sort(whole, sort, at), path[1:], innermost)
        lifted = book.lift1(whole, sort, at, inner)
        moved, outer = with_part(whole, at, ("and", kept, fact)), with_part(whole, at, kept)
        out = book.ent("pure_out", (), moved, ("and", outer, fact), sort)
        return book.cut(lifted, out), outer

    def push_pure(self, formula: Formula, sort: str, path: Path, fact: Formula) -> int:
        """The step that (formula and fact) entails the formula with (part and fact) at the path."""
        book, whole = self.book, ("and", formula, fact)
        if not path:
            return book.id(whole, sort)
        at = path[0]
        moved = with_part(formula, at, ("and", formula[at], fact))
        into = book.ent("pure_in", (), whole, moved, sort)
        inner = self.push_pure(formula[at], part_sort(formula, sort, at), path[1:], fact)
        return book.cut(into, book.lift1(formula, sort, at, inner))

    def fact_of_part(self, shape: Formula, sort: str, path: Path, number: int) -> int:
        """From a step that the part at the path entails a pure fact, that the shape entails it."""
        book, part = self.book, part_at(shape, path)
        both = book.both(book.id(part, book.judged(number)[3]), number)
        fact = book.judged(number)[2]
        lifted = book.lift(shape, sort, path, both)
        out, outer, _ = self.pull_pure(with_part_at(shape, path, ("and", part, fact)), sort, path)
        return book.cut(lifted, out, book.side(("and", outer, fact), 2, sort))

    def rewrite(self, shape: Formula, pure: Sequence[Formula], sort: str, path: Path, number: int,
                fact: Formula | None = None) -> tuple[int, Formula]:
        """The part at the path rewritten by a step `part [and fact] entails other`.

        Returns the step from the shape with its facts to the new one with the same facts, and that.
        """
        book = self.book
        whole = with_facts(shape, pure)
        if fact is None:
            start, moved = self.gather(whole, shape, sort), book.lift(shape, sort, path, number)
        else:
            start = self.gather(whole, ("and", shape, fact), sort)
            here = with_part_at(shape, path, ("and", part_at(shape, path), fact))
            pushed = self.push_pure(shape, sort, path, fact)
            moved = book.cut(pushed, book.lift(here, sort, path, number))
        after = with_part_at(shape, path, book.judged(number)[2])
        done = book.cut(start, moved)
        target = with_facts(after, pure)
        return self.gather(whole, target, sort, [(after, done)]), target
