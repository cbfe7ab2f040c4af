"""Assertions as symbolic heaps, a case each, with the steps that lead to the cases and back."""
from typing import Any, NamedTuple, Sequence

from domlogic.search.book import Book
from domlogic.search.entailments import Matching
from domlogic.search.facts import Facts
from domlogic.search.formulas import (FALSE, Formula, Term, disjunction, free, quantified,
                                      with_facts)

Variable = Term
Command = tuple[Any, ...]


class Case(NamedTuple):
    """A symbolic heap: a shape in normal form with the pure facts beside it."""

    shape: Formula
    pure: tuple[Formula, ...]
    sort: str

    @property
    def formula(self) -> Formula:
        return with_facts(self.shape, self.pure)


class Opened(NamedTuple):
    """A case under quantifiers."""

    variables: tuple[Variable, ...]
    case: Case

    @property
    def formula(self) -> Formula:
        return quantified(self.variables, self.case.formula)


class Cased(NamedTuple):
    """The cases of an assertion that can be, their choice, and the step by which it follows."""

    cases: list[Opened]
    formula: Formula
    step: int


def says_nothing(fact: Formula, others: Formula, variables: Sequence[Variable]) -> bool:
    """Whether a fact is about quantified variables alone that the others don't have; or says only
    what one of these is."""
    lone = free(fact) & set(variables) - free(others)
    if fact[0] == "=" and fact[1] != fact[2] and lone & set(fact[1:]):
        return True
    return bool(lone) and lone == free(fact)


def tidied(opened: Opened) -> Opened:
    """The case without facts that stand twice or say nothing."""
    shape, pure = opened.case.shape, list(dict.fromkeys(opened.case.pure))
    at = 0
    while at < len(pure):
        rest = pure[:at] + pure[at + 1:]
        at = at + 1
        if says_nothing(pure[at - 1], with_facts(shape, rest), opened.variables):
            pure, at = rest, 0
    case = Case(shape, tuple(pure), opened.case.sort)
    there = free(case.formula)
    return Opened(tuple(it for it in opened.variables if it in there), case)


class Heaps:
    """The cases of assertions, in a book."""

    def __init__(self, book: Book, matching: Matching):
        self.book, self.matching, self.shapes = book, matching, matching.shapes

    def known(self, case: Case) -> Facts:
        """What follows from a case."""
        return Facts(self.matching, *case)

    def of(self, formula: Formula, sort: str) -> Cased:
        """The cases of the formula that can be."""
        book = self.book
        found, emit = self.shapes.opened(formula, sort)
        absurd, plain = self.sifted(found, sort)
        kept: dict[Formula, Opened] = {}
        for it in plain.values():
            kept.setdefault(book.nameless(it.formula), it)
        order = list(kept.values())
        whole = disjunction([it.formula for it in order])
        if book.same(formula, whole):
            return Cased(order, whole, book.ent("id", (), formula, whole, sort))

        def of_leaf(leaf):
            case = Case(*leaf, sort)
            if case in absurd:
                return book.cut(absurd[case], book.ent("false_out", (), FALSE, whole, sort))
            mine = plain[case]
            less = self.shapes.gather(case.formula, mine.case.formula, sort)
            at = order.index(kept[book.nameless(mine.formula)])
            return book.cut(less, self.into(mine, whole, at, len(order)))

        return Cased(order, whole, emit(whole, of_leaf))

    def sifted(self, found: list, sort: str) -> tuple[dict[Case, int], dict[Case, Opened]]:
        """The cases that can't be, each with the step to false; and the others, tidied."""
        absurd, plain = {}, {}
        for names, shape, pure in found:
            case = Case(shape, tuple(pure), sort)
            if case in absurd or case in plain:
                continue
            number = self.known(case).contradiction()
            if number:
                absurd[case] = number
            else:
                plain[case] = tidied(Opened(tuple(names), case))
        return absurd, plain

    def into(self, opened: Opened, whole: Formula, at: int, count: int) -> int:
        """The step that the case entails the choice of so many, in which it has this place."""
        case = opened.case
        return self.shapes.into(case.formula, opened.variables, whole, at, count, case.sort)

    def joined(self, cases: list[Opened], ends: list[int]) -> int:
        """From steps by which each case entails one goal the step by which their choice does."""
        book, outer = self.book, []
        for it, end in zip(cases, ends):
            _, left, goal, sort = book.judged(end)
            for variable in reversed(it.variables):
                left = ("exists", variable, left)
                end = book.ent("exists_out", (end,), left, goal, sort)
            outer.append(end)
        done = outer[-1]
        for one in reversed(outer[:-1]):
            left = ("or", book.judged(one)[1], book.judged(done)[1])
            done = book.ent("or_out", (one, done), left, *book.judged(done)[2:])
        return done

    def without(self, opened: Opened, variable: Variable) -> tuple[Opened, int]:
        """The case with nothing said of the variable, and the step that leads there, below the
        case's own quantifiers."""
        book, (variables, case) = self.book, opened
        if variable not in free(case.formula):
            return opened, book.id(case.formula, case.sort)
        new = book.fresh(book.sort_of(variable))
        shape, *facts = (book.subst(it, {variable: new}) for it in (case.shape, *case.pure))
        other = case._replace(shape=shape, pure=tuple(it for it in facts if it != ("=", new, new)))
        back = book.subst(other.formula, {new: variable})
        start = self.shapes.gather(case.formula, back, case.sort)
        target = ("exists", new, other.formula)
        end = book.ent("exists_in", (), back, target, case.sort, (variable,))
        return Opened((*variables, new), other), book.cut(start, end)
