"""Formulas that entail each other, with proofs that are written only when they are asked for."""
from typing import Callable, NamedTuple

from domlogic.search.book import Book
from domlogic.search.formulas import Formula, with_part


class Conversion(NamedTuple):
    """Two formulas that entail each other; `make(forward)` writes the one proof or the other."""

    left: Formula
    right: Formula
    sort: str
    make: Callable[[bool], int]

    def fwd(self) -> int:
        """Writes that the left one entails the right one."""
        return self.make(True)

    def back(self) -> int:
        """Writes that the right one entails the left one."""
        return self.make(False)


class Conversions:
    """The ways to make a conversion: by a rule, one behind the other, inside a formula."""

    def __init__(self, book: Book):
        self.book = book

    def refl(self, formula: Formula, sort: str) -> Conversion:
        """The formula as it is."""
        return Conversion(formula, formula, sort, lambda forward: self.book.id(formula, sort))

    def row(self, rule: str, left: Formula, right: Formula, sort: str,
            back: str | None = None) -> Conversion:
        """A rule that holds both ways, the way back named `RULE_back` or otherwise."""

        def make(forward: bool) -> int:
            if forward:
                return self.book.ent(rule, (), left, right, sort)
            return self.book.ent(back or rule + "_back", (), right, left, sort)

        return Conversion(left, right, sort, make)

    def chain(self, *given: Conversion) -> Conversion:
        """One behind the other."""
        convs = [it for it in given if it.left != it.right] or [given[0]]
        if len(convs) == 1:
            return convs[0]

        def make(forward: bool) -> int:
            order = convs if forward else convs[::-1]
            return self.book.cut(*[it.make(forward) for it in order])

        return Conversion(convs[0].left, convs[-1].right, convs[0].sort, make)

    def inside(self, formula: Formula, sort: str, at: int, conv: Conversion) -> Conversion:
        """The conversion at one part of the formula."""
        left, right = with_part(formula, at, conv.left), with_part(formula, at, conv.right)
        if left == right:
            return self.refl(left, sort)

        def make(forward: bool) -> int:
            number = conv.make(forward)
            one, other = (left, right) if forward else (right, left)
            return self.inside_made(one, other, sort, at, number)

        return Conversion(left, right, sort, make)

    def inside_made(self, one: Formula, other: Formula, sort: str, at: int, number: int) -> int:
        """One formula entails the other, which differs at the place, where the step says why."""
        head, book = one[0], self.book
        if head == "and":
            mine = book.cut(book.side(one, at, sort), number)
            rest = book.side(one, 3 - at, sort)
            return book.both(mine, rest) if at == 1 else book.both(rest, mine)
        if head == "or":
            rules = ("or_left", "or_right") if at == 1 else ("or_right", "or_left")
            mine = book.cut(number, book.ent(rules[0], (), other[at], other, sort))
            rest = book.ent(rules[1], (), other[3 - at], other, sort)
            return book.ent("or_out", (mine, rest) if at == 1 else (rest, mine), one, other, sort)
        if head == "exists":
            inner = book.ent("exists_in", (), other[2], other, sort, (other[1],))
            return book.ent("exists_out", (book.cut(number, inner),), one, other, sort)
        return book.lift1(one, sort, at, number)
