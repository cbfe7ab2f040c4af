"""One way to prove a right side: the match, witnesses, facts, and the proof as a whole."""
from typing import Iterator

from domlogic.search.formulas import DEFAULTS, Formula, Term
from domlogic.search.matching import Emit, Matcher
from domlogic.search.refusals import Fails
from domlogic.search.right_sides import Found, RightSides, Way


class Attempt:
    """One way to prove a right side from what is known."""

    def __init__(self, matcher: Matcher, right_sides: RightSides, way: Way, meant: Formula):
        """`meant` is the shape that is known, with representatives put in."""
        self.matcher, self.known, self.book = matcher, matcher.known, matcher.book
        self.shapes, self.right_sides = matcher.shapes, right_sides
        self.way, self.meant, self.shape = way, meant, way.shape()

    def done(self) -> tuple[Found, int] | None:
        """What was found, and the step that the known entails the goal with it put in."""
        for found, emit in self.matches():
            final = self.completed(found)
            numbers = self.facts_shown(final)
            if numbers is not None:
                return final, self.whole(final, numbers, emit)
        return None

    def matches(self) -> Iterator[tuple[Found, Emit | None]]:
        """Gives the ways to match the shape; what equations tell of unknowns is found first."""
        found: Found = {}
        for fact in self.equations_first():
            self.learn_from_equation(self.book.subst(fact, found), found)
        if self.shape is None:
            yield found, None
            return
        sort = self.known.sort
        wanted = self.shapes.canon(self.shape, sort).right
        yield from self.matcher.matches(self.meant, wanted, sort, found)

    # ---------------------------------------------------------------------------------- witnesses
    def completed(self, found: Found) -> Found:
        """What facts tell of unknowns is found as well, and the others are anything."""
        found, before = dict(found), None
        while before != found:
            before = dict(found)
            for fact in self.way.facts():
                self.learn(self.book.subst(fact, found), found)
        for unknown in self.way.unknowns():
            if unknown not in found:
                sort = self.book.sort_of(unknown)
                found[unknown] = DEFAULTS[sort] if sort in DEFAULTS else self.any_variable(sort)
        return found

    def equations_first(self) -> list[Formula]:
        """The wanted equations, as often as one may tell something for another."""
        equations = [it for it in self.way.facts() if it[0] == "="]
        return equations * len(equations)

    def learn_from_equation(self, fact: Formula, found: Found) -> bool:
        """An equation with one side unknown tells what it is."""
        matcher = self.matcher
        for one, other in ((fact[1], fact[2]), (fact[2], fact[1])):
            if one in matcher.unknowns and one not in found and not matcher.is_open(other):
                found[one] = other
                return True
        return False

    def learn(self, fact: Formula, found: Found) -> None:
        """An equation, or a fact like a known one, tells what is unknown."""
        matcher = self.matcher
        if not matcher.is_open(fact):
            return
        if fact[0] == "=" and self.learn_from_equation(fact, found):
            return
        for have in self.known.pure:
            trial = dict(found)
            if matcher.unify(have, fact, trial):
                found.update(trial)
                return

    def any_variable(self, sort: str) -> Term:
        """A variable of the sort."""
        for name, its in self.book.logic.items():
            if its == sort:
                return ("logic", name)
        return self.book.fresh(sort)

    # ---------------------------------------------------------------------------------- the proof
    def facts_shown(self, found: Found) -> list[tuple[Formula, int]] | None:
        """The facts with their steps; None where one doesn't follow."""
        numbers, progress = [], self.matcher.progress
        for fact in self.way.facts():
            wanted = self.book.subst(fact, found)
            number = self.known.prove(wanted)
            if number is None:
                progress.fact_missed(wanted)
                return None
            numbers.append((wanted, number))
        return numbers

    def whole(self, found: Found, numbers: list[tuple[Formula, int]], emit: Emit | None) -> int:
        """The step of the goal, from those of its facts and of its shape."""
        if emit is not None:
            numbers = [*numbers, self.shape_shown(found, emit)]
        target = self.right_sides.form(self.way, found)
        number = self.assembled(target, numbers)
        return self.book.cut(number, self.right_sides.rebuilt(self.way, found, self.known.sort))

    def shape_shown(self, found: Found, emit: Emit) -> tuple[Formula, int]:
        """The shape as it is wanted, and its step."""
        book, known = self.book, self.known
        start = self.shapes.gather(known.whole, known.shape, known.sort)
        start = known.changed(start, known.shape)
        wanted = book.subst(self.shape, found)
        conv = self.shapes.canon(wanted, known.sort)
        number = known.changed(book.cut(start, emit(found)), conv.right, False)
        return wanted, book.cut(number, conv.back())

    def assembled(self, target: Formula, numbers: list[tuple[Formula, int]]) -> int:
        """The step of a conjunction from those of its conjuncts."""
        for formula, number in numbers:
            if self.book.same(formula, target):
                return number
        if target[0] != "and":
            raise Fails("a part of the right side was never shown")
        ends = [self.assembled(it, numbers) for it in target[1:]]
        return self.book.ent("and_in", ends, self.known.whole, target, self.known.sort)
