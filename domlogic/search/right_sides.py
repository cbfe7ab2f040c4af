"""The ways to prove a right side: which side of each `or`, an unknown for each quantifier.

A way is a tree over the right side. It has a shape to be matched, facts to be proved, and unknowns
to be found; from the shape and the facts, with what was found, the right side is built again.
"""
import itertools
from dataclasses import dataclass
from typing import Iterator, Sequence

from domlogic.reading.nameless import is_pure
from domlogic.search.formulas import (PLACES, TRUE, Formula, Term, conjunction, part_sort,
                                      with_facts, with_part)
from domlogic.search.shapes import Shapes

Found = dict[Term, Term]  # unknowns with what was found for them


@dataclass
class Way:
    """A way to prove a formula: `goal`, with unknowns for its quantified variables, and the ways to
    prove its parts."""

    goal: Formula
    parts: Sequence["Way"] = ()

    def shape(self) -> Formula | None:
        """What has to be matched, or None where only facts are wanted."""
        return self.parts[0].shape()

    def facts(self) -> list[Formula]:
        """What has to be proved of the whole."""
        return [it for part in self.parts for it in part.facts()]

    def unknowns(self) -> list[Term]:
        """What has to be found."""
        return [it for part in self.parts for it in part.unknowns()]


class Pure(Way):
    """A pure formula."""

    def shape(self) -> None:
        """Nothing."""

    def facts(self) -> list[Formula]:
        """The formula."""
        return [self.goal]


class Shape(Way):
    """A shape in which no facts and choices stand."""

    def shape(self) -> Formula:
        """The shape."""
        return self.goal


class Both(Way):
    """(P and Q)."""

    def shape(self) -> Formula | None:
        """The shapes of both."""
        shapes = [it for it in (part.shape() for part in self.parts) if it is not None]
        return conjunction(shapes) if shapes else None


@dataclass
class Side(Way):
    """A side of (P or Q), 1 or 2."""

    side: int = 1


class Witness(Way):
    """(exists $x . P), with an unknown for $x."""

    def unknowns(self) -> list[Term]:
        """The unknown before those of the formula."""
        return [self.goal[1], *super().unknowns()]


@dataclass
class Frame(Way):
    """A node, row, sum, .., with the places of its parts."""

    sort: str = "t"

    def placed(self) -> list[tuple[int, Way]]:
        """The parts with their places."""
        return list(zip(PLACES[self.goal[0]], self.parts))

    def shape(self) -> Formula:
        """The goal with the shapes of its parts."""
        goal = self.goal
        for at, part in self.placed():
            inner = part.shape()
            goal = with_part(goal, at, TRUE if inner is None else inner)
        return goal


class RightSides:
    """Takes right sides apart and builds them again."""

    def __init__(self, shapes: Shapes):
        self.shapes, self.book = shapes, shapes.book
        self.origin: Found = {}  # unknowns with the variables that they stand for, to be shown

    # --------------------------------------------------------------------------------------- apart
    def ways(self, goal: Formula, sort: str) -> Iterator[Way]:
        """Gives the ways to prove the goal."""
        head = goal[0]
        if head == "and":
            for one in self.ways(goal[1], sort):
                for two in self.ways(goal[2], sort):
                    yield Both(goal, (one, two))
        elif head == "or":
            yield from self.sides(goal, sort)
        elif head == "exists":
            yield from self.witnesses(goal, sort)
        elif is_pure(goal) and head != "true":
            yield Pure(goal)
        elif head in PLACES:
            ways = [list(self.ways(goal[at], part_sort(goal, sort, at))) for at in PLACES[head]]
            for parts in itertools.product(*ways):
                yield Frame(goal, parts, sort)
        else:
            yield Shape(goal)

    def sides(self, goal: Formula, sort: str) -> Iterator[Way]:
        """Gives the ways to prove a choice."""
        for side in (1, 2):
            for way in self.ways(goal[side], sort):
                yield Side(goal, (way,), side)
        if is_pure(goal):
            yield Pure(goal)

    def witnesses(self, goal: Formula, sort: str) -> Iterator[Way]:
        """Gives the ways to prove a quantified formula."""
        book, (_, variable, inside) = self.book, goal
        new = book.fresh(book.sort_of(variable))
        self.origin[new] = ("logic", "?" + variable[1])
        inside = book.subst(inside, {variable: new})
        for way in self.ways(inside, sort):
            yield Witness(("exists", new, inside), (way,))

    # --------------------------------------------------------------------------------------- again
    def form(self, way: Way, found: Found) -> Formula:
        """The shape of the way with its facts, what was found put in."""
        shape = way.shape()
        facts = [self.book.subst(it, found) for it in way.facts()]
        if shape is None:
            return conjunction(facts)
        return with_facts(self.book.subst(shape, found), facts)

    def rebuilt(self, way: Way, found: Found, sort: str) -> int:
        """The step that the form of the way entails its goal, what was found put in."""
        book, start = self.book, self.form(way, found)
        if isinstance(way, Both):
            goal, ends = book.subst(way.goal, found), []
            for part in way.parts:
                taken = self.shapes.gather(start, self.form(part, found), sort)
                ends.append(book.cut(taken, self.rebuilt(part, found, sort)))
            return book.ent("and_in", ends, start, goal, sort)
        if isinstance(way, Side):
            goal, inner = book.subst(way.goal, found), self.rebuilt(way.parts[0], found, sort)
            rule = "or_left" if way.side == 1 else "or_right"
            return book.cut(inner, book.ent(rule, (), goal[way.side], goal, sort))
        if isinstance(way, Witness):
            return self.rebuilt_witness(way, found, sort)
        if isinstance(way, Frame):
            return self.rebuilt_frame(way, found)
        return book.id(start, sort)

    def rebuilt_witness(self, way: Witness, found: Found, sort: str) -> int:
        """The same of a quantified goal."""
        book, inner = self.book, self.rebuilt(way.parts[0], found, sort)
        goal, unknown = book.subst(way.goal, found), way.goal[1]
        proved = book.judged(inner)[2]
        up = book.ent("exists_in", (), proved, goal, sort, (found[unknown],))
        return book.cut(inner, up)

    def rebuilt_frame(self, way: Frame, found: Found) -> int:
        """The same of a goal with parts: the facts of each part go in to it."""
        book, sort, start = self.book, way.sort, self.form(way, found)
        now = book.subst(way.shape(), found)
        number = self.shapes.gather(start, now, sort)
        for at, part in way.placed():
            fact = conjunction([book.subst(it, found) for it in part.facts()])
            inner_sort = part_sort(now, sort, at)
            inner = self.rebuilt(part, found, inner_sort)
            if part.facts():
                both = book.both(number, self.shapes.gather(start, fact, sort))
                now = with_part(now, at, ("and", now[at], fact))
                number = book.cut(both, book.ent("pure_in", (), book.judged(both)[2], now, sort))
            if part.facts() and part.shape() is None:
                inner = book.cut(book.side(now[at], 2, inner_sort), inner)
            _, left, right, _ = book.judged(inner)
            if left != right:
                number = book.cut(number, book.lift1(now, sort, at, inner))
                now = with_part(now, at, right)
        return number
