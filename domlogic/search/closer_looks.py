"""Closer looks at the left side, where matching fails: what it says in other words, or says more.

A look is a function that gives a step from what is known to another formula, and that formula.
"""
import itertools
from typing import TYPE_CHECKING, Callable, Iterator, NamedTuple

from domlogic.search.facts import Facts
from domlogic.search.formulas import (NONE, TRUE, Formula, Path, Term, conjunction, conjuncts,
                                      has_head, part_at, sort_at, with_facts, with_part_at)
from domlogic.search.matching import Progress
from domlogic.search.naming import named
from domlogic.search.refusals import Fails
from domlogic.search.unknown_shapes import UnknownShapes

if TYPE_CHECKING:
    from domlogic.search.entailments import Matching


class Look(NamedTuple):
    """A closer look; `splits` is 1 where it makes cases of a forest."""

    splits: int
    taken: Callable[[], tuple[int, Formula]]


class CloserLooks:
    """The looks at one case, for one right side."""

    def __init__(self, matching: "Matching", known: Facts, right: Formula, progress: Progress):
        self.matching, self.known, self.right, self.progress = matching, known, right, progress
        self.book, self.shapes = matching.book, matching.shapes
        self.places = list(self.shapes.paths(known.shape, known.sort))

    def looks(self) -> Iterator[Look]:
        """Gives the looks, those first that lead nowhere else."""
        for taken in self.plain_looks():
            yield Look(0, taken)
        if self.matching.splits and has_head(self.right, "or"):
            for path, part, sort in self.places:
                if sort == "f" and (part == TRUE or part[0] in ("is it", "len")):
                    yield Look(1, lambda path=path, part=part: self.rewritten(
                        path, self.matching.cases(part)))

    def plain_looks(self) -> Iterator[Callable[[], tuple[int, Formula]]]:
        """Gives the looks that make no cases."""
        yield from self.meanings()
        for part in conjuncts(self.known.shape):
            if part[0] == "->":
                yield lambda part=part: self.modus_ponens(part)
        yield from self.sides()
        yield from self.wanted_lengths()
        for path, part, sort in self.places:
            if part[0] != "is it" and (self.known.rep(part), sort) in self.progress.needs:
                yield lambda path=path: self.named_at(path)
        for path, part, sort in self.places:
            if sort == "t" and part[0] in ("true", "is it") and part in self.progress.trees:
                yield lambda path=path, part=part: self.rewritten(
                    path, UnknownShapes(self.matching).node(part))
        yield from self.other_lengths()
        for step in self.book.earlier:
            if step.judgement[0] == "entails" and step.judgement[3] in ("t", "f", "g"):
                yield lambda step=step: self.by_earlier(step)

    def rewritten(self, path: Path, number: int,
                  fact: Formula | None = None) -> tuple[int, Formula]:
        """The part at the path rewritten by a step."""
        known = self.known
        return self.shapes.rewrite(known.shape, known.pure, known.sort, path, number, fact)

    # ---------------------------------------------------------------------------------- variables
    def meanings(self) -> Iterator[Callable[[], tuple[int, Formula]]]:
        """A variable with ($x is P) is P, and both."""
        for path, part, sort in self.places:
            for fact in self.known.pure if part[0] == "is it" else ():
                if fact[0] != "is" or fact[1] != part[1]:
                    continue
                yield lambda path=path, both=("and", part, fact), sort=sort: self.rewritten(
                    path, self.book.ent("is_out", (), both, both[2][2], sort), both[2])
                if has_head(self.right, "and"):
                    yield lambda path=path, both=("and", part, fact), sort=sort: self.rewritten(
                        path, self.variable_and_meaning(both, sort), both[2])

    def variable_and_meaning(self, both: Formula, sort: str) -> int:
        """($x and ($x is P)) entails ($x and P)."""
        book, fact = self.book, both[2]
        return book.both(book.side(both, 1, sort), book.ent("is_out", (), both, fact[2], sort))

    def named_at(self, path: Path) -> tuple[int, Formula]:
        """The part at the path gets a name: Z[P] entails exists $x . (Z[$x] and ($x is P))."""
        sort = sort_at(self.known.shape, self.known.sort, path)
        number = named(self.book, part_at(self.known.shape, path), sort, self.book.fresh(sort))
        return self.rewritten(path, number)

    # ------------------------------------------------------------------------ facts and conjuncts
    def sides(self) -> Iterator[Callable[[], tuple[int, Formula]]]:
        """One side of an impure `and`."""
        for path, part, sort in self.places:
            for at in (1, 2) if part[0] == "and" else ():
                yield lambda path=path, part=part, sort=sort, at=at: self.rewritten(
                    path, self.book.side(part, at, sort))

    def modus_ponens(self, part: Formula) -> tuple[int, Formula]:
        """(P -> Q) beside the shape, which entails P."""
        book, known = self.book, self.known
        mine = self.shapes.gather(known.whole, part, known.sort)
        inner = self.matching.prove(known.whole, part[1], known.sort, 1)
        pair = ("and", part, part[1])
        both = book.ent("and_in", (mine, inner), known.whole, pair, known.sort)
        number = book.cut(both, book.ent("imp_out", (), pair, part[2], known.sort))
        rest = conjunction([it for it in conjuncts(known.shape) if it != part])
        after = with_facts(("and", part[2], rest) if rest != TRUE else part[2], known.pure)
        return self.shapes.gather(known.whole, after, known.sort, [(part[2], number)]), after

    def by_earlier(self, step) -> tuple[int, Formula]:
        """An entailment of an earlier step, used at the first part that entails its left side."""
        known, facts = self.known, self.known.pure
        _, left, right, h = step.judgement
        for path, part, sort in self.places:
            if sort != h or self.book.same(part, right):
                continue
            inner = self.matching.matched(Facts(self.matching, part, facts, h), left, Progress())[1]
            if inner is not None:
                number = self.book.cut(inner, step.number)
                return self.rewritten(path, number, conjunction(facts) if facts else None)
        raise Fails("an earlier step says nothing of this case")

    # ------------------------------------------------------------------------------------ lengths
    def wanted_lengths(self) -> Iterator[Callable[[], tuple[int, Formula]]]:
        """A stretch of a row, of which another length was wanted that is the same by the facts."""
        for group, wanted in dict.fromkeys(self.progress.lengths):
            term = self.matching.lengths.length(group)[1]
            equation = ("=", term, wanted[1])
            number = self.known.prove(equation)
            places = self.rows_with(group) if number is not None else ()
            for path, before, stretch, after in places:
                yield lambda path=path, row=(before, stretch, after), wanted=wanted: \
                    self.stretch_replaced(path, row, wanted)

    def rows_with(self, group: Formula) -> Iterator[tuple[Path, Formula, Formula, Formula]]:
        """Gives the whole rows in which the stretch stands, with what is before and behind it."""
        row_of, atoms = self.shapes.row_of_parts, self.shapes.atoms
        for path, part, sort in self.places:
            if sort != "f" or (path and part_at(self.known.shape, path[:-1])[0] == "*"):
                continue
            parts = atoms("*", part)
            for start, end in itertools.combinations_with_replacement(range(len(parts) + 1), 2):
                stretch = row_of("*", parts[start:end])
                if self.known.rep(stretch) == group:
                    yield path, row_of("*", parts[:start]), stretch, row_of("*", parts[end:])

    def stretch_replaced(self, path: Path, row: tuple[Formula, Formula, Formula],
                         wanted: Formula) -> tuple[int, Formula]:
        """The stretch of the row becomes len E, where E is its length by the facts."""
        known, (before, stretch, after) = self.known, row
        listing = ("*", before, ("*", stretch, after))
        parted = self.shapes.canon(listing, "f").back()
        start, now = self.rewritten(path, parted)
        equation = ("=", self.matching.lengths.length(stretch)[1], wanted[1])
        pure = [*known.pure, equation]
        shape = with_part_at(known.shape, path, listing)
        more = with_facts(shape, pure)
        fact = Facts(self.matching, shape, known.pure, known.sort).prove(equation)
        if fact is None:
            raise Fails("the length follows of the row as it was alone")
        second = self.shapes.gather(now, more, known.sort, [(equation, fact)])
        length, place = self.length_by_fact(stretch, equation), (*path, 2, 1)
        third, target = self.shapes.rewrite(shape, pure, known.sort, place, length, equation)
        return self.book.cut(start, second, third), target

    def length_by_fact(self, forest: Formula, equation: Formula) -> int:
        """(forest and E = F) entails len F, where E is the length of the forest."""
        book, pair = self.book, ("and", forest, equation)
        length = book.cut(book.side(pair, 1, "f"), self.matching.lengths.only_length(forest))
        both = book.both(book.side(pair, 2, "f"), length)
        done = ("len", equation[2])
        return book.cut(both, book.ent("eq_subst", (), book.judged(both)[2], done, "f"))

    def other_lengths(self) -> Iterator[Callable[[], tuple[int, Formula]]]:
        """A forest of no length is empty; a row with a length is one of its length alone."""
        for path, part, _ in self.places:
            if part[0] == "len" and self.known.rep(part[1], True) == ("int", 0):
                yield lambda path=path, part=part: self.no_length(path, part)
        for path, part, sort in self.places if has_head(self.right, "len") else ():
            if sort == "f" and part[0] == "*":
                if any(it[0] == "len" for it in self.shapes.atoms("*", part)):
                    yield lambda path=path, part=part: self.rewritten(
                        path, self.matching.lengths.only_length(part))

    def no_length(self, path: Path, part: Formula) -> tuple[int, Formula]:
        """len E, where E is 0, is the empty forest."""
        book, known, zero = self.book, self.known, ("len", ("int", 0))
        equation = ("=", part[1], ("int", 0))
        number = known.prove(equation)
        turned = self.shapes.gather(("and", part, equation), ("and", equation, part), "f")
        empty = book.cut(turned, book.ent("eq_subst", (), ("and", equation, part), zero, "f"),
                         book.ent("len_zero", (), zero, NONE, "f"))
        pure = known.pure + [equation]
        more = with_facts(known.shape, pure)
        start = self.shapes.gather(known.whole, more, known.sort, [(equation, number)])
        step, after = self.shapes.rewrite(known.shape, pure, known.sort, path, empty, equation)
        return book.cut(start, step), after
