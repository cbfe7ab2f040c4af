"""Matching of rows and sums: which parts of the left one each part of the wanted one takes."""
import itertools
from typing import TYPE_CHECKING, Callable, Iterator

from domlogic.search.formulas import EMPTY, NONE, TRUE, Formula, with_part_at
from domlogic.search.normal_form import SORT_OF
from domlogic.search.refusals import Fails
from domlogic.search.right_sides import Found

if TYPE_CHECKING:
    from domlogic.search.matching import Matcher, Matches

Piece = tuple[Formula, Callable[[Found], int]]  # a stretch of a row, or some roots, with its step
Taken = dict[int, tuple[list[int], Formula, Callable[[Found], int]]]


# ------------------------------------------------------------------------------------------- rows

def rows(matcher: "Matcher", left: Formula, right: Formula, found: Found) -> "Matches":
    """Each part of the wanted row takes a stretch of the left one."""
    have, want = (matcher.shapes.atoms("*", it) for it in (left, right))
    for one, pieces in stretches(matcher, have, want, found):
        yield one, lambda final, pieces=pieces: grouped(matcher, "*", left, pieces, final)


def stretches(matcher: "Matcher", have: list[Formula], want: list[Formula],
              found: Found) -> Iterator[tuple[Found, list[Piece]]]:
    """Gives what is found, with a stretch of the left parts for each of the wanted ones."""
    if not want:
        if not have:
            yield found, []
        else:
            matcher.progress.part_missed(matcher.shapes.row_of_parts("*", have), NONE)
        return
    first, *rest = want
    counts = [1] if have else []
    if matcher.absorbs(first, found):
        counts = range(len(have), -1, -1) if rest else [len(have)]
    elif not have:
        matcher.progress.part_missed(NONE, matcher.meant(first, found))
    for count in counts:
        group = matcher.shapes.row_of_parts("*", have[:count])
        for one, emit in matcher.matches(group, first, "f", found):
            for last, pieces in stretches(matcher, have[count:], rest, one):
                yield last, [(group, emit), *pieces]


def grouped(matcher: "Matcher", op: str, left: Formula, pieces: list[Piece], found: Found) -> int:
    """The step from the left row, or sum, to that of the right sides of the pieces."""
    book, sort = matcher.book, SORT_OF[op]
    listing = matcher.shapes.row_of_parts(op, [group for group, _ in pieces])
    conv = matcher.shapes.canon(listing, sort)
    if conv.right != left:
        raise Fails("the pieces are not the whole")
    number, now, path = conv.back(), listing, ()
    for at, (_, emit) in enumerate(pieces):
        place = path + (1,) if at + 1 < len(pieces) else path
        inner = emit(found)
        _, one, other, _ = book.judged(inner)
        if one != other:
            number = book.cut(number, book.lift(now, sort, place, inner))
            now = with_part_at(now, place, other)
        path += (2,)
    return number


# ------------------------------------------------------------------------------------------- sums

def sums(matcher: "Matcher", left: Formula, right: Formula, found: Found) -> "Matches":
    """Each part of the wanted sum takes one of the left parts, or several, in any order."""
    have, want = (matcher.shapes.atoms("+", it) for it in (left, right))
    for one, taken in Sum(matcher, have, want).ways(found):
        pieces = [taken[at] for at in range(len(want))]

        def emit(final: Found, pieces=pieces) -> int:
            conv = matcher.shapes.reordered(have, [it for places, *_ in pieces for it in places])
            listing = [(group, emit) for _, group, emit in pieces]
            return matcher.book.cut(conv.fwd(), grouped(matcher, "+", conv.right, listing, final))
        yield one, emit


class Sum:
    """A sum, by its parts, and a wanted one."""

    def __init__(self, matcher: "Matcher", have: list[Formula], want: list[Formula]):
        self.matcher, self.have, self.want = matcher, have, want
        self.lost: set[tuple] = set()  # what was left to do where that can't be done

    def ways(self, found: Found) -> Iterator[tuple[Found, Taken]]:
        """Gives what is found, with the left parts that each wanted part takes.

        Parts that take one root come first, and among them the one for which the fewest will do.
        """
        several = [at for at, it in enumerate(self.want) if self.matcher.absorbs(it, found)]
        single = [at for at in range(len(self.want)) if at not in several]
        over = list(range(len(self.have)))
        if len(single) > len(over) or (len(single) < len(over) and not several):
            self.counted(over, single, found)
            return
        several.sort(key=lambda at: self.want[at] == TRUE)  # `true` takes what is left
        for one, taken in self.taken_singly(over, single, found):
            gone = [places[0] for places, *_ in taken.values()]
            left_over = [it for it in over if it not in gone]
            for last, more in self.taken_together(left_over, several, one):
                yield last, {**taken, **more}

    def counted(self, over: list[int], single: list[int], found: Found) -> None:
        """Remembers what is left over, or missing, where there are too many or too few."""
        left = list(over)
        for at in single:
            fits = [it for it in left if self.may_be(self.have[it], self.want[at], found)]
            if not fits:
                self.missed(left, self.want[at], found)
                return
            left.remove(fits[0])
        self.missed(left, EMPTY, found)

    def missed(self, over: list[int], wanted: Formula, found: Found) -> None:
        """Remembers that nothing of what is left over is what is wanted."""
        there = self.matcher.shapes.row_of_parts("+", [self.have[it] for it in over])
        self.matcher.progress.part_missed(there, self.matcher.meant(wanted, found))

    def taken_singly(self, over: list[int], rest: list[int],
                     found: Found) -> Iterator[tuple[Found, Taken]]:
        """One left part for each of these wanted parts."""
        if not rest:
            yield found, {}
            return
        key = (*over, None, *rest, *self.relevant(rest, found))
        if key in self.lost or not self.matcher.possible(found):
            return
        fits = {at: [it for it in over if self.may_be(self.have[it], self.want[at], found)]
                for at in rest}
        at = min(rest, key=lambda at: len(fits[at]))
        if not fits[at]:
            self.missed(over, self.want[at], found)
        others, none = [it for it in rest if it != at], True
        for it in fits[at]:
            left_over = [other for other in over if other != it]
            for one, emit in self.matcher.matches(self.have[it], self.want[at], "g", found):
                for last, taken in self.taken_singly(left_over, others, one):
                    none = False
                    yield last, {**taken, at: ([it], self.have[it], emit)}
        if none:
            self.lost.add(key)

    def relevant(self, rest: list[int], found: Found) -> tuple:
        """What was found for the unknowns of the wanted parts, and of the wanted facts."""
        if self.matcher.facts:
            return tuple(found.items())
        return tuple(self.matcher.book.subst(self.want[at], found) for at in rest)

    def may_be(self, have: Formula, want: Formula, found: Found) -> bool:
        """Says no where the left part can't be the wanted one, whatever is found: another form, or
        a node with another name, number or list. What is below is told by the match itself."""
        matcher, head = self.matcher, want[0]
        if have[0] == "and" or head in ("true", "and", "is it") or head[0] == "@":
            return True
        if have[0] != head:  # a closer look may be taken at a tree
            return head == "node" and have[0] in ("is it", "true")
        if head == "node":
            terms = ((have[at], matcher.meant(want[at], found, True)) for at in (1, 2, 4))
            return all(one == other or matcher.is_open(other) for one, other in terms)
        return head != "one root" or self.may_be(have[1], want[1], found)

    def taken_together(self, over: list[int], rest: list[int],
                       found: Found) -> Iterator[tuple[Found, Taken]]:
        """Any number of left parts for each of these wanted parts: few of them, and all that are
        left for the last."""
        if not rest:
            if not over:
                yield found, {}
            return
        at, *others = rest
        groups = subsets(over) if others else [over]
        for places in groups:
            group = self.matcher.shapes.row_of_parts("+", [self.have[it] for it in places])
            left_over = [it for it in over if it not in places]
            for one, emit in self.matcher.matches(group, self.want[at], "g", found):
                for last, taken in self.taken_together(left_over, others, one):
                    yield last, {**taken, at: (places, group, emit)}


def subsets(places: list[int]) -> Iterator[list[int]]:
    """Gives the subsets of the places, small ones first."""
    for count in range(len(places) + 1):
        yield from map(list, itertools.combinations(places, count))
