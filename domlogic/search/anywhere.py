"""Matching at any depth: a part that stands somewhere on the left side."""
from typing import TYPE_CHECKING, Iterator, NamedTuple

from domlogic.search.formulas import TRUE, Formula, Path, part_at, with_part_at
from domlogic.search.right_sides import Found

if TYPE_CHECKING:
    from domlogic.search.matching import Matcher, Matches


class Somewhere(NamedTuple):
    """A part of the left side, its sort, and what it is matched with to find P in it: P itself, or
    P in a row or sum, and the path of P there."""

    path: Path
    part: Formula
    sort: str
    wanted: Formula
    inner: Path


def places(matcher: "Matcher", left: Formula, sort: str, h: str,
           wanted: Formula) -> Iterator[Somewhere]:
    """Gives the places where a shape of the sort h may stand.

    A stretch of a row, and some of the parts of a sum, are no parts of the formula: there the whole
    row or sum is matched, with `true` beside the wanted shape.
    """
    beside = {"f": (("*", TRUE, ("*", wanted, TRUE)), (2, 1)), "g": (("+", wanted, TRUE), (1,))}
    for path, part, part_sort in list(matcher.shapes.paths(left, sort)):
        if part_sort != h:
            continue
        yield Somewhere(path, part, h, wanted, ())
        is_whole = not path or part_at(left, path[:-1])[0] not in ("*", "+")
        if is_whole and h in beside:
            yield Somewhere(path, part, h, *beside[h])


def somewhere(matcher: "Matcher", left: Formula, right: Formula, sort: str,
              found: Found) -> "Matches":
    """(true @h P): P stands somewhere."""
    app, h = right[0], right[0][1]
    for there in places(matcher, left, sort, h, right[2]):
        wanted = matcher.shapes.canon(there.wanted, h).right
        for one, first in matcher.matches(there.part, wanted, h, found):
            def emit(final: Found, there=there, first=first) -> int:
                book, shapes = matcher.book, matcher.shapes
                back = shapes.canon(matcher.meant(there.wanted, final), h).back()
                inner = book.cut(first(final), back)
                lifted = book.lift(left, sort, there.path, inner)
                now = with_part_at(left, there.path, book.judged(inner)[2])
                context, _, spot = shapes.spot(now, sort, there.path + there.inner)
                whole = book.judged(spot)[2]
                ends = (book.ent("true_in", (), context, TRUE, h + sort), book.id(whole[2], h))
                loose = book.ent("mono_app", ends, whole, (app, TRUE, whole[2]), sort)
                return book.cut(lifted, spot, loose)
            yield one, emit


def with_hole(matcher: "Matcher", left: Formula, right: Formula, sort: str,
              found: Found) -> "Matches":
    """((A -o B) @h P): P stands somewhere, and with A in its place B holds."""
    book, app, h = matcher.book, right[0], right[0][1]
    for path, part, part_sort in list(matcher.shapes.paths(left, sort)):
        for one, first in matcher.matches(part, right[2], h, found) if part_sort == h else ():
            wanted = matcher.meant(right[1], one)
            if matcher.is_open(wanted):
                continue
            context, _, number = matcher.shapes.spot(left, sort, path)
            inner = matcher.matching.tried((app, context, wanted[1]), wanted[2], sort)
            if inner is None:
                continue

            def emit(final: Found, start=number, whole=(app, context, part), inner=inner,
                     first=first, wanted=wanted) -> int:
                into = book.ent("hole_adj_in", (inner,), whole[1], wanted, h + sort)
                done = first(final)
                after = (app, wanted, book.judged(done)[2])
                return book.cut(start, book.ent("mono_app", (into, done), whole, after, sort))
            yield one, emit
