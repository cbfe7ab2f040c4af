"""Frames: a triple of a part is made one of the whole case, the rest of which stays as it is."""
from typing import Callable, Iterable, NamedTuple

from domlogic.reading.nameless import modified
from domlogic.search.book import Book
from domlogic.search.entailments import Matching
from domlogic.search.facts import Facts
from domlogic.search.formulas import Formula, Path, conjunction, free, part_at
from domlogic.search.heaps import Case, Command
from domlogic.search.refusals import Fails, Refusal
from domlogic.search.triples import Triples


class Place(NamedTuple):
    """A part of a case's shape; where that is written otherwise, so that the part stands in it,
    what writes the step that leads there."""

    shape: Formula
    path: Path
    sort: str
    start: Callable[[], int] | None = None

    @property
    def part(self) -> Formula:
        return part_at(self.shape, self.path)


class Frames:
    """Frames in a book."""

    def __init__(self, book: Book, matching: Matching):
        self.book, self.matching, self.shapes = book, matching, matching.shapes
        self.triples = Triples(book, matching)
        self.known = self.triples.heaps.known

    def at(self, case: Case, place: Place, inner: int, triple: int) -> int:
        """The triple of the case from one of the part at the place. `inner` is the step that the
        part with the facts of the case entails the triple's pre. Facts that the command leaves
        alone stay."""
        book, every, here = self.book, conjunction(case.pure), case.formula
        _, pre, command, post, h = book.judged(triple)
        left_alone = [it for it in case.pure if not free(it) & modified(command)]
        has_kept, kept = bool(left_alone), conjunction(left_alone)
        context, _, cut_out = self.shapes.spot(place.shape, case.sort, place.path)
        app, outer = "@" + h, ("and", context, kept) if has_kept else context
        start = place.start and place.start()
        number = book.cut(self.shapes.gather(here, case.shape, case.sort), start, cut_out)
        if has_kept:
            number = self.fact_taken_in(here, number, kept, (app, outer, place.part))
        if case.pure:
            with_all = (app, outer, ("and", place.part, every))
            number = self.fact_taken_in(here, number, every, with_all)
        before, after = (app, outer, pre), (app, outer, post)
        premises = book.id(outer, h + case.sort), inner
        moved = book.ent("mono_app", premises, book.judged(number)[2], before, case.sort)
        number = book.cut(number, moved)
        triple = book.tri("frame", (triple,), before, command, after, case.sort)
        if has_kept:
            apart = ("and", (app, context, post), kept)
            triple = self.triples.weaker(triple, book.ent("pure_out", (), after, apart, case.sort))
        return self.triples.stronger(number, triple)

    def fact_taken_in(self, here: Formula, number: int, fact: Formula, after: Formula) -> int:
        """From the step that `here` entails a formula the one that it entails the formula with the
        fact at a part of it."""
        book, (_, _, now, sort) = self.book, self.book.judged(number)
        both = ("and", now, fact)
        ends = number, self.shapes.gather(here, fact, sort)
        taken = book.ent("and_in", ends, here, both, sort)
        return book.cut(taken, book.ent("pure_in", (), both, after, sort))

    def with_facts(self, known: Facts, number: int, facts: Iterable[Formula]) -> int:
        """From the step that the known entails a formula the one that it entails the formula with
        the facts, which are proved one by one."""
        for fact in facts:
            proved = known.prove(fact)
            if proved is None:
                raise Fails(Refusal(known.whole, fact))
            now = ("and", self.book.judged(number)[2], fact)
            number = self.book.ent("and_in", (number, proved), known.whole, now, known.sort)
        return number

    def arranged(self, known: Facts, form: Formula, facts: Iterable[Formula]) -> int:
        """The step that the known entails its shape in another form with the facts."""
        number = self.shapes.gather(known.whole, known.shape, known.sort)
        number = self.book.cut(number, self.turned(known.shape, form, known.sort))
        return self.with_facts(known, number, facts)

    def turned(self, one: Formula, other: Formula, sort: str) -> int | None:
        """The step between two formulas of one normal form."""
        if one == other:
            return None
        left, right = self.shapes.canon(one, sort), self.shapes.canon(other, sort)
        if left.right != right.right:
            raise Fails("two formulas of one normal form")
        return self.book.cut(left.fwd(), right.back())

    def of_whole(self, case: Case, command: Command, axiom: str, number: int,
                 facts: list[Formula], after: Formula) -> int:
        """The triple of an axiom that speaks of the whole shape. `number` is the step that the
        shape entails the axiom's own form of it."""
        known = self.known(case)
        start = self.shapes.gather(known.whole, case.shape, case.sort)
        number = self.with_facts(known, self.book.cut(start, number), facts)
        pre = self.book.judged(number)[2]
        triple = self.book.tri(axiom, (), pre, command, after, case.sort)
        if not case.pure:
            return self.triples.stronger(number, triple)
        return self.at(case, Place(case.shape, (), case.sort), number, triple)

    def beside_nothing(self, case: Case) -> Place:
        """The empty grove beside the shape."""
        book, shape = self.book, case.shape
        turned, wide = ("+", shape, ("0g",)), ("+", ("0g",), shape)

        def start() -> int:
            return book.cut(book.ent("plus_unit_back", (), shape, turned, "g"),
                            book.ent("plus_comm", (), turned, wide, "g"))

        return Place(wide, (1,), "g", start)
