"""Known triples on one case: those of called procedures, and those of earlier steps."""
import itertools
from typing import Iterator

from domlogic.search.book import Book
from domlogic.search.formulas import Formula, free, variables_named
from domlogic.search.frames import Frames, Place
from domlogic.search.heaps import Case, Command, Variable
from domlogic.search.matching import Progress
from domlogic.search.refusals import Fails, Missing, Refusal

Judgement = tuple


class NoPart(Fails):
    """No part of the case meets what the triple wants. `needs` are parts, with their sorts, that
    stand where it wants a variable."""

    def __init__(self, case: Case, wanted: Formula, needs: list, missing: Missing = Missing()):
        super().__init__(Refusal(case.formula, wanted, missing))
        self.needs = needs


def call(frames: Frames, case: Case, command: Command) -> int:
    """A call, by the specification of what is called, whose variables are found."""
    book = frames.book
    _, results, name, arguments = command
    callee = book.scope.procedures[name]
    terms = {("prog", one): term for (one, _), term in zip(callee.params, arguments)}
    ends = {("prog", one): term for (one, _), term in zip(callee.results, results)}
    pre, post = (book.subst(it, {**terms, **ends}) for it in (callee.pre, callee.post))
    names = sorted(it for it in free(pre) | free(post) if it[0] == "logic")
    number = book.add("call", (), ("triple", pre, command, post, callee.sort))
    return applied(frames, case, number, names)


def applied(frames: Frames, case: Case, triple: int, names: list[Variable]) -> int:
    """A known triple for a part of the case that meets its pre; the names in it may be
    instantiated."""
    book, matching = frames.book, frames.matching
    _, pre, _, _, sort = book.judged(triple)
    renamed = {it: book.fresh(book.sort_of(it)) for it in names}
    wanted, needs, missing = book.subst(pre, renamed), [], Missing()
    for place in parts(frames, case, sort):
        known = frames.known(Case(place.part, case.pure, sort))
        progress = Progress()
        found, inner = matching.matched(known, wanted, progress, frozenset(renamed.values()))
        if inner is None and not names and place.start is None:
            found, inner = {}, matching.tried(known.whole, wanted, sort, 2)
        if inner is not None:
            number = instantiated(book, triple, renamed, found)
            meant = book.judged(inner)[2]
            if not book.same(meant, book.judged(number)[1]):
                raise Fails(Refusal(known.whole, book.judged(number)[1]))
            return frames.at(case, place, inner, number)
        needs += progress.needs
        missing = max(missing, progress.farthest, key=lambda it: it.hits)
    unknown = {new: ("logic", "?" + it[1]) for it, new in renamed.items()}
    asked = missing.asked and variables_named(missing.asked, unknown)
    raise NoPart(case, pre, needs, missing._replace(asked=asked))


def parts(frames: Frames, case: Case, sort: str) -> Iterator[Place]:
    """Gives the parts of the case at this sort, some roots together, and nothing beside all."""
    for path, _, part_sort in list(frames.shapes.paths(case.shape, case.sort)):
        if part_sort == sort:
            yield Place(case.shape, path, sort)
    if sort == "g" and case.sort == "g":
        yield from some_roots(frames, case.shape)
        yield frames.beside_nothing(case)


def some_roots(frames: Frames, shape: Formula) -> Iterator[Place]:
    """Gives the choices of parts of a sum, more and more of them, put in front of the others."""
    shapes, book = frames.shapes, frames.book
    atoms = shapes.atoms("+", shape)
    for count in range(1, len(atoms)):
        for chosen in itertools.combinations(range(len(atoms)), count):
            others = [it for it in range(len(atoms)) if it not in chosen]
            rows = (shapes.row_of_parts("+", [atoms[it] for it in row]) for row in (chosen, others))
            wide = ("+", *rows)

            def start(order=(*chosen, *others), wide=wide) -> int:
                turned = shapes.reordered(atoms, list(order)).fwd()
                return book.cut(turned, shapes.canon(wide, "g").back())

            yield Place(wide, (1,), "g", start)


def instantiated(book: Book, number: int, renamed: dict[Variable, Variable],
                 found: dict[Variable, Formula]) -> int:
    """The triple with what was found put for its variables, one by one: where a term speaks of a
    variable whose turn is later, all get other names first."""
    names = list(renamed)
    witness = {it: found.get(renamed[it], renamed[it]) for it in names}
    is_in_order = all(not free(witness[one]) & set(names[at + 1:]) for at, one in enumerate(names))
    rounds = [list(witness.items())]
    if not is_in_order:
        rounds = [list(renamed.items()), [(renamed[it], witness[it]) for it in names]]
    for one, to in itertools.chain(*rounds):
        head, pre, command, post, sort = book.judged(number)
        if one != to and one in free(pre) | free(post):
            pre, post = (book.subst(it, {one: to}) for it in (pre, post))
            number = book.add("instance", (number,), (head, pre, command, post, sort), (one, to))
    return number
