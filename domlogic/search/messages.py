"""What an author is told where the search finds no proof, in names that don't depend on the length
of the search."""
from typing import Iterable, NamedTuple

from domlogic.reading.nameless import is_pure
from domlogic.reading.sorts import walk
from domlogic.search.book import Book
from domlogic.search.formulas import TRUE, Formula, conjunction, conjuncts, free
from domlogic.search.heaps import Case, Opened, tidied
from domlogic.search.printing import command_text, condition_text, formula_text
from domlogic.search.refusals import Fails
from domlogic.search.shapes import Shapes


class Failure(NamedTuple):
    """Where the search ends, what is known there, what is wanted, and the first of it that isn't
    shown."""

    place: str
    known: tuple | None
    wanted: tuple | str
    missing: tuple | None = None
    instead: tuple | None = None
    why: str | None = None


def heading(command: tuple) -> str:
    """The command as text, a compound one without its blocks."""
    head, *parts = command
    if head in ("if", "while"):
        return f"{head} {condition_text(parts[0])}"
    if head == "local":
        return f"local {parts[0][1]} : {parts[1]}"
    return command_text(command)


def failure_of(why: Fails, place: str) -> Failure:
    """The failure of a search that ended at this place."""
    told = why.args[0] if why.args else "a proof"
    if isinstance(told, str):
        return Failure(place, None, told)
    known, wanted, *more = told
    kind, instead, missing = more[0][1:4] if more else (None, None, None)
    if kind != "part":
        instead = None
    because = more[1] if more[1:] and more[1] else None
    return Failure(place, known, wanted, missing if kind else None, instead, because)


def in_normal_form(failure: Failure, book: Book, sort: str) -> Failure:
    """The failure with its formulas in normal form."""
    shapes = Shapes(book)

    def normal(formula):
        is_formula = isinstance(formula, tuple)
        return shapes.canon(formula, sort).right if is_formula else formula

    known = normal(failure.known)
    return failure._replace(known=known and without_noise(known, book, sort),
                            wanted=normal(failure.wanted))


def without_noise(known: Formula, book: Book, sort: str) -> Formula:
    """The case without facts that say nothing beside it."""
    parts = conjuncts(known)
    shape = conjunction([it for it in parts if not is_pure(it)])
    pure = tuple(it for it in parts if is_pure(it) and it != TRUE)
    new = tuple(sorted(it for it in free(known) if it[0] == "logic" and it[1] in book.new))
    return tidied(Opened(new, Case(shape, pure, sort))).case.formula


def lines_of(failure: Failure, names: "ShownNames") -> list[str]:
    """The lines under the place."""
    given = {"in the case": failure.known, "wanted": failure.wanted, "not shown": failure.missing,
             "where stands": failure.instead, "because": failure.why}
    told = [(title, formula) for title, formula in given.items() if formula is not None]
    return [f"  {title:<12} {names.text(formula)}" for title, formula in told]


class ShownNames:
    """The search's own variables as they are shown: $node_1, $node_2 .. in the order in which they
    are met."""

    def __init__(self, new: dict[str, str], declared: Iterable[tuple[str, str]]):
        self.new, self.shown = new, {}
        self.taken = {name for name, _ in declared}

    def text(self, formula: tuple | str) -> str:
        """The formula's text in shown names."""
        if isinstance(formula, str):
            return formula
        self.meet(it[1] for it in walk(formula) if it[:1] == ("logic",))
        return formula_text(self.renamed(formula))

    def meet(self, names: Iterable[str]) -> None:
        for name in names:
            if name in self.new and name not in self.shown:
                self.shown[name] = self.next_name(self.new[name])

    def next_name(self, sort: str) -> str:
        count = sum(1 for name in self.shown if self.new[name] == sort) + 1
        used = self.taken | set(self.shown.values())
        while f"${sort}_{count}" in used:
            count += 1
        return f"${sort}_{count}"

    def renamed(self, node: tuple) -> tuple:
        if node[:1] == ("logic",):
            return ("logic", self.shown.get(node[1], node[1]))
        return tuple(self.renamed(it) if isinstance(it, tuple) else it for it in node)
