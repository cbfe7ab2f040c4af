"""Normal forms of shapes, with proofs both ways.

In normal form spots are opened, rows and sums are bracketed to the right, and nothing empty stands
in them; inside `and`, `or` and `exists` too. The order of a sum stays as it is written.
"""
from typing import Sequence

from domlogic.reading.limits import DATA_SORTS
from domlogic.reading.nameless import is_pure
from domlogic.search.book import Book
from domlogic.search.conversions import Conversion, Conversions
from domlogic.search.formulas import EMPTY, NONE, PLACES, TRUE, Formula, part_sort, with_part

ASSOCIATIVE = {"*": "star_assoc", "+": "plus_assoc"}
NOTHING = {"*": NONE, "+": EMPTY}
SORT_OF = {"*": "f", "+": "g"}


class NormalForm(Conversions):
    """Brings formulas to their normal form."""

    def __init__(self, book: Book):
        super().__init__(book)
        self.normal: dict[tuple[Formula, str], Conversion] = {}

    # ------------------------------------------------------------------------------ rows and sums
    def row_of_parts(self, op: str, parts: Sequence[Formula]) -> Formula:
        """The row (`*`) or sum (`+`) of the parts, bracketed to the right."""
        if not parts:
            return NOTHING[op]
        return parts[0] if len(parts) == 1 else (op, parts[0], self.row_of_parts(op, parts[1:]))

    def atoms(self, op: str, formula: Formula) -> list[Formula]:
        """The parts of a row or sum in normal form."""
        found = []
        while formula[0] == op:
            found.append(formula[1])
            formula = formula[2]
        return found if formula == NOTHING[op] else [*found, formula]

    def appended(self, op: str, one: list[Formula], two: list[Formula]) -> Conversion:
        """From (the row of one) op (the row of two) to the row of both."""
        sort, start = SORT_OF[op], (op, self.row_of_parts(op, one), self.row_of_parts(op, two))
        if not one and op == "*":
            return self.row("unit_star", start, start[2], sort)
        if not one:
            turned = (op, start[2], EMPTY)
            return self.chain(self.row("plus_comm", start, turned, sort, "plus_comm"),
                              self.row("plus_unit", turned, start[2], sort))
        if not two:
            return self.row("star_unit" if op == "*" else "plus_unit", start, start[1], sort)
        if len(one) == 1:
            return self.refl(start, sort)
        rest = self.appended(op, one[1:], two)
        moved = (op, one[0], rest.left)
        return self.chain(self.row(ASSOCIATIVE[op], start, moved, sort),
                          self.inside(moved, sort, 2, rest))

    def reordered(self, parts: list[Formula], order: Sequence[int]) -> Conversion:
        """From the sum of the parts to their sum in the order of the places."""
        if len(parts) < 2:
            return self.refl(self.row_of_parts("+", parts), "g")
        front = self.moved_first(parts, order[0])
        rest = parts[:order[0]] + parts[order[0] + 1:]
        places = [it - (it > order[0]) for it in order[1:]]
        after = self.reordered(rest, places)
        return self.chain(front, self.inside(front.right, "g", 2, after))

    def moved_first(self, parts: list[Formula], place: int) -> Conversion:
        """From the sum of the parts to the sum with the part of this place first."""
        start = self.row_of_parts("+", parts)
        if place == 0:
            return self.refl(start, "g")
        head, chosen = parts[0], parts[place]
        inner = self.inside(start, "g", 2, self.moved_first(parts[1:], place - 1))
        rest = parts[1:place] + parts[place + 1:]
        swap = self.row("plus_comm", ("+", head, chosen), ("+", chosen, head), "g", "plus_comm")
        if not rest:
            return self.chain(inner, swap)
        tail = self.row_of_parts("+", rest)
        there, done = ("+", swap.left, tail), ("+", chosen, ("+", head, tail))
        return self.chain(inner, self.row("plus_assoc_back", inner.right, there, "g", "plus_assoc"),
                          self.inside(there, "g", 1, swap),
                          self.row("plus_assoc", ("+", swap.right, tail), done, "g"))

    # -------------------------------------------------------------------------------- normal form
    def canon(self, formula: Formula, sort: str) -> Conversion:
        """From the formula to its normal form."""
        key = formula, sort
        if key not in self.normal:
            self.normal[key] = self.to_normal(formula, sort)
        return self.normal[key]

    def to_normal(self, formula: Formula, sort: str) -> Conversion:
        """The same, made anew."""
        head = formula[0]
        if sort not in DATA_SORTS:
            return self.refl(formula, sort)
        if head in ("and", "or"):
            one = self.normal_part(formula, sort, 1)
            return self.chain(one, self.normal_part(one.right, sort, 2))
        if head == "exists":
            return self.inside(formula, sort, 2, self.canon(formula[2], sort))
        if head in ("node", "one tree", "one root"):
            return self.normal_shape(formula, sort, PLACES[head][0])
        if head in ("*", "+"):
            one = self.normal_shape(formula, sort, 1)
            two = self.normal_shape(one.right, sort, 2)
            parts = [self.atoms(head, two.right[1]), self.atoms(head, two.right[2])]
            return self.chain(one, two, self.appended(head, *parts))
        return self.normal_spot(formula, sort) if head[0] == "@" else self.refl(formula, sort)

    def normal_spot(self, formula: Formula, sort: str) -> Conversion:
        """The same of (K @h P)."""
        head, context, part = formula
        if context[0] == "and" and is_pure(context[2]):
            beside = ("and", (head, context[1], part), context[2])
            out = self.row("pure_out", formula, beside, sort, "pure_in")
            return self.chain(out, self.canon(out.right, sort))
        pushed = self.pushed(formula, sort)
        if pushed is None:
            return self.normal_shape(formula, sort, 2)
        return self.chain(pushed, self.canon(pushed.right, sort))

    def normal_part(self, formula: Formula, sort: str, at: int) -> Conversion:
        """The same at one part of the formula."""
        inner = self.canon(formula[at], part_sort(formula, sort, at))
        return self.inside(formula, sort, at, inner)

    def normal_shape(self, formula: Formula, sort: str, at: int) -> Conversion:
        """The same where a shape stands; a pure formula there becomes (true and it)."""
        part = formula[at]
        if not is_pure(part) or part[0] in ("true", "false", "and"):
            return self.normal_part(formula, sort, at)
        book, inner, wrapped = self.book, part_sort(formula, sort, at), ("and", TRUE, part)

        def make(forward: bool) -> int:
            if not forward:
                return book.side(wrapped, 2, inner)
            return book.both(book.ent("true_in", (), part, TRUE, inner), book.id(part, inner))

        return self.inside(formula, sort, at, Conversion(part, wrapped, inner, make))

    def pushed(self, formula: Formula, sort: str) -> Conversion | None:
        """One layer of the context of (K @h P) pushed over P; None where it is no literal layer."""
        app, context, part = formula
        head = context[0]

        def at_part(at: int) -> Formula:
            return with_part(context, at, (app, context[at], part))

        if head == "?" + app[1]:
            return self.row("hole_left", formula, part, sort)
        if head == "node":
            return self.row("app_node", formula, at_part(3), sort)
        if head in ("one tree", "one root"):
            rule = "app_tree" if head == "one tree" else "app_root"
            return self.row(rule, formula, at_part(1), sort)
        if head == ".*":
            return self.row("app_star_left", formula, ("*", *at_part(1)[1:]), sort)
        if head == "*.":
            return self.row("app_star_right", formula, ("*", *at_part(2)[1:]), sort)
        if head == ".+":
            return self.row("app_plus", formula, ("+", *at_part(1)[1:]), sort)
        if head[0] == "@":
            return self.row("app_assoc", formula, at_part(2), sort)
        return None
