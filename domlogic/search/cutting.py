"""Cutting a part out of a shape, (CONTEXT @h PART), and putting it back."""
from typing import Iterator

from domlogic.search.formulas import (PLACES, Formula, Path, part_at, part_sort, with_part,
                                      with_part_at)
from domlogic.search.normal_form import NormalForm
from domlogic.search.refusals import Fails

BACK_RULES = {"node": "app_node_back", "one tree": "app_tree_back", "one root": "app_root_back"}


class Cutting(NormalForm):
    """Contexts of places."""

    def paths(self, formula: Formula, sort: str,
              path: Path = ()) -> Iterator[tuple[Path, Formula, str]]:
        """All places of shapes, the outer ones first, with the part and its sort; not below
        `and`, `or` and `exists`."""
        yield path, formula, sort
        for at in PLACES.get(formula[0], ()):
            yield from self.paths(formula[at], part_sort(formula, sort, at), (*path, at))

    def spot(self, formula: Formula, sort: str, path: Path) -> tuple[Formula, str, int]:
        """(context, h, step): the formula entails (context @h part at the path)."""
        book = self.book
        if not path:
            hole = ("?" + sort,)
            start = book.ent("hole_left_back", (), formula, ("@" + sort, hole, formula), sort)
            return hole, sort, start
        at = path[0]
        context, h, number = self.spot(formula[at], part_sort(formula, sort, at), path[1:])
        app, part = "@" + h, part_at(formula, path)
        number = book.lift1(formula, sort, at, number)
        moved = with_part(formula, at, (app, context, part))
        if formula[0] == "+" and at == 2:
            turned = ("+", moved[2], moved[1])
            number = book.cut(number, book.ent("plus_comm", (), moved, turned, sort))
            moved = turned
        outer, rule = self.layer(formula, at, context)
        return outer, h, book.cut(number, book.ent(rule, (), moved, (app, outer, part), sort))

    @staticmethod
    def layer(formula: Formula, at: int, context: Formula) -> tuple[Formula, str]:
        """The formula as a layer around the context of its part, and the rule that makes it."""
        head = formula[0]
        if head in BACK_RULES:
            return with_part(formula, at, context), BACK_RULES[head]
        if head == "*" and at == 1:
            return (".*", context, formula[2]), "app_star_left_back"
        if head == "*":
            return ("*.", formula[1], context), "app_star_right_back"
        if head == "+":
            return (".+", context, formula[3 - at]), "app_plus_back"
        return (head, formula[1], context), "app_assoc_back"

    def unspot(self, context: Formula, h: str, part: Formula, there: Formula, sort: str) -> int:
        """The step that (context @h part) entails the formula with the part put in."""
        one = self.canon(("@" + h, context, part), sort)
        two = self.canon(there, sort)
        number = one.fwd()
        if one.right != two.right:
            number = self.book.cut(number, self.sum_order(one.right, two.right, sort))
        return self.book.cut(number, two.back())

    # --------------------------------------------------------------------------- the order of sums
    def sum_order(self, one: Formula, two: Formula, sort: str) -> int | None:
        """The step from a normal form to one that differs in the order of sums."""
        if one == two:
            return self.book.id(one, sort)
        if sort == "g" and "+" in (one[0], two[0]):
            return self.sum_ordered(self.atoms("+", one), self.atoms("+", two))
        if one[0] != two[0]:
            raise Fails(f"no order of roots makes {one[0]} of {two[0]}")
        number, now = None, one
        for at in PLACES.get(one[0], ()):
            if now[at] != two[at]:
                inner = self.sum_order(now[at], two[at], part_sort(now, sort, at))
                number = self.book.cut(number, self.book.lift1(now, sort, at, inner))
                now = with_part(now, at, two[at])
        if not self.book.same(now, two):
            raise Fails("two formulas differ in more than the order of roots")
        return number

    def sum_ordered(self, have: list[Formula], want: list[Formula]) -> int:
        """The same for two sums, given by their parts."""
        order, left = [], list(range(len(have)))
        for it in want:
            at = next((at for at in left if self.same_order(have[at], it)), None)
            if at is None:
                raise Fails("two sums differ in more than their order")
            left.remove(at)
            order.append(at)
        conv = self.reordered(have, order)
        number, now, path = conv.fwd(), conv.right, ()
        for at, it in enumerate(want):
            place = path + (1,) if at + 1 < len(want) else path
            part = part_at(now, place)
            if part != it:
                inner = self.sum_order(part, it, "g")
                number = self.book.cut(number, self.book.lift(now, "g", place, inner))
                now = with_part_at(now, place, it)
            path += (2,)
        return number

    def same_order(self, one: Formula, two: Formula) -> bool:
        """Says whether they are the same up to the order of sums."""
        if self.book.same(one, two):
            return True
        if one[0] == "+" and two[0] == "+":
            return self.same_sums(self.atoms("+", one), self.atoms("+", two))
        if one[0] != two[0] or one[0] not in PLACES or len(one) != len(two):
            return False
        places = PLACES[one[0]]
        return all(self.same_order(one[at], two[at]) if at in places else one[at] == two[at]
                   for at in range(1, len(one)))

    def same_sums(self, have: list[Formula], want: list[Formula]) -> bool:
        """The same of two sums, given by their parts."""
        if len(have) != len(want):
            return False
        left = list(have)
        for it in want:
            at = next((at for at, one in enumerate(left) if self.same_order(one, it)), None)
            if at is None:
                return False
            left.pop(at)
        return True
