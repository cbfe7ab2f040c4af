"""Formulas as trees of cases: quantifiers and choices, with what stands below them as leaves.

A tree is a formula of `exists`, `or` and `false` in which ("case", N) stands for the N-th leaf.
"""
from typing import Callable

from domlogic.search.conjunctions import Conjunctions
from domlogic.search.formulas import FALSE, Formula, Term

Tree = tuple
Case = tuple[list[Term], Formula]  # the variables of the quantifiers around a leaf, and the leaf


class Cases(Conjunctions):
    """From a case to the whole, and from all cases to what the whole entails."""

    def cases_of(self, part: Formula) -> tuple[Tree, list[Case]]:
        """The formula as a tree, and its cases; the variables of its quantifiers are made new."""
        book, cases = self.book, []

        def tree_of(formula: Formula, variables: list[Term]) -> Tree:
            if formula[0] == "exists":
                new = book.fresh(book.sort_of(formula[1]))
                inside = book.subst(formula[2], {formula[1]: new})
                return ("exists", new, tree_of(inside, [*variables, new]))
            if formula[0] == "or":
                return ("or", *(tree_of(it, variables) for it in formula[1:]))
            if formula == FALSE:
                return FALSE
            cases.append((variables, formula))
            return ("case", len(cases) - 1)

        return tree_of(part, []), cases

    def tree_formula(self, tree: Tree, of_case: Callable[[int], Formula]) -> Formula:
        """The formula of the tree, with a formula for each case."""
        if tree == FALSE:
            return FALSE
        if tree[0] == "case":
            return of_case(tree[1])
        if tree[0] == "or":
            return ("or", *(self.tree_formula(it, of_case) for it in tree[1:]))
        return ("exists", tree[1], self.tree_formula(tree[2], of_case))

    def climbed(self, tree: Tree, at: int, of_case: Callable[[int], Formula],
                sort: str) -> tuple[Formula, int | None] | None:
        """(formula, step): the case entails the formula of the tree; None where it isn't in it."""
        if tree == FALSE:
            return None
        if tree[0] == "case":
            return (of_case(at), None) if tree[1] == at else None
        whole = self.tree_formula(tree, of_case)
        sides = {1: "or_left", 2: "or_right"} if tree[0] == "or" else {2: "exists_in"}
        for side, rule in sides.items():
            found = self.climbed(tree[side], at, of_case, sort)
            if found is not None:
                witness = (tree[1],) if rule == "exists_in" else ()
                up = self.book.ent(rule, (), found[0], whole, sort, witness)
                return whole, self.book.cut(found[1], up)
        return None

    def joined(self, tree: Tree, target: Formula, sort: str, case: Callable[[int], int]) -> int:
        """The step that the formula, whose cases are the tree's, entails the target."""
        book = self.book
        if tree == FALSE:
            return book.ent("false_out", (), FALSE, target, sort)
        if tree[0] == "case":
            return case(tree[1])
        if tree[0] == "or":
            one, two = (self.joined(it, target, sort, case) for it in tree[1:])
            left = ("or", book.judged(one)[1], book.judged(two)[1])
            return book.ent("or_out", (one, two), left, target, sort)
        inner = self.joined(tree[2], target, sort, case)
        left = ("exists", tree[1], book.judged(inner)[1])
        return book.ent("exists_out", (inner,), left, target, sort)

    def into(self, formula: Formula, variables: list[Term], whole: Formula, at: int, count: int,
             sort: str) -> int:
        """The step that the formula entails its quantified form as one of the choices."""
        book, number = self.book, None
        for variable in reversed(variables):
            target = ("exists", variable, formula)
            up = book.ent("exists_in", (), formula, target, sort, (variable,))
            number, formula = book.cut(number, up), target
        start = number or book.id(formula, sort)
        return book.cut(start, self.chosen(formula, whole, at, count, sort))

    def chosen(self, formula: Formula, whole: Formula, at: int, count: int,
               sort: str) -> int | None:
        """The step that the formula entails the choice in which it is the one at the place."""
        if count == 1:
            return None
        book = self.book
        if at == 0:
            return book.ent("or_left", (), formula, whole, sort)
        inner = self.chosen(formula, whole[2], at - 1, count - 1, sort)
        return book.cut(inner, book.ent("or_right", (), whole[2], whole, sort))
