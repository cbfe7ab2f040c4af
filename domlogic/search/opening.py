"""Opening the left side of an entailment: from an assertion to its cases, (SHAPE and FACTS) each.

Facts come out of a shape by `pure_out`, layer by layer. A quantifier or a choice at any depth comes
out by one idea: with K the context of its place, (K o-s GOAL) says what the part has to entail.
"""
from typing import Callable, NamedTuple, Sequence

from domlogic.reading.nameless import is_pure
from domlogic.search import negations
from domlogic.search.cases import Cases, Tree
from domlogic.search.conjunctions import Known
from domlogic.search.formulas import (FALSE, TRUE, Formula, Path, Term, conjunction, conjuncts,
                                      disjunction, quantified, with_facts, with_part, with_part_at)

Leaf = tuple[list[Term], Formula, list[Formula]]  # the variables that are new, the shape, the facts
Key = tuple[Formula, tuple[Formula, ...]]  # a leaf without its variables
OfLeaf = Callable[[Key], int]
Emit = Callable[[Formula, OfLeaf], int]
Opened = tuple[list[Leaf], Emit]


class Place(NamedTuple):
    """A symbolic heap and a part of its shape, or of its facts where the path is None."""

    shape: Formula
    pure: list[Formula]
    sort: str
    path: Path | None
    part: Formula


class Opening(Cases):
    """The cases of a formula. Each method gives (leaves, emit): emit(goal, step of a leaf) is the
    step that the formula entails the goal, from the steps by which each leaf entails it."""

    def opened(self, left: Formula, sort: str) -> Opened:
        """The cases of a formula."""
        conv = self.canon(left, sort)
        pure, shapes = [], []
        for it in conjuncts(conv.right):
            (pure if is_pure(it) else shapes).append(it)
        pure = [it for at, it in enumerate(pure) if it != TRUE and it not in pure[:at]]
        shape = conjunction(shapes)
        leaves, emit = self.state(shape, pure, sort)

        def whole(goal: Formula, of_leaf: OfLeaf) -> int:
            turned = self.gather(conv.right, with_facts(shape, pure), sort)
            return self.book.cut(conv.fwd(), turned, emit(goal, of_leaf))

        return leaves, whole

    def state(self, shape: Formula, pure: list[Formula], sort: str) -> Opened:
        """The cases of a shape in normal form with facts: facts are opened first."""
        book, here = self.book, with_facts(shape, pure)
        if FALSE in pure:
            return [], lambda goal, of_leaf: book.cut(
                self.project(here, FALSE, sort), book.ent("false_out", (), FALSE, goal, sort))
        for at in range(len(pure)):
            found = self.fact_opened(shape, pure, at, sort)
            if found is not None:
                return found
        for path, part, part_sort in self.paths(shape, sort):
            found = self.part_opened(Place(shape, pure, sort, path, part), part_sort)
            if found is not None:
                return found
        return [([], shape, pure)], lambda goal, of_leaf: of_leaf((shape, tuple(pure)))

    def fact_opened(self, shape: Formula, pure: list[Formula], at: int,
                    sort: str) -> Opened | None:
        """The cases that one of the facts makes, or None where it makes none."""
        book, fact, here = self.book, pure[at], with_facts(shape, pure)
        rest = pure[:at] + pure[at + 1:]
        if fact[0] in ("or", "exists"):
            leaves, emit = self.open_fact(Place(shape, rest, sort, None, fact))
            first = with_facts(shape, [fact] + rest)
            return leaves, lambda goal, of_leaf: book.cut(
                self.gather(here, first, sort), emit(goal, of_leaf))
        if fact[0] != "not" or fact[1][0] not in ("not", "and", "or"):
            return None
        said = self.negation_said(fact, sort)

        def known() -> Known:
            mine = self.project(here, fact, sort)
            return [(formula, book.cut(mine, number)) for formula, number in said]

        after = with_facts(shape, [*pure[:at], *(it for it, _ in said), *pure[at + 1:]])
        return self.turned(here, after, sort, known)

    def negation_said(self, fact: Formula, sort: str) -> Known:
        """What (not P) says, with the steps that it does, where P is a negation, `and` or `or`."""
        if fact[1][0] == "or":
            return negations.both_denied(self.book, fact, sort)
        if fact[1][0] == "and":
            number, choice = negations.one_denied(self.book, fact, sort)
            return [(choice, number)]
        inner = fact[1][1]
        return [(inner, self.book.ent("classical", (), fact, inner, sort))]

    def part_opened(self, place: Place, part_sort: str) -> Opened | None:
        """The cases that a part at a place makes, or None where it makes none."""
        shape, pure, sort, path, part = place
        if part[0] in ("or", "exists", "false"):
            return self.open_at(place)
        if part[0] != "and":
            return None
        if is_pure(part[1]) or is_pure(part[2]):
            return self.fact_pulled(place)
        found = self.and_pulled(part, part_sort) or self.side_opened(part, part_sort)
        if found is None:
            return None
        number, other = found
        leaves, emit = self.opened(with_facts(with_part_at(shape, path, other), pure), sort)
        return leaves, lambda goal, of_leaf: self.book.cut(
            self.rewrite(shape, pure, sort, path, number)[0], emit(goal, of_leaf))

    def turned(self, here: Formula, after: Formula, sort: str,
               known: Callable[[], Known]) -> Opened:
        """The cases of another conjunction, whose conjuncts are those of this one or known."""
        leaves, emit = self.opened(after, sort)
        return leaves, lambda goal, of_leaf: self.book.cut(
            self.gather(here, after, sort, known()), emit(goal, of_leaf))

    def fact_pulled(self, place: Place) -> Opened:
        """A fact beside a part comes out of the shape."""
        shape, pure, sort, path, _ = place
        book, here = self.book, with_facts(shape, pure)
        number, outer, fact = self.pull_pure(shape, sort, path)
        pair = ("and", outer, fact)

        def known() -> Known:
            both = book.cut(self.gather(here, shape, sort), number)
            return [(outer, book.cut(both, book.side(pair, 1, sort))),
                    (fact, book.cut(both, book.side(pair, 2, sort)))]

        return self.turned(here, with_facts(outer, [fact] + pure), sort, known)

    # ------------------------------------------------------------------ an `and` of two shapes
    def side_opened(self, part: Formula, sort: str) -> tuple[int, Formula] | None:
        """(step, formula): a side of an impure `and` as its cases, where it isn't that already."""
        for at in (1, 2):
            leaves, emit = self.opened(part[at], sort)
            if len(leaves) == 1 and not leaves[0][0] and with_facts(*leaves[0][1:]) == part[at]:
                continue
            whole = disjunction([quantified(it[0], with_facts(*it[1:])) for it in leaves])

            def of_leaf(leaf: Key) -> int:
                at = next(at for at, it in enumerate(leaves) if (it[1], tuple(it[2])) == leaf)
                formula = with_facts(*leaves[at][1:])
                return self.into(formula, leaves[at][0], whole, at, len(leaves), sort)

            number = emit(whole, of_leaf)
            mine = self.book.cut(self.project(part, part[at], sort), number)
            target = with_part(part, at, whole)
            return self.gather(part, target, sort, [(whole, mine)]), target
        return None

    def and_pulled(self, part: Formula, sort: str) -> tuple[int, Formula] | None:
        """(step, formula): quantifiers and choices at a side of an impure `and` come out of it."""
        for at in (1, 2):
            if part[at][0] in ("exists", "or", "false"):
                return self.side_pulled(part, at, sort)
        return None

    def side_pulled(self, part: Formula, at: int, sort: str) -> tuple[int, Formula]:
        """The same of the side at the place."""
        book, other = self.book, part[3 - at]
        tree, cases = self.cases_of(part[at])

        def with_other(case: int) -> Formula:
            return with_part(part, at, cases[case][1])

        target = self.tree_formula(tree, with_other)
        goal = ("->", other, target)

        def of_case(case: int) -> int:
            both = ("and", cases[case][1], other)
            step = self.gather(both, with_other(case), sort)
            _, up = self.climbed(tree, case, with_other, sort)
            return book.ent("imp_in", (book.cut(step, up),), cases[case][1], goal, sort)

        number = self.joined(tree, goal, sort, of_case)
        return self.discharged(part, part[at], number, goal, sort), target

    # ------------------------------------------------------------------- quantifiers and choices
    def open_at(self, place: Place) -> Opened:
        """A quantifier, a choice or `false` at a path: each case is put in at its place."""
        shape, pure, sort, path, part = place
        tree, cases = self.cases_of(part)
        whole = [with_facts(with_part_at(shape, path, formula), pure) for _, formula in cases]
        leaves, emits = self.cases_opened(cases, whole, sort)

        def emitted(goal: Formula, of_leaf: OfLeaf) -> int:
            return self.closed_at(place, goal, (tree, cases), lambda at: emits[at](goal, of_leaf))

        return leaves, emitted

    def cases_opened(self, cases: list, whole: Sequence[Formula],
                     sort: str) -> tuple[list[Leaf], list[Emit]]:
        """The leaves of all cases, and how each case is emitted."""
        leaves, emits = [], []
        for (variables, _), formula in zip(cases, whole):
            found, emit = self.opened(formula, sort)
            emits.append(emit)
            leaves += [(variables + more, shape, pure) for more, shape, pure in found]
        return leaves, emits

    def closed_at(self, place: Place, goal: Formula, opened: tuple[Tree, list],
                  of_case: Callable[[int], int]) -> int:
        """A case entails (context o-s goal), so the context with the part entails the goal."""
        book = self.book
        shape, pure, sort, path, part = place
        tree, cases = opened
        inner_goal = ("->", conjunction(pure), goal) if pure else goal
        context, h, cut_out = self.spot(shape, sort, path) if path else (None, sort, None)
        target = ("o-" + sort, context, inner_goal) if path else inner_goal

        def case(at: int) -> int:
            formula = cases[at][1]
            there, done = with_part_at(shape, path, formula), of_case(at)
            if pure:
                done = book.ent("imp_in", (done,), there, inner_goal, sort)
            if not path:
                return done
            back = book.cut(self.unspot(context, h, formula, there, sort), done)
            return book.ent("ctx_adj_in", (back,), formula, target, h)

        number = self.joined(tree, target, h, case)
        if path:
            app = "@" + h
            ends = book.id(context, h + sort), number
            moved = book.ent("mono_app", ends, (app, context, part), (app, context, target), sort)
            out = book.ent("ctx_adj_out", (), (app, context, target), inner_goal, sort)
            number = book.cut(cut_out, moved, out)
        if not pure:
            return number
        return self.discharged(with_facts(shape, pure), shape, number, inner_goal, sort)

    def open_fact(self, place: Place) -> Opened:
        """The same of a pure fact that stands in front of the other facts."""
        shape, pure, sort, _, part = place
        tree, cases = self.cases_of(part)
        whole = [with_facts(shape, [formula] + pure) for _, formula in cases]
        leaves, emits = self.cases_opened(cases, whole, sort)
        here, others = with_facts(shape, [part] + pure), with_facts(shape, pure)
        book = self.book

        def emitted(goal: Formula, of_leaf: OfLeaf) -> int:
            inner_goal = ("->", others, goal)

            def case(at: int) -> int:
                formula = cases[at][1]
                step = self.gather(("and", formula, others), whole[at], sort)
                done = book.cut(step, emits[at](goal, of_leaf))
                return book.ent("imp_in", (done,), formula, inner_goal, sort)

            number = self.joined(tree, inner_goal, sort, case)
            return self.discharged(here, part, number, inner_goal, sort)

        return leaves, emitted

    def discharged(self, here: Formula, part: Formula, number: int, implied: Formula,
                   sort: str) -> int:
        """From the step `part entails (facts -> goal)` that what has both entails the goal."""
        book = self.book
        _, facts, goal = implied
        ends = book.cut(self.gather(here, part, sort), number), self.gather(here, facts, sort)
        pair = ("and", implied, facts)
        both = book.ent("and_in", ends, here, pair, sort)
        return book.cut(both, book.ent("imp_out", (), pair, goal, sort))
