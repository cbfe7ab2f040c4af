"""Shapes of which nothing is known: a tree is a node; a forest is empty, or has a first node."""
from typing import TYPE_CHECKING, NamedTuple

from domlogic.search.formulas import (NONE, TRUE, Formula, Term, disjunction, has_head, quantified,
                                      with_facts, with_part)
from domlogic.search.opening import Key

if TYPE_CHECKING:
    from domlogic.search.entailments import Matching

ZERO, ONE = ("int", 0), ("int", 1)


class Target(NamedTuple):
    """What `len E` entails: (empty or more), and E."""

    empty: Formula
    whole: Formula
    length: Formula


class UnknownShapes:
    """Steps from a tree to a node, and from a forest to its two cases."""

    def __init__(self, matching: "Matching"):
        self.matching, self.shapes, self.book = matching, matching.shapes, matching.book

    def cases(self, part: Formula) -> int:
        """The step that `true`, a variable or a length of forests entails that it is empty or has a
        first node."""
        if part[0] == "len":
            return self.length_cases(part)
        number, after = self.first_tree()
        return number if part == TRUE else self.variable_cases(part, number, after, "f")

    def node(self, part: Formula) -> int:
        """The step that `true` or a variable of trees entails that it is a node."""
        _, _, number, node = self.some_node()
        return number if part == TRUE else self.variable_cases(part, number, node, "t")

    def some_node(self) -> tuple[list[Term], Formula, int, Formula]:
        """(variables, node, step, formula): true entails the formula, that there is a node."""
        names = [self.book.fresh(it) for it in ("str", "node", "f", "list")]
        name, number, inner, listing = names
        node = ("node", name, number, ("is it", inner), listing)
        some = quantified(names, node)
        return names, node, self.book.ent("node_some", (), TRUE, some, "t"), some

    def first_tree(self) -> tuple[int, Formula]:
        """(step, cases): true entails (0f or there are a first node and a rest)."""
        book = self.book
        tree, rest = book.fresh("t"), book.fresh("f")
        names, node, is_node, _ = self.some_node()
        first = ("*", ("one tree", ("is it", tree)), ("is it", rest))
        wanted = quantified([*names, rest], ("*", ("one tree", node), ("is it", rest)))
        cases = ("or", NONE, quantified([tree, rest], first))
        opened = book.cut(book.ent("true_in", (), ("is it", tree), TRUE, "t"), is_node)
        lifted = book.lift(first, "f", (1, 1), opened)
        done = book.cut(lifted, self.matching.prove(book.judged(lifted)[2], wanted, "f"))
        for variable in (rest, tree):
            _, left, right, _ = book.judged(done)
            done = book.ent("exists_out", (done,), ("exists", variable, left), right, "f")
        after = ("or", NONE, wanted)
        two = book.cut(done, book.ent("or_right", (), wanted, after, "f"))
        one = book.ent("or_left", (), NONE, after, "f")
        start = book.ent("forest_cases", (), TRUE, cases, "f")
        return book.cut(start, book.ent("or_out", (one, two), cases, after, "f")), after

    # ---------------------------------------------------------------------------------- a variable
    def variable_cases(self, part: Formula, number: int, after: Formula, sort: str) -> int:
        """The cases of a variable, from those of true, with ($x is ..) kept in each."""
        book = self.book
        any_shape = book.ent("true_in", (), part, TRUE, sort)
        start = book.both(book.id(part, sort), book.cut(any_shape, number))
        leaves, emit = self.shapes.opened(("and", part, after), sort)
        forms = []
        for variables, shape, _ in leaves:
            other = shape[2] if shape[1] == part else shape[1]
            kept = ("and", other, ("is", part[1], other))
            forms.append((variables, shape, kept))
        target = disjunction([quantified(variables, kept) for variables, _, kept in forms])

        def of_leaf(leaf: Key) -> int:
            at, found = next((at, it) for at, it in enumerate(forms) if it[1] == leaf[0])
            variables, shape, kept = found
            pair = ("and", part, kept[1])
            mine = self.shapes.gather(shape, kept[1], sort)
            fact = book.cut(self.shapes.gather(shape, pair, sort),
                            book.ent("is_in", (), pair, kept[2], sort))
            done = book.ent("and_in", (mine, fact), shape, kept, sort)
            return book.cut(done, self.shapes.into(kept, variables, target, at, len(forms), sort))

        return book.cut(start, emit(target, of_leaf))

    # ------------------------------------------------------------------------------------ a length
    def length_cases(self, part: Formula) -> int:
        """len E entails that it is empty and E is 0, or has a first node and a rest of length m,
        where E is 1 + m."""
        book = self.book
        number, after = self.first_tree()
        any_forest = book.ent("true_in", (), part, TRUE, "f")
        start = book.both(book.cut(any_forest, number), book.id(part, "f"))
        leaves, emit = self.shapes.opened(("and", after, part), "f")
        rest = book.fresh("int")
        variables, shape, _ = next(it for it in leaves if has_head(it[1], "one tree"))
        facts = ("and", ("=", ("+", ONE, rest), part[1]), ("<=", ZERO, rest))
        more = ("and", with_part(shape[1], 2, ("len", rest)), facts)
        empty = ("and", NONE, ("=", part[1], ZERO))
        whole = ("or", empty, quantified([*variables[:-1], rest], more))
        target = Target(empty, whole, part)

        def of_leaf(leaf: Key) -> int:
            is_empty = leaf[0][1] == NONE
            return (self.empty_length if is_empty else self.more_length)(leaf[0], target, rest)

        return book.cut(start, emit(whole, of_leaf))

    def empty_length(self, here: Formula, target: Target, _: Term) -> int:
        """(0f and len E) entails the first case."""
        book, nothing = self.book, self.shapes.project(here, NONE, "f")
        zero = book.cut(nothing, book.ent("len_empty", (), NONE, ("len", ZERO), "f"))
        fact = self.lengths_equal(self.shapes.project(here, target.length, "f"), zero)
        done = book.both(nothing, fact)
        return book.cut(done, book.ent("or_left", (), target.empty, target.whole, "f"))

    def lengths_equal(self, one: int, two: int) -> int:
        """From P entails len E and P entails len F that P entails E = F."""
        book, both = self.book, self.book.both(one, two)
        pair = book.judged(both)[2]
        equal = ("=", pair[1][1], pair[2][1])
        return book.cut(both, book.ent("len_unique", (), pair, equal, "f"))

    def more_length(self, here: Formula, target: Target, rest: Term) -> int:
        """((<node> * $f) and len E) entails the second case: the rest has some length."""
        book, shapes, row = self.book, self.shapes, here[1]
        some = ("exists", rest, ("and", ("len", rest), ("<=", ZERO, rest)))
        any_forest = book.ent("true_in", (), row[2], TRUE, "f")
        known = book.cut(any_forest, book.ent("len_some", (), TRUE, some, "f"))
        known = book.cut(shapes.project(here, row, "f"), book.lift(row, "f", (2,), known))
        wide = with_part(here, 1, with_part(row, 2, some))
        start = shapes.gather(here, wide, "f", [(wide[1], known)])
        _, emit = shapes.opened(wide, "f")

        def of_leaf(leaf: Key) -> int:
            shape, pure = leaf
            now, piece = with_facts(shape, pure), shape[1]
            length = book.cut(shapes.gather(now, piece, "f"),
                              self.matching.lengths.only_length(piece))
            fact = self.lengths_equal(length, shapes.gather(now, shape[2], "f"))
            equal = book.judged(fact)[2]
            form = with_facts(piece, [equal, pure[0]])
            done = shapes.gather(now, form, "f", [(equal, fact)])
            return book.cut(done, self.matching.prove(form, target.whole, "f", 0))

        return book.cut(start, emit(target.whole, of_leaf))
