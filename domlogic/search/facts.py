"""What a symbolic heap says: pure goals that follow from it, and whether it contradicts itself."""
from typing import TYPE_CHECKING, Sequence

from domlogic.reading.computing import pieces
from domlogic.search.apart import LISTING, NOTHING, NUMBER, Nodes
from domlogic.search.formulas import FALSE, LITERALS, TRUE, Formula, conjunction, conjuncts
from domlogic.search.linear import summed
from domlogic.search.negations import clash

if TYPE_CHECKING:
    from domlogic.search.entailments import Matching


class Facts(Nodes):
    """A symbolic heap, (SHAPE and FACTS), of which facts are asked.

    A method gives the step that the heap entails what is asked, or None where that isn't found.
    """

    def __init__(self, matching: "Matching", shape: Formula, pure: Sequence[Formula], sort: str):
        """`matching` has the shapes, and tries entailments of what an `is` says."""
        super().__init__(matching.shapes, shape, pure, sort)
        self.matching = matching

    def with_more(self, formula: Formula) -> "Facts":
        """The same heap with more facts behind."""
        return Facts(self.matching, self.shape, [*self.pure, *conjuncts(formula)], self.sort)

    # --------------------------------------------------------------------------------- pure goals
    def prove(self, goal: Formula, deep: bool = True) -> int | None:
        """The step of a pure goal; what a negation or an implication supposes is used if `deep`."""
        found = self.project(goal)
        if found is not None:
            return found
        if goal == TRUE:
            return self.book.ent("true_in", (), self.whole, TRUE, self.sort)
        if goal[0] in ("and", "or"):
            return (self.prove_both if goal[0] == "and" else self.prove_one)(goal, deep)
        ways = [self.by_representatives, self.by_fact]
        ways += {"=": [self.by_sums], "<=": [self.by_sums], "is": [self.by_is, self.standing],
                 "not": [self.not_null, self.not_same]}.get(goal[0], [])
        for way in ways:
            found = way(goal)
            if found is not None:
                return found
        if deep and goal[0] in ("not", "->"):
            return self.supposing(goal)
        return self.for_all(goal, deep) if goal[0] == "forall" else None

    def prove_both(self, goal: Formula, deep: bool) -> int | None:
        """(P and Q), each by itself."""
        one = self.prove(goal[1], deep)
        two = None if one is None else self.prove(goal[2], deep)
        if one is None or two is None:
            return None
        return self.book.ent("and_in", (one, two), self.whole, goal, self.sort)

    def prove_one(self, goal: Formula, deep: bool) -> int | None:
        """(P or Q), by the first that is found."""
        for at, rule in ((1, "or_left"), (2, "or_right")):
            one = self.prove(goal[at], deep)
            if one is not None:
                up = self.book.ent(rule, (), goal[at], goal, self.sort)
                return self.book.cut(one, up)
        return None

    def by_representatives(self, goal: Formula) -> int | None:
        """An equation of terms that are equal by the equations, or as texts."""
        if goal[0] != "=":
            return None
        one, other = self.rep(goal[1], True), self.rep(goal[2], True)
        if one == other:
            return self.changed(self.reflexive(one), goal, False)
        if self.book.term_sort(one) == "str" and pieces(one) == pieces(other):
            joined = self.book.ent("concat", (), self.whole, ("=", one, other), self.sort)
            return self.changed(joined, goal, False)
        return None

    def by_fact(self, goal: Formula) -> int | None:
        """What is a fact up to the equations."""
        meant = self.rep(goal)
        for fact in self.pure:
            if self.book.same(self.rep(fact), meant):
                return self.changed(self.changed(self.project(fact), fact), goal, False)
        return None

    def by_sums(self, goal: Formula) -> int | None:
        """A comparison of ints, or false, as a sum of facts."""
        book, whole, sort = self.book, self.whole, self.sort
        if goal != FALSE and book.term_sort(goal[1]) != "int":
            return None
        facts = [it for it in self.pure if it[0] in ("=", "<=") and book.term_sort(it[1]) == "int"]
        orders = self.orders_of_negations()
        used = next(summed([*facts, *orders], goal), None)
        if used is None or (not used and goal == FALSE):
            return None
        if not used:
            zero = ("=", ("int", 0), ("int", 0))
            known, used = book.ent("eq_refl", (), whole, zero, sort), [(zero, 0)]
        else:
            shown = [(it, self.order_shown(it, orders[it])) for it, _ in used if it in orders]
            taken = conjunction([it for it, _ in used])
            known = self.shapes.gather(whole, taken, sort, shown)
        facts, factors = conjunction([it for it, _ in used]), [("int", by) for _, by in used]
        return book.cut(known, book.ent("linear", (), facts, goal, sort, factors))

    def orders_of_negations(self) -> dict[Formula, Formula]:
        """From each fact (not E <= F) what it says of ints: F + 1 <= E."""
        denied = [it for it in self.pure if it[0] == "not" and it[1][0] == "<="]
        return {("<=", ("+", it[1][2], ("int", 1)), it[1][1]): it for it in denied}

    def order_shown(self, order: Formula, fact: Formula) -> int:
        """F + 1 <= E from the fact (not E <= F)."""
        book, whole, sort, (_, denied) = self.book, self.whole, self.sort, fact
        goal, cases = ("->", whole, order), ("or", denied, order)
        absurd, plain = ("and", denied, whole), ("and", order, whole)
        mine = book.cut(book.side(absurd, 2, sort), self.project(fact))
        anything = book.ent("false_out", (), FALSE, order, sort)
        clashed = book.cut(clash(book, mine, book.side(absurd, 1, sort)), anything)
        one = book.ent("imp_in", (clashed,), denied, goal, sort)
        two = book.ent("imp_in", (book.side(plain, 1, sort),), order, goal, sort)
        total = book.cut(book.ent("int_total", (), whole, cases, sort),
                         book.ent("or_out", (one, two), cases, goal, sort))
        both = book.both(total, book.id(whole, sort))
        return book.cut(both, book.ent("imp_out", (), ("and", goal, whole), order, sort))

    def by_is(self, goal: Formula) -> int | None:
        """($x is P) from ($x is Q), where Q entails P."""
        for fact in self.pure:
            if fact[:2] == goal[:2]:
                sort = self.book.sort_of(goal[1])
                inner = self.matching.tried(fact[2], goal[2], sort)
                if inner is not None:
                    weaker = self.book.ent("is_mono", (inner,), fact, goal, self.sort)
                    return self.book.cut(self.project(fact), weaker)
        return None

    def standing(self, goal: Formula) -> int | None:
        """($x is P), where $x stands in the shape and entails P."""
        book, variable = self.book, ("is it", goal[1])
        for path, part, sort in self.shapes.paths(self.shape, self.sort):
            inner = self.matching.tried(part, goal[2], sort) if part == variable else None
            if inner is not None:
                pair = ("and", part, goal[2])
                both = book.ent("and_in", (book.id(part, sort), inner), part, pair, sort)
                fact = book.cut(both, book.ent("is_in", (), pair, goal, sort))
                return self.shown_at(path, fact)
        return None

    def supposing(self, goal: Formula) -> int | None:
        """(not P) or (P -> Q), with P among the facts."""
        more = self.with_more(goal[1])
        inner = more.prove(goal[2], False) if goal[0] == "->" else None
        if inner is None:
            inner = more.contradiction()
            if inner is None:
                return None
            if goal[0] == "->":
                absurd = self.book.ent("false_out", (), FALSE, goal[2], self.sort)
                inner = self.book.cut(inner, absurd)
        turned = self.shapes.gather(("and", self.whole, goal[1]), more.whole, self.sort)
        rule = "not_in" if goal[0] == "not" else "imp_in"
        return self.book.ent(rule, (self.book.cut(turned, inner),), self.whole, goal, self.sort)

    def for_all(self, goal: Formula, deep: bool) -> int | None:
        """(forall $x . P), of a new variable."""
        book = self.book
        new = book.fresh(book.sort_of(goal[1]))
        inside = book.subst(goal[2], {goal[1]: new})
        inner = self.prove(inside, deep)
        if inner is None:
            return None
        return book.ent("forall_in", (inner,), self.whole, ("forall", new, inside), self.sort)

    # -------------------------------------------------------------------------- negated equations
    def not_null(self, goal: Formula) -> int | None:
        """(not I = null), or (not L = nolist), where such a node stands in the shape."""
        if goal[1][0] != "=":
            return None
        sides = [self.rep(it, True) for it in goal[1][1:]]
        for at, constant in NOTHING.items():
            if constant not in sides:
                continue
            other = sides[1 - sides.index(constant)]
            for path, part in self.nodes():
                if self.rep(part[at], True) == other:
                    return self.turned_not(*self.node_fact(path, part, at), goal)
        return None

    def not_same(self, goal: Formula) -> int | None:
        """(not E = F), where two nodes of the shape have these numbers, or these lists."""
        if goal[1][0] != "=":
            return None
        sides = [self.rep(it, True) for it in goal[1][1:]]
        for at in (NUMBER, LISTING):
            places = [[path for path, part in self.nodes() if self.rep(part[at], True) == side]
                      for side in sides]
            if places[0] and places[1] and places[0] != places[1]:
                one, other = sorted((places[0][0], places[1][0]), key=len)
                return self.turned_not(*self.apart(one, other, at), goal)
        return None

    def turned_not(self, number: int, fact: Formula, goal: Formula) -> int | None:
        """A negated equation from one of equal terms, maybe the other way round."""
        if self.rep(fact) == self.rep(goal):
            return self.changed(self.changed(number, fact), goal, False)
        more, start = self.with_more(goal[1]), ("and", self.whole, goal[1])
        inner = more.prove(fact[1], False)
        if inner is None:
            return None
        book, sort = self.book, self.sort
        supposed = book.cut(self.shapes.gather(start, more.whole, sort), inner)
        mine = book.cut(book.side(start, 1, sort), number)
        return book.ent("not_in", (clash(self.book, mine, supposed),), self.whole, goal, sort)

    # ------------------------------------------------------------------------------ contradictions
    def contradiction(self) -> int | None:
        """The step that the heap entails false, or None."""
        found = self.project(FALSE)
        if found is not None:
            return found
        for way in (self.distinct_literals, self.denied_fact, self.null_node, self.one_node_twice):
            found = way()
            if found is not None:
                return found
        has_orders = any(it[0] == "<=" or it[0] == "not" and it[1][0] == "<=" for it in self.pure)
        return self.by_sums(FALSE) if has_orders else None

    def distinct_literals(self) -> int | None:
        """Two literals in one class."""
        literals: dict = {}
        for term, best in self.classes.items():
            other = literals.setdefault(best, term) if term[0] in LITERALS else term
            if other != term:
                equal = ("=", other, term)
                absurd = self.book.ent("distinct", (), equal, FALSE, self.sort)
                return self.book.cut(self.equation(other, term), absurd)
        return None

    def denied_fact(self) -> int | None:
        """A fact (not P), where P follows."""
        for fact in self.pure:
            inner = self.prove(fact[1], False) if fact[0] == "not" else None
            if inner is not None:
                return clash(self.book, self.project(fact), inner)
        return None

    def null_node(self) -> int | None:
        """A node whose number is null, or whose list is nolist."""
        for path, part in self.nodes():
            for at, constant in NOTHING.items():
                if self.rep(part[at], True) == constant:
                    number, fact = self.node_fact(path, part, at)
                    return clash(self.book, number, self.prove(fact[1], False))
        return None

    def one_node_twice(self) -> int | None:
        """Two nodes of the shape with one number or one list."""
        twins = self.twins()
        if twins is None:
            return None
        number, fact = self.apart(*twins)
        return clash(self.book, number, self.prove(fact[1], False))
