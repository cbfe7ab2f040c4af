"""Two symbolic heaps joined to one that both entail: what they share stays, what differs becomes a
variable.

It is anti-unification of shapes: nodes of one number are taken together. A stretch of children in
which the two differ becomes a length, where terms of the program count it in both, or else `true`.
A join is a guess: whether the heaps entail it is for matching to prove.
"""
from typing import Iterator

from domlogic.search.formulas import TRUE, Formula, conjunction, conjuncts, free, with_part
from domlogic.search.heaps import Case, Heaps, Opened, Variable, tidied
from domlogic.search.places import CHILDREN, LIST, NAME, NUMBER
from domlogic.search.refusals import Fails

BRACKETS = ("one tree", "one root")


def in_program_names(heaps: Heaps, opened: Opened, live: set[Variable]) -> Opened:
    """The case with a live variable of the program in place of each quantified one that is equal to
    it, and with what is known of a quantified shape in its place."""
    terms: dict[Variable, Formula] = {}
    for fact in opened.case.pure:
        for one, other in ((fact[1:], fact[:0:-1]) if fact[0] == "=" else ()):
            if one in opened.variables and one not in terms and other in live:
                terms[one] = other
        if fact[0] == "is" and fact[1] in opened.variables:
            terms.setdefault(("is it", fact[1]), fact[2])
    shape, *facts = (put_for(it, terms) for it in (opened.case.shape, *opened.case.pure))
    shape = heaps.shapes.canon(shape, opened.case.sort).right
    kept = tuple(it for it in facts if it[0] != "=" or it[1] != it[2])
    variables = tuple(it for it in opened.variables if it not in terms)
    return Opened(variables, Case(shape, kept, opened.case.sort))


def put_for(node: Formula, terms: dict[Formula, Formula]) -> Formula:
    """The terms and shapes put for variables, also for those in what is put in."""
    if node in terms:
        return put_for(terms[node], {it: to for it, to in terms.items() if it != node})
    return tuple(put_for(it, terms) if isinstance(it, tuple) else it for it in node)


def solved(fact: Formula, variables: set[Variable]) -> tuple[Variable, Formula] | None:
    """From x = {$v + 1} what $v is."""
    if fact[0] != "=" or fact[1][0] != "prog" or fact[2][0] not in ("+", "-"):
        return None
    operator, one, other = fact[2]
    if one not in variables or other[0] != "int":
        return None
    return one, ("-" if operator == "+" else "+", fact[1], other)


class Join:
    """Two cases on the way to their join."""

    def __init__(self, heaps: Heaps, one: Opened, other: Opened, live: set[Variable]):
        self.heaps, self.book, self.shapes = heaps, heaps.book, heaps.shapes
        self.sides = [in_program_names(heaps, it, live) for it in (one, other)]
        self.known = [heaps.known(it.case) for it in self.sides]
        self.hidden = {it for side in self.sides for it in side.variables}
        self.met: dict[tuple[Formula, Formula], Formula] = {}

    def whole(self, hints: list[Formula]) -> Opened:
        """The join. The hints are facts that may hold in both."""
        one, other = (it.case for it in self.sides)
        shape = self.part(one.shape, other.shape, one.sort)
        new = {it: pair for pair, it in self.met.items() if it in self.book_new()}
        facts = [it for it in self.candidates(hints) if self.hold_in_both(it, new)]
        return tidied(Opened(tuple(new), Case(shape, tuple(dict.fromkeys(facts)), one.sort)))

    def book_new(self) -> set[Variable]:
        return {("logic", name) for name in self.book.new}

    # ------------------------------------------------------------------ terms
    def is_open(self, formula: Formula) -> bool:
        """Whether nothing in it is quantified."""
        return not free(formula) & self.hidden

    def is_same(self, one: Formula, other: Formula) -> bool:
        return one == other and self.is_open(one)

    def term(self, one: Formula, other: Formula) -> Formula:
        """A term for both: one of the program, or a new variable."""
        if self.is_same(one, other):
            return one
        if (one, other) not in self.met:
            found = self.common(one, other)
            self.met[one, other] = found or self.book.fresh(self.book.term_sort(one))
        return self.met[one, other]

    def common(self, one: Formula, other: Formula) -> Formula | None:
        """A term of the program that is the one in the first case and the other in the second."""
        for term in self.program_terms(self.book.term_sort(one)):
            if self.proved(0, ("=", term, one)) and self.proved(1, ("=", term, other)):
                return term
        return None

    def program_terms(self, sort: str) -> Iterator[Formula]:
        """Gives the variables of a sort; of numbers also their neighbours and differences."""
        names = [("prog", name) for name, its in self.book.scope.program.items() if its == sort]
        yield from names
        if sort == "int":
            numbers = [("logic", name) for name, its in self.book.theory.logic if its == sort]
            differences = [("-", a, b) for a in names + numbers for b in names if a != b]
            for operator in "-+":
                yield from ((operator, it, ("int", 1)) for it in names)
            yield from differences
            for operator in "-+":
                yield from ((operator, it, ("int", 1)) for it in differences)

    def proved(self, side: int, fact: Formula) -> bool:
        try:
            return self.known[side].prove(fact) is not None
        except Fails:
            return False

    # ------------------------------------------------------------------ shapes
    def part(self, one: Formula, other: Formula, sort: str) -> Formula:
        """A shape that both entail."""
        if self.is_same(one, other):
            return one
        joined = {"f": self.row, "g": self.sum}.get(sort, self.atom)
        return joined(one, other)

    def atom(self, one: Formula, other: Formula) -> Formula:
        """The same of two shapes that are neither rows nor sums."""
        if self.is_same(one, other):
            return one
        head = one[0]
        if "and" in (head, other[0]):
            shared = [it for it in conjuncts(one) if it in conjuncts(other)]
            return conjunction([it for it in shared if self.is_open(it)])
        if head != other[0]:
            return TRUE
        if head in BRACKETS:
            return (head, self.atom(one[1], other[1]))
        if head == "node":
            name, number, listing = (self.term(one[it], other[it]) for it in (NAME, NUMBER, LIST))
            return (head, name, number, self.part(one[CHILDREN], other[CHILDREN], "f"), listing)
        if head[0] == "@" and one[1] == other[1]:
            return with_part(one, 2, self.part(one[2], other[2], head[1]))
        return TRUE

    def is_anchor(self, one: Formula, other: Formula) -> bool:
        """Whether the two are one part: a node of one number, a spot in one context, the same."""
        if self.is_same(one, other):
            return True
        if one[0] != other[0]:
            return False
        if one[0][0] == "@":
            return self.is_same(one[1], other[1])
        is_node = one[0] in BRACKETS and one[1][0] == other[1][0] == "node"
        return is_node and self.is_same(one[1][NUMBER], other[1][NUMBER])

    def is_alike(self, one: Formula, other: Formula) -> bool:
        """Whether both are trees or roots with a node."""
        return one[0] == other[0] and one[0] in BRACKETS and one[1][0] == other[1][0] == "node"

    def row(self, one: Formula, other: Formula) -> Formula:
        """Two forests: their common nodes in order, and what stands between these."""
        left, right = (self.shapes.atoms("*", it) for it in (one, other))
        parts: list[Formula] = []
        while left or right:
            pairs = ((at, to) for at in range(len(left)) for to in range(len(right))
                     if self.is_anchor(left[at], right[to]))
            at, to = min(pairs, key=lambda pair: (sum(pair), pair), default=(len(left), len(right)))
            parts += self.stretch(left[:at], right[:to])
            parts += [self.atom(*pair) for pair in zip(left[at:at + 1], right[to:to + 1])]
            left, right = left[at + 1:], right[to + 1:]
        return self.shapes.row_of_parts("*", parts)

    def stretch(self, left: list[Formula], right: list[Formula]) -> list[Formula]:
        """What stands between two common nodes: so many trees, nodes one by one, or anything."""
        if not left and not right:
            return []
        if len(left) == len(right) and all(map(self.is_alike, left, right)):
            return [self.atom(*pair) for pair in zip(left, right)]
        length = self.length(left, right)
        return [TRUE if length is None else ("len", length)]

    def length(self, left: list[Formula], right: list[Formula]) -> Formula | None:
        """A term for how many trees there are in both."""
        try:
            one, other = (self.heaps.matching.length(self.shapes.row_of_parts("*", it))[1]
                          for it in (left, right))
        except Fails:
            return None
        return one if self.is_same(one, other) else self.common(one, other)

    def sum(self, one: Formula, other: Formula) -> Formula:
        """Two groves: their common parts, and `true` where one has more."""
        left, right = (self.shapes.atoms("+", it) for it in (one, other))
        parts: list[Formula] = []
        for is_pair in (self.is_anchor, self.is_alike):
            for it in list(left):
                found = next((to for to in right if is_pair(it, to)), None)
                if found is not None:
                    parts.append(self.atom(it, found))
                    left.remove(it)
                    right.remove(found)
        parts += [TRUE] * (TRUE not in parts and bool(left or right))
        return self.shapes.row_of_parts("+", parts)

    # ------------------------------------------------------------------ facts
    def candidates(self, hints: list[Formula]) -> Iterator[Formula]:
        """Gives facts of either case in the variables of the join, and the hints."""
        for at, side in enumerate(self.sides):
            terms = {pair[at]: it for pair, it in self.met.items() if pair[at] in self.hidden}
            for fact in side.case.pure:
                found = solved(fact, self.hidden)
                if found:
                    terms.setdefault(*found)
            for fact in side.case.pure:
                restated = self.book.subst(fact, terms)
                if self.is_open(restated) and restated[1:2] != restated[2:]:
                    yield restated
        yield from hints

    def hold_in_both(self, fact: Formula, new: dict[Variable, tuple]) -> bool:
        """Whether the fact holds in each case, for what the new variables are there."""
        terms = [{it: pair[at] for it, pair in new.items()} for at in (0, 1)]
        return all(self.proved(at, self.book.subst(fact, terms[at])) for at in (0, 1))
