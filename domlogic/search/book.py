"""The book in which the steps of a proof are written."""
import sys
from typing import Iterable, Mapping, Sequence

from domlogic.reading.nameless import nameless
from domlogic.reading.sorts import scope_of, term_sort
from domlogic.reading.theories import Procedure, Step, Theory, TheoryReader
from domlogic.reading.tokens import tokens_within
from domlogic.search.formulas import (QUANTIFIERS, Formula, Path, Term, free, part_sort,
                                      with_part)

sys.setrecursionlimit(100000)

# The rule by which a part of the formula is weakened.
WEAKENED = {"node": "mono_node", "one tree": "mono_tree", "one root": "mono_root", "*": "mono_star",
            ".*": "mono_star_left", "*.": "mono_star_right", "+": "mono_plus",
            ".+": "mono_plus_left", "@t": "mono_app", "@f": "mono_app", "@g": "mono_app"}

Proposed = tuple[int, str, tuple, tuple, tuple]  # number, rule, premises, arguments, judgement


def read_theory(content: bytes) -> Theory:
    """Reads a file that is well formed."""
    reader = TheoryReader(tokens_within(content, 100))
    return reader.whole(reader.theory)


class Book:
    """The steps that are written; each judgement is written once."""

    def __init__(self, theory: Theory, procedure: Procedure, first: int, earlier: Sequence[Step]):
        """Steps are numbered from `first`; `earlier.seen`, if it is there, are those to look at."""
        self.theory, self.procedure = theory, procedure
        self.scope = scope_of(theory, procedure)
        self.logic = dict(self.scope.logic)
        self.new: dict[str, str] = {}
        self.first, self.steps = first, []
        self.all = list(earlier)
        self.earlier = getattr(earlier, "seen", self.all)
        self.known: dict[tuple, int] = {}
        for step in self.all:
            self.known.setdefault(step.judgement, step.number)
        self.counts: dict[str, int] = {}

    # ---------------------------------------------------------------------------- names and sorts
    def fresh(self, sort: str) -> Term:
        """A logic variable that the file doesn't have."""
        count = self.counts.get(sort, 0) + 1
        while f"${sort}_{count}" in self.logic:
            count += 1
        self.counts[sort], name = count, f"${sort}_{count}"
        self.logic[name] = self.new[name] = sort
        return ("logic", name)

    def sort_of(self, variable: Term) -> str:
        """The sort of a variable."""
        kind, name = variable
        return self.logic[name] if kind == "logic" else self.scope.program[name]

    def term_sort(self, term: Term) -> str | None:
        """The sort of a term, or None where it is badly sorted."""
        return term_sort(term, self.scope._replace(logic=self.logic))

    @staticmethod
    def part_sort(formula: Formula, sort: str, at: int) -> str:
        """The sort at which the part at this place of the tuple is judged."""
        return part_sort(formula, sort, at)

    def same(self, one: Formula, other: Formula) -> bool:
        """Says whether they are equal up to the names of bound variables."""
        return one == other or self.alike(one, other, ())

    def alike(self, one: Formula, other: Formula, bound: tuple[tuple[Term, Term], ...]) -> bool:
        """The same below quantifiers: `bound` are their variables, the inner ones first."""
        if len(one) != len(other) or one[0] != other[0]:
            return False
        if one[0] == "logic" and bound:
            pairs = (pair for pair in bound if one in pair[:1] or other in pair[1:])
            return next(pairs, (one, one)) == (one, other)
        if one[0] in QUANTIFIERS:
            sorts = self.sort_of(one[1]), self.sort_of(other[1])
            inner = ((one[1], other[1]), *bound)
            return sorts[0] == sorts[1] and self.alike(one[2], other[2], inner)
        return all(self.alike(*pair, bound) if isinstance(pair[0], tuple) else pair[0] == pair[1]
                   for pair in zip(one[1:], other[1:]))

    def nameless(self, formula: Formula) -> Formula:
        """The formula without the names of bound variables."""
        return nameless(formula, self.logic)

    def subst(self, node: tuple, terms: Mapping[Term, Term]) -> tuple:
        """Puts terms for variables, all at once; binders that would capture are renamed."""
        if not terms or free(node).isdisjoint(terms):
            return node
        if node in terms:
            return terms[node]
        if node[0] in QUANTIFIERS:
            head, variable, inside = node
            inner = {one: to for one, to in terms.items() if one in free(node)}
            if any(variable in free(to) for to in inner.values()):
                new = self.fresh(self.sort_of(variable))
                inside, variable = self.subst(inside, {variable: new}), new
            return (head, variable, self.subst(inside, inner))
        return tuple(self.subst(it, terms) if isinstance(it, tuple) else it for it in node)

    # ------------------------------------------------------------------------------------ writing
    def add(self, rule: str, premises: Iterable[int], judgement: tuple,
            arguments: Iterable[Term] = ()) -> int:
        """Writes a step, or finds one with this judgement; returns its number."""
        if judgement in self.known:
            return self.known[judgement]
        number = self.first + len(self.steps)
        self.steps.append((number, rule, tuple(premises), tuple(arguments), judgement))
        self.known[judgement] = number
        return number

    def ent(self, rule: str, premises: Iterable[int], left: Formula, right: Formula, sort: str,
            arguments: Iterable[Term] = ()) -> int:
        """Writes an entailment."""
        return self.add(rule, premises, ("entails", left, right, sort), arguments)

    def tri(self, rule: str, premises: Iterable[int], pre: Formula, command: tuple, post: Formula,
            sort: str, arguments: Iterable[Term] = ()) -> int:
        """Writes a triple."""
        return self.add(rule, premises, ("triple", pre, command, post, sort), arguments)

    def judged(self, number: int) -> tuple:
        """The judgement of a step."""
        if number >= self.first:
            return self.steps[number - self.first][4]
        return self.all[number - 1].judgement

    def id(self, formula: Formula, sort: str) -> int:
        """Writes that the formula entails itself."""
        return self.ent("id", (), formula, formula, sort)

    def cut(self, *numbers: int | None) -> int | None:
        """Chains entailments; None stands for nothing, and what leads nowhere is left out."""
        done = None
        for number in numbers:
            done = number if done is None else done if number is None else self.joined(done, number)
        return done

    def joined(self, one: int, two: int) -> int:
        """One entailment behind the other."""
        _, left, middle, sort = self.judged(one)
        _, start, right, _ = self.judged(two)
        if left == middle == start:
            return two
        if left != middle and start == right == middle:
            return one
        return self.ent("cut", (one, two), left, right, sort)

    def both(self, one: int, two: int) -> int:
        """From P entails Q and P entails R that P entails (Q and R)."""
        _, left, first, sort = self.judged(one)
        return self.ent("and_in", (one, two), left, ("and", first, self.judged(two)[2]), sort)

    def side(self, formula: Formula, at: int, sort: str) -> int:
        """(P and Q) entails its part at the place, 1 or 2."""
        rule = "and_left" if at == 1 else "and_right"
        return self.ent(rule, (), formula, formula[at], sort)

    def lift1(self, formula: Formula, sort: str, at: int, number: int) -> int:
        """The part at this place weakened by the step; the others stay."""
        _, left, right, _ = self.judged(number)
        whole, other = with_part(formula, at, left), with_part(formula, at, right)
        if whole == other:
            return self.id(whole, sort)
        head = formula[0]
        if head in ("node", "one tree", "one root"):
            return self.ent(WEAKENED[head], (number,), whole, other, sort)
        sibling = 3 - at
        same = self.id(formula[sibling], part_sort(formula, sort, sibling))
        premises = (number, same) if at == 1 else (same, number)
        return self.ent(WEAKENED[head], premises, whole, other, sort)

    def lift(self, formula: Formula, sort: str, path: Path, number: int) -> int:
        """The part at the path weakened by the step."""
        if not path:
            return number
        at = path[0]
        inner = self.lift(formula[at], part_sort(formula, sort, at), path[1:], number)
        return self.lift1(formula, sort, at, inner)

    def used(self, last: int) -> list[Proposed]:
        """The steps that the last one needs, renumbered from `first`."""
        need, work = set(), [last]
        while work:
            number = work.pop()
            if number >= self.first and number not in need:
                need.add(number)
                work += self.steps[number - self.first][2]
        order = sorted(need)
        place = {number: self.first + at for at, number in enumerate(order)}
        found = []
        for number in order:
            _, rule, premises, arguments, judgement = self.steps[number - self.first]
            cited = tuple(place.get(it, it) for it in premises)
            found.append((place[number], rule, cited, arguments, judgement))
        return found
