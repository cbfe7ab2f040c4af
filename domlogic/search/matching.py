"""Matching: the normal form of a shape with that of a shape in which unknowns stand.

Terms are compared by their representatives. Rows are walked in order, sums with backtracking; what
is met first for an unknown is put for it from there on.
"""
from dataclasses import dataclass, field
from typing import TYPE_CHECKING, Callable, Iterator

from domlogic.reading.computing import difference
from domlogic.search import anywhere, listings
from domlogic.search.facts import Facts
from domlogic.search.formulas import LITERALS, PLACES, TRUE, Formula, Term, free, part_sort
from domlogic.search.refusals import Fails, Missing
from domlogic.search.right_sides import Found

if TYPE_CHECKING:
    from domlogic.search.entailments import Matching

# What is found, and the function that writes the step for it: left entails right, all that is found
# in the end put in.
Emit = Callable[[Found], int]
Matches = Iterator[tuple[Found, Emit]]

MOST_PAIRS = 200000  # pairs that are compared for one proposal
AFTER_SHAPES = 1000  # a fact that fails came farther than any part of a shape


@dataclass
class Progress:
    """What was met on the way, for closer looks and for messages."""

    needs: list[tuple[Formula, str]] = field(default_factory=list)  # parts that want a name
    lengths: list[tuple[Formula, Formula]] = field(default_factory=list)  # forests, len E wanted
    trees: list[Formula] = field(default_factory=list)  # variables and `true` that aren't nodes
    farthest: Missing = Missing()
    hits: int = 0

    def fact_missed(self, fact: Formula) -> None:
        """The fact doesn't follow: that is farther than any part of a shape."""
        if self.hits + AFTER_SHAPES > self.farthest.hits:
            self.farthest = Missing(self.hits + AFTER_SHAPES, "fact", None, fact)

    def part_missed(self, there: Formula, asked: Formula) -> None:
        """Nothing at a part of the left side is what is asked."""
        if self.hits > self.farthest.hits:
            self.farthest = Missing(self.hits, "part", there, asked)


class Matcher:
    """Matches one way to prove a right side with what is known."""

    def __init__(self, matching: "Matching", known: Facts, unknowns: set[Term],
                 facts: list[Formula], progress: Progress):
        """`facts` are wanted too: they are asked as soon as all of their unknowns are found."""
        self.matching, self.known, self.unknowns = matching, known, unknowns
        self.book, self.shapes = known.book, known.shapes
        self.facts, self.progress = facts, progress
        self.judged: dict[Formula, bool] = {}

    # ------------------------------------------------------------------------------------- terms
    def meant(self, formula: Formula, found: Found, is_term: bool = False) -> Formula:
        """The formula with what was found and representatives put in."""
        return self.known.rep(self.book.subst(formula, found), is_term)

    def is_open(self, formula: Formula) -> bool:
        """Says whether an unknown stands in it."""
        return not free(formula).isdisjoint(self.unknowns)

    def unify(self, have: Term, want: Term, found: Found) -> bool:
        """Says whether they become equal by what is put for unknowns, which is added to `found`."""
        if want in self.unknowns:
            return found[want] == have if want in found else self.bound(have, want, found)
        if have == want:
            return True
        if have[0] != want[0] or len(have) != len(want):
            return False
        return all(self.unify(one, two, found) if isinstance(one, tuple) and isinstance(two, tuple)
                   else one == two for one, two in zip(have, want))

    def bound(self, have: Term, unknown: Term, found: Found) -> bool:
        """Puts a term of the right sort for an unknown."""
        if have[0] not in ("prog", "logic", "+", "-", "++", *LITERALS):
            return False
        sort = self.book.logic.get(have[1]) if have[0] == "logic" else None
        fits = (sort or self.book.term_sort(have)) == self.book.sort_of(unknown)
        if fits:
            found[unknown] = have
        return fits

    def term_found(self, have: Term, want: Term, found: Found) -> Found | None:
        """What is found by a term, a representative, for a wanted one; None where they differ."""
        want = self.meant(want, found, True)
        if want == have:
            return found
        if want in self.unknowns and want not in found:
            return {**found, want: have}
        trial = dict(found)
        return trial if self.is_open(want) and self.unify(have, want, trial) else None

    # ------------------------------------------------------------------------------------ shapes
    def matches(self, left: Formula, right: Formula, sort: str, found: Found) -> Matches:
        """Gives (found, emit) for each way in which the left side entails the right one; where
        there is none, the pair is remembered if it is the farthest so far."""
        self.matching.pairs += 1
        if self.matching.pairs > MOST_PAIRS:
            raise Fails("too many ways to match")
        none, progress = True, self.progress
        for it in self.ways(left, right, sort, found):
            none = False
            progress.hits += 1
            yield it
        if none and progress.hits > progress.farthest.hits:
            progress.part_missed(left, self.meant(right, found))

    def ways(self, left: Formula, right: Formula, sort: str, found: Found) -> Matches:
        """The same, by the form of the right side."""
        book, head, now = self.book, right[0], self.meant(right, found)
        if not self.is_open(now) and book.same(left, now):
            yield found, lambda final: book.ent("id", (), left, self.meant(right, final), sort)
            return
        if head == "true":
            yield found, lambda final: book.ent("true_in", (), left, TRUE, sort)
            return
        if self.wants_shape(right, found):
            if left[0] == "is it":
                yield {**found, right[1]: left[1]}, lambda final: book.id(left, sort)
                return
            self.progress.needs.append((left, sort))
            if left[0] != "and":
                return
        if head == "node" and (left == TRUE or left[0] == "is it"):
            self.progress.trees.append(left)
        if head == "and":
            yield from self.both(left, right, sort, found)
            return
        if head[0] == "@" and right[1] == TRUE:
            yield from anywhere.somewhere(self, left, right, sort, found)
        if head[0] == "@" and right[1][0] == "-o":
            yield from anywhere.with_hole(self, left, right, sort, found)
        have, want = self.counts(left, right, sort)
        if want != 1 or (have > 1 and not self.absorbs(right, found)):
            yield from (listings.rows if sort == "f" else listings.sums)(self, left, right, found)
        elif have < 2:
            yield from self.one_part(left, right, sort, found)
        elif head == "len":
            yield from self.lengths(left, right, found)

    def wants_shape(self, right: Formula, found: Found) -> bool:
        """Says whether it is an unknown for a shape."""
        return right[0] == "is it" and right[1] in self.unknowns and right[1] not in found

    def counts(self, left: Formula, right: Formula, sort: str) -> tuple[int, int]:
        """How many parts the two sides have as rows or sums; 1 where they are none."""
        if sort not in ("f", "g") or left[0] == "and":
            return 1, 1
        op = "*" if sort == "f" else "+"
        return len(self.shapes.atoms(op, left)), len(self.shapes.atoms(op, right))

    def both(self, left: Formula, right: Formula, sort: str, found: Found) -> Matches:
        """(P and Q): each of them."""
        for one, first in self.matches(left, right[1], sort, found):
            for two, second in self.matches(left, right[2], sort, one):
                yield two, lambda final, first=first, second=second: self.book.ent(
                    "and_in", (first(final), second(final)), left, self.meant(right, final), sort)

    def one_part(self, left: Formula, right: Formula, sort: str, found: Found) -> Matches:
        """One tree, one root, one variable, .. on each side."""
        if right[0] == "len":
            yield from self.lengths(left, right, found)
        if left[0] == "and":
            for at in (1, 2):
                for one, emit in self.matches(left[at], right, sort, found):
                    yield one, lambda final, at=at, emit=emit: self.book.cut(
                        self.book.side(left, at, sort), emit(final))
            return
        inner = self.around(left, right, found) if left[0] == right[0] in PLACES else None
        if inner is None or left[0] in ("*", "+"):
            return
        at = PLACES[left[0]][0]
        for one, emit in self.matches(left[at], right[at], part_sort(left, sort, at), inner):
            yield one, lambda final, emit=emit: self.book.lift1(left, sort, at, emit(final))

    def around(self, left: Formula, right: Formula, found: Found) -> Found | None:
        """What is found by what is around the part of a node, tree, root or spot; None where it
        differs."""
        now: Found | None = found
        if left[0] == "node":
            for at in (1, 2, 4):
                now = None if now is None else self.term_found(left[at], right[at], now)
            return now
        if left[0][0] != "@":
            return found
        context = self.meant(right[1], found)
        if left[1] == context:
            return found
        sort_of = self.book.sort_of
        if left[1][0] == context[0] == "is it" and context[1] in self.unknowns and \
                sort_of(context[1]) == sort_of(left[1][1]):
            return {**found, context[1]: left[1][1]}
        return None

    # ----------------------------------------------------------------------------- rows and sums
    def absorbs(self, atom: Formula, found: Found) -> bool:
        """Says whether a part of a wanted row or sum may take any number of parts."""
        atom = self.meant(atom, found)
        return atom[0] in ("true", "len", "and") or (
            atom[0][0] == "@" and atom[1][0] in ("true", "-o"))

    def possible(self, found: Found) -> bool:
        """Says whether the wanted facts, of which all is found, follow from what is known."""
        for fact in self.facts:
            wanted = self.book.subst(fact, found)
            if self.is_open(wanted):
                continue
            if wanted not in self.judged:
                self.judged[wanted] = self.known.prove(wanted) is not None
            if not self.judged[wanted]:
                self.progress.fact_missed(wanted)
                return False
        return True

    def lengths(self, left: Formula, right: Formula, found: Found) -> Matches:
        """len E: the length of the left side."""
        lengths, want = self.matching.lengths, self.meant(right[1], found, True)
        try:
            _, term = lengths.length(left)
        except Fails:
            return
        meant = self.known.rep(term, True)
        if want in self.unknowns and meant == term:
            yield {**found, want: term}, lambda final: lengths.only_length(left)
        elif want in self.unknowns:  # the facts have another term for it, which has to stand there
            self.progress.lengths.append((left, ("len", meant)))
        elif not difference((want, 1), (term, -1)):
            yield found, lambda final: lengths.length_as(
                left, lengths.only_length(left), term, self.meant(right[1], final, True))
        elif not self.is_open(want):
            self.progress.lengths.append((left, ("len", want)))
