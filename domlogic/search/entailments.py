"""The assistant for entailments of symbolic heaps: the left side opened, the right side matched."""
from domlogic.reading.nameless import is_pure
from domlogic.search.book import Book
from domlogic.search.closer_looks import CloserLooks
from domlogic.search.facts import Facts
from domlogic.search.formulas import (FALSE, Formula, Path, Term, conjuncts, variables_named)
from domlogic.search.lengths import Lengths
from domlogic.search.matching import Matcher, Progress
from domlogic.search.refusals import Fails, Refusal
from domlogic.search.right_sides import Found, RightSides
from domlogic.search.shapes import Shapes
from domlogic.search.unknown_shapes import UnknownShapes
from domlogic.search.witnesses import Attempt

LOOKS = 3  # closer looks, one after the other


class Matching:
    """Proves entailments."""

    def __init__(self, book: Book):
        self.book, self.shapes = book, Shapes(book)
        self.right_sides, self.lengths = RightSides(self.shapes), Lengths(self.shapes)
        self.splits = 1  # how often a forest may still be split into cases
        self.pairs = 0  # how many pairs were compared
        self.needs: list[tuple[Formula, str]] = []  # parts that the last match wanted to have names

    # ---------------------------------------------------------------------------------- the whole
    def prove(self, left: Formula, right: Formula, sort: str, looks: int = LOOKS) -> int:
        """The step that the left side entails the right side, or Fails with a Refusal."""
        book = self.book
        if book.same(left, right):
            return book.ent("id", (), left, right, sort)
        if is_pure(right):
            return self.by_cases(left, right, sort, looks)
        head = right[0]
        if head in ("->", "not"):
            goal = right[2] if head == "->" else FALSE
            inner = self.prove(("and", left, right[1]), goal, sort, looks)
            rule = "imp_in" if head == "->" else "not_in"
            return book.ent(rule, (inner,), left, right, sort)
        if head == "-o" or head[:2] == "o-":
            return self.with_part_put_in(left, right, sort, looks)
        if head == "forall":
            new = book.fresh(book.sort_of(right[1]))
            inner = self.prove(left, book.subst(right[2], {right[1]: new}), sort, looks)
            target = ("forall", new, book.judged(inner)[2])
            return book.ent("forall_in", (inner,), left, target, sort)
        supposes = [it for it in conjuncts(right) if it[0] in ("->", "not", "forall")]
        if head == "and" and not all(map(is_pure, supposes)):
            ends = tuple(self.prove(left, it, sort, looks) for it in right[1:])
            return book.ent("and_in", ends, left, right, sort)
        return self.by_cases(left, right, sort, looks)

    def with_part_put_in(self, left: Formula, right: Formula, sort: str, looks: int) -> int:
        """An adjoint on the right: the other part is put in on the left."""
        hole, k = sort[0], sort[-1]
        if right[0] == "-o":
            rule, whole = "hole_adj_in", ("@" + hole, left, right[1])
        else:
            rule, whole, k = "ctx_adj_in", ("@" + hole, right[1], left), right[0][-1]
        inner = self.prove(whole, right[2], k, looks)
        return self.book.ent(rule, (inner,), left, right, sort)

    def by_cases(self, left: Formula, right: Formula, sort: str, looks: int) -> int:
        """The left side opened, and each case by itself."""
        leaves, emit = self.shapes.opened(left, sort)
        numbers = {}
        for _, shape, pure in leaves:
            known = Facts(self, shape, pure, sort)
            numbers[shape, tuple(pure)] = self.case(known, right, looks)
        return emit(right, lambda leaf: numbers[leaf])

    def tried(self, left: Formula, right: Formula, sort: str, looks: int = 1) -> int | None:
        """The step that the left side entails the right side, or None."""
        needs = self.needs
        try:
            return self.prove(left, right, sort, looks)
        except Fails:
            return None
        finally:
            self.needs = needs

    def case(self, known: Facts, right: Formula, looks: int) -> int:
        """The step that one case entails the right side; where matching fails, by closer looks."""
        book, sort = self.book, known.sort
        number = known.contradiction()
        if number is not None:
            return book.cut(number, book.ent("false_out", (), FALSE, right, sort))
        progress, why = Progress(), ""
        try:
            number = self.matched(known, right, progress)[1]
        except Fails as fails:
            number, why = None, str(fails.args[0])
        if number is not None:
            return number
        best = self.refusal(known, right, progress, why)
        for look in CloserLooks(self, known, right, progress).looks() if looks else ():
            before = self.splits
            try:
                start, after = look.taken()
                self.splits -= look.splits
                return book.cut(start, self.prove(after, right, sort, looks - 1))
            except Fails as fails:
                best = self.farther(best, fails)
            finally:
                self.splits = before
        raise Fails(best)

    def refusal(self, known: Facts, right: Formula, progress: Progress, why: str) -> Refusal:
        """What is told where a case doesn't entail the right side."""
        missing = progress.farthest
        if missing.kind is None:  # nothing was tried: there is no way to prove the right side
            missing = missing._replace(kind="part", there=known.shape, asked=right)
        asked = variables_named(missing.asked, self.right_sides.origin)
        return Refusal(known.whole, right, missing._replace(asked=asked), why)

    @staticmethod
    def farther(best: Refusal, fails: Fails) -> Refusal:
        """The refusal that came farther."""
        other = fails.args[0]
        if isinstance(other, Refusal) and other.missing.hits > best.missing.hits:
            return other
        return best

    # ----------------------------------------------------------------------------- the right side
    def matched(self, known: Facts, right: Formula, progress: Progress,
                unknowns: frozenset[Term] = frozenset()) -> tuple[Found, int | None]:
        """What was found for unknowns, and the step that the known entails the right side with it
        put in; the step is None where there is none."""
        sort, meant = known.sort, known.rep(known.shape)
        normal = self.shapes.canon(right, sort)
        for way in self.right_sides.ways(normal.right, sort):
            progress.hits = 0
            mine = {*unknowns, *way.unknowns()}
            matcher = Matcher(self, known, mine, way.facts(), progress)
            done = Attempt(matcher, self.right_sides, way, meant).done()
            if done is not None:
                found, number = done
                back = self.shapes.canon(self.book.subst(right, found), sort).back()
                return found, self.book.cut(number, back)
        return {}, None

    def matched_with(self, known: Facts, right: Formula,
                     unknowns: set[Term]) -> tuple[Found, int | None]:
        """The same; what would have to have a name is left in `needs`."""
        progress = Progress()
        found = self.matched(known, right, progress, frozenset(unknowns))
        self.needs = progress.needs
        return found

    # --------------------------------------------------------------- for the assistant of triples
    def length(self, forest: Formula) -> tuple[int, Term]:
        """(step, term): the forest entails (the forest and len term)."""
        return self.lengths.length(forest)

    def cases(self, part: Formula) -> int:
        """The step that a forest, of which little is known, is empty or has a first node."""
        return UnknownShapes(self).cases(part)

    def name(self, known: Facts, path: Path) -> tuple[int, Formula]:
        """The part at the path gets a name: the step, and what it entails."""
        return CloserLooks(self, known, FALSE, Progress()).named_at(path)
