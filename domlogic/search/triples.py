"""Steps on triples: their ends changed, quantifiers put around them, cases put together."""
from domlogic.search.book import Book
from domlogic.search.entailments import Matching
from domlogic.search.formulas import FALSE, Formula, disjunction, free
from domlogic.search.heaps import Case, Command, Heaps, Opened, Variable


class Triples:
    """Triples in a book: a triple is known by the number of its step, an end by an entailment's."""

    def __init__(self, book: Book, matching: Matching):
        self.book, self.matching, self.shapes = book, matching, matching.shapes
        self.heaps = Heaps(book, matching)

    def pre(self, number: int) -> Formula:
        return self.book.judged(number)[1]

    def post(self, number: int) -> Formula:
        return self.book.judged(number)[3]

    # ------------------------------------------------------------------ ends
    def weaker(self, number: int, end: int) -> int:
        """The triple with the post that its own entails by the step `end`."""
        _, pre, command, post, sort = self.book.judged(number)
        target = self.book.judged(end)[2]
        if post == target:
            return number
        premises = self.book.id(pre, sort), number, end
        return self.book.tri("consequence", premises, pre, command, target, sort)

    def stronger(self, start: int, number: int) -> int:
        """The triple from what entails its pre by the step `start`."""
        _, pre, _, sort = self.book.judged(start)
        _, mine, command, post, _ = self.book.judged(number)
        if pre == mine:
            return number
        premises = start, number, self.book.id(post, sort)
        return self.book.tri("consequence", premises, pre, command, post, sort)

    def weaker_to(self, number: int, post: Formula) -> int:
        """The triple with this post, which its own entails by a search."""
        now, sort = self.post(number), self.book.judged(number)[4]
        if now == post:
            return number
        self.matching.splits = 1
        return self.weaker(number, self.matching.prove(now, post, sort))

    def one_of(self, number: int, posts: list[Formula], whole: Formula) -> int:
        """The triple with the choice of the posts, of which its own is one, or false."""
        now, sort = self.post(number), self.book.judged(number)[4]
        if now == whole:
            return number
        if now == FALSE:
            return self.weaker(number, self.book.ent("false_out", (), FALSE, whole, sort))
        at = posts.index(now)
        return self.weaker(number, self.shapes.chosen(now, whole, at, len(posts), sort))

    # ------------------------------------------------------------------ cases
    def impossible(self, command: Command, sort: str) -> int:
        """The triple from false."""
        return self.book.tri("absurd", (), FALSE, command, FALSE, sort)

    def possible_posts(self, numbers: list[int]) -> list[Formula]:
        """The posts of the triples, each once; without false."""
        return list(dict.fromkeys(it for it in map(self.post, numbers) if it != FALSE))

    def joined(self, numbers: list[int]) -> int:
        """From triples of one command, a case each, that from their choice to the choice of their
        posts."""
        book = self.book
        posts = self.possible_posts(numbers)
        whole = disjunction(posts)
        numbers = [self.one_of(it, posts, whole) for it in numbers]
        number = numbers[-1]
        for one in reversed(numbers[:-1]):
            _, pre, command, post, sort = book.judged(number)
            left = ("or", self.pre(one), pre)
            number = book.tri("disjunction", (one, number), left, command, post, sort)
        return number

    def eliminated(self, number: int, variables: tuple[Variable, ...]) -> int:
        """The variables quantified on both sides, and left out behind where they don't stand."""
        book = self.book
        for variable in reversed(variables):
            _, before, command, after, sort = book.judged(number)
            number = book.tri("eliminate", (number,), ("exists", variable, before), command,
                              ("exists", variable, after), sort)
            if variable not in free(after):
                inner = book.id(after, sort)
                end = book.ent("exists_out", (inner,), ("exists", variable, after), after, sort)
                number = self.weaker(number, end)
        return number

    def by_cases(self, number: int) -> int:
        """The triple with its post as cases."""
        _, _, _, post, sort = self.book.judged(number)
        return self.weaker(number, self.heaps.of(post, sort).step)

    def forgotten(self, number: int, variable: Variable) -> int:
        """The triple whose post says nothing of the variable."""
        book, cases = self.book, self.heaps
        _, _, _, post, sort = book.judged(number)
        cased = cases.of(post, sort)
        if not cased.cases:
            return self.weaker(number, cased.step)
        changed = [cases.without(it, variable) for it in cased.cases]
        whole = disjunction([it.formula for it, _ in changed])
        ends = []
        for at, ((after, step), before) in enumerate(zip(changed, cased.cases)):
            # The step leads below the case's own quantifiers, which come out last.
            own = len(before.variables)
            names = after.variables[:own]
            inner = Opened(after.variables[own:], after.case).formula
            into = self.shapes.into(inner, names, whole, at, len(changed), sort)
            ends.append(book.cut(step, into))
        return self.weaker(number, book.cut(cased.step, cases.joined(cased.cases, ends)))

    def old_value_named(self, case: Case, variable: Variable) -> tuple[Variable, Case, int]:
        """(the old value, the case in which it stands for the variable, the step to that,
        quantified)."""
        book, new = self.book, self.book.fresh(self.book.sort_of(variable))
        shape, *facts = (book.subst(it, {variable: new}) for it in (case.shape, *case.pure))
        inner = case._replace(shape=shape, pure=(*facts, ("=", variable, new)))
        same = ("=", variable, variable)
        back = case._replace(pure=(*case.pure, same)).formula
        refl = book.ent("eq_refl", (), case.formula, same, case.sort)
        start = self.shapes.gather(case.formula, back, case.sort, [(same, refl)])
        target = ("exists", new, inner.formula)
        end = book.ent("exists_in", (), back, target, case.sort, (variable,))
        return new, inner, book.cut(start, end)

