"""One command from an assertion: from each of its cases, by the command's axiom or by a triple that
is known."""
from domlogic.reading.nameless import modified
from domlogic.search.book import Book
from domlogic.search.calls import NoPart, applied, call
from domlogic.search.closer import looks
from domlogic.search.commands import TABLE
from domlogic.search.contexts import named_contexts, unnamed
from domlogic.search.entailments import Matching
from domlogic.search.formulas import TRUE, Formula, free
from domlogic.search.frames import Frames
from domlogic.search.heaps import Case, Command, Variable
from domlogic.search.refusals import Fails, Refusal

COMPOUND = ("skip", "block", "local", "if", "while")
COMMANDS = {**TABLE, "call": call}
LOOKS = 2  # closer looks, one after the other
NONE_SET: frozenset[Variable] = frozenset()


def in_case(case: Case, why: Fails) -> Fails:
    """The failure as one of the case, where it speaks of a part of that or of other names."""
    told = why.args[0]
    if isinstance(why, NoPart):
        return NoPart(case, told.wanted, why.needs, told.missing)
    return Fails(Refusal(case.formula, *(told[1:] if isinstance(told, tuple) else [told])))


class Stepping:
    """Single commands in a book."""

    def __init__(self, book: Book, matching: Matching):
        self.book, self.matching = book, matching
        self.frames = Frames(book, matching)
        self.triples = self.frames.triples
        self.heaps = self.triples.heaps

    def known_triples(self, command: Command) -> list[int]:
        """The earlier steps for this command."""
        return [it.number for it in self.book.earlier
                if it.judgement[0] == "triple" and it.judgement[2] == command]

    def from_assertion(self, pre: Formula, command: Command, sort: str, left: int = LOOKS,
                       old: frozenset[Variable] = NONE_SET) -> int:
        """The triple of the command from all cases of pre. Of the variables of `old`, which are
        set, the facts `x = $v` may speak; so many closer looks are left."""
        cased = self.heaps.of(pre, sort)
        if not cased.cases:
            return self.triples.stronger(cased.step, self.triples.impossible(command, sort))
        numbers = []
        for it in cased.cases:
            number = self.from_case(it.case, command, left, old)
            numbers.append(self.triples.eliminated(number, it.variables))
        return self.triples.stronger(cased.step, self.triples.joined(numbers))

    def from_case(self, case: Case, command: Command, left: int, old: frozenset[Variable]) -> int:
        """The triple of the command from one case."""
        variable = self.spoken_of(case, command, old)
        if variable is not None:
            return self.with_old_value(case, command, left, old, variable)
        fails = Fails(Refusal(case.formula, "an earlier step for this command"))
        for triple in self.known_triples(command):
            try:
                return applied(self.frames, case, triple, [])
            except Fails as why:
                fails = why
        if command[0] in COMPOUND:
            raise fails
        try:
            return self.triples.by_cases(COMMANDS[command[0]](self.frames, case, command))
        except Fails as why:
            return self.closer(case, command, left, old, in_case(case, why))

    def with_old_value(self, case: Case, command: Command, left: int, old: frozenset[Variable],
                       variable: Variable) -> int:
        """The same with a name for the old value of a variable; a refusal speaks of the case that
        has none."""
        new, inner, start = self.triples.old_value_named(case, variable)
        try:
            number = self.from_case(inner, command, left, old | {variable})
        except Fails as why:
            raise in_case(case, why) from None
        return self.triples.stronger(start, self.triples.eliminated(number, (new,)))

    @staticmethod
    def spoken_of(case: Case, command: Command, old: frozenset[Variable]) -> Variable | None:
        """A variable that the command sets, and of whose old value something is said beside
        `x = $v`, or which the command reads."""
        is_name = [it[0] == "=" and it[1] in old and it[2][0] == "logic" for it in case.pure]
        said = tuple(it for it, named in zip(case.pure, is_name) if not named)
        there = free(case._replace(pure=said).formula)
        is_read = free(command[2:]) - old if command[0] not in (*COMPOUND, "call") else set()
        return next((it for it in sorted(modified(command)) if it in there | is_read), None)

    def closer(self, case: Case, command: Command, left: int, old: frozenset[Variable],
               why: Fails) -> int:
        """The same after a closer look at the case; `why` where none helps."""
        if not left:
            raise why
        is_call = isinstance(why, NoPart)
        needs, wanted = (why.needs, why.args[0][1]) if is_call else ([], TRUE)
        for it in named_contexts(self.frames, case, wanted):
            try:
                number = self.from_case(it.case, command, left - 1, old)
            except Fails:
                continue
            number = unnamed(self.frames, number, it.name)
            return self.triples.stronger(it.step, self.triples.eliminated(number, (it.name,)))
        for start, after in looks(self.frames, case, command, needs, wanted):
            try:
                number = self.from_assertion(after, command, case.sort, left - 1, old)
            except Fails:
                continue
            return self.triples.stronger(start, number)
        raise why
