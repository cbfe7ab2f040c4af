"""Fills the gaps of a theory: those of entailments by matching, those of triples by execution.

A proof that doesn't end in its procedure's own triple gets it as one more gap.
"""
from typing import Iterable, NamedTuple

from domlogic.reading.nameless import nameless_judgement
from domlogic.reading.theories import Procedure, Step, Theory
from domlogic.search.book import Book
from domlogic.search.entailments import Matching
from domlogic.search.execution import Execution, Watch
from domlogic.search.messages import Failure, ShownNames, failure_of, in_normal_form, lines_of
from domlogic.search.refusals import Fails


class Filled(NamedTuple):
    """The filled theory; of each written step, by procedure and new number, what it was."""

    theory: Theory
    written: dict[tuple[str, int], Step]


class NotFilled(Exception):
    """A gap stays: its lines are the arguments."""


class Earlier(list):
    """All steps so far, by number; `seen` are those written and the ends of proposals, which alone
    are looked at."""

    def __init__(self, done: list[Step], seen: list[Step]):
        super().__init__(done)
        self.seen = seen


def own_triple(procedure: Procedure) -> tuple:
    """The triple in which the procedure's proof has to end."""
    return ("triple", procedure.pre, procedure.body, procedure.post, procedure.sort)


def asked_steps(theory: Theory, procedure: Procedure) -> list[Step]:
    """The steps of the proof, and the procedure's own triple where they don't end in it."""
    steps, own, logic = list(procedure.steps), own_triple(procedure), dict(theory.logic)
    last = steps and nameless_judgement(steps[-1].judgement, logic)
    if last != nameless_judgement(own, logic):
        steps.append(Step(len(steps) + 1, None, None, (), (), own))
    return steps


def searched(search: Matching | Execution, judgement: tuple) -> int:
    """The step of the judgement; Fails with a Failure if there is none."""
    try:
        return search.prove(*judgement[1:])
    except Fails as why:
        failure = failure_of(why, getattr(search, "place", ""))
        raise Fails(in_normal_form(failure, search.book, judgement[-1])) from None


def ended_in(judgement: tuple, book: Book, last: int) -> list[tuple]:
    """The steps that the last one needs, which end in the judgement as it is written."""
    steps = book.used(last)
    if steps and steps[-1][4] == judgement:
        return steps
    # It is known already, or with other names of bound variables.
    here, cited = book.first + len(steps), steps[-1][0] if steps else last
    _, left, *command, right, sort = judgement
    same = [(here, "id", (), (), ("entails", left, left, sort)),
            (here + 1, "id", (), (), ("entails", right, right, sort))]
    premises = (here, cited, here + 1) if command else (cited, here + 1)
    rule = "consequence" if command else "cut"
    return [*steps, *same, (here + 2, rule, premises, (), judgement)]


def logic_names(nodes: Iterable[tuple]) -> set[str]:
    """The names of logic variables in them, bound ones too. Parts that are shared are met once."""
    names, met, work = set(), set(), list(nodes)
    while work:
        node = work.pop()
        if id(node) not in met:
            met.add(id(node))
            names |= {node[1]} if node[:1] == ("logic",) else set()
            work += [part for part in node if isinstance(part, tuple)]
    return names


def title_of(step: Step, procedure: Procedure) -> str:
    """The gap as an author knows it: his step, or the triple that his proof doesn't end in."""
    if step.line is None:
        return f"the triple of {procedure.name}"
    return f"step {step.number} of {procedure.name}, line {step.line}"


class Filling:
    """A theory on its way: the logic variables so far, and the procedures that are done."""

    def __init__(self, theory: Theory, watch: Watch):
        self.theory, self.watch = theory, watch
        self.logic, self.written = list(theory.logic), {}

    def whole(self) -> Filled:
        procedures = [it._replace(steps=self.steps_of(it)) for it in self.theory.procedures]
        return Filled(self.theory._replace(logic=self.logic, procedures=procedures), self.written)

    def steps_of(self, procedure: Procedure) -> list[Step]:
        """The steps of the procedure with its gaps filled."""
        done: list[Step] = []
        ends: dict[int, int] = {}  # of each asked step, by its number, where its judgement stands
        for step in asked_steps(self.theory, procedure):
            if step.rule is None:
                done += self.gap_filled(procedure, step, done, ends)
            else:
                premises = tuple(ends.get(it, 0) for it in step.premises)
                done.append(step._replace(number=len(done) + 1, premises=premises))
                self.written[procedure.name, len(done)] = step
            ends[step.number] = len(done)
        return done

    def gap_filled(self, procedure: Procedure, gap: Step, done: list[Step],
                   ends: dict[int, int]) -> list[Step]:
        """The steps that fill the gap; the variables that they bring are declared."""
        now = self.theory._replace(logic=self.logic)
        seen = [done[number - 1] for number in ends.values()]
        book = Book(now, procedure, len(done) + 1, Earlier(done, seen))
        is_triple = gap.judgement[0] == "triple"
        search = Execution(book, self.watch) if is_triple else Matching(book)
        try:
            steps = ended_in(gap.judgement, book, searched(search, gap.judgement))
        except Fails as why:
            failure: Failure = why.args[0]
            names = ShownNames(book.new, self.theory.logic)
            title = title_of(gap, procedure) + (failure.place and f", {failure.place}")
            raise NotFilled(f"not filled: {title}", *lines_of(failure, names)) from None
        names = logic_names(it[3:] for it in steps)
        self.logic += [(name, sort) for name, sort in book.new.items() if name in names]
        return [Step(number, gap.line, *rest) for number, *rest in steps]


def filled(theory: Theory, watch: Watch = lambda command: None) -> Filled:
    """The theory with its gaps filled; NotFilled where one stays."""
    return Filling(theory, watch).whole()
