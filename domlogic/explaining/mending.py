"""What would make a step an instance, where that is small: another rule, or other citations."""
import itertools
from typing import Iterator

from domlogic.explaining.case import Case
from domlogic.explaining.rows import ROWS, judges_triples
from domlogic.explaining.wording import code, listed, wrapped
from domlogic.reading.faults import OF_VERSION_2
from domlogic.reading.proofs import verdict_of
from domlogic.reading.theories import Step

# Of so many cited steps each order is tried.
MOST_ORDERED = 4


def is_instance(case: Case, step: Step) -> bool:
    """Says whether the step would be an instance in this one's place."""
    if any(not 1 <= it <= case.at for it in step.premises):
        return False
    cited = [case.judged(case.procedure.steps[it - 1]) for it in step.premises]
    return verdict_of(step, case.judgement, cited, case.scope, case.theory) is None


def other_rules(case: Case) -> Iterator[str]:
    """The rules by which the same judgement is an instance over the same steps."""
    is_triple = case.judgement[0] == "triple"
    for rule in (*ROWS, "eq_subst", "linear", "seq", "call"):
        is_there = case.theory.version == 2 or rule not in OF_VERSION_2
        if is_there and judges_triples(rule) == is_triple and rule != case.step.rule:
            if is_instance(case, case.step._replace(rule=rule)):
                yield rule


def by_other_rules(case: Case) -> list[str]:
    """A sentence on them, where there are any."""
    found = list(itertools.islice(other_rules(case), 4))
    return wrapped(
        f"By {listed([code(it) for it in found], 'or')} it is an instance.") if found else []


def other_citations(case: Case, count: int) -> Iterator[tuple[int, ...]]:
    """Other orders of the cited steps, and other steps in place of the one of this count."""
    cited = case.step.premises
    if len(cited) <= MOST_ORDERED:
        yield from (it for it in itertools.permutations(cited) if it != cited)
    for number in range(case.at, 0, -1):
        yield (*cited[: count - 1], number, *cited[count:])


def by_other_citations(case: Case, count: int) -> list[str]:
    """A sentence on the first of them by which the step is an instance, where there is one."""
    for numbers in other_citations(case, count):
        if is_instance(case, case.step._replace(premises=numbers)):
            shown = f"{case.step.rule}({', '.join(map(str, numbers))})"
            return wrapped(f"With {code(shown)} it is an instance.")
    return []
