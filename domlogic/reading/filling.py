"""The walk that fills the gaps of a theory."""
from domlogic.reading.assistants import ASSISTANTS, steps_of
from domlogic.reading.limits import FILE_BYTES, FILE_NESTING, STEPS, Refused
from domlogic.reading.nameless import nameless_judgement
from domlogic.reading.proofs import proves, verdict_of
from domlogic.reading.matching import with_new_variables
from domlogic.reading.sorts import scope_of
from domlogic.reading.tokens import tokens_within
from domlogic.reading.writing import step_text, theory_text

MOST_STEPS = 10_000
MOST_BYTES = 1_048_576


def fits(steps):
    """Says whether steps may stand in the place of a gap, as far as their sizes go."""
    if len(steps) > MOST_STEPS:
        return False
    text = " ".join(map(step_text, steps)).encode()
    if len(text) > MOST_BYTES:
        return False
    try:
        tokens_within(text, FILE_NESTING)
    except Refused:
        return False
    return True


def offered(judgement, number, logic):
    """Returns the steps of the first assistant that has some of the right sizes, or None."""
    if judgement[0] != "entails":
        return None
    for assistant in ASSISTANTS:
        plan = assistant(logic).plan(*judgement[1:])
        if plan is not None and fits(steps_of(plan, number)):
            return steps_of(plan, number)
    return None


class Walk:
    """A proof as far as it is filled."""

    def __init__(self, theory, procedure):
        self.theory, self.procedure = theory, procedure
        self.scope = with_new_variables(scope_of(theory, procedure))
        self.steps, self.judgements, self.gaps = [], [], []

    def raised(self, number):
        """Returns a number that is cited, as it is after the gaps that were filled."""
        return number + sum(more for gap, more in self.gaps if gap <= number)

    def add(self, step):
        self.steps.append(step)
        self.judgements.append(nameless_judgement(step.judgement, self.scope.logic))

    def cited(self, step):
        if any(not 1 <= number <= len(self.steps) for number in step.premises):
            return None
        return [self.judgements[number - 1] for number in step.premises]

    def fill(self, step, place):
        steps = offered(step.judgement, len(self.steps) + 1, self.scope.logic)
        if steps is None:
            raise Refused(9, f"{place}: gap")
        for one in steps:
            self.add(one)
        self.gaps.append((step.number, len(steps) - 1))

    def write(self, step, place):
        premises = tuple(map(self.raised, step.premises))
        new = step._replace(number=len(self.steps) + 1, premises=premises)
        judgement = nameless_judgement(new.judgement, self.scope.logic)
        verdict = verdict_of(new, judgement, self.cited(new), self.scope, self.theory)
        if verdict is not None:
            raise Refused(1, f"{place}: {step.rule}: {verdict}")
        self.add(new)

    def walked(self):
        """Returns the procedure with its filled proof, or refuses it at the first bad place."""
        for step in self.procedure.steps:
            place = f"step {step.number} of {self.procedure.name}, line {step.line}"
            (self.fill if step.rule is None else self.write)(step, place)
        if not self.steps or not proves(self.judgements[-1], self.procedure, self.scope.logic):
            raise Refused(1, f"{self.procedure.name}: no proof")
        return self.procedure._replace(steps=self.steps)


def filled(theory):
    """Returns the text of the theory with its gaps filled."""
    procedures = [Walk(theory, it).walked() for it in theory.procedures]
    if sum(len(it.steps) for it in procedures) > STEPS:
        raise Refused(8, "limit steps")
    text = theory_text(theory._replace(procedures=procedures))
    if len(text.encode()) > FILE_BYTES:
        raise Refused(8, "limit file")
    return text
