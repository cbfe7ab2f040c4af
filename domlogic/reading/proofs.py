"""The verdict on each step of a proof, and the first bad place."""
from domlogic.reading.computing import COMPUTING, is_met
from domlogic.reading.limits import Refused
from domlogic.reading.matching import (Written, judgement_matches, matches, settled,
                              with_new_variables)
from domlogic.reading.nameless import nameless_judgement
from domlogic.reading.patterns import OF_ENTAILMENTS, OF_TRIPLES
from domlogic.reading.sorts import scope_of, term_sort


class Proof:
    """A procedure's proof, whose judgements are made nameless once."""

    def __init__(self, theory, procedure):
        self.theory, self.procedure = theory, procedure
        self.scope, self.steps = with_new_variables(scope_of(theory, procedure)), procedure.steps
        self.judgements = [nameless_judgement(it.judgement, self.scope.logic) for it in self.steps]

    def cited(self, step, place):
        """Returns the judgements that a step cites; None where one isn't an earlier step's."""
        if any(not 1 <= number <= place for number in step.premises):
            return None
        return [self.judgements[number - 1] for number in step.premises]


def rule_fits(reading, step, judgement, written):
    """Gives the guesses, premises and conditions by which the conclusion is the written one."""
    if len(reading.arguments) != len(step.arguments):
        return
    arguments = {name: found for (_, name), found in zip(reading.arguments, step.arguments)}
    if any(name[0] == "$" and found[0] != "logic" for name, found in arguments.items()):
        return
    for guess in judgement_matches(reading.conclusion, judgement, arguments, written):
        premises = settled(reading, judgement[-1], guess, written)
        kinds = [condition for condition in reading.conditions if condition[0] == "string"]
        if premises is None or any(term_sort(guess[it[1]], written.scope) != "str" for it in kinds):
            continue
        yield guess, premises, [it for it in reading.conditions if it not in kinds]


def fits_of(step, judgement, written, theory):
    """Gives the same for all readings of the step's rule, a rule for such judgements."""
    if step.rule in COMPUTING:
        if (step.rule in ("seq", "call")) == (judgement[0] == "triple"):
            yield from COMPUTING[step.rule](step, judgement, written, theory)
        return
    table = OF_TRIPLES if judgement[0] == "triple" else OF_ENTAILMENTS
    for reading in table.get(step.rule, ()):
        yield from rule_fits(reading, step, judgement, written)


def premise_guesses(premises, cited, guess, written):
    """Gives the guesses by which the premises are the cited judgements."""
    if cited is None or len(premises) != len(cited):
        return
    if premises:
        if premises[0][-1] == cited[0][-1]:
            for one in judgement_matches(premises[0], cited[0], guess, written):
                yield from premise_guesses(premises[1:], cited[1:], one, written)
    elif all(now_matches(*pair, guess, written) for pair in guess.get("later", ())):
        yield guess


def now_matches(pattern, found, guess, written):
    """Says whether a formula, in which something is put for a variable, is what was found."""
    return any(True for _ in matches(pattern, found, guess, written))


def conditions_met(conditions, guess):
    """Returns the names of the conditions with whether they are met."""
    return [it if isinstance(it[1], bool) else (it[0], is_met(it, guess)) for it in conditions]


def side_of(choices):
    """Returns the first condition that no choice meets together with those before it."""
    for count, (name, _) in enumerate(choices[0], 1):
        if not any(all(met for _, met in choice[:count]) for choice in choices):
            return f"side {name}"
    return None


def verdict_of(step, judgement, cited, scope, theory):
    """Returns what is wrong with a step, or None for an instance."""
    written = Written(scope, (judgement, tuple(step.arguments), tuple(cited or ())))
    verdict, choices = "shape", []
    for guess, premises, conditions in fits_of(step, judgement, written, theory):
        verdict = "premises"
        for one in premise_guesses(premises, cited, guess, written):
            choices.append(conditions_met(conditions, one))
            if all(met for _, met in choices[-1]):
                return None
    return side_of(choices) if choices else verdict


def proves(judgement, procedure, logic):
    """Says whether the judgement is the procedure's own triple."""
    own = ("triple", procedure.pre, procedure.body, procedure.post, procedure.sort)
    return judgement == nameless_judgement(own, logic)


def check_proof(theory, procedure):
    """Refuses the proof at its first bad place."""
    proof = Proof(theory, procedure)
    for at, (step, judgement) in enumerate(zip(proof.steps, proof.judgements)):
        place = f"step {step.number} of {procedure.name}, line {step.line}"
        if step.rule is None:
            raise Refused(9, f"{place}: gap")
        verdict = verdict_of(step, judgement, proof.cited(step, at), proof.scope, theory)
        if verdict is not None:
            raise Refused(1, f"{place}: {step.rule}: {verdict}")
    if not proof.steps or not proves(proof.judgements[-1], procedure, proof.scope.logic):
        raise Refused(1, f"{procedure.name}: no proof")
