"""The rules that are no line of letters but compute: eq_subst, linear, seq and call."""
from typing import Iterator

from domlogic.explaining.case import TERM_PLACES, Case, at_path, is_term_at
from domlogic.explaining.comparing import Comparison, Path, State, Way, narrowed
from domlogic.explaining.named import Node, named, unnamed
from domlogic.explaining.wording import (code, counted, figure, labelled, shortened,
                                         sort_in_words, wrapped)
from domlogic.reading.computing import COMPUTING, MOST, compares_ints, conjuncts, difference
from domlogic.reading.nameless import replaced
from domlogic.reading.theories import Procedure
from domlogic.search.printing import term_text


def ways(case: Case) -> Iterator[Way]:
    """The readings of the conclusion, as in domlogic/reading/computing.py."""
    found = COMPUTING[case.step.rule](case.step, case.judgement, case.written, case.theory)
    for guess, premises, _ in found:
        yield Way(None, Comparison(case.written), State(guess, {}, {}), premises)


def shape(case: Case) -> Iterator[str]:
    """Why the judgement isn't of the rule's form."""
    rule = case.step.rule
    if case.step.arguments and rule != "linear":
        yield from case.source.view_of(case.step.arguments[0])
        yield f"{code(rule)} takes no argument after 'with'."
        return
    yield from {"eq_subst": substitution, "linear": sum_form, "seq": block,
                "call": call}[rule](case)


def block(case: Case) -> Iterator[str]:
    """A command that is no block."""
    yield from case.marked(0, (2,))
    yield "'seq' is for a block, '{ C1 ; .. ; Cn }', and this command is none."


# ---------------------------------------------------------------------------------------- eq_subst

def substitution(case: Case) -> Iterator[str]:
    """A left side that is no equation with a formula, or a place with another term."""
    left, right = case.judgement[1:3]
    if left[0] != "and" or left[1][0] != "=":
        path = (1, 1) if left[0] == "and" else (1,)
        yield from case.marked(0, path)
        yield from wrapped("The left side has to be '(E = F and P)', an equation and a formula in "
                           "which it is used" +
                           ("; the equation stands first." if left[0] == "and" else "."))
        return
    old, new = left[1][1:]
    path, part = unreplaced(left[2], right, old, new)
    written = at_path(case.step.judgement[1][2], path)
    shown = [case.text(it, True) for it in (old, new)]
    yield from labelled("read", f"E is {code(shown[0])}; F is {code(shown[1])}; P is "
                        f"{code(shortened(case.source.written(case.step.judgement[1][2])))}")
    yield from case.marked(0, (2, *path))
    yield from labelled("wanted", f"{code(shortened(case.source.written(written)))}, as in P"
                        + (f", or {code(shown[1])} for it" if part == old else ""))
    yield from labelled("written", code(shortened(case.written_text(0, (2, *path)))))
    if (part, at_path(right, path)) == (new, old):
        yield from wrapped("Equals are put from left to right: of "
                           f"{code(f'{shown[0]} = {shown[1]}')} the right term is put for the left "
                           "one.")


def unreplaced(one: Node, other: Node, old: Node, new: Node,
               is_term: bool = False) -> tuple[Path, Node] | None:
    """The first place where another part stands than there or what may be put for it."""
    if one == other or (is_term and (one, other) == (old, new)):
        return None
    if one[0] != other[0] or len(one) != len(other) or (is_term and not isinstance(one[1], tuple)):
        return (), one
    terms = TERM_PLACES.get(one[0], ()) if one[0] not in ("is it", "is", "exists", "forall") else ()
    for at, (left, right) in enumerate(zip(one, other)):
        if not (isinstance(left, tuple) and isinstance(right, tuple)):
            if left != right:
                return (), one
            continue
        inner = unreplaced(left, right, old, new, at in terms or is_term)
        if inner:
            return (at, *inner[0]), inner[1]
    return None


# ------------------------------------------------------------------------------------------ linear

def conjunct_paths(formula: Node, path: Path) -> Iterator[Path]:
    """Where the conjuncts are, in their order."""
    if formula[0] != "and":
        yield path
    else:
        yield from conjunct_paths(formula[1], (*path, 1))
        yield from conjunct_paths(formula[2], (*path, 2))


def sum_form(case: Case) -> Iterator[str]:
    """Conjuncts, numbers or a right side of which no sum is taken."""
    left, right = case.judgement[1:3]
    paths, arguments = list(conjunct_paths(left, (1,))), case.step.arguments
    for path in paths:
        if not compares_ints(at_path(case.judgement, path), case.written):
            yield from case.marked(0, path)
            yield from wrapped("Each conjunct of the left side has to be 'E <= F' or 'E = F' of "
                               "integers, and this one isn't.")
            return
    if len(paths) != len(arguments):
        yield from case.marked(0, (1,))
        have = "is" if len(arguments) == 1 else "are"
        yield from wrapped("After 'with' a number is wanted for each conjunct of the left side: it "
                           f"has {counted(len(paths), 'conjunct')}, and there {have} "
                           f"{counted(len(arguments), 'number')}.")
        return
    for argument in arguments:
        if argument[0] != "int":
            yield from case.source.view_of(argument)
            yield "Each argument has to be a number as it is written, and this one isn't."
            return
    yield from case.marked(0, (2,))
    yield "The right side has to be 'E <= F' or 'E = F' of integers, or 'false'."


def linear_side(case: Case, side: str) -> Iterator[str]:
    """Which number, or which sum, isn't as the rule asks."""
    facts, factors = list(conjuncts(case.judgement[1])), [it[1] for it in case.step.arguments]
    if side == "coefficient":
        yield from coefficient(case, facts, factors)
        return
    terms = [pair for (_, low, high), factor in zip(facts, factors)
             for pair in ((high, factor), (low, -factor))]
    total, right = difference(*terms), case.judgement[2]
    yield from case.marked(0, (2,))
    yield from wrapped("Of each conjunct take right - left, times its number: the sum is "
                       f"{code(form_text(total))}.")
    yield from wrapped(wanted_sum(case, facts, factors, total, right))


def coefficient(case: Case, facts: list[Node], factors: list[int]) -> Iterator[str]:
    """The first number that is too large, or below 0 at a `<=`."""
    paths = list(conjunct_paths(case.judgement[1], (1,)))
    for fact, factor, path, argument in zip(facts, factors, paths, case.step.arguments):
        is_large = abs(factor) > MOST
        if is_large or (factor < 0 and fact[0] == "<="):
            why = f"it has to be from -{figure(MOST)} to {figure(MOST)}" if is_large else \
                "a number below 0 is for an equation alone"
            yield from case.source.view_of(argument)
            yield from wrapped(f"{factor} is the number of the conjunct "
                               f"{code(case.written_text(0, path))}, and {why}.")
            return


def wanted_sum(case: Case, facts: list[Node], factors: list[int], total: dict, right: Node) -> str:
    """What the sum would have to be."""
    if right == ("false",):
        return "For 'false' it has to be a number below 0."
    own = difference((right[2], 1), (right[1], -1))
    left = {part: factor for part in {**own, **total}
            if (factor := own.get(part, 0) - total.get(part, 0))}
    told = f"Of the right side, {code(case.written_text(0, (2,)))}, it is {code(form_text(own))}"
    if right[0] == "<=":
        return (f"{told}, which less that sum is {code(form_text(left))}: that has to be a number, "
                "and at least 0.")
    if left:
        return f"{told}: for an equation the two have to be the same."
    at = next(at for at, fact in enumerate(facts) if fact[0] == "<=" and factors[at])
    return (f"{told}, the same; but an equation follows from equations alone, so the number "
            f"{factors[at]} of conjunct {at + 1}, a '<=', has to be 0.")


def form_text(form: dict) -> str:
    """A linear form, its variables first."""
    parts = [(factor, "" if part == 1 else term_text(part))
             for part, factor in sorted(form.items(), key=lambda it: (it[0] == 1, str(it[0])))]
    told = ""
    for factor, text in parts:
        sign = " - " if factor < 0 else " + "
        number = str(abs(factor)) if not text or abs(factor) != 1 else ""
        told += sign if told else sign.strip(" +")
        told += " ".join(filter(None, (number, text)))
    return told or "0"


# -------------------------------------------------------------------------------------------- call

def call(case: Case) -> Iterator[str]:
    """A command that is no call, or a triple that isn't the specification of what is called."""
    _, pre, command, post, sort = case.judgement
    if command[0] != "call":
        yield from case.marked(0, (2,))
        yield "'call' is for a command 'call (r, ..) := f(E, ..)', and this command is none."
        return
    callee = next(it for it in case.theory.procedures if it.name == command[2])
    if sort != callee.sort:
        yield from case.marked_sort(0)
        yield from wrapped(f"{code(callee.name)} is specified at sort "
                           f"{sort_in_words(callee.sort)}, and the step is at "
                           f"{sort_in_words(sort)}.")
        return
    yield from specification(case, callee)


def specification(case: Case, callee: Procedure) -> Iterator[str]:
    """The first part of pre or post that isn't that of the specification."""
    _, pre, (_, results, _, arguments), post, _ = case.judgement
    terms = {("prog", name): term for (name, _), term in zip(callee.params, arguments)}
    terms |= {("prog", name): term for (name, _), term in zip(callee.results, results)}
    for name, own, found, at in (("requires", callee.pre, pre, 1),
                                 ("ensures", callee.post, post, 3)):
        wanted = replaced(unnamed(own, case.scope.logic), terms)
        if wanted == found:
            continue
        path, part = narrowed(wanted, found)
        path = (at, *path)
        shown = case.text(named(wanted, case.scope.logic))
        inner = case.text(named(part, case.scope.logic), is_term_at(case.step.judgement, path))
        yield from wrapped(f"The {'pre' if at == 1 else 'post'} has to be the {name} of "
                           f"{code(callee.name)} with the arguments and results put in: "
                           f"{code(shortened(shown, 120))}.")
        yield from case.marked(0, path)
        yield from labelled("wanted", code(shortened(inner, 160)))
        yield from labelled("written", code(shortened(case.written_text(0, path), 160)))
        return

