"""The text of formulas, commands, judgements, steps and theories, as the language writes them."""
import functools

from domlogic.reading.limits import SHAPE_SORTS, VALUE_SORTS
from domlogic.reading.texts import quoted
from domlogic.reading.theories import Procedure, Step, Theory


def term_text(term: tuple) -> str:
    """The text of a term."""
    head, *parts = term
    if head == "int":
        return str(parts[0])
    if head == "str":
        return quoted(parts[0])
    if head in ("prog", "logic"):
        return parts[0]
    return f"{{{term_text(parts[0])} {head} {term_text(parts[1])}}}" if parts else head


@functools.lru_cache(maxsize=1 << 16)  # steps of a proof repeat each other's formulas
def formula_text(formula: tuple) -> str:
    """The text of a formula."""
    head, *parts = formula
    if head == "is it":
        return parts[0][1]
    if head == "len":
        return "len " + term_text(parts[0])
    if head in ("=", "<="):
        return f"{term_text(parts[0])} {head} {term_text(parts[1])}"
    if head == "node":
        name, number, children, listing = parts
        inside = formula_text(children)
        return f"{term_text(name)}#{term_text(number)}[{inside}]%{term_text(listing)}"
    if head == "one tree":
        return f"<{formula_text(parts[0])}>"
    if head == "one root":
        return f"[{formula_text(parts[0])}]"
    if head == "not":
        return f"(not {formula_text(parts[0])})"
    if head in ("exists", "forall"):
        return f"({head} {parts[0][1]} . {formula_text(parts[1])})"
    if head == "is":
        return f"({parts[0][1]} is {formula_text(parts[1])})"
    return f"({formula_text(parts[0])} {head} {formula_text(parts[1])})" if parts else head


def condition_text(condition: tuple) -> str:
    """The text of a condition of `if` and `while`."""
    head, *parts = condition
    if head == "holds":
        return parts[0][1]
    if head in ("=", "<="):
        return f"{term_text(parts[0])} {head} {term_text(parts[1])}"
    if head == "not":
        return f"(not {condition_text(parts[0])})"
    return f"({condition_text(parts[0])} {head} {condition_text(parts[1])})" if parts else head


def command_text(command: tuple) -> str:
    """The text of a command."""
    head, *parts = command
    if head == "skip":
        return head
    if head == "block":
        return "{ %s }" % " ; ".join(map(command_text, parts))
    if head == "if":
        test, then, otherwise = parts
        return f"if {condition_text(test)} {command_text(then)} else {command_text(otherwise)}"
    if head == "while":
        return f"while {condition_text(parts[0])} {command_text(parts[1])}"
    if head == "local":
        return f"local {parts[0][1]} : {parts[1]} {command_text(parts[2])}"
    if head == "call":
        results = ", ".join(name for _, name in parts[0])
        return f"call ({results}) := {parts[1]}({terms_text(parts[2])})"
    if head in ("appendChild", "removeChild", "insertBefore"):
        return f"{head}({terms_text(parts)})"
    (_, target), *operands = parts
    shown = terms_text(operands)
    return f"{target} := {shown}" if head == ":=" else f"{target} := {head}({shown})"


def terms_text(terms: tuple | list) -> str:
    """The texts of terms with commas between."""
    return ", ".join(map(term_text, terms))


def judgement_text(judgement: tuple) -> str:
    """The text of an entailment or a triple."""
    if judgement[0] == "triple":
        _, pre, command, post, sort = judgement
        return (f"pre {formula_text(pre)} do {command_text(command)} "
                f"post {formula_text(post)} at {sort}")
    _, left, right, sort = judgement
    return f"{formula_text(left)} entails {formula_text(right)} at {sort}"


def step_text(step: Step) -> str:
    """The line of a step; the rule None is `auto`."""
    if step.rule is None:
        return f"step {step.number} auto: {judgement_text(step.judgement)};"
    shown = f" with ({terms_text(step.arguments)})" if step.arguments else ""
    cited = ", ".join(map(str, step.premises))
    return f"step {step.number} by {step.rule}({cited}){shown}: {judgement_text(step.judgement)};"


def logic_lines(theory: Theory) -> list[str]:
    """The lines that declare logic variables, one for each sort that has some."""
    lines = []
    for sort in VALUE_SORTS + SHAPE_SORTS:
        names = [name for name, its in theory.logic if its == sort]
        lines += [f"logic {sort} {', '.join(names)};"] if names else []
    return lines


def procedure_lines(procedure: Procedure) -> list[str]:
    """The lines of a procedure with its proof."""
    params, results = (", ".join(f"{name}: {sort}" for name, sort in pairs)
                       for pairs in (procedure.params, procedure.results))
    return [f"proc {procedure.name}({params}) returns ({results}) sort {procedure.sort}",
            "requires " + formula_text(procedure.pre), "ensures " + formula_text(procedure.post),
            "body " + command_text(procedure.body), "proof", *map(step_text, procedure.steps),
            "end"]


def theory_text(theory: Theory) -> str:
    """The text of a file."""
    lines = [f"domlogic {theory.version}", *logic_lines(theory)]
    for procedure in theory.procedures:
        lines += ["", *procedure_lines(procedure)]
    return "\n".join(lines) + "\n"
