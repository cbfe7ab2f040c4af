"""The printing of theories, token by token.

Each token stands a space apart, and a newline in place of the space before each word that begins a
line. There are no comments, and one line for each logic variable.
"""
from domlogic.reading.texts import MOVES, term_text


def two_texts(text, parts, between):
    """Returns the texts of two parts with a token between them."""
    return f"{text(parts[0])} {between} {text(parts[1])}"


def formula_text(formula):
    head, *parts = formula
    if head == "is it":
        return parts[0][1]
    if head == "len":
        return "len " + term_text(parts[0])
    if head in ("=", "<="):
        return two_texts(term_text, parts, head)
    if head == "node":
        name, number, children, listing = parts
        node = two_texts(term_text, (name, number), "#")
        return f"{node} [ {formula_text(children)} ] % {term_text(listing)}"
    if head == "one tree":
        return f"< {formula_text(parts[0])} >"
    if head == "one root":
        return f"[ {formula_text(parts[0])} ]"
    if head == "not":
        return f"( not {formula_text(parts[0])} )"
    if head in ("exists", "forall"):
        return f"( {head} {parts[0][1]} . {formula_text(parts[1])} )"
    if head == "is":
        return f"( {parts[0][1]} is {formula_text(parts[1])} )"
    return f"( {two_texts(formula_text, parts, head)} )" if parts else head


def condition_text(condition):
    head, *parts = condition
    if head == "holds":
        return parts[0][1]
    if head in ("=", "<="):
        return two_texts(term_text, parts, head)
    if head == "not":
        return f"( not {condition_text(parts[0])} )"
    return f"( {two_texts(condition_text, parts, head)} )" if parts else head


def listed(texts):
    """Returns the texts in round brackets, with commas between them."""
    inside = " , ".join(texts)
    return f"( {inside} )" if inside else "( )"


def command_text(command):
    head, *parts = command
    if head == "skip":
        return head
    if head == "block":
        return "{ %s }" % " ; ".join(map(command_text, parts))
    if head == "if":
        test, then, otherwise = parts
        return f"if {condition_text(test)} {command_text(then)} else {command_text(otherwise)}"
    if head == "while":
        return f"while {condition_text(parts[0])} {command_text(parts[1])}"
    if head == "local":
        return f"local {parts[0][1]} : {parts[1]} {command_text(parts[2])}"
    if head == "call":
        results, name, arguments = parts
        shown = listed(name for _, name in results)
        return f"call {shown} := {name} {listed(map(term_text, arguments))}"
    if head in MOVES:
        return f"{head} {listed(map(term_text, parts))}"
    (_, target), *operands = parts
    if head == ":=":
        return f"{target} := {term_text(operands[0])}"
    return f"{target} := {head} {listed(map(term_text, operands))}"


def judgement_text(judgement):
    head, left, *command, right, sort = judgement
    if head == "triple":
        done = command_text(command[0])
        return f"pre {formula_text(left)} do {done} post {formula_text(right)} at {sort}"
    return f"{formula_text(left)} entails {formula_text(right)} at {sort}"


def step_text(step):
    """Returns the line of a step; the rule None is `auto`."""
    reason = "auto"
    if step.rule is not None:
        reason = f"by {step.rule} {listed(map(str, step.premises))}"
    if step.arguments:
        reason += f" with {listed(map(term_text, step.arguments))}"
    return f"step {step.number} {reason} : {judgement_text(step.judgement)} ;"


def procedure_lines(procedure):
    params, results = (listed(f"{name} : {sort}" for name, sort in pairs)
                       for pairs in (procedure.params, procedure.results))
    return [f"proc {procedure.name} {params} returns {results} sort {procedure.sort}",
            "requires " + formula_text(procedure.pre), "ensures " + formula_text(procedure.post),
            "body " + command_text(procedure.body), "proof", *map(step_text, procedure.steps),
            "end"]


def theory_text(theory):
    lines = [f"domlogic {theory.version}"]
    lines += [f"logic {sort} {name} ;" for name, sort in theory.logic]
    for procedure in theory.procedures:
        lines += procedure_lines(procedure)
    return "\n".join([*lines, ""])
