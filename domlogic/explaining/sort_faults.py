"""Which part of a formula, a condition or a command has the wrong sort, and which one is wanted."""
from typing import NamedTuple

from domlogic.explaining.wording import code, counted, listed, sort_in_words
from domlogic.reading.limits import SHAPE_SORTS, VALUE_SORTS
from domlogic.reading.sorts import OPERANDS, Scope, judged_parts, pair_parts, term_sort
from domlogic.reading.texts import MOVES

Node = tuple


class Fault(NamedTuple):
    """A part of a file that is at fault, and a sentence that says why."""

    part: Node
    sentence: str


def term_fault(term: Node, wanted: str | None, scope: Scope) -> Fault | None:
    """Why a term isn't of the sort that is wanted, or, where none is, of none."""
    head, *parts = term
    if head in ("+", "-", "++"):
        each = "str" if head == "++" else "int"
        faults = (term_fault(part, each, scope) for part in parts)
        inner = next((it for it in faults if it), None)
        if inner:
            return inner
    sort = term_sort(term, scope)
    if wanted is None or sort == wanted:
        return None
    return Fault(term, f"This term has sort {sort_in_words(sort)}, and {sort_in_words(wanted)} is "
                       "wanted here.")


def terms_fault(scope: Scope, *pairs) -> Fault | None:
    """The first fault of terms, each of which has its sort behind it."""
    faults = (term_fault(term, sort, scope) for term, sort in zip(pairs[::2], pairs[1::2]))
    return next((it for it in faults if it), None)


def comparison_fault(comparison: Node, scope: Scope) -> Fault | None:
    """Why two terms can't be compared."""
    operator, left, right = comparison
    inner = terms_fault(scope, left, None, right, None)
    if inner:
        return inner
    sorts = term_sort(left, scope), term_sort(right, scope)
    if sorts[0] != sorts[1]:
        return Fault(comparison, f"The left term has sort {sort_in_words(sorts[0])}, the right one "
                                 f"{sort_in_words(sorts[1])}: terms of one sort are compared.")
    if operator == "<=" and sorts[0] != "int":
        return Fault(comparison, "'<=' is of integers, and these terms have sort "
                                 f"{sort_in_words(sorts[0])}.")
    return None


OF_ONE_SORT = {"0f": "f", "0g": "g", "?t": "tt", "?f": "ff", "?g": "gg", "len": "f"}


def takes_sort(formula: Node, sort: str, scope: Scope) -> bool:
    """Says whether a formula of this form may be judged at the sort, whatever its parts are."""
    head, *parts = formula
    if head in OF_ONE_SORT:
        return OF_ONE_SORT[head] == sort
    if head == "is it":
        return scope.logic[parts[0][1]] == sort
    if head == "node":
        return sort in ("t", "tt", "ft")
    if head in ("one tree", "one root"):
        return sort in (("f", "tf", "ff") if head == "one tree" else ("g", "tg", "fg"))
    if head in ("and", "or", "->", "not", "exists", "forall", "is", "true", "false", "=", "<="):
        return True
    found = pair_parts(head, parts, sort[:-1], sort[-1])
    return found is not None and all(at in SHAPE_SORTS for _, at in found)


def sorts_of_form(formula: Node, scope: Scope) -> list[str]:
    """The sorts at which a formula of this form may be judged."""
    return [sort for sort in SHAPE_SORTS if takes_sort(formula, sort, scope)]


def form_fault(formula: Node, sort: str, scope: Scope) -> Fault:
    """Why a formula of this form isn't judged at the sort."""
    wanted = f"and the sort wanted here is {sort_in_words(sort)}."
    if formula[0] == "is it":
        name = formula[1][1]
        return Fault(formula, f"{code(name)} has sort {sort_in_words(scope.logic[name])}, {wanted}")
    sorts = [sort_in_words(it) for it in sorts_of_form(formula, scope)]
    return Fault(formula, f"This form of formula is of sort {listed(sorts, 'or')}, {wanted}")


def formula_fault(formula: Node, sort: str, scope: Scope) -> Fault | None:
    """The first innermost part of a formula that can't be judged at its sort."""
    head, *parts = formula
    if not takes_sort(formula, sort, scope):
        return form_fault(formula, sort, scope)
    if head in ("=", "<="):
        return comparison_fault(formula, scope)
    if head == "len":
        return terms_fault(scope, parts[0], "int")
    if head == "is" and scope.logic[parts[0][1]] in VALUE_SORTS:
        its = sort_in_words(scope.logic[parts[0][1]])
        return Fault(parts[0], f"{code(parts[0][1])} has sort {its}, and 'is' speaks of data: of a "
                               "tree, a forest, a grove or a context.")
    if head == "node":
        name, node, children, childlist = parts
        inner = terms_fault(scope, name, "str", node, "node", childlist, "list")
        return inner or formula_fault(children, sort[:-1] + "f", scope)
    if head in OF_ONE_SORT or head in ("is it", "true", "false"):
        return None
    faults = (formula_fault(part, at, scope) for part, at in judged_parts(formula, sort, scope))
    return next((it for it in faults if it), None)


def condition_fault(condition: Node, scope: Scope) -> Fault | None:
    """The first part of a condition that has the wrong sort."""
    head, *parts = condition
    if head in ("=", "<="):
        return comparison_fault(condition, scope)
    if head == "holds":
        return terms_fault(scope, parts[0], "bool")
    return next((it for it in (condition_fault(part, scope) for part in parts) if it), None)


def call_fault(call: Node, scope: Scope) -> Fault | None:
    """Why a call doesn't fit the header of its procedure."""
    _, results, name, arguments = call
    callee = scope.procedures[name]
    for given, declared, nouns in ((results, callee.results, ("result", "result")),
                                   (arguments, callee.params, ("parameter", "argument"))):
        if len(given) != len(declared):
            return Fault(call, f"{code(name)} has {counted(len(declared), nouns[0])}, and the call "
                               f"has {counted(len(given), nouns[1])}.")
        pairs = [it for term, (_, sort) in zip(given, declared) for it in (term, sort)]
        fault = terms_fault(scope, *pairs)
        if fault:
            return fault
    return None


def assignment_fault(command: Node, scope: Scope) -> Fault | None:
    """Why a term can't be assigned."""
    _, target, term = command
    inner = terms_fault(scope, term, None)
    sorts = term_sort(target, scope), term_sort(term, scope)
    if inner or sorts[0] == sorts[1]:
        return inner
    return Fault(term, f"This term has sort {sort_in_words(sorts[1])}, and {code(target[1])} has "
                       f"sort {sort_in_words(sorts[0])}.")


def operands_fault(command: Node, scope: Scope) -> Fault | None:
    """Why a command of documents doesn't take its operands."""
    head, *parts = command
    wanted = OPERANDS[head]
    if head not in MOVES and term_sort(parts[0], scope) != wanted[0]:
        its = sort_in_words(term_sort(parts[0], scope))
        return Fault(parts[0], f"{code(parts[0][1])} has sort {its}, and {code(head)} gives a "
                               f"value of sort {sort_in_words(wanted[0])}.")
    return terms_fault(scope, *(it for pair in zip(parts, wanted) for it in pair))


def local_fault(command: Node, scope: Scope) -> Fault | None:
    """Why a local isn't as its procedure declares it; or the fault of its block."""
    _, (_, name), sort, block = command
    if scope.program[name] == sort:
        return command_fault(block, scope)
    return Fault(command, f"{code(name)} is declared here with sort {sort_in_words(sort)}, and in "
                          f"its procedure with sort {sort_in_words(scope.program[name])}.")


def command_fault(command: Node, scope: Scope) -> Fault | None:
    """The first part of a command that has the wrong sort."""
    head, *parts = command
    if head in ("call", ":=", "local"):
        of_form = {"call": call_fault, ":=": assignment_fault, "local": local_fault}
        return of_form[head](command, scope)
    if head in OPERANDS:
        return operands_fault(command, scope)
    if head in ("if", "while"):
        first = condition_fault(parts[0], scope)
        if first:
            return first
        parts = parts[1:]
    return next((it for it in (command_fault(part, scope) for part in parts) if it), None)
