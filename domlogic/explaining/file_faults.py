"""A file that reads and isn't well formed: which name, part or command is at fault, and why."""
import difflib
import re
from typing import Callable, Iterator

from domlogic.explaining.sort_faults import Fault, Node, command_fault, formula_fault, terms_fault
from domlogic.explaining.source import Source, Span
from domlogic.explaining.wording import code, wrapped
from domlogic.reading.faults import OF_VERSION_2, RULES, SETTING
from domlogic.reading.sorts import Scope, scope_of, walk
from domlogic.reading.theories import Procedure, Step

# Where something is at fault, and the sentence about it.
Placed = tuple[Span, str]


class Place:
    """A place of a file: its procedure and step, where there are any, and what names mean there."""

    def __init__(self, source: Source, procedure: int, step: int):
        self.source, self.theory = source, source.theory
        self.number = procedure
        procedures = [None, *self.theory.procedures]
        self.procedure: Procedure | None = procedures[procedure]
        self.step: Step | None = self.procedure.steps[step - 1] if step else None
        self.order = step
        self.scope: Scope | None = scope_of(self.theory, self.procedure) if procedure else None

    def formulas(self) -> list[tuple[Node, str]]:
        """The formulas of the place with their sorts."""
        if self.step is None:
            return [(it, self.procedure.sort) for it in (self.procedure.pre, self.procedure.post)]
        head, *parts, sort = self.step.judgement
        return [(it, sort) for it in (parts[::2] if head == "triple" else parts)]

    def command(self) -> Node | None:
        if self.step is None:
            return self.procedure.body
        return self.step.judgement[2] if self.step.judgement[0] == "triple" else None

    def arguments(self) -> tuple:
        return self.step.arguments if self.step else ()

    def placed(self, fault: Fault) -> Placed:
        return self.source.span(fault.part), fault.sentence


def explained(source: Source, line: str) -> list[str]:
    """What to say of `bad file: procedure P, step S: KIND`."""
    span, sentence = first_fault(source, line)
    return [*source.view(*span), *wrapped(sentence)]


def first_fault(source: Source, line: str) -> Placed:
    """What is at fault at the place of the line."""
    procedure, step, kind = re.fullmatch(r"bad file: procedure (\d+), step (\d+): (\w+)",
                                         line).groups()
    source.take_theory()
    return next(FINDERS[kind](Place(source, int(procedure), int(step))))


def version(place: Place) -> Iterator[Placed]:
    """The number of the first line."""
    number = place.theory.version
    yield (1, 2), ("The number behind 'domlogic' is 1 or 2, the versions of the language; "
                   f"{number} is none.")


def repeats(named: list[tuple[str, Span]]) -> Iterator[tuple[str, Span, Span]]:
    """The names that came before, with where and where first."""
    first: dict[str, Span] = {}
    for name, span in named:
        if name in first:
            yield name, span, first[name]
        first.setdefault(name, span)


def declared(place: Place) -> list[tuple[str, Span]]:
    """The parameters, the results and the locals, each with its place."""
    source, procedure = place.source, place.procedure
    found = [(it[0], source.span(it)) for it in (*procedure.params, *procedure.results)]
    local = [node[1] for node in walk(procedure.body) if node and node[0] == "local"]
    return found + [(name, source.span(it)) for it in local for name in it[1:]]


def twice(place: Place) -> Iterator[Placed]:
    """A name that is declared a second time."""
    source, theory = place.source, place.theory
    if place.procedure is None:
        logic = [(pair[0], source.span(pair)) for pair in theory.logic]
        tried = [(logic, "The logic variable {} is declared a second time; the first is at {}.")]
    else:
        begins = [source.span(it)[0] + 1 for it in theory.procedures[: place.number]]
        names = [(it.name, (at, at + 1)) for it, at in zip(theory.procedures, begins)
                 if it.name == place.procedure.name]
        tried = [(names, "A procedure with the name {} is there already, at {}."),
                 (declared(place), "{} is declared a second time among the parameters, results "
                                   "and locals; the first is at {}.")]
    for names, what in tried:
        for name, span, first in repeats(names):
            yield span, what.format(code(name), source.place_in_words(source.starts[first[0]]))


def unknown(place: Place) -> Iterator[Placed]:
    """A variable that isn't declared, or a procedure that isn't there."""
    known = {"prog": place.scope.program, "logic": place.scope.logic}
    parts = [it for it, _ in place.formulas()]
    command = [place.command()] if place.command() else []
    parts = parts + command if place.step is None else parts[:1] + command + parts[1:]
    what = {"prog": "{} is no parameter, result or local of {}.",
            "logic": "{} has no line 'logic SORT {};' at the head of the file."}
    for node in walk((*parts, *place.arguments())):
        if node and node[0] in known and node[1] not in known[node[0]]:
            other = place.procedure.name if node[0] == "prog" else node[1]
            yield place.source.span(node), what[node[0]].format(code(node[1]), other)
        if node and node[0] == "call" and node[2] not in place.scope.procedures:
            told = f"The file has no procedure with the name {code(node[2])}."
            yield place.source.span(node), told


def sort(place: Place) -> Iterator[Placed]:
    """A part of the wrong sort."""
    for argument in place.arguments():
        fault = terms_fault(place.scope, argument, None)
        if fault:
            yield place.placed(fault)
    for formula, its in place.formulas():
        fault = formula_fault(formula, its, place.scope)
        if fault:
            yield place.placed(fault)
    fault = place.command() and command_fault(place.command(), place.scope)
    if fault:
        yield place.placed(fault)


def setting(command: Node) -> Iterator[tuple[Node, Node, str]]:
    """The commands that set a variable, with the variable, and how it is set."""
    for node in walk(command):
        if node and node[0] == "call":
            yield from ((node, variable, "the result of a call") for variable in node[1])
        elif node and node[0] in SETTING:
            yield node, node[1], "a local" if node[0] == "local" else "assigned"


def constant(place: Place) -> Iterator[Placed]:
    """A parameter that is set."""
    for _, variable, how in setting(place.command()):
        if variable[1] in place.scope.params:
            yield (place.source.span(variable),
                   f"{code(variable[1])} is a parameter, which keeps its value, and it is {how} "
                   "here. Copy it to a result or a local first.")


def results(place: Place) -> Iterator[Placed]:
    """A call whose results repeat or stand in its arguments."""
    for call in walk(place.command()):
        if not call or call[0] != "call":
            continue
        names = [(variable[1], place.source.span(variable)) for variable in call[1]]
        for name, span, _ in repeats(names):
            yield span, f"{code(name)} is a result of this call twice."
        for node in walk(call[3]):
            if node and node in call[1]:
                yield (place.source.span(node), f"{code(node[1])} is a result of this call and "
                                                "stands in its "
                       "arguments. Copy it to another variable before the call.")


def scope(place: Place) -> Iterator[Placed]:
    """A variable of requires that is no parameter, or one of ensures that is a local."""
    params = place.scope.params
    both = params | {name for name, _ in place.procedure.results}
    for formula, seen, what in ((place.procedure.pre, params, "requires speaks of parameters"),
                                (place.procedure.post, both, "ensures speaks of parameters and "
                                                             "results")):
        for node in walk(formula):
            if node[0] == "prog" and node[1] not in seen:
                kind = "result" if node[1] in both else "local"
                yield place.source.span(node), f"{code(node[1])} is a {kind}, and {what} alone."


def rule(place: Place) -> Iterator[Placed]:
    """A rule that the logic, or this version of it, doesn't have."""
    name, at = place.step.rule, place.source.span(place.step)[0] + 3
    if name in OF_VERSION_2:
        yield (at, at + 1), (f"{code(name)} is a rule of files that begin with 'domlogic 2'; this "
                             "one begins with 1.")
        return
    near = difflib.get_close_matches(name, sorted(RULES), 3)
    meant = f" Rules with a name like it: {', '.join(map(code, near))}." if near else ""
    yield (at, at + 1), f"There is no rule {code(name)}.{meant}"


def number(place: Place) -> Iterator[Placed]:
    """A step's number that isn't its place."""
    at = place.source.span(place.step)[0] + 1
    yield (at, at + 1), (f"This is step {place.order} of the proof of {place.procedure.name}, and "
                         f"its number is {place.step.number}. Steps are numbered from 1 in each "
                         "proof.")


FINDERS: dict[str, Callable[[Place], Iterator[Placed]]] = {
    "version": version, "twice": twice, "unknown": unknown, "sort": sort, "constant": constant,
    "results": results, "scope": scope, "rule": rule, "number": number}
