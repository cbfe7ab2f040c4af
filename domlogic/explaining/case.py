"""A step that is explained: its judgements, and how parts of it are shown and marked."""
from typing import Iterator

from domlogic.explaining.comparing import Miss, Path, State, called
from domlogic.explaining.named import Node, unnamed_judgement
from domlogic.explaining.rows import LETTERS
from domlogic.explaining.source import Source
from domlogic.explaining.wording import code, labelled, listed, shortened
from domlogic.reading.matching import Written, with_new_variables
from domlogic.reading.nameless import condition_formula, replaced
from domlogic.reading.patterns import FORMULAS
from domlogic.reading.sorts import scope_of, walk
from domlogic.reading.theories import Procedure, Step
from domlogic.search.printing import formula_text, term_text

TERM_PLACES = {"=": (1, 2), "<=": (1, 2), "node": (1, 2, 4), "len": (1,), "is it": (1,), "is": (1,),
               "exists": (1,), "forall": (1,)}
COMMANDS = {"skip": "skip", ":=": "x := E", "if": "if B BL else BL2", "while": "while B BL",
            "local": "local x : s BL", "appendChild": "appendChild(E, F)",
            "removeChild": "removeChild(E, F)",
            "insertBefore": "insertBefore(E, F, G)", "item": "x := item(E, F)",
            **{query: f"x := {query}(E)"
               for query in ("createNode", "nodeName", "parentNode", "childNodes")}}


class Case:
    """A step of a file, with what it cites: None where one of these is no earlier step."""

    def __init__(self, source: Source, procedure: Procedure, at: int):
        self.source, self.theory, self.procedure = source, source.theory, procedure
        self.step: Step = procedure.steps[at]
        self.at = at
        self.scope = with_new_variables(scope_of(self.theory, procedure))
        self.judgement = self.judged(self.step)
        numbers = self.step.premises
        self.cited_steps = [procedure.steps[it - 1] if 1 <= it <= at else None for it in numbers]
        are_earlier = None not in self.cited_steps
        self.cited = [self.judged(it) for it in self.cited_steps] if are_earlier else None
        parts = (self.judgement, tuple(self.step.arguments), tuple(self.cited or ()))
        self.written = Written(self.scope, parts)

    def judged(self, step: Step) -> Node:
        return unnamed_judgement(step.judgement, self.scope.logic)

    def stepped(self, judgement: int) -> Step:
        """The step of the conclusion, 0, or of a premise."""
        return self.cited_steps[judgement - 1] if judgement else self.step

    def text(self, node: Node | str, is_term: bool = False) -> str:
        """A formula, a term, a command, a condition or a sort."""
        if isinstance(node, str):
            return node
        if id(node) in self.source.spans:
            return self.source.written(node)
        return term_text(node) if is_term else formula_text(node)

    def pattern_text(self, node: Node, state: State, is_term: bool = False,
                     place: tuple = (0, ())) -> str:
        """A part at a place, with what is read for its letters where anything is."""
        if node[0] == "letter":
            node, is_term = state.guess.get(node[1], node), not is_formula(node[1])
        if isinstance(node, str) or id(node) in self.source.spans:
            return self.text(node)
        if node[0] in COMMANDS:
            return COMMANDS[node[0]]
        if ("HAT",) in walk(node) and "B" in state.guess:
            node = replaced(node, {("HAT",): condition_formula(state.guess["B"])})
        return self.text(plain(called(node, state, place, self.scope.logic)), is_term)

    def letters(self, state: State, most: int = 60) -> str:
        """What is read for the letters, in the order in which it was read."""
        shown = [name for name in state.guess if not name[1:].isdigit() or name == "BL2"]
        told = [(LETTERS.get(it, it), self.letter_text(it, state)) for it in shown]
        return "; ".join(f"{name} is {code(shortened(text, most))}" for name, text in told)

    def letter_text(self, name: str, state: State) -> str:
        """What is read for a letter, as it is written where it was read."""
        if name in state.places:
            return self.written_text(*state.places[name])
        return self.pattern_text(("letter", name), state)

    def marked(self, judgement: int, path: Path) -> list[str]:
        """The part of the file at a path of the conclusion or of a premise."""
        return self.source.view_of(self.original(judgement, path))

    def original(self, judgement: int, path: Path) -> Node:
        """The part of the file at a path, or the least round it that has a place of its own."""
        whole = self.stepped(judgement).judgement
        while path and id(at_path(whole, path)) not in self.source.spans:
            path = path[:-1]
        return at_path(whole, path)

    def written_text(self, judgement: int, path: Path) -> str:
        """The same as its text."""
        return self.source.written(self.original(judgement, path))

    def marked_citation(self, count: int) -> list[str]:
        """The number of the premise of this count, where the step cites it."""
        at = self.source.span(self.step)[0] + 5 + 2 * (count - 1)
        return self.source.view(at)

    def marked_rule(self) -> list[str]:
        """The name of the rule in the step."""
        return self.source.view(self.source.span(self.step)[0] + 3)

    def marked_sort(self, judgement: int) -> list[str]:
        """The sort at the end of a judgement."""
        return self.source.view(self.source.span(self.stepped(judgement).judgement)[1] - 1)


def is_formula(letter: str) -> bool:
    """Says whether a letter stands for formulas, as P and the P1 of a block."""
    return letter[0] in FORMULAS and not letter.startswith("BL")


def plain(node: Node) -> Node:
    """A pattern as a formula in which the letters stand as variables."""
    if node[0] == "letter":
        name = LETTERS.get(node[1], node[1])
        return ("is it", ("logic", name)) if is_formula(node[1]) else ("logic", name)
    if node == ("HAT",):
        return ("is it", ("logic", "B^"))
    return tuple(plain(it) if isinstance(it, tuple) else it for it in node)


def at_path(node: Node, path: Path) -> Node:
    for at in path:
        node = node[at]
    return node


def is_term_at(judgement: Node, path: Path) -> bool:
    """Says whether a part of a formula of a judgement is a term."""
    node, inside = judgement, False
    for at in path:
        inside = inside or at in TERM_PLACES.get(node[0], ())
        node = node[at]
    return inside


def unread(wanted: Node, state: State) -> list[str]:
    """The letters of a pattern for which nothing is read."""
    names = [node[1] for node in walk(wanted) if node and node[0] == "letter"]
    return sorted({LETTERS.get(it, it) for it in names if it not in state.guess})


def wanted_text(case: Case, miss: Miss) -> str:
    """What is wanted at the end of a way."""
    is_term = is_term_at(case.stepped(miss.judgement).judgement, miss.path)
    return case.pattern_text(miss.wanted, miss.state, is_term, (miss.judgement, miss.path))


def wanted_lines(case: Case, miss: Miss, wanted: str) -> Iterator[str]:
    """What is wanted at a place and what is written there."""
    yield from labelled("wanted", f"{code(shortened(wanted, 160))}{origin(miss)}")
    written = case.written_text(miss.judgement, miss.path)
    yield from labelled("written", code(shortened(written, 160)))


def origin(miss: Miss) -> str:
    """What a wanted part comes from, in words."""
    name, _, more = miss.letter.partition(" ")
    name = LETTERS.get(name, name)
    if name == "B^":
        return ", the formula of the condition" if not more else ", in the formula of the condition"
    if name and "with" in more:
        return f", {'in ' if '..' in more else ''}{name} with the term put in"
    if name:
        return f", in {name}" if more else f", which is {name}"
    letters = unread(miss.wanted, miss.state)
    return f", whatever {listed(letters)} may be" if letters else ""
