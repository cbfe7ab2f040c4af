"""A side condition that isn't met: which variable, literal or number violates it."""
from typing import Callable, Iterator

from domlogic.explaining import computed, rows
from domlogic.explaining.case import Case
from domlogic.explaining.comparing import Path, State
from domlogic.explaining.named import Node
from domlogic.explaining.rows import LETTERS, Row
from domlogic.explaining.wording import code, labelled, listed, shortened, wrapped
from domlogic.reading.computing import LITERALS, is_met, pieces
from domlogic.reading.nameless import is_pure, modified, program_variables, stands_in
from domlogic.search.printing import term_text

ALL_FITS = "All fits, the premises too, but a condition of the rule isn't met."


def explained(case: Case, side: str, ways: Iterator[tuple[Row | None, State]]) -> Iterator[str]:
    """What to say of `side NAME`."""
    yield ALL_FITS
    if case.step.rule == "linear":
        yield from labelled("rule", f"linear: {rows.row_text('linear')}")
        yield from computed.linear_side(case, side)
        return
    row, state, words = violated(list(ways))
    yield from labelled("rule", f"{case.step.rule}: {row.text}")
    yield from labelled("read", case.letters(state))
    yield from labelled("asked", f"{rows.condition_in_words(words)} (side {side})")
    yield from TOLD[words[0]](case, state, words[1:])


def violated(ways: list[tuple[Row, State]]) -> tuple[Row, State, list[str]]:
    """The first condition that no way meets with those before it, and a way that meets those."""
    asked = [it for it in ways[0][0].reading.conditions if it[0] != "string"]
    for condition in asked:
        meeting = [it for it in ways if is_met(condition, it[1].guess)]
        if not meeting:
            return (*ways[0], condition)
        ways = meeting
    raise ValueError("all conditions are met")


def paths_to(node: Node, part: Node, path: Path = ()) -> Iterator[Path]:
    """Where a part stands."""
    if node == part:
        yield path
        return
    for at, inner in enumerate(node):
        if isinstance(inner, tuple):
            yield from paths_to(inner, part, (*path, at))


def marked(case: Case, state: State, letter: str, part: Node) -> list[str]:
    """The first place of a part in what a letter is."""
    if letter not in state.places:
        argument = next(it for it in case.step.arguments if it == state.guess[letter])
        return case.source.view_of(argument)
    judgement, path = state.places[letter]
    inner = next(paths_to(state.guess[letter], part), ())
    return case.marked(judgement, path + inner)


def variable_trouble(case: Case, state: State, letters: list[str]) -> Iterator[str]:
    """A variable that stands where it mustn't."""
    name, *others = letters
    variable = state.guess[name]
    letter = next(it for it in others if stands_in(variable, state.guess[it]))
    shown = LETTERS.get(letter, letter)
    yield from marked(case, state, letter, variable)
    what = "is what the command sets, and it stands in"
    if case.step.rule == "local":
        what = "is the local, and it stands in"
    elif name[0] == "$":
        what = "is $x, and it stands free in"
    yield from wrapped(f"{code(variable[1])} {what} {shown}.")


def modified_trouble(case: Case, state: State, letters: list[str]) -> Iterator[str]:
    """A program variable that the command changes, in what has to stay."""
    command, letter = letters
    changed = modified(state.guess[command])
    variable = next(it for it in program_variables(state.guess[letter]) if it in changed)
    yield from marked(case, state, letter, variable)
    yield from wrapped(f"The command changes {code(variable[1])}, and it stands in {letter}.")


def literal_trouble(case: Case, state: State, letters: list[str]) -> Iterator[str]:
    """A term that is no literal, or two that are one."""
    for letter in letters:
        if state.guess[letter][0] not in LITERALS:
            yield from marked(case, state, letter, state.guess[letter])
            shown = code(case.letter_text(letter, state))
            yield f"{letter} is {shown}, and that is no literal."
            return
    yield from marked(case, state, letters[1], state.guess[letters[1]])
    yield f"Both are the literal {code(case.pattern_text(('letter', letters[1]), state))}."


def texts_trouble(case: Case, state: State, letters: list[str]) -> Iterator[str]:
    """Two texts of other pieces."""
    lists = [pieces(state.guess[it]) for it in letters]
    yield from marked(case, state, letters[1], state.guess[letters[1]])
    for letter, found in zip(letters, lists):
        told = listed([code(shortened(term_text(it))) for it in found]) if found else "none"
        yield from wrapped(f"The pieces of {letter}, neighbouring literals joined and empty ones "
                           f"dropped: {told}.")
    pairs = enumerate(zip(*lists), 1)
    at = next((at for at, (one, other) in pairs if one != other), min(map(len, lists)) + 1)
    yield f"They first differ at piece {at}."


def impure(formula: Node, path: Path = ()) -> Path:
    """The first innermost part that isn't pure."""
    head, *parts = formula
    if head in ("and", "or", "->", "not", "exists", "forall"):
        at = next(at for at, it in enumerate(formula) if isinstance(it, tuple) and at >= (
            2 if head in ("exists", "forall") else 1) and not is_pure(it))
        return impure(formula[at], (*path, at))
    return path


def pure_trouble(case: Case, state: State, letters: list[str]) -> Iterator[str]:
    """A part that speaks of the data."""
    judgement, path = state.places[letters[0]]
    path += impure(state.guess[letters[0]])
    yield from case.marked(judgement, path)
    part = code(shortened(case.written_text(judgement, path)))
    yield from wrapped(f"{part} speaks of the data, so {letters[0]} isn't pure: that is made of "
                       "'true', 'false', comparisons, connectives, quantifiers and 'is'.")


TOLD: dict[str, Callable[[Case, State, list[str]], Iterator[str]]] = {
    "free": variable_trouble, "assigned": variable_trouble, "modified": modified_trouble,
    "literal": literal_trouble, "texts": texts_trouble, "pure": pure_trouble}
