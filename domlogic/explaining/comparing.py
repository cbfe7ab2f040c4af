"""Where a step leaves its rule: the letters that were read, and the first part that is another one.

The letters are guessed as in domlogic/reading/matching.py, each way that there is; besides, each
place where a way ends is kept, and the way that came farthest is the one to tell.
"""
from typing import Iterator, NamedTuple

from domlogic.explaining.named import Node, named
from domlogic.explaining.rows import Row
from domlogic.reading.matching import LITERALS, Written, put_in
from domlogic.reading.nameless import condition_formula, is_outside, opened, replaced, stands_in
from domlogic.reading.sorts import term_sort

Path = tuple[int, ...]
QUANTIFIERS = ("exists", "forall")
# The most nodes of a part that is shown whole where several places of it differ.
SMALL = 12
# The rank of what is looked at last: no rule has so many premises.
LAST = 65536
# Forms that are shown whole.
ATOMS = ("bound", "logic", "prog", "int", "str", "is it")
# How the names of variables begin that no file can name.
NEW = "a new "
# Why a way ends, where no part alone differs.
KIND, SORT = "the kind of the judgement", "the sort of the judgement"
BOUND_SORT, BOUND_FREE = "the sort of a bound variable", "a bound variable is free elsewhere"
TERM_SORT, LEFT = "the sorts of a term and a variable", "the variable is left"


class State(NamedTuple):
    """A way so far: what the letters are, where each was read, and how far it came.

    Of a letter for a bound variable the last quantifier is kept, with its name and its place.
    """

    guess: dict
    places: dict[str, tuple[int, Path]]
    binders: dict[str, tuple[str, int, Path]]
    count: int = 0
    later: tuple = ()


class Miss(NamedTuple):
    """Where a way ends: in which judgement, 0 the conclusion, and what is wanted there.

    The rank is that of the judgement, or a last one for what is looked at last.
    """

    rank: int
    judgement: int
    path: Path
    wanted: Node | None
    state: State
    letter: str = ""
    why: str = ""


class Way(NamedTuple):
    """A reading of the conclusion by a row of the rule, with the premises that it asks for."""

    row: Row | None
    comparison: "Comparison"
    state: State
    premises: list


class Comparison:
    """The ways to read a step by a row of its rule."""

    def __init__(self, written: Written):
        self.written = written
        self.misses: list[Miss] = []
        self.at, self.is_last = 0, False

    def farthest(self) -> Miss:
        """The end of the way that came farthest."""
        return max(self.misses, key=lambda it: (it.rank, it.state.count))

    def miss(self, path: Path, wanted: Node | None, state: State, letter: str = "",
             why: str = "") -> None:
        rank = LAST if self.is_last else self.at
        self.misses.append(Miss(rank, self.at, path, wanted, state, letter, why))

    def judgement(self, pattern: tuple, found: Node, state: State, at: int) -> Iterator[State]:
        """The ways through a judgement: commands first, and last what something was put into."""
        parts = list(zip(pattern[:-1], found[1:-1], range(1, len(found) - 1)))
        parts = parts[1:2] + parts[::2] if len(parts) == 3 else parts
        parts.sort(key=lambda part: part[0][0] == "with")
        yield from self.sequence(parts, (), state, at)

    def premises(self, patterns: list, cited: list[Node], state: State,
                 at: int = 1) -> Iterator[State]:
        """The ways through the premises, the first of which is the one of this number."""
        if not patterns:
            yield from self.ends(state)
            return
        self.at = at
        if len(patterns[0]) != len(cited[0]) - 1:
            self.miss((), None, state, why=KIND)
        elif patterns[0][-1] != cited[0][-1]:
            self.miss((), None, state, why=SORT)
        else:
            for one in self.judgement(patterns[0], cited[0], state, at):
                yield from self.premises(patterns[1:], cited[1:], one, at + 1)

    def sequence(self, parts: list, path: Path, state: State, at: int) -> Iterator[State]:
        """The ways through parts, each with its pattern and its place."""
        if not parts:
            yield state
            return
        (pattern, found, place), *others = parts
        self.at = at
        for one in self.part(pattern, found, (*path, place), state):
            yield from self.sequence(others, path, one, at)
            self.at = at

    def part(self, pattern: Node, found: Node, path: Path, state: State) -> Iterator[State]:
        """The ways to read a part by a pattern."""
        head = pattern[0]
        if head == "letter":
            yield from self.letter(pattern[1], found, path, state)
        elif head == "HAT":
            yield from self.same(condition_formula(state.guess["B"]), found, path, state, "B^")
        elif head == "with":
            yield from self.put_in(pattern, found, path, state)
        elif not isinstance(found, tuple) or found[0] != head or len(found) != len(pattern):
            self.miss(path, pattern, state)
        elif head in QUANTIFIERS:
            yield from self.binder(pattern, found, path, state)
        else:
            yield from self.inside(pattern, found, path, state)

    def inside(self, pattern: Node, found: Node, path: Path, state: State) -> Iterator[State]:
        """The ways through the parts of one form."""
        each = list(zip(pattern, found, range(len(found))))[1:]
        if any(not isinstance(wanted, tuple) and wanted != given for wanted, given, _ in each):
            self.miss(path, pattern, state)
            return
        parts = [it for it in each if isinstance(it[0], tuple)]
        yield from self.sequence(parts, path, state._replace(count=state.count + 1), self.at)

    def letter(self, name: str, found: Node, path: Path, state: State) -> Iterator[State]:
        if name == "d":
            state = state._replace(guess={**state.guess, "d": LITERALS[state.guess["s"]]})
        if name in state.guess:
            yield from self.same(state.guess[name], found, path, state, name)
        elif name[0] != "$" or found[0] == "logic":
            places = {**state.places, name: (self.at, path)}
            guess = {**state.guess, name: found}
            yield state._replace(guess=guess, places=places, count=state.count + 1)
        else:
            self.miss(path, ("letter", name), state)

    def same(self, wanted: Node, found: Node, path: Path, state: State,
             letter: str = "") -> Iterator[State]:
        """The one way, where a part is what is wanted."""
        if wanted == found:
            yield state._replace(count=state.count + 1)
        else:
            inner, wanted = narrowed(wanted, found)
            self.miss(path + inner, wanted, state, letter if not inner else f"{letter} ..")

    def binder(self, pattern: Node, found: Node, path: Path, state: State) -> Iterator[State]:
        """A quantifier's variable is one that isn't free behind it; its own name comes first."""
        (_, (_, name), inside), (_, sort, body) = pattern, found
        variables = [state.guess[name]] if name in state.guess else self.variables(sort)
        for variable in variables:
            if self.written.sort_of(variable) != sort:
                self.miss(path, pattern, state, why=BOUND_SORT)
            elif stands_in(variable, body):
                self.miss(path, pattern, state, why=BOUND_FREE)
            else:
                binders = {**state.binders, name: (sort.name, self.at, path)}
                guess = {**state.guess, name: variable}
                one = state._replace(guess=guess, binders=binders, count=state.count + 1)
                yield from self.part(inside, opened(body, variable), (*path, 2), one)

    def variables(self, sort) -> list[Node]:
        """What a bound variable may be called, its own name first."""
        own = ("logic", sort.name)
        return [own, *(it for it in self.written.variables(sort) if it != own)]

    def put_in(self, pattern: Node, found: Node, path: Path, state: State) -> Iterator[State]:
        """A formula in which a term is put for a variable; one not read yet is looked at last."""
        _, (_, name), term, variable = pattern
        term, variable = put_in(term, state.guess), put_in(variable, state.guess)
        scope = self.written.scope
        if term_sort(term, scope) != term_sort(variable, scope):
            self.miss(path, pattern, state, why=TERM_SORT)
        elif name in state.guess:
            yield from self.same(replaced(state.guess[name], {variable: term}), found, path, state,
                                 f"{name} with")
        elif is_outside(variable, term, found):
            self.miss(path, pattern, state, why=LEFT)
        else:
            yield state._replace(later=(*state.later, (pattern, found, path)))

    def ends(self, state: State) -> Iterator[State]:
        """The way, where what was looked at last is right too."""
        self.is_last, self.at = True, 0
        holds = all(list(self.put_in(*it, state)) for it in state.later)
        self.is_last = False
        if holds:
            yield state


def size_of(node: Node) -> int:
    return 1 + sum(size_of(it) for it in node if isinstance(it, tuple))


def narrowed(wanted: Node, found: Node) -> tuple[Path, Node]:
    """Where two different parts of formulas first differ, and what is wanted there.

    A small part is taken whole where several places of it differ.
    """
    if not (wanted and found):
        return (), wanted
    if wanted[0] != found[0] or len(wanted) != len(found) or wanted[0] in ATOMS:
        return (), wanted
    if wanted[0] in QUANTIFIERS:
        return narrowed_below(wanted, found)
    pairs = [(at, a, b) for at, (a, b) in enumerate(zip(wanted, found)) if a != b]
    is_small = max(size_of(wanted), size_of(found)) <= SMALL
    are_parts = all(isinstance(it, tuple) for _, *both in pairs for it in both)
    if (len(pairs) > 1 and is_small) or not are_parts:
        return (), wanted
    at, left, right = pairs[0]
    inner, left = narrowed(left, right)
    return (at, *inner), left


def narrowed_below(wanted: Node, found: Node) -> tuple[Path, Node]:
    """The same below a quantifier: of bodies with the variable that is written."""
    variable = ("logic", getattr(found[1], "name", "$x"))
    if wanted[1] != found[1] or stands_in(variable, wanted[2]):
        return (), wanted
    inner, part = narrowed(opened(wanted[2], variable), opened(found[2], variable))
    return (2, *inner), part


def called(node: Node, state: State, place: tuple[int, Path], logic: dict[str, str]) -> Node:
    """A part with what is read for its letters, and the names of bound variables at a place."""
    read = ((name, it) for name, it in state.guess.items() if isinstance(it, tuple))
    known = {("letter", name): it for name, it in read}
    names = {}
    for letter, (name, judgement, path) in state.binders.items():
        is_inside = place[0] == judgement and place[1][: len(path)] == path
        if is_inside or state.guess[letter][1].startswith(NEW):
            names[state.guess[letter]] = ("logic", name)
    return named(replaced(replaced(node, known), names), logic)
