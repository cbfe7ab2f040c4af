"""How a pattern is compared with what is written, and at which sorts its letters stand."""
from collections import defaultdict

from domlogic.reading.limits import DATA_SORTS, SHAPE_SORTS, VALUE_SORTS
from domlogic.reading.nameless import condition_formula, is_outside, opened, replaced, stands_in
from domlogic.reading.sorts import pair_parts, term_sort, walk

LITERALS = {"node": ("null",), "list": ("nolist",), "int": ("int", 0), "str": ("str", ""),
            "bool": ("no",)}


def with_new_variables(scope):
    """Returns the scope with one more logic variable of each sort, which no file can name."""
    new = {f"a new {sort}": sort for sort in VALUE_SORTS + SHAPE_SORTS}
    return scope._replace(logic={**scope.logic, **new})


class Written:
    """What a step has: the sorts of its variables, and its logic variables by sort."""

    def __init__(self, scope, parts):
        self.scope, self.parts, self.found = scope, parts, None

    def sort_of(self, variable):
        return self.scope.logic[variable[1]]

    def variables(self, sort):
        """Returns the variables that a letter may be: those that are written, and a new one."""
        if self.found is None:
            self.found = defaultdict(set)
            for node in walk(self.parts):
                if node and node[0] == "logic":
                    self.found[self.sort_of(node)].add(node)
        return [*sorted(self.found[sort]), ("logic", f"a new {sort}")]


def put_in(term, guess):
    """Returns the term of a pattern, each letter of which is guessed."""
    return replaced(term, {("letter", name): found for name, found in guess.items()})


def matches(pattern, found, guess, written):
    """Gives each way to guess the letters by which the pattern is what was found."""
    head = pattern[0]
    if head == "letter":
        yield from letter_matches(pattern[1], found, guess)
    elif head == "HAT":
        if condition_formula(guess["B"]) == found:
            yield guess
    elif head == "with":
        yield from with_matches(pattern, found, guess, written)
    elif head in ("exists", "forall"):
        if found[0] == head:
            yield from binder_matches(pattern, found, guess, written)
    elif found[0] == head and len(found) == len(pattern):
        yield from part_matches(pattern[1:], found[1:], guess, written)


def part_matches(patterns, parts, guess, written):
    """The same for the parts of one form."""
    if not patterns:
        yield guess
    elif isinstance(patterns[0], tuple):
        for one in matches(patterns[0], parts[0], guess, written):
            yield from part_matches(patterns[1:], parts[1:], one, written)
    elif patterns[0] == parts[0]:
        yield from part_matches(patterns[1:], parts[1:], guess, written)


def letter_matches(name, found, guess):
    if name == "d":
        guess = {**guess, "d": LITERALS[guess["s"]]}
    if name not in guess and (name[0] != "$" or found[0] == "logic"):
        yield {**guess, name: found}
    elif guess.get(name) == found:
        yield guess


def binder_matches(pattern, found, guess, written):
    """The variable of a quantifier is one that doesn't stand free behind it."""
    (_, (_, name), inside), (_, sort, body) = pattern, found
    variables = [guess[name]] if name in guess else written.variables(sort)
    for variable in variables:
        if written.sort_of(variable) == sort and not stands_in(variable, body):
            one = {**guess, name: variable}
            yield from matches(inside, opened(body, variable), one, written)


def with_matches(pattern, found, guess, written):
    """Of a formula that isn't guessed yet it is asked whether there is one at all."""
    _, (_, name), term, variable = pattern
    term, variable = put_in(term, guess), put_in(variable, guess)
    if term_sort(term, written.scope) != term_sort(variable, written.scope):
        return
    if name in guess:
        if replaced(guess[name], {variable: term}) == found:
            yield guess
    elif not is_outside(variable, term, found):
        yield {**guess, "later": (*guess.get("later", ()), (pattern, found))}


def judgement_matches(pattern, found, guess, written):
    """Commands come first, and last the formulas in which something is put for a variable."""
    if len(pattern) != len(found) - 1:
        return
    pairs = list(zip(pattern[:-1], found[1:-1]))
    pairs = pairs[1:2] + pairs[::2] if len(pairs) == 3 else pairs
    pairs.sort(key=lambda pair: pair[0][0] == "with")
    patterns, parts = zip(*pairs)
    yield from part_matches(patterns, parts, guess, written)


def sorts_in(pattern, sort, guess, written):
    """Gives the letters of a formula with the sorts at which they stand."""
    head, *parts = pattern
    hole, k = sort[:-1], sort[-1]
    if head == "letter":
        yield parts[0], sort
        return
    if head in ("exists", "forall", "with"):
        parts = [(parts[head != "with"], sort)]
    elif head in ("and", "or", "->", "not"):
        parts = [(part, sort) for part in parts]
    elif head == "is":
        parts = [(parts[1], written.sort_of(guess[parts[0][1]]))]
    elif head in ("node", "one tree", "one root"):
        parts = [(parts[2], hole + "f")] if head == "node" else [(parts[0], hole + "t")]
    elif head in ("HAT", "=", "<=", "is it", "len") or not parts:
        return
    else:
        parts = pair_parts(head, parts, hole, k) or [(("letter", "no place"), at) for at in "tf"]
    for part, at in parts:
        yield from sorts_in(part, at, guess, written)


def formulas_of(judgement):
    return judgement[:-1:2] if len(judgement) == 4 else judgement[:-1]


def sorts_of_letters(judgements, guess, written):
    """Returns the set of sorts of each letter of the judgements, which come with their sorts."""
    found = defaultdict(set)
    for judgement in judgements:
        for formula in formulas_of(judgement):
            for letter, at in sorts_in(formula, judgement[-1], guess, written):
                found[letter].add(at)
    return found


def settled(reading, sort, guess, written):
    """Returns the premises with their sorts, or None where a letter has two sorts."""
    wanted = reading.conclusion[-1]
    if wanted is not None and (sort not in DATA_SORTS if wanted == "data" else sort != wanted):
        return None
    conclusion = [(*reading.conclusion[:-1], sort)]
    places, premises = sorts_of_letters(conclusion, guess, written), []
    for *parts, at in reading.premises:
        if at == "place":
            at = min(places[parts[0][1]])
        elif at == "$x":
            at = written.sort_of(guess["$x"])
        premises.append((*parts, at or sort))
    places = sorts_of_letters(conclusion + premises, guess, written)
    if any(len(at) > 1 and name not in reading.anywhere for name, at in places.items()):
        return None
    return premises
