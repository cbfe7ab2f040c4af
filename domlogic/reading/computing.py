"""The conditions of the rules, and the rules that are no line of patterns but compute.

A rule that computes gives, for a step whose conclusion fits, what it guesses, its premises and its
conditions: pairs of a name and a truth.
"""
from domlogic.reading.nameless import is_pure, modified, nameless, program_variables, replaced, stands_in
from domlogic.reading.sorts import term_sort

LITERALS = ("null", "nolist", "int", "str", "yes", "no")
MOST = 1000000


def pieces(term):
    """Returns the pieces of a text term, neighbouring literals joined and empty ones dropped."""
    if term[0] != "++":
        return [term] if term != ("str", "") else []
    left, right = pieces(term[1]), pieces(term[2])
    if left and right and left[-1][0] == right[0][0] == "str":
        return [*left[:-1], ("str", left[-1][1] + right[0][1]), *right[1:]]
    return left + right


def is_met(condition, guess):
    """Says whether a condition, a list of words, holds of what is guessed."""
    name, *letters = condition
    values = [guess[letter] for letter in letters]
    if name == "free" or name == "assigned":
        return not any(stands_in(values[0], value) for value in values[1:])
    if name == "literal":
        return all(value[0] in LITERALS for value in values) and values[0] != values[1]
    if name == "texts":
        return pieces(values[0]) == pieces(values[1])
    if name == "pure":
        return is_pure(values[0])
    return not modified(values[0]) & set(program_variables(values[1]))


def is_replaced(one, other, old, new, is_term=False):
    """Says whether the other is the one with some places of a term replaced."""
    if one == other or (is_term and (one, other) == (old, new)):
        return True
    if one[0] != other[0] or len(one) != len(other):
        return False
    terms = TERM_PLACES.get(one[0], ())
    pairs = zip(one[1:], other[1:])
    return all(a == b if not (isinstance(a, tuple) and isinstance(b, tuple))
               else is_replaced(a, b, old, new, at in terms) for at, (a, b) in enumerate(pairs))


# Which parts of a form are terms. The variable of `is` and of a formula `$x` is none.
TERM_PLACES = {"=": (0, 1), "<=": (0, 1), "node": (0, 1, 3), "len": (0,), "+": (0, 1), "-": (0, 1),
               "++": (0, 1)}
# The connective `+` of formulas has the form of a sum; its parts are formulas, and no term is one.


def equality_replaced(step, judgement, written, theory):
    """(E = F and A) entails B, where B is A with some places of E replaced by F."""
    _, left, right, _ = judgement
    if step.arguments or left[0] != "and" or left[1][0] != "=":
        return
    if is_replaced(left[2], right, *left[1][1:]):
        yield {}, [], []


def conjuncts(formula):
    """Gives the conjuncts in order."""
    if formula[0] != "and":
        yield formula
    else:
        yield from conjuncts(formula[1])
        yield from conjuncts(formula[2])


def linear_form(term, factor=1, into=None):
    """Returns the factors of the variables, and of 1."""
    into = {} if into is None else into
    head, *parts = term
    if head == "int":
        into[1] = into.get(1, 0) + factor * parts[0]
    elif head in ("+", "-"):
        linear_form(parts[0], factor, into)
        linear_form(parts[1], factor if head == "+" else -factor, into)
    else:
        into[term] = into.get(term, 0) + factor
    return into


def difference(*terms):
    """Returns the linear form of the first term less the second; further pairs have factors."""
    into = {}
    for term, factor in terms:
        linear_form(term, factor, into)
    return {part: factor for part, factor in into.items() if factor}


def compares_ints(formula, written):
    return formula[0] in ("=", "<=") and term_sort(formula[1], written.scope) == "int"


def linear(step, judgement, written, theory):
    """A entails B, from the sum of A's comparisons, each taken as often as its argument says."""
    _, left, right, _ = judgement
    facts, factors = list(conjuncts(left)), [it[1:] for it in step.arguments if it[0] == "int"]
    if not len(facts) == len(factors) == len(step.arguments):
        return
    if not all(compares_ints(it, written) for it in facts):
        return
    if right != ("false",) and not compares_ints(right, written):
        return
    factors = [factor for factor, in factors]
    fits = all(abs(factor) <= MOST and (factor >= 0 or fact[0] == "=")
               for fact, factor in zip(facts, factors))
    terms = [pair for (_, low, high), factor in zip(facts, factors)
             for pair in ((high, -factor), (low, factor))]
    yield {}, [], [("coefficient", fits), ("sum", is_sum(facts, factors, terms, right))]


def is_sum(facts, factors, terms, right):
    """Says whether the sum, of which the terms are the negated parts, shows the right side."""
    if right == ("false",):
        rest = difference(*((term, -factor) for term, factor in terms))
        return set(rest) == {1} and rest[1] < 0
    rest = difference((right[2], 1), (right[1], -1), *terms)
    if right[0] == "<=":
        return set(rest) <= {1} and rest.get(1, 0) >= 0
    return not rest and not any(factor for fact, factor in zip(facts, factors) if fact[0] == "<=")


def sequence(step, judgement, written, theory):
    """The premises go through the commands of a block."""
    _, pre, command, post, sort = judgement
    if command[0] != "block" or step.arguments:
        return
    last, names = len(command) - 1, [("letter", f"P{at}") for at in range(len(command))]
    guess = {"P0": pre, f"P{last}": post, **{f"C{at}": it for at, it in enumerate(command) if at}}
    premises = [(names[at - 1], ("letter", f"C{at}"), names[at], sort) for at in range(1, last + 1)]
    yield guess, premises, []


def called(step, judgement, written, theory):
    """The specification of the procedure, with the arguments and the results put in at once."""
    _, pre, command, post, sort = judgement
    if command[0] != "call" or step.arguments:
        return
    _, results, name, arguments = command
    callee = next(it for it in theory.procedures if it.name == name)
    terms = {("prog", name): term for (name, _), term in zip(callee.params, arguments)}
    ends = {("prog", name): term for (name, _), term in zip(callee.results, results)}
    wanted = [replaced(nameless(it, written.scope.logic), {**terms, **ends})
              for it in (callee.pre, callee.post)]
    if sort == callee.sort and [pre, post] == wanted:
        yield {}, [], []


COMPUTING = {"eq_subst": equality_replaced, "linear": linear, "seq": sequence, "call": called}
