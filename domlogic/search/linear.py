"""Sums of equations and comparisons of ints, as the rule `linear` takes them."""
from fractions import Fraction
from typing import Iterator

from domlogic.reading.computing import MOST, difference
from domlogic.search.formulas import FALSE, Formula

Form = dict  # from a variable, or 1, to its factor
Factors = list[tuple[Formula, int]]
MOST_ORDERS = 6  # how many comparisons `<=` are added up


def solved(rows: list[Form], target: Form, with_constant: bool) -> list[int] | None:
    """Whole factors of the rows whose sum is the target at every variable (and at 1), or None."""
    names = sorted({name for row in [*rows, target] for name in row if name != 1 or with_constant},
                   key=repr)
    matrix = [[Fraction(row.get(name, 0)) for row in [*rows, target]] for name in names]
    pivots = eliminated(matrix, len(rows))
    if any(row[-1] for row in matrix[len(pivots):]):
        return None
    factors = [Fraction(0)] * len(rows)
    for row, column in zip(matrix, pivots):
        factors[column] = row[-1]
    if any(it.denominator != 1 or abs(it) > MOST for it in factors):
        return None
    return [int(it) for it in factors]


def eliminated(matrix: list[list[Fraction]], columns: int) -> list[int]:
    """Brings the matrix to its reduced form; returns the columns of its pivots."""
    pivots: list[int] = []
    for column in range(columns):
        at = len(pivots)
        row = next((it for it in range(at, len(matrix)) if matrix[it][column]), None)
        if row is None:
            continue
        matrix[at], matrix[row] = matrix[row], matrix[at]
        pivot = matrix[at] = [it / matrix[at][column] for it in matrix[at]]
        for other, line in enumerate(matrix):
            if other != at and line[column]:
                matrix[other] = [one - line[column] * two for one, two in zip(line, pivot)]
        pivots.append(column)
    return pivots


def less(form: Form, by: Fraction | int, other: Form) -> Form:
    """The form less so many times the other."""
    names = dict.fromkeys([*form, *other])
    found = {name: form.get(name, 0) - by * other.get(name, 0) for name in names}
    return {name: factor for name, factor in found.items() if factor}


def variables(form: Form) -> list:
    """The variables of a form."""
    return sorted((name for name in form if name != 1), key=repr)


class Sums:
    """Equations, by which forms are simplified, and comparisons, which are added up."""

    def __init__(self, facts: list[Formula]):
        """A fact E <= F is the form F - E, which isn't negative."""
        self.equations = [it for it in facts if it[0] == "="]
        self.rows: list[tuple[Formula, Form]] = []  # a variable, and a form that is 0, with it once
        for _, left, right in self.equations:
            form = self.simplified(difference((right, 1), (left, -1)))
            for name in variables(form)[:1]:
                self.rows.append((name, less({}, -1 / Fraction(form[name]), form)))
        self.orders = {it: self.simplified(difference((it[2], 1), (it[1], -1)))
                       for it in facts if it[0] == "<="}

    def simplified(self, form: Form) -> Form:
        """The form with what the equations tell put in."""
        for name, row in self.rows:
            if name in form:
                form = less(form, form[name], row)
        return form

    def chosen(self, goal: Formula) -> Iterator[Factors]:
        """Gives comparisons, with factors, that leave no variable of the goal."""
        if goal[0] == "=":
            yield []
        elif goal == FALSE:
            for first, form in self.orders.items():
                yield from self.added(less({}, 1, form), [(first, 1)])
        else:
            yield from self.added(self.simplified(difference((goal[2], 1), (goal[1], -1))), [])

    def added(self, rest: Form, used: Factors) -> Iterator[Factors]:
        """The same for what is left; each comparison takes away the first variable."""
        left = variables(rest)
        if not left:
            yield used
        if not left or len(used) == MOST_ORDERS:
            return
        taken = [it for it, _ in used]
        for order, form in self.orders.items():
            factor = Fraction(rest[left[0]]) / (form.get(left[0]) or -rest[left[0]])
            if factor > 0 and factor.denominator == 1 and order not in taken:
                yield from self.added(less(rest, factor, form), [*used, (order, int(factor))])


def summed(facts: list[Formula], goal: Formula) -> Iterator[Factors]:
    """Gives the sums of the facts, each with its factor, that show a comparison or false."""
    sums = Sums(facts)
    rows = [difference((it[2], 1), (it[1], -1)) for it in sums.equations]
    for chosen in sums.chosen(goal):
        terms = [pair for it, by in chosen for pair in ((it[2], -by), (it[1], by))]
        terms += [] if goal == FALSE else [(goal[2], 1), (goal[1], -1)]
        factors = solved(rows, difference(*terms), goal[0] == "=")
        if factors is not None and shows(sums.equations, factors, terms, goal):
            yield [(it, by) for it, by in zip(sums.equations, factors) if by] + chosen


def shows(equations: list[Formula], factors: list[int], terms: list, goal: Formula) -> bool:
    """Says whether what is left of the terms is a number that shows the goal."""
    taken = [pair for it, by in zip(equations, factors) for pair in ((it[2], -by), (it[1], by))]
    rest = difference(*terms, *taken)
    if set(rest) - {1}:
        return False
    left = rest.get(1, 0)
    return left > 0 if goal == FALSE else not left if goal[0] == "=" else left >= 0
