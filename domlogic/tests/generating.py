"""Random entailments of the exact class: left sides, and right sides made from them.

A right side is the left side in other words: facts dropped, moved, quantified, parts in another
order, cut out, beside another choice. Half of them are then changed in a place or two.
"""
import random
from typing import Any, Callable, NamedTuple

Formula = tuple[Any, ...]
Term = tuple[Any, ...]
Path = tuple[int, ...]

NONE, EMPTY = ("0f",), ("0g",)
TRIVIAL = ("=", ("int", 0), ("int", 0))
VALUES = ("node", "list", "str", "int")
LOGIC = {"node": 4, "list": 4, "str": 3, "int": 2, "t": 3, "f": 3, "g": 3,
         "tt": 1, "tf": 1, "tg": 1, "ft": 1, "ff": 1, "fg": 1, "gg": 1}
PROGRAM = {"node": ["p", "q"], "list": ["l"], "str": ["s"], "int": ["i"]}
LITERALS = {"node": [("null",)], "list": [("nolist",)], "str": [("str", "a"), ("str", "b")],
            "int": [("int", 0), ("int", 1)]}
FIELDS = {1: "str", 2: "node", 4: "list"}
PLACES = {"node": (3,), "one tree": (1,), "one root": (1,), "*": (1, 2), "+": (1, 2), "@t": (2,),
          "@f": (2,), "@g": (2,), "and": (1, 2), "or": (1, 2), "exists": (2,)}


def variables() -> dict[Term, str]:
    """All variables with their sorts."""
    found = {("logic", f"${sort}{at}"): sort for sort, count in LOGIC.items()
             for at in range(1, count + 1)}
    return found | {("prog", name): sort for sort, names in PROGRAM.items() for name in names}


class Entailment(NamedTuple):
    """left entails right at sort."""

    left: Formula
    right: Formula
    sort: str


def is_fact(formula: Formula) -> bool:
    """Says whether it is a conjunction of equations and negated ones."""
    return formula[0] in ("=", "not") or formula[0] == "and" and all(map(is_fact, formula[1:]))


def put(formula: Formula, path: Path, part: Formula) -> Formula:
    """The formula with another part at the path."""
    if not path:
        return part
    at = path[0]
    return (*formula[:at], put(formula[at], path[1:], part), *formula[at + 1:])


def stands(formula: Formula, head: str) -> bool:
    """Says whether the form stands in it."""
    return formula[0] == head or any(stands(it, head) for it in formula if isinstance(it, tuple))


class Places:
    """Where shapes and terms stand in a formula of a sort."""

    def __init__(self, formula: Formula, sort: str):
        self.shapes: list[tuple[Path, Formula, str]] = []
        self.terms: list[tuple[Path, Term, str]] = []
        self.facts: list[tuple[Path, Formula]] = []
        self.walk(formula, sort, ())

    def walk(self, formula: Formula, sort: str, path: Path) -> None:
        """Adds what stands in a formula at the path."""
        head = formula[0]
        if is_fact(formula):
            self.facts.append((path, formula))
            self.fact_terms(formula, path)
            return
        self.shapes.append((path, formula, sort))
        if head == "node":
            self.terms += [((*path, at), formula[at], kind) for at, kind in FIELDS.items()]
        for at in PLACES.get(head, ()):
            inner = {"node": "f", "one tree": "t", "one root": "t"}.get(head, sort)
            self.walk(formula[at], head[1] if head[0] == "@" else inner, (*path, at))

    def fact_terms(self, fact: Formula, path: Path) -> None:
        """Adds the terms of a fact; their sort is told by their names."""
        if fact[0] == "=":
            self.terms += [((*path, at), fact[at], sort_of(fact[1:])) for at in (1, 2)]
            return
        for at, part in enumerate(fact[1:], 1):
            self.fact_terms(part, (*path, at))


SORTS = variables()


def sort_of(terms: tuple) -> str:
    """The sort of terms that are compared."""
    for term in terms:
        if term in SORTS:
            return SORTS[term]
        for sort, literals in LITERALS.items():
            if term in literals:
                return sort
    return "node"


class Generator:
    """A source of entailments."""

    def __init__(self, seed: Any, loose: bool = False):
        """If `loose`, `true` stands on the right side, also for contexts."""
        self.random, self.loose = random.Random(seed), loose
        self.unused: set[Term] = set()
        self.used: dict[str, list[Term]] = {}

    def entailment(self) -> Entailment:
        """One entailment of the exact class."""
        sort, size = self.random.choice("tfg"), self.random.choice((1, 2, 2, 3, 3, 4, 5, 6))
        self.unused = {it for it, kind in SORTS.items() if kind not in VALUES}
        self.used = {kind: [] for kind in VALUES}
        left = self.assertion(sort, size)
        for _ in range(self.random.choice((0, 0, 1, 2))):
            left = self.reworded(left, sort)
        right = left
        for _ in range(self.random.choice((0, 1, 2, 4, 6))):
            right = self.same_or_weaker(right, sort)
        for _ in range(self.random.choice((0, 0, 1, 2, 3, 4))):
            right = self.changed(right, sort)
        for _ in range(self.random.choice((0, 0, 1, 2))):
            right = self.quantified(right, sort)
        return Entailment(left, allowed(right), sort)

    def likely(self, chance: float) -> bool:
        """Says yes with the chance."""
        return self.random.random() < chance

    # ----------------------------------------------------------------------------------- left sides
    def term(self, sort: str, new: float = 0.7) -> Term:
        """A term, with the chance one that isn't used yet."""
        pool = [it for it, kind in SORTS.items() if kind == sort]
        fresh = [it for it in pool if it not in self.used[sort]]
        if fresh and self.likely(new):
            found = self.random.choice(fresh)
        elif self.likely(0.1):
            return self.random.choice(LITERALS[sort])
        else:
            found = self.random.choice(pool)
        self.used[sort].append(found)
        return found

    def variable(self, sort: str) -> Formula | None:
        """A variable of shapes or contexts that isn't used yet, or None."""
        free = sorted(it for it in self.unused if SORTS[it] == sort)
        if not free:
            return None
        chosen = self.random.choice(free)
        self.unused.discard(chosen)
        return ("is it", chosen)

    def assertion(self, sort: str, size: int) -> Formula:
        """A shape with facts, choices and quantifiers around it now and then."""
        if size > 1 and self.likely(0.12):
            return self.choice(sort, size)
        if self.likely(0.01):
            return ("false",)
        formula = self.shape(sort, size)
        while self.likely(0.3):
            fact = self.fact()
            formula = ("and", formula, fact) if self.likely(0.6) else ("and", fact, formula)
        bound = [it for kind in VALUES for it in self.used[kind] if it[0] == "logic"]
        if bound and self.likely(0.15):
            formula = ("exists", self.random.choice(sorted(set(bound))), formula)
        return formula

    def choice(self, sort: str, size: int) -> Formula:
        """Two assertions, either of which may be: both may have the same variables."""
        before = set(self.unused)
        one = self.assertion(sort, size // 2)
        after, self.unused = self.unused, before
        two = self.assertion(sort, size - size // 2)
        self.unused &= after
        return ("or", one, two)

    def fact(self) -> Formula:
        """An equation or a negated one, or two of them."""
        if self.likely(0.1):
            return ("and", self.fact(), self.fact())
        sort = self.random.choice(VALUES)
        equation = ("=", self.term(sort, 0.4), self.term(sort, 0.4))
        return ("not", equation) if self.likely(0.3) else equation

    def shape(self, sort: str, size: int) -> Formula:
        """A shape of this size."""
        if size <= 0 or self.likely(0.1):
            leaf = self.variable(sort) if self.likely(0.7) else None
            return leaf or (self.node(0) if sort == "t" else NONE if sort == "f" else EMPTY)
        if self.likely(0.15):
            found = self.spot(sort, size)
            if found is not None:
                return found
        if sort == "t":
            return self.node(size - 1)
        if size > 1 and self.likely(0.6):
            part = self.random.randint(1, size - 1)
            sides = self.assertion(sort, part), self.assertion(sort, size - part)
            return ("*" if sort == "f" else "+", *sides)
        return ("one tree" if sort == "f" else "one root", self.assertion("t", size))

    def node(self, size: int) -> Formula:
        """A node over a forest of this size."""
        name = self.term("str", 0.3)
        number, listing = self.term("node", 0.93), self.term("list", 0.93)
        children = self.assertion("f", size) if size else \
            NONE if self.likely(0.5) else self.variable("f") or NONE
        return ("node", name, number, children, listing)

    def spot(self, sort: str, size: int) -> Formula | None:
        """A variable for a context, with a shape in it."""
        hole = self.random.choice([it for it in "tfg" if it + sort in LOGIC])
        context = self.variable(hole + sort)
        return context and ("@" + hole, context, self.assertion(hole, size - 1))

    # -------------------------------------------------------------------------- the same or weaker
    def reworded(self, formula: Formula, sort: str) -> Formula:
        """The formula in other words, at one place."""
        path, part, here = self.random.choice(Places(formula, sort).shapes)
        ways = (self.turned, self.bracketed, self.with_unit, self.cut_out, self.regrouped)
        return put(formula, path, self.random.choice(ways)(part, here))

    def same_or_weaker(self, formula: Formula, sort: str) -> Formula:
        """The formula in other words, or a weaker one, by a change at one place."""
        places = Places(formula, sort)
        path, part, here = self.random.choice(places.shapes)
        ways = [self.turned, self.bracketed, self.with_unit, self.cut_out, self.regrouped,
                self.less, self.fact_moved, self.fact_copied, self.with_choice, None]
        ways += [self.anything, self.with_anything, self.anywhere] * 2 if self.loose else []
        way: Callable[[Formula, str], Formula] | None = self.random.choice(ways)
        return put(formula, path, way(part, here)) if way else self.equal_put(formula, places)

    def turned(self, part: Formula, sort: str) -> Formula:
        """A sum, an `and` or a choice the other way round."""
        return (part[0], part[2], part[1]) if part[0] in ("+", "and", "or") else part

    def bracketed(self, part: Formula, sort: str) -> Formula:
        """A row or sum with other brackets."""
        op = part[0]
        if op in ("*", "+") and part[1][0] == op:
            return (op, part[1][1], (op, part[1][2], part[2]))
        if op in ("*", "+") and part[2][0] == op:
            return (op, (op, part[1], part[2][1]), part[2][2])
        return part

    def with_unit(self, part: Formula, sort: str) -> Formula:
        """A forest or grove with nothing beside it."""
        if sort == "t":
            return part
        op, nothing = ("*", NONE) if sort == "f" else ("+", EMPTY)
        return (op, nothing, part) if self.likely(0.5) else (op, part, nothing)

    def cut_out(self, part: Formula, sort: str) -> Formula:
        """(CONTEXT @h PART), with a literal context of a layer or two."""
        hole = ("?" + sort,)
        context, inner, inner_sort = self.layers(part, sort, self.random.randint(0, 2))
        return ("@" + inner_sort, context, inner) if context else ("@" + sort, hole, part)

    def regrouped(self, part: Formula, sort: str) -> Formula:
        """(K @h (H @j P)) as ((K @h H) @j P), and back."""
        app, outer, inner = part if part[0][0] == "@" else ("@", (), ())
        if outer and inner[0][0] == "@":
            return (inner[0], (app, outer, inner[1]), inner[2])
        if outer and outer[0][0] == "@":
            return (outer[0], outer[1], (app, outer[2], inner))
        return part

    def layers(self, part: Formula, sort: str, depth: int) -> tuple:
        """(context, part in it, its sort), or no context where a layer can't be made."""
        head = part[0]
        if not depth or head not in ("node", "one tree", "one root", "*", "+"):
            return ("?" + sort,), part, sort
        at = self.random.choice(PLACES[head])
        below = {"node": "f", "one tree": "t", "one root": "t"}.get(head, sort)
        context, inner, inner_sort = self.layers(part[at], below, depth - 1)
        if context is None:
            return None, part, sort
        if head == "*":
            context = (".*", context, part[2]) if at == 1 else ("*.", part[1], context)
        elif head == "+":
            context = (".+", context, part[3 - at])
        else:
            context = put(part, (at,), context)
        return (context, inner, inner_sort) if free_of_facts(context) else (None, part, sort)

    def less(self, part: Formula, sort: str) -> Formula:
        """A fact dropped."""
        if part[0] != "and":
            return part
        return part[2] if is_fact(part[1]) else part[1] if is_fact(part[2]) else part

    def fact_moved(self, part: Formula, sort: str) -> Formula:
        """A fact from inside to outside, or the other way."""
        if part[0] in ("and", "or", "exists") or part[0] not in PLACES:
            return part
        at = self.random.choice(PLACES[part[0]])
        inner = part[at]
        if inner[0] == "and" and (is_fact(inner[1]) or is_fact(inner[2])):
            side = 1 if is_fact(inner[1]) else 2
            return ("and", put(part, (at,), inner[3 - side]), inner[side])
        return part

    def fact_copied(self, part: Formula, sort: str) -> Formula:
        """A fact beside a shape goes in to one of its parts, or is said twice."""
        if part[0] != "and" or not (is_fact(part[1]) or is_fact(part[2])):
            return part
        side = 1 if is_fact(part[1]) else 2
        fact, shape = part[side], part[3 - side]
        if shape[0] in ("and", "or", "exists") or shape[0] not in PLACES:
            return ("and", part, fact)
        at = self.random.choice(PLACES[shape[0]])
        return put(shape, (at,), ("and", shape[at], fact))

    def with_choice(self, part: Formula, sort: str) -> Formula:
        """(P or something), or (something or P)."""
        unused, self.unused = self.unused, {it for it, kind in SORTS.items() if kind not in VALUES}
        other = self.assertion(sort, self.random.randint(0, 2))
        self.unused = unused
        return ("or", part, other) if self.likely(0.5) else ("or", other, part)

    def anything(self, part: Formula, sort: str) -> Formula:
        """`true`."""
        return ("true",)

    def with_anything(self, part: Formula, sort: str) -> Formula:
        """The part with `true` beside it, where something may be beside it."""
        if sort == "t":
            return part
        op = "*" if sort == "f" else "+"
        return (op, part, ("true",)) if self.likely(0.5) else (op, ("true",), part)

    def anywhere(self, part: Formula, sort: str) -> Formula:
        """(true @h P), with P in the part."""
        inside = [it for it in Places(part, sort).shapes if not stands(it[1], "false")]
        _, inner, inner_sort = self.random.choice(inside or [((), part, sort)])
        return ("@" + inner_sort, ("true",), inner) if inner_sort + sort in LOGIC else part

    def equal_put(self, formula: Formula, places: Places) -> Formula:
        """The other side of one of the equations at a place of one side."""
        facts = [it for _, fact in places.facts for it in parts_of(fact) if it[0] == "="]
        if not facts:
            return formula
        _, one, other = self.random.choice(facts)
        one, other = (one, other) if self.likely(0.5) else (other, one)
        there = [path for path, term, _ in places.terms if term == one]
        return put(formula, self.random.choice(there), other) if there else formula

    # --------------------------------------------------------------------------------- quantifiers
    def quantified(self, formula: Formula, sort: str) -> Formula:
        """A variable or a term at one place becomes a quantified one."""
        places = Places(formula, sort)
        nodes = [it for it in places.terms if it[1] in SORTS or it[1][0] in ("null", "str", "int")]
        if not nodes:
            return formula
        path, term, kind = self.random.choice(nodes)
        above = [it for it, _, _ in places.shapes if it == path[:len(it)]]
        top = self.random.choice(above)
        names = [it for it in SORTS if SORTS[it] == kind and it[0] == "logic"]
        new = self.random.choice([it for it in names if it != term] or names)
        part = part_of(formula, top)
        whole = self.likely(0.5)
        there = [it for it, found, _ in places.terms
                 if found == term and it[:len(top)] == top and (whole or it == path)]
        for it in there:
            part = put(part, it[len(top):], ("bound", kind))
        if new in terms_of(part):
            return formula  # the name is taken: a quantifier would bind more
        for it in there:
            part = put(part, it[len(top):], new)
        return put(formula, top, ("exists", new, part))

    # ------------------------------------------------------------------------------------- changes
    def changed(self, formula: Formula, sort: str) -> Formula:
        """The formula changed at one place, so that it may say something else."""
        places = Places(formula, sort)
        if places.terms and self.likely(0.4):
            path, _, kind = self.random.choice(places.terms)
            return put(formula, path, self.term(kind, 0.2))
        path, part, here = self.random.choice(places.shapes)
        if self.likely(0.3):
            return put(formula, path, ("and", part, self.fact()))
        if part[0] in ("*", "and", "or") and self.likely(0.5):
            return put(formula, path, (part[0], part[2], part[1]))
        if part[0] in ("*", "+") and self.likely(0.5):
            return put(formula, path, self.random.choice(part[1:]))
        if part[0] == "is it":
            others = [it for it in SORTS if SORTS[it] == here]
            return put(formula, path, ("is it", self.random.choice(others)))
        if self.likely(0.4):
            self.unused = {it for it, kind in SORTS.items() if kind not in VALUES}
            return put(formula, path, self.assertion(here, self.random.randint(0, 2)))
        return formula


def part_of(formula: Formula, path: Path) -> Formula:
    """The part at the path."""
    for at in path:
        formula = formula[at]
    return formula


def parts_of(fact: Formula) -> list[Formula]:
    """The equations and negated ones of a fact."""
    return [fact] if fact[0] != "and" else parts_of(fact[1]) + parts_of(fact[2])


def terms_of(formula: Formula) -> set[Term]:
    """The variables in it."""
    if formula[0] in ("logic", "prog"):
        return {formula}
    return set().union(*(terms_of(it) for it in formula if isinstance(it, tuple)))


def free_of_facts(context: Formula) -> bool:
    """Says whether no fact, choice or quantifier stands in a context."""
    return not any(stands(context, head) for head in ("and", "or", "exists", "false"))


def allowed(right: Formula) -> Formula:
    """The right side without the negated equations that the exact class doesn't have.

    There is none beside `or`; none of a quantified variable beside a sum, where the match isn't the
    only one; and a quantified variable stands in a node or in an equation too.
    """
    if stands(right, "or"):
        return without_negations(right, None)
    return checked(right, frozenset(), stands(right, "+"))


def checked(formula: Formula, bound: frozenset[Term], has_sum: bool) -> Formula:
    """The same below the quantifiers of the bound variables."""
    if formula[0] == "not" and has_sum and terms_of(formula) & bound:
        return TRIVIAL
    if formula[0] == "exists":
        _, variable, inside = formula
        inside = checked(inside, bound | {variable}, has_sum)
        if variable not in terms_of(without_negations(inside, None)):
            inside = without_negations(inside, variable)
        return ("exists", variable, inside)
    return tuple(checked(it, bound, has_sum) if isinstance(it, tuple) else it for it in formula)


def without_negations(formula: Formula, variable: Term | None) -> Formula:
    """The formula without its negated equations, or those of the variable."""
    if formula[0] == "not":
        return TRIVIAL if variable is None or variable in terms_of(formula) else formula
    return tuple(without_negations(it, variable) if isinstance(it, tuple) else it for it in formula)
