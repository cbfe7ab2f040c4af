"""Formulas and terms as tuples: what stands in them, what is put in, and where shapes stand.

A formula is a tuple of its form and its parts, as `domlogic.reading.theories` reads it. In a
symbolic heap, (SHAPE and FACTS), the facts are pure formulas, nested to the right.
"""
import functools
from typing import Any, Iterable, Mapping, Sequence

from domlogic.search.refusals import Fails

Formula = tuple[Any, ...]
Term = tuple[Any, ...]
Path = tuple[int, ...]  # from a formula to a part: the place among the parts, at each level

TRUE, FALSE, NONE, EMPTY = ("true",), ("false",), ("0f",), ("0g",)
LITERALS = ("null", "nolist", "int", "str", "yes", "no")
DEFAULTS = {"node": ("null",), "list": ("nolist",), "int": ("int", 0), "str": ("str", ""),
            "bool": ("no",)}
QUANTIFIERS = ("exists", "forall")

# Where the shapes are among the parts of a formula, and where the terms are.
PLACES = {"node": (3,), "one tree": (1,), "one root": (1,), "*": (1, 2), "+": (1, 2), "@t": (2,),
          "@f": (2,), "@g": (2,)}
TERM_PLACES = {"=": (1, 2), "<=": (1, 2), "node": (1, 2, 4), "len": (1,), "+": (1, 2), "-": (1, 2),
               "++": (1, 2)}


# ------------------------------------------------------------------------------ what stands in it

@functools.lru_cache(maxsize=1 << 17)
def free(node: tuple) -> frozenset[Term]:
    """The variables that stand free in it, logic and program."""
    if not node:
        return frozenset()
    head = node[0]
    if head in ("logic", "prog"):
        return frozenset((node,))
    if head in QUANTIFIERS:
        return free(node[2]) - {node[1]}
    found: frozenset[Term] = frozenset()
    for part in node:
        if isinstance(part, tuple):
            found |= free(part)
    return found


def size(node: tuple) -> int:
    """The number of tuples in it."""
    return 1 + sum(size(it) for it in node if isinstance(it, tuple))


def has_head(node: tuple, head: str) -> bool:
    """Says whether the form stands in it somewhere."""
    return node[0] == head or any(has_head(it, head) for it in node if isinstance(it, tuple))


# ------------------------------------------------------------------------- conjunctions and choices

def conjuncts(formula: Formula) -> list[Formula]:
    """The conjuncts in order."""
    if formula[0] == "and":
        return conjuncts(formula[1]) + conjuncts(formula[2])
    return [formula]


def conjunction(parts: Sequence[Formula]) -> Formula:
    """The right-nested conjunction; true where there is none."""
    if not parts:
        return TRUE
    return parts[0] if len(parts) == 1 else ("and", parts[0], conjunction(parts[1:]))


def disjunction(parts: Sequence[Formula]) -> Formula:
    """The right-nested choice; false where there is none."""
    if not parts:
        return FALSE
    return parts[0] if len(parts) == 1 else ("or", parts[0], disjunction(parts[1:]))


def with_facts(shape: Formula, facts: Sequence[Formula]) -> Formula:
    """The symbolic heap of the shape with its pure facts."""
    return ("and", shape, conjunction(facts)) if facts else shape


def quantified(variables: Iterable[Term], formula: Formula) -> Formula:
    """(exists x . .. FORMULA), the first variable outermost."""
    for variable in reversed(list(variables)):
        formula = ("exists", variable, formula)
    return formula


# ------------------------------------------------------------------------------------------ places

def with_part(formula: Formula, at: int, part: Formula) -> Formula:
    """The formula with another part at the place."""
    return (*formula[:at], part, *formula[at + 1:])


def with_part_at(formula: Formula, path: Path, part: Formula) -> Formula:
    """The formula with another part at the path."""
    if not path:
        return part
    return with_part(formula, path[0], with_part_at(formula[path[0]], path[1:], part))


def part_at(formula: Formula, path: Path) -> Formula:
    """The part at the path."""
    for at in path:
        formula = formula[at]
    return formula


def part_sort(formula: Formula, sort: str, at: int) -> str:
    """The sort at which the part at this place is judged, where the formula is judged at `sort`."""
    head, hole, k = formula[0], sort[:-1], sort[-1]
    if head in ("and", "or", "not", "->", *QUANTIFIERS, "*", "+"):
        return sort
    if head == "node":
        return hole + "f"
    if head in ("one tree", "one root"):
        return hole + "t"
    if head[0] == "@":
        return head[-1] + k if at == 1 else hole + head[-1]
    if head not in (".*", ".+", "*."):
        raise Fails(f"nothing is known of the parts of {head}")
    is_context = at == (2 if head == "*." else 1)
    return sort if is_context else k


def sort_at(formula: Formula, sort: str, path: Path) -> str:
    """The sort at which the part at the path is judged."""
    for at in path:
        formula, sort = formula[at], part_sort(formula, sort, at)
    return sort


# ------------------------------------------------------------------------------------------- terms

@functools.lru_cache(maxsize=1 << 16)
def term_replaced(node: tuple, old: Term, new: Term, is_term: bool = False) -> tuple:
    """Puts the term `new` for `old` at all places of terms where no binder stands in the way."""
    if is_term and node == old:
        return new
    head = node[0]
    if head in QUANTIFIERS and (node[1] in free(old) or node[1] in free(new)):
        return node
    if head in ("is it", "prog", "logic"):
        return node
    places = TERM_PLACES.get(head, ())
    return tuple(term_replaced(it, old, new, at in places) if isinstance(it, tuple) else it
                 for at, it in enumerate(node))


def variables_named(formula: Formula, names: Mapping[Term, Term]) -> Formula:
    """The formula with other names for its variables, to be shown and not to be proved."""
    if formula in names:
        return names[formula]
    return tuple(variables_named(it, names) if isinstance(it, tuple) else it for it in formula)
