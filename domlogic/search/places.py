"""Where in a case the node of a command stands, and what is around it."""
from typing import NamedTuple

from domlogic.search.facts import Facts
from domlogic.search.formulas import Formula, Path, part_at, with_part
from domlogic.search.printing import term_text
from domlogic.search.refusals import Fails, Refusal
from domlogic.search.shapes import Shapes

# The parts of ("node", name, number, children, list).
NAME, NUMBER, CHILDREN, LIST = 1, 2, 3, 4


class Node(NamedTuple):
    """A node and its place."""

    path: Path
    formula: Formula


class Moved(NamedTuple):
    """A node alone in its brackets: the piece with them, their place, and what is left where it
    goes: the empty forest or the empty grove."""

    node: Formula
    piece: Formula
    path: Path
    sort: str
    nothing: Formula


class Child(NamedTuple):
    """A child among the others: the parent and its place, the children before and after it."""

    path: Path
    parent: Formula
    before: list[Formula]
    tree: Formula
    after: list[Formula]


def node_of(shapes: Shapes, known: Facts, term: Formula, part: int = NUMBER) -> Node:
    """The node whose number (or list) is the term's."""
    meant = known.rep(term, True)
    for path, formula, _ in shapes.paths(known.shape, known.sort):
        if formula[0] == "node" and known.rep(formula[part], True) == meant:
            return Node(path, formula)
    kind = "number" if part == NUMBER else "list"
    raise Fails(Refusal(known.whole, f"a node whose {kind} is {term_text(term)}"))


def moved(shapes: Shapes, known: Facts, term: Formula) -> Moved:
    """The tree or root of the node whose number is the term's."""
    path, node = node_of(shapes, known, term)
    piece = part_at(known.shape, path[:-1]) if path else node
    if piece[0] not in ("one tree", "one root"):
        wanted = "a tree or root of its own with the node " + term_text(term)
        raise Fails(Refusal(known.whole, wanted))
    sort, nothing = ("f", ("0f",)) if piece[0] == "one tree" else ("g", ("0g",))
    return Moved(node, piece, path[:-1], sort, nothing)


def root_above(shape: Formula, path: Path) -> Path | None:
    """The place of the root brackets around the node, where it stands in such."""
    return path[:-1] if path and part_at(shape, path[:-1])[0] == "one root" else None


def child_above(shapes: Shapes, shape: Formula, path: Path) -> Child | None:
    """The node at the path as a child, where the shape has its parent."""
    if not path or part_at(shape, path[:-1])[0] != "one tree":
        return None
    place = path[:-1]
    while place and part_at(shape, place[:-1])[0] == "*":
        place = place[:-1]
    if not place or part_at(shape, place[:-1])[0] != "node":
        return None
    steps_to_the_right = sum(1 for it in path[len(place):-1] if it == 2)
    return child_of(shapes, Node(place[:-1], part_at(shape, place[:-1])), steps_to_the_right)


def child_of(shapes: Shapes, parent: Node, at: int) -> Child:
    """The child at this place of the list as it is written."""
    children = shapes.atoms("*", parent.formula[CHILDREN])
    return Child(*parent, children[:at], children[at], children[at + 1:])


def numbered_child(shapes: Shapes, known: Facts, parent: Node, term: Formula) -> Child:
    """The child whose number is the term's."""
    meant = known.rep(term, True)
    for at, it in enumerate(shapes.atoms("*", parent.formula[CHILDREN])):
        is_node = it[0] == "one tree" and it[1][0] == "node"
        if is_node and known.rep(it[1][NUMBER], True) == meant:
            return child_of(shapes, parent, at)
    raise Fails(Refusal(known.whole, "a child whose number is " + term_text(term)))


def split_around(shapes: Shapes, child: Child) -> Formula:
    """The parent with its children as those before the child, it, and those after."""
    first, rest = (shapes.row_of_parts("*", it) for it in (child.before, child.after))
    return with_part(child.parent, CHILDREN, ("*", ("*", first, child.tree), rest))
