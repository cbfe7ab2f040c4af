"""Formulas without the names of bound variables which still know what these were called."""
from domlogic.reading.nameless import opened, stands_in

Node = tuple


class Binder(str):
    """The sort of a quantifier's variable, equal to the sort alone, with the written name."""

    name: str

    def __new__(cls, sort: str, name: str):
        made = super().__new__(cls, sort)
        made.name = name
        return made


def unnamed(node: Node, logic: dict[str, str], binders: tuple = ()) -> Node:
    """The nameless form, equal to that of `nameless`, whose binders keep their names."""
    if node[0] == "logic" and node in binders:
        return ("bound", logic[node[1]], binders.index(node))
    if node[0] in ("exists", "forall"):
        _, bound, inside = node
        return (node[0], Binder(logic[bound[1]], bound[1]),
                unnamed(inside, logic, (bound, *binders)))
    return tuple(unnamed(it, logic, binders) if isinstance(it, tuple) else it for it in node)


def unnamed_judgement(judgement: Node, logic: dict[str, str]) -> Node:
    """The same of a judgement; a command has no binders."""
    head, left, *command, right, sort = judgement
    return (head, unnamed(left, logic), *command, unnamed(right, logic), sort)


def named(node: Node, logic: dict[str, str]) -> Node:
    """The formula with names, those that were written wherever they can stand."""
    if node[0] in ("exists", "forall") and isinstance(node[1], str):
        variable = ("logic", free_name(node, logic))
        return (node[0], variable, named(opened(node[2], variable), logic))
    return tuple(named(it, logic) if isinstance(it, tuple) else it for it in node)


def free_name(quantified: Node, logic: dict[str, str]) -> str:
    """A name for a quantifier's variable that isn't free behind it, its own where that can be."""
    _, binder, inside = quantified
    own = getattr(binder, "name", "$x")
    others = (name for name, sort in logic.items() if sort == binder and " " not in name)
    fitting = (it for it in (own, *others) if not stands_in(("logic", it), inside))
    return next(fitting, own + "_")
