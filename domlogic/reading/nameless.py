"""Formulas without the names of bound variables, and what is done to them.

In place of a bound variable stands ("bound", SORT, COUNT): the binders between it and its own. So
two formulas are the same where they are equal, and no term that is put in can be captured.
"""


def nameless(node, logic, binders=()):
    """Returns the formula with, for a bound variable, its sort and the binders up to its own."""
    if node[0] == "logic" and node in binders:
        return ("bound", logic[node[1]], binders.index(node))
    if node[0] in ("exists", "forall"):
        _, bound, inside = node
        return (node[0], logic[bound[1]], nameless(inside, logic, (bound, *binders)))
    return tuple(nameless(it, logic, binders) if isinstance(it, tuple) else it for it in node)


def nameless_judgement(judgement, logic):
    """Returns the judgement with its formulas nameless; a command has no binders."""
    head, left, *command, right, sort = judgement
    return (head, nameless(left, logic), *command, nameless(right, logic), sort)


def stands_in(part, node):
    """Says whether the part is the node or one of its parts."""
    return part == node or any(isinstance(it, tuple) and stands_in(part, it) for it in node)


def opened(body, variable, depth=0):
    """Puts a variable for what is bound by the quantifier that the body was taken from."""
    if body[0] == "bound":
        return variable if body[2] == depth else body
    inner = depth + (body[0] in ("exists", "forall"))
    return tuple(opened(it, variable, inner) if isinstance(it, tuple) else it for it in body)


def replaced(node, terms):
    """Puts terms for variables, all at once."""
    if node in terms:
        return terms[node]
    return tuple(replaced(it, terms) if isinstance(it, tuple) else it for it in node)


def is_outside(part, whole, node):
    """Says whether the part stands in the node somewhere that is in no `whole`."""
    if node == whole:
        return False
    return node == part or any(isinstance(it, tuple) and is_outside(part, whole, it) for it in node)


def program_variables(node):
    """Gives the program variables that stand in it."""
    if node[0] == "prog":
        yield node
    for part in node:
        if isinstance(part, tuple):
            yield from program_variables(part)


def is_pure(formula):
    """Says whether it is made of true, false, connectives, quantifiers, comparisons and `is`."""
    head, *parts = formula
    if head in ("true", "false", "=", "<=", "is"):
        return True
    if head in ("and", "or", "->", "not"):
        return all(is_pure(part) for part in parts)
    return head in ("exists", "forall") and is_pure(parts[1])


def condition_formula(condition):
    """Returns the formula of a condition."""
    head, *parts = condition
    if head == "holds":
        return ("=", parts[0], ("yes",))
    if head in ("true", "false", "=", "<="):
        return condition
    return (head, *map(condition_formula, parts))


SETTING_NOTHING = ("skip", "appendChild", "removeChild", "insertBefore")


def modified(command):
    """Returns the variables that it assigns or sets as results, but a local's own in its block."""
    head, *parts = command
    if head == "call":
        return set(parts[0])
    if head == "local":
        return modified(parts[2]) - {parts[0]}
    if head in ("block", "if", "while"):
        blocks = parts if head == "block" else parts[1:]
        return set().union(*map(modified, blocks))
    return set() if head in SETTING_NOTHING else {parts[0]}
