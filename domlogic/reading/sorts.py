"""Which terms, formulas and commands are well sorted."""
from collections import namedtuple

from domlogic.reading.limits import SHAPE_SORTS

# What the names of a procedure mean: the sorts of its variables, and the file's procedures.
Scope = namedtuple("Scope", "logic program params procedures")


def walk(node):
    """Gives the tuples in a tuple, itself first."""
    yield node
    for part in node:
        if isinstance(part, tuple):
            yield from walk(part)


def locals_of(command):
    """Returns the names and sorts of the locals, in the order of the text."""
    return [(node[1][1], node[2]) for node in walk(command) if node and node[0] == "local"]


def declared_by(procedure):
    return [*procedure.params, *procedure.results, *locals_of(procedure.body)]


def first_wins(pairs):
    """Returns a dictionary in which each name has what it was given first."""
    return dict(reversed(list(pairs)))


def scope_of(theory, procedure):
    procedures = first_wins((it.name, it) for it in theory.procedures)
    program = first_wins(declared_by(procedure))
    return Scope(first_wins(theory.logic), program, {it[0] for it in procedure.params}, procedures)


def term_sort(term, scope):
    """Returns the sort of a term, or None where it is badly sorted."""
    head, *parts = term
    constants = {"null": "node", "nolist": "list", "yes": "bool", "no": "bool", "int": "int",
                 "str": "str"}
    if head in constants:
        return constants[head]
    if head in ("prog", "logic"):
        return (scope.program if head == "prog" else scope.logic)[parts[0]]
    wanted = "str" if head == "++" else "int"
    return wanted if all(term_sort(part, scope) == wanted for part in parts) else None


def are_terms(scope, *pairs):
    """Says whether each term has its sort; pairs is term, sort, term, sort .."""
    return all(term_sort(term, scope) == sort for term, sort in zip(pairs[::2], pairs[1::2]))


def compares(comparison, scope):
    operator, left, right = comparison
    sort = term_sort(left, scope)
    if sort is None or sort != term_sort(right, scope):
        return False
    return operator == "=" or sort == "int"


def atom_fits(atom, sort, scope):
    """Says whether a formula without parts, `is` left out, may be judged at the sort."""
    head = atom[0]
    if head in ("=", "<="):
        return compares(atom, scope)
    if head == "is it":
        return scope.logic[atom[1][1]] == sort
    if head == "len":
        return sort == "f" and are_terms(scope, atom[1], "int")
    wanted = {"0f": "f", "0g": "g", "?t": "tt", "?f": "ff", "?g": "gg"}
    return head in ("true", "false") or wanted[head] == sort


def judged_parts(formula, sort, scope):
    """Returns the direct parts with the sorts at which they are judged; None where it doesn't fit.

    A context sort is its hole's sort, `hole`, and the sort `k` of what it gives; at a data sort the
    hole is "".
    """
    head, *parts = formula
    hole, k = sort[:-1], sort[-1]
    if head in ("and", "or", "->", "not"):
        return [(part, sort) for part in parts]
    if head in ("exists", "forall"):
        return [(parts[1], sort)]
    if head == "is":
        inner = scope.logic[parts[0][1]]
        return [(parts[1], inner)] if inner in SHAPE_SORTS else None
    if head == "node":
        name, node, children, childlist = parts
        fits = k == "t" and are_terms(scope, name, "str", node, "node", childlist, "list")
        return [(children, hole + "f")] if fits else None
    if head in ("one tree", "one root"):
        return [(parts[0], hole + "t")] if k == ("f" if head == "one tree" else "g") else None
    return pair_parts(head, parts, hole, k)


def pair_parts(head, parts, hole, k):
    """The same for the connectives of shapes, with the sorts of the left and of the right part."""
    h = head[-1]
    if head in ("*", "+"):
        sorts = (k, k) if not hole and k == {"*": "f", "+": "g"}[head] else None
    elif head in (".*", ".+", "*."):
        sorts = (hole + k, k) if hole and k == ("g" if head == ".+" else "f") else None
        sorts = sorts[::-1] if sorts and head == "*." else sorts
    elif head == "-o":
        sorts = (hole, k) if hole else None
    elif head[0] == "@":
        sorts = (h + k, hole + h)
    else:
        sorts = (k + h, h) if not hole else None
    return list(zip(parts, sorts)) if sorts else None


def is_sorted(formula, sort, scope):
    """Says whether the formula may be judged at the sort."""
    if sort not in SHAPE_SORTS:
        return False
    if formula[0] in ("=", "<=", "is it", "len", "true", "false", "0f", "0g", "?t", "?f", "?g"):
        return atom_fits(formula, sort, scope)
    parts = judged_parts(formula, sort, scope)
    return parts is not None and all(is_sorted(part, at, scope) for part, at in parts)


def is_condition(condition, scope):
    head, *parts = condition
    if head in ("=", "<="):
        return compares(condition, scope)
    if head == "holds":
        return are_terms(scope, parts[0], "bool")
    return all(is_condition(part, scope) for part in parts)


def is_call(command, scope):
    _, results, name, arguments = command
    callee = scope.procedures[name]
    sorts = [term_sort(it, scope) for it in results], [term_sort(it, scope) for it in arguments]
    return sorts == ([it[1] for it in callee.results], [it[1] for it in callee.params])


OPERANDS = {"createNode": ("node", "str"), "nodeName": ("str", "node"),
            "parentNode": ("node", "node"), "childNodes": ("list", "node"),
            "item": ("node", "list", "int"),
            "appendChild": ("node", "node"), "removeChild": ("node", "node"),
            "insertBefore": ("node", "node", "node")}


def is_command(command, scope):
    """Says whether a command is well sorted."""
    head, *parts = command
    if head == "call":
        return is_call(command, scope)
    if head == ":=":
        return term_sort(parts[0], scope) == term_sort(parts[1], scope)
    if head in OPERANDS:
        return all(term_sort(part, scope) == sort for part, sort in zip(parts, OPERANDS[head]))
    if head == "local":
        return scope.program[parts[0][1]] == parts[1] and is_command(parts[2], scope)
    if head in ("if", "while"):
        return is_condition(parts[0], scope) and all(is_command(it, scope) for it in parts[1:])
    return all(is_command(it, scope) for it in parts)
