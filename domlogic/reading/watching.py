"""`watch`: whether requires holds of the document, and ensures of the grove at the end of a run.

Both are judged on the grove itself, so they have to be formulas that can be: an `exists` has to be
of a variable whose value stands at a node. How much judging there is at most is the formula's
weight.
"""
from collections import namedtuple

from domlogic.reading.limits import WATCH, Refused
from domlogic.reading.machine import Machine, run_lines, value_of
from domlogic.reading.sorts import walk

ALLOWED = ["true", "false", "and", "or", "->", "not", "=", "<=", "0f", "0g", "node", "one tree",
           "one root", "*", "len"]
# The forms in one of whose parts a variable is anchored if it is anchored in them.
ANCHORING = ["node", "one tree", "one root", "exists", "and", "*", "+"]
# The sorts of variables that are sought, in the order of the terms of a formula of nodes.
SOUGHT = ["str", "node", "list"]


def parts_of(formula):
    """Returns the formulas that are direct parts of a formula."""
    head, *parts = formula
    if head == "node":
        return [parts[2]]
    if head in ("exists", "forall", "is"):
        return parts[1:]
    return [] if head in ("=", "<=", "len", "is it") else parts


def terms_of(formula):
    """Returns the terms of a formula that are in none of its parts, from left to right."""
    head, *parts = formula
    if head == "node":
        return [parts[0], parts[1], parts[3]]
    return parts if head in ("=", "<=", "len") else []


def walk_parts(formula, bound=()):
    """Gives the formula and then its parts, each with the variables that are bound round it."""
    yield formula, bound
    inner = (*bound, formula[1]) if formula[0] in ("exists", "forall") else bound
    for part in parts_of(formula):
        yield from walk_parts(part, inner)


def has_logic_variable(term):
    return any(node[:1] == ("logic",) for node in walk(term))


def is_anchored(variable, formula):
    """Says whether the value of the variable stands at a node wherever the formula is met."""
    if variable in terms_of(formula) and formula[0] == "node":
        return True
    if formula[0] == "exists" and formula[1] == variable:
        return False
    return formula[0] in ANCHORING and any(is_anchored(variable, it) for it in parts_of(formula))


def is_allowed(part, bound, sorts):
    """Says whether a part is allowed, and each of its terms."""
    head, *parts = part
    if head == "exists":
        return sorts[parts[0][1]] in SOUGHT and is_anchored(*parts)
    if head == "+":
        return any(it[0] == "one root" for it in parts)
    terms = (it in bound or not has_logic_variable(it) for it in terms_of(part))
    return head in ALLOWED and all(terms)


def first_unwatchable(formula, sorts):
    """Returns the place of the first part that isn't allowed, or None."""
    places = enumerate(walk_parts(formula))
    return next((at for at, (part, bound) in places if not is_allowed(part, bound, sorts)), None)


def weight(formula, count):
    """Returns the weight of a formula for so many nodes."""
    parts = 1 + sum(weight(part, count) for part in parts_of(formula))
    return (count + 1) * parts if formula[0] in ("*", "+", "exists") else parts


def refuse_limits(formula, store, count):
    """Refuses a formula whose terms pass a limit, or which weighs too much for so many nodes."""
    for part, _ in walk_parts(formula):
        for term in terms_of(part):
            if not has_logic_variable(term):
                value_of(term, store)
    if weight(formula, count) > WATCH:
        raise Refused(8, "limit watch")


class Span(namedtuple("Span", "row first last")):
    """Neighbours in a row of nodes: a tree is one, a forest some children, a grove the roots."""

    def size(self):
        return self.last - self.first

    def nodes(self):
        return self.row[self.first : self.last]

    def cuts(self):
        """Gives each way to cut it in two."""
        for at in range(self.first, self.last + 1):
            yield self._replace(last=at), self._replace(first=at)

    def without(self, at):
        return span_of(self.row[self.first : at] + self.row[at + 1 : self.last])


def span_of(nodes):
    return Span(nodes, 0, len(nodes))


class Watcher:
    """A grove with a store, in which formulas are judged.

    `found` are the values of the variables that are bound.
    """

    def __init__(self, grove, store, sorts):
        self.grove, self.store, self.sorts = grove, store, sorts

    def value(self, term, found):
        return found[term] if term[0] == "logic" else value_of(term, self.store)

    def values(self, terms, found):
        return [self.value(term, found) for term in terms]

    def at_node(self, node):
        """Returns what the terms of a formula of nodes have to be at a node."""
        return [self.grove.name[node], node, self.grove.childlist[node]]

    def inside(self, node):
        return self.grove.children[node].numbers()

    def meets(self, formula, span, found):
        """Says whether a span meets a formula."""
        head, *parts = formula
        if head in ("and", "or", "->", "not"):
            return self.connects(head, parts, span, found)
        if head in ("true", "false"):
            return head == "true"
        if head in ("=", "<="):
            left, right = self.values(parts, found)
            return left == right if head == "=" else left <= right
        if head == "exists":
            values = self.sought(*parts, span.nodes())
            return any(self.meets(parts[1], span, {**found, parts[0]: it}) for it in values)
        return self.fits(head, parts, span, found)

    def connects(self, head, parts, span, found):
        """Says the same of a connective."""
        is_first_met = self.meets(parts[0], span, found)
        if head == "not":
            return not is_first_met
        if is_first_met == (head == "or"):
            return is_first_met or head == "->"
        return self.meets(parts[1], span, found)

    def fits(self, head, parts, span, found):
        """Says the same of a formula of shapes."""
        if head in ("0f", "0g"):
            return span.size() == 0
        if head == "len":
            return span.size() == self.value(parts[0], found)
        if head == "*":
            return any(self.meets(parts[0], one, found) and self.meets(parts[1], two, found)
                       for one, two in span.cuts())
        if head == "+":
            return self.has_root(*sorted(parts, key=lambda it: it[0] != "one root"), span, found)
        if span.size() != 1:
            return False
        if head in ("one tree", "one root"):
            return self.meets(parts[0], span, found)
        node, inside = span.row[span.first], parts.pop(2)
        return (self.values(parts, found) == self.at_node(node)
                and self.meets(inside, span_of(self.inside(node)), found))

    def has_root(self, root, others, span, found):
        """Says whether one root meets a formula, and the other roots another one."""
        return any(self.meets(root, Span(span.row, at, at + 1), found)
                   and self.meets(others, span.without(at), found)
                   for at in range(span.first, span.last))

    def sought(self, variable, formula, nodes):
        """Returns the values of an anchored variable with which such nodes may meet the formula."""
        if formula[0] == "node":
            if variable in terms_of(formula):
                place = SOUGHT.index(self.sorts[variable[1]])
                return {self.at_node(node)[place] for node in nodes}
            nodes = [child for node in nodes for child in self.inside(node)]
        part = next(it for it in parts_of(formula) if is_anchored(variable, it))
        return self.sought(variable, part, nodes)


def is_met(formula, machine, sorts):
    """Says whether the grove of a machine meets a formula in its store, or refuses a limit."""
    refuse_limits(formula, machine.store, len(machine.grove.name))
    watcher = Watcher(machine.grove, machine.store, sorts)
    return watcher.meets(formula, span_of(machine.grove.roots()), {})


def refuse_unwatchable(theory, procedure):
    """Refuses a procedure of another sort than groves, or a formula of it that can't be judged."""
    if procedure.sort != "g":
        raise Refused(14, "not watchable: sort")
    for title, formula in (("requires", procedure.pre), ("ensures", procedure.post)):
        part = first_unwatchable(formula, dict(theory.logic))
        if part is not None:
            raise Refused(14, f"not watchable: {title}, part {part}")


def watched(theory, procedure, arguments, grove, fuel):
    """Returns the status and the lines of `watch`."""
    refuse_unwatchable(theory, procedure)
    machine, sorts = Machine(theory, procedure, arguments, grove), dict(theory.logic)
    told = lambda word, formula: f"{word} {'yes' if is_met(formula, machine, sorts) else 'no'}"
    before = told("requires", procedure.pre)
    status, lines = run_lines(machine, procedure, fuel)
    after = [] if status else [told("ensures", procedure.post)]
    return status, [before, *lines, *after]
