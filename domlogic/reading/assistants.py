"""The three assistants: which entailments they find obvious, and the steps that they give for one.

A plan is a rule, what it proves, and the plans of its premises, whose steps stand before its own.
"""
from collections import Counter, namedtuple
from functools import partial

from domlogic.reading.nameless import nameless
from domlogic.reading.theories import Step

# How the parts of a forest or a grove are put together, and the rules for that.
Shape = namedtuple("Shape", "star empty holder unit assoc mono inside")
SHAPES = {"f": Shape("*", ("0f",), "one tree", "star_unit", "star_assoc", "mono_star", "mono_tree"),
          "g": Shape("+", ("0g",), "one root", "plus_unit", "plus_assoc", "mono_plus", "mono_root")}


def steps_of(plan, number):
    """Returns the steps of a plan, numbered from the number on, each after those that it cites."""
    rule, judgement, *premises = plan
    steps, cited = [], []
    for premise in premises:
        steps += steps_of(premise, number + len(steps))
        cited.append(steps[-1].number)
    return [*steps, Step(number + len(steps), 0, rule, tuple(cited), (), judgement)]


def entails(left, right, sort):
    return ("entails", left, right, sort)


def itself(formula, sort):
    return ("id", entails(formula, formula, sort))


# ---- by conjuncts: each conjunct of the right side is `true`, or one of the left side

def conjuncts(formula):
    if formula[0] != "and":
        return [formula]
    return conjuncts(formula[1]) + conjuncts(formula[2])


class Conj:
    """Proves what is made of a formula's conjuncts."""

    def __init__(self, logic):
        self.bare = partial(nameless, logic=logic)

    def has(self, formula, target):
        return self.bare(target) in [self.bare(it) for it in conjuncts(formula)]

    def plan(self, left, right, sort):
        """Returns the plan for an entailment, or None where it isn't obvious."""
        if all(it == ("true",) or self.has(left, it) for it in conjuncts(right)):
            return self.gather(left, right, sort)
        return None

    def gather(self, left, right, sort):
        if right[0] == "and":
            both = (self.gather(left, it, sort) for it in right[1:])
            return ("and_in", entails(left, right, sort), *both)
        if right == ("true",):
            return ("true_in", entails(left, right, sort))
        return self.reach(left, right, sort)

    def reach(self, formula, target, sort):
        """Goes from a formula to its conjunct."""
        if formula[0] != "and":
            return ("id", entails(formula, target, sort))
        rule, side = ("and_left", formula[1])
        if not self.has(formula[1], target):
            rule, side = ("and_right", formula[2])
        return ("cut", entails(formula, target, sort), (rule, entails(formula, side, sort)),
                self.reach(side, target, sort))


# ---- plans that go either way, from a first formula to a second one or back

class Ways:
    """Plans from a first formula to a second one, or back."""

    def __init__(self, is_onward):
        self.is_onward = is_onward

    def other(self):
        return Ways(not self.is_onward)

    def turned(self, first, second, sort):
        pair = (first, second) if self.is_onward else (second, first)
        return entails(*pair, sort)

    def row(self, rule, first, second, sort):
        """A rule that has another one for the way back."""
        name = rule if self.is_onward else rule + "_back"
        return (name, self.turned(first, second, sort))

    def joined(self, one, two, first, second, sort):
        """First the one, then the other."""
        pair = (one, two) if self.is_onward else (two, one)
        return ("cut", self.turned(first, second, sort), *pair)

    def inside(self, rule, first, second, sort, *plans):
        """A rule that changes parts."""
        return (rule, self.turned(first, second, sort), *plans)


# ---- by filling: one side is (C @h B), and the other one C with B in the place of its hole

# of each layer around a hole: which part has the hole, what it is without one, its rules, its sort
LAYERS = {"node": (3, "node", "app_node", "mono_node", "t"),
          "one tree": (1, "one tree", "app_tree", "mono_tree", "f"),
          "one root": (1, "one root", "app_root", "mono_root", "g"),
          ".*": (1, "*", "app_star_left", "mono_star", "f"),
          "*.": (2, "*", "app_star_right", "mono_star", "f"),
          ".+": (1, "+", "app_plus", "mono_plus", "g")}


def around(context, part):
    """Returns the outermost layer of a context formula around a part."""
    place, head, *_ = LAYERS[context[0]]
    return (head, *context[1:place], part, *context[place + 1:])


def is_spine(context, hole):
    """Says whether it is built from one such hole by the layers."""
    if context[0] not in LAYERS:
        return context == (f"?{hole}",)
    return is_spine(context[LAYERS[context[0]][0]], hole)


def filling(context, part):
    if context[0] not in LAYERS:
        return part
    return around(context, filling(context[LAYERS[context[0]][0]], part))


class Spot:
    """Proves that an application is the filling of its context, and the other way round."""

    def __init__(self, logic):
        self.bare = partial(nameless, logic=logic)

    def fills(self, application, formula):
        head, *parts = application
        if head not in ("@t", "@f", "@g") or not is_spine(parts[0], head[1]):
            return False
        return self.bare(filling(*parts)) == self.bare(formula)

    def plan(self, left, right, sort):
        if sort not in ("t", "f", "g"):
            return None
        for way, one, two in ((Ways(True), left, right), (Ways(False), right, left)):
            if self.fills(one, two):
                return self.fill(way, *one)
        return None

    def fill(self, way, at, context, part):
        whole, end = (at, context, part), filling(context, part)
        if context[0] not in LAYERS:
            return way.row("hole_left", whole, part, at[1])
        place, _, entering, changing, sort = LAYERS[context[0]]
        middle = around(context, (at, context[place], part))
        plans = [self.fill(way, at, context[place], part)]
        if context[0] in (".*", ".+"):
            plans.append(itself(context[2], sort))
        if context[0] == "*.":
            plans.insert(0, itself(context[1], sort))
        return way.joined(way.row(entering, whole, middle, sort),
                          way.inside(changing, middle, end, sort, *plans), whole, end, sort)


# ---- by form: both sides have the same parts, at grove in any order

class Tidy:
    """Proves that formulas with the same form are the same."""

    def __init__(self, logic):
        self.bare = partial(nameless, logic=logic)

    # -- forms

    def tree_form(self, formula):
        if formula[0] != "node":
            return formula
        _, name, number, children, listing = formula
        return ("node", name, number, self.row(children, "f"), listing)

    def parts(self, formula, sort):
        """Returns the parts of a forest or a grove."""
        shape = SHAPES[sort]
        if formula == shape.empty:
            return []
        if formula[0] == shape.star:
            return self.parts(formula[1], sort) + self.parts(formula[2], sort)
        if formula[0] == shape.holder:
            return [(formula[0], self.tree_form(formula[1]))]
        return [formula]

    def taken(self, formula, rest, sort):
        """Returns the rest with the parts of the formula in front."""
        for part in reversed(self.parts(formula, sort)):
            rest = (SHAPES[sort].star, part, rest)
        return rest

    def row(self, formula, sort):
        """Returns the parts of the formula in a row."""
        return self.taken(formula, SHAPES[sort].empty, sort)

    def same_form(self, left, right, sort):
        if sort == "t":
            return self.bare(self.tree_form(left)) == self.bare(self.tree_form(right))
        one, two = ([self.bare(it) for it in self.parts(side, sort)] for side in (left, right))
        return one == two if sort == "f" else Counter(one) == Counter(two)

    # -- plans

    def plan(self, left, right, sort):
        if sort not in ("t", "f", "g") or not self.same_form(left, right, sort):
            return None
        onward, backward = Ways(True), Ways(False)
        if sort == "t":
            sides = self.tree(onward, left), self.tree(backward, right)
            return ("cut", entails(left, right, sort), *sides)
        one, two = self.alone(onward, left, sort), self.alone(backward, right, sort)
        if sort == "f":
            return ("cut", entails(left, right, sort), one, two)
        ordered = self.in_order(self.parts(left, "g"), self.parts(right, "g"))
        rest = ("cut", entails(self.row(left, "g"), right, sort), ordered, two)
        return ("cut", entails(left, right, sort), one, rest)

    def alone(self, way, formula, sort):
        """From a formula to its parts in a row."""
        shape = SHAPES[sort]
        beside = (shape.star, formula, shape.empty)
        return way.joined(way.other().row(shape.unit, beside, formula, sort),
                          self.take(way, formula, shape.empty, sort),
                          formula, self.row(formula, sort), sort)

    def tree(self, way, formula):
        if formula[0] != "node":
            return itself(formula, "t")
        plan = self.alone(way, formula[3], "f")
        return way.inside("mono_node", formula, self.tree_form(formula), "t", plan)

    def take(self, way, formula, rest, sort):
        """From a formula beside a rest to the rest with its parts in front."""
        shape = SHAPES[sort]
        start, end = (shape.star, formula, rest), self.taken(formula, rest, sort)
        if formula == shape.empty:
            return self.drop(way, start, rest, sort)
        if formula[0] == shape.star:
            return self.take_both(way, formula, rest, sort)
        if formula[0] != shape.holder:
            return itself(start, sort)
        tidied = (shape.holder, self.tree_form(formula[1]))
        part = way.inside(shape.inside, formula, tidied, sort, self.tree(way, formula[1]))
        return way.inside(shape.mono, start, end, sort, part, itself(rest, sort))

    def drop(self, way, start, rest, sort):
        """From nothing beside a rest to the rest."""
        if sort == "f":
            return way.row("unit_star", start, rest, sort)
        turned = ("+", rest, ("0g",))
        return way.joined(("plus_comm", way.turned(start, turned, sort)),
                          way.row("plus_unit", turned, rest, sort), start, rest, sort)

    def take_both(self, way, formula, rest, sort):
        shape, (star, one, two) = SHAPES[sort], formula
        start, middle = (star, formula, rest), (star, one, (star, two, rest))
        after = self.taken(two, rest, sort)
        following, end = (star, one, after), self.taken(one, after, sort)
        inner = way.inside(shape.mono, middle, following, sort, itself(one, sort),
                           self.take(way, two, rest, sort))
        later = way.joined(inner, self.take(way, one, after, sort), middle, end, sort)
        return way.joined(way.row(shape.assoc, start, middle, sort), later, start, end, sort)

    # -- the order of roots

    @staticmethod
    def sum_of(roots):
        row = ("0g",)
        for root in reversed(roots):
            row = ("+", root, row)
        return row

    def without(self, root, roots):
        at = [self.bare(it) for it in roots].index(self.bare(root))
        return roots[:at] + roots[at + 1:]

    def in_order(self, roots, wanted):
        if not wanted:
            return ("id", entails(self.sum_of(roots), ("0g",), "g"))
        first, *others = wanted
        rest = self.without(first, roots)
        moved, end = ("+", first, self.sum_of(rest)), self.sum_of(wanted)
        return ("cut", entails(self.sum_of(roots), end, "g"), self.to_front(first, roots),
                ("mono_plus", entails(moved, end, "g"), itself(first, "g"),
                 self.in_order(rest, others)))

    def to_front(self, root, roots):
        first, *others = roots
        if self.bare(first) == self.bare(root):
            row = self.sum_of(others)
            return ("id", entails(("+", first, row), ("+", root, row), "g"))
        rest = self.sum_of(self.without(root, others))
        start, one = self.sum_of(roots), ("+", first, ("+", root, rest))
        two, three = ("+", ("+", first, root), rest), ("+", ("+", root, first), rest)
        end = ("+", root, ("+", first, rest))
        swap = ("mono_plus", entails(two, three, "g"),
                ("plus_comm", entails(two[1], three[1], "g")), itself(rest, "g"))
        turn = ("cut", entails(two, end, "g"), swap, ("plus_assoc", entails(three, end, "g")))
        after = ("cut", entails(one, end, "g"), ("plus_assoc_back", entails(one, two, "g")), turn)
        begin = ("mono_plus", entails(start, one, "g"), itself(first, "g"),
                 self.to_front(root, others))
        return ("cut", entails(start, end, "g"), begin, after)


# in the order in which they are asked
ASSISTANTS = (Tidy, Spot, Conj)
