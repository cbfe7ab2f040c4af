"""A few of the random entailments: more by random_entailments.py."""
from random import Random

from domlogic.tests.drafts import formula
from domlogic.tests.generating import Generator
from domlogic.tests.models import Hole, Model, Tree, parted
from domlogic.tests.random_entailments import Made, is_true, kernel_refuses, searched

LEAF = Tree(("str", "a"), ("node", 7), (), ("list", 8))


def model() -> Model:
    """A model with a tree for $t, nothing for $f, and no other values."""
    sorts = {("logic", "$t"): "t", ("logic", "$f"): "f", ("logic", "$n"): "node",
             ("logic", "$k"): "list", ("logic", "$i"): "node"}
    values = {("logic", "$t"): LEAF, ("logic", "$f"): (), ("logic", "$i"): ("node", 7)}
    return Model(values, sorts, {"node": [("node", 7), ("node", 9)], "list": [("list", 8)]})


def test_formulas_in_models():
    row = (LEAF, LEAF._replace(number=("node", 9), listing=("list", 10)))
    for text, is_met in (("(<$t> * true)", True), ("(true * <$t>)", False), ("$f", False),
                         ("(<$t> * (exists $n . (exists $k . <\"a\"#$n[0f]%$k>)))", True),
                         ("(exists $n . (true and (not $n = $i)))", True),
                         ("(exists $n . (<\"a\"#$n[$f]%$k> * true))", True),
                         ("((?f .* (exists $n . true)) @f <$t>)", True),
                         ("(true @t \"a\"#null[0f]%$k)", False)):
        assert model().holds(formula(text, "f"), "f", row) == is_met, text


def test_parts_of_data():
    assert list(parted((LEAF,), "f", "t")) == [((Hole("t"),), LEAF)]
    assert len(list(parted((LEAF,), "f", "f"))) == 4
    assert len(list(parted(frozenset((LEAF,)), "g", "g"))) == 2


def test_exact_entailments_agree():
    count = {True: 0, False: 0}
    for number in range(120):
        asked = Generator(f"unit {number}").entailment()
        wanted, found = is_true(asked), searched(number, asked)
        assert wanted == isinstance(found, Made), asked
        assert not wanted or number % 6 or kernel_refuses(found) is None, asked
        count[wanted] += 1
    assert min(count.values()) > 30


def test_entailments_with_true_agree():
    for number in range(60):
        asked = Generator(f"unit {number}", loose=True).entailment()
        wanted = is_true(asked) and is_true(asked, Random(number))
        assert wanted == isinstance(searched(number, asked), Made), asked
