"""What follows from a symbolic heap."""
from domlogic.search.linear import solved
from domlogic.tests.drafts import Draft, formula


def follows(heap: str, goal: str, sort: str = "g") -> bool:
    """Says whether the goal is found to follow; its step is checked."""
    draft = Draft()
    known, wanted = draft.facts(heap, sort), formula(goal, sort)
    number = known.prove(wanted)
    if number is not None:
        draft.check(number, known.whole, wanted, sort)
    return number is not None


def contradicts(heap: str, sort: str = "g") -> bool:
    """Says whether a contradiction is found; its step is checked."""
    draft = Draft()
    known = draft.facts(heap, sort)
    number = known.contradiction()
    if number is not None:
        draft.check(number, known.whole, ("false",), sort)
    return number is not None


def test_equations():
    assert follows("(0g and ($a = $b and ($c = $b and $c = z)))", "z = $a")
    assert follows("(0g and ($u = {x + 1} and x = $v))", "{$v + 1} = $u")
    assert follows("(0g and $a = $b)", "{$a ++ {\"x\" ++ \"y\"}} = {{$b ++ \"x\"} ++ \"y\"}")
    assert not follows("(0g and $a = $b)", "$a = $c")


def test_sums_of_equations_and_comparisons():
    assert follows("(0g and ($u <= x and {x + 1} = y))", "{$u + 1} <= y")
    assert follows("(0g and ($u <= x and x <= $v))", "$u <= {$v + 2}")
    assert follows("(0g and (not x <= y))", "{y + 1} <= x")
    assert follows("(0g and ((not x <= y) and y = $u))", "(not x = $u)")
    assert follows("(0g and ({$u + 1} <= x and (0 <= $u and ({$v + 1} <= $w and y = {$w + x}))))",
                   "{{$v + 1} + 1} <= y")
    assert follows("(0g and ({$u + $u} <= {x + x} and y = $u))", "{y + $u} <= {x + x}")
    assert not follows("(0g and (not x <= y))", "{y + 2} <= x")
    assert not follows("(0g and $u <= x)", "$u = x")


def test_negated_equations():
    assert follows("(0g and ((not $a = $b) and $b = $c))", "(not $c = $a)")
    assert follows("([$a#$i[0f]%$l] and $i = p)", "(not p = null)")
    assert follows("[$a#$i[0f]%$l]", "(not nolist = $l)")
    assert follows("([$a#$i[<$b#$j[0f]%$m>]%$l] and $j = q)", "(not q = $i)")
    assert follows("($r + ([$a#$i[0f]%$l] + [$b#$j[0f]%$m]))", "(not $m = $l)")
    assert follows("($K @t $a#$i[($f * (<$t> * <$b#$j[0f]%$m>))]%$l)", "(not $i = $j)")
    assert not follows("([$a#$i[0f]%$l] + $r)", "(not $i = $j)")


def test_connectives_of_facts():
    assert follows("(0g and ($a = $b and $u <= x))", "($u <= x and ($b = $a or $a = $c))")
    assert follows("(0g and $a = $b)", "($b = $c -> $a = $c)")
    assert follows("(0g and $a = $b)", "((not $b = $a) -> $a = $c)")
    assert follows("(0g and $a = $b)", "(forall $s . ($s = $a -> $s = $b))")
    assert follows("(0g and ($f is (<$t> * $g)))", "($f is (<$t> * true))")
    assert follows("[$a#$i[$f]%$l]", "($f is true)")


def test_contradictions():
    assert contradicts("(0g and ($u = 1 and $u = 2))")
    assert contradicts("(0g and ($a = $b and ($b = $c and (not $a = $c))))")
    assert contradicts("([$a#$i[0f]%$l] and (p = $i and p = null))")
    assert contradicts("([$a#$i[0f]%$l] + [$b#$i[0f]%$m])")
    assert contradicts("([$a#$i[<$b#$j[0f]%$m>]%$l] and $m = $l)")
    assert contradicts("(0g and ({x + 1} <= y and y <= x))")
    assert contradicts("(0g and ((not x <= y) and x <= y))")
    assert not contradicts("(([$a#$i[0f]%$l] + $r) and (not $i = $j))")


def test_factors():
    assert solved([{"a": 1, "b": 1}, {"b": 1}], {"a": 2, "b": 5}, True) == [2, 3]
    assert solved([{"a": 2}], {"a": 1}, True) is None
    assert solved([{"a": 1, 1: 3}], {"a": 1, 1: 4}, True) is None
    assert solved([{"a": 1, 1: 3}], {"a": 1, 1: 4}, False) == [1]
