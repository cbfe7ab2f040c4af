"""Normal forms, cutting out, facts in and out, cases: each step is accepted by the kernel."""
from domlogic.search.formulas import part_at, with_facts
from domlogic.search.printing import formula_text
from domlogic.tests.drafts import Draft, formula


def normal(text: str, sort: str) -> str:
    """The normal form, both ways proved."""
    draft, given = Draft(), formula(text, sort)
    conv = draft.shapes.canon(given, sort)
    draft.check(conv.fwd(), given, conv.right, sort)
    draft.check(conv.back(), conv.right, given, sort)
    return formula_text(conv.right)


def test_rows_and_sums_to_the_right_and_without_nothing():
    assert normal("((($f * 0f) * <$t>) * ($g * 0f))", "f") == "($f * (<$t> * $g))"
    assert normal("(0f * 0f)", "f") == "0f"
    assert normal("(0g + ($r + ($q + 0g)))", "g") == "($r + $q)"
    assert normal("(0g + 0g)", "g") == "0g"


def test_spots_are_opened():
    assert normal("(((?f .* $g) *. 0f) @f $f)".replace("*. 0f", ".* 0f"), "f") == "($f * $g)"
    assert normal("($a#$i[($g *. <?t>)]%$l @t $t)", "t") == "$a#$i[($g * <$t>)]%$l"
    assert normal("(([?t] .+ $r) @t $t)", "g") == "([$t] + $r)"
    assert normal("(([<?t>] @t $t) + $r)".replace("<?t>", "?t"), "g") == "([$t] + $r)"
    assert normal("(($K @t $a#$i[?f]%$l) @f $f)", "g") == "($K @t $a#$i[$f]%$l)"


def test_a_fact_alone_is_beside_true():
    assert normal("($f * $a = $b)", "f") == "($f * (true and $a = $b))"


def test_each_part_is_cut_out_and_put_back():
    draft, sort = Draft(), "g"
    whole = draft.shapes.canon(formula("([$a#$i[($f * <$t>)]%$l] + ($r + ($K @t $t)))"), sort).right
    for path, part, at in list(draft.shapes.paths(whole, sort)):
        context, h, number = draft.shapes.spot(whole, sort, path)
        assert h == at and part_at(whole, path) == part
        draft.check(number, whole, ("@" + h, context, part))
        back = draft.shapes.unspot(context, h, part, whole, sort)
        draft.check(back, ("@" + h, context, part), whole)


def test_facts_go_out_and_in():
    draft = Draft()
    whole = formula("[$a#$i[($f and $a = $b)]%$l]")
    number, outer, fact = draft.shapes.pull_pure(whole, "g", (1, 3))
    assert formula_text(outer) == "[$a#$i[$f]%$l]" and formula_text(fact) == "$a = $b"
    draft.check(number, whole, ("and", outer, fact))
    draft.check(draft.shapes.push_pure(outer, "g", (1, 3), fact), ("and", outer, fact), whole)


def test_sums_in_any_order():
    draft = Draft()
    parts = [formula(it) for it in ("$r", "$q", "[$t]", "0g")]
    conv = draft.shapes.reordered(parts, [2, 0, 3, 1])
    assert formula_text(conv.right) == "([$t] + ($r + (0g + $q)))"
    draft.check(conv.fwd(), conv.left, conv.right)
    draft.check(conv.back(), conv.right, conv.left)


def cases(text: str, sort: str) -> list[str]:
    """The cases of an assertion, of which each entails the choice of all."""
    draft, left = Draft(), formula(text, sort)
    leaves, emit = draft.shapes.opened(left, sort)
    forms = [with_facts(shape, pure) for _, shape, pure in leaves]

    def of_leaf(leaf):
        return draft.book.ent("true_in", (), with_facts(*leaf), ("true",), sort)

    draft.check(emit(("true",), of_leaf), left, ("true",), sort)
    return [formula_text(it) for it in forms]


def test_the_left_side_is_opened():
    assert cases("([($t and $a = $b)] + $r)", "g") == ["(([$t] + $r) and $a = $b)"]
    assert cases("([($t or (exists $n . $a#$n[0f]%$l))] + false)", "g") == []
    two = cases("<($t or (exists $n . $a#$n[0f]%$l))>", "f")
    assert len(two) == 2 and two[0] == "<$t>" and two[1].startswith("<$a#$node_1[0f]")
    assert cases("($f and ($a = $b or (not (not $a = $c))))", "f") == \
        ["($f and $a = $b)", "($f and $a = $c)"]
    assert cases("(($f or 0f) and ($g or <$t>))", "f") == [
        "($f and $g)", "($f and <$t>)", "(0f and $g)", "(0f and <$t>)"]
