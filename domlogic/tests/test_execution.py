"""Each command and each form of blocks, on small cases; and what is told where one has no proof."""
from domlogic.tests.procedures import filled_text, refusal_of

SPOT = "($k @t $s#p[$f]%$l)"
ADD = f"""add(p: node, s: str) returns (m: node) sort g ;; {SPOT} ;;
    (exists $m . ($k @t $s#p[($f * <s#m[0f]%$m>)]%$l)) ;;
    {{ m := createNode(s) ; appendChild(p, m) }}"""


def test_assignment_reads_the_old_value():
    filled_text("""p(n: int) returns (x: int) sort g ;; 0g ;; (0g and x = {n + 1}) ;;
        { x := n ; x := {x + 1} }""")


def test_parts_of_a_node():
    filled_text("""p(n: node) returns (s: str, l: list) sort t ;; $a#n[$f]%$l ;;
        ($a#n[$f]%$l and (s = $a and l = $l)) ;; { s := nodeName(n) ; l := childNodes(n) }""")


def test_parent_and_root():
    filled_text("""p(n: node) returns (m: node, r: node) sort g ;;
        [$a#$i[(<$b#n[$f]%$l> * $g)]%$m] ;;
        ([$a#$i[(<$b#n[$f]%$l> * $g)]%$m] and (m = $i and r = null)) ;;
        { m := parentNode(n) ; r := parentNode(m) }""")


def test_item_of_a_forest_makes_cases():
    filled_text("""p(n: node) returns (c: node) sort t ;; $a#n[$f]%$l ;;
        (($a#n[0f]%$l and c = null) or
         (exists $b . (exists $g . (exists $m . $a#n[(<$b#c[$g]%$m> * true)]%$l)))) ;;
        local l : list { l := childNodes(n) ; c := item(l, 0) }""")


def test_move_within_a_tree():
    filled_text("""p(p: node, n: node) returns () sort t ;; $s#p[(<$a#n[$f]%$m> * $g)]%$l ;;
        $s#p[($g * <$a#n[$f]%$m>)]%$l ;; appendChild(p, n)""")


def test_insertion_before_a_child_and_at_the_end():
    filled_text("""p(p: node, n: node, r: node) returns () sort g ;;
        (($k @t $s#p[($f * (<$a#r[$g]%$u> * $h))]%$l) + [$b#n[$q]%$v]) ;;
        ($k @t $s#p[($f * (<$b#n[$q]%$v> * (<$a#r[$g]%$u> * $h)))]%$l) ;;
        { insertBefore(p, n, null) ; insertBefore(p, n, r) }""")


def test_removal_leaves_a_root():
    filled_text("""p(p: node, n: node) returns () sort g ;;
        ($k @t $s#p[($f * (<$a#n[$g]%$m> * $h))]%$l) ;;
        (($k @t $s#p[($f * $h)]%$l) + [$a#n[$g]%$m]) ;; removeChild(p, n)""")


def test_choice_has_both_cases_behind():
    filled_text("""p(n: node, b: bool) returns (s: str) sort t ;; $a#n[$f]%$l ;;
        ($a#n[$f]%$l and ((b = yes and s = $a) or ((not b = yes) and s = "no"))) ;;
        if b { s := nodeName(n) } else { s := "no" }""")


def test_call_finds_its_variables():
    filled_text(ADD, f"""two(p: node) returns (m: node) sort g ;; {SPOT} ;;
        (exists $m . ($k @t $s#p[($f * <"a"#m[0f]%$m>)]%$l)) ;; call (m) := add(p, "a")""")


def test_recursion_is_by_the_specification():
    filled_text("""p(n: node) returns () sort t ;; $a#n[$f]%$l ;; $a#n[$f]%$l ;;
        call () := p(n)""")


def test_what_a_command_misses_is_named():
    told = refusal_of("""p(n: node, m: node) returns (s: str) sort t ;; $a#n[$f]%$l ;;
        $a#n[$f]%$l ;; s := nodeName(m)""")
    assert told == ["not filled: the triple of p, at s := nodeName(m)",
                    "  in the case  $a#n[$f]%$l",
                    "  wanted       a node whose number is m"]


def test_a_wrong_ensures_is_told_at_the_end():
    told = refusal_of("""p(n: node) returns (s: str) sort t ;; $a#n[$f]%$l ;;
        ($a#n[$f]%$l and s = "x") ;; s := nodeName(n)""")
    assert told[0] == "not filled: the triple of p, at the end, behind s := nodeName(n)"
    assert told[-1] == '  not shown    s = "x"'
