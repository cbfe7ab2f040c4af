"""Entailments that are proved, and what is told where one isn't."""
import time

from domlogic.search.printing import formula_text
from domlogic.tests.drafts import proved, refused


def test_the_exact_class():
    proved("(($f * <$t>) and $a = $b) entails ($b = $a and ((0f * $f) * <$t>)) at f")
    proved("([$a#$i[$f]%$l] + ($r + [$t])) entails ([$t] + ([$a#$i[$f]%$l] + $r)) at g")
    proved("($K @t $a#$i[$f]%$l) entails (exists $n . (exists $s . ($K @t $s#$n[$f]%$l))) at g")
    proved("[($t or ($a#$i[0f]%$l and $i = p))] entails ([$t] or [$a#p[0f]%$l]) at g")
    proved("(exists $n . [$a#$n[0f]%$l]) entails (exists $j . [$a#$j[0f]%$l]) at g")
    proved("([$a#p[0f]%$l] + [$b#q[0f]%$m]) entails (([$a#p[0f]%$l] + [$b#q[0f]%$m]) and "
           "(not p = q)) at g")
    proved("([$a#p[0f]%$l] + [$b#p[0f]%$m]) entails 0g at g")


def test_witnesses_of_equations_come_first():
    left = "([$a#$i[0f]%$l] + ([$a#$j[0f]%$m] + [$a#$n[0f]%$k]))"
    wanted = "(exists $n . ((exists $k . ([$a#$n[0f]%$k] + true)) and $n = q))"
    proved(f"({left} and q = $j) entails {wanted} at g")
    assert refused(f"{left} entails {wanted} at g").missing.kind == "part"


def test_roots_that_look_alike_are_refused_soon():
    numbers, lists = "$i $j $n p q".split(), "$l $m $k $d $e".split()
    roots = [f"[$a#{number}[0f]%{listing}]" for number, listing in zip(numbers, lists)]
    wanted = ["(exists $n . (exists $k . [$a#$n[0f]%$k]))"] * 4
    left = f"({roots[0]} + ({roots[1]} + ({roots[2]} + ({roots[3]} + {roots[4]}))))"
    right = f"({wanted[0]} + ({wanted[1]} + ({wanted[2]} + ({wanted[3]} + LAST))))"
    proved(f"{left} entails {right.replace('LAST', wanted[0])} at g")
    proved(f"{left} entails {right.replace('LAST', roots[3])} at g")
    started = time.process_time()
    refused(f"{left} entails {right.replace('LAST', '[$b#p[0f]%$d]')} at g")
    refused(f"{left} entails {right.replace('LAST', '[$t]')} at g")
    refused(f"{left} entails ({right.replace('LAST', wanted[0])} and $a = $b) at g")
    assert time.process_time() - started < 2


def test_true_takes_any_stretch_and_any_roots():
    proved("(<$t> * ($f * (<$a#$i[0f]%$l> * $g))) entails (true * (<$a#$i[0f]%$l> * true)) at f")
    proved("$f entails (true * (true * $f)) at f")
    proved("(<$t> * $f) entails (exists $n . (<$t> * (true and $n = $n))) at f")
    proved("([$t] + ($r + $q)) entails (true + ($q + true)) at g")
    proved("([$t] + ($r + $q)) entails ((true + [$t]) or 0g) at g")
    proved("0g entails (true + true) at g")
    refused("$f entails (<$t> * true) at f")
    refused("([$t] + $r) entails ($q + true) at g")


def test_parts_are_found_anywhere():
    proved("($K @t $a#$i[($f * <$b#$j[0f]%$m>)]%$l) entails (true @t $b#$j[0f]%$m) at g")
    proved("($f * (<$t> * ($g * $h))) entails (true @f (<$t> * $g)) at f")
    proved("[$a#$i[($f * (<$t> * ($g * $h)))]%$l] entails (true @f (<$t> * $g)) at g")
    proved("([$t] + ($r + $q)) entails (true @g ([$t] + $q)) at g")
    proved("([$a#$i[$f]%$l] + ([$b#$j[$g]%$m] + $r)) entails ((true @f $g) + (true @f $f)) at g")
    refused("($f * $g) entails (true @f $h) at f")


def test_lengths():
    proved("(<$t> * (len $u * <$a#$i[0f]%$l>)) entails len {$u + 2} at f")
    proved("((len $u * <$t>) and {$u + 1} = x) entails len x at f")
    proved("(($f * (len $u * (<$t> * $g))) and {$u + 1} = x) entails ($f * (len x * $g)) at f")
    proved("($f and ($f is (<$t> * len 2))) entails len 3 at f")
    proved("((len $u * <$t>) and x = {$u + 1}) entails (exists $w . len $w) at f")
    refused("(<$t> * len $u) entails len $u at f")


def test_closer_looks():
    proved("([$a#$i[$f]%$l] and ($f is <$t>)) entails [$a#$i[<$t>]%$l] at g")
    proved("$f entails (exists $g . ($g and ($g is true))) at f")
    proved("<$t> entails (exists $g . $g) at f")
    proved("[$t] entails (exists $n . (exists $s . (exists $k . [$s#$n[true]%$k]))) at g")
    proved("($r + [true]) entails (exists $n . (exists $s . (exists $k . "
           "(true + [$s#$n[true]%$k])))) at g")
    proved("$f entails (0f or (exists $s . (exists $n . (exists $g . (exists $k . "
           "(exists $h . (<$s#$n[$g]%$k> * $h))))))) at f")


def test_connectives_on_the_right():
    proved("$f entails (0f -> ($f and 0f)) at f")
    proved("($t and false) entails (not $t) at t")
    proved("0g entails (forall $n . ($n = p -> p = $n)) at g")
    proved("($K @t $t) entails ([$b#$j[0f]%$m] -> ($K @t $t)) at g")


def test_negations_of_connectives():
    proved("($t and (not ($a = $b and (not $b = $c)))) entails "
           "(($t and (not $a = $b)) or ($t and $b = $c)) at t")
    proved("($t and (not ($a = $b or $b = $c))) entails ($t and (not $c = $b)) at t")
    proved("(($t and $a = $b) and (not ($b = $a and x <= y))) entails ($t and {y + 1} <= x) at t")


def missing_of(text: str) -> tuple[str, str | None]:
    """The texts of what isn't shown, and of what stands there."""
    refusal = refused(text)
    assert refusal.missing.kind in ("part", "fact") and refusal.why == ""
    there = refusal.missing.there
    return formula_text(refusal.missing.asked), None if there is None else formula_text(there)


def test_a_refusal_names_the_first_part_that_is_missing():
    assert missing_of("([$a#$i[$f]%$l] + $r) entails ($r + [$a#$i[$g]%$l]) at g") == ("$g", "$f")
    assert missing_of("($f * ($g * $h)) entails ($f * $g) at f") == ("0f", "$h")
    assert missing_of("($r + [$t]) entails [$t] at g") == ("0g", "$r")
    assert missing_of("[$a#p[0f]%$l] entails (exists $n . [$b#$n[0f]%$l]) at g") == \
        ("$b#?$n[0f]%$l", "$a#p[0f]%$l")
    assert missing_of("0f entails false at f") == ("false", None)
    assert missing_of("(0g and x <= y) entails (0g and {x + 1} <= y) at g") == \
        ("{x + 1} <= y", None)


def test_a_refusal_names_its_case():
    refusal = refused("($f or <$t>) entails $f at f")
    assert formula_text(refusal.case) == "<$t>" and formula_text(refusal.wanted) == "$f"
