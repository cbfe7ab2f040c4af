"""What is printed is read as what it was."""
import os

from domlogic.search.book import read_theory
from domlogic.search.formulas import free, part_sort, term_replaced
from domlogic.search.printing import formula_text, theory_text
from domlogic.tests.drafts import Draft, formula

LIBRARY = os.path.join(os.path.dirname(__file__), "..", "..", "examples", "library")


def test_files_are_read_again():
    for name in sorted(os.listdir(LIBRARY)):
        if name in ("swap.dom", "first_child.dom", "entry.dom"):
            with open(os.path.join(LIBRARY, name), "rb") as file:
                theory = read_theory(file.read())
            plain = [step._replace(line=0) for it in theory.procedures for step in it.steps]
            again = read_theory(theory_text(theory).encode())
            assert plain == [it._replace(line=0) for one in again.procedures for it in one.steps]


def test_formulas_are_printed_as_they_are_written():
    for text in ("(exists $n . ($K @t $a#$n[(<$t> * len {$u + 1})]%$l))",
                 "((not z = \"a\\n\") -> ($L is ([?t] .+ true)))", "(forall $f . 0g)"):
        assert formula_text(formula(text)) == text


def test_free_variables():
    whole = formula("((exists $n . [$a#$n[$f]%$l]) + [$b#$n[0f]%nolist])")
    assert {name for _, name in free(whole)} == {"$a", "$b", "$n", "$f", "$l"}
    assert {name for _, name in free(whole[1])} == {"$a", "$f", "$l"}


def test_terms_are_put_in_without_capture():
    book = Draft().book
    given = formula("(exists $n . ([$a#$n[0f]%$l] and $n = $i))")
    done = book.subst(given, {("logic", "$i"): ("logic", "$n")})
    assert done[1] != ("logic", "$n") and done[2][2] == ("=", done[1], ("logic", "$n"))
    assert book.same(book.subst(given, {("logic", "$n"): ("logic", "$i")}), given)


def test_names_of_bound_variables():
    book = Draft().book
    one, two = formula("(exists $i . $i = $n)"), formula("(exists $j . $j = $n)")
    assert book.same(one, two)
    assert not book.same(one, formula("(exists $n . $n = $n)"))
    assert not book.same(one, formula("(exists $j . $n = $j)"))
    assert not book.same(formula("(exists $i . $n = $n)"), formula("(exists $l . $n = $n)"))


def test_terms_are_replaced_where_no_binder_stands():
    one, two = ("logic", "$i"), ("logic", "$n")
    given = formula("([$a#$i[0f]%$l] and (exists $n . $i = $n))")
    assert formula_text(term_replaced(given, one, two)) == \
        "([$a#$n[0f]%$l] and (exists $n . $i = $n))"


def test_sorts_of_parts():
    whole = formula("($K @t $a#$i[$f]%$l)")
    assert part_sort(whole, "g", 1) == "tg" and part_sort(whole, "g", 2) == "t"
    context = formula("(exists $L . [$a#$i[(?f *. true)]%$l])")[2]
    assert part_sort(context, "fg", 1) == "ft"
