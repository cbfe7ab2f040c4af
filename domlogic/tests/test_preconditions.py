"""Random bodies against runs of them: the table of `wp` stands, and each wrong one is found."""
from domlogic.reading.preconditions import ROWS, TABLE, row_of
from domlogic.reading.sorts import walk
from domlogic.tests.random_preconditions import Maker, answers

# A command, and what is put in place of what in its row of the table.
WRONG = [
    (":=", "Q'", "Q"),
    ("createNode", "0f", "<E#$v[0f]%$m>"),
    ("createNode", "E#$v", '"a"#$v'),
    ("nodeName", "(true @t $v#E[true]%$l)", "([$v#E[true]%$l] + true)"),
    ("childNodes", "$s#E[true]%$v", "$s#E[0f]%$v"),
    ("childNodes", "$s#E", '"a"#E'),
    ("parentNode", "((true * <", "((0f * <"),
    ("parentNode", ">) * true)", ">) * 0f)"),
    ("parentNode", "] + true)", "] + 0g)"),
    ("item", "len F *", "len {F + 1} *"),
    ("item", "F <= -1", "F <= 1"),
    ("item", "$n <= F", "$n = F"),
    ("appendChild", "@f <$u>", "@f false"),
    ("appendChild", "@g [$u]", "@g false"),
    ("appendChild", "($q * <$u>)", "(<$u> * $q)"),
    ("removeChild", "+ [$u]", "+ 0g"),
    ("removeChild", "* $p)]", "* 0f)]"),
    ("insertBefore", "G = null and", "true and"),
    ("insertBefore", "$u>) * <$w>", "$w>) * <$u>"),
    ("insertBefore", "@g [$u]", "@g false"),
    ("insertBefore", "* $p)", "* 0f)"),
]
CASES = 4000


class Single(Maker):
    """A source of cases with one command."""

    def block(self, depth: int = 0) -> str:
        """A block of one command."""
        return "{ " + self.command(depth) + " }"


def test_bodies() -> None:
    for number in range(200):
        case = Maker(f"bodies {number}").case()
        by_formula, by_runs = answers(case)
        assert by_formula == by_runs, case.text()


def test_wrong_rows_are_found() -> None:
    left = list(WRONG)
    assert all(old in TABLE[command] for command, old, _ in left)
    for number in range(CASES):
        if not left:
            return
        case = Single(f"wrong {number}").case()
        heads = {part[0] for part in walk(case.theory.procedures[0].body) if part}
        for command, old, new in [it for it in left if it[0] in heads]:
            wrong = row_of(TABLE[command].replace(old, new))
            by_formula, by_runs = answers(case, {**ROWS, command: wrong})
            if by_formula != by_runs:
                left.remove((command, old, new))
    assert not left, left
