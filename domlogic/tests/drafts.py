"""A draft of a proof, in which tests write: formulas of texts, and steps that are checked."""
from domlogic.reading.limits import Refused
from domlogic.reading.nameless import is_pure
from domlogic.reading.proofs import check_proof
from domlogic.reading.theories import Step, Theory
from domlogic.search.book import Book, read_theory
from domlogic.search.entailments import Matching
from domlogic.search.facts import Facts
from domlogic.search.formulas import Formula, conjuncts
from domlogic.search.refusals import Fails, Refusal

FILE = """domlogic 1
logic node $i, $j, $n;
logic list $l, $m, $k, $d, $e;
logic str $a, $b, $c, $s;
logic int $u, $v, $w;
logic t $t;
logic f $f, $g, $h;
logic g $r, $q;
logic tg $K;
logic fg $L;
proc draft(p: node, q: node, x: int, y: int, z: str) returns () sort g
requires 0g
ensures 0g
body skip
proof
step 1 auto: JUDGEMENT;
end
"""


def theory_with(judgement: str) -> Theory:
    """The theory of one procedure with a gap of this judgement."""
    return read_theory(FILE.replace("JUDGEMENT", judgement).encode())


def formula(text: str, sort: str = "g") -> Formula:
    """The formula of a text."""
    return theory_with(f"{text} entails {text} at {sort}").procedures[0].steps[0].judgement[1]


class Draft:
    """A book with what is written in it."""

    def __init__(self):
        self.theory = theory_with("0g entails 0g at g")
        self.book = Book(self.theory, self.theory.procedures[0], 1, [])
        self.matching = Matching(self.book)
        self.shapes = self.matching.shapes

    def facts(self, text: str, sort: str = "g") -> Facts:
        """What is known of a symbolic heap."""
        parts = conjuncts(formula(text, sort))
        shape, = [it for it in parts if not is_pure(it)]
        return Facts(self.matching, shape, [it for it in parts if is_pure(it)], sort)

    def check(self, number: int | None, left: Formula, right: Formula, sort: str = "g") -> None:
        """Asks that a step says this, and that the kernel accepts it with all that it needs."""
        assert number is not None, "no step"
        _, start, end, at = self.book.judged(number)
        assert self.book.same(start, left), (start, left)
        assert self.book.same(end, right), (end, right)
        assert at == sort
        self.accepted(number)

    def accepted(self, number: int) -> None:
        """Asks that the kernel accepts the step with all that it needs."""
        steps = [Step(at, 0, *rest) for at, *rest in self.book.used(number)]
        own = ("triple", ("0g",), ("skip",), ("0g",), "g")
        steps.append(Step(len(steps) + 1, 0, "skip", (), (), own))
        procedure = self.theory.procedures[0]._replace(steps=steps)
        logic = [*self.theory.logic, *self.book.new.items()]
        try:
            check_proof(self.theory._replace(logic=logic, procedures=[procedure]), procedure)
        except Refused as refused:
            raise AssertionError(refused.line) from None


def proved(text: str) -> int:
    """Asks that a text `P entails Q at SORT` is proved; returns the number of its steps."""
    draft = Draft()
    _, left, right, sort = theory_with(text).procedures[0].steps[0].judgement
    number = draft.matching.prove(left, right, sort)
    draft.check(number, left, right, sort)
    return len(draft.book.used(number))


def refused(text: str) -> Refusal:
    """Asks that it isn't proved; returns why."""
    draft = Draft()
    _, left, right, sort = theory_with(text).procedures[0].steps[0].judgement
    try:
        draft.matching.prove(left, right, sort)
    except Fails as fails:
        return fails.args[0]
    raise AssertionError("proved: " + text)
