"""`prove FILE`: the file with its gaps filled, as the proved program accepts it."""
import re

from domlogic.reading.sorts import walk
from domlogic.reading.theories import Theory
from domlogic.search.filling import Filled, NotFilled, filled
from domlogic.search.printing import theory_text
from domlogic.search.stepping import COMMANDS
from domlogic.words.bar import Bar
from domlogic.words.program import ACCEPTED, GAP, LIMIT, REFUSED, Answer, checked, read

WRONG = "the search proposed a wrong proof: this is a defect of the search, and nothing is accepted"
TOO_LARGE = "the proof that the search found passes a limit"


def prove(program: str, file: str) -> Answer:
    """Fills the gaps of the file; what is printed is accepted, or says why there is nothing."""
    first, theory = read(program, file)
    if theory is None or not is_fillable(first):
        return first
    if first.status == ACCEPTED:
        return judged(program, Filled(theory, {}))
    try:
        return judged(program, searched(theory))
    except NotFilled as why:
        return Answer(first.status, first.text + "".join(f"{line}\n" for line in why.args))


def is_fillable(first: Answer) -> bool:
    """Whether the answer of `check` is that of a file in which nothing is wrong that is written."""
    if first.status == REFUSED:
        return re.fullmatch(r"[^ ]+: no proof\n", first.text) is not None
    return first.status in (ACCEPTED, GAP)


def searched(theory: Theory) -> Filled:
    """The filled theory, with a bar beside where it takes long."""
    bodies = [procedure.body for procedure in theory.procedures]
    bar = Bar(len({it for body in bodies for it in walk(body) if is_simple(it)}))
    try:
        return filled(theory, bar.tell)
    finally:
        bar.end()


def is_simple(node: tuple) -> bool:
    """Whether the part of a body is a command that has no blocks."""
    return node[:1] != () and node[0] in COMMANDS


def judged(program: str, done: Filled) -> Answer:
    """The filled text where the program accepts it; or what it refuses."""
    text = theory_text(done.theory)
    answer = checked(program, text)
    if answer.status == ACCEPTED:
        return Answer(ACCEPTED, text)
    found = re.fullmatch(r"step (\d+) of ([^ ]+), line \d+: (.*)\n", answer.text)
    step = found and done.written.get((found[2], int(found[1])))
    if step:  # the author's own step is wrong: the gap before it kept `check` from saying so
        place = f"step {step.number} of {found[2]}, line {step.line}"
        return Answer(answer.status, f"{place}: {found[3]}\n")
    return Answer(answer.status, f"{answer.text}{TOO_LARGE if answer.status == LIMIT else WRONG}\n")
