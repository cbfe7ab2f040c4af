"""Random exact entailments: the search against models, and what it proves against two kernels.

usage: python3 domlogic/tests/random_entailments.py [--count N] [--seed S] [--program PROGRAM]
           [--kernel EVERY] [--only K] [--loose]
  Makes N entailments from the seed, asks the search and the models which are true, and has each
  proof checked: by the proved program, where one is named, and each EVERY-th (10; 0 is none) by the
  kernel of the second reader. Prints each one on which they disagree; the status is 1 if there is
  one. --only K takes the K-th alone. With --loose `true` stands on the right side: that is no exact
  class, and models are made by chance.
"""
import argparse
import os
import subprocess
import sys
import tempfile
import time
from random import Random
from typing import NamedTuple

sys.dont_write_bytecode = True  # the checkout stays as it is
sys.path.insert(0, os.path.dirname(os.path.dirname(os.path.dirname(os.path.abspath(__file__)))))
from domlogic.reading.limits import Refused
from domlogic.reading.proofs import check_proof
from domlogic.reading.theories import Procedure, Step, Theory
from domlogic.search.book import Book
from domlogic.search.entailments import Matching
from domlogic.search.filling import ended_in
from domlogic.search.printing import judgement_text, theory_text
from domlogic.search.refusals import Fails
from domlogic.tests.canonical import Canonical, Cases, node_count
from domlogic.tests.generating import PROGRAM, SORTS, Entailment, Generator

NOTHING = ("0g",)
MODELS = 12  # models by chance for each case
BATCH = 12000  # steps that are checked in one file


class Made(NamedTuple):
    """An entailment with its number, and its proof with the variables that the proof brings."""

    number: int
    entailment: Entailment
    steps: list
    new: dict


def is_true(asked: Entailment, chance: Random | None = None) -> bool:
    """Says whether the canonical models of the left side meet the right side, or models made by
    chance."""
    cases = Cases(SORTS)
    found = cases.of(asked.left) * (MODELS if chance else 1)
    maker = Canonical(cases.sorts, node_count(asked.right) + 1, chance)
    for model, data in (it for case in found for it in maker.models(case, asked)):
        if not model.holds(asked.left, asked.sort, data):
            raise AssertionError("a canonical model isn't one of its left side")
        if not model.holds(asked.right, asked.sort, data):
            return False
    return True


def procedure(name: str, steps: list[Step]) -> Procedure:
    """A procedure that does nothing, with these steps in its proof."""
    params = tuple((it, sort) for sort, names in PROGRAM.items() for it in names)
    own = ("triple", NOTHING, ("skip",), NOTHING, "g")
    last = Step(len(steps) + 1, 0, "skip", (), (), own)
    return Procedure(name, params, (), "g", NOTHING, NOTHING, ("skip",), [*steps, last])


def theory(made: list[Made]) -> Theory:
    """A file of proofs, a procedure for each."""
    logic = [(name, sort) for (kind, name), sort in SORTS.items() if kind == "logic"]
    logic += sorted({pair for it in made for pair in it.new.items()})
    procedures = [procedure(f"p{it.number}", [Step(at, 0, *rest) for at, *rest in it.steps])
                  for it in made]
    return Theory(1, logic, procedures)


def program_refuses(program: str, made: list[Made]) -> str | None:
    """What the program says of the proofs, if it doesn't accept them."""
    with tempfile.NamedTemporaryFile("w", suffix=".dom", encoding="utf-8") as file:
        file.write(theory_text(theory(made)))
        file.flush()
        done = subprocess.run([program, "check", file.name], capture_output=True, text=True)
    return None if done.returncode == 0 else done.stdout + done.stderr


def kernel_refuses(made: Made) -> str | None:
    """What the second reader's kernel says of a proof, if it doesn't accept it."""
    whole = theory([made])
    try:
        check_proof(whole, whole.procedures[0])
    except Refused as refused:
        return refused.line
    return None


def searched(number: int, asked: Entailment) -> Made | str:
    """The proof that the search finds, or why it finds none."""
    whole = theory([])._replace(procedures=[procedure("p", [])])
    book = Book(whole, whole.procedures[0], 1, [])
    try:
        last = Matching(book).prove(*asked)
    except Fails as why:
        return str(why.args[0])
    return Made(number, asked, ended_in(("entails", *asked), book, last), book.new)


class Run:
    """What was asked and found so far."""

    def __init__(self, words: argparse.Namespace):
        self.words, self.bad, self.true, self.asked = words, 0, 0, 0
        self.batch: list[Made] = []
        self.spent = {"made": 0.0, "judged": 0.0, "searched": 0.0, "checked": 0.0}
        self.slowest = (0.0, 0)

    def timed(self, what: str, started: float) -> None:
        """Adds the time since then."""
        self.spent[what] += time.process_time() - started

    def told(self, number: int, asked: Entailment, what: str) -> None:
        """Prints a disagreement."""
        self.bad += 1
        print(f"{number}: {what}\n  {judgement_text(('entails', *asked))}", flush=True)

    def one(self, number: int) -> None:
        """One entailment."""
        started = time.process_time()
        asked = Generator(f"{self.words.seed} {number}", self.words.loose).entailment()
        self.timed("made", started)
        started = time.process_time()
        wanted = is_true(asked) and (not self.words.loose or is_true(asked, Random(number)))
        self.timed("judged", started)
        started = time.process_time()
        made = searched(number, asked)
        self.timed("searched", started)
        self.slowest = max(self.slowest, (time.process_time() - started, number))
        self.asked += 1
        self.true += wanted
        if wanted != isinstance(made, Made):
            what = f"true, but refused: {made}" if wanted else "false, but proved"
            self.told(number, asked, what)
        if isinstance(made, Made):
            started = time.process_time()
            self.checked(made)
            self.timed("checked", started)

    def checked(self, made: Made) -> None:
        """Has a proof checked, or puts it into the file that is checked next."""
        if self.words.kernel and self.true % self.words.kernel == 0:
            refused = kernel_refuses(made)
            if refused:
                self.told(made.number, made.entailment, "the kernel refuses: " + refused)
        if self.words.program:
            self.batch.append(made)
            if sum(len(it.steps) for it in self.batch) > BATCH:
                self.flush()

    def flush(self) -> None:
        """Has the program check the proofs that wait for it."""
        made, self.batch = self.batch, []
        started = time.process_time()
        self.judge(made)
        self.timed("checked", started)

    def judge(self, made: list[Made]) -> None:
        """Has the program check a file of proofs; one that it refuses is looked for by halves."""
        refused = program_refuses(self.words.program, made) if made else None
        if refused and len(made) == 1:
            self.told(made[0].number, made[0].entailment, "the program refuses: " + refused)
        elif refused:
            self.judge(made[:len(made) // 2])
            self.judge(made[len(made) // 2:])


def main() -> int:
    """Runs and returns the status."""
    words = argparse.ArgumentParser(description=__doc__.split("\n")[0])
    words.add_argument("--count", type=int, default=1000)
    words.add_argument("--seed", default="1")
    words.add_argument("--program")
    words.add_argument("--kernel", type=int, default=10)
    words.add_argument("--only", type=int)
    words.add_argument("--loose", action="store_true")
    run = Run(words.parse_args())
    numbers = range(run.words.count) if run.words.only is None else [run.words.only]
    for number in numbers:
        run.one(number)
    run.flush()
    times = ", ".join(f"{name} {spent:.1f} s" for name, spent in run.spent.items())
    print(f"{run.asked} entailments, {run.true} of them true, {run.bad} disagreements; {times}; "
          f"slowest {run.slowest[0]:.2f} s, number {run.slowest[1]}")
    return 1 if run.bad else 0


if __name__ == "__main__":
    sys.exit(main())
