"""Random bodies: the formula before a body, judged on a grove, against runs of the body.

usage: python3 domlogic/tests/random_preconditions.py [--count N] [--seed S] [--only K]
           [--program PROGRAM]
  Makes N bodies from the seed, each with what it ensures, a grove and a store. The grove and the
  store have to meet the formula before the body exactly where no run of it faults and each ends as
  it ensures, whichever unused numbers its new nodes get: a few are tried. Prints each one on which
  the two disagree, and how many were compared; the status is 1 if they disagree on one. --only K
  takes the K-th alone. Where a program is named, it has to print the same formula, and the same
  answer for a body of thirty of them, which may be too long.
"""
import argparse
import os
import re
import subprocess
import sys
import tempfile
from itertools import product
from random import Random
from typing import Any, Iterator, NamedTuple

sys.dont_write_bytecode = True  # the checkout stays as it is
sys.path.insert(0, os.path.dirname(os.path.dirname(os.path.dirname(os.path.abspath(__file__)))))
from domlogic.reading.documents import Tree as Node
from domlogic.reading.machine import Faulted, Grove, Machine
from domlogic.reading.preconditions import Precondition
from domlogic.reading.requests import answer
from domlogic.reading.sorts import OPERANDS, is_sorted, scope_of, walk
from domlogic.reading.texts import MOVES
from domlogic.reading.theories import Procedure, Theory, TheoryReader
from domlogic.reading.tokens import tokens_of
from domlogic.reading.writing import command_text, formula_text, theory_text
from domlogic.tests.meanings import Meaning
from domlogic.tests.models import Tree, Values

PARAMS = {"p": "node", "q": "node", "l": "list", "i": "int", "s": "str"}
RESULTS = {"x": "node", "y": "node", "k": "list", "j": "int", "t": "str", "z": "bool"}
LOGIC = {"$g": "g", "$n": "node", "$a": "str", "$b": "list", "$c": "str", "$d": "list"}
TERMS = {"node": ["null"], "list": ["nolist"], "str": ['"a"', '{s ++ "b"}', '{t ++ "a"}'],
         "int": ["0", "1", "2", "- 1", "{i + 1}", "{j - 1}", "{i + j}"], "bool": ["yes", "no"]}
LETTERS = {"N": "node", "L": "list", "I": "int", "S": "str", "B": "bool"}
# What is ensured. The letters stand for terms; the values of $g and $n are given.
FACTS = [
    "N = N", "L = L", "I <= I", "S = S", "B = B", *["$g", "x = $n", "y = $n"] * 3,
    "(exists $g . ($g and ($g is $g)))",
    "(true @t S#N[true]%L)", "(exists $a . (exists $b . (true @t $a#N[len I]%$b)))",
    "(exists $a . (exists $b . ([$a#N[true]%$b] + true)))",
    "(exists $a . (exists $b . (exists $n . ([$a#$n[0f]%$b] + $g))))",
    "(exists $c . (exists $d . (exists $a . (exists $b . (true @t "
    "$a#N[((true * <$c#N[true]%$d>) * true)]%$b)))))",
    "(exists $c . (exists $d . (exists $a . (exists $b . (true @t "
    "$a#$n[((len I * <$c#N[true]%$d>) * true)]%$b)))))",
    "(forall $n . ($n = N -> (exists $a . (true @t $a#$n[true]%L))))",
]


class BadPick(Exception):
    """A number that isn't unused is picked."""


class Picked(Grove):
    """A grove whose new nodes get the picked numbers."""

    def __init__(self, trees: tuple, picks: tuple):
        super().__init__(trees)
        self.picks = iter(picks)

    def create(self, name: str) -> int:
        """Adds a root and returns its number."""
        node, childlist = next(self.picks)
        if node in self.name or childlist in self.owner:
            raise BadPick
        self.add(name, node, childlist)
        return node


def trees_of(grove: Grove, nodes: list[int]) -> tuple[Tree, ...]:
    """The trees of these nodes, as meanings.py has them."""
    return tuple(Tree(("str", grove.name[it]), ("#", it),
                      trees_of(grove, grove.children[it].numbers()), ("%", grove.childlist[it]))
                 for it in nodes)


def data_of(grove: Grove) -> frozenset:
    """The grove as meanings.py has it."""
    return frozenset(trees_of(grove, grove.roots()))


class Case(NamedTuple):
    """A body with what it ensures, from where it starts, and the numbers that are tried."""

    theory: Theory
    roots: tuple
    store: dict[str, Any]
    given: Values
    numbers: list[int]

    def text(self) -> str:
        """The case for a reader."""
        procedure = self.theory.procedures[0]
        return (f"  body {command_text(procedure.body)}\n  ensures {formula_text(procedure.post)}\n"
                f"  in {Grove(self.roots).text()}\n  with {self.store}\n  {self.given}")


def tagged(value: Any, sort: str) -> tuple:
    """The value as meanings.py has it."""
    if value is None:
        return ("null",) if sort == "node" else ("nolist",)
    if sort == "bool":
        return ("yes",) if value else ("no",)
    return ({"node": "#", "list": "%"}.get(sort, sort), value)


def with_store(given: Values, store: dict[str, Any]) -> Values:
    """The values of the logic variables with those of a store."""
    sorts = {**PARAMS, **RESULTS}
    return given | {("prog", name): tagged(value, sorts[name]) for name, value in store.items()}


def created(body: tuple) -> int:
    """How many nodes a body makes."""
    return sum(part[:1] == ("createNode",) for part in walk(body))


def runs(case: Case) -> Iterator[tuple[dict[str, Any], frozenset] | None]:
    """Gives the store and the grove at the end of each run, or None for one that faults."""
    procedure = case.theory.procedures[0]
    pairs = list(product(case.numbers, case.numbers))
    for picks in product(pairs, repeat=created(procedure.body)):
        grove = Picked(case.roots, picks)
        machine = Machine(case.theory, procedure, (), grove)
        machine.store = dict(case.store)
        try:
            while machine.pending:
                machine.step()
            yield machine.store, data_of(grove)
        except Faulted:
            yield None
        except BadPick:
            pass


class Maker:
    """A source of cases."""

    def __init__(self, seed: str):
        self.random = Random(seed)

    # ------------------------------------------------------------------------ where a body starts
    def grove(self) -> tuple:
        """A few nodes, each a root or the last child so far of an earlier one; every second stands
        beside the one before."""
        count = self.random.choice((0, 1, 2, 3, 4, 4, 5, 5))
        places: list[int] = []
        for at in range(count):
            beside = at > 1 and self.random.random() < 0.5
            places.append(places[-1] if beside else self.random.randint(-1, at - 1))
        lists = self.random.sample(range(1, count + 1), count)
        names = [self.random.choice("ab") for _ in range(count)]

        def below(place: int) -> tuple:
            return tuple(Node(names[at], at + 1, below(at), lists[at])
                         for at in range(count) if places[at] == place)
        return below(-1)

    def store(self, grove: Grove) -> dict[str, Any]:
        """A value for each variable: mostly, p is a node and q and y are children of it."""
        count = len(grove.name)

        def value(sort: str) -> Any:
            if sort in ("node", "list"):
                return self.random.choice([None, count + 1] + [*range(1, count + 1)] * 4)
            return self.random.choice({"str": ("", "a", "b"), "int": (-1, 0, 1, 2, 3),
                                       "bool": (True, False)}[sort])
        store = {name: value(sort) for name, sort in {**PARAMS, **RESULTS}.items()}
        children = [node for node, parent in grove.parent.items() if parent is not None]
        if children and self.random.random() < 0.8:
            child = self.random.choice(children)
            parent = grove.parent[child]
            others = [it for it in grove.children[parent].numbers() if it != child]
            store |= {"p": parent, "q": child, "y": self.random.choice(others or [None]),
                      "l": grove.childlist[parent]}
        return store

    # ---------------------------------------------------------------------------------- the body
    def term(self, sort: str) -> str:
        """A term; mostly a variable."""
        names = [name for name, its in {**PARAMS, **RESULTS}.items() if its == sort]
        return self.random.choice(names * 3 + TERMS[sort])

    def command(self, depth: int) -> str:
        """A command of one line, or a block."""
        if depth < 2 and self.random.random() < 0.1:
            return self.block(depth + 1)
        if self.random.random() < 0.05:
            return "skip"
        head = self.random.choice([*OPERANDS, *MOVES * 2, ":="])
        target = self.random.choice([*RESULTS])
        if head == ":=":
            return f"{target} := {self.term(RESULTS[target])}"
        sorts = OPERANDS[head]
        if head in MOVES and self.random.random() < 0.5:
            return f"{head}({', '.join('pqy'[:len(sorts)])})"
        if head not in MOVES:
            target = self.random.choice([name for name, its in RESULTS.items() if its == sorts[0]])
            head, sorts = f"{target} := {head}", sorts[1:]
        return f"{head}({', '.join(map(self.term, sorts))})"

    def block(self, depth: int = 0) -> str:
        """A block of a few commands."""
        count = self.random.choice((1, 1, 2, 3, 4))
        return "{ " + " ; ".join(self.command(depth) for _ in range(count)) + " }"

    # ------------------------------------------------------------------------- what it ensures
    def ensured(self, depth: int = 0) -> str:
        """A formula at g."""
        way = self.random.random()
        if depth < 2 and way < 0.15:
            return f"(not {self.ensured(depth + 1)})"
        if depth < 2 and way < 0.5:
            connective = self.random.choice(("and", "or", "->"))
            return f"({self.ensured(depth + 1)} {connective} {self.ensured(depth + 1)})"
        put = lambda found: self.term(LETTERS[found[0]])
        return re.sub(r"\b[NLISB]\b", put, self.random.choice(FACTS))

    def theory(self) -> Theory:
        """A procedure that makes two nodes at the most."""
        body = self.block()
        while body.count("createNode") > 2:
            body = self.block()
        logic = "".join(f"logic {sort} {name} ; " for name, sort in LOGIC.items())
        params, results = (", ".join(map(": ".join, its.items())) for its in (PARAMS, RESULTS))
        text = (f"domlogic 2 {logic} proc one({params}) returns ({results}) sort g requires true "
                f"ensures {self.ensured()} body {body} proof end")
        reader = TheoryReader(list(tokens_of(text.encode())))
        return reader.whole(reader.theory)

    def case(self) -> Case:
        """A case; mostly one whose body doesn't fault."""
        for _ in range(5):
            theory, roots = self.theory(), self.grove()
            grove = Grove(roots)
            last = len(grove.name) + created(theory.procedures[0].body) + 1
            case = Case(theory, roots, self.store(grove), {}, [*range(1, last + 1)])
            if None not in runs(case):
                break
        return case._replace(given=self.given(case))

    def given(self, case: Case) -> Values:
        """Values of the logic variables that may stand free: mostly, $g is the grove at an end, and
        $n a node number of its store."""
        ends = [end for end in runs(case) if end is not None]
        start = case.store, data_of(Grove(case.roots))
        is_end = ends and self.random.random() < 0.8
        store, grove = self.random.choice(ends) if is_end else start
        number = self.random.choice((None, store["x"], store["x"], store["y"], store["y"]))
        return {("logic", "$g"): grove, ("logic", "$n"): tagged(number, "node")}


def answers(case: Case, rows: dict | None = None) -> tuple[bool, bool]:
    """Whether the formula holds at the start, and whether every run ends as it has to."""
    procedure = case.theory.procedures[0]
    found = Precondition(case.theory, procedure, rows)
    logic = [*case.theory.logic, *found.variables]
    if not is_sorted(found.formula, "g", scope_of(case.theory._replace(logic=logic), procedure)):
        raise AssertionError("the formula isn't well sorted")
    sorts = {("logic", name): sort for name, sort in logic}
    numbers = (None, *case.numbers)
    domains = {sort: [tagged(it, sort) for it in numbers] for sort in ("node", "list")}

    def holds(formula: tuple, store: dict[str, Any], data: frozenset) -> bool:
        return Meaning(with_store(case.given, store), sorts, domains).holds(formula, "g", data)
    formula = holds(found.formula, case.store, data_of(Grove(case.roots)))
    return formula, all(end is not None and holds(procedure.post, *end) for end in runs(case))


def lengthened(theory: Theory, seed: str) -> Theory:
    """The theory with a body of thirty."""
    bodies = [Maker(f"{seed} {at}").theory().procedures[0].body for at in range(30)]
    procedure = theory.procedures[0]._replace(body=("block", *bodies))
    return theory._replace(procedures=[procedure])


def agrees(program: str, theory: Theory) -> bool:
    """Says whether the program's answer is that of the reading."""
    text = theory_text(theory).encode()
    with tempfile.NamedTemporaryFile(suffix=".dom") as file:
        file.write(text)
        file.flush()
        done = subprocess.run([program, "wp", file.name, "one"], capture_output=True)
    wanted = answer([b"wp", b"file", b"one"], lambda name: text)
    return (done.returncode, done.stdout, done.stderr) == (*wanted, b"")


def complaint(seed: str, program: str | None) -> str | None:
    """What is wrong with the case of a seed."""
    case = Maker(seed).case()
    by_formula, by_runs = answers(case)
    if by_formula != by_runs:
        return f"by the formula {by_formula}, by runs {by_runs}\n{case.text()}"
    theories = [case.theory, lengthened(case.theory, seed)] if program else []
    if program and not all(agrees(program, theory) for theory in theories):
        return f"the program answers otherwise\n{case.text()}"
    return None


def main() -> int:
    how: dict = {"description": __doc__, "formatter_class": argparse.RawDescriptionHelpFormatter}
    parser = argparse.ArgumentParser(**how)
    parser.add_argument("--count", type=int, default=1000)
    parser.add_argument("--seed", default="1")
    parser.add_argument("--only", type=int)
    parser.add_argument("--program")
    words = parser.parse_args()
    asked = range(words.count) if words.only is None else [words.only]
    disagree = 0
    for number in asked:
        wrong = complaint(f"{words.seed} {number}", words.program)
        if wrong is not None:
            disagree += 1
            print(f"{number}: {wrong}")
    print(f"{len(asked)} compared, {disagree} disagree")
    return 1 if disagree else 0


if __name__ == "__main__":
    sys.setrecursionlimit(100000)
    sys.exit(main())
