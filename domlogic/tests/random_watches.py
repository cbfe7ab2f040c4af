"""Random runs: `watch` against what formulas mean, and `trace` against the grove at the end.

usage: python3 domlogic/tests/random_watches.py [--count N] [--seed S] [--only K]
           [--program PROGRAM]
  Makes N procedures from the seed, each with a document and arguments. Where `watch` judges
  requires and ensures, its answers have to be those of the formulas' meaning, in which a variable
  is tried with each of a few values, those of no node among them. And the changes that `trace`
  prints, made one after the other on the document, have to lead to the grove that `run` prints; the
  other lines are those of `run`. Prints each case that is otherwise, and how many were compared;
  the status is 1 if there is one. --only K takes the K-th alone. Where a program is named, it has
  to print the same.
"""
import argparse
import os
import subprocess
import sys
import tempfile
from typing import Any, Iterator, NamedTuple

sys.dont_write_bytecode = True  # the checkout stays as it is
sys.path.insert(0, os.path.dirname(os.path.dirname(os.path.dirname(os.path.abspath(__file__)))))
from domlogic.reading.machine import Faulted, Grove, Machine
from domlogic.reading.requests import answer
from domlogic.reading.requests import start_of as start_in
from domlogic.reading.texts import value_text
from domlogic.reading.theories import Theory, TheoryReader
from domlogic.reading.tokens import tokens_of
from domlogic.replaying import Differs, replayed, trace_of
from domlogic.tests.meanings import Meaning
from domlogic.tests.models import Formula, Values
from domlogic.tests import random_preconditions
from domlogic.tests.random_preconditions import RESULTS, TERMS, Maker, data_of, tagged

# The value of o comes to y, which has none at the start of a run.
PARAMS = {**random_preconditions.PARAMS, "o": "node"}
LOGIC = {"$n": "node", "$m": "node", "$a": "str", "$b": "str", "$c": "list", "$d": "list",
         "$n1": "node", "$n2": "node", "$n3": "node", "$l1": "list", "$l2": "list", "$l3": "list",
         "$g": "g", "$i": "int"}
SOUGHT = ("node", "str", "list")
# Formulas that can't be judged on a grove.
UNWATCHABLE = ["$g", "(true + 0g)", "(exists $i . true)", "(exists $n . $n = p)", "$a = s",
               "(forall $n . true)", "(true @g 0g)", "[$a#p[true]%l]",
               "(exists $a . ([$a#p[true]%l] and {$a ++ s} = s))"]
# Formulas whose terms may pass a limit.
PASSING = ["{i + 9223372036854775807} <= 0", "0 <= {-9223372036854775807 - i}"]
YES = {True: "yes", False: "no"}


class Plain(Meaning):
    """What formulas mean, where a variable of `exists` runs through its values."""

    def solutions(self, formula: Formula, sort: str, data: Any, values: Values) -> Iterator[Values]:
        """Gives the values with which the formula holds of the data."""
        if formula[0] != "exists":
            yield from super().solutions(formula, sort, data, values)
            return
        _, variable, inside = formula
        if any(self.decided(inside, sort, data, {**values, variable: it})
               for it in self.domains[self.sorts[variable]]):
            yield values


class Case(NamedTuple):
    """A procedure, a document, and the other words of a run."""

    text: str
    document: str
    words: list[str]

    def theory(self) -> Theory:
        """What the file spells."""
        reader = TheoryReader(list(tokens_of(self.text.encode())))
        return reader.whole(reader.theory)

    def shown(self) -> str:
        """The case for a reader."""
        return f"  {self.text}\n  {self.document}\n  {self.words}"


class WatchMaker(Maker):
    """A source of cases. A formula is made with the variables that are bound round it."""

    def case(self) -> Case:
        """A case: mostly one that doesn't fault."""
        for _ in range(5):
            roots, body = self.grove(), f"{{ y := o ; {self.block()} }}"
            grove, start = Grove(roots), self.store(Grove(roots))
            start["o"] = start["y"]
            args = [value_text(start[name], sort) if sort != "str" else start[name]
                    for name, sort in PARAMS.items()]
            fuel = self.random.choice(("3", "5", "50", "50", "50", "50"))
            case = Case(self.text("true", "true", body), grove.text(), [fuel, *args])
            machine = start_of(case)
            if self.ends(machine):
                break
        pre = self.watched(PARAMS, grove)
        post = self.watched({**PARAMS, **RESULTS}, machine.grove)
        return case._replace(text=self.text(pre, post, body))

    def ends(self, machine: Machine) -> bool:
        """Runs a machine, and says whether it ends."""
        try:
            while machine.pending:
                machine.step()
        except Faulted:
            return False
        return True

    def text(self, pre: str, post: str, body: str) -> str:
        """The file of a procedure."""
        params, results = (", ".join(map(": ".join, its.items())) for its in (PARAMS, RESULTS))
        logic = "".join(f"logic {sort} {name} ; " for name, sort in LOGIC.items())
        return (f"domlogic 2 {logic} proc one({params}) returns ({results}) sort g "
                f"requires {pre} ensures {post} body {body} proof end")

    def watched(self, names: dict[str, str], grove: Grove) -> str:
        """A formula at g over these program variables, about a grove; now and then one that isn't
        judged, or that passes a limit."""
        self.names, self.about = names, grove
        way = self.random.random()
        is_path = bool(grove.name) and self.chance(0.5)
        found = self.path() if is_path else self.formula("g", (), self.random.choice((0, 1, 2)))
        if way < 0.03:
            return f"({found} and {self.random.choice(UNWATCHABLE)})"
        return f"({self.random.choice(PASSING)} or {found})" if way < 0.06 else found

    def path(self) -> str:
        """A formula that says where a node of the grove is, which mostly holds."""
        grove, node, path = self.about, self.random.choice([*self.about.name]), []
        while node is not None:
            path.append(node)
            node = grove.parent[node]
        if len(path) > 3:
            return "([true] + true)"
        inside, new = self.random.choice(("true", self.formula("f", (), 4))), ["$a"]
        for level, it in enumerate(path, 1):
            above = grove.parent[it]
            row = grove.children[above].numbers() if above else grove.roots()
            name = self.random.choice(("$a", '"b"', *[f'"{grove.name[it]}"'] * 4))
            own = f"{name}#$n{level}[{inside}]%$l{level}"
            new += [f"$n{level}", f"$l{level}"]
            ways = [f"(len {row.index(it)} * (<{own}> * true))",
                    f"((true * <{own}>) * len {len(row) - row.index(it) - 1})"]
            inside = self.random.choice(ways)
        found = self.random.choice((f"([{own}] + true)", f"(true + [{own}])", f"[{own}]"))
        known = self.random.choice(("true", "$n1 = p", "$n1 = q", "(not $l1 = l)", "(not $n1 = p)"))
        found = f"({known} and {found})"
        used = [it for it in new if it in found and (it != "$a" or "$a#" in found)]
        for it in self.random.sample(used, k=len(used)):
            found = f"(exists {it} . {found})"
        return found

    def chance(self, of: float) -> bool:
        """Yes so often."""
        return self.random.random() < of

    def value(self, sort: str, bound: tuple) -> str:
        """A term; mostly a variable that is bound, if there is one."""
        near = [it for it in bound if LOGIC[it] == sort]
        if near and self.chance(0.8):
            return self.random.choice(near)
        names = [name for name, its in self.names.items() if its == sort]
        given = [it for it in TERMS[sort] if "{" not in it] + ['"b"'] * (sort == "str")
        return self.random.choice(names * 3 + given)

    def formula(self, sort: str, bound: tuple, depth: int) -> str:
        """A formula at a data sort."""
        if sort == "g" and self.about.name and self.chance(0.4):
            return self.path()
        if depth < 5 and self.chance(0.25):
            return self.quantified(sort, bound, depth)
        if depth < 5 and self.chance(0.35):
            connective = self.random.choice(("and", "and", "or", "->", "not"))
            left, right = (self.formula(sort, bound, depth + 1) for _ in range(2))
            return f"(not {left})" if connective == "not" else f"({left} {connective} {right})"
        if depth < 5 and self.chance(0.8):
            return self.shape(sort, bound, depth)
        return self.atom(sort, bound)

    def atom(self, sort: str, bound: tuple) -> str:
        """A formula without parts."""
        way = self.random.choice(("true", "true", "empty", "=", "<=", "len", "false"))
        if way == "=":
            of = self.random.choice([LOGIC[it] for it in bound] or ["node", "int", "str"])
            return f"{self.value(of, bound)} = {self.value(of, bound)}"
        if way == "<=":
            return f"{self.value('int', bound)} <= {self.value('int', bound)}"
        if way == "len" and sort == "f":
            return f"len {self.value('int', bound)}"
        return f"0{sort}" if way == "empty" and sort in "fg" else "true" if way != "false" else way

    def shape(self, sort: str, bound: tuple, depth: int) -> str:
        """A formula that says what is there."""
        part = lambda of: self.formula(of, bound, depth + 1)
        if sort == "t":
            return self.node(bound, part("f"))
        if sort == "f":
            return self.random.choice((f"<{part('t')}>", f"({part('f')} * {part('f')})"))
        root, others = f"[{part('t')}]", part("g")
        return self.random.choice((root, f"({root} + {others})", f"({others} + {root})"))

    def node(self, bound: tuple, inside: str) -> str:
        """A formula of nodes."""
        name, number, childlist = (self.value(of, bound) for of in ("str", "node", "list"))
        return f"{name}#{number}[{inside}]%{childlist}"

    def quantified(self, sort: str, bound: tuple, depth: int) -> str:
        """An `exists` for each of a few variables, all anchored at one place."""
        new = self.random.sample([it for it in LOGIC if LOGIC[it] in SOUGHT], k=3)
        new = [it for at, it in enumerate(new) if LOGIC[it] not in [LOGIC[one] for one in new[:at]]]
        found = self.anchored(sort, new, (*bound, *new), depth + 1)
        for it in new:
            found = f"(exists {it} . {found})"
        return found

    def anchored(self, sort: str, new: list[str], bound: tuple, depth: int) -> str:
        """A formula in which these variables are anchored."""
        part = lambda of: self.formula(of, bound, depth + 1)
        if depth < 5 and self.chance(0.3):
            both = [self.anchored(sort, new, bound, depth + 1), part(sort)]
            self.random.shuffle(both)
            return f"({both[0]} and {both[1]})"
        if sort == "t":
            return self.anchoring_node(new, bound, depth)
        ways = {"f": ("<{}>", "({} * {})"), "g": ("[{}]", "({} + {})")}[sort]
        found = ways[0].format(self.anchored("t", new, bound, depth + 1))
        if self.chance(0.5):
            both = [found, part(sort)]
            self.random.shuffle(both)
            found = ways[1].format(*both)
        return found

    def anchoring_node(self, new: list[str], bound: tuple, depth: int) -> str:
        """The same at a tree: the variables stand at it, or below it."""
        if depth < 5 and self.chance(0.3):
            return self.node(bound, self.anchored("f", new, bound, depth + 1))
        own = {LOGIC[it]: it for it in new}
        name, number, childlist = (own.get(of) or self.value(of, bound)
                                   for of in ("str", "node", "list"))
        return f"{name}#{number}[{self.formula('f', bound, depth + 1)}]%{childlist}"


def answered(case: Case, form: str) -> tuple[int, str]:
    """The reading's answer to a form of runs."""
    files = {"file": case.text.encode(), "document": case.document.encode()}
    words = [form, "file", "one", "document", *case.words]
    status, printed = answer([it.encode() for it in words], files.get)
    return status, printed.decode()


def answered_by(program: str, case: Case, form: str) -> tuple[int, str]:
    """The program's answer."""
    with tempfile.TemporaryDirectory() as folder:
        for name, text in (("file", case.text), ("document", case.document)):
            with open(os.path.join(folder, name), "w", encoding="utf-8") as file:
                file.write(text)
        words = [program, form, "file", "one", "document", *case.words]
        done = subprocess.run(words, cwd=folder, capture_output=True)
    return done.returncode, (done.stdout + done.stderr).decode()


def start_of(case: Case) -> Machine:
    """The machine at the start of the case."""
    files = {"file": case.text.encode(), "document": case.document.encode()}
    return Machine(*start_in(files.get, "file", "one", "document", case.words[1:]))


def means(case: Case, machine: Machine, formula: Formula) -> str:
    """Whether a formula holds of the machine's grove and store, by its meaning."""
    grove, sorts = machine.grove, {("logic", name): sort for name, sort in LOGIC.items()}
    numbers = [None, *range(1, len(grove.name) + 2)]
    domains = {"str": [("str", it) for it in {*grove.name.values(), "", "zz"}],
               "node": [tagged(it, "node") for it in numbers],
               "list": [tagged(it, "list") for it in numbers]}
    known = {**PARAMS, **RESULTS}
    store = {("prog", name): tagged(it, known[name]) for name, it in machine.store.items()}
    model = Plain(store, sorts, domains)
    return YES[model.holds(formula, "g", data_of(grove))]


def watch_complaint(case: Case, status: int, text: str) -> str | None:
    """What is wrong with an answer of `watch`."""
    lines, machine = text.split("\n"), start_of(case)
    procedure = case.theory().procedures[0]
    if status in (0, 6, 7) and lines[0] != f"requires {means(case, machine, procedure.pre)}":
        return f"by its meaning it isn't so: {lines[0]}"
    if status != 0:
        return None
    while machine.pending:
        machine.step()
    if lines[-2] != f"ensures {means(case, machine, procedure.post)}":
        return f"by its meaning it isn't so: {lines[-2]}"
    return None


def trace_complaint(case: Case, traced: tuple[int, str], ran: tuple[int, str]) -> str | None:
    """What is wrong with an answer of `trace`, beside that of `run`."""
    if traced[0] != ran[0]:
        return f"trace ends with {traced[0]}, and run with {ran[0]}"
    if traced[0] not in (0, 6, 7):
        return None if traced == ran else "trace and run refuse otherwise"
    trace = trace_of(traced[1])
    if "\n".join([*trace.run, ""]) != ran[1]:
        return "the lines of the run are others"
    kinds = [line.split()[1] for line in trace.changes]
    counts = (f"{kind} {kinds.count(kind)}" for kind in ("created", "moved", "removed"))
    if trace.tally != ", ".join(counts):
        return f"there are not so many changes: {trace.tally}"
    try:
        found = replayed(start_of(case).grove, traced[1])
    except Differs as why:
        return str(why)
    return f"the changes lead to {found}" if traced[0] == 0 and found != trace.run[-1] else None


def complaint(seed: str, program: str | None) -> str | None:
    """What is wrong with the case of a seed."""
    case = WatchMaker(seed).case()
    found = {form: answered(case, form) for form in ("run", "trace", "watch")}
    wrong = watch_complaint(case, *found["watch"])
    wrong = wrong or trace_complaint(case, found["trace"], found["run"])
    for form in ("trace", "watch") if program else ():
        if answered_by(program, case, form) != found[form]:
            wrong = wrong or f"the program answers {form} otherwise than {found[form]}"
    return wrong and f"{wrong}\n{case.shown()}"


def main() -> int:
    how: dict = {"description": __doc__, "formatter_class": argparse.RawDescriptionHelpFormatter}
    parser = argparse.ArgumentParser(**how)
    parser.add_argument("--count", type=int, default=1000)
    parser.add_argument("--seed", default="1")
    parser.add_argument("--only", type=int)
    parser.add_argument("--program")
    words = parser.parse_args()
    asked = range(words.count) if words.only is None else [words.only]
    program, disagree = words.program and os.path.abspath(words.program), 0
    for number in asked:
        wrong = complaint(f"{words.seed} {number}", program)
        if wrong is not None:
            disagree += 1
            print(f"{number}: {wrong}")
    print(f"{len(asked)} compared, {disagree} disagree")
    return 1 if disagree else 0


if __name__ == "__main__":
    sys.exit(main())
