"""The lines of the rules, read into patterns: formulas and commands in which letters stand."""
import itertools
import re
from collections import defaultdict, namedtuple

from domlogic.reading.limits import DATA_SORTS
from domlogic.reading.rules import AXIOMS, ENTAILMENTS, PLACES, TRIPLES
from domlogic.reading.theories import TheoryReader
from domlogic.reading.tokens import RESERVED_IN_2, tokens_of

# A reading of a rule. A judgement is (left, right, sort) or (pre, command, post, sort), where the
# sort may be None; conditions are lists of words; `anywhere` are letters that may have two sorts.
Reading = namedtuple("Reading", "arguments premises conclusion conditions anywhere")

FORMULAS, TERMS = set("PQRABKH"), set("EFGSTIJLMVWN")


class PatternReader(TheoryReader):
    """The grammar of files with letters, which are ("letter", NAME) wherever they stand."""

    def __init__(self, tokens):
        super().__init__(tokens)
        self.reserved = RESERVED_IN_2

    def letter(self):
        return ("letter", self.of_kind("word"))

    def variable(self):
        return self.letter() if self.token().text in TERMS | {"x", "d"} else super().variable()

    def logic_variable(self):
        return ("letter", self.of_kind("logic"))

    def formula(self):
        token = self.token()
        if self.sees("HAT"):
            return (self.take("HAT"),)
        if token.text not in FORMULAS or self.sees("#", "=", "<=", ahead=1):
            return super().formula()
        letter = self.letter()
        if not self.sees("with"):
            return letter
        return ("with", letter, *self.spelled("with", self.term, "for", self.term))

    def condition(self):
        return self.letter() if self.sees("B") else super().condition()

    def value_sort(self):
        return self.letter() if self.sees("s") else super().value_sort()

    def block(self):
        return self.letter() if self.sees("BL", "BL2") else super().block()

    def command(self):
        return self.letter() if self.sees("C", "BL", "BL2") else super().command()

    def judgement(self):
        if self.sees("pre"):
            return self.spelled("pre", self.formula, "do", self.command, "post", self.formula)
        return self.spelled(self.formula, "entails", self.formula)


def judgement_of(text):
    """Reads FORM or FORM at SORT."""
    form, _, sort = text.partition(" at ")
    reader = PatternReader(list(tokens_of(form.strip().replace("B^", "HAT").encode())))
    return (*reader.whole(reader.judgement), sort.strip() or None)


def arguments_of(text):
    """Reads the letters of `NAME with (E)`."""
    return [("letter", it.strip()) for it in text.strip("() ").split(",") if it.strip()]


def spread(text):
    """Gives the texts with a data sort for each of h, j and k that stands in it."""
    wanted = [it for it in "hjk" if re.search(rf"[@?]{it}\b|o-{it}\b|at {it}\b", text)]
    for sorts in itertools.product(DATA_SORTS, repeat=len(wanted)):
        found = text
        for letter, sort in zip(wanted, sorts):
            found = re.sub(rf"([@?]|o-|at ){letter}\b", rf"\g<1>{sort}", found)
        yield found


def placed(text):
    """Gives the texts with each of the places for Z, where Z stands in it."""
    if "Z[" not in text:
        return [text]
    places = re.split(r"\s{2,}", PLACES.strip())
    put = lambda place: lambda found: place.replace("P", found[1])
    return [re.sub(r"Z\[(\(P and Q\)|P)\]", put(place), text) for place in places]


def readings_of(arguments, form):
    """Gives the readings of a line behind its name."""
    form, _, conditions = form.partition("|")
    conditions = [it.split() for it in conditions.split(";") if it.strip()]
    anywhere = {it[1] for it in conditions if it[0] == "pure"}
    for text in (one for it in placed(form) for one in spread(it)):
        premises, arrow, conclusion = text.rpartition("==>")
        found = [judgement_of(it) for it in premises.split(",")] if arrow else []
        yield Reading(arguments, found, judgement_of(conclusion), conditions, anywhere)


def table_of(text):
    """Returns the readings of each rule of a table."""
    table = defaultdict(list)
    for line in text.replace("\n    ", " ").strip().splitlines():
        name, _, form = line.partition(" : ")
        name, _, arguments = name.partition(" with ")
        arguments, (left, both, right) = arguments_of(arguments), form.partition(" both ways ")
        if both:
            table[name] += readings_of(arguments, f"{left} entails {right}")
            table[f"{name}_back"] += readings_of(arguments, f"{right} entails {left}")
        else:
            table[name] += readings_of(arguments, form)
    return dict(table)


OF_ENTAILMENTS = table_of(ENTAILMENTS)
OF_TRIPLES = {**table_of(TRIPLES), **table_of(AXIOMS)}
