"""The rules as the manual writes them: the line of each reading, its conditions in words."""
import itertools
import re
from collections import defaultdict
from typing import Iterator, NamedTuple

from domlogic.explaining.wording import listed
from domlogic.reading.limits import DATA_SORTS
from domlogic.reading.patterns import Reading, arguments_of, placed, readings_of, spread
from domlogic.reading.rules import AXIOMS, ENTAILMENTS, TRIPLES

# What one line of the manual can't say in letters.
COMPUTED = {
    "eq_subst": "(E = F and P) entails Q, where Q is P with the term E replaced by F at some of "
                "its places",
    "linear": "with A1, .., An: P entails Q, where P has n conjuncts Li <= Ri or Li = Ri of "
              "integers, and Q is a sum of them",
    "seq": "pre P0 do C1 post P1, .., a step for each command, give pre P0 do { C1 ; .. ; Cn } "
           "post Pn",
    "call": "pre R do call (r, ..) := f(E, ..) post S, where R and S are the requires and the "
            "ensures of f with the arguments and the results put in",
}
CONDITIONS = {"literal": "E and F are two literals that differ",
              "texts": "E and F are texts of the same pieces", "pure": "Q is pure"}
# The manual has another letter for it.
LETTERS = {"W": "Y"}


class Row(NamedTuple):
    """A reading of a rule, with its line: for this reading's sorts, and with letters for them."""

    text: str
    general: str
    sorts: dict[str, str]
    reading: Reading


def condition_in_words(words: list[str]) -> str:
    """A condition as the manual says it."""
    name, *letters = words
    if name == "free":
        return f"{letters[0]} {'is not free' if letters[0][0] == '$' else 'is not'} in {letters[1]}"
    if name == "modified":
        return f"{letters[0]} changes no program variable of {letters[1]}"
    if name == "assigned":
        return f"{letters[0]} is in none of {', '.join(LETTERS.get(it, it) for it in letters[1:])}"
    return CONDITIONS[name]


def line_text(arguments: str, form: str, conditions: list[list[str]]) -> str:
    """A line of the table as the manual writes it."""
    form = re.sub(r"\s+", " ", form).strip().replace("W#V", "Y#V").replace(" at place", "")
    form = form.replace(" ==> ", " gives ").replace(" at data", " at t, f or g")
    words = [condition_in_words(it) for it in conditions if it[0] != "string"]
    where = f", where {listed(words)}" if words else ""
    return (f"with {arguments.strip('()')}: " if arguments else "") + form + where


def sorts_of(text: str) -> Iterator[dict[str, str]]:
    """What h, j and k are in the texts of `spread`, in their order."""
    wanted = [it for it in "hjk" if re.search(rf"[@?]{it}\b|o-{it}\b|at {it}\b", text)]
    return (dict(zip(wanted, sorts)) for sorts in itertools.product(DATA_SORTS, repeat=len(wanted)))


def rows_of_line(arguments: str, form: str) -> list[Row]:
    """The rows of a line behind its name."""
    body, _, conditions = form.partition("|")
    named = [it.split() for it in conditions.split(";") if it.strip()]
    texts = [(one, place, sorts) for place in placed(body)
             for one, sorts in zip(spread(place), sorts_of(place))]
    readings = readings_of(arguments_of(arguments), form)
    return [Row(line_text(arguments, text, named), line_text(arguments, place, named), sorts, it)
            for (text, place, sorts), it in zip(texts, readings)]


def rows_of_table(table: str) -> dict[str, list[Row]]:
    """The rows of each rule of a table."""
    found: dict[str, list[Row]] = defaultdict(list)
    for line in table.replace("\n    ", " ").strip().splitlines():
        name, _, form = line.partition(" : ")
        name, _, arguments = name.partition(" with ")
        left, both, right = form.partition(" both ways ")
        if both:
            found[name] += rows_of_line(arguments, f"{left} entails {right}")
            found[f"{name}_back"] += rows_of_line(arguments, f"{right} entails {left}")
        else:
            found[name] += rows_of_line(arguments, form)
    return dict(found)


OF_ENTAILMENTS = rows_of_table(ENTAILMENTS)
OF_TRIPLES = {**rows_of_table(TRIPLES), **rows_of_table(AXIOMS)}
ROWS = {**OF_ENTAILMENTS, **OF_TRIPLES}


def row_text(rule: str) -> str:
    """The first line of a rule, with letters for the sorts."""
    return COMPUTED[rule] if rule in COMPUTED else GENERAL[rule]


def general_lines() -> dict[str, str]:
    """The first line of each rule as it stands in the tables."""
    found: dict[str, str] = {}
    for line in (ENTAILMENTS + TRIPLES + AXIOMS).replace("\n    ", " ").strip().splitlines():
        if not line.strip():
            continue
        name, _, form = line.partition(" : ")
        name, _, arguments = name.partition(" with ")
        body, _, conditions = form.partition("|")
        named = [it.split() for it in conditions.split(";") if it.strip()]
        left, both, right = body.partition(" both ways ")
        bodies = {name: body}
        if both:
            bodies = {name: f"{left} entails {right}", f"{name}_back": f"{right} entails {left}"}
        for each, text in bodies.items():
            found.setdefault(each, line_text(arguments, text, named))
    return found


GENERAL = general_lines()


def with_letters(texts: list[str], sorts: list[dict[str, str]]) -> str:
    """A text of several readings of one line, with the letter of a sort where they differ."""
    if len({len(it) for it in texts}) > 1:
        return texts[0]
    columns = (letter_of([it[at] for it in texts], sorts) for at in range(len(texts[0])))
    return "".join(columns)


def letter_of(characters: list[str], sorts: list[dict[str, str]]) -> str:
    """A character that all readings have, or the letter that stands for it."""
    if len(set(characters)) == 1:
        return characters[0]
    return next((letter for letter in sorts[0]
                 if all(its[letter] == it for its, it in zip(sorts, characters))), characters[0])


def judges_triples(rule: str) -> bool:
    """Says whether a rule is for triples."""
    return rule in OF_TRIPLES or rule in ("seq", "call")
