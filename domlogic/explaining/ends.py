"""What ends a check otherwise: an accepted file, a proof that isn't one, a gap, and no answer."""
import os
import re
from typing import Iterator

from domlogic.explaining.case import is_term_at
from domlogic.explaining.comparing import narrowed
from domlogic.explaining.named import Node, named, unnamed_judgement
from domlogic.explaining.source import Source
from domlogic.explaining.wording import code, labelled, listed, shortened, sort_in_words, wrapped
from domlogic.reading.sorts import scope_of
from domlogic.reading.theories import Procedure
from domlogic.search.printing import formula_text, term_text

# The parts of a triple: where they stand in it, and what they are called in it and in a header.
PARTS = ((1, "pre", "requires"), (2, "command", "body"), (3, "post", "ensures"),
         (4, "sort", "sort"))
SORT = 4
MOST = 160


def accepted(line: str) -> list[str]:
    """What is known of an accepted file."""
    number = int(re.match(r"accepted: (\d+)", line)[1])
    whose = "Its procedure" if number == 1 else f"Each of its {number} procedures"
    return wrapped(f"{whose}, started on any well-formed grove and variables that meet its "
                   "requires, in any context, never faults, and meets its ensures wherever it "
                   "ends. That it ends isn't said.")


def unread(file: str) -> list[str]:
    """Why a file can't be read."""
    if not os.path.exists(file):
        why = "there is no such file"
    elif os.path.isdir(file):
        why = "it is a folder"
    elif not os.access(file, os.R_OK):
        why = "it may not be read"
    elif not os.path.isfile(file):
        why = "it is no plain file, and the program reads a file from any place in it"
    else:
        why = "reading it failed"
    return wrapped(f"The file {code(file)} could not be read: {why}.")


def out_of_memory() -> list[str]:
    return ["Memory ran out before there was an answer: nothing is known of the file."]


def unwritten() -> list[str]:
    return ["The answer could not be written: the disk is full, or who should read it is gone."]


def bad_words() -> list[str]:
    return wrapped("The words are none that the program has: 'check FILE' takes one file, whose "
                   "name is UTF-8.")


def gap(source: Source, line: str) -> list[str]:
    """What to do about a step that is open."""
    number, name = re.match(r"step (\d+) of (\S+), line", line).groups()
    procedure = next(it for it in source.take_theory().procedures if it.name == name)
    step = procedure.steps[int(number) - 1]
    kind = "triple" if step.judgement[0] == "triple" else "entailment"
    return [*source.view(source.span(step)[0] + 2),
            *labelled("open", code(shortened(source.written(step.judgement), 200))),
            *wrapped(f"All before this step holds, and its {kind} has no reason yet: 'auto' leaves "
                     "it open. './domcheck prove FILE' looks for the steps that show it and prints "
                     "the file with them; by hand, put 'by RULE(STEPS)' in place of 'auto'.")]


def no_proof(source: Source, line: str) -> list[str]:
    """In what the last step differs from the procedure's own triple."""
    name = line.removesuffix(": no proof")
    theory = source.take_theory()
    procedure = next(it for it in theory.procedures if it.name == name)
    return list(Ending(source, procedure, scope_of(theory, procedure).logic).told())


class Ending:
    """A proof, its last step, and the triple of the header in which it has to end."""

    def __init__(self, source: Source, procedure: Procedure, logic: dict[str, str]):
        self.source, self.procedure, self.logic = source, procedure, logic
        self.own = ("triple", procedure.pre, procedure.body, procedure.post, procedure.sort)
        self.wanted = unnamed_judgement(self.own, logic)
        self.last = procedure.steps[-1] if procedure.steps else None

    def told(self) -> Iterator[str]:
        """What is wrong with the end of the proof."""
        name, source = self.procedure.name, self.source
        if self.last is None:
            yield from source.view(source.span(self.procedure)[1] - 2)
            yield from wrapped(f"The proof of {name} has no steps. It has to end in the "
                               "procedure's own triple:")
            yield from labelled("wanted", self.own_text())
            return
        yield from wrapped(f"Each step holds, but the last, step {self.last.number}, isn't the "
                           f"triple of the header of {name}.")
        yield from self.earlier()
        if self.last.judgement[0] == "triple":
            yield from self.differences()
        else:
            yield from source.view(source.span(self.last.judgement)[0])
            yield "It is an entailment. The last step has to be the procedure's own triple:"
            yield from labelled("wanted", self.own_text())

    def own_text(self) -> str:
        parts = [shortened(self.source.written(it), 80) for it in self.own[1:SORT]]
        return code("pre {} do {} post {}".format(*parts) + f" at {self.procedure.sort}")

    def earlier(self) -> Iterator[str]:
        """An earlier step that is the procedure's own triple."""
        for step in reversed(self.procedure.steps[:-1]):
            if unnamed_judgement(step.judgement, self.logic) == self.wanted:
                yield f"Step {step.number} is that triple: it has to be the last step."
                return

    def differences(self) -> Iterator[str]:
        """The parts of the triple that differ, and where the first of them does."""
        found, judgement = unnamed_judgement(self.last.judgement, self.logic), self.last.judgement
        parts = [it for it in PARTS if self.wanted[it[0]] != found[it[0]]]
        yield f"What differs: {listed([header for _, _, header in parts])}."
        for at, part, header in parts:
            ours, theirs = (it[at] if at == SORT else self.source.written(it[at])
                            for it in (self.own, judgement))
            yield from labelled(header, code(shortened(ours, MOST)))
            yield from labelled(part, f"{code(shortened(theirs, MOST))} in step {self.last.number}")
        if parts[0][0] == SORT:
            yield from self.source.view(self.source.span(judgement)[1] - 1)
            ours, theirs = map(sort_in_words, (self.procedure.sort, judgement[SORT]))
            yield f"The step is at {theirs}, the procedure at {ours}."
        else:
            yield from self.first_place(parts[0][0], found)

    def first_place(self, at: int, found: Node) -> Iterator[str]:
        """The first place in which a part of the last step differs."""
        inner, part = narrowed(self.wanted[at], found[at])
        path, node, spans = (at, *inner), self.last.judgement, self.source.spans
        marked = [node := node[it] for it in path]
        least = next(it for it in reversed(marked) if id(it) in spans)
        yield from self.source.view_of(least)
        if inner:
            yield from labelled("wanted", code(shortened(self.text(part, path), MOST)))
            yield from labelled("written", code(shortened(self.source.written(least), MOST)))

    def text(self, part: Node, path: tuple[int, ...]) -> str:
        """A part of the procedure's own triple, which is wanted at a place of the last step."""
        if id(part) in self.source.spans:
            return self.source.written(part)
        shown = named(part, self.logic)
        return term_text(shown) if is_term_at(self.last.judgement, path) else formula_text(shown)
