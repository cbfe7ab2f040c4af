#!/usr/bin/env python3
"""Explains every refusal of tests/ and asks of each explanation what its kind promises.

usage: domlogic/tests/explain_all.py [--only TEXT] [--every N] [--show]
  --only TEXT   only the rows whose file, title or line has the text
  --every N     of what can be checked independently each N-th row (20 where it isn't said)
  --show        the explanations are printed

The line and the status are those that a row wants, so no program is asked. Checked independently: that what can
stand in place of a token that can't be read moves the fault token on, in the whole file, and nothing else does;
that with the wanted part in place of the one that is written a step is an instance, or differs farther on; that
the part of a wrong sort is the one at fault; and that a step that is said to fit fits. Prints what fails and last
'N passed, M failed'.
"""
import argparse
import os
import re
import sys
from typing import Iterator, NamedTuple

sys.dont_write_bytecode = True  # the checkout stays as it is
TOP = os.path.dirname(os.path.dirname(os.path.dirname(os.path.abspath(__file__))))
sys.path[:0] = [TOP, os.path.join(TOP, "tests")]
import run
from domlogic.explaining import file_faults, steps, tokens
from domlogic.explaining.case import Case, at_path, unread, wanted_text
from domlogic.explaining.comparing import Miss
from domlogic.explaining.rows import ROWS, judges_triples
from domlogic.explaining.source import Source
from domlogic.reading.proofs import verdict_of
from domlogic.reading.reader import NoReading
from domlogic.reading.requests import theory_of
from domlogic.reading.limits import SHAPE_SORTS, VALUE_SORTS, Refused
from domlogic.reading.sorts import declared_by
from domlogic.reading.theories import TheoryReader
from domlogic.reading.tokens import RESERVED_IN_2, SYMBOLS, Token
from domlogic.words.explain import explanation

MOST_LINES, MOST_COLUMNS = 24, 112
PLACE = re.compile(r"line (\d+), column (\d+):")
# Tokens of each kind, to be put where one can't stand.
UNIVERSE = [*(Token("symbol", it, 0, 0) for it in sorted(SYMBOLS | {"0f", "0g"})),
            *(Token("word", it, 0, 0)
              for it in sorted({*RESERVED_IN_2, *VALUE_SORTS, *SHAPE_SORTS, "any"})),
            *(Token("number", it, 0, 0) for it in ("0", "1", "4294967295", "4294967296")),
            Token("logic", "$any", 0, 0), Token("literal", "any", 0, 0)]
PARTS = ("true", "0", '"a"', "null", "nolist", "yes", "skip", "0 = 0")


class Refusal(NamedTuple):
    """A row: where it stands, its file, and the wanted status and line."""

    place: str
    words: list[bytes]
    content: bytes
    status: int
    line: str


def refusals() -> Iterator[Refusal]:
    """The rows of tests/ that ask for a check and want a refusal."""
    for path, files, rows in run.all_rows(False):
        for row in rows:
            if row.words and row.words[0] == b"check" and row.status and not row.printed:
                given = run.given_files(row, files)
                name = os.path.normpath(row.words[-1].decode(errors="replace"))
                place = f"{os.path.relpath(path, TOP)}:{row.place}: {row.title}"
                line = b"".join(row.output).decode().strip()
                yield Refusal(place, row.words, given.get(name, b""), row.status, line)


# ------------------------------------------------------------------------------ what each kind promises

def promised(refusal: Refusal) -> list[str]:
    """Patterns, each of which some line of the explanation has to have."""
    status, line = refusal.status, refusal.line
    if status == 1 and not line.endswith("no proof"):
        return promised_of_step(line)
    of_status = {
        1: [r"^What differs: (requires|body|ensures|sort)|no steps|is an entailment",
            PLACE.pattern],
        2: ["check FILE"], 3: [PLACE.pattern, r"\^", "What can (stand here|follow):", "^    "],
        4: [PLACE.pattern, r"\^"],
        8: [r"\d"], 9: [PLACE.pattern, "prove FILE", "^open +'"], 11: ["could not be read: "],
        12: ["could not be written"]}
    of_limits = {"file": "4,194,304", "nesting": "100 ", "text": "4,096", "variables": "64",
                 "steps": "65,535"}
    of_faults = {"sort": r"\bsort\b|and the call has", "version": "1 or 2",
                 "twice": "a second time|is there already",
                 "unknown": "no line 'logic|is no parameter|no procedure",
                 "constant": "is a parameter",
                 "results": "result of this call", "scope": "is a (result|local)", "rule": "rule",
                 "number": "its number is"}
    found = of_status[status]
    found = found + [of_limits[line.split()[-1]]] if status == 8 else found
    return found + [of_faults[line.split()[-1]]] if status == 4 else found


def promised_of_step(line: str) -> list[str]:
    """The same for a step that is no instance."""
    rule, verdict = re.search(r"line \d+: (\w+): (.*)", line).groups()
    found = [PLACE.pattern, r"\^", rf"^rule +{rule}: "]
    if verdict == "shape":
        return found + [r"^wanted +'|is a rule for|takes|has to be|is for|at sort|judgements "
                        r"at|sort|stands here|behind|is wanted"]
    if verdict == "premises":
        return found + [r"^wanted +'|and the step cites|has to be an earlier step|is wanted\.|stands "
                        r"here|sort"]
    named = {"free": "stands", "assigned": "stands in", "modified": "The command changes '",
             "pure": "speaks of the data",
             "literal": "literal", "texts": "differ at piece", "sum": "the sum is '",
             "coefficient": "is the number of"}
    return found + [named[verdict.split()[-1]]]


def complaints(refusal: Refusal, told: list[str]) -> Iterator[str]:
    """What an explanation lacks."""
    if not told:
        yield "empty"
    if len(told) > MOST_LINES:
        yield f"{len(told)} lines"
    if any(len(it) > MOST_COLUMNS for it in told):
        yield f"a line of {max(map(len, told))} columns"
    whole = " ".join(told)
    for pattern in promised(refusal):
        if not any(re.search(pattern, it) for it in (*told, whole)):
            yield f"nothing of {pattern}"
    yield from misplaced(refusal, told)


def misplaced(refusal: Refusal, told: list[str]) -> Iterator[str]:
    """Places that aren't those of the part that is said to be written there."""
    places = [found for it in told if (found := PLACE.fullmatch(it))]
    written = [it[9:].strip("'") for it in told if it.startswith("written")]
    if len(places) != 1 or not written:
        return
    lines = refusal.content.decode(errors="replace").split("\n")
    rest = lines[int(places[0][1]) - 1][int(places[0][2]) - 1 :]
    if not rest.startswith(re.match(r"\S[\w$\"]*", written[0])[0][:1]):
        yield f"`{written[0]}` isn't what stands at {places[0][0]}"


# ------------------------------------------------------------------------------- checked independently

def fault_token(content: list[Token]) -> int | None:
    """The fault token of a whole file, by the reader alone."""
    reader = TheoryReader(content)
    try:
        reader.whole(reader.theory)
    except NoReading as why:
        return why.args[0]
    return None


def wrong_offers(refusal: Refusal) -> Iterator[str]:
    """Tokens that are offered and can't stand there, or can and aren't."""
    number = int(refusal.line.split()[-1])
    source = Source(refusal.content)
    source.take_tokens(number)
    before = source.tokens[: number - 1]
    offered, reserved = tokens.possible(before), TheoryReader(before).reserved
    for token in UNIVERSE:
        found = fault_token([*before, token])
        moves = found is None or found > number
        if moves != tokens.is_offered(token, offered, reserved):
            yield f"{token.text} {'can' if moves else 'can not'} stand there"


def case_of(content: bytes, line: str) -> Case:
    """The step of a line, in this file."""
    number, name, *_ = steps.STEP.fullmatch(line).groups()
    source = Source(content)
    procedure = next(it for it in source.take_theory().procedures if it.name == name)
    return Case(source, procedure, int(number) - 1)


def own_verdict(case: Case) -> str | None:
    """The verdict on the step by the second reader."""
    return verdict_of(case.step, case.judgement, case.cited, case.scope, case.theory)


def difference(case: Case) -> Miss | None:
    """The first part that differs, of a step by a rule that is a line of letters."""
    verdict = own_verdict(case)
    is_of_kind = judges_triples(case.step.rule) == (case.judgement[0] == "triple")
    if verdict == "shape" and case.step.rule in ROWS and is_of_kind and not steps.argument_trouble(
        case):
        tried = list(steps.conclusions(case))
        return None if any(it[2] for it in tried) else steps.farthest_rows(tried)[0][1]
    if verdict == "premises" and case.cited is not None:
        ways = list(steps.readings(case))
        return steps.farthest_way(case,
                                  ways)[1] if len(ways[0].premises) == len(case.cited) else None
    return None


def not_mended(refusal: Refusal) -> Iterator[str]:
    """A difference that stays where it is with the wanted part in place of the written one."""
    case = case_of(refusal.content, refusal.line)
    miss = difference(case)
    if miss is None or miss.why or not is_exact(case, miss):
        return
    wanted = wanted_text(case, miss)
    begin, end = case.source.span(case.original(miss.judgement, miss.path))
    text = case.source.text
    changed = text[: case.source.starts[begin]] + f" {wanted} " + text[
        case.source.tokens[end - 1].end :]
    try:
        again = case_of(changed.encode(), refusal.line)
    except KeyError:  # no declared name fits a bound variable of the part
        return
    verdict, other = own_verdict(again), difference(again)
    if other is not None and (other.rank, other.path) == (miss.rank, miss.path):
        yield f"with {wanted} in place the step differs at the same place: {verdict}"


def is_exact(case: Case, miss: Miss) -> bool:
    """Says whether what is wanted can be written: nothing is left open in it, and it is a part of the file."""
    node = at_path(case.stepped(miss.judgement).judgement, miss.path)
    is_cited_once = case.step.premises.count(case.stepped(miss.judgement).number) <= 1
    return id(node) in case.source.spans and not unread(miss.wanted, miss.state) and is_cited_once


def not_at_fault(refusal: Refusal) -> Iterator[str]:
    """A part of a wrong sort that isn't the one at fault: none in its place moves the fault on."""
    source = Source(refusal.content)
    span, sentence = file_faults.first_fault(source, refusal.line)
    if "gives a value of sort" in sentence:  # a variable of this sort may not be there
        return
    text = source.text
    first, last = source.starts[span[0]], source.tokens[span[1] - 1].end
    variables = {name for it in source.theory.procedures for name, _ in declared_by(it)}
    for part in (*PARTS, *sorted(variables)):
        changed = (text[:first] + f" {part} " + text[last:]).encode()
        try:
            theory_of(changed)
            return
        except Refused as why:
            if why.status != 4 or why.line != refusal.line:
                if why.status != 3:
                    return
                continue
        if file_faults.first_fault(Source(changed), refusal.line)[0][0] > span[0]:
            return
    yield "no other part in its place moves the fault on"


def not_fitting(refusal: Refusal, told: list[str]) -> Iterator[str]:
    """A rule or citations that are said to fit, by which the step is no instance."""
    whole = " ".join(told)
    step = case_of(refusal.content, refusal.line)
    text, (begin, end) = step.source.text, step.source.span(step.step)
    first, last = step.source.starts[begin], step.source.tokens[end - 1].end
    for rules, cited in re.findall(r"(?:By ([^.]*)|With '\w+\(([\d, ]*)\)') it is an instance\.", whole):
        for rule in re.findall(r"'(\w+)'", rules) or [""]:
            own = text[first:last]
            own = re.sub(r"by\s+\w+", f"by {rule}", own, count=1) if rule else own
            own = re.sub(r"\([\d,\s]*\)", f"({cited})", own, count=1) if cited else own
            changed = case_of((text[:first] + own + text[last:]).encode(), refusal.line)
            if own_verdict(changed) is not None:
                yield f"it isn't: {own}"


def independent(refusal: Refusal, told: list[str]) -> Iterator[str]:
    """What the independent checks find."""
    if refusal.status == 3:
        yield from wrong_offers(refusal)
    elif refusal.status == 4 and refusal.line.endswith("sort"):
        yield from not_at_fault(refusal)
    elif refusal.status == 1 and refusal.line.endswith((": shape", ": premises")):
        yield from not_mended(refusal)
        yield from not_fitting(refusal, told)


def main() -> int:
    parser = argparse.ArgumentParser(description=__doc__,
                                     formatter_class=argparse.RawDescriptionHelpFormatter)
    parser.add_argument("--only", default="")
    parser.add_argument("--every", type=int, default=20)
    parser.add_argument("--show", action="store_true")
    options = parser.parse_args()
    passed = failed = 0
    for at, refusal in enumerate(refusals()):
        if options.only not in f"{refusal.place} {refusal.line}":
            continue
        name = refusal.words[-1].decode(errors="replace")
        told = explanation(refusal.status, refusal.line, name, refusal.content)
        found = list(complaints(refusal, told))
        if at % options.every == 0:
            found += independent(refusal, told)
        passed, failed = passed + (not found), failed + bool(found)
        if options.show or found:
            print("\n".join([f"{refusal.place[:160]}\n{refusal.line}", *told,
                             *(f"  !! {it}" for it in found), ""]))
    print(f"{passed} passed, {failed} failed", flush=True)
    return 1 if failed else 0


if __name__ == "__main__":
    sys.setrecursionlimit(100000)
    sys.exit(main())
