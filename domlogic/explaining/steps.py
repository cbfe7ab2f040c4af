"""A step that isn't of its rule's form, or cites what isn't its rule's premises."""
import re
from typing import Iterator

from domlogic.explaining import computed, mending, rows, sides
from domlogic.explaining.case import Case, wanted_lines, wanted_text
from domlogic.explaining.comparing import (BOUND_FREE, BOUND_SORT, KIND, SORT, TERM_SORT,
                                           Comparison, Miss, State, Way)
from domlogic.explaining.rows import Row
from domlogic.explaining.source import Source
from domlogic.explaining.wording import (code, counted, labelled, listed, shortened,
                                         sort_in_words, wrapped)
from domlogic.reading.matching import put_in, settled, sorts_of_letters
from domlogic.reading.sorts import term_sort

STEP = re.compile(r"step (\d+) of (\S+), line \d+: (\w+): (\w+) ?(\w*)")
NO_FORM = "The step isn't of the rule's form, whatever it cites."


def explained(source: Source, line: str) -> list[str]:
    """What to say of `step K of PROC, line L: RULE: VERDICT`."""
    number, name, _, verdict, side = STEP.fullmatch(line).groups()
    theory = source.take_theory()
    procedure = next(it for it in theory.procedures if it.name == name)
    case = Case(source, procedure, int(number) - 1)
    if verdict == "shape":
        return list(shape(case))
    if verdict == "premises":
        return list(premises(case))
    return list(sides.explained(case, side, ways_through(case)))


def rule_lines(case: Case, text: str = "") -> list[str]:
    """The line of the rule, this one or the manual's first."""
    return labelled("rule", f"{case.step.rule}: {text or rows.row_text(case.step.rule)}")


def letter_lines(case: Case, state: State) -> list[str]:
    """The letters with what is read for them."""
    told = case.letters(state)
    return labelled("read", told) if told else []


# ---------------------------------------------------------------------------- the conclusion

def shape(case: Case) -> Iterator[str]:
    """Why no choice of the letters makes the judgement and the arguments what is written."""
    rule, is_triple = case.step.rule, case.judgement[0] == "triple"
    yield NO_FORM
    if rows.judges_triples(rule) != is_triple:
        kinds = ("a triple, 'pre P do C post Q'", "an entailment, 'P entails Q'")
        wanted, written = kinds if not is_triple else kinds[::-1]
        yield from rule_lines(case)
        yield from case.marked_rule()
        yield from wrapped(f"{code(rule)} is a rule for {wanted}, and the step judges {written}.")
    elif rule in rows.COMPUTED:
        yield from rule_lines(case)
        yield from computed.shape(case)
    else:
        yield from argument_trouble(case) or form_trouble(case)
    yield from mending.by_other_rules(case)


def argument_trouble(case: Case) -> list[str]:
    """What is said of arguments that the rule doesn't take."""
    wanted, given = rows.ROWS[case.step.rule][0].reading.arguments, case.step.arguments
    if len(wanted) != len(given):
        told = f"{code(case.step.rule)} takes {counted(len(wanted), 'argument')} after 'with', " \
               f"and the step has {len(given) or 'none'}."
        return [*rule_lines(case), *case.marked_rule(), *wrapped(told)]
    for (_, name), found in zip(wanted, given):
        if name[0] == "$" and found[0] != "logic":
            told = f"The argument for {name} has to be a logic variable."
            return [*rule_lines(case), *case.source.view_of(found), *wrapped(told)]
    return []


def first_state(case: Case, row: Row) -> State:
    """What the arguments say of the letters."""
    pairs = zip(row.reading.arguments, case.step.arguments)
    return State({name: it for (_, name), it in pairs}, {}, {})


def conclusions(case: Case) -> Iterator[tuple[Row, Comparison, list[State]]]:
    """The rows of the rule, each with the ways to read the conclusion."""
    table = rows.OF_TRIPLES if case.judgement[0] == "triple" else rows.OF_ENTAILMENTS
    for row in table[case.step.rule]:
        comparison, state = Comparison(case.written), first_state(case, row)
        found = comparison.judgement(row.reading.conclusion, case.judgement, state, 0)
        yield row, comparison, list(found)


def form_trouble(case: Case) -> list[str]:
    """The first part that differs, by the row that fits farthest; or the sort that does."""
    tried = list(conclusions(case))
    for row, _, states in tried:
        if states:
            return [*rule_lines(case, row.text), *letter_lines(case, states[0]),
                    *sort_trouble(case, row, states[0])]
    farthest = farthest_rows(tried)
    row, miss = farthest[0]
    told = [*rule_lines(case, row.general if len(farthest) > 1 else row.text),
            *letter_lines(case, miss.state)]
    if len({it.general for it, _, _ in tried}) > 1:
        told[:0] = ["Of the lines of the rule none fits farther than this one."]
    return told + miss_lines(case, miss, farthest)


def farthest_rows(tried: list[tuple[Row, Comparison, list[State]]]) -> list[tuple[Row, Miss]]:
    """The rows of one line that come farthest, each with the part at which it ends."""
    ends = [(row, comparison.farthest()) for row, comparison, _ in tried]
    count = max(miss.state.count for _, miss in ends)
    first = next(it for it in ends if it[1].state.count == count)
    return [it for it in ends if it[0].general == first[0].general and it[1].state.count == count
            and it[1].path == first[1].path]


def sort_trouble(case: Case, row: Row, state: State) -> list[str]:
    """Why a judgement of the rule's form isn't one at this sort."""
    sort, wanted = case.judgement[-1], row.reading.conclusion[-1]
    for name in texts_of(row):
        its = term_sort(state.guess[name], case.scope)
        if its != "str":
            return [*case.marked(*state.places[name]),
                    *wrapped(f"{name} has to be a text, and it has sort {sort_in_words(its)}.")]
    if wanted is not None:
        names = "t, f or g" if wanted == "data" else sort_in_words(wanted)
        told = f"The rule is for judgements at {names}; this one is at {sort_in_words(sort)}."
        return [*case.marked_sort(0), *wrapped(told)]
    conclusion = (*row.reading.conclusion[:-1], sort)
    found = sorts_of_letters([conclusion], state.guess, case.written)
    two = next(it for it in found.items() if len(it[1]) > 1 and it[0] not in row.reading.anywhere)
    sorts = listed([sort_in_words(it) for it in sorted(two[1])])
    return [*case.marked_sort(0),
            *wrapped(f"{two[0]} stands at sorts {sorts} here; it has to be at one.")]


def texts_of(row: Row) -> list[str]:
    """The letters that have to be texts."""
    return [name for kind, *names in row.reading.conditions if kind == "string" for name in names]


def miss_lines(case: Case, miss: Miss, tied: list[tuple[Row, Miss]] = ()) -> list[str]:
    """The first part that differs, marked, with what is wanted there by each of the rows."""
    if not miss.why:
        texts = [wanted_text(case, it) for _, it in tied] or [wanted_text(case, miss)]
        wanted = rows.with_letters(texts, [row.sorts for row, _ in tied])
        return [*case.marked(miss.judgement, miss.path), *wanted_lines(case, miss, wanted)]
    return [*case.marked(miss.judgement, miss.path), *wrapped(reason(case, miss))]


def reason(case: Case, miss: Miss) -> str:
    """Why a way ends where no part alone differs."""
    if miss.why == BOUND_SORT:
        return "The variable that this quantifier binds has another sort than the rule wants."
    if miss.why == BOUND_FREE:
        return "What is read for the bound variable stands free behind this quantifier."
    pattern = miss.wanted
    term, variable = (put_in(it, miss.state.guess) for it in pattern[2:])
    shown, name = (case.pattern_text(it, miss.state, True) for it in (term, variable))
    if miss.why == TERM_SORT:
        sorts = [sort_in_words(term_sort(it, case.scope)) for it in (term, variable)]
        return f"{code(shown)} has sort {sorts[0]} and {code(name)} sort {sorts[1]}: " \
           "it can't be put for it."
    return f"{code(name)} stands here, where the rule has {code(shown)} put for it at each place."


# ------------------------------------------------------------------------------ the premises

def readings(case: Case) -> Iterator[Way]:
    """The readings of a step's conclusion with the premises that each asks for."""
    if case.step.rule in rows.COMPUTED:
        yield from computed.ways(case)
        return
    for row, comparison, states in conclusions(case):
        for state in states:
            wanted = settled(row.reading, case.judgement[-1], state.guess, case.written)
            sorts = {term_sort(state.guess[it], case.scope) for it in texts_of(row)}
            if wanted is not None and sorts <= {"str"}:
                yield Way(row, comparison, state, wanted)


def ways_through(case: Case) -> Iterator[tuple[Row | None, State]]:
    """The readings of a step by which the premises are what is cited too."""
    for row, comparison, state, wanted in readings(case):
        if case.cited is not None and len(wanted) == len(case.cited):
            yield from ((row, one) for one in comparison.premises(wanted, case.cited, state))


def premises(case: Case) -> Iterator[str]:
    """Why no choice of the letters makes the premises what is cited."""
    ways = list(readings(case))
    yield "The judgement is of the rule's form; what is cited isn't what the rule wants."
    count, cited = len(ways[0].premises), len(case.step.premises)
    if count != cited:
        each = ", one for each command of the block" if case.step.rule == "seq" else ""
        yield from rule_lines(case, ways[0].row.general if ways[0].row else "")
        yield from case.marked_rule()
        told = f"The rule has {counted(count, 'premise')}{each}, and the step cites " \
               f"{counted(cited, 'step')}."
        yield from wrapped(told)
    elif case.cited is None:
        yield from rule_lines(case, ways[0].row.general if ways[0].row else "")
        yield from citation_trouble(case)
    else:
        yield from premise_trouble(case, ways)


def citation_trouble(case: Case) -> Iterator[str]:
    """A number that is cited, and isn't that of an earlier step."""
    count = case.cited_steps.index(None) + 1
    yield from case.marked_citation(count)
    earlier = {0: "there is none before the first", 1: "before it there is step 1 alone"}.get(
        case.at, f"before it there are steps 1 to {case.at}")
    yield from wrapped(f"Step {case.step.number} cites step {case.step.premises[count - 1]}, and "
                       f"what is cited has to be an earlier step of this proof: {earlier}.")
    yield from mending.by_other_citations(case, count)


def farthest_way(case: Case, ways: list[Way]) -> tuple[Way, Miss]:
    """The way that comes farthest through the premises, and where it ends."""
    found: list[tuple[Way, Miss]] = []
    for way in ways:
        way.comparison.misses = []
        list(way.comparison.premises(way.premises, case.cited, way.state))
        found += [(way, it) for it in way.comparison.misses]
    return max(found, key=lambda it: (it[1].rank, it[1].state.count))


def premise_trouble(case: Case, ways: list[Way]) -> Iterator[str]:
    """The first premise that isn't what is cited for it, and the part in which it differs."""
    way, miss = farthest_way(case, ways)
    yield from rule_lines(case, way.row.text if way.row else "")
    yield from letter_lines(case, miss.state)
    if not miss.judgement:
        yield from miss_lines(case, miss)
        return
    wanted = shortened(judgement_text(case, way.premises[miss.judgement - 1], miss.state), 180)
    yield from labelled("premise", f"{miss.judgement} has to be {code(wanted)}")
    number = case.step.premises[miss.judgement - 1]
    yield from labelled("cited", f"for it is step {number}; the first part that differs:")
    yield from differing(case, way, miss)
    yield from mending.by_other_citations(case, miss.judgement)


def differing(case: Case, way: Way, miss: Miss) -> Iterator[str]:
    """Where a cited step differs from the premise."""
    step, wanted = case.stepped(miss.judgement), way.premises[miss.judgement - 1]
    if miss.why == KIND:
        kinds = ("an entailment", "a triple") if len(wanted) == 4 else ("a triple", "an entailment")
        yield from case.source.view(case.source.span(step.judgement)[0])
        yield f"It is {kinds[0]}, and {kinds[1]} is wanted."
    elif miss.why == SORT:
        yield from case.marked_sort(miss.judgement)
        yield from wrapped(f"It is at sort {sort_in_words(step.judgement[-1])}, and "
                           f"{sort_in_words(wanted[-1])} is wanted.")
    else:
        yield from miss_lines(case, miss)


def judgement_text(case: Case, pattern: tuple, state: State) -> str:
    """A premise with what is read for its letters."""
    texts = [case.pattern_text(it, state) for it in pattern[:-1]]
    form = "pre {} do {} post {}" if len(texts) == 3 else "{} entails {}"
    return f"{form.format(*texts)} at {pattern[-1]}"
