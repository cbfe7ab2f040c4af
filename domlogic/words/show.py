"""`show FILE PROC`: the assertion behind each command of a procedure, by cases."""
from domlogic.reading.theories import Procedure, Step, Theory
from domlogic.search.book import Book
from domlogic.search.execution import Execution
from domlogic.search.filling import Earlier, asked_steps, own_triple, searched, title_of
from domlogic.search.formulas import Formula
from domlogic.search.messages import ShownNames, lines_of
from domlogic.search.outline import Line
from domlogic.search.printing import formula_text
from domlogic.search.refusals import Fails
from domlogic.words.program import BAD_WORDS, Answer, read

NOTHING_LEFT = "nothing: no case is left"


def show(program: str, file: str, name: str) -> Answer:
    """The outlines of the procedure's triples that are gaps, and of its own."""
    first, theory = read(program, file)
    if theory is None:
        return first
    procedure = next((it for it in theory.procedures if it.name == name), None)
    if procedure is None:
        return Answer(BAD_WORDS, "bad words\n")
    parts = [outline_of(theory, procedure, it) for it in shown_steps(theory, procedure)]
    return Answer(0, "\n\n".join("\n".join(lines) for lines in parts) + "\n")


def shown_steps(theory: Theory, procedure: Procedure) -> list[Step]:
    """The gaps of triples, and the triple of the procedure as the last one."""
    *others, last = asked_steps(theory, procedure)
    gaps = [it for it in others if it.rule is None and it.judgement[0] == "triple"]
    return [*gaps, last._replace(judgement=own_triple(procedure))]


def outline_of(theory: Theory, procedure: Procedure, step: Step) -> list[str]:
    """The title of the step, and what stands behind each of its commands; last what is wanted."""
    before = [it for it in procedure.steps if it.number < step.number]
    book = Book(theory, procedure, len(before) + 1, Earlier(before, before))
    search = Execution(book)
    _, pre, _, post, sort = step.judgement
    lines = [title_of(step, procedure), "pre " + formula_text(pre)]
    try:
        searched(search, step.judgement)
        end = ["post " + formula_text(post)]
    except Fails as why:
        failure = why.args[0]
        end = [f"stops {failure.place}", *lines_of(failure, ShownNames(book.new, theory.logic))]
    for it in search.outline.lines:
        lines += told(it, search, sort)
    return lines + end


def told(line: Line, search: Execution, sort: str) -> list[str]:
    """A line of the outline as text: an assertion has a line for each of its cases."""
    indent = "  " * line.depth
    if line.text is not None:
        return [indent + line.text]
    return [f"{indent}| {it}" for it in cases_of(line.assertion, search, sort)]


def cases_of(assertion: Formula, search: Execution, sort: str) -> list[str]:
    """The cases of an assertion that can be."""
    book, cases = search.book, search.stepping.heaps.of(assertion, sort).cases
    names = ShownNames(book.new, book.theory.logic)
    return [names.text(it.case.formula) for it in cases] or [NOTHING_LEFT]
