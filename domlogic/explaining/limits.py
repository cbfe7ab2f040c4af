"""A limit that the file passes: its figure, and where and by how much it is passed."""
from collections import Counter

from domlogic.explaining.source import Source
from domlogic.explaining.wording import counted, figure, wrapped
from domlogic.reading.limits import FILE_BYTES, FILE_NESTING, STEPS, TEXT_BYTES, VARIABLES
from domlogic.reading.sorts import declared_by
from domlogic.reading.tokens import layout_end, tokens_of


def explained(source: Source, line: str) -> list[str]:
    """What to say of `limit KIND`."""
    return TOLD[line.removeprefix("limit ")](source)


def file(source: Source) -> list[str]:
    return wrapped(f"The file has {figure(len(source.content))} bytes, and a file has at most "
                   f"{figure(FILE_BYTES)}. Share its procedures out to several files.")


def nesting(source: Source) -> list[str]:
    """The first bracket that is one too deep."""
    depth, start, end = 0, 0, 0
    for token in tokens_of(source.content):
        start, end = layout_end(source.text, end), token.end
        if token.kind == "symbol":
            depth = max(0, depth + (token.text in "([{<") - (token.text in ")]}>"))
        if depth > FILE_NESTING:
            break
    return [*source.view_of_text(start, end),
            *wrapped(f"Here {depth} brackets are open, and at most {FILE_NESTING} may be. Of a "
                     "formula, give a part a name, by 'some'; of a body, put a part into a "
                     "procedure of its own.")]


def text(source: Source) -> list[str]:
    """The first literal that is too long."""
    end = 0
    for token in tokens_of(source.content):
        start, end = layout_end(source.text, end), token.end
        count = len(token.text.encode())
        if token.kind == "literal" and count > TEXT_BYTES:
            break
    return [*source.view_of_text(start, end),
            *wrapped(f"This text has {figure(count)} bytes, and a text has at most "
                     f"{figure(TEXT_BYTES)}.")]


def variables(source: Source) -> list[str]:
    """The first procedure with too many variables."""
    procedures = source.take_theory().procedures
    found = next(it for it in procedures if len(declared_by(it)) > VARIABLES)
    count = len(declared_by(found))
    begin = source.span(found)[0]
    return [*source.view(begin, begin + 2),
            *wrapped(f"{found.name} has {figure(count)} parameters, results and locals, and a "
                     f"procedure has at most {VARIABLES}.")]


def steps(source: Source) -> list[str]:
    """How many steps all proofs have: each begins with a word that stands nowhere else."""
    counts = Counter(token.text for token in tokens_of(source.content) if token.kind == "word")
    return wrapped(f"The file has {figure(counts['step'])} steps in "
                   f"{counted(counts['proof'], 'proof')}, and a file has at most {figure(STEPS)}. "
                   "Share its procedures out to several files.")


TOLD = {"file": file, "nesting": nesting, "text": text, "variables": variables, "steps": steps}
