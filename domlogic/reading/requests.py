"""Each request and its answer: what domcheck has to print for the words, and its status.

The other modules of this folder are its parts, in the order in which a request meets them: tokens,
theories, sorts, faults, proofs, filling, preconditions, documents, machine, traces, watching,
texts. `answer` puts them together.
"""
import sys

from domlogic.reading.documents import DocumentReader, numbers_in_document, numbers_in_text
from domlogic.reading.faults import file_faults
from domlogic.reading.filling import filled
from domlogic.reading.generated import count_of, generated
from domlogic.reading.limits import (DOCUMENT_NESTING, FILE_NESTING, LAST_I64, LAST_U32, NODES, STEPS,
                            TEXT_BYTES, VARIABLES, Refused)
from domlogic.reading.machine import Grove, Machine, run_lines
from domlogic.reading.preconditions import precondition_text
from domlogic.reading.proofs import check_proof
from domlogic.reading.reader import NoReading
from domlogic.reading.sorts import declared_by
from domlogic.reading.theories import TheoryReader
from domlogic.reading.tokens import decimal, tokens_within
from domlogic.reading.traces import traced
from domlogic.reading.watching import watched


def refuse_fault(faults):
    """Refuses the file at the first of the faults, if there is one."""
    for procedure, step, kind in faults:
        raise Refused(4, f"bad file: procedure {procedure}, step {step}: {kind}")


def theory_of(content):
    """Reads a file, or refuses it with the first of its causes."""
    tokens = tokens_within(content, FILE_NESTING)
    reader = TheoryReader(tokens)
    try:
        theory = reader.whole(reader.theory)
    except NoReading as why:
        raise Refused(3, f"bad text at token {why}") from None
    refuse_fault(file_faults(theory))
    if any(len(declared_by(procedure)) > VARIABLES for procedure in theory.procedures):
        raise Refused(8, "limit variables")
    if sum(len(procedure.steps) for procedure in theory.procedures) > STEPS:
        raise Refused(8, "limit steps")
    return theory


def grove_of(content):
    """Reads a document, or refuses it with the first of its causes."""
    reader = DocumentReader(tokens_within(content, DOCUMENT_NESTING))
    try:
        trees = reader.whole(reader.grove)
    except NoReading as why:
        raise Refused(3, f"bad document text at token {why}") from None
    for kind, number in numbers_in_text(trees):
        if not 1 <= number <= LAST_U32:
            raise Refused(5, f"bad document: {kind} {number} out of range")
    met = set()
    for kind, number in numbers_in_document(trees):
        if (kind, number) in met:
            raise Refused(5, f"bad document: repeated {kind} {number}")
        met.add((kind, number))
    if len(met) > 2 * NODES:
        raise Refused(8, "limit nodes")
    return Grove(trees)


def argument_of(word, sort):
    """Returns the value that a word has at the sort of its parameter, or refuses it."""
    if sort == "str" and len(word.encode()) <= TEXT_BYTES:
        return word
    constants = {"node": {"null": None}, "list": {"nolist": None},
                 "bool": {"yes": True, "no": False}}
    if word in constants.get(sort, {}):
        return constants[sort][word]
    value = None
    if sort in ("node", "list") and word[:1] == {"node": "#", "list": "%"}[sort]:
        value = decimal(word[1:], 1, LAST_U32)
    if sort == "int":
        value = decimal(word, 0, LAST_I64)
        if word[:1] == "-" and decimal(word[1:], 1, LAST_I64):
            value = -decimal(word[1:], 1, LAST_I64)
    if value is None:
        raise Refused(2, "bad words")
    return value


def fetched(files, name):
    content = files(name)
    if content is None:
        raise Refused(11)
    return content


def checked(content):
    """Returns the output of `check` on these bytes."""
    theory = theory_of(content)
    for procedure in theory.procedures:
        check_proof(theory, procedure)
    steps = sum(len(procedure.steps) for procedure in theory.procedures)
    return f"accepted: {len(theory.procedures)} procedures, {steps} steps\n"


def start_of(files, name, called, document, words):
    """Returns the theory, the procedure, the arguments and the grove of a run."""
    theory = theory_of(fetched(files, name))
    procedure = next((it for it in theory.procedures if it.name == called), None)
    if procedure is None or len(words) != len(procedure.params):
        raise Refused(2, "bad words")
    arguments = [argument_of(word, sort) for word, (_, sort) in zip(words, procedure.params)]
    return theory, procedure, arguments, grove_of(fetched(files, document))


def ran(theory, procedure, arguments, grove, fuel):
    """Returns the status and the lines of `run`."""
    return run_lines(Machine(theory, procedure, arguments, grove), procedure, fuel)


OF_RUNS = {"run": ran, "trace": traced, "watch": watched}


def run_output(files, form, *words):
    """Returns the output of `run FILE PROC DOC FUEL ARG*`, or of a form with the same words."""
    start = start_of(files, *words[:3], words[4:])
    status, lines = OF_RUNS[form](*start, int(words[3]))
    if status:
        raise Refused(status, "\n".join(lines))
    return "\n".join([*lines, ""])


def output_of(words, files):
    """Returns the output of the words, or refuses them."""
    if len(words) == 2 and words[0] == "check":
        return checked(fetched(files, words[1]))
    if len(words) == 2 and words[0] == "fill":
        return filled(theory_of(fetched(files, words[1])))
    if len(words) == 3 and words[0] == "wp":
        return precondition_text(theory_of(fetched(files, words[1])), words[2])
    if len(words) == 2 and words[0] in ("make", "trial") and count_of(words[1]):
        text = generated(count_of(words[1]))
        return text if words[0] == "make" else checked(text.encode())
    if len(words) < 5 or words[0] not in OF_RUNS or decimal(words[4], 0, 1000000) is None:
        raise Refused(2, "bad words")
    return run_output(files, *words)


def answer(words, files):
    """Returns the exit status and the printed bytes for the words, given as bytes.

    `files` gives the bytes of a file by its name, or None.
    """
    sys.setrecursionlimit(100000)
    try:
        try:
            return 0, output_of([word.decode() for word in words], files).encode()
        except UnicodeDecodeError:
            raise Refused(2, "bad words") from None
    except Refused as why:
        return why.status, b"" if why.line is None else f"{why.line}\n".encode()

