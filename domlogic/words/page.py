"""`page FILE PROC DOC FUEL ARG*`: a page on which a run can be looked at.

It is made of what `trace` and `watch` print, of the file and of the document: the page makes the
changes one after the other on the document, and draws it at each. There is a page where `trace`
tells changes, also of a run that faults or has no fuel left; else its refusal is printed.
"""
import json
import os

from domlogic.reading.machine import Grove
from domlogic.reading.requests import grove_of
from domlogic.reading.tokens import tokens_of
from domlogic.replaying import Differs, Trace, names_of, replay, trace_of
from domlogic.words.program import Answer, asked

ENDED, FAULTED, SPENT, NOT_WRITTEN = 0, 6, 7, 12
TEMPLATE = os.path.join(os.path.dirname(os.path.abspath(__file__)), "page.html")
TO = "--to"


def page(program: str, *words: str) -> Answer:
    """The page of a run; with `--to PAGE` before the words it is written there."""
    if len(words) > 1 and words[0] == TO:
        return page_in_file(program, *words[1:])
    traced = asked(program, "trace", *words)
    if traced.status not in (ENDED, FAULTED, SPENT):
        return traced
    data = data_of(words, trace_of(traced.text), asked(program, "watch", *words).text)
    with open(TEMPLATE, encoding="utf-8") as file:
        text = file.read()
    return Answer(0, text.replace("DATA", json.dumps(data).replace("<", "\\u003c")))


def page_in_file(program: str, to: str, *words: str) -> Answer:
    """Writes the page into a file."""
    answer = page(program, *words)
    if answer.status:
        return answer
    try:
        with open(to, "w", encoding="utf-8") as file:
            file.write(answer.text)
    except OSError:
        return Answer(NOT_WRITTEN, "")
    return Answer(0, "")


def data_of(words: tuple[str, ...], trace: Trace, watched: str) -> dict:
    """What the page is made of."""
    file, called, document = words[:3]
    with open(document, "rb") as given:
        grove = grove_of(given.read())
    with open(file, "rb") as given:
        procedure = procedure_text(given.read(), called)
    ended = trace.run[0].startswith("ended")
    return {"words": " ".join(words), "procedure": procedure, "document": nodes_of(grove),
            "changes": trace.changes, "names": new_names(grove, trace) if ended else {},
            "run": trace.run[:-1] if ended else trace.run, "tally": trace.tally,
            **verdicts(watched.split("\n"))}


def verdicts(lines: list[str]) -> dict[str, str]:
    """What `watch` says of requires and of ensures, or why it says nothing."""
    ensures = [it for it in lines[-2:] if it.startswith("ensures ")]
    return {"requires": lines[0], "ensures": "".join(ensures)}


def procedure_text(content: bytes, called: str) -> str:
    """The procedure as the file writes it, up to its proof."""
    text, tokens = content.decode(), list(tokens_of(content))
    at = next(at for at, it in enumerate(tokens)
              if it[:2] == ("word", "proc") and tokens[at + 1].text == called)
    proof = next(it for it in tokens[at:] if it[:2] == ("word", "proof"))
    return text[tokens[at].end - len("proc") : proof.end - len("proof")].strip()


def nodes_of(grove: Grove) -> list[list]:
    """The nodes, each with its number, name, list number and parent; a parent comes first."""
    waiting, found = list(reversed(grove.roots())), []
    while waiting:
        node = waiting.pop()
        found.append([node, grove.name[node], grove.childlist[node], grove.parent[node]])
        waiting += reversed(grove.children[node].numbers())
    return found


def new_names(grove: Grove, trace: Trace) -> dict[int, str]:
    """The names of the nodes that the run makes, by the grove at its end.

    The changes are made on the grove, which has to become that one.
    """
    old, names = set(grove.name), names_of(trace.run[-1])
    for line in trace.changes:
        replay(grove, line, names)
    if grove.text() != trace.run[-1]:
        raise Differs("the changes lead to another grove")
    return {node: name for node, name in names.items() if node not in old}
