"""The changes that `trace` prints, made again on the document."""
import re
from typing import NamedTuple

from domlogic.reading.machine import Grove

CHANGE = re.compile(r"(?P<step>\d+) (?:created #(?P<created>\d+) %(?P<list>\d+)"
                    r"|moved #(?P<moved>\d+) from (?:root|#(?P<from>\d+)) to #(?P<to>\d+)"
                    r"(?: before #(?P<before>\d+))?"
                    r"|removed #(?P<removed>\d+) from #(?P<parent>\d+))")
NAMED = re.compile(r'"((?:[^"\\]|\\.)*)"#(\d+)\[')
ESCAPED = {'\\"': '"', "\\\\": "\\", "\\n": "\n"}


class Differs(Exception):
    """A change that can't be made, or that says something else than the grove."""


class Trace(NamedTuple):
    """What `trace` printed: the lines of changes, those of the run, and that of the tally."""

    changes: list[str]
    run: list[str]
    tally: str


def trace_of(text: str) -> Trace:
    """Takes the output of `trace` apart; of all its lines, those of changes begin with a digit."""
    *lines, tally, _ = text.split("\n")
    count = next((at for at, it in enumerate(lines) if not it[:1].isdigit()), len(lines))
    return Trace(lines[:count], lines[count:], tally)


def names_of(grove: str) -> dict[int, str]:
    """The name of each node in the text of a grove."""
    plain = lambda name: re.sub(r"\\.", lambda found: ESCAPED[found[0]], name)
    return {int(number): plain(name) for name, number in NAMED.findall(grove)}


def replay(grove: Grove, line: str, names: dict[int, str]) -> None:
    """Makes the change of a line; a new node has its name from `names`, if that has one."""
    found = CHANGE.fullmatch(line)
    if found is None:
        raise Differs(f"no change: {line}")
    number = {key: int(it) for key, it in found.groupdict().items() if it is not None}
    if "created" in number:
        node = number["created"]
        if node in grove.name or number["list"] in grove.owner:
            raise Differs(f"a number is in use: {line}")
        grove.add(names.get(node, ""), node, number["list"])
        return
    moved, removed = number.get("moved"), number.get("removed")
    node = removed if moved is None else moved
    if node not in grove.name or grove.parent[node] != number.get("from", number.get("parent")):
        raise Differs(f"the node stands elsewhere: {line}")
    before = number.get("before")
    if before is not None and grove.parent.get(before) != number["to"]:
        raise Differs(f"no child: {line}")
    grove.move(node, number.get("to"), before)


def replayed(grove: Grove, text: str) -> str:
    """The text of the grove after all changes of an output of `trace`.

    New nodes have their names from the grove that the run ended with, if it did.
    """
    trace = trace_of(text)
    names = names_of(trace.run[-1]) if trace.run[0].startswith("ended") else {}
    for line in trace.changes:
        replay(grove, line, names)
    return grove.text()
