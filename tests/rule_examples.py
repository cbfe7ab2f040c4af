"""The examples of the rules in examples/rules/: for each rule RULE.dom, which is accepted, and RULE_refused.dom.

The comment at the head of each ends in its wanted answer, as in `// wanted: accepted: 1 procedures, 4 steps`.
`tests/run.py` asks `rows()` for them. Each row has a fault where its file is no example, whatever its answer:
an accepted one has to need its rule, and a refused one has to differ from it in one place, which is of its rule.
"""
import glob
import os
from collections import namedtuple

from domlogic.reading import requests as reference
from domlogic.reading.faults import RULES
from domlogic.reading.limits import Refused
from domlogic.reading.tokens import tokens_of

FOLDER = os.path.join(os.path.dirname(os.path.dirname(os.path.abspath(__file__))), "examples", "rules")
REFUSED = "_refused"

# A row: what is shown, where it stands, the file, its answer, and what is wrong with the file itself.
Example = namedtuple("Example", "title place text status output fault")


def wanted_of(text):
    """Returns the number of the comment's last line, and the answer that it wants; or None for it."""
    lines = text.splitlines()
    count = next((at for at, line in enumerate(lines) if not line.startswith("//")), len(lines))
    last = lines[count - 1] if count else ""
    return count, last[len("// wanted: "):] if last.startswith("// wanted: ") else None


def needed_steps(steps):
    """Gives the steps of a proof that its last step needs."""
    needed = {len(steps)}
    for number in range(len(steps), 0, -1):
        if number in needed:
            needed.update(steps[number - 1].premises)
            yield steps[number - 1]


def needs(rule, text):
    """Says whether a proof of the file needs a step by the rule."""
    try:
        procedures = reference.theory_of(text.encode()).procedures
    except Refused:
        return False
    return any(step.rule == rule for it in procedures for step in needed_steps(it.steps))


def common(one, other):
    """Returns how many tokens two lists have in common at their beginning."""
    pairs = enumerate(zip(one, other))
    return next((at for at, (left, right) in pairs if left != right), min(len(one), len(other)))


def differing(one, other):
    """Returns the runs of tokens of two files that are left without what both begin and end with."""
    one, other = ([(it.kind, it.text) for it in tokens_of(text.encode())] for text in (one, other))
    begin = common(one, other)
    one, other = one[begin:], other[begin:]
    end = common(one[::-1], other[::-1])
    return one[: len(one) - end], other[: len(other) - end]


def is_one_place(one, other):
    """Says whether two files differ, and in one run of tokens, in which no step begins and no proof ends."""
    runs = differing(one, other)
    return any(runs) and not any(("word", word) in run for run in runs for word in ("step", "end"))


def fault_of(rule, is_refused, text, wanted):
    """Returns why a file is no example of its rule, or None."""
    if wanted is None:
        return "the comment at its head doesn't end in `// wanted: ..`"
    if is_refused != (not wanted.startswith("accepted: ")):
        return "the file's name doesn't fit the wanted answer"
    if not is_refused:
        return None if needs(rule, text) else f"no proof needs a step by {rule}"
    if f": {rule}: " not in wanted:
        return f"the wanted answer is of another rule than {rule}"
    accepted = os.path.join(FOLDER, f"{rule}.dom")
    return None if os.path.exists(accepted) and is_one_place(read(accepted), text) else \
        "it doesn't differ from the accepted file in one place, which is in one step"


def read(path):
    with open(path, encoding="utf-8") as it:
        return it.read()


def row_of(path):
    """Returns the row of a file."""
    name, text = os.path.splitext(os.path.basename(path))[0], read(path)
    is_refused = name.endswith(REFUSED)
    place, wanted = wanted_of(text)
    fault = fault_of(name.removesuffix(REFUSED), is_refused, text, wanted)
    return Example(f"wanted: {wanted}", place, text, int(is_refused), wanted, fault)


def completeness():
    """Returns the row that no request is asked for: each rule has both of its files, and there is no other."""
    found = {os.path.basename(path) for path in glob.glob(os.path.join(FOLDER, "*"))}
    due = {f"{rule}{end}.dom" for rule in RULES for end in ("", REFUSED)}
    fault = "; ".join([*(f"{it} is missing" for it in sorted(due - found)),
                       *(f"{it} is of no rule" for it in sorted(found - due))])
    return Example("each rule has both of its files", 0, "", None, "", fault or None)


def rows():
    """Gives the files with their rows, and last the folder."""
    for path in sorted(glob.glob(os.path.join(FOLDER, "*.dom"))):
        yield path, [row_of(path)]
    yield FOLDER, [completeness()]
