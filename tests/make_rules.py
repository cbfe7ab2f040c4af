#!/usr/bin/env python3
"""Makes the rows of the rules out of the tables in rules/: a file for each verdict of a table.

usage: tests/make_rules.py --write FOLDER
  writes the files into the folder, NAME.dom with what has to be answered in NAME.wanted

`tests/run.py` asks `rows()` for them. README.md beside this file says how a table is written.
"""
import glob
import os
import re
import sys
from collections import namedtuple

HERE = os.path.dirname(os.path.abspath(__file__))

# A row: what is shown, where it stands, the file, and its answer.
Made = namedtuple("Made", "title place text status output")
# A step of a table: its word (given, or the verdict), rule, cited steps, arguments and judgement.
Line = namedtuple("Line", "place word rule cited arguments judgement")

STEP = re.compile(r"(given \w+|instance|shape|premises|side \w+)"
                  r"( \([\d, ]*\))?( with \([^()]*\))?: (.*)")
# What stands in place of a judgement where a rule of the other kind is asked for.
OTHERS = {"entailments": "pre 0g do skip post 0g at g", "triples": "0g entails 0g at g"}


class Unreadable(Exception):
    """A line of a table that has no meaning."""


def numbers(text):
    return [int(it) for it in re.findall(r"\d+", text or "")]


def line_of(place, text, rule):
    """Reads a line that has a step."""
    found = STEP.fullmatch(text)
    if not found:
        raise Unreadable(f"{place}: neither a step nor the head of one: {text}")
    word, cited, arguments, judgement = found.groups()
    if word.startswith("given "):
        word, rule = word.split()
    return Line(place, word, rule, numbers(cited), arguments or "", judgement)


def step_text(number, line):
    cited = ", ".join(map(str, line.cited))
    return f"step {number} by {line.rule}({cited}){line.arguments}: {line.judgement};"


def file_text(template, given, line):
    """Returns the file with the steps in place of STEPS, and the number behind them for LAST."""
    steps = [step_text(at, it) for at, it in enumerate([*given, line], 1)]
    text = template.replace("STEPS\n", "".join(f"{step}\n" for step in steps))
    return text.replace("LAST", str(len(steps) + 1))


def answer_to(template, given, line):
    """Returns the status and the line for the verdict of the line."""
    before = template.partition("STEPS")[0]
    number, procedure = len(given) + 1, re.findall(r"^proc (\w+)", before, re.MULTILINE)[-1]
    if line.word != "instance":
        place = f"step {number} of {procedure}, line {before.count(chr(10)) + number}"
        return 1, f"{place}: {line.rule}: {line.word}"
    procedures = len(re.findall(r"^proc ", template, re.MULTILINE))
    steps = len(re.findall(r"^step ", template, re.MULTILINE)) + number
    return 0, f"accepted: {procedures} procedures, {steps} steps"


def made(template, given, line, how=""):
    text = file_text(template, given, line)
    title = f"{line.rule}, {line.word}{how}: {line.judgement}"
    return Made(title, line.place, text, *answer_to(template, given, line))


def others(line, judged):
    """Gives, for an instance, what every rule refuses, and in which way."""
    yield line._replace(word="premises", cited=[*line.cited, 1]), ", a premise more"
    if line.cited:
        yield line._replace(word="premises", cited=line.cited[:-1]), ", a premise less"
    argument = line.arguments[:-1] + ", 1)" if line.arguments else " with (1)"
    yield line._replace(word="shape", arguments=argument), ", an argument more"
    yield line._replace(word="shape", judgement=OTHERS[judged]), ", of the other kind"


def rows_of_rule(template, judged, lines):
    """Gives the rows of a rule; steps that are given behind a row begin anew."""
    given, is_new, is_first = [], False, True
    for line in lines:
        if line.word == "given":
            given = [line] if is_new else [*given, line]
            is_new = False
            continue
        is_new = True
        yield made(template, given, line)
        if is_first and line.word == "instance":
            yield from (made(template, given, *it) for it in others(line, judged))
            is_first = False


def blocks_of(path):
    """Gives the heads of a table with the lines behind each: `judges`, `file` and `rule`."""
    with open(path, encoding="utf-8") as it:
        lines = [(number, line.rstrip("\n")) for number, line in enumerate(it, 1)]
    block = None
    for number, text in lines:
        if not text.strip() or text.startswith("#"):
            continue
        if re.fullmatch(r"file|rule \w+|judges: \w+", text):
            if block:
                yield block
            block = (text, [])
        elif block is None:
            raise Unreadable(f"{number}: a table begins with `judges: ..`")
        else:
            block[1].append((number, text))
    yield block


def rows_of(path):
    """Gives the rows of a table."""
    template, judged = "", ""
    for head, lines in blocks_of(path):
        if head.startswith("judges: "):
            judged = head[len("judges: "):]
        elif head == "file":
            template = "".join(f"{text[2:]}\n" for _, text in lines)
        else:
            rule = head[len("rule "):]
            steps = [line_of(place, text, rule) for place, text in lines]
            yield from rows_of_rule(template, judged, steps)


def rows():
    """Gives the tables with their rows."""
    for path in sorted(glob.glob(os.path.join(HERE, "rules", "*.table"))):
        try:
            yield path, list(rows_of(path))
        except Unreadable as why:
            sys.exit(f"{path}:{why}")


def main(words):
    if len(words) != 2 or words[0] != "--write":
        sys.exit(__doc__)
    for path, found in rows():
        table = os.path.splitext(os.path.basename(path))[0]
        for number, row in enumerate(found, 1):
            name = os.path.join(words[1], f"{table}_{number}")
            with open(f"{name}.dom", "w", encoding="utf-8") as it:
                it.write(row.text)
            with open(f"{name}.wanted", "w", encoding="utf-8") as it:
                it.write(f"{row.status}\n{row.output}\n")


if __name__ == "__main__":
    main(sys.argv[1:])
