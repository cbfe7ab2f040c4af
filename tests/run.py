#!/usr/bin/env python3
"""Compares the built program with the rows of this folder and the examples of the rules, byte by byte.

usage: tests/run.py (--cmd PROGRAM | --reference | --list) [--only TEXT] [--accented | --assistants] [--jobs N]
  PROGRAM       the built program; each row's words are handed to it
  --reference   the rows are answered by reference.py beside this file, and no program is asked
  --list        the rows are listed
  TEXT          only the rows whose file or title has this text
  --accented    each file ends in a comment that isn't ASCII: its tokens are the same, and the program
                reads them from a list, as it does those of no ASCII file
  --assistants  the rows of the folder assistants/, of the words prove, show and explain
  --jobs N      so many rows at a time, on so many processors; they are told in their order

Prints each row that fails, and last 'N passed, M failed'. The exit status is 0 where none fails, and 2
where a file of rows can't be read. README.md beside this file says how a row is written.
"""
import argparse
import concurrent.futures
import glob
import os
import re
import shlex
import subprocess
import sys
import tempfile

sys.dont_write_bytecode = True  # the checkout stays as it is
sys.path.insert(0, os.path.dirname(os.path.dirname(os.path.abspath(__file__))))
import make_rules
import rule_examples
from domlogic.reading import requests as reference
from domlogic.reading.tokens import tokens_of

HERE = os.path.dirname(os.path.abspath(__file__))
TOP = os.path.dirname(HERE)
SECONDS = 60
MOST_BYTES = 4_194_304
ACCENTED = " // é".encode()
# The words that the package domlogic answers, and the folder of their rows.
OF_THE_PACKAGE = (b"prove", b"show", b"explain")
ASSISTANTS = "assistants"


class Unreadable(Exception):
    """A line of a file of rows that has no meaning."""


class Row:
    """One request and its wanted answer."""

    def __init__(self, title, place):
        self.title, self.place = title, place
        self.words, self.status, self.output = None, None, []
        self.texts, self.changes, self.cuts, self.sink, self.called = {}, [], {}, None, None
        self.printed, self.numbers, self.repeated = {}, [], []
        self.fault, self.judged, self.filled = None, None, None


def meant(text):
    """Returns the bytes that a text of a row stands for: what stands in backquotes is what can't be written."""
    parts = text.split("`")
    if len(parts) % 2 == 0:
        raise Unreadable("a backquote stands alone")
    return b"".join(quoted(part) if at % 2 else part.encode() for at, part in enumerate(parts))


def quoted(part):
    """Returns the bytes of `newline`, `return`, `tab`, a byte as `ff`, `9 x TEXT` or `for 1..9: TEXT`."""
    names = {"newline": b"\n", "return": b"\r", "tab": b"\t"}
    if part in names:
        return names[part]
    if re.fullmatch(r"[0-9a-f]{2}( [0-9a-f]{2})*", part):
        return bytes.fromhex(part)
    found = re.fullmatch(r"([0-9]+) x (.*)", part)
    if found:
        return found[2].encode() * int(found[1])
    found = re.fullmatch(r"for ([0-9]+)\.\.([0-9]+): ?(.*)", part)
    if found:
        first, last = int(found[1]), int(found[2])
        numbers = range(first, last + 1) if first <= last else range(first, last - 1, -1)
        return "".join(found[3].replace("@", str(number)) for number in numbers).encode()
    raise Unreadable(f"`{part}` stands for nothing")


def split_words(text):
    """Returns the words of a row: as a shell splits them, with quotes, but that # begins no comment."""
    return [meant(word) for word in shlex.split(text, comments=False)]


def change_of(text):
    """Returns what is put in place of what, written OLD => NEW."""
    old, arrow, new = text.partition("=>")
    if not arrow or not old.strip():
        raise Unreadable("a change is written OLD => NEW")
    return meant(old.strip()), meant(new.strip())


def set_field(row, field, text):
    """Gives a row one of its fields."""
    name, _, file = field.partition(" ")
    if field == "words":
        row.words = split_words(text)
    elif field == "status":
        row.status = int(text)
    elif field == "output":
        row.output.append(meant(text) + b"\n")
    elif field == "checked":
        row.judged = meant(text)
    elif field == "filled":
        row.filled = int(text)
    elif field == "to":
        row.sink = text
    elif field == "called":
        row.called = meant(text)
    elif field == "for":
        first, last = re.fullmatch(r"(\d+)\.\.(\d+)", text).groups()
        row.numbers = range(int(first), int(last) + 1)
    elif name == "text" and file:
        row.texts[file] = meant(text)
    elif name == "printed" and file:
        row.printed[file] = split_words(text)
    elif name == "cut" and file:
        row.cuts[file] = int(text)
    elif name == "change" and file:
        row.changes.append((file, *change_of(text)))
    else:
        raise Unreadable(f"a row has no field {field}")


def is_dashed(text):
    """Says whether the line of a block gives one of its rows."""
    return re.match(r"-( |$)", text) is not None


def each_number(text):
    """Returns the lines that a dashed one stands for: itself, or for `- 1..3 | 5..7` the three from `- 1 | 5` on."""
    found = re.fullmatch(r"- (\d+)\.\.(\d+) \| (\d+)\.\.(\d+)", text)
    if not found:
        return [text]
    first, last, other, _ = map(int, found.groups())
    return [f"- {first + at} | {other + at}" for at in range(last - first + 1)]


def rows_of(title, lines):
    """Returns the rows of a block: one, or one for each line that begins with '-'."""
    each = next((text[len("each:"):].strip() for _, text in lines if text.startswith("each:")), None)
    common = [text for _, text in lines if not text.startswith("each:") and not (each and is_dashed(text))]
    if each is None:
        return [row_of(title, lines[0][0], common)]
    marked, _, field = each.rpartition("|")
    rows = []
    lines = [(place, one) for place, text in lines for one in each_number(text)]
    for place, text in lines:
        if is_dashed(text):
            mark, _, given = text[1:].partition("|") if marked else ("", "", text[1:])
            own = f"{field.strip()}: {given.strip()}"
            rows.append(row_of(f"{title}: {given.strip()}", place, [*common, own], mark.strip()))
    return rows


def put_repeated(row):
    """Puts the lines that are repeated into the output, once for each of the numbers."""
    for number in row.numbers:
        for text in row.repeated:
            set_field(row, "output", text.replace("@", str(number)))
    row.repeated = []


def row_of(title, place, lines, mark=""):
    """Returns the row of these fields; the mark, if there is one, stands in its answer in place of each @."""
    mark = mark or "@"
    row = Row(title, place)
    for text in lines:
        if text.startswith("| "):
            put_repeated(row)
            set_field(row, "output", text[2:].replace("@", mark))
            continue
        if text.startswith("|| "):
            row.repeated.append(text[3:])
            continue
        field, colon, rest = text.partition(":")
        if not colon:
            raise Unreadable(f"no field: {text}")
        if field != "output" or rest:
            is_marked = field in ("output", "filled")
            set_field(row, field.strip(), rest.strip().replace("@", mark) if is_marked else rest.strip())
    put_repeated(row)
    if row.words is None or row.status is None:
        raise Unreadable(f"the row has no words or no status: {title}")
    return row


def file_of(head, lines):
    """Returns the name and the bytes of a file: of its lines '| TEXT', of one line, or of a file of the repository."""
    found = re.fullmatch(r"(\S+) from (\S+)", head)
    if found:
        with open(os.path.join(TOP, found[2]), "rb") as it:
            return found[1], it.read()
    name, colon, text = head.partition(":")
    if colon:
        return name, meant(text.strip())
    if any(not re.match(r"\|( |$)", it) for _, it in lines):
        raise Unreadable(f"a line of the file {name} begins with no '| '")
    return name, b"".join(meant(it[2:]) + b"\n" for _, it in lines)


def shared():
    """Returns the files of the folder files/, which every row may name."""
    for name in sorted(os.listdir(os.path.join(HERE, "files"))):
        with open(os.path.join(HERE, "files", name), "rb") as it:
            yield name, it.read()


def read(path):
    """Returns the files and the rows that a file of rows has."""
    with open(path, encoding="utf-8") as it:
        lines = [(number, line.rstrip("\n")) for number, line in enumerate(it, 1)]
    lines = [it for it in lines if not it[1].startswith("#") and it[1].strip()]
    files, rows, at = dict(shared()), [], 0
    while at < len(lines):
        number, head = lines[at]
        kind, _, rest = head.partition(" ")
        end = at + 1
        while end < len(lines) and not re.match(r"(file|row|rows) ", lines[end][1]):
            end += 1
        try:
            if kind == "file":
                name, content = file_of(rest, lines[at + 1 : end])
                files[name] = content
            elif kind in ("row", "rows"):
                rows += rows_of(rest, lines[at + 1 : end])
            else:
                raise Unreadable("a block begins with 'file', 'row' or 'rows'")
        except (Unreadable, ValueError, IndexError) as why:
            sys.exit(f"{os.path.relpath(path, TOP)}:{number}: {why}")
        at = end
    return files, rows


def first_tokens(content, count):
    """Returns the text up to the end of so many tokens."""
    ends = [0] + [token.end for token in tokens_of(content)]
    return content.decode()[: ends[count]].encode()


def given_files(row, files):
    """Returns the files that the row's words name, as the row changes them; a name that none has stays a missing file."""
    given = {**files, **row.texts}
    for file, old, new in row.changes:
        if old not in given[file]:
            raise Unreadable(f"{file} has no text {old.decode(errors='replace')}")
        given[file] = given[file].replace(old, new)
    for file, count in row.cuts.items():
        given[file] = first_tokens(given[file], count)
    named = [os.path.normpath(word) for word in row.words]
    return {name: given[name] for name in given if name.encode() in named}


def accented(given):
    """Returns the files, each that has room for it with a comment at its end that isn't ASCII."""
    room = MOST_BYTES - len(ACCENTED)
    return {name: text + ACCENTED if len(text) <= room else text for name, text in given.items()}


def with_printed(program, row, given):
    """Returns the given files with those that other words print."""
    for file, words in row.printed.items():
        one = Row(row.title, row.place)
        one.words = words
        found = program_answer(program, one, given) if program else reference_answer(one, given)
        given = {**given, file: found[1]}
    return given


def ran(program, row, folder):
    """Runs the program, or for its word the package beside it, on the row's words in the folder."""
    how = {"cwd": folder, "stdin": subprocess.DEVNULL, "stderr": subprocess.PIPE, "timeout": SECONDS}
    words = [row.called or program.encode(), *row.words]
    if row.words and row.words[0] in OF_THE_PACKAGE:
        words = [sys.executable, os.path.join(TOP, "domlogic"), "--program", program, *row.words]
        return subprocess.run(words, stdout=subprocess.PIPE, **how)
    if row.sink == "closed":
        words = [b"sh", b"-c", b'exec "$@" >&-', b"sh", *words]
        return subprocess.run(words, stdout=subprocess.PIPE, **how)
    if row.sink is None:
        return subprocess.run(words, executable=program, stdout=subprocess.PIPE, **how)
    with open(row.sink, "wb") as sink:
        return subprocess.run(words, executable=program, stdout=sink, **how)


def program_answer(program, row, given):
    """Returns the program's status, output and standard error in a folder that has the given files."""
    with tempfile.TemporaryDirectory() as folder:
        for name, content in given.items():
            with open(os.path.join(folder, name), "wb") as it:
                it.write(content)
        answer = ran(program, row, folder)
    return answer.returncode, answer.stdout or b"", answer.stderr


def reference_answer(row, given):
    """Returns the same of the reference. An output that goes to no good place is told as such, and lost."""
    files = lambda name: given.get(os.path.normpath(name))
    status, output = reference.answer(row.words, files)
    return (12 if row.sink and output else status), b"" if row.sink else output, b""


def checked(program, text):
    """Returns what `check` prints of a file of this text."""
    one = Row("", 0)
    one.words, given = [b"check", b"printed"], {"printed": text}
    return (program_answer(program, one, given) if program else reference_answer(one, given))[1]


def head_of(procedure):
    """Returns what a procedure has beside its proof."""
    return procedure._replace(steps=None)


def keeps(procedure, filled):
    """Says whether the procedure is the same but for its proof, which has each written step in its order."""
    if head_of(procedure) != head_of(filled):
        return False
    left = iter((it.rule, it.arguments, it.judgement) for it in filled.steps)
    written = [it for it in procedure.steps if it.rule is not None]
    return all((it.rule, it.arguments, it.judgement) in left for it in written)


def filled_steps(content, text):
    """Returns how many steps a filled file has, if it is accepted and keeps what stood in the file, and else 0."""
    try:
        theory, filled = reference.theory_of(content), reference.theory_of(text)
        reference.checked(text)
    except reference.Refused:
        return 0
    same = (theory.version, theory.logic) == (filled.version, filled.logic)
    if not same or len(theory.procedures) != len(filled.procedures):
        return 0
    if not all(map(keeps, theory.procedures, filled.procedures)):
        return 0
    return sum(len(it.steps) for it in filled.procedures)


def complaint(program, row, files, change=dict):
    """Returns what is wrong with the answer of the program, or of the reference where that is None, or None."""
    if row.fault is not None or row.status is None:
        return row.fault and f"    {row.fault}"
    try:
        given = change(with_printed(program, row, given_files(row, files)))
        answer = program_answer(program, row, given) if program else reference_answer(row, given)
    except (Unreadable, KeyError, OSError, subprocess.TimeoutExpired) as why:
        return f"    not run: {why}"
    status, found, errors = answer
    wanted = row.status, b"".join(row.output)
    if row.judged is not None:
        found = checked(program, found)
        wanted = row.status, row.judged if not found.startswith(row.judged) else found
    if row.filled is not None:
        steps = filled_steps(given[row.words[1].decode()], found) if status == 0 else 0
        found, wanted = b"%d steps" % steps, (row.status, b"%d steps" % row.filled)
    if (status, found, errors) == (*wanted, b""):
        return None
    told = [f"    wanted {wanted[0]} {wanted[1][:300]!r}", f"    got    {status} {found[:300]!r}"]
    return "\n".join(told + [f"    on standard error {errors[:300]!r}"] * bool(errors))


def rule_rows(found):
    """Returns the rows of a table of rules, or of an example, each of which has its file."""
    for made in found:
        row = Row(made.title, made.place)
        row.fault = getattr(made, "fault", None)
        row.words, row.status = [b"check", b"step.dom"], made.status
        row.output, row.texts = [f"{made.output}\n".encode()], {"step.dom": made.text.encode()}
        yield row


def all_rows(of_assistants):
    """Gives the files of rows, the tables and the examples of the rules, each with its files and rows."""
    folder = os.path.join(HERE, ASSISTANTS) if of_assistants else HERE
    for path in sorted(glob.glob(os.path.join(folder, "*.rows"))):
        yield path, *read(path)
    if of_assistants:
        return
    for path, found in [*make_rules.rows(), *rule_examples.rows()]:
        yield path, {}, list(rule_rows(found))


def asked_rows(options):
    """Gives the rows whose file or title has the wanted text, each with its file's name and the files it may name."""
    for path, files, rows in all_rows(options.assistants):
        name = os.path.relpath(path, TOP)
        for row in rows:
            if options.only in f"{name} {row.title}":
                yield name, row, files


def main():
    how = {"description": __doc__, "formatter_class": argparse.RawDescriptionHelpFormatter}
    parser = argparse.ArgumentParser(**how)
    asked = parser.add_mutually_exclusive_group(required=True)
    asked.add_argument("--cmd")
    asked.add_argument("--reference", action="store_true")
    asked.add_argument("--list", action="store_true")
    parser.add_argument("--only", default="")
    parser.add_argument("--accented", action="store_true")
    parser.add_argument("--assistants", action="store_true")
    parser.add_argument("--jobs", type=int, default=1)
    options = parser.parse_args()
    program, passed, failed = options.cmd and os.path.abspath(options.cmd), 0, 0
    if program and not os.access(program, os.X_OK):
        print(f"no program stands at {options.cmd}\n0 passed, 1 failed")
        return 1
    rows = list(asked_rows(options))
    if options.list:
        print(*(f"{name}:{row.place}: {row.title}\n" for name, row, _ in rows), sep="", end="")
        return 0
    judge = lambda it: complaint(program, it[1], it[2], accented if options.accented else dict)
    with concurrent.futures.ThreadPoolExecutor(options.jobs) as pool:
        complaints = pool.map(judge, rows) if options.jobs > 1 else map(judge, rows)
        for (name, row, _), wrong in zip(rows, complaints):
            passed, failed = passed + (wrong is None), failed + (wrong is not None)
            if wrong is not None:
                words = b" ".join(row.words).decode(errors="replace")
                print(f"{name}:{row.place}: {row.title}\n    words  {words[:200]}\n{wrong}")
    print(f"{passed} passed, {failed} failed")
    return 1 if failed else 0


if __name__ == "__main__":
    sys.exit(main())
