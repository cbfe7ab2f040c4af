"""Fills every file of examples/library, as `./domcheck prove` does, and tells what it took.

usage: python3 domlogic/fill_library.py --program PROGRAM [--into FOLDER] [FILE..]
  PROGRAM   the proved program, which judges what is filled
  FOLDER    where the filled files are written; without it nothing is kept
  FILE      the files to fill, if not those of examples/library

Prints a line for each procedure: its file, the lines and steps that its author wrote, and the
steps that were filled; and for each file the seconds. The exit status is 1 where a file isn't
filled.
"""
import argparse
import glob
import os
import re
import sys
import time
from collections.abc import Iterator
from typing import NamedTuple

sys.dont_write_bytecode = True  # the checkout stays as it is
TOP = os.path.dirname(os.path.dirname(os.path.abspath(__file__)))
sys.path.insert(0, TOP)
from domlogic.reading.requests import theory_of
from domlogic.words.program import Answer
from domlogic.words.prove import prove

LIBRARY = os.path.join(TOP, "examples", "library")


class Written(NamedTuple):
    """A procedure as its author wrote it: its name, its lines without comments, its steps."""

    name: str
    lines: int
    steps: int


def written(path: str) -> Iterator[Written]:
    """The procedures of a file."""
    with open(path, encoding="utf-8") as file:
        text = file.read()
    theory = theory_of(text.encode())
    lines = [line for line in text.split("\n") if not re.match(r"\s*(//|$)", line)]
    starts = [at for at, line in enumerate(lines) if line.startswith("proc ")] + [len(lines)]
    for procedure, start, end in zip(theory.procedures, starts, starts[1:]):
        yield Written(procedure.name, end - start, len(procedure.steps))


def told(path: str, answer: Answer, seconds: float) -> None:
    """Prints the lines of a file."""
    name = os.path.basename(path)
    if answer.status != 0:
        print(f"{name}: not filled, {seconds:.1f} s\n{answer.text}", end="")
        return
    filled = theory_of(answer.text.encode()).procedures
    for one, other in zip(written(path), filled):
        print(f"{name} {one.name}: {one.lines} lines, {one.steps} steps written,",
              f"{len(other.steps)} filled")
    print(f"{name}: {seconds:.1f} s")


def main() -> int:
    """Fills the files and returns the status."""
    how = {"description": __doc__, "formatter_class": argparse.RawDescriptionHelpFormatter}
    parser = argparse.ArgumentParser(**how)
    parser.add_argument("--program", required=True)
    parser.add_argument("--into")
    parser.add_argument("files", nargs="*")
    options = parser.parse_args()
    here = sorted(glob.glob(os.path.join(LIBRARY, "*.dom")))
    status = 0
    for path in options.files or here:
        start = time.monotonic()
        answer = prove(options.program, path)
        told(path, answer, time.monotonic() - start)
        if answer.status != 0:
            status = 1
        elif options.into:
            os.makedirs(options.into, exist_ok=True)
            made = os.path.join(options.into, os.path.basename(path))
            with open(made, "w", encoding="utf-8") as file:
                file.write(answer.text)
    return status


if __name__ == "__main__":
    sys.setrecursionlimit(100000)
    sys.exit(main())
