#!/usr/bin/env python3
"""Refuses the program each growth of its memory in turn, one a run.

    tests/refused_memory.py [PROGRAM] [--most N]

PROGRAM is the built program, crates/domcheck_cli/out/domcheck_cli where none is given. For each of
some requests it counts the calls by which the program takes memory or makes a block grow, and then
runs the request once for each of them, with this one refused: the status has to be 10 with nothing
written, or the status and the output those of the request. Past N calls (2,000 where nothing is
said) every so many are tried, the last among them. It wants gcc, and a program that takes memory from
the C library. The gate doesn't run it.
"""
import argparse
import os
import pathlib
import subprocess
import sys
import tempfile

TOP = pathlib.Path(__file__).resolve().parent.parent
PROGRAM = TOP / "crates/domcheck_cli/out/domcheck_cli"
OUT_OF_MEMORY = 10

# Requests that take memory in each part: proofs with commands and with calls, a proof with a gap, a run
# over a heap, runs that end in a fault and at a limit, a file that is filled, a generated text.
LIBRARY = TOP / "examples/library"
FILES = TOP / "tests/files"
REQUESTS = (
    ("check", LIBRARY / "by_hand/move.dom"),
    ("check", LIBRARY / "by_hand/replace_child.dom"),
    ("check", FILES / "whole.dom"),
    ("run", FILES / "nodes.dom", "add", FILES / "empty.doc", "100", "div"),
    ("run", FILES / "machine.dom", "restore", FILES / "page.doc", "100"),
    ("fill", TOP / "examples/obvious.dom"),
    ("make", "3"),
    ("make", "200"),
)


def answer(library, words, **environment):
    """The status and what was written, with the library preloaded."""
    ran = subprocess.run([str(word) for word in words], capture_output=True,
                         env=dict(os.environ, LD_PRELOAD=library, **environment))
    return ran.returncode, ran.stdout


def numbers(count, most):
    """The calls to refuse: all, or every so many and the last."""
    step = -(-count // most)
    return sorted({*range(1, count + 1, max(step, 1)), count})


def tried(library, folder, words, most):
    """How many calls were refused, and what went wrong."""
    counted = f"{folder}/count"
    wanted = answer(library, words, COUNT=counted)
    count = int(pathlib.Path(counted).read_text())
    allowed = (wanted, (OUT_OF_MEMORY, b""))
    places = numbers(count, most)
    wrong = [(n, found) for n in places
             if (found := answer(library, words, REFUSE=str(n))) not in allowed]
    return count, len(places), wanted[0], wrong


def main():
    words = argparse.ArgumentParser(description=__doc__.splitlines()[0])
    words.add_argument("program", nargs="?", default=PROGRAM)
    words.add_argument("--most", type=int, default=2000)
    asked = words.parse_args()
    failed = 0
    with tempfile.TemporaryDirectory() as folder:
        library = f"{folder}/refuse.so"
        subprocess.run(["gcc", "-O2", "-shared", "-fPIC", TOP / "tests/memory/refuse.c", "-o", library,
                        "-ldl"], check=True)
        for request in REQUESTS:
            named = " ".join(word.name if isinstance(word, pathlib.Path) else word for word in request)
            count, places, status, wrong = tried(library, folder, (asked.program, *request), asked.most)
            print(f"{named}: status {status}, {count} growths of memory, {places} refused")
            for place, (told, output) in wrong:
                print(f"  growth {place}: status {told}, {len(output)} bytes written")
            failed += len(wrong)
    print(f"{failed} failed")
    return 1 if failed else 0


if __name__ == "__main__":
    sys.exit(main())
