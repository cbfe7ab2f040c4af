#!/usr/bin/env python3
"""Measures what tokens and the memory of parts take alone in large files, beside gzip and `check`.

    bench/least_time.py [PROGRAM] [SHAPE..]

A theory holds its formulas as parts, each in a box of its own. Whoever checks one finds the
tokens, takes and gives back the memory of each part, and looks at it. A small program in C does
this alone, with no grammar, no names and no comparisons: it finds the tokens twice, since a token
that passes a limit comes before any other fault; it asks the same memory allocator for the same
blocks in the same order as PROGRAM does on the file, which is recorded; and it looks at each block
four times, once each to set the sorts of variables, to find undeclared ones, to ask the sorts of
formulas and to compare it with what the rule wants. It wants gcc and a program that takes memory
from the C library.

For each shape of bench/large_files.py at 4 MB it prints user seconds, the means of some runs, and
how many times those of gzip they are. For the shape `long` it also measures a whole check in plain
C, least/long.c, which reads this shape alone.
"""
import array
import os
import pathlib
import subprocess
import sys
import tempfile

import large_files as bench

HERE = pathlib.Path(__file__).resolve().parent / "least"
LOOKS = 4


def compiled(folder):
    """The recorder, the least program, and the check of the shape `long` in C."""
    recorder, least, whole = f"{folder}/record.so", f"{folder}/least", f"{folder}/long"
    subprocess.run(["gcc", "-O2", "-shared", "-fPIC", HERE / "record.c", "-o", recorder, "-ldl"],
                   check=True)
    subprocess.run(["gcc", "-O2", HERE / "least.c", "-o", least], check=True)
    subprocess.run(["gcc", "-O2", HERE / "long.c", "-o", whole], check=True)
    return recorder, least, whole


def places(record):
    """The calls of a record, with the numbers of places in the stead of addresses."""
    told, taken, free, calls = array.array("Q"), {}, [], array.array("I")
    told.frombytes(pathlib.Path(record).read_bytes())
    most = 0
    for address, size in zip(told[::2], told[1::2]):
        if size:
            taken[address] = free.pop() if free else most
            most = max(most, taken[address] + 1)
            calls.extend((taken[address], min(size, 2**32 - 1)))
        elif address in taken:
            free.append(taken.pop(address))
            calls.extend((free[-1], 0))
    return calls


def told(words):
    """The means of the numbers that the words print in some runs."""
    runs = [subprocess.run(words, capture_output=True, text=True, check=True).stdout.split()
            for _ in range(bench.RUNS)]
    return [sum(map(float, column)) / len(column) for column in zip(*runs)]


def measure_whole(whole, file, gzip):
    """Prints what the check of the shape `long` in C takes, in all and for its four parts."""
    all_of_it, read, judged, compared, let_go = told([whole, file])
    print(f"  whole in C: {all_of_it:.3f} s (read {read:.3f}, judged {judged:.3f},"
          f" compared {compared:.3f}, let go {let_go:.3f}); {all_of_it / gzip:.1f} times gzip",
          flush=True)


def measure(program, shape, folder, recorder, least, whole):
    """Prints the line of a shape."""
    file, record = bench.write(shape, bench.MOST_BYTES, folder), f"{folder}/record"
    subprocess.run([program, "check", file], stdout=subprocess.DEVNULL, check=True,
                   env={**os.environ, "LD_PRELOAD": recorder, "RECORD": record})
    with open(f"{folder}/calls", "wb") as it:
        places(record).tofile(it)
    words = [least, file, f"{folder}/calls", str(LOOKS)]
    least, tokens, memory, looks, found, parts, _ = told(words)
    check, gzip, _ = bench.means([[program, "check", file]], file)
    print(f"{shape}: least {least:.3f} s (tokens {tokens:.3f}, memory {memory:.3f},"
          f" looks {looks:.3f}), check {check:.2f} s, gzip {gzip:.3f} s;"
          f" least {least / gzip:.1f} times gzip, check {check / gzip:.1f};"
          f" {int(found):,} tokens, {int(parts):,} blocks", flush=True)
    if shape == "long":
        measure_whole(whole, file, gzip)


def main(words):
    shapes = [word for word in words if word in bench.SHAPES] or list(bench.SHAPES)
    others = [word for word in words if word not in bench.SHAPES]
    if len(others) > 1 or others == ["--help"]:
        sys.exit(__doc__)
    program = str(pathlib.Path(others[0]).resolve() if others else bench.PROGRAM)
    with tempfile.TemporaryDirectory() as folder:
        programs = compiled(folder)
        for shape in shapes:
            measure(program, shape, folder, *programs)


if __name__ == "__main__":
    main(sys.argv[1:])
