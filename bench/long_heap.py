#!/usr/bin/env python3
"""Measures the heap of nodes on a row and on a chain of up to 100,000 nodes.

    bench/long_heap.py [--runs N] [PROGRAM]

`run` takes at most 1,000 nodes, so a small program of its own, long_heap.rattle beside this script,
calls the heap. (It isn't named .rt, since the gate takes each .rt file as a part of a crate.) Where no
PROGRAM is given it is proved and built first, by `rt` alone, in a repository that is thrown away: a copy
of the crates that the heap stands on, with what is built of them here. What isn't is proved anew: with
nothing built that takes an hour or less. The program is kept as out/long_heap, to be given the next time.

A row is node 1 with all the others as its children. A chain is nodes that are each the only child of the
one made next: each comes below a root, so that no walk to the root is long while it is made. It is
printed by `write_text`, which walks the links. `to_grove` and `copy` aren't measured.

For each kind of step it prints the time of one at 1,000, 10,000 and 100,000 nodes and the ratio of the
last to the first. The program runs with no rounds and with many, and the difference of the two times,
each the least of some runs, is divided by the rounds. A time is the user's and the system's together:
the sum is exact, and how it is parted is told in ticks alone. The steps go over the nodes in their
order, or, where they are called scattered, in one that jumps; the second kind pays for memory that is in
no cache. A move, and a removal, asks for the parent first. `append` of a node with children walks from its
new parent to the root, and `item` to its place, by design: the moves in a chain are those of its eight nodes
next to the root, and the two walks are measured apart, for a node of the walk. The greatest memory is that
of the whole program, divided by the nodes; what this script holds itself, some 14 MB, is the least that it
can see.
"""
import os
import pathlib
import shutil
import subprocess
import sys
import tempfile

TOP = pathlib.Path(__file__).resolve().parent.parent
SOURCE = TOP / "bench/long_heap.rattle"
PROGRAM = TOP / "out/long_heap"
BELOW = ["dom_terms", "dom_meaning", "node_heap"]

SIZES = (1_000, 10_000, 100_000)
STEPS = 1_000_000
JUMP = 2_654_435_761  # odd and near the golden ratio of the numbers: rounds in turn are far apart
NEAR_ROOT = 8

# (what is printed, the shape, the calls, the stride, whether only nodes near the root are called)
KINDS = [
    ("row: a child moves to the end", "row", "move", 1, False),
    ("row: the same, scattered", "row", "move", JUMP, False),
    ("row: a child is removed and appended", "row", "remove", 1, False),
    ("row: the same, scattered", "row", "remove", JUMP, False),
    ("row: a node is read by four calls", "row", "read", 1, False),
    ("row: the same, scattered", "row", "read", JUMP, False),
    ("chain: a node near the root moves", "chain", "move", 1, True),
    ("chain: it is removed and appended", "chain", "remove", 1, True),
    ("chain: a node is read by four calls", "chain", "read", 1, False),
    ("chain: the same, scattered", "chain", "read", JUMP, False),
]

# (what is printed, the shape, the calls), where a round takes as many steps as there are nodes
WALKS = [
    ("row: a node is made and appended", "row", "make"),
    ("chain: the same", "chain", "make"),
    ("row: a node is printed", "row", "print"),
    ("chain: the same", "chain", "print"),
    ("chain: append at its end, a node of the walk", "chain", "bottom"),
    ("row: item at its end, a node of the walk", "row", "last"),
]


def read_crates():
    """The crates that stand in crates.txt, each with those that it stands on."""
    rows = (TOP / "crates.txt").read_text(encoding="utf-8").splitlines()
    parts = (row.split("#")[0].partition(":") for row in rows)
    return {name.strip(): below.split() for name, colon, below in parts if colon}


def all_below(crates, names):
    """The crates of this repository among the names, and all that they stand on."""
    found = {}
    for name in names:
        if name in crates:
            found |= all_below(crates, crates[name]) | {name: crates[name]}
    return found


def copy_crate(name, into):
    """Copies the sources of the crate, and the library that is built of it if there is one."""
    for part in ("src", "specs", "proofs", "out/rlib"):
        if (TOP / "crates" / name / part).is_dir():
            shutil.copytree(TOP / "crates" / name / part, into / "crates" / name / part)


def build():
    """Proves and builds the program in a repository of its own, and keeps it."""
    if not shutil.which("rt"):
        sys.exit("rt, the command of the toolchain, is not on PATH")
    below = all_below(read_crates(), BELOW)
    with tempfile.TemporaryDirectory() as room:
        repository = pathlib.Path(room)
        crate = repository / "crates/long_heap"
        for name in below:
            copy_crate(name, repository)
        (crate / "src").mkdir(parents=True)
        shutil.copy(SOURCE, crate / "src/main.rt")
        rows = [*below.items(), ("long_heap", BELOW)]
        text = "".join(f"{name}: {' '.join(names)}\n" for name, names in rows)
        (repository / "crates.txt").write_text(text, encoding="utf-8")
        words = ["rt", "run", "--", "row", "move", "10", "10", "1", "9"]
        if subprocess.run(words, cwd=crate, stdout=sys.stderr, check=False).returncode:
            sys.exit("the program could not be built: the words of rt stand above")
        PROGRAM.parent.mkdir(exist_ok=True)
        shutil.copy(crate / "out/long_heap", PROGRAM)
    return PROGRAM


def run(program, words):
    """The time and the greatest resident memory in bytes of a run with the words."""
    with subprocess.Popen([program, *map(str, words)], stdout=subprocess.DEVNULL) as started:
        _, status, used = os.wait4(started.pid, 0)
        started.returncode = os.waitstatus_to_exitcode(status)
    if started.returncode:
        sys.exit(f"{program} ended with status {started.returncode} on {words}")
    return used.ru_utime + used.ru_stime, used.ru_maxrss * 1024


def time_of(program, runs, shape, calls, size, rounds, stride, span):
    """The seconds that so many rounds take: what the heap takes to be made is left out."""
    pairs = [
        [run(program, (shape, calls, size, count, stride, span))[0] for count in (0, rounds)]
        for _ in range(runs)
    ]
    without, whole = map(min, zip(*pairs))
    return whole - without


def show(label, times):
    """Prints the time of a step at each size, and the ratio."""
    told = ", ".join(f"{time * 1e9:.1f}" for time in times)
    print(f"{label}: {told} ns, ratio {times[-1] / times[0]:.2f}", flush=True)


def measure(program, runs):
    """Prints the times and the memory."""
    for label, shape, calls, stride, is_near in KINDS:
        spans = [NEAR_ROOT if is_near else size - 1 for size in SIZES]
        asked = [(shape, calls, size, STEPS, stride, span) for size, span in zip(SIZES, spans)]
        show(label, [time_of(program, runs, *words) / STEPS for words in asked])
    for label, shape, calls in WALKS:
        asked = [(shape, calls, size, 2 * STEPS // size, 1, 1) for size in SIZES]
        show(label, [time_of(program, runs, *words) / (2 * STEPS) for words in asked])
    for shape in ("row", "chain"):
        for label, calls, rounds in [("made", "make", 0), ("made and printed", "print", 1)]:
            _, memory = run(program, (shape, calls, SIZES[-1], rounds, 1, 1))
            told = f"{memory / 1e6:.1f} MB, {memory / SIZES[-1]:.0f} bytes a node"
            print(f"{shape} of {SIZES[-1]:,} nodes, {label}: {told}", flush=True)


def main(words):
    runs = 7
    if words[:1] == ["--runs"] and len(words) > 1 and words[1].isdecimal():
        runs, words = max(int(words[1]), 1), words[2:]
    if len(words) > 1 or any(word.startswith("--") for word in words):
        sys.exit(__doc__)
    program = pathlib.Path(words[0]).resolve() if words else build()
    measure(str(program), runs)


if __name__ == "__main__":
    main(sys.argv[1:])
