"""A closer look at a case in which a command finds no axiom: what is known may say more."""
from typing import Iterator

from domlogic.search.facts import Facts
from domlogic.search.formulas import TRUE, Formula, part_at
from domlogic.search.frames import Frames
from domlogic.search.heaps import Case, Command
from domlogic.search.naming import named
from domlogic.search.places import CHILDREN, LIST, NUMBER, node_of
from domlogic.search.refusals import Fails

# A step, and the formula that the case entails by it.
Look = tuple[int, Formula]


def looks(frames: Frames, case: Case, command: Command, needs: list,
          wanted: Formula) -> Iterator[Look]:
    """Gives formulas that the case entails and that may serve the command better. A call wants the
    formula `wanted`."""
    if command[0] == "call":
        yield from lengths(frames, case, wanted)
        yield from named_parts(frames, case, needs)
        yield from named_rests(frames, case, wanted)
    yield from opened_variables(frames, case)
    if command[0] == "item":
        yield from split_for_item(frames, case, command)
    if command[0] == "call":
        for path, part, sort in frames.shapes.paths(case.shape, case.sort):
            if sort == "f" and (part == TRUE or part[0] == "is it"):
                yield split(frames, case, path, part)


def split(frames: Frames, case: Case, path: tuple, part: Formula) -> Look:
    """The forest at the path is empty, or has a first node and a rest."""
    number = frames.matching.cases(part)
    return frames.shapes.rewrite(case.shape, list(case.pure), case.sort, path, number)


def named_parts(frames: Frames, case: Case, needs: list) -> Iterator[Look]:
    """A part gets a name where a call wants a variable."""
    known = frames.known(case)
    for wanted, wanted_sort in needs:
        for path, part, sort in frames.shapes.paths(case.shape, case.sort):
            if sort == wanted_sort and known.rep(part) == wanted and part[0] != "is it":
                yield frames.matching.name(known, path)
                break


def wanted_nodes(formula: Formula) -> Iterator[Formula]:
    """Gives the nodes of a formula."""
    if formula[0] == "node":
        yield formula
    for part in formula[1:]:
        if isinstance(part, tuple) and part:
            yield from wanted_nodes(part)


def lengths(frames: Frames, case: Case, wanted: Formula) -> Iterator[Look]:
    """Children have some length where a call wants to know no more of them."""
    book, known = frames.book, frames.known(case)
    for node in wanted_nodes(wanted):
        if node[CHILDREN][0] != "len" or node[CHILDREN][1][0] != "logic":
            continue
        try:
            path, there = node_of(frames.shapes, known, node[NUMBER])
        except Fails:
            continue
        try:
            frames.matching.length(there[CHILDREN])
        except Fails:
            new = book.fresh("int")
            some = ("exists", new, ("and", ("len", new), ("<=", ("int", 0), new)))
            number = book.cut(book.ent("true_in", (), there[CHILDREN], TRUE, "f"),
                              book.ent("len_some", (), TRUE, some, "f"))
            yield frames.shapes.rewrite(case.shape, list(case.pure), case.sort,
                                        (*path, CHILDREN), number)


def named_rests(frames: Frames, case: Case, wanted: Formula) -> Iterator[Look]:
    """The children before all trees that a call names, or behind them, get a name, also where there
    are none."""
    known = frames.known(case)
    for node in wanted_nodes(wanted):
        atoms = frames.shapes.atoms("*", frames.shapes.canon(node[CHILDREN], "f").right)
        trees = [at for at, it in enumerate(atoms) if it[0] == "one tree" and it[1][0] == "node"]
        try:
            path, there = node_of(frames.shapes, known, node[NUMBER])
            places = [child_place(frames, known, there, atoms[at][1][NUMBER]) for at in trees]
        except Fails:
            continue
        if trees and trees[0] == 1 and atoms[0][0] == "is it":
            yield from named_row(frames, case, (*path, CHILDREN), places[0], 1)
        if trees and trees[-1] == len(atoms) - 2 and atoms[-1][0] == "is it":
            yield from named_row(frames, case, (*path, CHILDREN), places[-1] + 1, 2)


def child_place(frames: Frames, known: Facts, parent: Formula, term: Formula) -> int:
    """At which place among the children the node of the term stands."""
    _, node = node_of(frames.shapes, known, term)
    children = frames.shapes.atoms("*", parent[CHILDREN])
    if ("one tree", node) not in children:
        raise Fails("no child")
    return children.index(("one tree", node))


def named_row(frames: Frames, case: Case, path: tuple, at: int, side: int) -> Iterator[Look]:
    """Of the row at the path the atoms up to a place (side 1) or behind it (side 2) get a name."""
    shapes, book, row = frames.shapes, frames.book, part_at(case.shape, path)
    atoms = shapes.atoms("*", row)
    parts = atoms[:at], atoms[at:]
    if len(parts[side - 1]) == 1 and parts[side - 1][0][0] == "is it":
        return
    wide = ("*", *(shapes.row_of_parts("*", it) for it in parts))
    name = named(book, wide[side], "f", book.fresh("f"))
    number = book.cut(frames.turned(row, wide, "f"), book.lift(wide, "f", (side,), name))
    yield shapes.rewrite(case.shape, list(case.pure), case.sort, path, number)


def opened_variables(frames: Frames, case: Case) -> Iterator[Look]:
    """A variable is what is known of it."""
    for path, part, sort in list(frames.shapes.paths(case.shape, case.sort)):
        if part[0] != "is it":
            continue
        for fact in case.pure:
            if fact[0] == "is" and fact[1] == part[1]:
                number = frames.book.ent("is_out", (), ("and", part, fact), fact[2], sort)
                pure = list(case.pure)
                yield frames.shapes.rewrite(case.shape, pure, case.sort, path, number, fact)


def split_for_item(frames: Frames, case: Case, command: Command) -> Iterator[Look]:
    """The forest that begins at the wanted index is split."""
    known = frames.known(case)
    try:
        path, node = node_of(frames.shapes, known, command[2], LIST)
    except Fails:
        return
    children, inside = frames.shapes.atoms("*", node[CHILDREN]), path + (CHILDREN,)
    for at, part in enumerate(children):
        try:
            _, length = frames.matching.length(frames.shapes.row_of_parts("*", children[:at]))
        except Fails:
            return
        is_forest = part == TRUE or part[0] in ("is it", "len")
        if is_forest and known.prove(("=", command[3], length)):
            yield split(frames, case, inside + ((1,) if at + 1 < len(children) else ()), part)
        inside += (2,)
