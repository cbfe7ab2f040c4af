"""Known contexts under a name: a call that wants a node anywhere, ($k @t node), meets it in a
context that is no variable. So that gets a name before the call, and is put for it behind."""
from typing import Iterator, NamedTuple

from domlogic.search.formulas import Formula, Path, disjunction, part_at, with_part_at
from domlogic.search.frames import Frames
from domlogic.search.heaps import Case, Opened, Variable
from domlogic.search.naming import named as name_for
from domlogic.search.places import NUMBER, node_of
from domlogic.search.refusals import Fails


class Named(NamedTuple):
    """A case in which a context has a name, and the step to it, for some context of that name."""

    name: Variable
    case: Case
    step: int


def wanted_anywhere(formula: Formula) -> Iterator[Formula]:
    """Gives the terms N of the parts ($k @t node N) of a formula, $k a variable."""
    if formula[0] == "@t" and formula[1][0] == "is it" and formula[2][0] == "node":
        yield formula[2][NUMBER]
    for part in formula[1:]:
        if isinstance(part, tuple) and part:
            yield from wanted_anywhere(part)


def root_around(shape: Formula, path: Path) -> Path:
    """The place of the part of a sum of roots in which the path leads."""
    depth = 0
    while depth < len(path) and part_at(shape, path[:depth])[0] == "+":
        depth += 1
    return path[:depth]


def named_contexts(frames: Frames, case: Case, wanted: Formula) -> Iterator[Named]:
    """Gives the case with a name for the context of a node that is wanted anywhere."""
    if case.sort != "g":
        return
    known = frames.known(case)
    for term in wanted_anywhere(wanted):
        try:
            path = node_of(frames.shapes, known, term).path
        except Fails:
            continue
        root = root_around(case.shape, path)
        part = part_at(case.shape, root)
        if not (part[0] == "@t" and part[1][0] == "is it" and len(path) == len(root) + 1):
            yield named(frames, case, root, path[len(root):])


def named(frames: Frames, case: Case, root: Path, path: Path) -> Named:
    """The context of what stands at the path, in the part at `root`, gets a name."""
    book, shapes = frames.book, frames.shapes
    part = part_at(case.shape, root)
    inside = part_at(part, path)
    context, _, cut_out = shapes.spot(part, "g", path)
    new = book.fresh("tg")
    called = name_for(book, context, "tg", new)
    _, _, some, _ = book.judged(called)
    fact, body = ("is", new, context), some[2]
    in_some = ("@t", some, inside)
    premises = called, book.id(inside, "t")
    both = book.ent("mono_app", premises, ("@t", context, inside), in_some, "g")
    under = ("exists", new, ("@t", body, inside))
    outside = book.ent("app_exists_ctx", (), in_some, under, "g")
    plain = ("and", ("@t", ("is it", new), inside), fact)
    out = book.ent("pure_out", (), ("@t", body, inside), plain, "g")
    target = ("exists", new, plain)
    out = book.cut(out, book.ent("exists_in", (), plain, target, "g", (new,)))
    out = book.ent("exists_out", (out,), under, target, "g")
    number = book.cut(cut_out, both, outside, out)
    step, formula = shapes.rewrite(case.shape, list(case.pure), case.sort, root, number)
    cased = frames.triples.heaps.of(formula, case.sort)
    opened = cased.cases[0]
    return Named(opened.variables[0], opened.case, book.cut(step, cased.step))


def unnamed(frames: Frames, number: int, name: Variable) -> int:
    """The triple with what the context is put for its name in the post."""
    book, heaps = frames.book, frames.triples.heaps
    _, _, _, post, sort = book.judged(number)
    cased = heaps.of(post, sort)
    if not cased.cases:
        return frames.triples.weaker(number, cased.step)
    changed = [without_name(frames, it.case, name) for it in cased.cases]
    cases = [Opened(it.variables, case) for it, (case, _) in zip(cased.cases, changed)]
    whole = disjunction([it.formula for it in cases])
    ends = [book.cut(step, heaps.into(it, whole, at, len(cases)))
            for at, (it, (_, step)) in enumerate(zip(cases, changed))]
    number = frames.triples.weaker(number, book.cut(cased.step, heaps.joined(cased.cases, ends)))
    return frames.triples.by_cases(number)


def without_name(frames: Frames, case: Case, name: Variable) -> tuple[Case, int]:
    """The case with the context in place of its name, and the step to it."""
    book, shapes, it = frames.book, frames.shapes, ("is it", name)
    fact = next((it for it in case.pure if it[:2] == ("is", name)), None)
    path = next((path for path, part, _ in shapes.paths(case.shape, case.sort)
                 if part[0] == "@t" and part[1] == it), None)
    if fact is None or path is None:
        return case, book.id(case.formula, case.sort)
    _, _, inside = part = part_at(case.shape, path)
    taken = ("@t", ("and", it, fact), inside)
    after = ("@t", fact[2], inside)
    back = book.ent("is_out", (), ("and", it, fact), fact[2], "tg")
    number = book.cut(book.ent("pure_in", (), ("and", part, fact), taken, "g"),
                      book.ent("mono_app", (back, book.id(inside, "t")), taken, after, "g"))
    step, formula = shapes.rewrite(case.shape, list(case.pure), case.sort, path, number, fact)
    kept = tuple(one for one in case.pure if one != fact)
    other = Case(with_part_at(case.shape, path, after), kept, case.sort)
    return other, book.cut(step, shapes.gather(formula, other.formula, case.sort))
