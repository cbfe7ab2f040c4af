"""One command on one case: the axiom of each, the part that it speaks of, the frame around it."""
from functools import partial
from typing import Callable

from domlogic.search.facts import Facts
from domlogic.search.formulas import NONE, Formula, free, with_part
from domlogic.search.frames import Frames, Place
from domlogic.search.heaps import Case, Command
from domlogic.search.places import (CHILDREN, LIST, NAME, NUMBER, Node, child_above, child_of,
                                    moved, node_of, numbered_child, root_above, split_around)
from domlogic.search.printing import term_text
from domlogic.search.refusals import Fails, Refusal

NULL = ("null",)


def old_value(frames: Frames, case: Case, term: Formula, variable: Formula) -> Formula:
    """The term with the old value of the variable that is set, where the case has a name for it."""
    for fact in case.pure:
        if fact[0] == "=" and fact[1] == variable and fact[2][0] == "logic":
            return frames.book.subst(term, {variable: fact[2]})
    return term


# ---------------------------------------------------------------------- reading

def assign(frames: Frames, case: Case, command: Command) -> int:
    """x := E: the value is that of E with the old x."""
    book, (_, variable, term) = frames.book, command
    meant = old_value(frames, case, term, variable)
    kept = tuple(it for it in case.pure if variable not in free(it))
    set_to, same = ("=", variable, meant), ("=", term, meant)
    post = case._replace(pure=(*kept, set_to)).formula
    before = case._replace(pure=(*kept, same)).formula
    triple = book.tri("assign", (), before, command, post, case.sort)
    known = frames.known(case)
    start = frames.shapes.gather(known.whole, before, case.sort, [(same, known.prove(same))])
    return frames.triples.stronger(start, triple)


def read_in_place(frames: Frames, case: Case, command: Command, axiom: str, place: Place,
                  form: Formula, fact: Formula, value: Formula) -> int:
    """A command that sets its variable to a value that it finds at a place in this form."""
    book, sort, equation = frames.book, place.sort, ("=", command[1], value)
    triple = book.tri(axiom, (), ("and", form, fact), command, ("and", form, equation), sort)
    known = frames.known(Case(place.part, case.pure, sort))
    return frames.at(case, place, frames.arranged(known, form, [fact]), triple)


def read_part(frames: Frames, case: Case, command: Command, part: int, axiom: str) -> int:
    """nodeName and childNodes: a part of the node."""
    term = command[2]
    path, node = node_of(frames.shapes, frames.known(case), term)
    place, fact = Place(case.shape, path, "t"), ("=", term, node[NUMBER])
    return read_in_place(frames, case, command, axiom, place, node, fact, node[part])


def read_parent(frames: Frames, case: Case, command: Command) -> int:
    """parentNode: the node above, or null for a root."""
    term = command[2]
    path, node = node_of(frames.shapes, frames.known(case), term)
    fact, root = ("=", term, node[NUMBER]), root_above(case.shape, path)
    if root is not None:
        place = Place(case.shape, root, "g")
        return read_in_place(frames, case, command, "parent_none", place, place.part, fact, NULL)
    found = child_above(frames.shapes, case.shape, path)
    if found is None:
        raise Fails(Refusal(case.formula, "what is above the node " + term_text(term)))
    form = split_around(frames.shapes, found)
    place = Place(case.shape, found.path, "t")
    return read_in_place(frames, case, command, "parent", place, form, fact, found.parent[NUMBER])


# ---------------------------------------------------------------------- item

def read_item(frames: Frames, case: Case, command: Command) -> int:
    """item: the child behind a beginning of that length, or null where the list isn't so long."""
    _, _, listing, index = command
    known = frames.known(case)
    place = node_of(frames.shapes, known, listing, LIST)
    children = frames.shapes.atoms("*", place.formula[CHILDREN])
    for at, child in enumerate(children):
        try:
            _, length = frames.matching.length(frames.shapes.row_of_parts("*", children[:at]))
        except Fails:
            break
        is_node = child[0] == "one tree" and child[1][0] == "node"
        if is_node and known.prove(("=", index, length)) is not None:
            return item_found(frames, case, command, place, at)
    return item_missing(frames, case, command, place)


def item_found(frames: Frames, case: Case, command: Command, place: Node, at: int) -> int:
    """The child at this place of the list is the one."""
    shapes, book, node = frames.shapes, frames.book, place.formula
    child = child_of(shapes, place, at)
    before = shapes.row_of_parts("*", child.before)
    number, length = frames.matching.length(before)
    plain = split_around(shapes, child)
    counted = ("and", before, ("len", length))
    form = with_part(plain, CHILDREN, ("*", ("*", counted, child.tree), plain[CHILDREN][2]))
    inside = (CHILDREN, 1, 1)
    more = book.cut(frames.turned(node, plain, "t"), book.lift(plain, "t", inside, number))
    shorter = book.ent("and_left", (), counted, before, "f")
    less = book.cut(book.lift(form, "t", inside, shorter), frames.turned(plain, node, "t"))
    fact = ("=", command[3], length)
    return item_framed(frames, case, command, place, "item", form, (more, less), fact,
                       child.tree[1][NUMBER])


def item_missing(frames: Frames, case: Case, command: Command, place: Node) -> int:
    """The index is negative, or the list isn't so long."""
    book, node, index = frames.book, place.formula, command[3]
    try:
        number, length = frames.matching.length(node[CHILDREN])
    except Fails:
        wanted = f"the child at place {term_text(index)}, or how many children there are"
        raise Fails(Refusal(case.formula, wanted)) from None
    counted = ("and", node[CHILDREN], ("len", length))
    form = with_part(node, CHILDREN, counted)
    more = book.lift(node, "t", (CHILDREN,), number)
    shorter = book.ent("and_left", (), counted, node[CHILDREN], "f")
    less = book.lift(form, "t", (CHILDREN,), shorter)
    fact = ("or", ("<=", index, ("int", -1)), ("<=", length, index))
    return item_framed(frames, case, command, place, "item_none", form, (more, less), fact, NULL)


def item_framed(frames: Frames, case: Case, command: Command, place: Node, axiom: str,
                form: Formula, ways: tuple[int, int], fact: Formula, value: Formula) -> int:
    """The axiom speaks of the node in a form with a length beside; the ways are the steps there
    and back."""
    book, node, (there, back) = frames.book, place.formula, ways
    _, variable, listing, _ = command
    known = frames.known(Case(node, case.pure, "t"))
    start = book.cut(frames.shapes.gather(known.whole, node, "t"), there)
    inner = frames.with_facts(known, start, [("=", listing, node[LIST]), fact])
    equation = ("=", variable, value)
    post, after = ("and", form, equation), ("and", node, equation)
    triple = book.tri(axiom, (), book.judged(inner)[2], command, post, "t")
    mine = book.cut(book.ent("and_left", (), post, form, "t"), back)
    ends = mine, book.ent("and_right", (), post, equation, "t")
    triple = frames.triples.weaker(triple, book.ent("and_in", ends, post, after, "t"))
    return frames.at(case, Place(case.shape, place.path, "t"), inner, triple)


# ---------------------------------------------------------------------- changing

def create(frames: Frames, case: Case, command: Command) -> int:
    """createNode: a new root beside all."""
    if case.sort != "g":
        raise Fails(Refusal(case.formula, "a grove: createNode asks for the sort g"))
    book, (_, variable, term) = frames.book, command
    meant, place = old_value(frames, case, term, variable), frames.beside_nothing(case)
    listing, fact = book.fresh("list"), ("=", term, meant)
    post = ("exists", listing, ("one root", ("node", meant, variable, NONE, listing)))
    triple = book.tri("create", (), ("and", place.part, fact), command, post, "g")
    known = frames.known(Case(place.part, case.pure, "g"))
    return frames.at(case, place, frames.arranged(known, place.part, [fact]), triple)


def append(frames: Frames, case: Case, command: Command) -> int:
    """appendChild: the node goes to the end of the target's children."""
    return put_in(frames, case, command, "append")


def insert(frames: Frames, case: Case, command: Command) -> int:
    """insertBefore: the same where the last word is null; else before the child of that number."""
    known, reference = frames.known(case), command[3]
    is_last = known.prove(("=", reference, NULL)) is not None
    return put_in(frames, case, command, "insert_last" if is_last else "insert_before")


def put_in(frames: Frames, case: Case, command: Command, axiom: str) -> int:
    """Takes the node from its place and puts it among the target's children.

    The context of the case with the node taken out is known by what it gives with nothing in its
    hole: so the axiom's adjoint stands for it.
    """
    book, shapes, known = frames.book, frames.shapes, frames.known(case)
    _, target, term, *reference = command
    piece = moved(shapes, known, term)
    context, _, cut_out = shapes.spot(case.shape, case.sort, piece.path)
    app = "@" + piece.sort
    rest = shapes.canon((app, context, piece.nothing), case.sort)
    there = frames.known(case._replace(shape=rest.right))
    parent = node_of(shapes, there, target)
    form, after, facts = parent.formula, None, []
    if axiom == "insert_before":
        form, after, facts = before_child(frames, there, parent, piece.node, reference[0])
    else:
        children = ("*", form[CHILDREN], ("one tree", piece.node))
        after, facts = with_part(form, CHILDREN, children), [("=", it, NULL) for it in reference]
    outer, _, again = shapes.spot(rest.right, case.sort, parent.path)
    turned = frames.turned(parent.formula, form, "t")
    if turned is not None:
        same = book.id(outer, "t" + case.sort)
        again = book.cut(again, book.ent("mono_app", (same, turned), ("@t", outer, parent.formula),
                                         ("@t", outer, form), case.sort))
    adjoint = ("-o", piece.nothing, ("@t", outer, form))
    with_nothing = book.cut(rest.fwd(), again)
    into = book.ent("hole_adj_in", (with_nothing,), context, adjoint, piece.sort + case.sort)
    focus = (app, adjoint, piece.piece)
    premises = into, book.id(piece.piece, piece.sort)
    number = book.ent("mono_app", premises, (app, context, piece.piece), focus, case.sort)
    number = book.cut(cut_out, number)
    facts = [("=", target, form[NUMBER]), ("=", term, piece.node[NUMBER]), *facts]
    return frames.of_whole(case, command, axiom, number, facts, ("@t", outer, after))


def before_child(frames: Frames, known: Facts, parent: Node, node: Formula, reference: Formula):
    """(the target split at the child of this number, it with the node before that, what has to be
    known)."""
    child = numbered_child(frames.shapes, known, parent, reference)
    form = split_around(frames.shapes, child)
    (_, (_, first, _), rest) = form[CHILDREN]
    children = ("*", ("*", ("*", first, ("one tree", node)), child.tree), rest)
    return form, with_part(form, CHILDREN, children), [("=", reference, child.tree[1][NUMBER])]


def remove(frames: Frames, case: Case, command: Command) -> int:
    """removeChild: the node becomes a root beside all."""
    if case.sort != "g":
        raise Fails(Refusal(case.formula, "a grove: removeChild asks for the sort g"))
    book, shapes, (_, target, term) = frames.book, frames.shapes, command
    piece = moved(shapes, frames.known(case), term)
    found = child_above(shapes, case.shape, piece.path + (1,))
    if found is None:
        raise Fails(Refusal(case.formula, "a parent above the node " + term_text(term)))
    form = split_around(shapes, found)
    context, _, cut_out = shapes.spot(case.shape, case.sort, found.path)
    focus = ("@t", context, form)
    premises = book.id(context, "tg"), frames.turned(found.parent, form, "t") or book.id(form, "t")
    turned = book.ent("mono_app", premises, ("@t", context, found.parent), focus, case.sort)
    number = book.cut(cut_out, turned)
    facts = [("=", target, form[NUMBER]), ("=", term, piece.node[NUMBER])]
    rows = (shapes.row_of_parts("*", it) for it in (found.before, found.after))
    left = with_part(form, CHILDREN, ("*", *rows))
    after = ("+", ("@t", context, left), ("one root", piece.node))
    return frames.of_whole(case, command, "remove", number, facts, after)


# What each command does to one case.
TABLE: dict[str, Callable[[Frames, Case, Command], int]] = {
    ":=": assign,
    "nodeName": partial(read_part, part=NAME, axiom="name"),
    "childNodes": partial(read_part, part=LIST, axiom="children"),
    "parentNode": read_parent,
    "item": read_item,
    "createNode": create,
    "appendChild": append,
    "insertBefore": insert,
    "removeChild": remove,
}
