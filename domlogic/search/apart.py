"""What a shape says of its nodes: none is null, and two of them differ in number and list."""
from typing import Iterator

from domlogic.search.equations import Equations
from domlogic.search.formulas import Formula, Path, Term, part_at, sort_at, with_part

# Where a node has its number and its list, and what neither of them is.
NUMBER, LISTING = 2, 4
NOTHING = {NUMBER: ("null",), LISTING: ("nolist",)}
Shown = tuple[int, Formula]  # a step that the heap entails a fact, and the fact


def common_prefix(one: Path, other: Path) -> int:
    """The length of what two paths have in common."""
    count = 0
    while count < min(len(one), len(other)) and one[count] == other[count]:
        count += 1
    return count


class Nodes(Equations):
    """Negated equations that the shape gives."""

    def nodes(self) -> Iterator[tuple[Path, Formula]]:
        """The nodes of the shape and where they are, the outer ones first."""
        for path, part, _ in self.shapes.paths(self.shape, self.sort):
            if part[0] == "node":
                yield path, part

    def shown_at(self, path: Path, number: int) -> int:
        """From a step that the part at the path entails a fact, that the heap entails it."""
        start = self.shapes.gather(self.whole, self.shape, self.sort)
        return self.book.cut(start, self.shapes.fact_of_part(self.shape, self.sort, path, number))

    def node_fact(self, path: Path, part: Formula, at: int) -> Shown:
        """A node's number (2) isn't null; its list (4) isn't nolist."""
        book = self.book
        facts = ("and", *(("not", ("=", part[it], NOTHING[it])) for it in (NUMBER, LISTING)))
        side = 1 if at == NUMBER else 2
        number = book.cut(book.ent("not_null", (), part, facts, "t"), book.side(facts, side, "t"))
        return self.shown_at(path, number), facts[side]

    def apart(self, one: Path, other: Path, at: int) -> Shown:
        """The nodes at the two paths differ in number (2) or list (4)."""
        book, count = self.book, common_prefix(one, other)
        sort = sort_at(self.shape, self.sort, one[:count])
        top = part_at(self.shape, one[:count])
        if count == len(one):
            number, rule, nodes = self.below(top, other[count:])
        else:
            number, rule, nodes = self.beside(top, one[count:], other[count:], sort)
        facts = ("and", *(("not", ("=", nodes[0][it], nodes[1][it])) for it in (NUMBER, LISTING)))
        side = 1 if at == NUMBER else 2
        differ = book.ent(rule, (), book.judged(number)[2], facts, sort)
        number = book.cut(number, differ, book.side(facts, side, sort))
        return self.shown_at(one[:count], number), facts[side]

    def below(self, top: Formula, path: Path) -> tuple[int, str, list[Formula]]:
        """(step, rule, nodes): a node below another is cut out of its children."""
        _, _, number = self.shapes.spot(top[3], "f", path[1:])
        return self.book.lift1(top, "t", 3, number), "apart_up", [top, part_at(top, path)]

    def beside(self, top: Formula, one: Path, other: Path,
               sort: str) -> tuple[int, str, list[Formula]]:
        """The same of two nodes in the two parts of a row or sum."""
        book, start, number = self.book, top, None
        paths = sorted((one, other))  # the one in the left part first
        for side, path in zip((1, 2), paths):
            _, _, step = self.shapes.spot(top[side], sort, path[1:])
            number = book.cut(number, book.lift1(start, sort, side, step))
            start = with_part(start, side, book.judged(step)[2])
        rule = "apart_star" if top[0] == "*" else "apart_plus"
        return number, rule, [part_at(top, path) for path in paths]

    def twins(self) -> tuple[Path, Path, int] | None:
        """The places of two nodes of one number (2) or one list (4), which can't be."""
        for at in (NUMBER, LISTING):
            met: dict[Term, Path] = {}
            for path, part in self.nodes():
                meant = self.rep(part[at], True)
                if meant in met and meant not in NOTHING.values():
                    return met[meant], path, at
                met[meant] = path
        return None
