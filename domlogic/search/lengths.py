"""How many trees a forest has."""
from domlogic.reading.computing import difference
from domlogic.search.formulas import NONE, Formula, Term, conjuncts
from domlogic.search.refusals import Fails
from domlogic.search.shapes import Shapes


class Lengths:
    """The lengths of forests whose parts have one."""

    def __init__(self, shapes: Shapes):
        self.shapes, self.book = shapes, shapes.book

    def length(self, forest: Formula) -> tuple[int, Term]:
        """(step, term): the forest entails (the forest and len term)."""
        if forest[0] == "*":
            return self.length_of_row(forest)
        number, term = self.length_of_part(forest)
        return self.book.both(self.book.id(forest, "f"), number), term

    def length_of_part(self, forest: Formula) -> tuple[int, Term]:
        """(step, term): the forest, which is no row, entails len term."""
        book = self.book
        if forest == NONE:
            return book.ent("len_empty", (), NONE, ("len", ("int", 0)), "f"), ("int", 0)
        if forest[0] == "one tree":
            return book.ent("len_tree", (), forest, ("len", ("int", 1)), "f"), ("int", 1)
        lengths = [it for it in conjuncts(forest) if it[0] == "len"]
        if not lengths:
            raise Fails("nothing tells how many trees there are")
        return self.shapes.project(forest, lengths[-1], "f"), lengths[-1][1]

    def length_of_row(self, forest: Formula) -> tuple[int, Term]:
        """The same as `length` of a row; two numbers are added up."""
        book = self.book
        one, first = self.length(forest[1])
        two, second = self.length(forest[2])
        term, sides = ("+", first, second), ("*", book.judged(one)[2], book.judged(two)[2])
        both = ("and", forest, ("len", term))
        number = book.cut(book.ent("mono_star", (one, two), forest, sides, "f"),
                          book.ent("len_star", (), sides, both, "f"))
        if first[0] != "int" or second[0] != "int":
            return number, term
        total = ("int", first[1] + second[1])
        loose = book.cut(number, book.side(both, 2, "f"))
        return book.both(book.id(forest, "f"), self.length_as(forest, loose, term, total)), total

    def length_as(self, left: Formula, number: int, term: Term, want: Term) -> int:
        """From the step that the left side entails len term that it entails len want, which is the
        same sum."""
        if term == want:
            return number
        book, zero, equal = self.book, ("=", ("int", 0), ("int", 0)), ("=", term, want)
        assert not difference((want, 1), (term, -1))
        known = book.cut(book.ent("eq_refl", (), left, zero, "f"),
                         book.ent("linear", (), zero, equal, "f", (("int", 0),)))
        pair = ("and", equal, ("len", term))
        both = book.ent("and_in", (known, number), left, pair, "f")
        return book.cut(both, book.ent("eq_subst", (), pair, ("len", want), "f"))

    def only_length(self, forest: Formula) -> int:
        """The step that the forest entails its length."""
        number, term = self.length(forest)
        return self.book.cut(number, self.book.side(("and", forest, ("len", term)), 2, "f"))
