"""A name for a part: a logic variable, and the fact of what it is."""
from domlogic.search.book import Book
from domlogic.search.formulas import Formula, Term


def named(book: Book, part: Formula, sort: str, new: Term) -> int:
    """The step that P entails (exists $x . ($x and ($x is P)))."""
    it, fact = ("is it", new), ("is", new, part)
    pair, body = ("and", it, part), ("and", it, fact)
    some, target = ("exists", new, pair), ("exists", new, body)
    ends = (book.ent("and_left", (), pair, it, sort), book.ent("is_in", (), pair, fact, sort))
    inner = book.cut(book.ent("and_in", ends, pair, body, sort),
                     book.ent("exists_in", (), body, target, sort, (new,)))
    return book.cut(book.ent("some", (), part, some, sort),
                    book.ent("exists_out", (inner,), some, target, sort))
