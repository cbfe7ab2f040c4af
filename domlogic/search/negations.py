"""What a negation says: contradictions, and what (not (P and Q)) and (not (P or Q)) mean."""
from domlogic.search.book import Book
from domlogic.search.formulas import FALSE, Formula


def clash(book: Book, negation: int, number: int) -> int:
    """From the steps of (not P) and of P that of false."""
    _, left, fact, sort = book.judged(negation)
    pair = ("and", fact, fact[1])
    both = book.ent("and_in", (negation, number), left, pair, sort)
    return book.cut(both, book.ent("not_out", (), pair, FALSE, sort))


def by_contradiction(book: Book, whole: Formula, goal: Formula, absurd: int, sort: str) -> int:
    """From the step that (whole and (not goal)) entails false that the whole entails the goal."""
    twice = ("not", ("not", goal))
    denied = book.ent("not_in", (absurd,), whole, twice, sort)
    return book.cut(denied, book.ent("classical", (), twice, goal, sort))


def one_denied(book: Book, fact: Formula, sort: str) -> tuple[int, Formula]:
    """(step, formula): (not (P and Q)) entails ((not P) or (not Q))."""
    sides = fact[1][1:]
    goal = ("or", *(("not", it) for it in sides))
    whole, shown = ("and", fact, ("not", goal)), []
    for side, rule in zip(sides, ("or_left", "or_right")):
        supposed = ("and", whole, ("not", side))
        choice = book.cut(book.side(supposed, 2, sort),
                          book.ent(rule, (), ("not", side), goal, sort))
        denied = book.cut(book.side(supposed, 1, sort), book.side(whole, 2, sort))
        shown.append(by_contradiction(book, whole, side, clash(book, denied, choice), sort))
    absurd = clash(book, book.side(whole, 1, sort), book.both(*shown))
    return by_contradiction(book, fact, goal, absurd, sort), goal


def both_denied(book: Book, fact: Formula, sort: str) -> list[tuple[Formula, int]]:
    """(not P) and (not Q), each with the step that (not (P or Q)) entails it."""
    found = []
    for side, rule in zip(fact[1][1:], ("or_left", "or_right")):
        supposed, denied = ("and", fact, side), ("not", side)
        choice = book.cut(book.side(supposed, 2, sort), book.ent(rule, (), side, fact[1], sort))
        absurd = clash(book, book.side(supposed, 1, sort), choice)
        found.append((denied, book.ent("not_in", (absurd,), fact, denied, sort)))
    return found
