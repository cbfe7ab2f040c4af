"""How explanations are worded: lists, numbers, shortened texts, and the sorts in words."""
import textwrap

WIDTH = 96
DATA = {"t": "a tree", "f": "a forest", "g": "a grove"}
VALUES = {"node": "a node", "list": "a list of children", "int": "an integer", "str": "a text",
          "bool": "a truth value"}


def code(text: str) -> str:
    """The text as a part of a file."""
    return f"'{text}'"


def listed(items: list[str], word: str = "and") -> str:
    """`a, b and c`."""
    return items[0] if len(items) == 1 else f"{', '.join(items[:-1])} {word} {items[-1]}"


def counted(number: int, noun: str) -> str:
    """`1 premise`, `2 premises`, `no premises`."""
    return f"{number or 'no'} {noun}" + ("" if number == 1 else "s")


def figure(number: int) -> str:
    """A number with its thousands marked."""
    return f"{number:,}"


def shortened(text: str, most: int = 60) -> str:
    """The text, or its beginning and its end where it is too long."""
    if len(text) <= most:
        return text
    end = most // 3
    return f"{text[: most - end - 4]} .. {text[-end:]}"


def sort_in_words(sort: str) -> str:
    """`tg (a grove with a hole for a tree)`."""
    if sort in VALUES:
        return f"{sort} ({VALUES[sort]})"
    if sort in DATA:
        return f"{sort} ({DATA[sort]})"
    hole, k = sort
    return f"{sort} ({DATA[k]} with a hole for {DATA[hole]})"


def wrapped(text: str, first: str = "", indent: str = "") -> list[str]:
    """The text in lines of the page's width, the first of which begins with `first`."""
    return textwrap.wrap(text, WIDTH, initial_indent=first, subsequent_indent=indent,
                         break_long_words=False, break_on_hyphens=False) or [first.rstrip()]


def labelled(label: str, text: str) -> list[str]:
    """The text behind a label of a column of its own."""
    return wrapped(text, f"{label:<9}", " " * 9)
