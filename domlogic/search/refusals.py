"""What an assistant could not do, and what its author has to know to mend it."""
from typing import Any, NamedTuple


class Missing(NamedTuple):
    """What could not be shown where matching came farthest.

    `hits` counts the pairs that matched before; `kind` is "part" (nothing at `there` is `asked`),
    "fact" (the fact `asked` doesn't follow), or None, where nothing was tried.
    """

    hits: int = -1
    kind: str | None = None
    there: tuple | None = None
    asked: tuple | None = None


class Refusal(NamedTuple):
    """A case of what is known, what was wanted of it, and the first part that wasn't shown; `why`
    says what ended the search, if it wasn't that."""

    case: tuple
    wanted: Any
    missing: Missing = Missing()
    why: str = ""


class Fails(Exception):
    """Raised with a Refusal, or with the words that say why."""
