"""The proof outline of an execution: each command as text, and the assertion behind it."""
from contextlib import contextmanager
from typing import Iterator, NamedTuple

from domlogic.search.formulas import Formula


class Line(NamedTuple):
    """A line of text, or an assertion, at so many blocks' depth."""

    depth: int
    text: str | None
    assertion: Formula | None = None


class Outline:
    """What has been executed so far. It ends where the search does."""

    def __init__(self):
        self.lines: list[Line] = []
        self.depth = 0

    def tell(self, text: str) -> None:
        self.lines.append(Line(self.depth, text))

    def known(self, assertion: Formula) -> None:
        self.lines.append(Line(self.depth, None, assertion))

    @contextmanager
    def inside(self) -> Iterator[None]:
        """A block's lines are within it."""
        self.depth += 1
        try:
            yield
        finally:
            self.depth -= 1

    def back_to(self, count: int) -> None:
        """Forgets what came after so many lines: another way is tried."""
        del self.lines[count:]
