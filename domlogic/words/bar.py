"""A line on a terminal that says how far a search is, where it takes its time."""
import shutil
import sys
import time

from domlogic.search.messages import heading

PATIENCE = 2.0  # seconds before anything is shown
EVERY = 0.1
WIDTH = 20


class Bar:
    """Shown on standard error where that is a terminal, and gone when the search has ended."""

    def __init__(self, whole: int, stream=None):
        self.stream, self.whole, self.at = stream or sys.stderr, max(1, whole), 0
        self.is_shown = self.stream is not None and self.stream.isatty()
        self.next, self.met = time.monotonic() + PATIENCE, set()

    def tell(self, command: tuple) -> None:
        """The search has come to this command."""
        if command not in self.met:
            self.met.add(command)
            self.at += 1
        if self.is_shown and time.monotonic() >= self.next:
            self.next = time.monotonic() + EVERY
            done = min(WIDTH, WIDTH * self.at // self.whole)
            line = f"[{'#' * done}{'.' * (WIDTH - done)}] {heading(command)}"
            self.stream.write("\r\x1b[K" + line[:shutil.get_terminal_size().columns - 1])
            self.stream.flush()

    def end(self) -> None:
        """Takes the line away."""
        if self.is_shown:
            self.stream.write("\r\x1b[K")
            self.stream.flush()
