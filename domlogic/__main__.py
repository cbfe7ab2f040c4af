"""The words of ./domcheck that stand on this package.

usage: python3 domlogic --program PROGRAM (prove FILE | show FILE PROC | explain FILE
           | page [--to PAGE] FILE PROC DOC FUEL ARG*)
  PROGRAM   the proved program, which judges whatever is printed, and runs what a page shows
"""
import os
import sys

sys.dont_write_bytecode = True  # the checkout stays as it is
sys.path.insert(0, os.path.dirname(os.path.dirname(os.path.abspath(__file__))))
from domlogic.words.explain import explain
from domlogic.words.page import page
from domlogic.words.program import Answer
from domlogic.words.prove import prove
from domlogic.words.show import show

# The words, each with its function and the number of words after it; None is any number.
WORDS = {"prove": (prove, 1), "show": (show, 2), "explain": (explain, 1), "page": (page, None)}
BAD_WORDS, NO_MEMORY, NOT_WRITTEN = 2, 10, 12


def answer_of(words: list[str]) -> Answer:
    """The answer to the words; bad ones have no reading."""
    if len(words) < 3 or words[0] != "--program" or words[2] not in WORDS:
        return Answer(BAD_WORDS, "bad words\n")
    answer, count = WORDS[words[2]]
    if count not in (None, len(words) - 3):
        return Answer(BAD_WORDS, "bad words\n")
    try:
        return answer(words[1], *words[3:])
    except MemoryError:
        return Answer(NO_MEMORY, "")


def is_written(text: str) -> bool:
    """Writes the text to standard output and says whether all of it went there."""
    if not text:
        return True
    if sys.stdout is None:  # it is closed
        return False
    try:
        sys.stdout.buffer.write(text.encode())
        sys.stdout.buffer.flush()
    except OSError:
        # What is left must not be written once more at the end.
        os.dup2(os.open(os.devnull, os.O_WRONLY), sys.stdout.fileno())
        return False
    return True


def main(words: list[str]) -> int:
    """Answers the words, prints what comes of it, and returns the status."""
    status, text = answer_of(words)
    return status if is_written(text) else NOT_WRITTEN


if __name__ == "__main__":
    sys.setrecursionlimit(100000)
    sys.exit(main(sys.argv[1:]))
