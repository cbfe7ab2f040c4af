"""The proved program, asked for its answers."""
import subprocess
import tempfile
from typing import NamedTuple

from domlogic.reading.limits import Refused
from domlogic.reading.requests import theory_of
from domlogic.reading.theories import Theory

ACCEPTED, REFUSED, BAD_WORDS, LIMIT, GAP, UNREAD = 0, 1, 2, 8, 9, 11


class Answer(NamedTuple):
    """A status and the printed text."""

    status: int
    text: str


def asked(program: str, *words: str) -> Answer:
    """Runs the program with these words in the current folder."""
    done = subprocess.run([program, *words], stdin=subprocess.DEVNULL, stdout=subprocess.PIPE,
                          check=False)
    return Answer(done.returncode, done.stdout.decode(errors="replace"))


def checked(program: str, text: str) -> Answer:
    """Has the program check a file of this text."""
    with tempfile.NamedTemporaryFile("w", suffix=".dom", encoding="utf-8") as file:
        file.write(text)
        file.flush()
        return asked(program, "check", file.name)


def read(program: str, file: str) -> tuple[Answer, Theory | None]:
    """What `check` says of the file, and what the file spells where it is well formed."""
    first = asked(program, "check", file)
    if first.status not in (ACCEPTED, REFUSED, GAP):
        return first, None
    try:
        with open(file, "rb") as given:
            return first, theory_of(given.read())
    except Refused as why:
        return Answer(why.status, f"{why.line}\n"), None
    except OSError:
        return Answer(UNREAD, ""), None
