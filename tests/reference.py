#!/usr/bin/env python3
"""A second reading of the language, in plain Python: what domcheck has to answer, without domcheck.

usage: tests/reference.py WORD..
  reads files from the current folder, prints what the program has to print, ends with its status

It was written from the description of the language alone, and nothing of it comes from the program:
the rows beside it can be computed, and where the two differ one of them is wrong. It is slow, and
plain. It is the package domlogic.reading; this file hands it the words.
"""
import os
import sys

sys.dont_write_bytecode = True  # the checkout stays as it is
sys.path.insert(0, os.path.dirname(os.path.dirname(os.path.abspath(__file__))))
from domlogic.reading.requests import answer


def in_folder(name):
    """Returns the bytes of a file of the current folder, or None."""
    try:
        with open(name, "rb") as it:
            return it.read()
    except OSError:
        return None


if __name__ == "__main__":
    given, printed = answer([os.fsencode(word) for word in sys.argv[1:]], in_folder)
    sys.stdout.buffer.write(printed)
    sys.exit(given)
