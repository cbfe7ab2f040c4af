#!/usr/bin/env python3
"""Says what token K of a file or a document is, and on which line.

usage: tests/token_at.py FILE K
"""
import os
import sys

sys.dont_write_bytecode = True  # the checkout stays as it is
sys.path.insert(0, os.path.dirname(os.path.dirname(os.path.abspath(__file__))))
from domlogic.reading.tokens import tokens_of


def described(tokens, number):
    """Returns the line and the text of the token of this number, counted from 1."""
    if not 1 <= number <= len(tokens):
        return f"there are {len(tokens)} tokens: the end of the file"
    token = tokens[number - 1]
    text = {"bad": "no token", "literal": f'"{token.text}"'}.get(token.kind, token.text)
    return f"line {token.line}: {text}"


if __name__ == "__main__":
    if len(sys.argv) != 3 or not sys.argv[2].isdigit():
        sys.exit(__doc__.strip())
    with open(sys.argv[1], "rb") as it:
        print(described(list(tokens_of(it.read())), int(sys.argv[2])))
