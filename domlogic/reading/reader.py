"""A reader of tokens, of which the grammars are made."""
from domlogic.reading.limits import LAST_I64
from domlogic.reading.tokens import Token


class NoReading(Exception):
    """The tokens spell nothing; the number of the token at which that is seen, from 1."""


class Reader:
    """Tokens, and the place of the next one."""

    def __init__(self, tokens):
        self.tokens, self.at = tokens, 0

    def token(self, ahead=0):
        """Returns the next token, or the one behind it."""
        at = self.at + ahead
        return self.tokens[at] if at < len(self.tokens) else Token("end", "", 0, 0)

    def sees(self, *texts, ahead=0):
        """Says whether the next token is one of these words or symbols."""
        token = self.token(ahead)
        return token.kind in ("word", "symbol") and token.text in texts

    def fail(self):
        raise NoReading(self.at + 1)

    def of_kind(self, kind):
        """Takes a token of this kind and returns its text."""
        if self.token().kind != kind:
            self.fail()
        self.at += 1
        return self.tokens[self.at - 1].text

    def take(self, *texts):
        """Takes one of these words or symbols and returns it."""
        if not self.sees(*texts):
            self.fail()
        self.at += 1
        return self.tokens[self.at - 1].text

    def number(self, least=0, most=LAST_I64):
        """Takes a number of this range."""
        if self.token().kind == "number" and not least <= int(self.token().text) <= most:
            self.fail()
        return int(self.of_kind("number"))

    def spelled(self, *parts):
        """Takes the texts among the parts, and returns what the others, which read, have read."""
        found = []
        for part in parts:
            if isinstance(part, str):
                self.take(part)
            else:
                found.append(part())
        return found

    def separated(self, read, separator):
        """Reads one or more, with this symbol between each two."""
        found = [read()]
        while self.sees(separator):
            found += self.spelled(separator, read)
        return tuple(found)

    def whole(self, read):
        """Reads, and asks that nothing is left."""
        found = read()
        if self.at < len(self.tokens):
            self.fail()
        return found
