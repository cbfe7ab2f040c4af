"""A file as its author sees it: lines and columns, and the tokens of each part."""
from domlogic.explaining.wording import WIDTH
from domlogic.reading.theories import Theory, TheoryReader
from domlogic.reading.tokens import Token, layout_end, text_of, tokens_of

# A run of tokens: the place of the first, and of the one behind the last.
Span = tuple[int, int]
INDENT = "    "
CUT = ".. "


class PlacedReader(TheoryReader):
    """The reader of files, which keeps by each part's identity the tokens that it was read from."""

    def __init__(self, tokens: list[Token]):
        super().__init__(tokens)
        self.spans: dict[int, Span] = {}

    def kept(self, read):
        """Reads, and keeps where."""
        begin = self.at
        found = read()
        self.spans[id(found)] = (begin, self.at)
        return found

    def variable(self):
        return self.kept(super().variable)

    def logic_variable(self):
        return self.kept(super().logic_variable)

    def term(self):
        return self.kept(super().term)

    def command_term(self):
        return self.kept(super().command_term)

    def formula(self):
        return self.kept(super().formula)

    def condition(self):
        return self.kept(super().condition)

    def block(self):
        return self.kept(super().block)

    def command(self):
        return self.kept(super().command)

    def declaration(self):
        return self.kept(super().declaration)

    def judgement(self):
        return self.kept(super().judgement)

    def step(self):
        return self.kept(super().step)

    def procedure(self):
        return self.kept(super().procedure)

    def logic_line(self):
        begin = self.at
        found = super().logic_line()
        for at, pair in enumerate(found):
            place = begin + 2 + 2 * at
            self.spans[id(pair)] = (place, place + 1)
        return found


class Source:
    """A file's text with its tokens, and where it is read its theory with the parts' places."""

    def __init__(self, content: bytes):
        self.content = content
        self.text, self.is_whole = text_of(content)
        self.tokens: list[Token] = []
        self.starts: list[int] = []
        self.theory: Theory | None = None
        self.spans: dict[int, Span] = {}

    def take_tokens(self, most: int | None = None) -> None:
        """Reads the tokens, or so many of them."""
        end = 0
        for token in tokens_of(self.content):
            if len(self.tokens) == most:
                break
            self.tokens.append(token)
            self.starts.append(layout_end(self.text, end))
            end = token.end

    def take_theory(self) -> Theory:
        """Reads the file, which has a reading."""
        self.take_tokens()
        reader = PlacedReader(self.tokens)
        self.theory, self.spans = reader.whole(reader.theory), reader.spans
        return self.theory

    def span(self, part: object) -> Span:
        """The tokens of a part of the theory."""
        return self.spans[id(part)]

    def written(self, part: object) -> str:
        """A part of the theory as the file has it, with a space for each run of layout."""
        begin, end = self.span(part)
        return " ".join(self.text[self.starts[begin] : self.tokens[end - 1].end].split())

    def line_of(self, place: int) -> int:
        """The line of a character."""
        return self.text.count("\n", 0, place) + 1

    def column_of(self, place: int) -> int:
        """The column of a character, from 1."""
        return place - (self.text.rfind("\n", 0, place) + 1) + 1

    def place_in_words(self, place: int) -> str:
        return f"line {self.line_of(place)}, column {self.column_of(place)}"

    def view(self, begin: int, end: int | None = None) -> list[str]:
        """Where a run of tokens is: the place, the line on which it begins, and carets below it."""
        last = self.tokens[(begin + 1 if end is None else end) - 1]
        return self.view_of_text(self.starts[begin], last.end)

    def view_of(self, part: object) -> list[str]:
        """The same of a part of the theory."""
        return self.view(*self.span(part))

    def view_of_text(self, first: int, behind: int) -> list[str]:
        """The same of characters."""
        begin = self.text.rfind("\n", 0, first) + 1
        end = self.text.find("\n", first)
        line = self.text[begin:] if end < 0 else self.text[begin:end]
        count = max(1, min(behind, begin + len(line)) - first)
        line, at = windowed(line, first - begin, count)
        carets = "^" * min(count, max(1, WIDTH - at))
        return [f"{self.place_in_words(first)}:", INDENT + line, INDENT + " " * at + carets]


def windowed(line: str, at: int, count: int) -> tuple[str, int]:
    """The part of a long line round a place, as it can be printed, and where the place is in it."""
    begin = 0
    if len(line) > WIDTH:
        begin = max(0, min(at - WIDTH // 3, len(line) - WIDTH))
    if at + count > begin + WIDTH:
        begin = max(begin, min(at - 8, at + count - WIDTH))
    shown = "".join(it if it.isprintable() else " " for it in line[begin : begin + WIDTH]).rstrip()
    if begin + WIDTH < len(line):
        shown += " .."
    return (CUT + shown, at - begin + len(CUT)) if begin else (shown, at)
