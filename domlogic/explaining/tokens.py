"""A token that can't be read: where it is, what could stand there, what is usually meant."""
from domlogic.explaining.source import Source
from domlogic.explaining.wording import code, counted, figure, shortened, wrapped
from domlogic.reading.limits import LAST_I64, SHAPE_SORTS, VALUE_SORTS
from domlogic.reading.names import run_end
from domlogic.reading.reader import NoReading
from domlogic.reading.theories import CONNECTIVES, TheoryReader
from domlogic.reading.tokens import DIGITS, RESERVED, SYMBOLS, Token, tokens_of

# What a token may be, by its kind or its text.
ANY_NAME, ANY_WORD = "a name", "the name of a rule"
LOGIC, TEXT = "a logic name, as '$n'", "a text, as '\"a\"'"
NUMBER, SMALL, NOT_ZERO = "a number", "a number up to 4,294,967,295", "a number from 1 on"
END = "the end of the file"
SIGNS = SYMBOLS | {"0f", "0g"}

TERM_WORDS = {"null", "nolist", "yes", "no", "-", "{"}
COMMAND_TERM = TERM_WORDS | {ANY_NAME, TEXT, NUMBER}
TERM = COMMAND_TERM | {LOGIC}
FORMULA = TERM | {"true", "false", "0f", "0g", "?t", "?f", "?g", "len", "<", "[", "("}
# The groups in which tokens are told, the larger first.
GROUPS = (
    ("a formula", FORMULA),
    ("a condition", COMMAND_TERM | {"true", "false", "("}),
    ("a term", TERM),
    ("a term without logic variables", COMMAND_TERM),
    ("a command",
     {"skip", "{", "if", "while", "local", "call", "appendChild", "removeChild", ANY_NAME}),
    ("a connective:", set(CONNECTIVES)),
    ("a sort:", {*VALUE_SORTS, *SHAPE_SORTS}),
    ("a sort:", set(SHAPE_SORTS)),
    ("a sort:", set(VALUE_SORTS)),
    ("a sort:", {"t", "f", "g"}),
)
NUMBERS = {("0", "1", "4294967296"): NUMBER, ("0", "1"): SMALL, ("1", "4294967296"): NOT_ZERO}
# The shortest procedure, in place of those before the token.
SHORTEST = list(tokens_of(b"proc p() returns () sort g requires 0g ensures 0g body skip proof end"))


def explained(source: Source, number: int) -> list[str]:
    """What to say of a file whose fault token is this one."""
    source.take_tokens(number)
    before, is_end = source.tokens[: number - 1], len(source.tokens) < number
    offered = possible(before)
    if is_end:
        end = source.tokens[-1].end if source.tokens else 0
        shown = source.view_of_text(end, end + 1)
        told = [f"The file ends here, behind {counted(len(before), 'token')}, and isn't whole. "
                "What can follow:"]
    else:
        shown = source.view(number - 1)
        told = wrapped(f"{refusal(source, number)} What can stand here:")
    told += [*(line for it in grouped(offered) for line in wrapped(it, "    ", "      "))]
    return [*shown, *told, *advice(source, number, offered)]


class WatchedReader(TheoryReader):
    """The reader of files, which keeps where the last procedure and its steps begin.

    Of the token at one place it keeps what is asked of it.
    """

    def __init__(self, tokens: list[Token], watched: int):
        super().__init__(tokens)
        self.watched, self.asked = watched, set()
        self.procedures, self.begun = [], []

    def procedure(self):
        self.procedures.append(self.at)
        self.begun = []
        return super().procedure()

    def step(self):
        self.begun.append(self.at)
        return super().step()

    def sees(self, *texts, ahead=0):
        if self.at + ahead == self.watched:
            self.asked |= set(texts)
        return super().sees(*texts, ahead=ahead)

    def of_kind(self, kind):
        if self.at == self.watched:
            self.asked.add(f"any {kind}")
        return super().of_kind(kind)


def watched(tokens: list[Token]) -> tuple[WatchedReader, bool]:
    """Reads the tokens, watching the place behind them; and says whether they are a file."""
    reader = WatchedReader(tokens, len(tokens))
    try:
        reader.whole(reader.theory)
    except NoReading:
        return reader, False
    reader.asked.add("proc")
    return reader, True


def shorter(tokens: list[Token], reader: WatchedReader, is_file: bool) -> list[Token]:
    """Tokens after which the same can stand: without whole procedures and whole steps."""
    if is_file:
        return [*tokens[:2], *SHORTEST]
    if not reader.procedures:
        return tokens
    begin = reader.procedures[-1]
    head = tokens[:2] + (SHORTEST if len(reader.procedures) > 1 else [])
    if not reader.begun:
        return head + tokens[begin:]
    return head + tokens[begin : reader.begun[0]] + tokens[reader.begun[-1] :]


def moves_on(tokens: list[Token]) -> bool:
    """Says whether some file begins with these tokens."""
    reader = TheoryReader(tokens)
    try:
        reader.whole(reader.theory)
    except NoReading as why:
        return why.args[0] > len(tokens)
    return True


def possible(before: list[Token]) -> set[str]:
    """What can stand behind these tokens, which begin some file.

    No token is taken that isn't asked for, so what the reader asks for there is tried, and no more.
    """
    reader, is_file = watched(before)
    before = shorter(before, reader, is_file)
    fits = lambda kind, text: moves_on([*before, Token(kind, text, 0, 0)])
    texts = {text for text in reader.asked if not text.startswith("any ")}
    found = {text for text in texts if fits("symbol" if text in SIGNS else "word", text)}
    if "any word" in reader.asked and fits("word", "_"):
        found.add(ANY_WORD if fits("word", "end") and fits("word", "proc") else ANY_NAME)
    found |= {LOGIC} if fits("logic", "$_") else set()
    found |= {TEXT} if fits("literal", "a") else set()
    numbers = tuple(text for text in ("0", "1", "4294967296") if fits("number", text))
    found |= {NUMBERS[numbers]} if numbers else set()
    return found | ({END} if is_file else set())


def is_offered(token: Token, offered: set[str], reserved: set[str]) -> bool:
    """Says whether a token is one of what is offered, in a file with these reserved words."""
    if token.kind in ("symbol", "word") and token.text in offered:
        return True
    if token.kind == "word":
        return ANY_WORD in offered or (ANY_NAME in offered and token.text not in reserved)
    if token.kind == "number":
        value = int(token.text)
        return (NUMBER in offered or (SMALL in offered and value < 2**32)
                or (NOT_ZERO in offered and value > 0))
    return {"logic": LOGIC, "literal": TEXT}.get(token.kind) in offered


def grouped(offered: set[str]) -> list[str]:
    """The same, said in as few lines as there are kinds of it."""
    told, left = [], set(offered)
    for name, group in GROUPS:
        if group <= left:
            left -= group | ({"insertBefore"} if name == "a command" else set())
            ordered = [it for it in (*CONNECTIVES, *VALUE_SORTS, *SHAPE_SORTS) if it in group]
            told.append(f"{name} {' '.join(map(code, ordered))}" if name.endswith(":") else name)
    named = {ANY_NAME, ANY_WORD, LOGIC, TEXT, NUMBER, SMALL, NOT_ZERO, END}
    told += [it for it in (ANY_NAME, ANY_WORD, LOGIC, TEXT, NUMBER, SMALL, NOT_ZERO) if it in left]
    told += [" ".join(map(code, sorted(left - named)))] if left - named else []
    return told + ([END] if END in left else [])


def spelled(token: Token) -> str:
    """The text of a token as it is written."""
    return f'"{token.text}"' if token.kind == "literal" else token.text


def refusal(source: Source, number: int) -> str:
    """A sentence on the token itself."""
    token = source.tokens[number - 1]
    if token.kind != "bad":
        return f"{code(shortened(spelled(token), 40))} can't stand here."
    start = source.starts[number - 1]
    return f"No token begins here: {no_token(source, start)}."


def no_token(source: Source, start: int) -> str:
    """Why no token begins at a place."""
    text = source.text
    if start >= len(text):
        byte = source.content[len(text.encode())]
        return f"the byte {byte:02x} is no UTF-8"
    run = text[start : max(run_end(text, start), start + 1)]
    if text[start] == '"':
        return unfinished(source, start)
    if text[start] in DIGITS:
        return no_number(run)
    if text[start] == "$":
        return "behind '$' comes a word, with no space between"
    return f"{code(run[0])} is no symbol" + (", and begins no word" if run[0].isprintable() else "")


def unfinished(source: Source, start: int) -> str:
    """Why a quote begins no text literal."""
    text, at = source.text, start + 1
    while at < len(text) and text[at] not in '"\n':
        if text[at] == "\\" and text[at + 1 : at + 2] not in ('"', "\\", "n"):
            return "behind '\\' in a text comes '\"', '\\' or 'n'"
        at += 1 + (text[at] == "\\")
    if at >= len(text) and not source.is_whole:
        return "the text has a byte that is no UTF-8"
    return "the text has no closing quote on its line"


def no_number(run: str) -> str:
    """Why a run of digits and characters of words is no number."""
    shown = code(shortened(run, 40))
    if not set(run) <= DIGITS:
        return f"{shown} is neither a number nor a word"
    if run[0] == "0":
        return f"{shown} has a leading zero"
    return f"{shown} is greater than {figure(LAST_I64)}, the greatest number"


def advice(source: Source, number: int, offered: set[str]) -> list[str]:
    """What is meant by the usual tokens that can't stand where they do."""
    if len(source.tokens) < number:
        return []
    token = source.tokens[number - 1]
    before = source.tokens[number - 2].text if number > 1 else ""
    told = [text for holds, text in usual(token, before, offered) if holds]
    return wrapped(told[0]) if told else []


def usual(token: Token, before: str, offered: set[str]) -> list[tuple[bool, str]]:
    """The usual causes: whether it is one, and what is said of it."""
    text = token.text if token.kind in ("symbol", "word", "bad") else ""
    return [
        (token.kind == "number" and SMALL in offered, "The number is too great for this place."),
        (token.kind == "number" and NOT_ZERO in offered, "It is written '0', and not '- 0'."),
        (before == "insertBefore" and text == "(" and ":=" in offered,
         "'insertBefore' is a command where the file begins with 'domlogic 2', and else a name."),
        (token.kind == "logic" and ANY_NAME in offered and LOGIC not in offered,
         "Logic variables stand in formulas and behind 'with', and in no command."),
        *usual_in_formulas(text, before, offered),
        *usual_in_commands(text, before, offered),
        (text == ":" and "(" in offered,
         "Behind a rule the steps that it cites stand in brackets, '()' for none."),
        (text in RESERVED and (offered <= {ANY_NAME, ")"} or text in ("item", "len", "is")),
         f"{code(text)} is a reserved word, and so it is no name."),
    ]


def usual_in_formulas(text: str, before: str, offered: set[str]) -> list[tuple[bool, str]]:
    """The same where a formula or a judgement is written."""
    return [
        (text == "#" and "#" not in offered,
         "A comment begins with '//'; '#' stands in nodes, 'S#I[P]%L'."),
        (text == "=" and before == "=", "An equation has one '='."),
        (text == "<" and "<=" in offered,
         "There is no '<': of integers 'x < y' is '{x + 1} <= y'."),
        (text in ("+", "-", "++"), "A sum of terms stands in braces: '{a + 1}'."),
        (text == ")" and "and" in offered,
         "Round brackets hold two formulas with a connective, '(P and Q)'."),
        (text in CONNECTIVES,
         "A connective joins two formulas in brackets of their own, '(P and Q)'."),
        (text in ("step", "end") and offered == {";"}, "A step ends with ';'."),
        (text == ";" and offered == {"at"}, "A judgement ends with its sort, as in 'at g'."),
    ]


def usual_in_commands(text: str, before: str, offered: set[str]) -> list[tuple[bool, str]]:
    """The same where a command is written."""
    return [
        (text == "=" and ":=" in offered, "An assignment is written 'x := E'."),
        (text == "}" and before == ";", "Behind the last command of a block there is no ';'."),
        (text == "}" and before == "{", "A block has at least one command: '{ skip }'."),
        (offered == {"{"}, "The parts of 'if', 'while' and 'local' are blocks, in braces."),
        (offered == {"else"}, "Each 'if' has an 'else', if need be 'else { skip }'."),
        (text == ";" and offered in ({"post"}, {"proof"}),
         "Several commands stand in braces: '{ C1 ; C2 }'."),
    ]
