"""Tokens, and their limits."""
from collections import namedtuple

from domlogic.reading.limits import FILE_BYTES, LAST_I64, TEXT_BYTES, Refused
from domlogic.reading.names import begins_word, run_end

Token = namedtuple("Token", "kind text line end")  # the end counts characters

SYMBOLS = set("""( ) [ ] { } < > , ; : . := = <= # % + ++ - -o -> * .* *. .+
    @t @f @g o-t o-f o-g ?t ?f ?g""".split())
RESERVED = set("""domlogic logic proc returns sort requires ensures body proof step by with auto end
    entails pre do post at skip if else while local call true false not and or exists forall is len
    null nolist yes no appendChild removeChild createNode nodeName parentNode childNodes
    item""".split())
# What is reserved in a file whose second token is the number 2, and is a name elsewhere.
RESERVED_IN_2 = RESERVED | {"insertBefore"}
DIGITS = set("0123456789")


def text_of(content):
    """Returns the longest prefix of the bytes that is UTF-8, and whether it is all of them."""
    try:
        return content.decode("utf-8"), True
    except UnicodeDecodeError as why:
        return content[: why.start].decode("utf-8"), False


def layout_end(text, at):
    """Returns the first place that is in no space, newline or comment."""
    while at < len(text):
        if text[at] in " \t\r\n":
            at += 1
        elif text.startswith("//", at):
            newline = text.find("\n", at)
            at = len(text) if newline < 0 else newline
        else:
            break
    return at


def literal_at(text, at):
    """Returns the kind of what begins with a quote there, the text that it means, and its end."""
    meant, at = [], at + 1
    while at < len(text) and text[at] not in '"\n':
        if text[at] == "\\":
            escaped = {'"': '"', "\\": "\\", "n": "\n"}.get(text[at + 1 : at + 2])
            if escaped is None:
                return "bad", "", at
            meant.append(escaped)
            at += 2
        else:
            meant.append(text[at])
            at += 1
    return ("literal", "".join(meant), at + 1) if text[at : at + 1] == '"' else ("bad", "", at)


def decimal(text, least, most):
    """Returns the number of this range that a text spells, with no leading zero, or None."""
    is_decimal = 0 < len(text) < 20 and set(text) <= DIGITS and (text == "0" or text[0] != "0")
    return int(text) if is_decimal and least <= int(text) <= most else None


def number_at(text, at):
    """Returns what begins with a digit there: `0f`, `0g`, a number, or no token."""
    end = run_end(text, at)
    run = text[at:end]
    if run in ("0f", "0g"):
        return "symbol", run, end
    return ("bad" if decimal(run, 0, LAST_I64) is None else "number"), run, end


def token_at(text, at):
    """Returns the kind, the text and the end of the longest token that begins there."""
    if text[at] == '"':
        return literal_at(text, at)
    if text[at] in DIGITS:
        return number_at(text, at)
    if text[at] == "$" and begins_word(text, at + 1):
        end = run_end(text, at + 1)
        return "logic", text[at:end], end
    symbol = next((text[at : at + n] for n in (3, 2, 1) if text[at : at + n] in SYMBOLS), "")
    end = run_end(text, at) if begins_word(text, at) else at
    if end - at > len(symbol):
        return "word", text[at:end], end
    return ("symbol" if symbol else "bad"), symbol, at + len(symbol)


def tokens_of(content):
    """Gives the tokens one by one; a bad one is the last."""
    text, is_whole = text_of(content)
    at, line = 0, 1
    while True:
        start = layout_end(text, at)
        line += text.count("\n", at, start)
        if start == len(text):
            break
        kind, meant, at = token_at(text, start)
        yield Token(kind, meant, line, at)
        if kind == "bad":
            return
    if not is_whole:
        yield Token("bad", "", line, at)


def tokens_within(content, nesting):
    """Returns the tokens, or refuses the first that passes a limit."""
    if len(content) > FILE_BYTES:
        raise Refused(8, "limit file")
    tokens, depth = [], 0
    for token in tokens_of(content):
        if token.kind == "symbol":
            depth += token.text in set("([{<")
            depth = max(0, depth - (token.text in set(")]}>")))
        if depth > nesting:
            raise Refused(8, "limit nesting")
        if token.kind == "literal" and len(token.text.encode()) > TEXT_BYTES:
            raise Refused(8, "limit text")
        tokens.append(token)
    return tokens
