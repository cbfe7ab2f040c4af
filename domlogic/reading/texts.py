"""How values, terms and commands are printed."""


def quoted(text):
    """Returns the text literal that stands for the text."""
    return '"' + text.replace("\\", "\\\\").replace('"', '\\"').replace("\n", "\\n") + '"'


def value_text(value, sort):
    if sort in ("node", "list") and value is not None:
        return {"node": "#", "list": "%"}[sort] + str(value)
    constants = {"node": "null", "list": "nolist", "bool": "yes" if value else "no"}
    return quoted(value) if sort == "str" else constants.get(sort, str(value))


def term_text(term):
    """Returns the tokens of a term with a space between each two."""
    head, *parts = term
    if head == "int":
        return str(parts[0]) if parts[0] >= 0 else f"- {-parts[0]}"
    if head == "str":
        return quoted(parts[0])
    if head in ("prog", "logic"):
        return parts[0]
    return f"{{ {term_text(parts[0])} {head} {term_text(parts[1])} }}" if parts else head


MOVES = ("appendChild", "removeChild", "insertBefore")


def command_text(command):
    """The same of a command that faults, which is one of seven."""
    head, *operands = command
    target = "" if head in MOVES else operands.pop(0)[1] + " := "
    return f"{target}{head} ( {' , '.join(map(term_text, operands))} )"
