"""`wp`: the formula that says from where a body ends well.

A grove and a store meet it exactly where the body never faults, whichever unused numbers its new
nodes get, and every end meets what the procedure ensures. There is one for each body that is a line
of commands: without choices, loops, locals and calls.
"""
from itertools import count

from domlogic.reading.limits import STRAIGHT, Refused
from domlogic.reading.nameless import replaced
from domlogic.reading.patterns import PatternReader
from domlogic.reading.sorts import scope_of, walk
from domlogic.reading.texts import MOVES
from domlogic.reading.tokens import tokens_of
from domlogic.reading.writing import command_text, formula_text

NOT_STRAIGHT = ("if", "while", "local", "call")


def some(letters, form):
    """Returns the form below an `exists` for each of the letters."""
    for letter in reversed(letters.split()):
        form = f"(exists {letter} . {form})"
    return form


def tree_of(number):
    """Some tree with this node number."""
    return some("$t $m", f"$t#{number}[true]%$m")


def standing(children):
    """A grove with these children of the node E in it."""
    return f"($c @t $s#E[{children}]%$l)"


def without_tree(form):
    """A grove that meets the form once the tree $u, among children or a root, is out."""
    return f"(((0f -o {form}) @f <$u>) or ((0g -o {form}) @g [$u]))"


CHILD = some("$s $t $l $m", "(true @t $s#$v[((true * <$t#E[true]%$m>) * true)]%$l)")
ROOT = some("$t $m", "([$t#E[true]%$m] + true)")
MEMBER = some("$s $i $t $m", "(true @t $s#$i[((len F * <$t#$v[true]%$m>) * true)]%E)")
PAST_ENDS = some("$s $i $n", "((true @t $s#$i[len $n]%E) and (F <= -1 or $n <= F))")
APPENDED = some("$c $s $q $l $u", f"""(({without_tree(standing("$q"))}
    and ($u is {tree_of("F")})) and ($r is {standing("($q * <$u>)")}))""")
REMOVED = some("$c $s $q $p $l $u", f"""(({standing("(($q * <$u>) * $p)")}
    and ($u is {tree_of("F")})) and ($r is ({standing("($q * $p)")} + [$u])))""")
INSERTED = some("$c $s $q $p $l $u $w", f"""((({without_tree(standing("(($q * <$w>) * $p)"))}
    and ($u is {tree_of("F")})) and ($w is {tree_of("G")}))
    and ($r is {standing("((($q * <$u>) * <$w>) * $p)")}))""")

# For each command the formula before it, where Q is the one after it, and Q' that one with $v for
# the command's variable x. E, F and G are its terms in their order.
TABLE = {
    ":=": "(exists $v . ($v = E and Q'))",
    "createNode": "(forall $v . (forall $m . ((?g .+ [E#$v[0f]%$m]) o-g Q')))",
    "nodeName": "(exists $v . ((exists $l . (true @t $v#E[true]%$l)) and Q'))",
    "childNodes": "(exists $v . ((exists $s . (true @t $s#E[true]%$v)) and Q'))",
    "parentNode": f"(exists $v . (({CHILD} or ({ROOT} and $v = null)) and Q'))",
    "item": f"(exists $v . (({MEMBER} or ({PAST_ENDS} and $v = null)) and Q'))",
    "appendChild": f"(exists $r . ({APPENDED} and ($r is Q)))",
    "removeChild": f"(exists $r . ({REMOVED} and ($r is Q)))",
    "insertBefore": f"(exists $r . (((G = null and {APPENDED}) or {INSERTED}) and ($r is Q)))",
}
# The sorts of the letters that the table binds; $v has that of the command's variable.
SORTS = {"$c": "tg", "$r": "g", "$q": "f", "$p": "f", "$u": "t", "$w": "t", "$s": "str",
         "$t": "str", "$l": "list", "$m": "list", "$i": "node", "$n": "int"}


def row_of(text):
    """Reads a row of the table."""
    reader = PatternReader(list(tokens_of(text.replace("Q'", "Q with $v for x").encode())))
    return reader.whole(reader.formula)


ROWS = {command: row_of(text) for command, text in TABLE.items()}


class Precondition:
    """The formula before a body, and the new variables in it, which come with their sorts."""

    def __init__(self, theory, procedure, rows=None):
        self.program, self.rows = scope_of(theory, procedure).program, rows or ROWS
        taken = {name for name, _ in theory.logic}
        self.names = (name for name in map("$w{}".format, count(1)) if name not in taken)
        self.variables = []
        self.formula = self.before(procedure.body, procedure.post)

    def before(self, command, post):
        """Returns the formula before a command, from the one after it."""
        head, *parts = command
        if head == "block":
            for part in reversed(parts):
                post = self.before(part, post)
            return post
        if head == "skip":
            return post
        target = [] if head in MOVES else [parts.pop(0)]
        given = {"Q": post, **dict(zip("x", target)), **dict(zip("EFG", parts))}
        return self.put_in(self.rows[head], given)

    def put_in(self, form, given):
        """Returns a form of the table with what is given for its letters; each letter that it binds
        becomes a new variable, from left to right."""
        head, *parts = form
        if head == "letter":
            return given[parts[0]]
        if head == "with":
            formula, term, variable = (self.put_in(part, given) for part in parts)
            return replaced(formula, {variable: term})
        if head in ("exists", "forall"):
            letter = parts[0][1]
            variable = self.new(SORTS.get(letter) or self.program[given["x"][1]])
            return (head, variable, self.put_in(parts[1], {**given, letter: variable}))
        return tuple(self.put_in(it, given) if isinstance(it, tuple) else it for it in form)

    def new(self, sort):
        """Returns the next new variable."""
        name = next(self.names)
        self.variables.append((name, sort))
        return ("logic", name)


def refuse_body(procedure):
    """Refuses a procedure whose body isn't a line of commands on a grove, or is too long."""
    if procedure.sort != "g":
        raise Refused(13, "not straight-line: sort")
    parts = [part for part in walk(procedure.body) if part]
    for part in parts:
        if part[0] in NOT_STRAIGHT:
            raise Refused(13, f"not straight-line: {command_text(part)}")
    if sum(part[0] in ROWS for part in parts) > STRAIGHT:
        raise Refused(8, "limit straight")


def precondition_text(theory, called):
    """Returns the output of `wp` for a theory and the name of one of its procedures."""
    procedure = next((it for it in theory.procedures if it.name == called), None)
    if procedure is None:
        raise Refused(2, "bad words")
    refuse_body(procedure)
    found = Precondition(theory, procedure)
    lines = [f"logic {sort} {name} ;" for name, sort in found.variables]
    return "\n".join([*lines, formula_text(found.formula), ""])
