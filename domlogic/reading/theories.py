"""The grammar of files."""
from collections import namedtuple

from domlogic.reading.limits import DATA_SORTS, LAST_U32, SHAPE_SORTS, VALUE_SORTS
from domlogic.reading.reader import Reader
from domlogic.reading.tokens import RESERVED, RESERVED_IN_2

# Terms, formulas, conditions and commands are tuples: a word that says the form, and the parts. A
# variable is ("prog", name) or ("logic", name) wherever it stands, so that a walk over the parts
# meets all of them. The rule None is `auto`.
Theory = namedtuple("Theory", "version logic procedures")
Procedure = namedtuple("Procedure", "name params results sort pre post body steps")
Step = namedtuple("Step", "number line rule premises arguments judgement")

CONNECTIVES = "and or -> * .* *. + .+ @t @f @g -o o-t o-f o-g".split()


class TheoryReader(Reader):
    """The grammar of files, a method for each of its names."""

    def __init__(self, tokens):
        super().__init__(tokens)
        second = self.token(ahead=1)
        is_version_2 = (second.kind, second.text) == ("number", "2")
        self.reserved = RESERVED_IN_2 if is_version_2 else RESERVED

    def name(self):
        if self.token().text in self.reserved:
            self.fail()
        return self.of_kind("word")

    def variable(self):
        return ("prog", self.name())

    def logic_variable(self):
        return ("logic", self.of_kind("logic"))

    def small_number(self):
        return self.number(most=LAST_U32)

    def value_sort(self):
        return self.take(*VALUE_SORTS)

    def data_sort(self):
        return self.take(*DATA_SORTS)

    def listed(self, read):
        """Reads a list in round brackets, which may be empty."""
        if self.sees(")", ahead=1):
            self.spelled("(", ")")
            return ()
        return self.spelled("(", lambda: self.separated(read, ","), ")")[0]

    def term(self):
        """Reads a term of a formula, in which logic variables may stand."""
        return self.logic_variable() if self.token().kind == "logic" else self.plain_term(self.term)

    def command_term(self):
        return self.plain_term(self.command_term)

    def plain_term(self, part):
        """Reads a term whose parts are read by `part`."""
        kind = self.token().kind
        if kind == "number":
            return ("int", self.number())
        if kind == "literal":
            return ("str", self.of_kind("literal"))
        if self.sees("null", "nolist", "yes", "no"):
            return (self.take("null", "nolist", "yes", "no"),)
        if self.sees("-"):
            return ("int", -self.spelled("-", lambda: self.number(least=1))[0])
        if not self.sees("{"):
            return self.variable()
        operators = lambda: self.take("+", "-", "++")
        left, operator, right = self.spelled("{", part, operators, part, "}")
        return (operator, left, right)

    def formula(self):
        constants = ("true", "false", "0f", "0g", "?t", "?f", "?g")
        if self.sees(*constants):
            return (self.take(*constants),)
        if self.sees("len"):
            return ("len", *self.spelled("len", self.term))
        if self.sees("<"):
            return ("one tree", *self.spelled("<", self.formula, ">"))
        if self.sees("["):
            return ("one root", *self.spelled("[", self.formula, "]"))
        if self.sees("("):
            return self.spelled("(", self.bracketed_formula, ")")[0]
        if self.token().kind == "logic" and not self.sees("#", "=", "<=", ahead=1):
            return ("is it", self.logic_variable())
        left = self.term()
        if not self.sees("#"):
            return (self.take("#", "=", "<="), left, self.term())
        return ("node", left, *self.spelled("#", self.term, "[", self.formula, "]", "%", self.term))

    def bracketed_formula(self):
        if self.sees("not"):
            return (self.take("not"), self.formula())
        if self.sees("exists", "forall"):
            quantifier = self.take("exists", "forall")
            return (quantifier, *self.spelled(self.logic_variable, ".", self.formula))
        if self.token().kind == "logic" and self.sees("is", ahead=1):
            return ("is", *self.spelled(self.logic_variable, "is", self.formula))
        left = self.formula()
        return (self.take(*CONNECTIVES), left, self.formula())

    def condition(self):
        if self.sees("true", "false"):
            return (self.take("true", "false"),)
        if self.sees("("):
            return self.spelled("(", self.bracketed_condition, ")")[0]
        left = self.command_term()
        if left[0] == "prog" and not self.sees("=", "<="):
            return ("holds", left)
        return (self.take("=", "<="), left, self.command_term())

    def bracketed_condition(self):
        if self.sees("not"):
            return (self.take("not"), self.condition())
        left = self.condition()
        return (self.take("and", "or"), left, self.condition())

    def block(self):
        return ("block", *self.spelled("{", lambda: self.separated(self.command, ";"), "}")[0])

    def command(self):
        if self.sees("skip"):
            return (self.take("skip"),)
        if self.sees("{"):
            return self.block()
        if self.sees("if"):
            return ("if", *self.spelled("if", self.condition, self.block, "else", self.block))
        if self.sees("while"):
            return ("while", *self.spelled("while", self.condition, self.block))
        if self.sees("local"):
            spelled = self.spelled("local", self.variable, ":", self.value_sort, self.block)
            return ("local", *spelled)
        if self.sees("call"):
            arguments = lambda: self.listed(self.command_term)
            results = lambda: self.listed(self.variable)
            return ("call", *self.spelled("call", results, ":=", self.name, arguments))
        if self.sees("appendChild", "removeChild"):
            return (self.take("appendChild", "removeChild"), *self.two_terms())
        if self.sees("insertBefore") and "insertBefore" in self.reserved:
            return (self.take("insertBefore"), *self.three_terms())
        return self.assignment()

    def two_terms(self):
        return self.spelled("(", self.command_term, ",", self.command_term, ")")

    def three_terms(self):
        term = self.command_term
        return self.spelled("(", term, ",", term, ",", term, ")")

    def assignment(self):
        target, *_ = self.spelled(self.variable, ":=")
        if self.sees("item"):
            return (self.take("item"), target, *self.two_terms())
        queries = ("createNode", "nodeName", "parentNode", "childNodes")
        if self.sees(*queries):
            return (self.take(*queries), target, *self.spelled("(", self.command_term, ")"))
        return (":=", target, self.command_term())

    def declaration(self):
        return tuple(self.spelled(self.name, ":", self.value_sort))

    def judgement(self):
        if self.sees("pre"):
            return ("triple", *self.spelled("pre", self.formula, "do", self.command,
                                            "post", self.formula, "at", self.data_sort))
        shape_sort = lambda: self.take(*SHAPE_SORTS)
        return ("entails", *self.spelled(self.formula, "entails", self.formula, "at", shape_sort))

    def reason(self):
        """Reads a rule with premises and arguments; the rule None is `auto`."""
        if self.take("auto", "by") == "auto":
            return None, (), ()
        rule, premises = self.of_kind("word"), self.listed(self.small_number)
        if not self.sees("with"):
            return rule, premises, ()
        arguments = lambda: self.separated(self.term, ",")
        return rule, premises, self.spelled("with", "(", arguments, ")")[0]

    def step(self):
        line = self.token().line
        spelled = self.spelled("step", self.small_number, self.reason, ":", self.judgement, ";")
        number, (rule, premises, arguments), judgement = spelled
        return Step(number, line, rule, premises, arguments, judgement)

    def steps(self):
        found = []
        while self.sees("step"):
            found.append(self.step())
        return found

    def procedure(self):
        declarations = lambda: self.listed(self.declaration)
        return Procedure(*self.spelled(
            "proc", self.name, declarations, "returns", declarations, "sort", self.data_sort,
            "requires", self.formula, "ensures", self.formula, "body", self.command,
            "proof", self.steps, "end"))

    def logic_line(self):
        """Returns the names of a line with their sort."""
        sorts = lambda: self.take(*VALUE_SORTS, *SHAPE_SORTS)
        names = lambda: self.separated(lambda: self.of_kind("logic"), ",")
        sort, found = self.spelled("logic", sorts, names, ";")
        return [(name, sort) for name in found]

    def theory(self):
        version, logic = self.spelled("domlogic", self.small_number)[0], []
        while self.sees("logic"):
            logic += self.logic_line()
        procedures = [self.procedure()]
        while self.at < len(self.tokens):
            procedures.append(self.procedure())
        return Theory(version, logic, procedures)
