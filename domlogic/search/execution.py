"""Execution forwards of a command with its blocks: from what is known before it the strongest
post."""
import time
from typing import Callable

from domlogic.reading.nameless import condition_formula
from domlogic.search.book import Book
from domlogic.search.entailments import Matching
from domlogic.search.formulas import DEFAULTS, Formula, disjunction
from domlogic.search.heaps import Command
from domlogic.search.invariants import WAYS, Invariants
from domlogic.search.messages import heading
from domlogic.search.outline import Outline
from domlogic.search.refusals import Fails, Refusal
from domlogic.search.stepping import Stepping

# Told the command at which the search is.
Watch = Callable[[Command], None]
BY_STEP = " by an earlier step"
GUESSED = ", with a guessed invariant"
NOT_FOUND = ", of which no invariant was found"
SECONDS = 6.0  # of the processor's time, in which invariants are guessed


class Execution:
    """The search for the proof of a triple. `watch` is told each command; `place` says where the
    search is."""

    def __init__(self, book: Book, watch: Watch = lambda command: None):
        self.book, self.matching, self.watch = book, Matching(book), watch
        self.stepping = Stepping(book, self.matching)
        self.triples = self.stepping.triples
        self.place, self.outline = "", Outline()
        self.first_way, self.guessing, self.has_guessed = 0, 0, False
        self.given: Command = ()
        self.deadline = time.process_time() + SECONDS
        self.forms = {"skip": self.skip, "block": self.block, "local": self.local,
                      "if": self.choice, "while": self.loop}

    def prove(self, pre: Formula, command: Command, post: Formula, sort: str) -> int:
        """The step of the triple. Where an invariant was guessed and isn't enough for the rest,
        others are tried; what is told is of the first. A loop that is asked for itself has its
        invariant from the author."""
        failures, self.given = [], command
        for self.first_way in range(len(WAYS)):
            try:
                return self.once(pre, command, post, sort)
            except Fails as why:
                failures.append((why, self.place, self.outline.lines))
                if not self.has_guessed or self.is_late():
                    break
            self.outline, self.has_guessed = Outline(), False
        fails, self.place, self.outline.lines = failures[0]
        raise fails

    def once(self, pre: Formula, command: Command, post: Formula, sort: str) -> int:
        """The step of the triple, with no other way of guessing."""
        number = self.run(pre, command, sort)
        self.place = "at the end, behind " + heading(last_of(command)) + GUESSED * self.has_guessed
        return self.triples.weaker_to(number, post)

    def run(self, pre: Formula, command: Command, sort: str) -> int:
        """The triple of the command from pre, with the strongest post that is found."""
        if command[0] != "block":
            self.place = "at " + heading(command)
            self.watch(command)
        if self.guessing and self.is_late():
            raise Fails(Refusal(pre, "a guess in time"))
        if command[0] not in self.forms:
            return self.told(heading(command), pre, command, sort)
        if not self.stepping.known_triples(command):
            return self.forms[command[0]](pre, command, sort)
        place, count = self.place, len(self.outline.lines)
        try:
            return self.told(heading(command) + BY_STEP, pre, command, sort)
        except Fails as why:
            if command[0] == "while":  # its invariant is the author's
                raise
            try:
                self.outline.back_to(count)
                return self.forms[command[0]](pre, command, sort)
            except Fails:  # the author's own step is what should have served
                self.outline.back_to(count)
                self.outline.tell(heading(command) + BY_STEP)
                self.place = place
                raise why from None

    def told(self, text: str, pre: Formula, command: Command, sort: str) -> int:
        """The triple of a command that isn't looked into."""
        self.outline.tell(text)
        number = self.stepping.from_assertion(pre, command, sort)
        self.outline.known(self.triples.post(number))
        return number

    def inner(self, pre: Formula, block: Command, sort: str) -> int:
        """The triple of a block inside another command."""
        with self.outline.inside():
            self.outline.known(pre)
            return self.run(pre, block, sort)

    def ended(self, number: int) -> int:
        """The triple of a command with blocks, at their end."""
        self.outline.tell("}")
        self.outline.known(self.triples.post(number))
        return number

    def skip(self, pre: Formula, command: Command, sort: str) -> int:
        self.outline.tell("skip")
        return self.book.tri("skip", (), pre, command, pre, sort)

    def block(self, pre: Formula, command: Command, sort: str) -> int:
        """The commands in their order."""
        numbers, now = [], pre
        for it in command[1:]:
            numbers.append(self.run(now, it, sort))
            now = self.triples.post(numbers[-1])
        return self.book.tri("seq", numbers, pre, command, now, sort)

    def local(self, pre: Formula, command: Command, sort: str) -> int:
        """The variable has its default before the block, and is forgotten behind it."""
        _, variable, kind, block = command
        start = ("and", pre, ("=", variable, DEFAULTS[kind]))
        self.outline.tell(heading(command) + " {")
        number = self.triples.forgotten(self.inner(start, block, sort), variable)
        post = self.triples.post(number)
        return self.ended(self.book.tri("local", (number,), pre, command, post, sort))

    def choice(self, pre: Formula, command: Command, sort: str) -> int:
        """Both blocks, and their choice behind."""
        test = condition_formula(command[1])
        self.outline.tell(heading(command) + " {")
        one = self.inner(("and", pre, test), command[2], sort)
        self.outline.tell("} else {")
        two = self.inner(("and", pre, ("not", test)), command[3], sort)
        posts = self.triples.possible_posts([one, two])
        post = disjunction(posts)
        one, two = (self.triples.one_of(it, posts, post) for it in (one, two))
        return self.ended(self.book.tri("if", (one, two), pre, command, post, sort))

    def loop(self, pre: Formula, command: Command, sort: str) -> int:
        """What stands before the loop may be its invariant; else one is guessed."""
        test, count = condition_formula(command[1]), len(self.outline.lines)
        self.outline.tell(heading(command) + " {")
        once = self.inner(("and", pre, test), command[2], sort)
        place = "at the end of the block of " + heading(command)
        try:
            number, start = self.triples.weaker_to(once, pre), self.book.id(pre, sort)
        except Fails as why:
            lines, self.place = list(self.outline.lines), place
            if command == self.given:
                raise
            found = self.guessed(pre, command, sort, once, count)
            if found is None:
                self.place, self.outline.lines = place + NOT_FOUND, lines
                raise why from None
            start, number = found
        invariant = self.triples.post(number)
        post = ("and", invariant, ("not", test))
        whole = self.book.tri("while", (number,), invariant, command, post, sort)
        return self.ended(self.triples.stronger(start, whole))

    def guessed(self, pre: Formula, command: Command, sort: str, once: int,
                count: int) -> tuple[int, int] | None:
        """(the step that pre entails an invariant of the loop, the triple of its block)."""
        guesses = Invariants(self.triples, command, pre, sort)

        def run_block(before: Formula) -> int:
            self.outline.back_to(count)
            self.outline.tell("guessed invariant:")
            self.outline.known(before[1])
            self.outline.tell(heading(command) + " {")
            return self.inner(before, command[2], sort)

        self.guessing += 1
        for way in WAYS[self.first_way:]:
            found = None if self.is_late() else guesses.found(way, once, run_block)
            if found:
                self.has_guessed = True
                break
        self.guessing -= 1
        return found

    def is_late(self) -> bool:
        """Whether the time for guesses is over."""
        return time.process_time() > self.deadline


def last_of(command: Command) -> Command:
    """The command behind which a proof is at its end."""
    while command[0] in ("block", "local"):
        command = command[-1]
    return command
