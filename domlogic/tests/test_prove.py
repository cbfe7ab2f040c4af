"""The words prove and show, with the second reader in the place of the program."""
import os
import tempfile

import domlogic
from domlogic.words.program import Answer
from domlogic.words.prove import prove
from domlogic.words.show import show

TOP = os.path.dirname(os.path.dirname(os.path.abspath(domlogic.__file__)))
PROGRAM = os.path.join(TOP, "tests", "reference.py")

ONE = """domlogic 1
proc one() returns (x: int) sort g
requires 0g
ensures (0g and x = 1)
body { x := 0 ; x := 1 }
proof
end
"""
WRONG = """step 1 auto: 0g entails true at g;
step 2 by true_in(): 0g entails 0g at g;
end
"""


def answer_to(word, text: str, *more: str) -> Answer:
    """What the word answers on a file of this text."""
    with tempfile.NamedTemporaryFile("w", suffix=".dom") as file:
        file.write(text)
        file.flush()
        return word(PROGRAM, file.name, *more)


def test_a_filled_file_is_printed():
    status, text = answer_to(prove, ONE)
    assert status == 0 and text.startswith("domlogic 1\n") and text.endswith("\nend\n")
    assert answer_to(prove, text) == (0, text)


def test_a_gap_that_stays_has_the_line_of_check():
    status, text = answer_to(prove, ONE.replace("x = 1)", "x = 2)"))
    assert status == 1
    assert text.splitlines() == ["one: no proof",
                                 "not filled: the triple of one, at the end, behind x := 1",
                                 "  in the case  (0g and x = 1)",
                                 "  wanted       (0g and x = 2)",
                                 "  not shown    x = 2"]


def test_a_written_step_that_is_wrong_is_told_as_check_does():
    assert answer_to(prove, ONE.replace("end\n", WRONG)) == (
        1, "step 2 of one, line 8: true_in: shape\n")


def test_what_is_not_read_is_answered_by_check():
    assert answer_to(prove, "domlogic 1") == (3, "bad text at token 3\n")
    assert answer_to(show, "domlogic 1", "one") == (3, "bad text at token 3\n")
    assert prove(PROGRAM, "/no/such/file") == (11, "")


def test_show_tells_what_is_known_behind_each_command():
    assert answer_to(show, ONE, "one") == (0, """\
the triple of one
pre 0g
x := 0
| (0g and x = 0)
x := 1
| (0g and x = 1)
post (0g and x = 1)
""")


def test_show_tells_what_is_wanted_where_it_stops():
    status, text = answer_to(show, ONE.replace("x = 1)", "x = 2)"), "one")
    assert status == 0 and text.splitlines()[-5:] == [
        "| (0g and x = 1)", "stops at the end, behind x := 1", "  in the case  (0g and x = 1)",
        "  wanted       (0g and x = 2)", "  not shown    x = 2"]


def test_show_of_no_procedure():
    assert answer_to(show, ONE, "two") == (2, "bad words\n")
