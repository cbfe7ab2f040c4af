"""Procedures as short texts, filled and judged by the second reader."""
from domlogic.reading.requests import checked, theory_of
from domlogic.search.filling import NotFilled, filled
from domlogic.search.printing import theory_text

# Logic variables of each sort, for the texts of the tests.
HEAD = """domlogic 2
logic node $i, $j;
logic list $l, $m, $u, $v;
logic str $a, $b, $s;
logic f $f, $g, $h, $q;
logic int $n;
logic tg $k;
"""


def file_of(*procedures: str) -> str:
    """A file of these procedures, each `HEADER; requires P; ensures Q; body C`."""
    texts = []
    for it in procedures:
        head, pre, post, body = (part.strip() for part in it.split(";;"))
        texts.append(f"proc {head}\nrequires {pre}\nensures {post}\nbody {body}\nproof\nend\n")
    return HEAD + "\n".join(texts)


def filled_text(*procedures: str) -> str:
    """The filled file, which the second reader accepts."""
    text = theory_text(filled(theory_of(file_of(*procedures).encode())).theory)
    assert checked(text.encode()).startswith("accepted")
    return text


def refusal_of(*procedures: str) -> list[str]:
    """What is told where the file can't be filled."""
    try:
        filled(theory_of(file_of(*procedures).encode()))
    except NotFilled as why:
        return list(why.args)
    raise AssertionError("it is filled")
