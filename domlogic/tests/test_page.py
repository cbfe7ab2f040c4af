"""The page of a run: what it is made of, and when there is none."""
import json
import os
import re
import tempfile

from domlogic.reading.requests import grove_of
from domlogic.replaying import Differs, replay, replayed, trace_of
from domlogic.words.page import page

TOP = os.path.dirname(os.path.dirname(os.path.dirname(os.path.abspath(__file__))))
PROGRAM = os.path.join(TOP, "tests", "reference.py")
FILE, DOCUMENT = (os.path.join(TOP, "examples", it) for it in ("contents.dom", "article.doc"))
RUN = (FILE, "contents", DOCUMENT, "1000", "#1")
GROVE = b'["a"#1[<"b"#2[0f]%2> * <"c"#3[0f]%3>]%1] + ["d"#4[0f]%4]'


def data_in(text: str) -> dict:
    """What a page is made of."""
    return json.loads(re.search(r"^const data = (.*);$", text, re.MULTILINE)[1])


def test_what_a_page_is_made_of():
    status, text = page(PROGRAM, *RUN)
    data = data_in(text)
    assert status == 0 and text.startswith("<!DOCTYPE html>")
    assert data["requires"] == "requires yes" and data["ensures"] == "ensures yes"
    assert data["changes"][0] == "11 created #9 %9"
    assert data["changes"][-1] == "68 moved #9 from root to #1 before #2"
    assert data["names"] == {"9": "ul", "10": "li", "11": "li"}
    assert data["document"][:2] == [[1, "body", 1, None], [2, "h2", 2, 1]]
    assert data["run"] == ["ended after 73 steps", "u = #9"]
    assert data["tally"] == "created 3, moved 3, removed 1"
    assert data["procedure"].startswith("proc contents(p: node) returns (u: node) sort g\nrequires")
    assert data["procedure"].endswith("insertBefore(p, u, c) } } } } }")


def test_nothing_is_fetched():
    text = page(PROGRAM, *RUN).text
    assert not re.search(r"(?:src|href)=|@import|url\(|fetch\(|import\(", text)
    assert re.findall(r"https?://[^\"]*", text) == ["http://www.w3.org/2000/svg"]


def test_runs_that_do_not_end():
    data = data_in(page(PROGRAM, *RUN[:3], "20", "#1").text)
    assert data["run"] == ["fuel spent after 20 steps"] and data["ensures"] == ""
    assert len(data["changes"]) == 3 and data["names"] == {}
    data = data_in(page(PROGRAM, *RUN[:4], "null").text)
    assert data["requires"] == "requires no"
    assert data["run"] == ["fault NoNode after 11 steps: l := childNodes ( p )"]


def test_refusals_make_no_page():
    assert page(PROGRAM) == (2, "bad words\n")
    assert page(PROGRAM, "--to") == (2, "bad words\n")
    assert page(PROGRAM, *RUN[:4]) == (2, "bad words\n")
    assert page(PROGRAM, FILE, "nope", *RUN[2:]) == (2, "bad words\n")
    assert page(PROGRAM, "missing", *RUN[1:]) == (11, "")
    assert page(PROGRAM, FILE, "contents", FILE, "5", "#1") == (
        3, "bad document text at token 1\n")


def test_a_page_in_a_file():
    with tempfile.TemporaryDirectory() as folder:
        to = os.path.join(folder, "run.html")
        assert page(PROGRAM, "--to", to, *RUN) == (0, "")
        with open(to, encoding="utf-8") as file:
            assert file.read() == page(PROGRAM, *RUN).text
        assert page(PROGRAM, "--to", folder, *RUN) == (12, "")
        assert page(PROGRAM, "--to", os.path.join(folder, "none"), "missing", *RUN[1:]) == (11, "")
        assert os.listdir(folder) == ["run.html"]


def test_names_do_not_end_the_script():
    with tempfile.NamedTemporaryFile("w", suffix=".doc") as file:
        file.write('["</script>"#1[0f]%1]')
        file.flush()
        text = page(PROGRAM, FILE, "contents", file.name, "1000", "#1").text
    assert text.count("</script>") == 1 and data_in(text)["document"][0][1] == "</script>"


def test_replaying():
    told = '1 removed #2 from #1\n2 moved #4 from root to #1 before #3\n3 created #5 %5\n' \
        'ended after 3 steps\n["a"#1[<"d"#4[0f]%4> * <"c"#3[0f]%3>]%1] + ["b"#2[0f]%2] + ' \
        '["e\\"#7["#5[0f]%5]\ncreated 1, moved 1, removed 1\n'
    assert replayed(grove_of(GROVE), told) == trace_of(told).run[-1]


def test_changes_that_do_not_fit():
    for line in ("1 removed #2 from #3", "1 removed #4 from #1", "1 removed #9 from #1",
                 "1 moved #2 from root to #4", "1 moved #4 from #1 to #2",
                 "1 moved #4 from root to #1 before #1", "1 created #4 %9", "1 created #9 %4",
                 "1 moved #4", "moved #4 from root to #1"):
        try:
            replay(grove_of(GROVE), line, {})
        except Differs:
            continue
        raise AssertionError(line)
