"""`explain FILE`: the answer of `check`, and what it means for this file."""
from domlogic.explaining import ends, file_faults, limits, steps, tokens
from domlogic.explaining.source import Source
from domlogic.words.program import Answer, asked


def explain(program: str, file: str) -> Answer:
    """The line and status of `check`, and lines that explain it."""
    answer = asked(program, "check", file)
    content = b""
    if answer.status in (1, 3, 4, 8, 9):
        with open(file, "rb") as given:
            content = given.read()
    told = explanation(answer.status, answer.text.strip(), file, content)
    return Answer(answer.status, answer.text + "".join(f"{line}\n" for line in told))


def explanation(status: int, line: str, file: str, content: bytes) -> list[str]:
    """What a line and a status of `check` mean for a file of this content."""
    if status == 1 and line.endswith(": no proof"):
        return ends.no_proof(Source(content), line)
    if status == 3:
        return tokens.explained(Source(content), int(line.split()[-1]))
    of_files = {1: steps.explained, 4: file_faults.explained, 8: limits.explained, 9: ends.gap}
    if status in of_files:
        return of_files[status](Source(content), line)
    of_answers = {0: lambda: ends.accepted(line), 2: ends.bad_words, 10: ends.out_of_memory,
                  11: lambda: ends.unread(file), 12: ends.unwritten}
    told = of_answers.get(status)
    return told() if told else [f"The program ended with status {status}, which is none of its own."]
