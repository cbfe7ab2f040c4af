#!/usr/bin/env python3
"""Measures reading and `check` of large files, against gzip on the same file in the same minute.

    bench/large_files.py [PROGRAM] [SHAPE..]
    bench/large_files.py --write FOLDER [SHAPE..]

PROGRAM is the built program, crates/domcheck_cli/out/domcheck_cli where none is given. Each shape
is measured at 0.25, 0.5, 1, 2 and 4 MB. For each file it prints the mean user times of reading it
and of `check` in some runs, how many times that of `gzip < FILE > /dev/null` in as many runs each
is, and the greatest resident memory, also in bytes for a byte of the file. Reading is measured by a
`run` of the first procedure with fuel for one step: it reads the whole file and judges whether it is
well formed, takes the step, and asks no rule. The system tells a run's time in the program from its
time in the system by samples, so the least of short runs says too little. What this script holds
itself, 10 to 35 MB by the shapes before, is the least that it can see. With --write the files are
written, and nothing is measured.

    assignments  procedures, 923 in 4 MB, each a block of assignments with its proof
    citations    a proof of skips, of which two fifths cite a step that stands as far back
    groves       procedures that make a node, each with the proof of its triple
    commands     procedures whose bodies have each kind of command
    entailments  one long proof by entailments of nodes, contexts and quantifiers
    deep         formulas, terms and blocks that nest 90 brackets deep
    long         four formulas, each a quarter of the file
    names        a proof that uses as many logic variables as it has steps
    conj         facts gathered into one conjunction, a conjunct a step, and taken out again
    assoc        forests and groves whose brackets are moved over, a part at a time
    levels       mono rules through 44 levels of nodes
    binders      40 quantifiers brought in with written arguments and taken out again
    generated    the theory that `make N` prints: 226 procedures in 0.25 MB, 3,560 in 4 MB
    calls        procedures of which each calls the last one
    letters      rules for quantifiers over a formula of thousands of logic variables

Each file is accepted.
"""
import os
import pathlib
import re
import subprocess
import sys
import tempfile

TOP = pathlib.Path(__file__).resolve().parent.parent
sys.dont_write_bytecode = True  # the checkout stays as it is
sys.path.insert(0, str(TOP))
from domlogic.reading.generated import HEAD as GENERATED_HEAD, procedure_text

PROGRAM = TOP / "crates/domcheck_cli/out/domcheck_cli"
MOST_BYTES = 4_194_304
MOST_STEPS = 65_535
PROCEDURES = 923
RUNS = 9

# An argument of each sort, and a document, of a run.
ARGUMENTS = {"node": "null", "list": "nolist", "int": "1", "str": "a", "bool": "yes"}
DOCUMENT = '["a"#1[0f]%1]\n'

HEAD = "domlogic 1\n"
NAMES = "logic str $s;\nlogic node $i, $n;\nlogic list $l, $m, $w;\nlogic f $q;\n"


def filled(room, head, part, tail="", most=MOST_STEPS):
    """The head, as many parts, numbered from 1, as the room holds and may be, and the tail."""
    pieces, left = [head], room - len(head) - len(tail)
    while len(pieces) <= most and len(piece := part(len(pieces))) <= left:
        pieces.append(piece)
        left -= len(piece)
    return "".join(pieces) + tail


def procedure(number, count):
    """A procedure that hands a sum on from variable to variable, in so many assignments."""
    terms = [f"{{a + {number}}}", *(("sum", "x")[k % 2] for k in range(count))]
    holds = [f"{term} = {{a + {number}}}" for term in terms]
    sets = [f"{terms[k + 1]} := {terms[k]}" for k in range(count)]
    block = f"{{ {' ; '.join(sets)} }}"
    cited = ", ".join(str(k + 1) for k in range(count))
    lines = [
        f"proc hand_on_{number}(a: int) returns (sum: int, x: int) sort g",
        f"requires {holds[0]} ensures {holds[-1]}",
        f"body {block}",
        "proof",
    ]
    for k in range(count):
        triple = f"pre {holds[k]} do {sets[k]} post {holds[k + 1]} at g"
        lines.append(f"step {k + 1} by assign(): {triple};")
    triple = f"pre {holds[0]} do {block} post {holds[-1]} at g"
    lines.append(f"step {count + 1} by seq({cited}): {triple};")
    lines.append("end")
    return "".join(f"{line}\n" for line in lines)


def assignments(room):
    """The procedures, each with as many assignments as its share of the bytes has room for."""
    text, procedures = HEAD, PROCEDURES * room // MOST_BYTES
    for number in range(procedures):
        share = (room - len(text)) // (procedures - number)
        count = 1
        while len(procedure(number, count + 1)) <= share:
            count += 1
        text += procedure(number, count)
    return text


def citations(room):
    """A proof whose first steps are of skip, and whose later ones cite a step far back."""
    back = 20_000 * room // MOST_BYTES
    text = f"{HEAD}proc main() returns () sort g\n"
    text += "requires true ensures true\nbody {skip}\nproof\n"
    for number in range(1, back * 3 // 2 + 1):
        text += f"step {number} by skip(): pre true do skip post true at g;\n"
    for number in range(back * 3 // 2 + 1, back * 5 // 2 + 1):
        text += f"step {number} by seq({number - back}): pre true do {{skip}} post true at g;\n"
    return text + "end\n"


def grove(number):
    """A procedure that makes a node, with its proof."""
    called = f'"t{number}"'
    made = f"(exists $m . [{called}#x[0f]%$m])"
    some = f"(exists $n . (exists $m . [{called}#$n[0f]%$m]))"
    make, block = f"x := createNode({called})", f"{{ x := createNode({called}) }}"
    empty, same = "(0g and x = null)", f"{called} = {called}"
    steps = [
        f"create(): pre (0g and {same}) do {make} post {made} at g",
        f"and_left(): {empty} entails 0g at g",
        f"eq_refl(): {empty} entails {same} at g",
        f"and_in(2, 3): {empty} entails (0g and {same}) at g",
        f"exists_in() with (x): {made} entails {some} at g",
        f"consequence(4, 1, 5): pre {empty} do {make} post {some} at g",
        f"seq(6): pre {empty} do {block} post {some} at g",
        f"local(7): pre 0g do local x : node {block} post {some} at g",
    ]
    head = f"proc p{number}() returns () sort g\nrequires 0g\nensures {some}\n"
    proof = "".join(f"step {k + 1} by {step};\n" for k, step in enumerate(steps))
    return f"{head}body local x : node {block}\nproof\n{proof}end\n"


def groves(room):
    """Procedures that make a node."""
    return filled(room, HEAD + "logic list $m;\nlogic node $n;\n", grove)


COMMANDS = [
    "skip",
    "a := {n + NUMBER}",
    's := {s ++ "x"}',
    'b := createNode({s ++ "\\"NUMBER\\""})',
    "s := nodeName(b)",
    "b := parentNode(p)",
    "l := childNodes(b)",
    "c := item(l, -NUMBER)",
    "appendChild(p, c)",
    "removeChild(p, c)",
    "t := yes",
    "if ((not c = null) and (t or {a - 1} <= n)) { a := 0 } else { skip ; a := 1 }",
    "while (a <= NUMBER and (not l = nolist)) { a := {a + 1} }",
    "local d : node { d := c ; call (a, b, c, l, s, t) := run_NUMBER(d, n) }",
]
RESULTS = "a: int, b: node, c: node, l: list, s: str, t: bool"


def command(number):
    """A procedure whose body has each kind of command, proved from what never holds."""
    body = f"{{ {' ; '.join(COMMANDS)} }}".replace("NUMBER", str(number))
    head = f"proc run_{number}(p: node, n: int) returns ({RESULTS}) sort g\n"
    head += f"requires false ensures true\nbody {body}\nproof\n"
    return f"{head}step 1 by absurd(): pre false do {body} post true at g;\nend\n"


def commands(room):
    """Procedures with each kind of command."""
    return filled(room, HEAD, command)


def entailment(number):
    """Some steps of a proof, each numbered from the last one of those before on."""
    n = 8 * (number - 1)
    held = '[$s#$i[($q * <"b"#p[0f]%$l>)]%$w]'
    some = '[$s#$i[($q * <"b"#$n[0f]%$l>)]%$w]'
    equal = f"{{a + {number}}} = {{a + {number}}}"
    steps = [
        f"id(): {held} entails {held} at g",
        f"eq_refl(): {held} entails {equal} at g",
        f"and_in({n + 1}, {n + 2}): {held} entails ({held} and {equal}) at g",
        f"exists_in() with (p): {held} entails (exists $n . {some}) at g",
        f"hole_left(): (?g @g {held}) entails {held} at g",
        f"hole_adj_in({n + 5}): ?g entails ({held} -o {held}) at gg",
        f"star_unit(): (<$s#$i[$q]%$l> * 0f) entails <$s#$i[$q]%$l> at f",
        f"or_left(): len 2 entails (len 2 or (not (forall $n . ($q -> $n = null)))) at f",
    ]
    return "".join(f"step {n + k + 1} by {step};\n" for k, step in enumerate(steps))


def entailments(room):
    """One proof by entailments, which ends in a step by skip."""
    head = f"{HEAD}{NAMES}proc main(p: node, a: int) returns () sort g\n"
    head += "requires 0g ensures 0g\nbody skip\nproof\n"
    last = "step {} by skip(): pre 0g do skip post 0g at g;\nend\n"
    text = filled(room - len(last) - 5, head, entailment, most=MOST_STEPS // 8)
    return text + last.format(text.count("\nstep ") + 1)


def proof_in_parts(room, head, part):
    """One proof of parts that each give their steps, numbered on, with a last step by skip."""
    last = "step {} by skip(): pre 0g do skip post 0g at g;\nend\n"
    pieces, count, left = [head], 0, room - len(head) - len(last) - 3
    while True:
        steps = list(part(len(pieces), count))
        piece = "".join(f"step {count + k} by {it};\n" for k, it in enumerate(steps, 1))
        if len(piece) > left or count + len(steps) >= MOST_STEPS:
            return "".join([*pieces, last.format(count + 1)])
        pieces.append(piece)
        count, left = count + len(steps), left - len(piece)


FACTS = 40


def gathered(number, before):
    """The steps that gather facts of `true` into one conjunction, and take each out again."""
    facts = [f"{{a + {number}}} = {{a + {number}}}", *(f"{k} = {k}" for k in range(2, FACTS + 1))]
    whole = facts[0]
    yield f"eq_refl(): true entails {whole} at g"
    for k, fact in enumerate(facts[1:], 1):
        yield f"eq_refl(): true entails {fact} at g"
        whole = f"({whole} and {fact})"
        yield f"and_in({before + 2 * k - 1}, {before + 2 * k}): true entails {whole} at g"
    rest, at = whole, before + 2 * FACTS - 1
    while rest != facts[0]:
        less = rest[1:].rsplit(" and ", 1)[0]
        yield f"and_left(): {rest} entails {less} at g"
        yield f"cut({at}, {at + 1}): true entails {less} at g"
        rest, at = less, at + 2


def conj(room):
    """Facts gathered into one conjunction."""
    head = f"{HEAD}proc main(a: int) returns () sort g\nrequires 0g ensures 0g\nbody skip\nproof\n"
    return proof_in_parts(room, head, gathered)


TREES = 24


def regrouped(number, before, sign, rule, sort):
    """The steps that move the brackets of a row of parts from the left to the right."""
    put, word = (("<", ">"), "tree") if sign == "*" else (("[", "]"), "root")
    parts = [f'{put[0]}"{word}{number}"#$i[len {k}]%$l{put[1]}' for k in range(TREES)]
    left = parts[0]
    for part in parts[1:-1]:
        left = f"({left} {sign} {part})"
    right, at = parts[-1], before
    whole = f"({left} {sign} {right})"
    yield f"id(): {whole} entails {whole} at {sort}"
    while left != parts[0]:
        less, part = left[1:-1].rsplit(f" {sign} ", 1)
        moved = f"({less} {sign} ({part} {sign} {right}))"
        yield f"{rule}(): ({left} {sign} {right}) entails {moved} at {sort}"
        yield f"cut({at + 1}, {at + 2}): {whole} entails {moved} at {sort}"
        left, right, at = less, f"({part} {sign} {right})", at + 2


def regrouped_both(number, before):
    """The same of a forest and of a grove."""
    forest = list(regrouped(number, before, "*", "star_assoc", "f"))
    yield from forest
    yield from regrouped(number, before + len(forest), "+", "plus_assoc", "g")


def assoc(room):
    """Forests and groves whose brackets are moved over."""
    head = f"{HEAD}{NAMES}proc main() returns () sort g\nrequires 0g ensures 0g\nbody skip\nproof\n"
    return proof_in_parts(room, head, regrouped_both)


LEVELS = 44


def node_levels(number, before):
    """The steps that lead one entailment of forests through the levels of nodes."""
    inner, outer, at = "0f", f"(0f or len {number})", before + 1
    yield f"or_left(): {inner} entails {outer} at f"
    for level in range(LEVELS):
        name = f'"n{level}"#$i'
        inner, outer = f"{name}[{inner}]%$l", f"{name}[{outer}]%$l"
        yield f"mono_node({at}): {inner} entails {outer} at t"
        inner, outer = f"<{inner}>", f"<{outer}>"
        yield f"mono_tree({at + 1}): {inner} entails {outer} at f"
        at += 2


def levels(room):
    """Mono rules through levels of nodes."""
    head = f"{HEAD}{NAMES}proc main() returns () sort g\nrequires 0g ensures 0g\nbody skip\nproof\n"
    return proof_in_parts(room, head, node_levels)


BINDERS = 40


def all_of(parts):
    """The conjunction of the formulas, put together by pairs."""
    if len(parts) == 1:
        return parts[0]
    return f"({all_of(parts[:len(parts) // 2])} and {all_of(parts[len(parts) // 2:])})"


def bound_terms(count, terms):
    """A formula of the terms, of which so many are variables that quantifiers bind."""
    held = [f"$m{k}" if k < count else term for k, term in enumerate(terms)]
    inner = all_of([f"{low} <= {high}" for low, high in zip(held[::2], held[1::2])])
    for k in range(count):
        inner = f"(exists $m{k} . {inner})"
    return inner


def free_again(number, before):
    """The steps that bring quantifiers in, a written argument each, and take them out again."""
    terms = [f"{{a + {number + k}}}" for k in range(BINDERS)]
    start, at = bound_terms(0, terms), before + 1
    yield f"id(): {start} entails {start} at g"
    for k, term in enumerate(terms):
        bound = bound_terms(k + 1, terms)
        yield f"exists_in() with ({term}): {bound_terms(k, terms)} entails {bound} at g"
        yield f"cut({at}, {at + 1}): {start} entails {bound} at g"
        at += 2
    inner = bound.rpartition(" . ")[2][:-BINDERS]
    yield f"true_in(): {inner} entails true at g"
    for k in range(BINDERS):
        inner = f"(exists $m{k} . {inner})"
        yield f"exists_out({at + 1 + k}): {inner} entails true at g"


def binders(room):
    """Quantifiers brought in and taken out."""
    names = ", ".join(f"$m{k}" for k in range(BINDERS))
    head = f"{HEAD}logic int {names};\nproc main(a: int) returns () sort g\n"
    return proof_in_parts(room, f"{head}requires 0g ensures 0g\nbody skip\nproof\n", free_again)


def nested(depth, left, inner, right):
    """The inner text in so many pairs of brackets."""
    return left * depth + inner + right * depth


def deep_procedure(number):
    """A procedure with a nest of nodes, one of connectives, one of sums and one of blocks."""
    nodes = f"[{nested(44, '$s#$i[<', f'$s#$i[len {number}]%$l', '>]%$l')}]"
    words = nested(22, "(not (exists $n . (true -> (?g @g ", nodes[:1] + "$t" + nodes[-1:], "))))")
    sums = nested(88, "{", "a", f" + {number}}}")
    block = nested(44, "{ if a <= 0 { ", f"a := {number}", " } else { skip } }")
    body = f"{{ a := {sums} ; {block} }}"
    held = [nodes, words, f"{sums} = a"]
    steps = [f"id(): {p} entails {p} at g" for p in held]
    steps.append(f"absurd(): pre false do {body} post true at g")
    head = f"proc deep_{number}() returns (a: int) sort g\nrequires false ensures true\n"
    proof = "".join(f"step {k + 1} by {step};\n" for k, step in enumerate(steps))
    return f"{head}body {body}\nproof\n{proof}end\n"


def deep(room):
    """Procedures whose parts nest deep."""
    return filled(room, f"{HEAD}{NAMES}logic t $t;\n", deep_procedure)


def joined(parts):
    """The formulas put together by pairs."""
    if len(parts) == 1:
        return parts[0]
    half, sign = len(parts) // 2, ("and", "+", "or", "->")[len(parts) % 4]
    return f"({joined(parts[:half])} {sign} {joined(parts[half:])})"


def long(room):
    """A procedure whose requires, ensures and step have one long formula."""
    ends = ["proc main(a: int) returns () sort g\nrequires ", "\nensures "]
    ends += ["\nbody skip\nproof\nstep 1 by skip(): pre ", " do skip post ", " at g;\nend\n"]
    parts = ["[$s#$i[<$s#$n[$q]%$l>]%$l]", "{a + 12} = 7", "(exists $n . [$s#$n[0f]%$l])", "0g"]
    least = sum(map(len, ends)) + len(HEAD + NAMES)
    count = (room - least) // 4 // (sum(map(len, parts)) + 28) * 4
    formula = joined((parts * count)[:count])
    return HEAD + NAMES + formula.join(ends)


def names(room):
    """A proof in which each step has a logic variable of its own."""
    count = room // 70
    text = f"{HEAD}logic node {', '.join(f'$n{k}' for k in range(1, count))};\n"
    text += "proc main() returns () sort g\nrequires 0g ensures 0g\nbody skip\nproof\n"
    for number in range(1, count):
        text += f"step {number} by eq_refl(): 0g entails $n{number} = $n{number} at g;\n"
    return text + f"step {count} by skip(): pre 0g do skip post 0g at g;\nend\n"


def generated(room):
    """The generated theory, with more procedures than may be asked for."""
    return filled(room, GENERATED_HEAD, procedure_text)


def calling(number):
    """A procedure that calls the last one, with its proof."""
    call = "call () := last()"
    head = f"proc p{number}() returns () sort g\nrequires true\nensures true\n"
    proof = f"proof\nstep 1 by call(): pre true do {call} post true at g;\nend\n"
    return f"{head}body {call}\n{proof}"


def calls(room):
    """Procedures that call the one behind all of them."""
    triple = "pre true do skip post true at g"
    head = "proc last() returns () sort g\nrequires true\nensures true\n"
    last = f"{head}body skip\nproof\nstep 1 by skip(): {triple};\nend\n"
    return filled(room, HEAD, calling, last)


def equalities(names):
    """The conjunction, by halves, that each of the variables is itself."""
    if len(names) == 1:
        return f"{names[0]} = {names[0]}"
    half = len(names) // 2
    return f"({equalities(names[:half])} and {equalities(names[half:])})"


def letters(room):
    """Rules for quantifiers whose formulas have a logic variable of its own in each part."""
    variables = [f"$v{number}" for number in range(room // 170)]
    whole = equalities(variables)
    steps = [
        f"id(): {whole} entails {whole} at g",
        f"exists_out(1): (exists $z . {whole}) entails {whole} at g",
        f"exists_in() with ($z): {whole} entails (exists $z . {whole}) at g",
        "skip(): pre 0g do skip post 0g at g",
    ]
    text = f"{HEAD}logic int {', '.join(variables)}, $z;\n"
    text += "proc main() returns () sort g\nrequires 0g ensures 0g\nbody skip\nproof\n"
    text += "".join(f"step {k + 1} by {step};\n" for k, step in enumerate(steps))
    return f"{text}end\n"


SHAPES = {
    "assignments": assignments,
    "citations": citations,
    "groves": groves,
    "commands": commands,
    "entailments": entailments,
    "deep": deep,
    "long": long,
    "names": names,
    "conj": conj,
    "assoc": assoc,
    "levels": levels,
    "binders": binders,
    "generated": generated,
    "calls": calls,
    "letters": letters,
}


def run(words, file, statuses):
    """The user time and the greatest resident memory in bytes of a run that reads the file."""
    with open(file, "rb") as it, open(os.devnull, "wb") as out:
        started = subprocess.Popen(words, stdin=it, stdout=out)
        _, status, used = os.wait4(started.pid, 0)
    started.returncode = os.waitstatus_to_exitcode(status)
    if started.returncode not in statuses:
        sys.exit(f"{words[0]} ended with status {started.returncode} on {file}")
    return used.ru_utime, used.ru_maxrss * 1024


def reading(program, file, document):
    """The words of a run of the file's first procedure, which reads and judges the file."""
    with open(file, encoding="utf-8") as it:
        heads = (re.match(r"proc\s+(\w+)\s*\(([^)]*)\)", line) for line in it)
        name, params = next(head for head in heads if head).groups()
    arguments = [ARGUMENTS[sort] for sort in re.findall(r":\s*(\w+)", params)]
    return [program, "run", file, name, document, "1", *arguments]


def means(requests, file):
    """The mean user times of each of the requests and of gzip, run in turn, and the greatest memory.

    A request is its words; it ends with status 0, or with 7 where its fuel is spent.
    """
    times = {tuple(words): [] for words in [*requests, ["gzip"]]}
    greatest = 0
    for _ in range(RUNS):
        for words, used in times.items():
            time, memory = run(words, file, (0, 7))
            used.append(time)
            greatest = max(greatest, memory)
    return [*(sum(used) / RUNS for used in times.values()), greatest]


def measure(program, name, file, document):
    """Prints what the program takes on the file, beside gzip."""
    size = os.path.getsize(file)
    requests = [reading(program, file, document), [program, "check", file]]
    read, check, gzip, memory = means(requests, file)
    ratios = f"{read / gzip:.1f} and {check / gzip:.1f}" if gzip else "no"
    times = f"read {read:.2f} s, check {check:.2f} s, gzip {gzip:.2f} s, ratios {ratios}"
    space = f"{memory / 1e6:.0f} MB, {memory / size:.1f} for a byte"
    print(f"{name}: {size:,} bytes, {times}, {space}", flush=True)


def write(shape, room, folder):
    """Writes the file of the shape that has room for so many bytes, and gives its name."""
    file = os.path.join(folder, f"{shape}_{room // 1024}k.dom")
    with open(file, "w", encoding="utf-8") as it:
        it.write(SHAPES[shape](room))
    return file


def main(words):
    writes = words[:1] == ["--write"]
    shapes = [word for word in words if word in SHAPES] or list(SHAPES)
    others = [word for word in words[writes:] if word not in SHAPES]
    if len(others) > 1 or words[:1] == ["--help"]:
        sys.exit(__doc__)
    program = str(pathlib.Path(others[0]).resolve() if others and not writes else PROGRAM)
    if not writes and not os.access(program, os.X_OK):
        sys.exit(f"{program} isn't built: `./domcheck check examples/first.dom` builds it")
    with tempfile.TemporaryDirectory() as room:
        folder = (others or ["."])[0] if writes else room
        document = os.path.join(room, "document")
        pathlib.Path(document).write_text(DOCUMENT, encoding="utf-8")
        for shape in shapes:
            for halvings in range(4, -1, -1):
                file = write(shape, MOST_BYTES >> halvings, folder)
                if not writes:
                    measure(program, shape, file, document)


if __name__ == "__main__":
    main(sys.argv[1:])
