#!/usr/bin/env python3
"""Which definitions a promise rests on.

    docs/reached.py [--files]                       the contract of `domcheck`
    docs/reached.py [--files] CRATE FUNCTION        that of another function, as formula_syntax same_formula

Begins with the names in the contract, for `domcheck` in those of the traits `Library` and `Sink` too, and follows
each through the imports of its file, definition by definition, but for what a clause says whole. Prints, crate by crate, how many lines of specs/ are
reached, with comments and without; with --files, the names of the files. Of `domcheck` it says as well which files
have a first line that isn't true: a file that the contract doesn't reach begins with "-- Needn't be believed: ", and
no other does. Then it ends with 1.
"""
import collections
import os
import re
import sys

TOP = os.path.join(os.path.dirname(os.path.abspath(__file__)), "..", "crates")
USE = re.compile(r"(?m)^[ \t]*((?:abbrev )?pub )?(?:ghost )?use Rattle\.([\w.]+)"
                 r"(?:\.\{([^}]*)\}| as ([^\s;]+))?;?[ \t]*$")
HEAD = re.compile(r"^(?!--|use |pub use |abbrev pub use |mod |pub mod |module )"
                  r"(?:(?:abbrev |unfoldable |pub |data |record )*)([^\s:(){}]+)\s*(?::|\(|\{)")
BLOCK = r"module |(abbrev )?mutual$"
MARK = "-- Needn't be believed: "
PROMISE = [("domcheck_core", "domcheck"), ("outside_io", "fetch"), ("outside_io", "put")]
# What a clause of the contract says whole in other words, so that nobody need believe how it is defined: by the clause
# `judged` of `domcheck` what is judged of a formula is satisfaction.
SAID = {("model_watch", "specs", "Watching"): {"is_met"}}


def read(path):
    with open(path, encoding="utf-8") as file:
        return file.read()


def tokens_of(text):
    """The names in a text, each with the one before it and a dot, if there is one."""
    text = re.sub(r"--.*|//.*|\"(?:[^\"\\]|\\.)*\"", " ", text)
    for word in re.findall(r"[^\s(){}\[\],;]+", text):
        before = None
        for part in word.split("."):
            yield before, part
            before = part


def imports_of(text):
    """Where each imported name comes from, which modules stand under a name, and what is passed on."""
    names, modules, passed = {}, {}, {}
    for public, path, listed, alias in USE.findall(text):
        place = tuple(path.split("."))
        if alias:
            modules[alias] = place
        for item in filter(None, (part.strip() for part in (listed or "").split(","))):
            old, new = (item.split(" as ") + [item])[:2]
            names[new] = (place, old)
            if public:
                passed[new] = (place, old)
    return names, modules, passed


class Item:
    """A definition: its lines, and the comment lines above and among them."""

    def __init__(self, name, module):
        self.name, self.lines, self.comments, self.module = name, [], [], module

    def names(self):
        """The name and what else it defines: constructors, fields."""
        yield self.name
        if re.match(r"(abbrev |pub )*(data|record) ", self.lines[0]):
            for line in self.lines[1:]:
                found = re.match(r"\s+(?:pub )?([^:(){}=→]+?)\s*:(?:\s|$)", line)
                yield from found.group(1).split() if found else ()


class File:
    """A file of specs/: its definitions by name, and its imports."""

    def __init__(self, path):
        self.path, self.text, self.items, self.by_name = path, read(path), [], {}
        self.names, self.modules, self.passed = imports_of(self.text)
        comments, item, blocks = [], None, []
        for line in self.text.split("\n"):
            # a module or a mutual block holds the lines that are two columns further in
            while line and blocks and not line.startswith("  " * len(blocks)):
                blocks.pop()
            line = line[2 * len(blocks):]
            if re.match(BLOCK, line):
                blocks.append(line)
            head = HEAD.match(line)
            if line.startswith("--"):
                comments.append(line)
            elif not line.strip():
                comments = []
            elif re.match(r"((abbrev )?pub )?use |(pub )?mod |" + BLOCK, line):
                comments, item = [], None
            elif head and (not item or re.match(r"abbrev |unfoldable |pub |data |record ", line)
                           or re.match(r"[^\s:(){}]+ : ", line)):
                item = Item(head.group(1), "\n".join(blocks))
                self.items.append(item)
                item.comments, comments = comments, []
                item.lines.append(line)
            elif item:
                item.comments += comments + ([line] if line.lstrip().startswith("--") else [])
                item.lines += [] if line.lstrip().startswith("--") else [line]
                comments = []
        for item in self.items:
            for name in item.names():
                self.by_name.setdefault(name, item)
                for part in filter(None, name.split("◌")):
                    self.by_name.setdefault(part, item)


class House:
    """All files of specs/, and what is reached in them."""

    def __init__(self):
        self.files = {}
        for crate in sorted(os.listdir(TOP)):
            folder = os.path.join(TOP, crate, "specs")
            for here, _, names in os.walk(folder):
                for name in sorted(n for n in names if n.endswith(".antt") and n != "Lib.antt"):
                    path = os.path.join(here, name)
                    parts = os.path.relpath(path, folder)[:-5].split(os.sep)
                    self.files[(crate, "specs") + tuple(parts)] = File(path)

    def find(self, place, name):
        """The file and the definition of a name that a module gives, where it is one of ours."""
        file = self.files.get(place)
        if file is None:
            return None
        if name in file.by_name:
            return place, file.by_name[name]
        if name in file.passed:
            return self.find(*file.passed[name])
        return None

    def named_in(self, text, names, modules, place=None):
        """The definitions that a text names, in a file with these imports."""
        by_sign = {part: at for name, at in names.items() if "◌" in name for part in name.split("◌") if part}
        for before, name in tokens_of(text):
            if before in modules:
                yield self.find(modules[before], name)
            elif name in names or name in by_sign:
                yield self.find(*(names.get(name) or by_sign[name]))
            elif place:
                yield self.find(place, name)

    def reached(self, roots):
        """The definitions that these rest on, by file."""
        found, todo = collections.defaultdict(set), [root for root in roots if root]
        while todo:
            place, item = todo.pop()
            if item in found[place] or item.name in SAID.get(place, ()):
                continue
            found[place].add(item)
            file = self.files[place]
            text = "\n".join([item.module] + item.lines)
            todo += [at for at in self.named_in(text, file.names, file.modules, place) if at]
        return {place: items for place, items in found.items() if items}


def contract_of(crate, function):
    """The heads of the functions of this name in a crate, each with the text of its file."""
    for here, _, names in os.walk(os.path.join(TOP, crate, "src")):
        for name in sorted(n for n in names if n.endswith(".rt")):
            text = read(os.path.join(here, name))
            lines = text.split("\n")
            for at, line in enumerate(lines):
                if re.match(r"\s*(?:pub )?(?:const )?fn %s\b" % function, line):
                    yield "\n".join(lines[at:end_of(lines, at)]), text


def end_of(lines, at):
    """Where the head of a function ends: before its body, or with its declaration."""
    indent = len(lines[at]) - len(lines[at].lstrip())
    ends = (place + 1 for place in range(at, len(lines)) if lines[place].rstrip().endswith(";")
            or re.match(r" {%d}[{}]" % indent, lines[place]) or (place == at and lines[place].endswith("{")))
    return next(ends, len(lines))


def roots_of(house, functions):
    for crate, function in functions:
        heads = list(contract_of(crate, function))
        # what a trait declares stands for all that keep it
        declared = [pair for pair in heads if pair[0].rstrip().endswith(";")]
        for head, text in declared or heads:
            names, modules, _ = imports_of(text)
            yield from house.named_in(head, names, modules)


def print_table(house, found, with_files):
    print("| crate | files | lines | without comments |\n|---|---|---|---|")
    rows, total = collections.defaultdict(list), [0, 0, 0]
    for place, items in found.items():
        rows[place[0]].append((".".join(place[2:]), items))
    for crate in (c for c in crates() if c in rows):
        files = sorted(name for name, _ in rows[crate])
        lines = sum(len(item.lines) for _, items in rows[crate] for item in items)
        both = lines + sum(len(item.comments) for _, items in rows[crate] for item in items)
        print("| %s | %s | %d | %d |" % (crate, ", ".join(files) if with_files else len(files), both, lines))
        total = [total[0] + len(files), total[1] + both, total[2] + lines]
    print("| together | %d | %s | %s |" % (total[0], format(total[1], ","), format(total[2], ",")))


def crates():
    lines = read(os.path.join(TOP, "..", "crates.txt")).split("\n")
    return [line.split(":")[0] for line in lines if line and not line.startswith("#")]


def main(words):
    house, with_files = House(), "--files" in words
    named = [word for word in words if word != "--files"]
    found = house.reached(roots_of(house, [named] if named else PROMISE))
    print_table(house, found, with_files)
    wrong = 0
    for place, file in sorted(house.files.items()) if not named else ():
        is_marked = file.text.startswith(MARK)
        if file.items and is_marked == (place in found):
            wrong += 1
            print("%s.antt: %s" % ("/".join(place), "is reached, and its first line says that it needn't be believed"
                                   if is_marked else "isn't reached, and its first line doesn't say so"))
    return 1 if wrong else 0


sys.exit(main(sys.argv[1:]))
