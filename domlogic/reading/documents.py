"""The grammar of documents, and the order of their numbers."""
from collections import namedtuple

from domlogic.reading.reader import Reader

Tree = namedtuple("Tree", "name node children childlist")


class DocumentReader(Reader):
    """The grammar of documents."""

    def grove(self):
        if self.sees("0g"):
            return () if self.take("0g") else None
        return self.separated(lambda: self.spelled("[", self.tree, "]")[0], "+")

    def tree(self):
        name = lambda: self.of_kind("literal")
        return Tree(*self.spelled(name, "#", self.number, "[", self.forest, "]", "%", self.number))

    def forest(self):
        if self.sees("0f"):
            return () if self.take("0f") else None
        return self.separated(lambda: self.spelled("<", self.tree, ">")[0], "*")


def numbers_in_text(trees):
    for tree in trees:
        yield "node", tree.node
        yield from numbers_in_text(tree.children)
        yield "list", tree.childlist


def numbers_in_document(trees):
    for tree in trees:
        yield "node", tree.node
        yield "list", tree.childlist
        yield from numbers_in_document(tree.children)
