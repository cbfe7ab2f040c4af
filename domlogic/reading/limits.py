"""The limits, the sorts and the refusals that the other parts share."""

FILE_BYTES, TEXT_BYTES, VARIABLES, STEPS, NODES = 4194304, 4096, 64, 65535, 100000
FILE_NESTING, DOCUMENT_NESTING, DEPTH, STRAIGHT, WATCH = 100, 200, 10000, 64, 100000000
LAST_U32, LAST_I64, LAST_U64 = 2**32 - 1, 2**63 - 1, 2**64 - 1

VALUE_SORTS = "node list int str bool".split()
DATA_SORTS = "t f g".split()
# A context's hole comes first: tg has a hole for a tree and gives a grove. There are no gt and gf.
SHAPE_SORTS = DATA_SORTS + "tt tf tg ft ff fg gg".split()
DEFAULTS = {"node": None, "list": None, "int": 0, "str": "", "bool": False}


class Refused(Exception):
    """What ends a request before its output: the exit status and the line."""

    def __init__(self, status, line=None):
        super().__init__(line)
        self.status, self.line = status, line
