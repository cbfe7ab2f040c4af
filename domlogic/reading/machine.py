"""The grove of a run, and its steps.

A grove may be a chain of a hundred thousand nodes, or a root with as many children. So nothing here
goes into itself for each level of a grove, and no step looks at all nodes.
"""
from domlogic.reading.limits import DEFAULTS, DEPTH, LAST_I64, LAST_U32, NODES, TEXT_BYTES, Refused
from domlogic.reading.sorts import declared_by
from domlogic.reading.texts import command_text, quoted, value_text


class Faulted(Exception):
    """A command's fault; its kind."""


class Row:
    """The numbers of a node's children in their order, in blocks that stay short."""

    MOST = 500

    def __init__(self):
        self.blocks = []

    def numbers(self):
        return [number for block in self.blocks for number in block]

    def item(self, place):
        """Returns the number at a place, counted from 0, or None."""
        if place < 0:
            return None
        for block in self.blocks:
            if place < len(block):
                return block[place]
            place -= len(block)
        return None

    def found(self, number, of_block):
        """Returns where its block stands, and where it stands in the block."""
        block = of_block[number]
        at = next(at for at, it in enumerate(self.blocks) if it is block)
        return at, block.index(number)

    def put(self, number, following, of_block):
        """Puts a number before another one, or at the end for None."""
        if following is not None:
            at, place = self.found(following, of_block)
        else:
            self.blocks = self.blocks or [[]]
            at, place = len(self.blocks) - 1, len(self.blocks[-1])
        block = self.blocks[at]
        block.insert(place, number)
        of_block[number] = block
        if len(block) > self.MOST:
            rear = block[self.MOST // 2 :]
            del block[self.MOST // 2 :]
            self.blocks.insert(at + 1, rear)
            of_block.update((it, rear) for it in rear)

    def take_out(self, number, of_block):
        at, place = self.found(number, of_block)
        del self.blocks[at][place], of_block[number]
        if not self.blocks[at]:
            del self.blocks[at]


class Grove:
    """The nodes by number: name, list number, parent (None at a root), the row of the children.

    Besides the owner of each list, the block in which each child stands, and the greatest numbers;
    no node ever leaves a grove.
    """

    def __init__(self, trees):
        self.name, self.childlist, self.parent, self.children = {}, {}, {}, {}
        self.owner, self.of_block, self.last_node, self.last_list = {}, {}, 0, 0
        waiting = [(tree, None) for tree in reversed(trees)]
        while waiting:
            tree, parent = waiting.pop()
            self.add(tree.name, tree.node, tree.childlist)
            self.link(tree.node, parent)
            waiting += ((child, tree.node) for child in reversed(tree.children))

    def add(self, name, node, childlist):
        """Adds a root without children."""
        self.name[node], self.childlist[node], self.parent[node] = name, childlist, None
        self.children[node], self.owner[childlist] = Row(), node
        self.last_node = max(self.last_node, node)
        self.last_list = max(self.last_list, childlist)

    def known(self, *nodes):
        """Faults where one is null or absent."""
        if any(node not in self.name for node in nodes):
            raise Faulted("NoNode")

    def create(self, name):
        if len(self.name) >= NODES:
            raise Refused(8, "limit nodes")
        node, childlist = self.last_node + 1, self.last_list + 1
        if max(node, childlist) > LAST_U32:
            raise Refused(8, "limit identifier")
        self.add(name, node, childlist)
        return node

    def item(self, childlist, place):
        if childlist not in self.owner:
            raise Faulted("NoList")
        return self.children[self.owner[childlist]].item(place)

    def link(self, node, parent, following=None):
        """Puts a root among the children of a parent, if any, before one of them or at the end."""
        self.parent[node] = parent
        if parent is not None:
            self.children[parent].put(node, following, self.of_block)

    def move(self, node, parent, following=None):
        """Takes a node's tree out of its place and puts it elsewhere, as `link` says."""
        if self.parent[node] is not None:
            self.children[self.parent[node]].take_out(node, self.of_block)
        self.link(node, parent, following)

    def outside(self, parent, node):
        """Faults where the node is the parent or an ancestor of it."""
        above = parent
        while above is not None:
            if above == node:
                raise Faulted("Cycle")
            above = self.parent[above]

    def append(self, parent, node):
        self.known(parent, node)
        self.outside(parent, node)
        self.move(node, parent)

    def insert(self, parent, node, following):
        """Moves a node's tree just before another child of the parent, or to their end for null."""
        self.known(parent, node)
        if following is not None:
            self.known(following)
        if node == following:
            raise Faulted("SelfRef")
        self.outside(parent, node)
        if following is not None and self.parent[following] != parent:
            raise Faulted("NotChild")
        self.move(node, parent, following)

    def remove(self, parent, node):
        self.known(parent, node)
        if self.parent[node] != parent:
            raise Faulted("NotChild")
        self.move(node, None)

    def roots(self):
        """Returns the numbers of the roots, rising."""
        return sorted(node for node, parent in self.parent.items() if parent is None)

    def text(self):
        """Returns the text of the grove, its roots in the order of their numbers."""
        # What is still to be printed, the next one last: texts, and the numbers of nodes.
        waiting, found = self.between(self.roots(), "[", "] + [", "]") or ["0g"], []
        while waiting:
            one = waiting.pop()
            if isinstance(one, str):
                found.append(one)
            else:
                waiting.append(f"]%{self.childlist[one]}")
                waiting += self.between(self.children[one].numbers(), "<", "> * <", ">") or ["0f"]
                waiting.append(f"{quoted(self.name[one])}#{one}[")
        return "".join(found)

    @staticmethod
    def between(nodes, first, middle, last):
        """Returns the nodes with the texts around them, the first one last; nothing for no node."""
        found = [last] if nodes else []
        for node in reversed(nodes):
            found += [node, middle]
        return [*found[:-1], first] if nodes else found


def value_of(term, store):
    """Returns the value of a term; every subterm counts, from left to right and inner first."""
    head, *parts = term
    if head in ("int", "str"):
        return parts[0]
    if head in ("null", "nolist", "yes", "no"):
        return {"yes": True, "no": False}.get(head)
    if head == "prog":
        return store[parts[0]]
    left, right = value_of(parts[0], store), value_of(parts[1], store)
    value = left - right if head == "-" else left + right
    if head == "++" and len(value.encode()) > TEXT_BYTES:
        raise Refused(8, "limit text")
    if head != "++" and not -LAST_I64 - 1 <= value <= LAST_I64:
        raise Refused(8, "limit number")
    return value


def holds(condition, store):
    """Says whether a condition holds; all its parts are evaluated."""
    head, *parts = condition
    if head in ("true", "false"):
        return head == "true"
    if head == "holds":
        return value_of(parts[0], store)
    if head in ("=", "<="):
        left, right = value_of(parts[0], store), value_of(parts[1], store)
        return left == right if head == "=" else left <= right
    found = [holds(part, store) for part in parts]
    return {"not": not found[0], "and": all(found), "or": any(found)}[head]


class Machine:
    """The pending pieces (the next one last), the store and the grove of a run, and its steps."""

    def __init__(self, theory, procedure, arguments, grove):
        self.procedures = {it.name: it for it in theory.procedures}
        self.pending, self.grove, self.returns, self.steps = [procedure.body], grove, 0, 0
        self.store = self.store_for(procedure, arguments)

    @staticmethod
    def store_for(procedure, arguments):
        """The parameters hold the arguments, and every other variable its default."""
        store = {name: DEFAULTS[sort] for name, sort in declared_by(procedure)}
        store.update(zip((name for name, _ in procedure.params), arguments))
        return store

    def values(self, terms):
        return [value_of(term, self.store) for term in terms]

    def step(self):
        """Takes one step. Where that is refused or faults, the pieces are as before."""
        head, *parts = self.pending[-1]
        followers = getattr(self, "on_" + {":=": "assign", "if": "if_else"}.get(head, head))(*parts)
        self.pending.pop()
        self.pending.extend(reversed(followers or []))
        self.steps += 1

    def on_skip(self):
        pass

    def on_block(self, *commands):
        return commands

    def on_assign(self, target, term):
        self.store[target[1]] = value_of(term, self.store)

    def on_if_else(self, condition, then, otherwise):
        return [then if holds(condition, self.store) else otherwise]

    def on_while(self, condition, block):
        return [block, ("while", condition, block)] if holds(condition, self.store) else []

    def on_local(self, target, sort, block):
        old = self.store[target[1]]
        self.store[target[1]] = DEFAULTS[sort]
        return [block, ("restore", target[1], old)]

    def on_restore(self, name, old):
        self.store[name] = old

    def on_call(self, results, name, arguments):
        callee, values = self.procedures[name], self.values(arguments)
        if self.returns >= DEPTH:
            raise Refused(8, "limit depth")
        self.returns += 1
        back = ("give_back", self.store, [it[0] for it in callee.results], results)
        self.store = self.store_for(callee, values)
        return [callee.body, back]

    def on_give_back(self, store, given, taken):
        self.returns -= 1
        values = [self.store[name] for name in given]
        self.store = store
        self.store.update(zip((name for _, name in taken), values))

    def on_createNode(self, target, name):
        self.store[target[1]] = self.grove.create(value_of(name, self.store))

    def on_nodeName(self, target, node):
        self.look_up(self.grove.name, target, node)

    def on_parentNode(self, target, node):
        self.look_up(self.grove.parent, target, node)

    def on_childNodes(self, target, node):
        self.look_up(self.grove.childlist, target, node)

    def look_up(self, links, target, node):
        value = value_of(node, self.store)
        self.grove.known(value)
        self.store[target[1]] = links[value]

    def on_item(self, target, childlist, place):
        self.store[target[1]] = self.grove.item(*self.values([childlist, place]))

    def on_appendChild(self, parent, node):
        self.grove.append(*self.values([parent, node]))

    def on_insertBefore(self, parent, node, following):
        self.grove.insert(*self.values([parent, node, following]))

    def on_removeChild(self, parent, node):
        self.grove.remove(*self.values([parent, node]))


def outcome(machine, fuel):
    """Runs the machine to its end, or refuses."""
    while machine.pending:
        if machine.steps == fuel:
            raise Refused(7, f"fuel spent after {machine.steps} steps")
        try:
            machine.step()
        except Faulted as kind:
            command = command_text(machine.pending[-1])
            raise Refused(6, f"fault {kind} after {machine.steps} steps: {command}") from None


def run_lines(machine, procedure, fuel):
    """Returns the status and the lines of a run; a limit is refused."""
    try:
        outcome(machine, fuel)
    except Refused as why:
        if why.status == 8:
            raise
        return why.status, [why.line]
    results = [f"{name} = {value_text(machine.store[name], sort)}"
               for name, sort in procedure.results]
    return 0, [f"ended after {machine.steps} steps", *results, machine.grove.text()]
