#!/usr/bin/env python3
"""An independent model of the memories, written from the rules and not from the proofs, to hold programs against.

It has every call of pointer memory and of versioned memory with all refusals, keeps a whole copy of the state for
every version, and counts names by looking at every link and root, so it shares no idea with the proved code.

    memory.py run single N C               calls on standard input, answers on standard output
    memory.py run versioned V N C
    memory.py random single SEED LINES N C          a random list of calls on standard output
    memory.py random versioned SEED LINES V N C
    memory.py met FILE                     which refusals the answers in FILE have

A program echoes each call before its answer, as `load 0 1 -> done`, and passes over empty lines and lines that start with #; at the end stand the nodes made and changes accepted.
The generator leans towards calls that are accepted, and tries each refusal now and then: numbers out of range, nil
registers, spent nodes and changes, third names, writes outside the draft, unknown versions, lines that are none.
"""
import random
import sys

REGISTERS, ROOTS, LINKS = 40, 3, 2


class Refused(Exception):
    pass


class Node:
    def __init__(self, key, value, mark):
        self.key, self.value, self.mark, self.links = key, value, mark, [None, None]

    def copy(self):
        n = Node(self.key, self.value, self.mark)
        n.links = list(self.links)
        return n


class State:
    """Roots and nodes of one version; a node is found by its serial number."""

    def __init__(self):
        self.roots, self.nodes = [None] * ROOTS, {}

    def copy(self):
        s = State()
        s.roots, s.nodes = list(self.roots), {k: n.copy() for k, n in self.nodes.items()}
        return s

    def names(self, serial):
        return self.roots.count(serial) + sum(n.links.count(serial) for n in self.nodes.values())


class Memory:
    def __init__(self, nodes, changes, versions=None):
        self.node_limit, self.change_limit, self.version_limit = nodes, changes, versions
        self.states, self.working, self.made, self.changed = [State()], 0, 0, 0
        self.draft = 0 if versions is None else None
        self.regs = [None] * REGISTERS

    @property
    def state(self):
        return self.states[self.working]

    def low(self, *pairs):
        if any(n >= limit for n, limit in pairs):
            raise Refused(21)

    def node(self, reg):
        if self.regs[reg] is None:
            raise Refused(22)
        return self.state.nodes[self.regs[reg]]

    def draft_only(self):
        if self.draft != self.working:
            raise Refused(23)

    def change(self):
        self.draft_only()
        if self.changed >= self.change_limit:
            raise Refused(24)

    def write(self, cells, place, new):
        """Writes a link or root, unless the node would then have three names."""
        old, cells[place] = cells[place], new
        if new is not None and self.state.names(new) > 2:
            cells[place] = old
            raise Refused(26)
        self.changed += 1

    def load(self, root, reg):
        self.low((root, ROOTS), (reg, REGISTERS))
        self.regs[reg] = self.state.roots[root]

    def follow(self, src, side, reg):
        self.low((src, REGISTERS), (side, LINKS), (reg, REGISTERS))
        self.regs[reg] = self.node(src).links[side]

    def move(self, src, reg):
        self.low((src, REGISTERS), (reg, REGISTERS))
        self.regs[reg] = self.regs[src]

    def key(self, reg):
        self.low((reg, REGISTERS))
        return str(self.node(reg).key)

    def value(self, reg):
        self.low((reg, REGISTERS))
        return str(self.node(reg).value)

    def mark(self, reg):
        self.low((reg, REGISTERS))
        return str(self.node(reg).mark)

    def nil(self, reg):
        self.low((reg, REGISTERS))
        return "yes" if self.regs[reg] is None else "no"

    def same(self, a, b):
        self.low((a, REGISTERS), (b, REGISTERS))
        return "yes" if self.regs[a] == self.regs[b] else "no"

    def make(self, reg, key, value, mark):
        self.low((reg, REGISTERS))
        self.draft_only()
        if self.made >= self.node_limit:
            raise Refused(25)
        self.state.nodes[self.made] = Node(key, value, mark)
        self.regs[reg] = self.made
        self.made += 1

    def save(self, root, reg):
        self.low((root, ROOTS), (reg, REGISTERS))
        self.change()
        self.write(self.state.roots, root, self.regs[reg])

    def link(self, src, side, reg):
        self.low((src, REGISTERS), (side, LINKS), (reg, REGISTERS))
        node = self.node(src)
        self.change()
        self.write(node.links, side, self.regs[reg])

    def set_value(self, reg, x):
        self.low((reg, REGISTERS))
        node = self.node(reg)
        self.change()
        node.value, self.changed = x, self.changed + 1

    def set_mark(self, reg, x):
        self.low((reg, REGISTERS))
        node = self.node(reg)
        self.change()
        node.mark, self.changed = x, self.changed + 1

    def open(self, a):
        if self.draft is not None:
            raise Refused(27)
        if a >= len(self.states):
            raise Refused(31)
        if len(self.states) >= self.version_limit:
            raise Refused(32)
        self.states.append(self.states[a].copy())
        self.draft = len(self.states) - 1
        return f"version {self.draft}"

    def enter(self, v):
        if v >= len(self.states):
            raise Refused(31)
        self.working, self.regs = v, [None] * REGISTERS

    def close(self):
        if self.draft is None:
            raise Refused(28)
        self.draft = None


# the bits of each number of a call
SHAPES = {
    "load": (32, 32), "follow": (32, 32, 32), "move": (32, 32), "key": (32,), "value": (32,), "mark": (32,),
    "nil": (32,), "same": (32, 32), "make": (32, 32, 64, 32), "save": (32, 32), "link": (32, 32, 32),
    "set-value": (32, 64), "set-mark": (32, 32), "open": (32,), "enter": (32,), "close": (),
}
VERSIONED = ("open", "enter", "close")


def parse(line, single):
    word, *texts = line.split(" ")
    shape = SHAPES.get(word)
    if shape is None or len(texts) != len(shape) or (single and word in VERSIONED):
        return None
    numbers = []
    for text, bits in zip(texts, shape):
        if not (text.isascii() and text.isdigit()) or str(int(text)) != text or int(text) >= 1 << bits:
            return None
        numbers.append(int(text))
    return word, numbers


def answer(memory, line, single):
    call = parse(line, single)
    if call is None:
        return "not a line"
    try:
        result = getattr(memory, call[0].replace("-", "_"))(*call[1])
        return "done" if result is None else result
    except Refused as refusal:
        return f"refused {refusal.args[0]}"


def run(memory, single, lines):
    for line in lines:
        if line and not line.startswith("#"):
            yield f"{line} -> {answer(memory, line, single)}"
    yield f"{memory.made} nodes, {memory.changed} changes"


class Generator:
    """Random calls. It runs the model beside it, so that most calls find a node where they need one."""

    def __init__(self, seed, memory, single):
        self.dice, self.memory, self.single = random.Random(seed), memory, single

    def reg(self):
        return 40 + self.dice.randrange(3) if self.dice.random() < 0.01 else self.dice.randrange(6)

    def node_reg(self):
        held = [r for r in range(6) if self.memory.regs[r] is not None]
        return self.dice.choice(held) if held and self.dice.random() < 0.95 else self.reg()

    def side(self):
        return 2 if self.dice.random() < 0.01 else self.dice.randrange(2)

    def root(self):
        return 3 if self.dice.random() < 0.01 else self.dice.randrange(3)

    def number(self, bits):
        return self.dice.choice([0, 1, 2, self.dice.randrange(100), (1 << bits) - 1, self.dice.randrange(1 << bits)])

    def version(self):
        known = len(self.memory.states)
        return known if self.dice.random() < 0.05 else self.dice.randrange(known)

    def strange(self):
        return self.dice.choice(["", "load", "load 1", "load 1 2 3", "load 01 2", "load -1 2", "load 1  2", " load 1 2",
                                 "loads 1 2", "mark 4294967296", "set-value 0 18446744073709551616", "make 0 0 0", "close 1"])

    def line(self):
        if self.dice.random() < 0.01:
            return self.strange()
        m, words = self.memory, ["load", "follow", "follow", "move", "key", "value", "mark", "nil", "same", "make", "save",
                                 "save", "link", "link", "link", "set-value", "set-mark"]
        if not self.single:
            away = m.draft is not None and m.draft != m.working
            if away and self.dice.random() < 0.3:
                return f"enter {m.draft}"
            if self.dice.random() < (0.1 if m.draft is None else 0.02):
                word = self.dice.choice(["open", "open", "enter", "close"])
                return word if word == "close" else f"{word} {self.version()}"
        word = self.dice.choice(words)
        return {
            "load": lambda: f"load {self.root()} {self.reg()}",
            "follow": lambda: f"follow {self.node_reg()} {self.side()} {self.reg()}",
            "move": lambda: f"move {self.node_reg()} {self.reg()}",
            "key": lambda: f"key {self.node_reg()}",
            "value": lambda: f"value {self.node_reg()}",
            "mark": lambda: f"mark {self.node_reg()}",
            "nil": lambda: f"nil {self.reg()}",
            "same": lambda: f"same {self.reg()} {self.reg()}",
            "make": lambda: f"make {self.reg()} {self.number(32)} {self.number(64)} {self.number(32)}",
            "save": lambda: f"save {self.root()} {self.node_reg()}",
            "link": lambda: f"link {self.node_reg()} {self.side()} {self.node_reg()}",
            "set-value": lambda: f"set-value {self.node_reg()} {self.number(64)}",
            "set-mark": lambda: f"set-mark {self.node_reg()} {self.number(32)}",
        }[word]()

    def lines(self, count):
        for _ in range(count):
            line = self.line()
            answer(self.memory, line, self.single)
            yield line


def made(kind, limits):
    if kind == "single":
        nodes, changes = map(int, limits)
        return Memory(nodes, changes)
    versions, nodes, changes = map(int, limits)
    return Memory(nodes, changes, versions)


def main(words):
    if words[:1] == ["run"] and words[1] in ("single", "versioned"):
        single = words[1] == "single"
        for line in run(made(words[1], words[2:]), single, sys.stdin.read().splitlines()):
            print(line)
    elif words[:1] == ["random"] and words[1] in ("single", "versioned"):
        generator = Generator(int(words[2]), made(words[1], words[4:]), words[1] == "single")
        for line in generator.lines(int(words[3])):
            print(line)
    elif words[:1] == ["met"]:
        found = {line.rsplit(": ", 1)[-1] for line in open(words[1]).read().splitlines()}
        print(" ".join(sorted(w for w in found if w.startswith("refused") or w == "not a line")))
    else:
        sys.exit(__doc__)


main(sys.argv[1:])
