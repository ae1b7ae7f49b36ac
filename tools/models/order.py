#!/usr/bin/env python3
"""An independent model of the two version orders, to hold the program's `order` command against.

It follows the rules of docs/ORDERS.md with Python's lists and sorted labels, and shares no code with the proved crates.

    order.py answer KIND V [FILE]   the output that `order KIND V FILE` must have (FILE or standard input)
    order.py write DIR [SEED]       for each case: DIR/NAME.args (KIND and V), DIR/NAME.in, DIR/NAME.out
    order.py check DIR COMMAND..    runs COMMAND.. order KIND V DIR/NAME.in for each case and compares

KIND is relabelled or two-level.
"""
import bisect
import os
import random
import re
import subprocess
import sys

TOP = 2**31
UNKNOWN, FULL = 31, 32
GROUP = 32
KEPT = 16
WIDEST = 4096


def capacity(i):
    """How many items an aligned range of 2^i labels may hold."""
    return 4**i // 3**i


class Refused(Exception):
    def __init__(self, number):
        super().__init__(number)
        self.number = number


class Sequence:
    """What both orders share: the items first to last, and the refusals."""

    def __init__(self, limit):
        self.limit = limit
        self.items = [0]

    def known(self, a):
        if a >= len(self.items):
            raise Refused(UNKNOWN)

    def count(self):
        return len(self.items)

    def before(self, a, b):
        self.known(a)
        self.known(b)
        return self.items.index(a) < self.items.index(b)

    def successor(self, a):
        self.known(a)
        place = self.items.index(a) + 1
        return self.items[place] if place < len(self.items) else None

    def after(self, a):
        self.known(a)
        if len(self.items) >= self.limit:
            raise Refused(FULL)
        n = len(self.items)
        self.put(a, n)
        return n


class Relabelled(Sequence):
    """Labels in a sorted list, item k of `items` having label k of `labels`."""

    def __init__(self, limit):
        super().__init__(limit)
        self.labels = [0]

    def label(self, a):
        self.known(a)
        return self.labels[self.items.index(a)]

    def put(self, a, n):
        place = self.items.index(a)
        own = self.labels[place]
        end = self.labels[place + 1] if place + 1 < len(self.labels) else TOP
        gap = end - own
        self.items.insert(place + 1, n)
        if gap >= 2:
            self.labels.insert(place + 1, own + gap // 2)
            return
        for i in range(32):
            size = 2**i
            base = own // size * size
            low = bisect.bisect_left(self.labels, base)
            high = bisect.bisect_left(self.labels, base + size)
            m = high - low + 1
            if m <= capacity(i):
                self.labels[low:high] = [base + j * size // m for j in range(m)]
                return
        raise AssertionError("no range has room")

    def consistent(self):
        return all(x < y for x, y in zip(self.labels, self.labels[1:])) and 0 <= self.labels[0] and self.labels[-1] < TOP


class TwoLevel(Sequence):
    """Groups by number, each a list of items; the groups in a relabelled list of their own."""

    def __init__(self, limit):
        super().__init__(limit)
        self.groups = Relabelled(limit)
        self.members = {0: [0]}
        self.home = {0: 0}

    def label(self, a):
        self.known(a)
        return self.groups.label(self.home[a])

    def put(self, a, n):
        self.items.insert(self.items.index(a) + 1, n)
        group = self.home[a]
        members = self.members[group]
        members.insert(members.index(a) + 1, n)
        self.home[n] = group
        if len(members) > GROUP:
            fresh = self.groups.after(group)
            self.members[group], self.members[fresh] = members[:KEPT], members[KEPT:]
            for x in self.members[fresh]:
                self.home[x] = fresh

    def consistent(self):
        flat = [x for g in self.groups.items for x in self.members[g]]
        return flat == self.items and all(1 <= len(m) <= GROUP for m in self.members.values()) and self.groups.consistent()


KINDS = {"relabelled": Relabelled, "two-level": TwoLevel}
CALLS = {"after": 1, "before": 2, "successor": 1, "count": 0, "label": 1}
NUMBER = re.compile(r"(0|[1-9][0-9]*)\Z")


def parse(line):
    """The call and its numbers, or None where the text is not a line."""
    word, *rest = line.split(" ")
    if CALLS.get(word) != len(rest):
        return None
    if not all(NUMBER.match(x) and int(x) < 2**32 for x in rest):
        return None
    return word, [int(x) for x in rest]


def answer(order, line):
    asked = parse(line)
    if asked is None:
        return "not a line"
    word, numbers = asked
    try:
        said = getattr(order, word)(*numbers)
    except Refused as refusal:
        return f"refused {refusal.number}"
    if said is None:
        return "nothing"
    if isinstance(said, bool):
        return "yes" if said else "no"
    return str(said)


def answers(kind, limit, text):
    """The whole output of the command."""
    if not 1 <= limit <= WIDEST:
        return "refused 1\n"
    order = KINDS[kind](limit)
    lines = [line for line in text.split("\n") if line and not line.startswith("#")]
    out = "".join(f"{line} -> {answer(order, line)}\n" for line in lines)
    assert order.consistent()
    return out


def questions(rng, made, many):
    """Some questions about the items so far, now and then about one that is not there."""
    for _ in range(many):
        a, b = rng.randrange(made + 2), rng.randrange(made + 2)
        yield rng.choice([f"before {a} {b}", f"successor {a}", f"label {a}", "count"])


def growing(rng, limit, calls, pick):
    """Calls of after at the places that `pick` chooses, with questions in between."""
    made = 1
    for _ in range(calls):
        yield f"after {pick(rng, made)}"
        made = min(made + 1, limit)
        yield from questions(rng, made, rng.choice([0, 0, 1, 2]))
    yield from (f"label {a}" for a in range(made))
    yield from (f"successor {a}" for a in range(made))


def front(rng, made):
    return 0


def last(rng, made):
    return made - 1


def anywhere(rng, made):
    return rng.randrange(made)


def few(rng, made):
    """Mostly behind one of three early items, so that labels and groups crowd."""
    return rng.choice([0, 1, 2]) % made if rng.random() < 0.9 else rng.randrange(made)


def astray(rng, made):
    """Sometimes behind an item that is not there."""
    return made + rng.randrange(3) if rng.random() < 0.2 else rng.randrange(made)


NOT_LINES = [
    "", "#", "# a remark", " #", " ", "after", "after ", "after  0", " after 0", "after 0 ", "after 00", "after 01", "after +0", "after -1", "after 0x1", "after 4294967296",
    "After 0", "afters 0", "after 0 1", "before 0", "before 0  1", "before 0 1 2", "before 0,1", "count 0", "count ", "Count", "label", "label a", "successor",
    "successor 0\t", "after 99999999999999999999", "after ０", "after 0\r",
]


def odd(rng, limit, calls):
    """Texts that are not lines, among lines with numbers up to the largest."""
    for _ in range(calls):
        yield rng.choice(NOT_LINES)
        yield rng.choice(["after 0", "after 1", "count", "after 4294967295", "before 0 4294967295", "before 4294967295 0", "successor 4294967295", "label 4294967295", "before 0 0"])


def cases(seed):
    """Name, kind, limit and lines of each case."""
    shapes = {
        "front": (4096, 4095, front),
        "end": (4096, 4095, last),
        "random": (4096, 4095, anywhere),
        "crowded": (4096, 4095, few),
        "unknown": (4096, 3000, astray),
        "past-limit": (100, 1500, anywhere),
        "front-past-limit": (4096, 4200, front),
        "one": (1, 50, astray),
    }
    for kind in KINDS:
        for shape, (limit, calls, pick) in shapes.items():
            rng = random.Random(f"{seed} {kind} {shape}")
            yield f"{kind}-{shape}", kind, limit, list(growing(rng, limit, calls, pick))
        rng = random.Random(f"{seed} {kind} odd")
        yield f"{kind}-odd", kind, 64, list(odd(rng, 64, 1000))
        for limit in (0, 4097):
            yield f"{kind}-limit-{limit}", kind, limit, ["count", "after 0"]


def write(folder, seed):
    os.makedirs(folder, exist_ok=True)
    for name, kind, limit, lines in cases(seed):
        text = "".join(line + "\n" for line in lines)
        parts = {"args": f"{kind} {limit}\n", "in": text, "out": answers(kind, limit, text)}
        for end, part in parts.items():
            with open(os.path.join(folder, f"{name}.{end}"), "w", encoding="utf-8", newline="") as f:
                f.write(part)
        print(f"{name}: {len(lines)} lines")


def read(path):
    with open(path, encoding="utf-8", newline="") as f:
        return f.read()


def check(folder, command):
    """Runs the program on every case; the number of those that differ is the exit status."""
    wrong = 0
    for file in sorted(os.listdir(folder)):
        name, end = os.path.splitext(file)
        if end != ".args":
            continue
        base = os.path.join(folder, name)
        words = read(base + ".args").split()
        run = subprocess.run([*command, "order", *words, base + ".in"], capture_output=True, check=False)
        said, wanted = run.stdout.decode("utf-8"), read(base + ".out")
        if said == wanted:
            print(f"{name}: agrees")
            continue
        wrong += 1
        pairs = zip(said.split("\n") + ["(end)"], wanted.split("\n") + ["(end)"])
        at = next((k for k, (x, y) in enumerate(pairs) if x != y), None)
        print(f"{name}: differs at line {None if at is None else at + 1}")
    return wrong


def main(args):
    if len(args) in (3, 4) and args[0] == "answer" and args[1] in KINDS:
        text = read(args[3]) if len(args) == 4 else sys.stdin.read()
        sys.stdout.write(answers(args[1], int(args[2]), text))
        return 0
    if len(args) in (2, 3) and args[0] == "write":
        write(args[1], args[2] if len(args) == 3 else "1")
        return 0
    if len(args) >= 3 and args[0] == "check":
        return min(check(args[1], args[2:]), 100)
    sys.stderr.write(__doc__)
    return 2


if __name__ == "__main__":
    sys.exit(main(sys.argv[1:]))
