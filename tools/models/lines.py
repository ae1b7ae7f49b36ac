#!/usr/bin/env python3
"""lines: an independent model of the commands `compare` and `keys`, and a generator of inputs for them.

usage: tools/models/lines.py compare|keys answer < INPUT        prints what the program should print
       tools/models/lines.py compare|keys make SEED COUNT       prints COUNT random lines, good ones and bad ones
Bytes in, bytes out: lines need not be text."""
import random
import re
import sys

NUMBER = re.compile(rb"0|[1-9][0-9]*")
SIGNED = re.compile(rb"0|-?[1-9][0-9]*")


def number(word, bits):
    if not NUMBER.fullmatch(word) or int(word) >= 1 << bits:
        return None
    return int(word)


def signed(word):
    if not SIGNED.fullmatch(word) or not -(1 << 31) <= int(word) < 1 << 31:
        return None
    return int(word)


def told(data):
    return [l for l in data.split(b"\n") if l and not l.startswith(b"#")]


def compare(data):
    recorded, out, same, changed = {}, [], 0, 0
    for line in told(data):
        words = line.split(b" ")
        nums = [number(w, 32 if i == 0 else 64) for i, w in enumerate(words[1:])]
        if words[0] not in (b"was", b"now") or len(nums) < 2 or None in nums:
            out.append((line, "not a line"))
            continue
        file, length, prints = nums[0], nums[1], nums[2:]
        need = -(-length // 65536)
        if need != len(prints):
            out.append((line, "%d pieces expected, %d given" % (need, len(prints))))
        elif words[0] == b"was":
            if recorded.get(file):
                out.append((line, "already recorded"))
            else:
                recorded[file] = dict(enumerate(prints))
                out.append((line, "%d pieces" % len(prints)))
        else:
            old = recorded.get(file, {})
            wrong = sorted(k for k in set(old) | set(range(len(prints))) if old.get(k) != (prints[k] if k < len(prints) else None))
            if not wrong:
                same += 1
                out.append((line, "unchanged"))
                continue
            changed += 1
            k = wrong[0]
            if not old:
                said = "not recorded"
            elif k >= len(prints):
                said = "piece %d is left over" % k
            elif k not in old:
                said = "piece %d is not recorded" % k
            else:
                said = "piece %d differs" % k
            out.append((line, "rebuild: " + said))
    return out, "%d files unchanged, %d to rebuild\n" % (same, changed)


def which(a, b):
    return "first" if a < b else "second" if b < a else "equal"


def keys(data):
    out = []
    for line in told(data):
        said = "not a line"
        words = line.split(b" ")
        named = re.fullmatch(rb'name "([^"]*)" "([^"]*)"', line, re.S)
        if words[0] == b"piece" and len(words) == 5:
            n = [number(w, 32) for w in words[1:]]
            if None not in n:
                said = which((n[0], n[1]), (n[2], n[3]))
        elif words[0] == b"job" and len(words) == 5:
            n = [signed(words[1]), number(words[2], 32), signed(words[3]), number(words[4], 32)]
            if None not in n:
                said = which((-n[0], n[1]), (-n[2], n[3]))
        elif named:
            a, b = named.groups()
            said = which(a, b) if 1 <= len(a) <= 16 and 1 <= len(b) <= 16 else "refused 14"
        out.append((line, said))
    return out, ""


EDGES = [b"0", b"1", b"2", b"65535", b"65536", b"65537", b"131072", b"131073", b"4294967295", b"4294967296", b"18446744073709551615",
         b"18446744073709551616", b"99999999999999999999999", b"-1", b"-0", b"+1", b"007", b"", b"x", b"1 ", b"\xff", b"2147483647",
         b"2147483648", b"-2147483648", b"-2147483649"]


def spoil(rng, line):
    at = rng.randrange(len(line) + 1)
    kind = rng.randrange(4)
    if kind == 0:
        return line[:at] + bytes([rng.randrange(256)]).replace(b"\n", b" ") + line[at:]
    if kind == 1:
        return line[:at] + line[at + 1:]
    if kind == 2:
        return line.replace(b" ", b"  ", 1)
    words = line.split(b" ")
    words[rng.randrange(len(words))] = rng.choice(EDGES)
    return b" ".join(words)


def make_compare(rng, count):
    lines, builds = [], {}
    for _ in range(count):
        file = rng.randrange(40) if rng.random() < 0.9 else rng.choice([0, (1 << 32) - 1])
        n = rng.choice([0, 1, 1, 2, 2, 3, 5])
        length = max(0, n * 65536 - rng.choice([0, 1, 65535, rng.randrange(65536)])) if n else 0
        prints = [rng.choice([rng.randrange(4), (1 << 64) - 1 - rng.randrange(2)]) for _ in range(n)]
        if rng.random() < 0.5 and file in builds:
            length, prints = builds[file]
            prints = list(prints)
            if prints and rng.random() < 0.4:
                prints[rng.randrange(len(prints))] ^= 1
        if rng.random() < 0.1:
            prints = prints[1:] if rng.random() < 0.5 else prints + [7]
        word = b"was" if rng.random() < 0.4 else b"now"
        if word == b"was":
            builds.setdefault(file, (length, prints))
        line = b" ".join([word, b"%d" % file, b"%d" % length] + [b"%d" % p for p in prints])
        lines.append(spoil(rng, line) if rng.random() < 0.15 else line)
        if rng.random() < 0.02:
            lines.append(rng.choice([b"", b"# a remark", b"#", b" #", b"was", b"now 1", b"now 1 0", b"was 3 0 "]))
    return lines


def make_keys(rng, count):
    lines = []
    for _ in range(count):
        kind = rng.randrange(3)
        if kind == 0:
            n = [rng.choice([0, 1, 2, (1 << 32) - 1, rng.randrange(1 << 32)]) for _ in range(4)]
            line = b"piece %d %d %d %d" % tuple(n)
        elif kind == 1:
            u = [rng.choice([-(1 << 31), (1 << 31) - 1, -1, 0, 1, rng.randrange(-9, 9)]) for _ in range(2)]
            n = [rng.choice([0, 1, (1 << 32) - 1]) for _ in range(2)]
            line = b"job %d %d %d %d" % (u[0], n[0], u[1], n[1])
        else:
            a, b = (bytes(rng.choice([0, 32, 97, 98, 255]) for _ in range(rng.choice([0, 1, 2, 3, 15, 16, 17]))) for _ in range(2))
            if rng.random() < 0.3:
                b = a + b[:1]
            line = b'name "%s" "%s"' % (a, b)
        lines.append(spoil(rng, line) if rng.random() < 0.2 else line)
    return lines


def main():
    command, verb = sys.argv[1:3]
    if verb == "make":
        rng = random.Random(int(sys.argv[3]))
        lines = {"compare": make_compare, "keys": make_keys}[command](rng, int(sys.argv[4]))
        sys.stdout.buffer.write(b"\n".join(lines) + (b"\n" if rng.random() < 0.5 else b""))
        return
    out, last = {"compare": compare, "keys": keys}[command](sys.stdin.buffer.read())
    for line, said in out:
        sys.stdout.buffer.write(line + b" -> " + said.encode() + b"\n")
    sys.stdout.buffer.write(last.encode())


main()
