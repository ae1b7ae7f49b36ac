#!/usr/bin/env python3
"""Spells this repository's own definitions and lemmas as today's Rattle does.

usage: python3 tools/respell.py [--list]     at the top, once, right after the kit's own script has turned the older spelling

A word is in snake case: serialAt becomes serial_at, keep-adds becomes keep_adds. A dash stays beside a name that is itself of several
words, as in root-with_child. A statement is in upper camel case: Tree-answers becomes TreeAnswers. Names of Rust source, of the library
and those that Rattle makes for goals and steps keep their spelling. Two names of one file that would fall together stop the script before
anything is written.
"""
import collections
import os
import re
import sys

FILES = ("Answers.antt", "Invariants.antt", "Proof.antt")
TOKEN = re.compile(r"[^\s(){};,.«»\"|]+")
# what the general rule would bring together with another name, or with a word of the language or the library
OTHERWISE = {"Idle-writes": "IdleWritesHold", "Ways-to": "WaysToHold", "List-laws": "ListLawsHold", "Top-answers": "TopAnswersHold", "blocks-F": "blocks_f", "listed-F": "listed_f", "rising-F": "rising_f"}
# a field and a word of the source, or a module's path and a word, which share a name without meeting
APART = {"getDrop", "nodeLimit", "changeLimit", "versionAt", "placeFirst"}


def is_of_a_proof(path):
    return "/proofs/" in path and os.path.basename(path) in FILES


def own_files():
    for folder, dirs, names in os.walk("crates"):
        dirs[:] = sorted(d for d in dirs if d not in ("out", "data"))
        for name in sorted(names):
            if name.endswith((".antt", ".rt", ".edit")):
                yield os.path.join(folder, name)


def snake(word):
    return re.sub(r"(?<=[a-z0-9])([A-Z])", lambda m: "_" + m.group(1).lower(), word)


def several(word):
    return bool(re.search(r"[a-z0-9][A-Z]", word)) and word[0].islower()


def respelled(name):
    if name in OTHERWISE:
        return OTHERWISE[name]
    parts = name.split("-")
    if "" in parts:
        return name
    if len(parts) > 1 and name[0].isupper() and len(parts[0]) > 1:
        return "".join(p[0].upper() + p[1:] for p in parts)
    out = snake(parts[0])
    for a, b in zip(parts, parts[1:]):
        out += ("-" if several(a) or several(b) else "_") + snake(b)
    return out


def read(path):
    with open(path, encoding="utf-8") as f:
        return f.read()


def library_names(texts):
    """What is imported from the library, and the names that Rattle makes: goals, steps and the paths to them."""
    kept = set()
    for path, text in texts.items():
        for m in re.finditer(r"\buse ([^\s;]+?)\.\{([^}]*)\}", text):
            own = m.group(1).startswith("Rattle.") and not m.group(1).startswith("Rattle.std")
            if not own or m.group(1).endswith((".Goals", ".Given", ".TheVariants")):
                kept.update(n.strip().split(" as ")[0] for n in m.group(2).split(","))
        if is_of_a_proof(path):
            kept.update(re.findall(r"goal\.([^\s(){};,]+)", text))
            kept.update(w for chain in re.findall(r"\b[cwl]((?:\.[^\s(){};,.]+)+)", text) for w in chain.split(".") if w != "well-begun")
    return kept


def declared_names(texts):
    found = set()
    for path, text in texts.items():
        if path.endswith(".antt") and not is_of_a_proof(path):
            for line in text.split("\n"):
                m = re.match(r"\s*(?:abbrev |unfoldable )?(?:pub )?(?:record |data )?([^\s(){}:;,]+) (?:[({].*)?: ", line)
                if m and not line.strip().startswith("--"):
                    found.add(m.group(1))
    return found


def wants(name):
    return not re.fullmatch(r"[a-z]{1,2}[A-Z]₂?", name) and ("-" in name.strip("-") and re.match(r"[A-Za-z]", name)) or several(name)


def main(argv):
    texts = {p: read(p) for p in own_files()}
    kept = library_names(texts)
    declared = declared_names(texts)
    renamed = {}
    words = set()
    for path, text in texts.items():
        if not path.endswith(".antt"):
            continue
        for line in text.split("\n"):
            if line.strip().startswith("--"):
                continue
            for token in TOKEN.findall(line):
                words.add(token)
                if wants(token) and token not in kept and (token in declared or not is_of_a_proof(path)):
                    renamed[token] = respelled(token)
    # a lemma that would have its function's name
    taken = {b for a, b in renamed.items() if "-" not in a} | {w for w in words if w not in renamed}
    for a, b in renamed.items():
        if "-" in a and b in taken:
            renamed[a] = b + "_lem"
    renamed = {a: b for a, b in renamed.items() if a != b}
    if "--list" in argv:
        for a, b in sorted(renamed.items()):
            print(a, b, "" if a in declared else "local", "kept-too" if a in kept else "")
        return 0

    def turn(path, text):
        ghost = path.endswith((".rt", ".edit"))

        def word(m):
            t = m.group(0)
            if t not in renamed:
                return t
            if ghost and "-" in t and not re.match(r"\s*(ghost|requires|ensures|old:|new:)", line):
                return t
            return renamed[t]

        out = []
        for line in text.split("\n"):
            if line.strip().startswith("--"):
                out.append(TOKEN.sub(lambda m: renamed[m.group(0)] if m.group(0) in renamed and m.group(0) in declared else m.group(0), line))
            else:
                out.append(TOKEN.sub(word, line))
        return "\n".join(out)

    bad = 0
    turned = {}
    for path, text in texts.items():
        turned[path] = turn(path, text)
        if path.endswith(".antt"):
            code = "\n".join(l for l in text.split("\n") if not l.strip().startswith("--"))
            by = collections.defaultdict(set)
            for t in TOKEN.findall(code):
                by[renamed.get(t, t)].add(t)
            for new, old in by.items():
                if len(old) > 1 and not old & APART:
                    bad += 1
                    print(f"{path}: {sorted(old)} would be {new}")
    if bad:
        print(f"{bad} names fall together; nothing was written")
        return 1
    for path, text in turned.items():
        if text != texts[path]:
            with open(path, "w", encoding="utf-8") as f:
                f.write(text)
    print(f"{len(renamed)} names in {sum(turned[p] != texts[p] for p in texts)} files")
    return 0


if __name__ == "__main__":
    raise SystemExit(main(sys.argv[1:]))
