#!/usr/bin/env python3
"""Counts, in the code of the crates, the places that docs/DESIGN-PASS.md speaks of, point by point.

    python3 tools/places.py [DIR]            the counts
    python3 tools/places.py [DIR] -l [N]     each place, of point N alone if N is given

DIR holds the folder crates/ (this repository where it is left out). A place is a candidate: what is kept is named, with its reason,
beside the code and on the page.
"""
import pathlib
import re
import sys

ITEM = re.compile(r'^( *)(pub(?:\([a-z]+\))? )?(fn|struct|enum) (\w+)')


class Item:
    """A function or a type: where it stands, its code without comments, and the lines of its contract."""

    def __init__(self, path, line, kind, name, code, clauses):
        self.path, self.line, self.kind, self.name, self.code, self.clauses = path, line, kind, name, code, clauses

    def place(self):
        return f'{self.path}:{self.line} {self.name}'


def items(root):
    for path in sorted(root.glob('crates/*/src/**/*.rt')):
        lines = path.read_text().split('\n')
        at = 0
        while at < len(lines):
            found = ITEM.match(lines[at])
            if not found:
                at += 1
                continue
            indent, start = found.group(1), at
            code, clauses = [], []
            while at < len(lines):
                line = lines[at]
                text = line.strip()
                if text.startswith(('requires', 'ensures', 'ghost ')):
                    clauses.append(text)
                elif not text.startswith('//'):
                    code.append(line)
                at += 1
                if line.rstrip() in (indent + '}', indent + '};') or (line.rstrip().endswith(';') and line.startswith(indent) and at == start + 1):
                    break
                if text.endswith(';') and not code[0].rstrip().endswith('{') and '{' not in ''.join(code):
                    break
            yield Item(str(path.relative_to(root)), start + 1, found.group(3), found.group(4), '\n'.join(code), clauses)


KEYWORDS = set('fn pub let mut if else match return for in while struct enum self Self Some None Ok Err true false as ref impl crate'.split())


def shape(code):
    """The code with each name that is no keyword as `x`, each number as `0`: twins have one shape."""
    out = []
    for token in re.findall(r'[A-Za-z_]\w*|\d[\w.]*|"[^"]*"|\S', code):
        if re.match(r'\d', token):
            out.append('0')
        elif re.match(r'[A-Za-z_]', token) and token not in KEYWORDS:
            out.append('x')
        elif token.startswith('"'):
            out.append('s')
        else:
            out.append(token)
    return ' '.join(out)


def grep(all_items, *patterns):
    for item in all_items:
        for number, line in enumerate(item.code.split('\n')):
            if any(re.search(p, line) for p in patterns):
                yield f'{item.place()}: {line.strip()}'


def point1(all_items):
    """Enums of the shape of Result, refusals in an Option or by number, flags beside values, numbers for kinds."""
    for item in all_items:
        if item.kind == 'enum' and re.search(r'\b(Refused|Unchanged|NotALine)\b', item.code):
            yield f'{item.place()}: an enum of answers and refusals'
    yield from grep(all_items, r'Option<\w*(Refusal|Verdict)>', r'Result<\w+, u(8|16|32|64)>', r'\b(same|more|too): bool', r'\bfield: u8', r'Err\((\w+)\) => (return )?Err\(\1\)', r'Err\(\w*\) => (Err\(\w+\)|\w+::Refused)')


def point2(all_items):
    """Functions, and types, of one shape."""
    by_shape = {}
    for item in all_items:
        form = shape(item.code)
        if len(form.split()) >= (40 if item.kind == 'fn' else 14):
            by_shape.setdefault((item.kind, form), []).append(item)
    for (_, form), group in sorted(by_shape.items(), key=lambda kv: -len(kv[0][1])):
        if len(group) > 1:
            yield ' = '.join(i.place() for i in group)


def point3(all_items):
    """Loops over an index or a count kept by hand."""
    for item in all_items:
        lines = item.code.split('\n')
        for number, line in enumerate(lines):
            body = '\n'.join(lines[number + 1:])
            if re.search(r'\bwhile\b(?! let)', line) or re.search(r'\bfor \w+ in \d+\.\.', line) or '.enumerate()' in line:
                yield f'{item.place()}: {line.strip()}'
            elif re.search(r'\bwhile let\b', line):
                yield f'{item.place()}: {line.strip()}'


def point4(all_items):
    """Comparing, converting and printing by hand."""
    yield from grep(all_items, r' as [iu](8|16|32|64)\b', r'fn (same|names|goes_first|bytes_go_first|one_of|number|side_number|colour_mark|which_goes_first|build_of|order_kind|counted)\b', r'"refused \{number\}"')


def point5(all_items):
    """Clauses, and rows of parameters, that stand in three functions or more of one crate."""
    clauses, rows = {}, {}
    for item in all_items:
        crate = item.path.split('/')[1]
        for clause in item.clauses:
            if clause.startswith('requires'):
                text = re.sub(r'\.(old|now|entry)\b', '', re.sub(r'^requires \w* ?', '', clause))
                clauses.setdefault((crate, text), []).append(item)
        if item.kind == 'fn':
            head = ' '.join(item.code.split('{')[0].split()).replace('pub(crate) ', '')
            inside = re.search(r'\((.*)\)', head)
            names = re.findall(r'(?:mut )?(\w+): ([^,]+(?:<[^>]*>)?)', inside.group(1) if inside else '')
            if 'self' not in (inside.group(1) if inside else ''):
                for wide in (3, 2):
                    if len(names) >= wide:
                        rows.setdefault((crate, tuple(n for n, _ in names[:wide])), []).append(item)
    for (crate, text), group in sorted(clauses.items()):
        if len(group) >= 3:
            yield f'{crate}: {text} in {len(group)} functions'
    for (crate, names), group in sorted(rows.items()):
        if len(group) >= 3:
            yield f'{crate}: parameters {", ".join(names)} in {len(group)} functions'


def point6(all_items):
    """Tables or buffers with a length beside them, and rows that name rows by index."""
    for item in all_items:
        if item.kind == 'struct':
            held = re.search(r'Vec<|&\'a mut \[|\[u8;', item.code)
            count = re.search(r'\b(len|length|count|made|used|limit): (u8|u32|usize)', item.code)
            if held and count:
                yield f'{item.place()}: a table with a count beside it'
            elif re.search(r'\b(next|prev|head): (usize|Option<u32>)', item.code):
                yield f'{item.place()}: a row that names rows by index'


def point7(all_items):
    """Flags and enums that choose which call is made."""
    for item in all_items:
        if item.kind == 'fn' and re.search(r'\b(too|inner|out|far|short): bool', item.code.split('{')[0]):
            yield f'{item.place()}: a flag chooses the step'
    yield from grep(all_items, r'\bfn\(', r'\bdyn ')


def point8(root):
    """Lines of answers and lemmas."""
    total = 0
    for crate in sorted(root.glob('crates/*')):
        lines = sum(len(p.read_text().split('\n')) - 1 for p in crate.glob('proofs/**/*.antt'))
        answers = sum(len(re.findall(r'^pub (?:returns|loop|\w+-)\S* :', p.read_text(), re.M)) for p in crate.glob('proofs/**/Answers.antt'))
        if answers:
            yield f'{crate.name}: {answers} answers, {lines} lines of proofs'
        total += answers


POINTS = {1: point1, 2: point2, 3: point3, 4: point4, 5: point5, 6: point6, 7: point7}


def main():
    args = [a for a in sys.argv[1:] if a != '-l']
    listed = '-l' in sys.argv
    folders = [a for a in args if not a.isdigit()]
    wanted = [int(a) for a in args if a.isdigit()] or list(range(1, 9))
    root = pathlib.Path(folders[0]) if folders else pathlib.Path(__file__).resolve().parent.parent
    all_items = list(items(root))
    for point in wanted:
        places = list(point8(root) if point == 8 else POINTS[point](all_items))
        doc = (point8 if point == 8 else POINTS[point]).__doc__
        count = sum(int(re.search(r': (\d+) answers', p).group(1)) for p in places) if point == 8 else len(places)
        print(f'{point}  {count:4}  {doc}')
        if listed:
            for place in places:
                print('       ' + place)


main()
