#!/usr/bin/env python3
"""Where the code could say a thing in a plainer form: the places, by kind.

    tools/places.py [FOLDER]        the counts, of the repository in FOLDER or of this one
    tools/places.py --list [FOLDER] each place too

What it lists is a place to look at, and no fault: docs/DESIGN-PASS.md says of each why it stands as it does.
"""
import collections
import pathlib
import re
import sys

STRUCT = re.compile(r'^(?:pub(?:\(crate\))? )?(struct|enum) (\w+)[^{;]*\{(.*?)^\}', re.M | re.S)
FUNCTION = re.compile(r'\bfn (\w+)(?:<[^(]*>)?\(([^)]*)\)', re.S)
LOOP = re.compile(r'^\s*(?:while|loop)\b', re.M)
NUMBER = re.compile(r'\b(?:Refused|Bad|Stopped|Stop|told|refused|unwritten|stops_with)\((?:u8|\d+)\b|\bnumber: u(?:8|32),')
CLAUSE = re.compile(r'^\s*requires (?:\w+ )?\{ (.*) \}$', re.M)


def sources(root):
    for crate in sorted((root / 'crates').iterdir()):
        for path in sorted((crate / 'src').rglob('*.rt')):
            yield crate.name, path, re.sub(r'//[^\n]*', '', path.read_text())


def place(root, path, text, at, name):
    return f'{path.relative_to(root)}:{text.count(chr(10), 0, at) + 1} {name}'


def found(root):
    """The places of each kind."""
    kinds = collections.defaultdict(list)
    names, clauses = collections.defaultdict(set), collections.Counter()
    for crate, path, text in sources(root):
        for m in STRUCT.finditer(text):
            flags = re.findall(r'(\w+): bool', m.group(3))
            if m.group(1) == 'enum':
                kinds['1 enums'].append(place(root, path, text, m.start(), m.group(2)))
            elif flags:
                kinds['1 flags in structs'].append(place(root, path, text, m.start(), f'{m.group(2)}: {", ".join(flags)}'))
        for m in NUMBER.finditer(text):
            kinds['1 numbers for kinds or refusals'].append(place(root, path, text, m.start(), m.group().strip()))
        for m in LOOP.finditer(text):
            kinds['3 loops other than for'].append(place(root, path, text, m.end(), ''))
        for m in CLAUSE.finditer(text):
            for part in m.group(1).split(') × ('):
                clauses[crate, part.strip('() ')] += 1
        for m in FUNCTION.finditer(text):
            names[m.group(1)].add(crate)
            parameters = sorted(re.findall(r'(\w+):', m.group(2)))
            if len(parameters) > 5:
                kinds['5 functions of six parameters or more'].append(place(root, path, text, m.start(), m.group(1)))
            if re.search(r'\b(?:count|many|held|filled|used|len): usize', m.group(2)) and re.search(r'\[', m.group(2)):
                kinds['6 lengths beside a buffer'].append(place(root, path, text, m.start(), m.group(1)))
            if re.search(r': bool\b', m.group(2)):
                kinds['7 functions with a switch'].append(place(root, path, text, m.start(), m.group(1)))
    kinds['2 names of functions in several crates'] = [f'{n}: {", ".join(sorted(c))}' for n, c in sorted(names.items()) if len(c) > 1]
    kinds['5 clauses in three contracts or more'] = [f'{c}: {p} ({n})' for (c, p), n in sorted(clauses.items()) if n > 2]
    answers = root.glob('crates/*/proofs/**/Answers.antt')
    kinds['8 answers'] = [f'{p.relative_to(root)} {line}' for p in sorted(answers) for line in p.read_text().splitlines() if re.match(r'pub .* : goal\.', line)]
    return kinds


def main(words):
    listed = '--list' in words
    rest = [w for w in words if w != '--list']
    root = pathlib.Path(rest[0]) if rest else pathlib.Path(__file__).resolve().parent.parent
    for kind, places in sorted(found(root).items()):
        print(f'{kind}: {len(places)}')
        if listed:
            for each in places:
                print(f'    {each}')


if __name__ == '__main__':
    main(sys.argv[1:])
