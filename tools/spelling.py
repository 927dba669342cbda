#!/usr/bin/env python3
"""Spells the repository's own definitions and lemmas in snake case, in crates/ and in what speaks of them.

usage: tools/spelling.py [--list]

A name is one that an .antt file declares: a definition, a lemma, a field, a constructor. Types and modules keep their camel
case, and so do the goals that a function's proof answers, which are named after the code. `numberOf` becomes `number_of`,
`any-order` becomes `any_order`. Where that would meet another name that some file holds beside it, MET says what is written.
"""
import os
import re
import sys

ROOT = os.path.dirname(os.path.dirname(os.path.abspath(__file__)))
NAME = r"[^\s(){}\[\].;,@\"«»`]+"
DECLARED = re.compile(
    r"(?m)^ *(?:(?:unfoldable|abbrev|pub|instance) +)*((?:data|record) +)?(%s)(?: +(?:\{[^{}\n]*\}|\([^()\n]*\)))* +: +(\S+)" % NAME
)
LIBRARY = re.compile(r"(?m)^ *(?:pub )?(?:ghost )?use ((?:Rattle\.std|borrow|native|mathlib|lib|Prim|logic|found)[\w.']*)\.\{([^}]*)\}")
# Lemmas whose new name would be that of a definition that some file holds beside them.
MET = {
    name: snake_name
    for name, snake_name in (
        (n, n.replace("-", "_") + "_holds")
        for n in """bad-arc breaks-at calc-expr calc-rest calc-value coolant-with count-of answer-of down-size entry-table expr-work
        first-of fraction-digits head-by held-at in-range is-origin item-work items-work last-digit list-from machine-place mark-work
        number-of of-group origin-place remarked-at rest-work setting-is spindle-of tail-by tree-number units-before value-work
        word-is""".split()
    )
}
# The same of one word, in the files that hold it.
MET_IN = {
    ("block/proofs/Bounds.antt", "block/proofs/Ways.antt"): {"in_reach": "in_reach_holds"},
    ("rules/proofs/InOrder.antt",): {"in_reach": "in_reach_holds", "in_order": "in_order_holds"},
    ("rules/proofs/Page.antt",): {"own_origin": "own_origin_holds", "nothing-set": "nothing_set_holds"},
    ("control/proofs/Keeping.antt",): {"in_order": "in_order_before", "stopped_by": "stopped_by_holds"},
    ("index/proofs/Bearing.antt",): {"by-tree": "by_tree_holds"},
}


def snake(name):
    words = re.sub(r"(?<=[a-z0-9'])[A-Z]", lambda m: "_" + m[0].lower(), name)
    return words.replace("-", "_")


def files(ends, folder="crates"):
    for at, folders, names in os.walk(os.path.join(ROOT, folder)):
        folders[:] = sorted(f for f in folders if f not in ("out", "target", ".git"))
        for name in sorted(names):
            if name.endswith(ends):
                yield os.path.join(at, name)


def read(path):
    with open(path, encoding="utf-8") as f:
        return f.read()


def write(path, text):
    with open(path, "w", encoding="utf-8") as f:
        f.write(text)


def without_comments(text):
    return re.sub(r"(?m)^ *--.*$", "", text)


def declared():
    """Each name that is declared, with the files that do."""
    found = {}
    for path in files(".antt"):
        of_function = re.search(r"/proofs/.*/", path) is not None
        for kind, name, first in DECLARED.findall(without_comments(read(path))):
            if kind or name[0].isupper() or "◌" in name:
                continue
            if of_function and (first.startswith("tie.") or first.startswith("goal.")):
                continue
            found.setdefault(name, set()).add(path)
    return found


def library():
    """Each name that some file takes from the library, with those files."""
    found = {}
    for path in files((".antt", ".rt")):
        for _, names in LIBRARY.findall(read(path)):
            for name in re.split(r"[,\s]+", names):
                found.setdefault(name, set()).add(path)
    return found


def renames():
    taken = library()
    return {n: MET.get(n, snake(n)) for n in declared() if snake(n) != n and n not in taken}


def turned(path, names):
    """The file's text with these names and those of MET_IN."""
    text = read(path)
    mine = dict(names)
    for paths, words in MET_IN.items():
        if path.endswith(paths):
            text = renamed(text, words)
    return renamed(text, mine)


def renamed(text, names):
    return re.sub(NAME, lambda m: names.get(m[0], m[0]), text)


def tokens(text):
    return set(re.findall(NAME, text))


def met(names):
    """Each new name that some file would hold for two old ones, with the file; a Rust function beside a definition of its name is no such case."""
    said = []
    for path in files(".antt"):
        here = {}
        for token in sorted(tokens(without_comments(turned(path, {})))):
            here.setdefault(names.get(token, token), []).append(token)
        said += ["met: %s: %s" % (os.path.relpath(path, ROOT), " ".join(olds)) for olds in here.values() if len(olds) > 1]
    return said


def respelled(text, names):
    """A line of an edit as the sources are spelled today: names, projections, the library's operators."""
    text = re.sub(r"\((%s(?: \.\w+)+)\)" % NAME, lambda m: m[1].replace(" .", "."), text)
    text = re.sub(r"(?<=[\w')]) \.(?=\w)", ".", text).replace("\u2032", "'")
    text = re.sub(r"(?<![\w◌])[a-z][\w']*(?![\w-])", lambda m: names.get(m[0], snake(m[0])), text)
    text = re.sub(r"Rattle\u00b7(\w+)(?:\u00b7specs)?\.specs(?=\.)", r"Rattle.\1.specs", text)
    return re.sub(r"Rattle\.(\w+)\.specs\.specs", r"Rattle.\1.specs", text)


def turn_edits(names):
    """Each must-fail edit whose text the spelling moved; what still does not stand is said, and mended by hand."""
    for path in files(".edit"):
        new, source, turning = [], "", False
        for line in read(path).split("\n"):
            if line.startswith("file: "):
                source = read(os.path.join(path.split("/must-fail/")[0], line[6:].strip()))
            if line.startswith("old: "):
                turning = source.count(line[5:]) != 1
            if turning and line.startswith(("old: ", "new: ")):
                line = line[:5] + respelled(line[5:], names)
                if line.startswith("old: ") and source.count(line[5:]) != 1:
                    print("by hand: %s: %s" % (os.path.relpath(path, ROOT), line))
            new.append(line)
        write(path, "\n".join(new))


def main():
    names = renames()
    if "--list" in sys.argv[1:]:
        print("".join("%s %s\n" % row for row in sorted(names.items())), end="")
        return
    for line in met(names):
        print(line)
    if "--try" in sys.argv[1:]:
        return
    for path in files((".antt", ".rt")):
        new = turned(path, names)
        if new != read(path):
            write(path, new)
    for path in [os.path.join(ROOT, "README.md")] + list(files(".md", "docs")):
        new = re.sub(r"`[^`\n]+`", lambda m: renamed(m[0], names), read(path))
        if new != read(path):
            write(path, new)
    turn_edits(names)


main()
