#!/usr/bin/env python3
"""Every public function says what it gives, for every argument, and is proved to allow one result only.

    tools/soles.py [FOLDER]     of the repository in FOLDER, or of this one

A function is public where it is `pub` (`pub(crate)` is not), and where it is exported: `extern`, or marked
`#[unsafe(no_mangle)]`. Of each under crates/*/src:
- it has no `requires` and one `ensures`, named and starred ones among them;
- its crate's proofs/Soles.antt, which proofs/Lib.antt declares, imports its contract by its whole path,
  `use Rattle.CRATE.specs.contracts.MODULE.NAME as ALIAS`, and has the line
  `pub .._sole : Sole ALIAS.ended (λ M 𝓤. ALIAS.clauses)`;
  or docs/EXCEPTIONS.md has an entry with a reason, a line that begins "- `crate::module::function`: ".
What stands in a comment counts nowhere.
"""
import pathlib
import re
import sys

RATTLE = re.compile(
    r'//[^\n]*|b?"(?:\\.|[^"\\])*"|b\'(?:\\.|[^\'\\])\'|/\*|[^\W\d]\w*|\S', re.S)
IMPORT = re.compile(r'^use Rattle\.(\w+)\.specs\.contracts\.(\S+) as (\S+)$', re.M)
LAW = re.compile(r'^use Rattle\.laws\.proofs\.Sole\.\{(?:[^}]*, )?Sole[,}]', re.M)
SOLE = re.compile(r'^pub \S+_sole : Sole (\S+)\.ended \(λ M 𝓤\. \1\.clauses\)$', re.M)
EXCEPTION = re.compile(r'^- `(\w+(?:::\w+)+)`: \S', re.M)
OPENING, CLOSING = {'(', '[', '{'}, {')', ']', '}'}


def tokens(text):
    """The tokens of a source file without comments; a string is one token."""
    found, at = [], 0
    while match := RATTLE.search(text, at):
        at, token = match.end(), match.group()
        if token == '/*':
            at = past_comment(text, at, '/*', '*/')
        elif not token.startswith('//'):
            found.append(token)
    return found


def past_comment(text, at, opening, closing):
    """Where a comment ends that has begun before this place; comments nest."""
    depth, mark = 1, re.compile(f'{re.escape(opening)}|{re.escape(closing)}')
    while depth and (match := mark.search(text, at)):
        depth += 1 if match.group() == opening else -1
        at = match.end()
    return len(text) if depth else at


def without_comments(text):
    """The text of a file of proofs without comments, `-- ..` and `{- .. -}`."""
    kept, at = '', 0
    while match := re.compile(r'(?m)(?:^|(?<=\s))--.*$|\{-').search(text, at):
        kept += text[at:match.start()]
        at = past_comment(text, match.end(), '{-', '-}') if match.group() == '{-' else match.end()
    return kept + text[at:]


def past(words, at):
    """The place behind the bracket that closes the one at this place, or behind what is no bracket."""
    depth = 0
    for place in range(at, len(words)):
        depth += (words[place] in OPENING) - (words[place] in CLOSING)
        if depth == 0:
            return place + 1
    return len(words)


class Function:
    """A function as it is declared: its path in the crate, whether others may call it, and its clauses."""

    def __init__(self, path, public, requires, ensures):
        self.path, self.public, self.requires, self.ensures = path, public, requires, ensures


def declared(words, at, path):
    """The function whose name stands at this place, and where its body begins."""
    name, clauses = words[at], {'requires': 0, 'ensures': 0, 'ghost': 0}
    at += 1
    while words[at] not in ('{', ';', ''):
        if words[at] in clauses:
            clauses[words[at]] += 1
            # Its name or its star, where it has one, stands before the bracket.
            while words[at] not in ('{', ''):
                at += 1
        at = past(words, at) if words[at] in OPENING else at + 1
    return Function(path + (name,), False, clauses['requires'], clauses['ensures']), at


def functions(words, path):
    """Every function that the words of a module declare, those inside others too."""
    words, at, public, exported = words + ['', ''], 0, False, False
    while words[at]:
        word, then = words[at], words[at + 1]
        if word == '#' and then == '[':
            end = past(words, at + 1)
            exported = exported or not {'no_mangle', 'export_name'}.isdisjoint(words[at:end])
            at = end
        elif word == 'pub':
            public = then != '('
            at = at + 1 if public else past(words, at + 1)
        elif word == 'extern':
            at += 2 if then.startswith('"') else 1
            exported = exported or words[at] == 'fn'
        elif word in ('const', 'unsafe') and then in ('fn', 'extern', 'unsafe'):
            at += 1
        elif word == 'fn':
            function, at = declared(words, at + 1, path)
            function.public, public, exported = public or exported, False, False
            yield function
            end = past(words, at)
            yield from functions(words[at + 1:end - 1], function.path)
            at = end
        elif word == 'impl' or word == 'mod' and words[at + 2] == '{':
            begin = words.index('{', at)
            end = past(words, begin)
            name = then if word == 'mod' else implemented(words[at + 1:begin])
            yield from functions(words[begin + 1:end - 1], path + (name,))
            public, exported, at = False, False, end
        else:
            public, exported = False, False
            at = past(words, at) if word in OPENING else at + 1


def implemented(words):
    """The type that an `impl` is of, its lifetimes left out."""
    names = [word for place, word in enumerate(words) if word[0].isalpha() and words[place - 1] != "'"]
    return names[0] if names else '_'


def module_of(source, folder):
    """The path of the module that a file holds."""
    parts = source.relative_to(folder).with_suffix('').parts
    return parts[:-1] if parts[-1] in ('lib', 'main', 'mod') else parts


def proved(crate):
    """The functions of a crate that its Soles.antt has a line for, and what is wrong with that file."""
    soles, root, wrong = crate / 'proofs/Soles.antt', crate / 'proofs/Lib.antt', []
    if not soles.exists():
        return set(), wrong
    text = without_comments(soles.read_text())
    if not root.exists() or not re.search(r'(?m)^(pub )?mod Soles$', without_comments(root.read_text())):
        wrong.append(f'{crate.name}: proofs/Lib.antt does not declare Soles, so nothing checks it')
    if not LAW.search(text) or re.search(r'(?m)^\s*(pub |abbrev |record )*Sole\b', text):
        wrong.append(f'{crate.name}: Sole in proofs/Soles.antt is not that of crate laws')
    imports = IMPORT.findall(text)
    path_of = {alias: tuple(path.split('.')) for name, path, alias in imports if name == crate.name}
    if len({alias for _, _, alias in imports}) != len(imports):
        wrong.append(f'{crate.name}: proofs/Soles.antt gives one name to two functions')
    return {path_of.get(alias) for alias in SOLE.findall(text)}, wrong


def faults(root):
    """What is wrong, one text each, and how many functions were seen."""
    exceptions = set(EXCEPTION.findall((root / 'docs/EXCEPTIONS.md').read_text()))
    seen, found = set(), []
    for crate in sorted(path for path in (root / 'crates').iterdir() if path.is_dir()):
        have, wrong = proved(crate)
        found += wrong
        for source in sorted((crate / 'src').rglob('*.rt')):
            for function in functions(tokens(source.read_text()), module_of(source, crate / 'src')):
                if not function.public:
                    continue
                name = '::'.join((crate.name,) + function.path)
                seen.add(name)
                found += [f'{name}: {fault}' for fault in unfit(function, name, have, exceptions)]
    found += [f'{name}: docs/EXCEPTIONS.md names a function that is not there' for name in sorted(exceptions - seen)]
    return found, len(seen)


def unfit(function, name, have, exceptions):
    """What a public function lacks."""
    if function.requires:
        yield 'a public function must answer for every argument, and this one has a `requires`'
    if function.ensures != 1:
        yield f'a public function has one `ensures`, and this one has {function.ensures}'
    if function.path not in have and name not in exceptions:
        yield 'neither a line in proofs/Soles.antt nor an entry in docs/EXCEPTIONS.md'


def main():
    root = pathlib.Path(sys.argv[1]) if len(sys.argv) > 1 else pathlib.Path(__file__).resolve().parent.parent
    found, seen = faults(root)
    for fault in found:
        print(fault)
    print(f'soles: {seen} public functions, {len(found)} faults')
    return 1 if found or not seen else 0


if __name__ == '__main__':
    sys.exit(main())
