#!/usr/bin/env python3
"""Where a gate's time goes, from its log: when each crate was done, its must-fail edits, and seconds by test.

    tools/budget.py LOG            prints it; ends with 1 if a crate is not done in the log, or an edit not refused
    tools/budget.py LOG --write    also writes docs/CHECK.md; what stands there from 'By landing' on stays

.ci/run keeps its log in target/gate.log and prints the first of these. `rt ci` proves crates side by side and tells no
seconds, so what is known of a crate is how many of them rt had run when that crate was done, or kept from an earlier run.
"""
import pathlib
import re
import sys

ROOT = pathlib.Path(__file__).resolve().parent.parent
PAGE = ROOT / 'docs/CHECK.md'
KEPT = '## By landing\n'
DONE = re.compile(r'^ci: (\w+) done after (\d+) s$', re.M)
EARLIER = re.compile(r'^rt: (\w+) is kept: ', re.M)
EDIT = re.compile(r'^rt: must-fail (\w+)/(\S+)\.edit: refused, as it must be', re.M)
TEST = re.compile(r'^ci: (\S+) passed \((\d+) s\)$', re.M)


def crates():
    """The crates in the order of crates.txt, each with the names of its edits."""
    names = re.findall(r'(?m)^(\w+)(?: staticlib)? *:', (ROOT / 'crates.txt').read_text())
    return {name: sorted(edit.stem for edit in (ROOT / 'crates' / name / 'must-fail').glob('*.edit')) for name in names}


def rows(log):
    """For each crate the seconds after which it was done, None where the log has none, whether it was kept, and its
    edits with whether each was refused."""
    done = {name: int(seconds) for name, seconds in DONE.findall(log)}
    kept, refused = set(EARLIER.findall(log)), set(EDIT.findall(log))
    return [(crate, done.get(crate), crate in kept, {edit: (crate, edit) in refused for edit in edits})
            for crate, edits in crates().items()]


def columns(table):
    """The crates as lines of columns, the last for all."""
    lines = [(crate, 'none' if seconds is None else seconds, 'kept' if kept else 'proved', f'{sum(edits.values())} of {len(edits)}')
             for crate, seconds, kept, edits in table]
    edits = [refused for row in table for refused in row[3].values()]
    last = max((row[1] or 0 for row in table), default=0)
    return lines + [('all', last, f'{sum(not row[2] for row in table)} proved', f'{sum(edits)} of {len(edits)}')]


def page(table, log):
    lines = [
        '# What a check costs',
        '',
        'Written by `tools/budget.py target/gate.log --write` from the log of a gate (`.ci/run`). Seconds are those of',
        'one machine and differ on another. Crates are proved side by side, so a crate has the seconds that had gone by when',
        'it was done; kept is a crate that an earlier run on the same machine proved.',
        '',
        '| Crate | Done after | In this run | Edits refused |',
        '|---|---|---|---|',
        *('| ' + ' | '.join(map(str, row)) + ' |' for row in columns(table)),
        '',
        'The line `rt-ci` is all that `rt ci` does: proofs, edits and the runs of the programs.',
        '',
        '| Test | Seconds |',
        '|---|---|',
        *(f'| {name} | {seconds} |' for name, seconds in TEST.findall(log)),
    ]
    return '\n'.join(lines) + '\n\n' + by_landing()


def by_landing():
    """The section that is written by hand, a line for each landing."""
    text = PAGE.read_text() if PAGE.exists() else ''
    return text[text.index(KEPT):] if KEPT in text else KEPT


def main():
    log = pathlib.Path(sys.argv[1]).read_text(errors='replace')
    table = rows(log)
    print('budget: crate               done after  in this run  edits refused')
    for row in columns(table):
        print('budget: {:<18} {:>11} {:>12} {:>14}'.format(*row))
    wrong = [f'the log does not say that {crate} is done' for crate, seconds, _, _ in table if seconds is None]
    wrong += [f'the log does not say that {crate}/{edit} is refused'
              for crate, _, _, edits in table for edit, refused in edits.items() if not refused]
    for words in wrong:
        print(f'budget: {words}')
    if '--write' in sys.argv[2:]:
        PAGE.write_text(page(table, log))
    return 1 if wrong else 0


if __name__ == '__main__':
    sys.exit(main())
