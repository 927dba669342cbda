#!/usr/bin/env python3
"""docs/CODES.md from the rules' lists: every code, its modal group, what it excludes, needs and leaves idle.

    tools/codes.py            writes docs/CODES.md
    tools/codes.py --check    ends with 1 where docs/CODES.md is not what the lists say

The groups are read from the lists of crates/rules/specs/Codes.antt, to which crate codes is proved equal; the table
of G codes in crates/codes is compared with its list. What a code does is told here; a code without a line below, or a
line without its code, is an error.
"""
import pathlib
import re
import sys

ROOT = pathlib.Path(__file__).resolve().parent.parent
PAGE = ROOT / 'docs/CODES.md'
NOT_SERVED = 255

AXIS = 'an axis word'
MOVING = 'G10, G92'
CLAIMING = 'G0, G1, G2, G3'
DOES = {
    'G0': ('rapid move', AXIS, '', MOVING),
    'G1': ('feed move', AXIS + ', and a feed above 0', '', MOVING),
    'G2': ('arc, clockwise', 'an axis word and an offset word of the plane, and a feed above 0', 'I, J or K off the plane', MOVING),
    'G3': ('arc, counterclockwise', 'an axis word and an offset word of the plane, and a feed above 0', 'I, J or K off the plane', MOVING),
    'G4': ('dwell', 'P, not below 0', '', ''),
    'G10': ('sets named axes of an origin', 'L2 and P, whole 1 to 9', 'I, J, K', CLAIMING),
    'G17': ('plane X Y', '', '', ''),
    'G18': ('plane X Z', '', '', ''),
    'G19': ('plane Y Z', '', '', ''),
    'G20': ('inches', '', '', ''),
    'G21': ('millimetres', '', '', ''),
    'G40': ('nothing further', '', '', ''),
    'G49': ('nothing further', '', '', ''),
    'G53': ('the move in machine counts, origins and offset left out', AXIS + ', and motion G0 or G1', '', ''),
    'G80': ('no motion mode', '', '', ''),
    'G90': ('absolute distances', '', '', ''),
    'G91': ('relative distances', '', '', ''),
    'G92': ('sets the G92 offset of named axes', AXIS, 'I, J, K', CLAIMING),
    'G92.1': ('zeroes the G92 offset', '', '', ''),
    'G94': ('nothing further', '', '', ''),
    'M0': ('stop', '', '', ''),
    'M1': ('optional stop', '', '', ''),
    'M2': ('end: G54, G17, G90, G1, spindle, coolant and offset reset', '', '', ''),
    'M30': ('end: G54, G17, G90, G1, spindle, coolant and offset reset', '', '', ''),
    'M3': ('spindle clockwise', '', '', ''),
    'M4': ('spindle counterclockwise', '', '', ''),
    'M5': ('spindle off', '', '', ''),
    'M6': ('tool change; the spindle is off', '', '', ''),
    'M7': ('mist on', '', '', ''),
    'M8': ('flood on', '', '', ''),
    'M9': ('coolant off', '', '', ''),
}
SYSTEMS = ['G54', 'G55', 'G56', 'G57', 'G58', 'G59', 'G59.1', 'G59.2', 'G59.3']
DOES.update({code: (f'work system {n}', '', '', '') for n, code in enumerate(SYSTEMS, 1)})


def listed(name):
    """Each code that one of the rules' lists of groups holds, with its group."""
    text = (ROOT / 'crates/rules/specs/Codes.antt').read_text()
    systems = re.search(r'^systems = (.*)$', text, re.M).group(1)
    body = re.search(r'^%s =\n(.*?)\n\n' % name, text, re.S | re.M).group(1).replace('systems', systems)
    codes = {}
    for group, members in re.findall(r'\((\d+) holds (.*)\)', body):
        codes.update({int(code): int(group) for code in re.findall(r'\d+', members)})
    return codes


def table(name, length):
    """The entries of the constant array in one of the source files of crate codes."""
    text = (ROOT / 'crates/codes/src' / name).read_text()
    body = re.search(r'static GROUPS: \[u8; %d\] = \[(.*?)\];' % length, text, re.S).group(1)
    entries = [int(n) for n in re.findall(r'\d+', re.sub(r'//[^\n]*', '', body))]
    if len(entries) != length:
        sys.exit(f'{name}: {len(entries)} entries, not {length}')
    return entries


def served():
    """Every served code by its name, with its group, in rising order."""
    tenths = listed('g_groups')
    if {code: group for code, group in enumerate(table('g_table.rt', 1000)) if group != NOT_SERVED} != tenths:
        sys.exit("g_table.rt is not what the rules' list of G groups says")
    codes = {f'G{code // 10}' + (f'.{code % 10}' if code % 10 else ''): tenths[code] for code in sorted(tenths)}
    whole = listed('m_groups')
    codes.update({f'M{code}': whole[code] for code in sorted(whole)})
    return codes


def row(code, codes):
    does, needs, idle, beside = DOES[code]
    others = [c for c in codes if c[0] == code[0] and codes[c] == codes[code] and c != code]
    excluded = ', '.join(others + [beside] if beside else others)
    return f'| {code} | {codes[code]} | {does} | {excluded} | {needs} | {idle} |'


def page():
    codes = served()
    unknown = sorted(set(codes) ^ set(DOES))
    if unknown:
        sys.exit('served and not described, or described and not served: ' + ', '.join(unknown))
    lines = [
        '# Codes',
        '',
        'Written by `tools/codes.py` from the lists in crates/rules/specs/Codes.antt; the gate compares. A code excludes itself a',
        'second time and the other codes of its modal group on the same line (number 9). A needed word that is',
        'missing, or an idle word, is number 10; a wrong value of a needed word is 11, a wrong mode 12. Beside no code:',
        'P is idle without G4 or G10, L without G10, and I, J, K without an arc move.',
        '',
        '| Code | Group | Does | Excludes | Needs | Idle beside it |',
        '|---|---|---|---|---|---|',
    ]
    return '\n'.join(lines + [row(code, codes) for code in codes]) + '\n'


def main():
    text = page()
    if sys.argv[1:] == ['--check']:
        if PAGE.read_text() != text:
            print('docs/CODES.md is not what the lists say: run tools/codes.py')
            return 1
        return 0
    PAGE.write_text(text)
    return 0


if __name__ == '__main__':
    sys.exit(main())
