#!/usr/bin/env python3
"""The example session: where it stops, what it says of it, how it cuts lines, and that its words are the frames.

cases.py PROGRAM FOLDER: PROGRAM is the session, FOLDER one for the second program's whole programs.
"""
import os
import pathlib
import re
import subprocess
import sys

ROOT = pathlib.Path(__file__).resolve().parent.parent.parent
sys.path.insert(0, str(ROOT / 'tests'))
import stream  # noqa: E402

PROGRAMS, SEED = 100, 274
RANGE = ('number 5: a value written, worked out or read from a parameter is beyond 99999.9999;'
         ' keep every value, and every step of an expression, from -99999.9999 to 99999.9999')
FORM = ('number 3: the line is of wrong form; look for a letter that begins no word, a bracket or comment left open,'
        ' a sign before a bracket or a parameter, or a line end handed over with the line')
LENGTH = 'number 2: the line has more than 256 bytes; write it as two lines'
DIVISOR = 'number 6: a divisor of / or MOD is zero; see that what stands after / or MOD cannot come to zero'
CODE = 'number 8: a G or M code is not served; use a code that this control serves'
CHANGE = 'change tool, spindle off\n'
Z = 'feed 10000000\nfeed to X0 Y0 Z-300000\nfeed to X5000000 Y0 Z-300000\n'


def broken_form(shown, place):
    """What is said of a wrong form: the line, and a caret under its place."""
    return f'{FORM}\n{shown}\n{" " * place}^'


# What is on standard input; what is written; the line that is refused, and how (or none).
CASES = [
    (b'', '', None, None),
    (b'\n\n', '', None, None),
    # a refusal in the middle: no rapid through the work follows it
    (b'F100 G1 Z-3\nG1 X50\nG0 Z100000\nG0 X0 Y0\n', Z, 3, RANGE),
    (b'F100 G1 Z-3\r\nG1 X50\r\nG0 Z100000\r\nG0 X0 Y0\r\n', Z, 3, RANGE),
    (b'G59.4\nM6\n', '', 1, CODE),
    (b'\n(a comment)\nM6\nG59.4\nM6', CHANGE, 4, CODE),
    # the values of a refused line are not kept, nor those of a line after it
    (b'#1=2 G99\n#1=3\nG0 X#1\n', '', 1, CODE),
    # a stop of the program is no end of the session
    (b'M2\nM30\nM6\n', 'stop M2, spindle and coolant off\nstop M30, spindle and coolant off\n' + CHANGE, None, None),
    # a skip needs the operator's switch
    (b'/M6\n', CHANGE, None, None),
    (b'\\M6\nM9\n', 'coolant off\n', None, None),
    # a condition skips or runs a line without it, or refuses it
    (b'/[0]M6\n\\[0.0001]M9\n/[#1]G59.4\n', 'coolant off\n', None, None),
    (b'#1=1\n/[#1]M6\n/[1]G59.4\n', CHANGE, 3, CODE),
    (b'M6\n/[0]X\n', CHANGE, 2, broken_form('/[0]X', 5)),
    (b'M6\n\\[1/0]\n', CHANGE, 2, DIVISOR),
    # one carriage return, and only before a line feed
    (b'M6\r\n', CHANGE, None, None),
    (b'M6\r\r\n', '', 1, broken_form('M6?', 2)),
    (b'M6\n\r', CHANGE, 2, broken_form('?', 0)),
    (b'M6\r', '', 1, broken_form('M6?', 2)),
    (b'\r\n\r\nM6', CHANGE, None, None),
    (b'M6\rM6\n', '', 1, broken_form('M6?M6', 2)),
    # a last line without a line feed
    (b'M6\nM9', CHANGE + 'coolant off\n', None, None),
    (b'M6\n ', CHANGE, None, None),
    (b'M6\nM', CHANGE, 2, broken_form('M', 1)),
    # long lines
    (b'M6'.ljust(256) + b'\n', CHANGE, None, None),
    (b'M6'.ljust(256) + b'\r\n', CHANGE, None, None),
    (b'M6'.ljust(256), CHANGE, None, None),
    (b'M6'.ljust(257) + b'\nM9\n', '', 1, LENGTH),
    (b'M6'.ljust(257) + b'\r\nM9\n', '', 1, LENGTH),
    (b'M6'.ljust(256) + b'\r\r\nM9\n', '', 1, LENGTH),
    (b'M6'.ljust(256) + b'\r', '', 1, LENGTH),
    (b'M9\n' + b'M6' * 100000 + b'\nM9\n', 'coolant off\n', 2, LENGTH),
    # bytes that no text has
    (b'M6\x00\nM9\n', '', 1, broken_form('M6?', 2)),
    (b'M6\xff\nM9\n', '', 1, broken_form('M6?', 2)),
    # a caret under the byte at which a form breaks, blanks and comments counted, or behind a line that ends too early
    (b'X Y1\n', '', 1, broken_form('X Y1', 2)),
    (b'N123456\n', '', 1, broken_form('N123456', 6)),
    (b'\tG1\t(a comment)\tX[1XY\n', '', 1, broken_form(' G1 (a comment) X[1XY', 20)),
    (b')\n', '', 1, broken_form(')', 0)),
    (b'X[1 + \r\n', '', 1, broken_form('X[1 + ', 6)),
    (b'M6' + b' ' * 253 + b'X', '', 1, broken_form('M6' + ' ' * 253 + 'X', 256)),
]


def run(program, data):
    """What the session writes, what it says on standard error, and its exit status."""
    done = subprocess.run([program], input=data, capture_output=True)
    return done.stdout.decode(), done.stderr.decode(), done.returncode


def broken(program):
    """What the session says of a program that cannot be read (a folder), and of one whose effects cannot be written."""
    folder = os.open(ROOT, os.O_RDONLY)
    unread = subprocess.run([program], stdin=folder, capture_output=True)
    os.close(folder)
    with open('/dev/full', 'wb') as full:
        unwritten = subprocess.run([program], input=b'\nM6\nM9\n', stdout=full, stderr=subprocess.PIPE)
    return [(done.stderr.decode(), done.returncode) for done in (unread, unwritten)]


def wanted(written, place, how):
    if place is None:
        return written, '', 0
    return written, f'session: line {place} is refused with {how}\n', 1


def frames(written, said):
    """The frames that stand for what a session has written and said."""
    fixed = {'change tool, spindle off': (4,), 'spindle off': (5, 0), 'spindle clockwise': (5, 1), 'spindle counterclockwise': (5, 2),
             'coolant off': (6, 0), 'coolant mist on': (6, 1), 'coolant flood on': (6, 2)}
    first = [('feed to', (9,)), ('feed', (1,)), ('speed', (2,)), ('select tool', (3,)), ('dwell', (7,)), ('rapid to', (8,)),
             ('arc clockwise to', (10, 2)), ('arc counterclockwise to', (10, 3)), ('stop', (11,))]
    planes = {'XY': 17, 'XZ': 18, 'YZ': 19}
    out = []
    for line in written.splitlines():
        if line in fixed:
            numbers = fixed[line]
        else:
            words, head = next((words, head) for words, head in first if line.startswith(words + ' '))
            fields = re.findall(r'([XYZM]?)(-?\d+)', line[len(words):])
            plane = (planes[fields[3][0] + fields[4][0]],) if head[0] == 10 else ()
            numbers = head + plane + tuple(int(number) for _, number in fields)
        out.append('%02X' % numbers[0] + ''.join('%010X' % (number % 2 ** 40) for number in numbers[1:]))
    refused = re.search(r'number (\d+)', said)
    return ''.join(frame + '\n' for frame in out + (['FF%010X' % int(refused[1])] if refused else []))


def main():
    program, folder = sys.argv[1:]
    wrong = 0
    for data, *rest in CASES:
        got, want = run(program, data), wanted(*rest)
        if got != want:
            wrong += 1
            print(f'session: for {data[:60]!r} {got!r} and not {want!r}')
    said = broken(program)
    if said != [('session: line 1 could not be read\n', 1), ('session: what line 2 does could not be written\n', 1)]:
        wrong += 1
        print(f'session: of a broken input and output {said!r}')
    cuts = list(stream.cases())
    for data in cuts:
        written, said, _ = run(program, data)
        if frames(written, said).encode() != stream.expected(data):
            wrong += 1
            print(f'session: lines are cut otherwise for {data[:40]!r}.. of {len(data)} bytes')
    second = ['sh', str(ROOT / 'tests/second.sh')]
    subprocess.run(second + ['programs', str(SEED), str(PROGRAMS), folder], check=True, stdout=subprocess.DEVNULL)
    programs = sorted(pathlib.Path(folder).glob('*.ngc'))
    for path in programs:
        data = path.read_bytes()
        written, said, _ = run(program, data)
        if frames(written, said).encode() != subprocess.run(second + ['frames'], input=data, capture_output=True).stdout:
            wrong += 1
            print(f'session: {path} comes to other frames')
    if len(programs) != PROGRAMS:
        wrong += 1
        print(f'session: {PROGRAMS} programs were wanted')
    print(f'session: {len(CASES)} cases, {len(cuts)} cuts, {len(programs)} programs, {wrong} wrong')
    return 1 if wrong else 0


sys.exit(main())
