#!/usr/bin/env python3
"""The frames that crates/cases/stdout expects are those of the second program.

The second program stops at a refusal. So each line is given to it behind the accepted lines before it, back
to the last line %, and what it writes more is that line's.
A run that compares fewer lines than the file has, or hardly any, fails.

cases.py --list: nothing is compared; each line is shown with its frames, and a line of wrong form with a caret
under the place where it breaks.
"""
import pathlib
import subprocess
import sys

ROOT = pathlib.Path(__file__).resolve().parent.parent
CASES = ROOT / 'crates/cases'
LEAST = 100
WRONG_FORM = b'FF0000000003\n'


def second(word, data):
    """What the second program writes for this."""
    program = [ROOT / 'target/second/second', word]
    return subprocess.run(program, input=data, stdout=subprocess.PIPE, check=True).stdout


def expected(lines):
    """What each line writes, together with the line."""
    accepted, before = [], b''
    for line in lines:
        if line == b'%\n':
            accepted, before = [], b''
            continue
        written = second('frames', b''.join(accepted + [line]))
        own = written[len(before):]
        yield line, own
        if not own.startswith(b'FF'):
            accepted, before = accepted + [line], written


def caret(line):
    """The line below a line of wrong form, which points to the place where it breaks."""
    number, place = second('forms', line).split()
    assert number == b'3', f'{line!r} is of right form'
    return ' ' * int(place) + '^'


def show(lines):
    """Each line, a caret under the place where a wrong form breaks, and its frames, further to the right."""
    for line, own in expected(lines):
        # Each byte is shown as one character, so that a caret stands under its own.
        print(''.join(chr(byte) if 32 <= byte < 127 else ' ' if byte == 9 else '?' for byte in line[:-1]))
        if own == WRONG_FORM:
            print(caret(line.removesuffix(b'\n').removesuffix(b'\r')))
        for frame in own.decode().splitlines():
            print(f'        {frame}')


def compare(lines):
    rest, many = (CASES / 'stdout').read_bytes(), 0
    for line, own in expected(lines):
        if not rest.startswith(own):
            print(f'cases: for {line!r} the second program writes {own!r}')
            return 1
        rest, many = rest[len(own):], many + 1
    if rest:
        print(f'cases: the second program does not write {rest!r}')
        return 1
    wanted = sum(line != b'%\n' for line in lines)
    print(f'cases: {many} of {wanted} lines compared, none differs')
    return 0 if many == wanted and many >= LEAST else 1


def main():
    subprocess.run(['sh', ROOT / 'tests/second.sh', 'frames'], stdin=subprocess.DEVNULL, check=True)  # builds it
    lines = [line + b'\n' for line in (CASES / 'stdin').read_bytes().split(b'\n')[:-1]]
    return show(lines) if sys.argv[1:] == ['--list'] else compare(lines)


sys.exit(main())
