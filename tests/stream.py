#!/usr/bin/env python3
"""The program cuts its input into lines, whatever pieces it arrives in.

Its lines here are M6 with blanks behind it, which writes 04, blank lines, which write nothing, lines of a
wrong form, and lines that are too long: what is compared is the cutting, and that a refusal ends the run.
"""
import pathlib
import random
import subprocess
import sys
import tempfile
import time

ROOT = pathlib.Path(__file__).resolve().parent.parent
PROGRAM = [str(ROOT / 'target/bin/rs274')]
RIGHT, WRONG = b'M6', b')'


def expected(data):
    """What document 01 says of the input, by a cutting of its own."""
    lines = data.split(b'\n')
    last = lines.pop()
    lines = [line[:-1] if line.endswith(b'\r') else line for line in lines] + ([last] if last else [])
    written = b''
    for line in lines:
        if len(line) > 256:
            return written + b'FF0000000002\n'
        if line.rstrip(b' ') == RIGHT:
            written += b'04\n'
        elif line.strip(b' '):
            return written + b'FF0000000003\n'
    return written


def run(pieces, wait):
    """What the program writes when its input arrives in these pieces."""
    with tempfile.TemporaryFile() as output:
        program = subprocess.Popen(PROGRAM, stdin=subprocess.PIPE, stdout=output, bufsize=0)
        try:
            for piece in pieces:
                program.stdin.write(piece)
                time.sleep(wait)
        except BrokenPipeError:  # it has refused a line
            pass
        program.stdin.close()
        program.wait()
        output.seek(0)
        return output.read()


def cases():
    """Ends of lines, lines about as long as the longest, and lines longer than what the program holds."""
    for end in (b'\n', b'\r\n', b'\r\r\n', b'\n\r\n', b'', b'\r', b'\n\n', b'\r\n\r'):
        yield RIGHT + b'\n' + RIGHT + end
        yield end + RIGHT
    for size in (255, 256, 257, 258, 259, 65535, 65536, 65537, 131072, 200000):
        for end in (b'', b'\n', b'\r\n', b'\r\r\n'):
            yield RIGHT.ljust(size) + end + RIGHT
            yield b'\n' * 7 + WRONG * size + end + RIGHT
    for lines in (21845, 21846, 60000):
        yield (RIGHT + b'\n') * lines + WRONG + b'\n' + RIGHT
    yield b'\n' * 65530 + RIGHT.ljust(256) + b'\r\n' + RIGHT
    yield b''


def answers_at_once():
    """Each line's frames are there before the next line is typed."""
    program = subprocess.Popen(PROGRAM, stdin=subprocess.PIPE, stdout=subprocess.PIPE, bufsize=0)
    ok = True
    for _ in range(3):
        program.stdin.write(RIGHT + b'\n')
        ok = ok and program.stdout.read(3) == b'04\n'
    program.stdin.write(WRONG + b'\n')
    return ok and program.stdout.read() == b'FF0000000003\n' and program.wait() is not None


def main():
    subprocess.run(['sh', ROOT / 'tools/build.sh', 'rs274'], stdin=subprocess.DEVNULL, check=True)
    chance = random.Random(274)
    wrong = tried = 0
    for data in cases():
        splits = [[data]]
        if len(data) < 20:
            splits.append([data[i:i + 1] for i in range(len(data))])
        elif len(data) < 300:
            splits.append([data[i:i + 37] for i in range(0, len(data), 37)])
        else:
            edges = sorted(chance.randrange(len(data)) for _ in range(5))
            splits.append([data[a:b] for a, b in zip([0] + edges, edges + [len(data)])])
        for pieces in splits:
            tried += 1
            if run(pieces, 0 if len(pieces) == 1 else 0.002) != expected(data):
                wrong += 1
                print(f'stream: wrong for {data[:40]!r}.. of {len(data)} bytes in {len(pieces)} pieces')
    if not answers_at_once():
        wrong += 1
        print('stream: a frame was not there before the next line')
    print(f'stream: {tried} inputs compared, {wrong} wrong')
    return 1 if wrong else 0


if __name__ == '__main__':
    sys.exit(main())
