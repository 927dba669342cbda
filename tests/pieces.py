#!/usr/bin/env python3
"""The program's frames are those of the second program, whatever pieces its input arrives in.

Unlike tests/stream.py, which is about the cutting of lines, the programs here carry the record and the table from
line to line: a line that is worked twice, left out, or worked from an older record changes every frame after it.

    tests/pieces.py [SEED]
"""
import fcntl
import os
import pathlib
import random
import select
import struct
import subprocess
import sys
import tempfile
import termios
import time

ROOT = pathlib.Path(__file__).resolve().parent.parent
PROGRAM = [str(ROOT / 'target/bin/rs274')]
SECOND = ROOT / 'target/second/second'
PATIENCE = 20  # seconds that a frame may take before it is missing

# Every frame of these lines hangs on the lines before: parameters, modes, origins, offset, position.
CHAIN = (
    '#1=[[#1*7+#4] MOD 1009] #4=[#4+1]',
    'G[20+#1 MOD 2] G[90+#1 MOD 3 MOD 2]',
    'F[#1+1] S#1 T[#1 MOD 100]',
    'G1 X[[#1-504]/1000] Y[[#2-504]/1000]',
    '#2=#1 #1=#3 #3=#2',
    'G[54+#1 MOD 6] M[3+#2 MOD 3] M[7+#1 MOD 3]',
    'G10 L2 P[1+#1 MOD 9] X[#1/50] Z[#2/70]',
    'X[[504-#1]/1000] Z[[#3-504]/1000]',
    '#[10+#1 MOD 50]=[#[10+#2 MOD 50]+#1 MOD 13]',
    'G0 Y[#[10+#3 MOD 50]/100]',
    'G92 X[#1/100] Y0',
    'G17 G91 F[#1+2] G2 X0 Y0 I[[#1+1]/1000]',
    'G90 G0 G53 X0 Y[#2/100] Z0',
    'G92.1',
    'G4 P[#4+#1/1000]',
)


def second(words, data=b''):
    return subprocess.run([SECOND, *words], input=data, stdout=subprocess.PIPE, check=True).stdout


def chain(size):
    """A program of at least so many bytes in which each frame hangs on the lines before."""
    written, turn = [], 0
    while size > 0:
        line = CHAIN[turn % len(CHAIN)].encode() + b'\n'
        written.append(line)
        size, turn = size - len(line), turn + 1
    return b''.join(written)


def drained(pipe):
    """Waits until the program has taken what stands in the pipe; false if it takes nothing more."""
    end = time.monotonic() + PATIENCE
    while time.monotonic() < end:
        try:
            if struct.unpack('i', fcntl.ioctl(pipe, termios.FIONREAD, b'\0' * 4))[0] == 0:
                return True
        except OSError:
            return False
        if select.select([], [pipe], [], 0)[1] and select.select([pipe], [], [], 0)[0]:
            return False
        os.sched_yield()
    return False


def in_pieces(pieces):
    """What the program writes when each piece is there only after it has taken the one before."""
    with tempfile.TemporaryFile() as output:
        program = subprocess.Popen(PROGRAM, stdin=subprocess.PIPE, stdout=output, bufsize=0)
        try:
            for piece in pieces:
                rest = memoryview(piece)
                while rest:
                    rest = rest[program.stdin.write(rest):]
                if program.poll() is not None or not drained(program.stdin):
                    break
        except BrokenPipeError:  # it has refused a line
            pass
        program.stdin.close()
        program.wait(PATIENCE)
        output.seek(0)
        return output.read()


def from_file(data):
    """What the program writes when its input is a file."""
    with tempfile.TemporaryFile() as source:
        source.write(data)
        source.seek(0)
        return subprocess.run(PROGRAM, stdin=source, stdout=subprocess.PIPE, check=False).stdout


def frames_of(program, length):
    """So many bytes of what the program writes, or fewer if no more come."""
    got, end = b'', time.monotonic() + PATIENCE
    while len(got) < length and time.monotonic() < end:
        if select.select([program.stdout], [], [], 0.1)[0]:
            more = program.stdout.read(length - len(got))
            if not more:
                break
            got += more
    return got


def line_by_line(data):
    """The first line, if there is one, whose frames are not there before the next line is typed."""
    wanted = second(['frames', '--each'], data).split(b'.\n')[:-1]
    program = subprocess.Popen(PROGRAM, stdin=subprocess.PIPE, stdout=subprocess.PIPE, bufsize=0)
    try:
        lines = data.split(b'\n')
        for number, (line, frames) in enumerate(zip(lines, wanted), 1):
            program.stdin.write(line + b'\n' * (number < len(lines)))
            if number == len(lines):  # the end of the input ends it
                program.stdin.close()
            elif not frames:
                drained(program.stdin)
            if frames_of(program, len(frames)) != frames:
                return f'line {number}, {line!r}, is not answered by {frames!r}'
        program.stdin.close()
        rest = frames_of(program, 1)
        return f'{rest!r}.. is written after the last line' if rest else ''
    finally:
        program.kill()
        program.wait()


def cut(data, size):
    return [data[i:i + size] for i in range(0, len(data), size)]


def at_random(data, chance):
    edges = sorted(chance.randrange(len(data) + 1) for _ in range(60))
    return [data[a:b] for a, b in zip([0] + edges, edges + [len(data)])]


class Report:
    """What was compared, and what differed."""

    def __init__(self):
        self.compared = self.wrong = self.frames = 0

    def hold(self, name, got, wanted):
        self.compared += 1
        self.frames += wanted.count(b'\n')
        if got != wanted:
            self.wrong += 1
            place = len(os.path.commonprefix([got, wanted]))
            print(f'pieces: {name}: differs from byte {place}: {got[place:place + 40]!r}, not {wanted[place:place + 40]!r}')


def small_programs(seed, folder):
    """Programs to be given byte by byte and line by line: examples, the chain, and generated ones."""
    second(['examples', '--programs', folder / 'examples'])
    second(['programs', seed, '8', folder / 'generated'])
    for path in sorted((folder / 'examples').glob('*.ngc')):
        data = path.read_bytes()
        assert second(['frames'], data) == path.with_suffix('.frames').read_bytes(), path.name
        yield f'example {path.stem}', data
    yield 'chain', chain(5000)
    yield 'chain and a refusal', chain(3000) + b'G59.4\n' + chain(300)
    for path in sorted((folder / 'generated').glob('*.ngc')):
        yield f'generated {path.stem} of seed {seed}', path.read_bytes()[:3000]


def main():
    subprocess.run(['sh', ROOT / 'tools/build.sh', 'rs274'], stdin=subprocess.DEVNULL, check=True)
    seed = sys.argv[1] if len(sys.argv) > 1 else '11'
    report, chance = Report(), random.Random(int(seed))
    subprocess.run(['sh', ROOT / 'tests/second.sh', 'frames'], stdin=subprocess.DEVNULL, check=True)  # builds it
    with tempfile.TemporaryDirectory() as folder:
        for name, data in small_programs(seed, pathlib.Path(folder)):
            wanted = second(['frames'], data)
            report.hold(f'{name}, whole', from_file(data), wanted)
            report.hold(f'{name}, byte by byte', in_pieces(cut(data, 1)), wanted)
            report.hold(f'{name}, line by line', line_by_line(data).encode(), b'')
    for size in (65_537, 200_000, 1_000_001):
        for name, data in (('chain', chain(size)), ('generated', second(['long', seed, str(size)]))):
            wanted = second(['frames'], data)
            assert wanted.count(b'\n') > size // 120 and b'\nFF' not in wanted, 'a long program must not be refused'
            name = f'{name} of {len(data)} bytes'
            report.hold(f'{name}, from a file', from_file(data), wanted)
            for piece in (4_096, 65_535, 65_536, 65_537):
                report.hold(f'{name}, by {piece} bytes', in_pieces(cut(data, piece)), wanted)
            report.hold(f'{name}, at random', in_pieces(at_random(data, chance)), wanted)
    print(f'pieces: {report.compared} runs and {report.frames} frames compared, {report.wrong} wrong (seed {seed})')
    return 0 if report.wrong == 0 and report.compared >= 100 and report.frames >= 100_000 else 1


if __name__ == '__main__':
    sys.exit(main())
