#!/usr/bin/env python3
"""The program when reading or writing fails, or when there is nothing to read yet.

Only a read of nothing is the end of the input. A read that fails ends the run and leaves the line that is
held unworked, since half a line can be another move; a write that fails ends it too; each with one line on
standard error. Where there is nothing to read yet, the program waits.
"""
import os
import pathlib
import socket
import struct
import subprocess
import sys
import tempfile
import time

ROOT = pathlib.Path(__file__).resolve().parent.parent
PROGRAM = [str(ROOT / 'target/bin/rs274')]
FAR = b'08' + b'0000989680' + b'0' * 20 + b'\n'  # G0 X100
NEAR = b'08' + b'00000186A0' + b'0' * 20 + b'\n'  # G0 X1
CHANGE = b'04\n'  # M6


def start(given, written):
    return subprocess.Popen(PROGRAM, stdin=given, stdout=written, stderr=subprocess.PIPE)


def end(program):
    """What the program says on standard error."""
    try:
        said = program.communicate(timeout=20)[1]
    except subprocess.TimeoutExpired:
        program.kill()
        program.communicate()
        return b'(the program did not end)'
    return said


def run(given, feed=None):
    """What the program writes, and what it says, for this standard input."""
    with tempfile.TemporaryFile() as written:
        program = start(given, written)
        if feed:
            feed()
        said = end(program)
        written.seek(0)
        return written.read(), said


def one_line(said, words):
    return said.startswith(words) and said.count(b'\n') == 1 and said.endswith(b'\n')


def directory():
    """A directory cannot be read: nothing is worked."""
    given = os.open('/', os.O_RDONLY)
    written, said = run(given)
    os.close(given)
    return written == b'' and one_line(said, b'rs274: cannot read: ')


def closed():
    """Neither can a standard input that is closed."""
    with tempfile.TemporaryFile() as written:
        program = subprocess.Popen(['sh', '-c', 'exec "$@" <&-', 'sh'] + PROGRAM, stdout=written, stderr=subprocess.PIPE)
        said = end(program)
        written.seek(0)
        return written.read() == b'' and one_line(said, b'rs274: cannot read: ')


def waiting():
    """A pipe that does not block, with nothing in it at first, and then a line in two pieces."""
    given, feeding = os.pipe()
    os.set_blocking(given, False)

    def feed():
        for piece in (b'', b'G0 X1', b'00\nM', b'6\n', b'G0 X1'):
            time.sleep(0.1)
            os.write(feeding, piece)
        time.sleep(0.1)
        os.close(feeding)

    written, said = run(given, feed)
    os.close(given)
    return written == FAR + CHANGE + NEAR and said == b''


def reset():
    """A connection that is reset in the middle of a line: G0 X1 of G0 X100 is no move."""
    server = socket.create_server(('127.0.0.1', 0))
    client = socket.create_connection(server.getsockname())
    given = server.accept()[0]
    server.close()

    def feed():
        client.sendall(b'M6\nG0 X1')
        time.sleep(0.3)
        client.setsockopt(socket.SOL_SOCKET, socket.SO_LINGER, struct.pack('ii', 1, 0))
        client.close()

    written, said = run(given, feed)
    given.close()
    return written == CHANGE and one_line(said, b'rs274: cannot read: ')


def full():
    """Output to a device that is full."""
    with tempfile.TemporaryFile() as given, open('/dev/full', 'wb') as written:
        given.write(b'M6\nM6\n')
        given.seek(0)
        return one_line(end(start(given, written)), b'rs274: cannot write: ')


def nobody_reads():
    """Output to a pipe that nobody reads: no frame goes anywhere, and the program ends."""
    with tempfile.TemporaryFile() as given:
        given.write(b'M6\n' * 100000)
        given.seek(0)
        reading, writing = os.pipe()
        program = start(given, writing)
        os.close(reading)
        os.close(writing)
        said = end(program)
        # The system ends the program by a signal, or the write fails.
        return program.returncode != 0 and said == b'' or one_line(said, b'rs274: cannot write: ')


def main():
    subprocess.run(['sh', ROOT / 'tools/build.sh', 'rs274'], stdin=subprocess.DEVNULL, check=True)
    wrong = [test.__doc__ for test in (directory, closed, waiting, reset, full, nobody_reads) if not test()]
    for doc in wrong:
        print(f'descriptors: wrong: {doc}')
    print(f'descriptors: 6 tried, {len(wrong)} wrong')
    return 1 if wrong else 0


if __name__ == '__main__':
    sys.exit(main())
