#!/usr/bin/env python3
"""program.py [LINES]: a program of so many lines (100,000 unless told otherwise) that is accepted to its end:
feed moves of a surface in small steps, rapids, arcs, settings and expressions, as mould makers' files have."""
import sys


def lines(count):
    yield 'G21 G90 G17 G54'
    yield 'F1200 S8000 M3'
    yield 'N10 G1 X0 Y0 Z5 (start)'
    x, y = 0, 0  # thousandths, where the line before has gone
    for n in range(3, count - 1):
        kind, z = n % 20, -(n * n % 331) / 100
        if kind == 11:
            yield f'#{100 + n % 50}=[{n % 800}.25*2 + #1/4] (offset)'
            continue
        if kind == 7:  # half a circle of one unit, from where the tool is
            x += 1000
            yield f'G2 X{x / 1000:.3f} Y{y / 1000:.3f} I0.5 J0'
            continue
        x, y = (n % 997) * 125, n // 997 * 250
        if kind == 13:
            yield f'g0 x[{x / 1000:.3f} + 0.0] y{y / 1000:.3f} z5.'
        elif kind == 8:
            yield f'N{n % 100000} G1 X{x / 1000:.3f} Y{y / 1000:.3f} Z{z:.4f} F{300 + n % 90}'
        else:
            yield f'G1 X{x / 1000:.3f} Y{y / 1000:.3f} Z{z:.3f}'
    yield 'M2'


def main():
    for line in lines(int(sys.argv[1]) if len(sys.argv) > 1 else 100000):
        print(line)


if __name__ == '__main__':
    main()
