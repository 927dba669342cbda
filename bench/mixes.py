#!/usr/bin/env python3
"""mixes.py MIX LINES: a program of so many lines that is accepted to its end, the same at every call.

program      what program.py writes: a mould maker's file with a little of everything
cam          N, G1, X Y Z and sometimes F on every line; 15 in 100 are half circles
axis         axis words alone, without blanks: the finishing pass of a surface
expressions  settings and words with expressions, functions and parameters
comments     half the lines a comment alone, the others a move with one"""
import random
import sys

import program

START = ['G21 G90 G17 G54', 'F1200 S8000 M3', 'G1 X0 Y0 Z5']
EDGE = 900000  # thousandths; well within the reach of positions
WORDS = 'contour pocket roughing pass finish tool endmill d6 corner lead-in adaptive operation depth stepover'.split()


def step(dice, place):
    return min(max(place + dice.randint(-900, 900), -EDGE), EDGE)


def cam(dice, count):
    x = y = 0
    for number in range(count):
        name = f'N{(number + 1) * 10 % 99990}'
        if dice.random() < 0.15:
            radius = dice.randint(100, 900)
            if x + 2 * radius > EDGE:
                radius = -radius
            x += 2 * radius
            yield f'{name} G{dice.choice("23")} X{x / 1000:.3f} Y{y / 1000:.3f} I{radius / 1000:.3f} J0.'
            continue
        x, y = step(dice, x), step(dice, y)
        feed = f' F{dice.randint(300, 2400)}' if dice.random() < 0.5 else ''
        yield f'{name} G1 X{x / 1000:.3f} Y{y / 1000:.3f} Z{-dice.randint(0, 9999) / 1000:.3f}{feed}'


def axis(dice, count):
    x = y = 0
    for _ in range(count):
        x, y = step(dice, x), step(dice, y)
        yield f'X{x / 1000:.3f}Y{y / 1000:.3f}Z{-dice.randint(0, 9999) / 1000:.3f}'


def expressions(dice, count):
    for _ in range(count):
        kind = dice.random()
        a, b, c = dice.randint(1, 99), dice.randint(1, 99), dice.randint(1, 9)
        one, other = dice.randint(1, 400), dice.randint(1, 400)
        if kind < 0.35:
            yield f'#{one}=[{a}.25*{c} + FIX[{b}.75/{c}] - [{b}.5 MOD {c}]]'
        elif kind < 0.7:
            yield f'G1 X[#{one} + {a}.5*{c}] Y[ABS[#{other} - {b}] / {c}.] Z[ROUND[{b}.123*{c}]]'
        else:
            yield f'X[[{a}+{b}]*[{c}-{a}.5]/10] Y#{one} Z[0-{c}]'


def comments(dice, count):
    for _ in range(count):
        comment = '(' + ' '.join(dice.choice(WORDS) for _ in range(dice.randint(3, 10))) + ')'
        if dice.random() < 0.5:
            yield comment
        else:
            yield f'G1 X{dice.randint(-9999, 9999) / 1000:.3f} Y{dice.randint(-9999, 9999) / 1000:.3f} {comment}'


OTHERS = {'cam': cam, 'axis': axis, 'expressions': expressions, 'comments': comments}
MIXES = ['program', *OTHERS]


def lines(mix, count):
    if mix == 'program':
        yield from program.lines(count)
        return
    yield from START
    yield from OTHERS[mix](random.Random(274), count - len(START) - 1)
    yield 'M2'


def main():
    if len(sys.argv) != 3 or sys.argv[1] not in MIXES:
        sys.exit(__doc__)
    sys.stdout.writelines(f'{line}\n' for line in lines(sys.argv[1], int(sys.argv[2])))


if __name__ == '__main__':
    main()
