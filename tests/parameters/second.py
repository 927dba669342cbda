"""A second reading of request 8, parameter files, made from its words alone: nothing of the proved code is in it.

Numbers are exact: a value is a fraction until it is known to be a whole number of units.
"""
import re
from fractions import Fraction

GROUPS = {33: (0, 10, 20, 30, 800), 34: (170, 180, 190), 35: (900, 910), 36: (200, 210),
          37: (540, 550, 560, 570, 580, 590, 591, 592, 593)}
SYSTEMS = GROUPS[37]
REACH = 1_000_000_000
LINE = re.compile(rb'([0-9]+)[ \t]+([+-]?(?:[0-9]+(?:\.[0-9]*)?|\.[0-9]+))')


def disordered(rec, table):
    """Number 1 of document 01, and numbers that no record can hold."""
    if len(rec) != 43 or len(table) != 5000:
        return True
    if any(abs(z) > REACH for z in rec[:33]):
        return True
    if any(rec[place] not in codes for place, codes in GROUPS.items()):
        return True
    limits = ((38, 253_999_999_746), (39, 999_999_999), (40, 99), (41, 2), (42, 3))
    return any(not 0 <= rec[place] <= most for place, most in limits)


def places():
    """number: (units in 1, what is allowed, where it stands)."""
    made = {n: (10_000, lambda z: abs(z) <= 999_999_999, ('table', n)) for n in range(1, 5000)}
    length = lambda z: abs(z) <= REACH
    for axis in range(3):
        made[5211 + axis] = (100_000, length, ('rec', 30 + axis))
        for system in range(9):
            made[5221 + 20 * system + axis] = (100_000, length, ('rec', 3 + 3 * system + axis))
    made[5220] = (1, lambda z: 1 <= z <= 9, ('system', 37))
    return made


PLACES = places()


def lines(text):
    """Lines as for frames: a line feed ends one, and one carriage return before it is dropped."""
    *ended, last = text.split(b'\n')
    return [line[:-1] if line.endswith(b'\r') else line for line in ended] + ([last] if last else [])


def read(text, rec, table):
    """(number, record, table) after reading."""
    if disordered(rec, table):
        return 1, rec, table
    found, before = {}, None
    for line in lines(text):
        form = LINE.fullmatch(line)
        if not form:
            return 20, rec, table
        number = int(form[1])
        if before is not None and number <= before:
            return 21, rec, table
        if not 1 <= number <= 5399:
            return 22, rec, table
        if number in PLACES:
            units, allowed, _ = PLACES[number]
            value = Fraction(exact(form[2].decode())) * units
            if value.denominator != 1 or not allowed(int(value)):
                return 23, rec, table
            found[number] = int(value)
        before = number
    rec, table = list(rec), list(table)
    for number, (_, _, (where, at)) in PLACES.items():
        if where == 'system':
            rec[at] = SYSTEMS[found.get(number, 1) - 1]
        else:
            (rec if where == 'rec' else table)[at] = found.get(number, 0)
    return 0, rec, table


def exact(word):
    """The word as Fraction takes it: a digit on both sides of a point."""
    sign = word[0] if word[0] in '+-' else ''
    whole, _, part = word[len(sign):].partition('.')
    return f'{sign}{whole or "0"}.{part or "0"}'


def shortest(value, units):
    """value / units in shortest decimals, a digit before any point."""
    text = f'{abs(value) // units}'
    part = f'{abs(value) % units:0{len(str(units)) - 1}d}'.rstrip('0') if units > 1 else ''
    return ('-' if value < 0 else '') + text + ('.' + part if part else '')


def file(rec, table):
    """The bytes of the file."""
    made = []
    for number in sorted(PLACES):
        units, _, (where, at) = PLACES[number]
        value = SYSTEMS.index(rec[at]) + 1 if where == 'system' else (rec if where == 'rec' else table)[at]
        if value != 0 or where == 'system':
            made.append(f'{number} {shortest(value, units)}\n')
    return ''.join(made).encode()


def write(rec, table, out):
    """(number, count, output) after writing."""
    if disordered(rec, table):
        return 1, 0, out
    if any(abs(z) > 999_999_999 for z in table[1:]):
        return 23, 0, out
    text = file(rec, table)
    if len(out) < len(text):
        return 24, 0, out
    return 0, len(text), text + out[len(text):]
